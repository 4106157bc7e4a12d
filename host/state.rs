//! The 25 state words that the library hands over, written from the second
//! model's device and read back into one. Nothing of the library is used, so
//! any state can be built, also one that no list of steps reaches. The erase counts
//! lie beside the words.
//!
//! | words    | what they hold                                              |
//! |----------|-------------------------------------------------------------|
//! | 0        | part                                                        |
//! | 1, 2     | modes of banks 0 to 7 and 8 to 15, a byte each, the lowest  |
//! |          | bank lowest: array, status, signature, query                |
//! | 3, 4     | set-up: none, program, erase, lock; 4, block (the count is  |
//! |          | due); 5, block, number of words (the first of them is due); |
//! |          | 6, start, number of words, data cycles due (0: D0h is due)  |
//! | 5, 6     | running: 0; 1, location, data; 2, block, words done; 3,     |
//! |          | start, number of words, words done                          |
//! | 7, 8     | suspended program: 0; 1, location, data; 2, start, number   |
//! |          | of words, words done                                        |
//! | 9, 10    | suspended erase: 0; 1, block, words done                    |
//! | 11       | SR5, SR4, SR3, SR1, a byte each from the lowest; from bit   |
//! |          | 32 the configuration register, whose bits 14, 5 and 4 are 0 |
//! |          | where the device is well formed; from bit 48 the supply, on |
//! |          | where it is well formed and something runs                  |
//! | 12 to 16 | bit b % 64 of word b / 64 is 1 where block b is unprotected |
//! | 17 to 24 | word i of the buffer from bit 16 (i % 4) of word 17 + i / 4 |
//!
//! Of words 3 to 10, two hold four numbers: the first in the lower half of the
//! first word, the second in its upper half, the others so in the second word.
//! Unused numbers are 0.

#![allow(dead_code)] // a program that takes this module in need not use all of it

use crate::library::STATE_WORDS;
use crate::second::model::{
    Device, Erase, EraseCounts, Flags, Mode, Operation, Part, Program, Setup, BANKS, BLOCKS,
    BUFFER_WORDS,
};

pub type Words = [u64; STATE_WORDS];

const MODES: usize = 1;
const CONTROL: usize = 11;
const PROTECTION: usize = 12;
const BUFFER: usize = 17;

/// The first of the two words of four numbers.
pub const SETUP: usize = 3;
pub const RUNNING: usize = 5;
pub const SUSPENDED_PROGRAM: usize = 7;
pub const SUSPENDED_ERASE: usize = 9;
pub const FOURS: [usize; 4] = [SETUP, RUNNING, SUSPENDED_PROGRAM, SUSPENDED_ERASE];

/// A number of the state: so many bits of a word, from a lowest one up.
#[derive(Clone, Copy)]
pub struct Field {
    pub word: usize,
    pub low: u32,
    pub bits: u32,
}

pub const PART: Field = field(0, 0, 64);
pub const CONFIGURATION: Field = field(CONTROL, 32, 16);
pub const SUPPLY: Field = field(CONTROL, 48, 16);

const fn field(word: usize, low: u32, bits: u32) -> Field {
    Field { word, low, bits }
}

pub fn mode(bank: usize) -> Field {
    field(MODES + bank / 8, 8 * (bank as u32 % 8), 8)
}

/// One of the four numbers of two words, the kind first.
pub fn number(four: usize, place: usize) -> Field {
    field(four + place / 2, 32 * (place as u32 % 2), 32)
}

/// SR5, SR4, SR3, SR1.
pub fn flag(place: usize) -> Field {
    field(CONTROL, 8 * place as u32, 8)
}

/// The bits of 64 blocks.
pub fn protection(place: usize) -> Field {
    field(PROTECTION + place, 0, 64)
}

pub fn buffer_word(place: usize) -> Field {
    field(BUFFER + place / 4, 16 * (place as u32 % 4), 16)
}

/// Every number of the state: together they are all bits of its words.
pub fn fields() -> Vec<Field> {
    let mut fields = vec![PART];
    fields.extend((0..BANKS).map(mode));
    for four in FOURS {
        fields.extend((0..4).map(|place| number(four, place)));
    }
    fields.extend((0..4).map(flag));
    fields.extend([CONFIGURATION, SUPPLY]);
    fields.extend((0..BUFFER - PROTECTION).map(protection));
    fields.extend((0..BUFFER_WORDS).map(buffer_word));
    fields
}

impl Field {
    pub fn greatest(self) -> u64 {
        u64::MAX >> (64 - self.bits)
    }

    pub fn of(self, words: &Words) -> u64 {
        words[self.word] >> self.low & self.greatest()
    }

    /// What the field does not hold of the value is dropped.
    pub fn put(self, words: &mut Words, value: u64) {
        words[self.word] &= !(self.greatest() << self.low);
        words[self.word] |= (value & self.greatest()) << self.low;
    }
}

pub fn encode(device: &Device) -> Words {
    let mut words = [0; STATE_WORDS];
    PART.put(&mut words, u64::from(device.part.number()));
    for (bank, is) in device.modes.into_iter().enumerate() {
        let number = match is {
            Mode::Array => 0,
            Mode::Status => 1,
            Mode::Signature => 2,
            Mode::Query => 3,
        };
        mode(bank).put(&mut words, number);
    }
    put(&mut words, SETUP, setup_words(device.setup));
    match device.running {
        None => {}
        Some(Operation::Program(program)) => put(&mut words, RUNNING, program_words(3, program)),
        Some(Operation::Erase(erase)) => put(&mut words, RUNNING, [2, erase.block, erase.done, 0]),
    }
    if let Some(program) = device.suspended_program {
        put(&mut words, SUSPENDED_PROGRAM, program_words(2, program));
    }
    if let Some(erase) = device.suspended_erase {
        put(&mut words, SUSPENDED_ERASE, [1, erase.block, erase.done, 0]);
    }
    let Flags { sr5, sr4, sr3, sr1 } = device.flags;
    for (place, is) in [sr5, sr4, sr3, sr1].into_iter().enumerate() {
        flag(place).put(&mut words, u64::from(is));
    }
    CONFIGURATION.put(&mut words, u64::from(device.configuration));
    SUPPLY.put(&mut words, u64::from(device.supply));
    for (block, &unprotected) in device.unprotected.iter().enumerate() {
        words[PROTECTION + block / 64] |= u64::from(unprotected) << (block % 64);
    }
    for (place, &word) in device.buffer.iter().enumerate() {
        buffer_word(place).put(&mut words, u64::from(word));
    }
    words
}

fn put(words: &mut Words, four: usize, values: [u32; 4]) {
    for (place, value) in values.into_iter().enumerate() {
        number(four, place).put(words, u64::from(value));
    }
}

fn setup_words(setup: Option<Setup>) -> [u32; 4] {
    match setup {
        None => [0; 4],
        Some(Setup::Program) => [1, 0, 0, 0],
        Some(Setup::Erase) => [2, 0, 0, 0],
        Some(Setup::Lock) => [3, 0, 0, 0],
        Some(Setup::LoadCount { block }) => [4, block, 0, 0],
        Some(Setup::LoadFirst { block, words }) => [5, block, words, 0],
        Some(Setup::LoadNext { start, words, due }) => [6, start, words, due],
    }
}

/// A program; a buffer program's number is not the same where it runs and where
/// it is suspended.
fn program_words(buffer: u32, program: Program) -> [u32; 4] {
    match program {
        Program::Word { location, data } => [1, location, u32::from(data), 0],
        Program::Buffer { start, words, done } => [buffer, start, words, done],
    }
}

/// The device of some state words with its erase counts, well formed or not; none
/// where the words are those of no device at all: another count than 25, a number that
/// stands for nothing or is too great, or an unused number that is not 0.
pub fn decode(words: &[u64], counts: &EraseCounts) -> Option<Device> {
    let words: &Words = words.try_into().ok()?;
    let is = |place: usize| on(flag(place).of(words));
    Some(Device {
        part: Part::from_number(u32::try_from(PART.of(words)).ok()?)?,
        modes: modes(words)?,
        setup: setup(four(words, SETUP))?,
        running: match four(words, RUNNING) {
            [0, 0, 0, 0] => None,
            [2, block, done, 0] => Some(Operation::Erase(Erase { block, done })),
            numbers => Some(Operation::Program(program(3, numbers)?)),
        },
        suspended_program: match four(words, SUSPENDED_PROGRAM) {
            [0, 0, 0, 0] => None,
            numbers => Some(program(2, numbers)?),
        },
        suspended_erase: match four(words, SUSPENDED_ERASE) {
            [0, 0, 0, 0] => None,
            [1, block, done, 0] => Some(Erase { block, done }),
            _ => return None,
        },
        flags: Flags {
            sr5: is(0)?,
            sr4: is(1)?,
            sr3: is(2)?,
            sr1: is(3)?,
        },
        unprotected: unprotected(&words[PROTECTION..BUFFER])?,
        configuration: CONFIGURATION.of(words) as u16,
        supply: on(SUPPLY.of(words))?,
        buffer: buffer(words),
        counts: *counts,
    })
}

fn modes(words: &Words) -> Option<[Mode; BANKS]> {
    let mut modes = [Mode::Array; BANKS];
    for (bank, is) in modes.iter_mut().enumerate() {
        *is = match mode(bank).of(words) {
            0 => Mode::Array,
            1 => Mode::Status,
            2 => Mode::Signature,
            3 => Mode::Query,
            _ => return None,
        };
    }
    Some(modes)
}

fn four(words: &Words, four: usize) -> [u32; 4] {
    [0, 1, 2, 3].map(|place| number(four, place).of(words) as u32)
}

/// None where the numbers are those of no set-up.
fn setup(numbers: [u32; 4]) -> Option<Option<Setup>> {
    Some(match numbers {
        [0, 0, 0, 0] => None,
        [1, 0, 0, 0] => Some(Setup::Program),
        [2, 0, 0, 0] => Some(Setup::Erase),
        [3, 0, 0, 0] => Some(Setup::Lock),
        [4, block, 0, 0] => Some(Setup::LoadCount { block }),
        [5, block, words, 0] => Some(Setup::LoadFirst { block, words }),
        [6, start, words, due] => Some(Setup::LoadNext { start, words, due }),
        _ => return None,
    })
}

/// See `program_words`.
fn program(buffer: u32, numbers: [u32; 4]) -> Option<Program> {
    match numbers {
        [1, location, data, 0] => Some(Program::Word {
            location,
            data: u16::try_from(data).ok()?,
        }),
        [kind, start, words, done] if kind == buffer => {
            Some(Program::Buffer { start, words, done })
        }
        _ => None,
    }
}

/// None where a bit is set for a block that there is not.
fn unprotected(words: &[u64]) -> Option<[bool; BLOCKS]> {
    let mut unprotected = [false; BLOCKS];
    for (block, unprotected) in unprotected.iter_mut().enumerate() {
        *unprotected = words[block / 64] >> (block % 64) & 1 == 1;
    }
    (words[BLOCKS / 64] >> (BLOCKS % 64) == 0).then_some(unprotected)
}

fn buffer(words: &Words) -> [u16; BUFFER_WORDS] {
    let mut buffer = [0; BUFFER_WORDS];
    for (place, word) in buffer.iter_mut().enumerate() {
        *word = buffer_word(place).of(words) as u16;
    }
    buffer
}

fn on(number: u64) -> Option<bool> {
    match number {
        0 => Some(false),
        1 => Some(true),
        _ => None,
    }
}

/// The names of the words before `PROTECTION`.
const NAMES: [&str; PROTECTION] = [
    "part",
    "modes of banks 0 to 7",
    "modes of banks 8 to 15",
    "set-up, load's block or start",
    "load's words, data cycles due",
    "running, its block, location or start",
    "running program's data or words, erase's words done; buffer program's words done",
    "suspended program, its location or start",
    "suspended program's data or words; buffer program's words done",
    "suspended erase, its block",
    "suspended erase's words done",
    "SR5, SR4, SR3, SR1, configuration register, supply",
];

/// What a state word holds, for messages.
pub fn name(word: usize) -> String {
    match word {
        0..PROTECTION => NAMES[word].to_string(),
        PROTECTION..BUFFER => format!("unprotected blocks from {}", 64 * (word - PROTECTION)),
        BUFFER..STATE_WORDS => format!("buffer from place {}", 4 * (word - BUFFER)),
        _ => "past the state".to_string(),
    }
}
