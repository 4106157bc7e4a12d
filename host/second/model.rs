//! A second model of the flash chip, written from document 01 and document 02, items 1 (the write
//! buffer), 4 (the reserved bits of the configuration register), 5 (supply drops) and 6 (wear
//! counts) alone.

#![allow(dead_code)] // a program that takes this module in need not use all of it

pub use super::geometry::{Block, Part, Place, ADDRESSES, BANKS, BLOCKS};
pub use super::steps::Step;

/// "a read mode for each of the 16 banks (array, status, signature, query)".
#[derive(Clone, Copy, Debug, PartialEq, Eq)]
pub enum Mode {
    Array,
    Status,
    Signature,
    Query,
}

/// The places of the write buffer: "up to 32 words at once" (document 02, item 1).
pub const BUFFER_WORDS: usize = 32;

/// "bits 14, 5 and 4 of the configuration register are reserved" (document 02, item 4).
pub const RESERVED_BITS: [u32; 3] = [14, 5, 4];

/// "The default becomes BFCFh" (document 02, item 4).
pub const DEFAULT_CONFIGURATION: u16 = 0xBFCF;

/// "a pending set-up (none, program, erase, lock)"; none is `Option::None`. The
/// others are a load, a buffer program before its D0h, by the cycle that is due.
#[derive(Clone, Copy, Debug, PartialEq, Eq)]
pub enum Setup {
    Program,
    Erase,
    Lock,
    /// The count, in the block of E8h.
    LoadCount {
        block: u32,
    },
    /// The first of so many words, in the block of E8h.
    LoadFirst {
        block: u32,
        words: u32,
    },
    /// So many more data cycles, each for one of the words from `start` on;
    /// D0h where none is due.
    LoadNext {
        start: u32,
        words: u32,
        due: u32,
    },
}

impl Setup {
    pub fn is_load(self) -> bool {
        !matches!(self, Setup::Program | Setup::Erase | Setup::Lock)
    }
}

#[derive(Clone, Copy, Debug, PartialEq, Eq)]
pub enum Program {
    /// A program carries "its location and data".
    Word { location: u32, data: u16 },
    /// A buffer program: the first `words` places of the buffer go to the
    /// locations from `start` on, and the lowest `done` of them are in.
    Buffer { start: u32, words: u32, done: u32 },
}

impl Program {
    /// The lowest location that it programs.
    pub fn start(self) -> u32 {
        match self {
            Program::Word { location, .. } => location,
            Program::Buffer { start, .. } => start,
        }
    }
}

/// "An erase carries its block and the words done".
#[derive(Clone, Copy, Debug, PartialEq, Eq)]
pub struct Erase {
    pub block: u32,
    pub done: u32,
}

#[derive(Clone, Copy, Debug, PartialEq, Eq)]
pub enum Operation {
    Program(Program),
    Erase(Erase),
}

/// "flags SR5, SR4, SR3, SR1".
#[derive(Clone, Copy, Debug, Default, PartialEq, Eq)]
pub struct Flags {
    pub sr5: bool,
    pub sr4: bool,
    pub sr3: bool,
    pub sr1: bool,
}

/// What a step gives beside the device. A refusal is 0 when the step was
/// accepted. Document 01 names no answer for write, supply and reset: here 0.
#[derive(Clone, Copy, Debug, PartialEq, Eq)]
pub struct Answer {
    pub value: u16,
    pub refusal: u8,
}

/// "how many blocks are open and the lowest open one, 259 if none". Both
/// numbers are 0 when refused ("its number beside the answer 0").
#[derive(Clone, Copy, Debug, PartialEq, Eq)]
pub struct UnprotectedReport {
    pub count: u32,
    pub lowest: u32,
    pub refusal: u8,
}

/// "the finished erases of each block, held as sixteen rows of sixteen main-size
/// places, the four small blocks being counted one by one apart, since they share
/// one place" (document 02, item 6): row 0, place 0, which belongs to no block.
#[derive(Clone, Copy, PartialEq, Eq, Debug)]
pub struct EraseCounts {
    pub main: [[u16; 16]; 16],
    pub small: [u16; 4],
}

impl EraseCounts {
    /// "power-up starts them at 0".
    pub fn none() -> EraseCounts {
        EraseCounts {
            main: [[0; 16]; 16],
            small: [0; 4],
        }
    }

    /// The finished erases of a block; 0 where the number is no block.
    pub fn of(&self, block: u32) -> u16 {
        match block {
            0..=3 => self.small[block as usize],
            4..=258 => {
                let (row, place) = main_place(block);
                self.main[row][place]
            }
            _ => 0,
        }
    }

    /// One more finished erase of a block: "the lesser of 65,535 and the number of
    /// finished erases".
    fn add(&mut self, block: u32) {
        let count = match self.small.get_mut(block as usize) {
            Some(count) => count,
            None => {
                let (row, place) = main_place(block);
                &mut self.main[row][place]
            }
        };
        *count = count.saturating_add(1);
    }
}

/// Row and place of a main block, 4 to 258: the row is its bank. By the block's
/// number, so alike on top and bottom parts.
fn main_place(block: u32) -> (usize, usize) {
    let place = block as usize - 3;
    (place / 16, place % 16)
}

/// "It reports the most worn block" (document 02, item 6), or the block that was
/// asked for, and the count of its finished erases. Both numbers are 0 when refused.
#[derive(Clone, Copy, Debug, PartialEq, Eq)]
pub struct WornReport {
    pub refusal: u8,
    pub block: u32,
    pub count: u32,
}

/// The fields of "What a device holds", the buffer and, "Beside the device"
/// (document 02, item 6), the counts. Spare storage is what of the buffer holds no
/// word of a load or of a buffer program.
#[derive(Clone, Debug, PartialEq, Eq)]
pub struct Device {
    pub part: Part,
    pub modes: [Mode; BANKS],
    pub setup: Option<Setup>,
    pub running: Option<Operation>,
    pub suspended_program: Option<Program>,
    pub suspended_erase: Option<Erase>,
    pub flags: Flags,
    pub unprotected: [bool; BLOCKS],
    pub configuration: u16,
    pub supply: bool,
    pub buffer: [u16; BUFFER_WORDS],
    pub counts: EraseCounts,
}

/// Block and bank of an address: (refusal, block, bank). "lookup of an address
/// refuses 3 and 7 only", the lowest number first.
pub fn lookup(part: u32, address: u32) -> (u8, u32, u32) {
    if address >= ADDRESSES {
        return (3, 0, 0);
    }
    let Some(part) = Part::from_number(part) else {
        return (7, 0, 0);
    };
    match part.place(part.location(address)) {
        Some(place) => (0, place.block, place.bank),
        None => unreachable!("every location lies in a block"),
    }
}

impl Device {
    /// "Power-up of a part". It refuses nothing, so another part number than
    /// 0 to 3 is a mistake of the caller and panics.
    pub fn power_up(part: u32) -> Device {
        Device::fresh(Part::from_number(part).expect("a part is 0 to 3"))
    }

    /// "supply off, every bank in array mode, nothing pending, running or
    /// suspended, flags clear, all blocks protected"; the configuration register
    /// is no longer FFFFh (document 02, item 4).
    fn fresh(part: Part) -> Device {
        Device {
            part,
            modes: [Mode::Array; BANKS],
            setup: None,
            running: None,
            suspended_program: None,
            suspended_erase: None,
            flags: Flags::default(),
            unprotected: [false; BLOCKS],
            configuration: DEFAULT_CONFIGURATION,
            supply: false,
            buffer: [0; BUFFER_WORDS],
            counts: EraseCounts::none(),
        }
    }

    /// "A state is well made when", sentence by sentence. A load is a set-up, a
    /// buffer program a program.
    pub fn well_formed(&self) -> bool {
        // "a running operation means no set-up pending and no suspended program"
        if self.running.is_some() && (self.setup.is_some() || self.suspended_program.is_some()) {
            return false;
        }
        // "a suspended program means no set-up pending"
        if self.suspended_program.is_some() && self.setup.is_some() {
            return false;
        }
        let (running_program, running_erase) = match self.running {
            Some(Operation::Program(program)) => (Some(program), None),
            Some(Operation::Erase(erase)) => (None, Some(erase)),
            None => (None, None),
        };
        // "a suspended erase means no running erase and no erase set-up pending"
        if self.suspended_erase.is_some()
            && (running_erase.is_some() || self.setup == Some(Setup::Erase))
        {
            return false;
        }
        // "In a well made state something runs only with supply on" (document 02,
        // item 5)
        if self.running.is_some() && !self.supply {
            return false;
        }
        // One at most, by the first clause.
        let program = running_program.or(self.suspended_program);
        self.erase_well_formed(running_erase)
            && self.erase_well_formed(self.suspended_erase)
            && self.program_well_formed(program)
            && self.load_well_formed()
            && self.spare_is_zero(program)
            && self.reserved_bits_are_zero()
            && self.shared_place_is_zero()
    }

    /// "blocks are of the part, and an erase has done fewer words than its
    /// block has".
    fn erase_well_formed(&self, erase: Option<Erase>) -> bool {
        erase.is_none_or(|erase| {
            let block = self.part.block(erase.block);
            block.is_some_and(|block| erase.done < block.size)
        })
    }

    /// "locations ... are of the part", and "a buffer program, whose words lie
    /// in one block and are more than it has done" (document 02, item 1). "a
    /// program that runs or is suspended beside a suspended erase lies in
    /// another block".
    fn program_well_formed(&self, program: Option<Program>) -> bool {
        let block = match program {
            None => return true,
            Some(Program::Word { location, .. }) => self.common_block(location, 1),
            Some(Program::Buffer { words, done, .. }) if done >= words => None,
            Some(Program::Buffer { start, words, .. }) => self.common_block(start, words),
        };
        block.is_some_and(|block| !self.erase_suspended_in(block))
    }

    /// "a load half done" (document 02, item 1): its words need not fit its
    /// block before the first is in. It may lie in the block of the suspended
    /// erase, since that is looked at only at D0h.
    fn load_well_formed(&self) -> bool {
        match self.setup {
            None | Some(Setup::Program | Setup::Erase | Setup::Lock) => true,
            Some(Setup::LoadCount { block }) => self.part.block(block).is_some(),
            Some(Setup::LoadFirst { block, words }) => {
                self.part.block(block).is_some() && fits_buffer(words)
            }
            Some(Setup::LoadNext { start, words, due }) => {
                self.common_block(start, words).is_some() && due < words
            }
        }
    }

    /// "spare storage, if any, is zero".
    fn spare_is_zero(&self, program: Option<Program>) -> bool {
        let used = match (self.setup, program) {
            (Some(Setup::LoadNext { words, .. }), _) => words,
            (_, Some(Program::Buffer { words, .. })) => words,
            _ => 0,
        };
        // The whole buffer at once is the quicker test, and most steps meet it.
        if used == 0 {
            return self.buffer.iter().fold(0, |all, word| all | word) == 0;
        }
        self.buffer[used as usize..].iter().all(|&word| word == 0)
    }

    /// "03h stores those bits as 0, and a well made state has them 0" (document
    /// 02, item 4).
    fn reserved_bits_are_zero(&self) -> bool {
        RESERVED_BITS
            .iter()
            .all(|&bit| self.configuration >> bit & 1 == 0)
    }

    /// "2 as before, also when the shared place is not 0" (document 02, item 6).
    fn shared_place_is_zero(&self) -> bool {
        self.counts.main[0][0] == 0
    }

    /// The block in which so many words from a location on lie; none where they
    /// are no number for the buffer or lie in no block or in two.
    fn common_block(&self, start: u32, words: u32) -> Option<u32> {
        let number = self.part.place(start)?.block;
        let block = self.part.block(number)?;
        (fits_buffer(words) && fits(start, words, block)).then_some(number)
    }

    /// One step on the borrowed array. "A refusal gives its number beside the
    /// answer 0, gives back the state it got and leaves all lent memory."
    pub fn step(&mut self, array: &mut [u16], step: Step) -> Answer {
        let refusal = self.refusal(array.len(), step);
        if refusal != 0 {
            return Answer { value: 0, refusal };
        }
        let value = match step {
            Step::Read(address) => self.read(array, address),
            Step::Write(address, data) => {
                self.write(address, data);
                0
            }
            Step::Work(count) => self.work(array, count),
            Step::Supply(on) => {
                self.set_supply(on);
                0
            }
            Step::Reset => {
                self.reset();
                0
            }
        };
        Answer { value, refusal: 0 }
    }

    /// "The open report gives how many blocks are open and the lowest open
    /// one, 259 if none."
    pub fn unprotected_report(&self) -> UnprotectedReport {
        if !self.well_formed() {
            return UnprotectedReport {
                count: 0,
                lowest: 0,
                refusal: 2,
            };
        }
        let count = self
            .unprotected
            .iter()
            .filter(|&&unprotected| unprotected)
            .count();
        let lowest = self.unprotected.iter().position(|&unprotected| unprotected);
        UnprotectedReport {
            count: count as u32,
            lowest: lowest.unwrap_or(BLOCKS) as u32,
            refusal: 0,
        }
    }

    /// "It reports the most worn block, the lowest number on a tie" (document 02,
    /// item 6): so block 0 where all counts are 0.
    pub fn most_worn(&self) -> WornReport {
        let mut worn = 0;
        for block in 1..BLOCKS as u32 {
            if self.counts.of(block) > self.counts.of(worn) {
                worn = block;
            }
        }
        self.erase_count(worn)
    }

    /// The finished erases of one block; 0 for a number that is no block.
    pub fn erase_count(&self, block: u32) -> WornReport {
        if !self.well_formed() {
            return WornReport {
                refusal: 2,
                block: 0,
                count: 0,
            };
        }
        WornReport {
            refusal: 0,
            block,
            count: u32::from(self.counts.of(block)),
        }
    }

    /// The refusal card, in the order of its numbers; 0 when none applies.
    fn refusal(&self, length: usize, step: Step) -> u8 {
        if length != self.part.array_length() {
            return 1;
        }
        if !self.well_formed() {
            return 2;
        }
        match step {
            Step::Read(address) | Step::Write(address, _) => {
                if address >= ADDRESSES {
                    3
                } else if self.part.place(self.part.location(address)).is_none() {
                    5
                } else {
                    0
                }
            }
            Step::Work(count) if count > 65_535 => 4,
            Step::Work(_) | Step::Supply(_) | Step::Reset => 0,
        }
    }

    /// "By the mode of the bank". "Nothing changes."
    fn read(&self, array: &[u16], address: u32) -> u16 {
        let location = self.part.location(address);
        let place = self.place(location);
        match self.shown(place.bank) {
            Mode::Array => array[location as usize],
            Mode::Status => self.status(place.bank),
            Mode::Signature => self.signature(location, place),
            Mode::Query => match location - self.bank_start(place.bank) {
                0x10 => 0x51,
                0x11 => 0x52,
                0x12 => 0x59,
                _ => 0x0000,
            },
        }
    }

    /// The mode that decides what a read in a bank shows: "array, the word at
    /// the location, but the status word while an operation runs in that bank".
    pub fn shown(&self, bank: u32) -> Mode {
        match self.modes[bank as usize] {
            Mode::Array if self.running_bank() == Some(bank) => Mode::Status,
            mode => mode,
        }
    }

    /// The status word as read in a bank. "Upper byte 0."
    fn status(&self, bank: u32) -> u16 {
        let bits = [
            // "SR7 is 1 when nothing runs."
            (7, self.running.is_none()),
            (6, self.suspended_erase.is_some()),
            (5, self.flags.sr5),
            (4, self.flags.sr4),
            (3, self.flags.sr3),
            (2, self.suspended_program.is_some()),
            (1, self.flags.sr1),
            // "SR0 is 1 when something runs, and in a bank other than the
            // addressed one."
            (0, self.running_bank().is_some_and(|other| other != bank)),
        ];
        bits.iter().map(|&(bit, set)| u16::from(set) << bit).sum()
    }

    /// "signature, 0020h at bank offset 0, 885Eh (top) or 885Fh (bottom) at
    /// bank offset 1, the configuration register at bank offset 5, and at
    /// block offset 2 0001h protected or 0000h open; all other offsets 0000h".
    fn signature(&self, location: u32, place: Place) -> u16 {
        let block_offset = location - self.block(place.block).start;
        match location - self.bank_start(place.bank) {
            0 => 0x0020,
            1 if self.part.is_top() => 0x885E,
            1 => 0x885F,
            5 => self.configuration,
            _ if block_offset == 2 && !self.unprotected[place.block as usize] => 0x0001,
            _ => 0x0000,
        }
    }

    /// "With a set-up pending, the next write is the second cycle".
    fn write(&mut self, address: u32, data: u16) {
        match self.setup.take() {
            None => self.first_cycle(address, data),
            Some(setup) => self.second_cycle(setup, address, data),
        }
    }

    fn first_cycle(&mut self, address: u32, data: u16) {
        let Place { block, bank } = self.place(self.part.location(address));
        let idle = self.running.is_none();
        // "nothing running, no program suspended"
        let ready = idle && self.suspended_program.is_none();
        // "The command is data modulo 256."
        match data % 256 {
            // "always: the addressed bank's mode becomes" this
            0xFF => self.set_mode(bank, Mode::Array),
            0x70 => self.set_mode(bank, Mode::Status),
            0x90 => self.set_mode(bank, Mode::Signature),
            0x98 => self.set_mode(bank, Mode::Query),
            // "only while something runs: it becomes suspended"
            0xB0 => match self.running.take() {
                Some(Operation::Program(program)) => self.suspended_program = Some(program),
                Some(Operation::Erase(erase)) => self.suspended_erase = Some(erase),
                None => {}
            },
            0xD0 if idle => self.resume(),
            // "nothing running: the flags are cleared"
            0x50 if idle => self.flags = Flags::default(),
            0x10 | 0x40 if ready => self.set_up(bank, Setup::Program),
            0x60 if ready => self.set_up(bank, Setup::Lock),
            // "E8h is taken when 40h is, whatever the flags" (document 02, item 1)
            0xE8 if ready => self.set_up(bank, Setup::LoadCount { block }),
            // "nothing running or suspended"
            0x20 if ready && self.suspended_erase.is_none() => self.set_up(bank, Setup::Erase),
            // "Anything else is ignored without a flag"
            _ => {}
        }
    }

    /// "nothing running: resume the suspended program, else the suspended erase";
    /// "resumed without supply, they end with the same flags and no unit"
    /// (document 02, item 5).
    fn resume(&mut self) {
        let resumed = match self.suspended_program.take() {
            Some(program) => Some(Operation::Program(program)),
            None => self.suspended_erase.take().map(Operation::Erase),
        };
        match resumed {
            Some(operation) if !self.supply => self.end_without_supply(operation),
            _ => self.running = resumed,
        }
    }

    /// "Each set-up cycle and each second cycle puts the bank of its own
    /// address in status mode".
    fn set_up(&mut self, bank: u32, setup: Setup) {
        self.setup = Some(setup);
        self.set_mode(bank, Mode::Status);
    }

    /// "it ends the set-up, its address alone names the word or block, and the
    /// first rule that applies holds". The caller has ended the set-up; a cycle
    /// of a load that is not its last makes the next one. "each of its cycles
    /// marks its bank as a second cycle does".
    fn second_cycle(&mut self, setup: Setup, address: u32, data: u16) {
        let location = self.part.location(address);
        let place = self.place(location);
        self.set_mode(place.bank, Mode::Status);
        match setup {
            // "program, the whole word is data"
            Setup::Program => self.accept(place.block, Program::Word { location, data }),
            Setup::Erase => self.erase_cycle(place.block, data),
            Setup::Lock => self.lock_cycle(place.block, address, data),
            Setup::LoadCount { block } => {
                // "A count word above 31 is a wrong cycle": the whole word.
                if place.block == block && usize::from(data) < BUFFER_WORDS {
                    let words = u32::from(data) + 1;
                    self.setup = Some(Setup::LoadFirst { block, words });
                } else {
                    self.wrong_cycle();
                }
            }
            Setup::LoadFirst { block, words } => {
                // "and so is a first word from which so many would leave its block"
                if place.block == block && fits(location, words, self.block(block)) {
                    self.load_first(location, words, data);
                } else {
                    self.wrong_cycle();
                }
            }
            Setup::LoadNext { start, words, due } => {
                let right = if due > 0 {
                    self.load_next(location, start, words, due, data)
                } else {
                    self.confirm(place.block, start, words, data)
                };
                if !right {
                    self.buffer = [0; BUFFER_WORDS];
                    self.wrong_cycle();
                }
            }
        }
    }

    /// "set SR5 and SR4".
    fn wrong_cycle(&mut self) {
        self.flags.sr5 = true;
        self.flags.sr4 = true;
    }

    /// A program, at its data or at the D0h of a buffer program: "supply off, set
    /// SR4 and SR3; block protected, SR4 and SR1; block of the suspended erase,
    /// SR4 (H); else a program runs".
    fn accept(&mut self, block: u32, program: Program) {
        if !self.supply {
            self.flags.sr4 = true;
            self.flags.sr3 = true;
        } else if !self.unprotected[block as usize] {
            self.flags.sr4 = true;
            self.flags.sr1 = true;
        } else if self.erase_suspended_in(block) {
            self.flags.sr4 = true;
        } else {
            self.running = Some(Operation::Program(program));
        }
    }

    fn erase_cycle(&mut self, block: u32, data: u16) {
        if data % 256 != 0xD0 {
            self.wrong_cycle();
        } else if !self.supply {
            self.flags.sr5 = true;
            self.flags.sr3 = true;
        } else if !self.unprotected[block as usize] {
            self.flags.sr5 = true;
            self.flags.sr1 = true;
        } else {
            // "an erase runs with no word done"
            self.running = Some(Operation::Erase(Erase { block, done: 0 }));
        }
    }

    /// "Supply is not looked at."
    fn lock_cycle(&mut self, block: u32, address: u32, data: u16) {
        match data % 256 {
            0x01 => self.unprotected[block as usize] = false,
            0xD0 => self.unprotected[block as usize] = true,
            // "the address modulo 65,536": the address, not the location
            0x03 => self.configuration = without_reserved_bits((address % 65_536) as u16),
            _ => self.wrong_cycle(),
        }
    }

    /// The first data cycle names the start (section 4.9). "a word given none
    /// takes FFFFh".
    fn load_first(&mut self, start: u32, words: u32, data: u16) {
        self.buffer[..words as usize].fill(0xFFFF);
        self.buffer[0] = data;
        self.setup = Some(Setup::LoadNext {
            start,
            words,
            due: words - 1,
        });
    }

    /// A later data cycle; false where it is for none of the words from the
    /// start on (section 4.9). "of two data for one word the later counts".
    fn load_next(&mut self, location: u32, start: u32, words: u32, due: u32, data: u16) -> bool {
        if !(start..start + words).contains(&location) {
            return false;
        }
        self.buffer[(location - start) as usize] = data;
        self.setup = Some(Setup::LoadNext {
            start,
            words,
            due: due - 1,
        });
        true
    }

    /// The cycle after the last data cycle; false where it is wrong. Like all
    /// others it has to lie in the block (section 4.9). "at D0h, supply,
    /// protection and suspended erase are tested as for a program" (document 02,
    /// item 1).
    fn confirm(&mut self, block: u32, start: u32, words: u32, data: u16) -> bool {
        if data % 256 != 0xD0 || block != self.place(start).block {
            return false;
        }
        let done = 0;
        self.accept(block, Program::Buffer { start, words, done });
        if self.running.is_none() {
            self.buffer = [0; BUFFER_WORDS];
        }
        true
    }

    /// "Up to n units, while something runs." "The answer is the number of
    /// units done."
    fn work(&mut self, array: &mut [u16], count: u32) -> u16 {
        if count == 0 {
            return 0;
        }
        match self.running.take() {
            None => 0,
            // "A program's one unit ands the data into the word."
            Some(Operation::Program(Program::Word { location, data })) => {
                array[location as usize] &= data;
                1
            }
            Some(Operation::Program(Program::Buffer { start, words, done })) => {
                let units = count.min(words - done);
                self.put_words(array, start + done, done, units);
                let done = done + units;
                if done < words {
                    let program = Program::Buffer { start, words, done };
                    self.running = Some(Operation::Program(program));
                } else {
                    self.buffer = [0; BUFFER_WORDS];
                }
                units as u16
            }
            Some(Operation::Erase(erase)) => self.erase_words(array, erase, count),
        }
    }

    /// "An erase's unit sets the lowest word not yet done to FFFFh." The step that
    /// does the last word has finished the erase, and counts it (document 02, item 6).
    fn erase_words(&mut self, array: &mut [u16], erase: Erase, count: u32) -> u16 {
        let Erase { block, done } = erase;
        let Block { start, size, .. } = self.block(block);
        let units = count.min(size - done);
        let first = (start + done) as usize;
        array[first..first + units as usize].fill(0xFFFF);
        // "an erase [ends] at the size of its block, counted over all work steps"
        let done = done + units;
        if done < size {
            self.running = Some(Operation::Erase(Erase { block, done }));
        } else {
            self.counts.add(block);
        }
        units as u16
    }

    /// "One unit puts in one word, from the lowest location up" (document 02,
    /// item 1): so many units, from a location and a place of the buffer on.
    fn put_words(&self, array: &mut [u16], location: u32, place: u32, units: u32) {
        let words = &mut array[location as usize..][..units as usize];
        for (word, data) in words.iter_mut().zip(&self.buffer[place as usize..]) {
            *word &= data;
        }
    }

    /// "When supply goes off, a running operation ends then and there" (document
    /// 02, item 5). "Suspended ones stay", and so does a set-up, whose second cycle
    /// looks at the supply.
    fn set_supply(&mut self, on: bool) {
        self.supply = on;
        if !on {
            if let Some(operation) = self.running.take() {
                self.end_without_supply(operation);
            }
        }
    }

    /// "with SR3 and SR4 for a program, SR3 and SR5 for an erase" (document 02,
    /// item 5). What it has done stays; a program that has ended holds no buffer.
    fn end_without_supply(&mut self, operation: Operation) {
        self.flags.sr3 = true;
        match operation {
            Operation::Program(_) => {
                self.flags.sr4 = true;
                self.buffer = [0; BUFFER_WORDS];
            }
            Operation::Erase(_) => self.flags.sr5 = true,
        }
    }

    /// "Reset gives the power-up state but keeps the supply; the array stays." "Reset
    /// keeps counts" (document 02, item 6).
    fn reset(&mut self) {
        *self = Device {
            supply: self.supply,
            counts: self.counts,
            ..Device::fresh(self.part)
        };
    }

    fn set_mode(&mut self, bank: u32, mode: Mode) {
        self.modes[bank as usize] = mode;
    }

    fn erase_suspended_in(&self, block: u32) -> bool {
        self.suspended_erase
            .is_some_and(|erase| erase.block == block)
    }

    /// The bank in which something runs.
    fn running_bank(&self) -> Option<u32> {
        self.running.map(|operation| match operation {
            Operation::Program(program) => self.place(program.start()).bank,
            Operation::Erase(erase) => self.block(erase.block).bank,
        })
    }

    // The next three are called only where the card was passed, so the
    // location, block or bank is of the part.

    fn place(&self, location: u32) -> Place {
        self.part.place(location).expect("a location of the part")
    }

    fn block(&self, number: u32) -> Block {
        self.part.block(number).expect("a block of the part")
    }

    fn bank_start(&self, bank: u32) -> u32 {
        self.part.bank_start(bank).expect("a bank of the part")
    }
}

/// "03h stores those bits as 0" (document 02, item 4), each apart from the other
/// bits, which are stored as written.
pub fn without_reserved_bits(word: u16) -> u16 {
    RESERVED_BITS
        .iter()
        .fold(word, |word, &bit| word & !(1 << bit))
}

/// Whether a load or a buffer program may have so many words.
fn fits_buffer(words: u32) -> bool {
    (1..=BUFFER_WORDS as u32).contains(&words)
}

/// Whether so many words from a location of the block on lie in it.
fn fits(start: u32, words: u32, block: Block) -> bool {
    words <= block.start + block.size - start
}
