//! Checks that need no chance: power-up, states that are not well formed, each
//! number of the state and each state word changed to many values, every
//! configuration register, and memory of other counts. Those of the erase counts are
//! in checks/counts.rs.

mod counts;

use crate::author::states::CLAUSES;
use crate::author::Author;
use crate::library::{self, Asked, STATE_WORDS};
use crate::pair::{Difference, Pair, Start};
use crate::second::model::{
    lookup, Device, Erase, EraseCounts, Flags, Mode, Operation, Part, Program, Setup, ADDRESSES,
    BANKS, BLOCKS,
};
use crate::second::steps::Step;
use crate::state::{self, Field, Words};
use crate::wear::Lent;
pub use counts::check_counts;
use std::collections::BTreeSet;

const UNTOUCHED: u64 = 0xDEAD_BEEF_DEAD_BEEF;

/// States for each clause that the author breaks, on a full part, whose array
/// takes long to compare, and on a bench part.
const BROKEN: [u64; 2] = [3, 25];

/// A check that failed: which one, and what is not equal.
pub struct Failure {
    pub check: String,
    pub difference: Difference,
}

type Checked = Result<(), Failure>;

fn failure(check: &str, what: &str, expected: u64, got: u64) -> Failure {
    Failure {
        check: check.to_string(),
        difference: Difference {
            step: 0,
            what: what.to_string(),
            expected: format!("{expected:X}h"),
            got: format!("{got:X}h"),
        },
    }
}

fn same(check: &str, what: &str, expected: u64, got: u64) -> Checked {
    if expected == got {
        Ok(())
    } else {
        Err(failure(check, what, expected, got))
    }
}

/// The lookup at the edges of all blocks, and refused.
pub fn check_lookup() -> Result<u64, Failure> {
    let mut asked = 0;
    for part in [0, 1, 2, 3, 4, 5, 1 << 31, u32::MAX] {
        let layout = Part::from_number(part).unwrap_or(Part::FullBottom);
        let mut addresses = vec![ADDRESSES - 1, ADDRESSES, ADDRESSES + 1, 1 << 31, u32::MAX];
        for block in 0..BLOCKS as u32 {
            let block = layout.block(block).expect("a block of the part");
            addresses.extend([block.start, block.start + 1, block.start + block.size - 1]);
        }
        for address in addresses {
            let (refusal, block, bank) = lookup(part, address);
            let expected = (u32::from(refusal), block, bank);
            let got = library::lookup(part, address);
            if expected != got {
                return Err(Failure {
                    check: format!("lookup of {address:06X} on part {part}"),
                    difference: Difference {
                        step: 0,
                        what: "refusal, block and bank".to_string(),
                        expected: format!("{expected:?}"),
                        got: format!("{got:?}"),
                    },
                });
            }
            asked += 1;
        }
    }
    Ok(asked)
}

/// The start of each block of each part, of numbers that are no block's, and refused.
pub fn check_block_starts() -> Result<u64, Failure> {
    let mut asked = 0;
    let past = [BLOCKS as u32 + 1, 512, 1 << 16, 1 << 31, u32::MAX];
    for part in [0, 1, 2, 3, 4, 5, 1 << 31, u32::MAX] {
        for block in (0..=BLOCKS as u32).chain(past) {
            let expected = match Part::from_number(part) {
                None => 7 << 32,
                Some(part) => part.block(block).map_or(ADDRESSES, |block| block.start).into(),
            };
            let check = format!("start of block {block} of part {part}");
            same(&check, "refusal and location", expected, library::block_start(part, block))?;
            asked += 1;
        }
    }
    Ok(asked)
}

/// m58_power_up with good and bad parts and counts.
pub fn check_power_up() -> Checked {
    for part in [0, 1, 2, 3, 4, 5, 255, 1 << 31, u32::MAX] {
        for count in [0, 1, STATE_WORDS - 1, STATE_WORDS, STATE_WORDS + 1, 64] {
            let check = format!("power-up of part {part} with {count} state words");
            // Room past the count shows a write outside.
            let mut state = [UNTOUCHED; 80];
            let mut lent = Lent::untouched();
            let words = &mut state[8..8 + count];
            let given = library::power_up(part, words, &mut lent.main, &mut lent.small);
            let mut expected = [UNTOUCHED; 80];
            let good = part < 4 && count == STATE_WORDS;
            if good {
                let words = state::encode(&Device::power_up(part));
                expected[8..8 + count].copy_from_slice(&words);
            }
            same(&check, "what it returns", u64::from(good), u64::from(given))?;
            counts::same_lent(&check, good.then_some(&EraseCounts::none()), &lent)?;
            for (place, (&expected, &got)) in expected.iter().zip(&state).enumerate() {
                let what = format!("word {place} less 8 of the memory");
                same(&check, &what, expected, got)?;
            }
        }
        let check = format!("power-up of part {part} with a null pointer");
        let mut lent = Lent::untouched();
        let given = library::power_up_borrowed(part, None, &mut lent.main, &mut lent.small);
        same(&check, "what it returns", 0, u64::from(given))?;
        counts::same_lent(&check, None, &lent)?;
    }
    Ok(())
}

/// Null pointers with the count 0, one at a time and all together.
pub fn check_null(pair: &mut Pair) -> Checked {
    let part = pair.part().number();
    let mut device = Device::power_up(part);
    device.counts = counts::numbered();
    let steps = [library::number(Step::Supply(true)); 2];
    let mut array = vec![0x1234; pair.part().array_length()];
    for missing in 0..16 {
        let check = format!("null pointers of part {part}, choice {missing:04b}");
        let mut state = state::encode(&device);
        let mut lent = Lent::of(&device.counts);
        let mut answers = [UNTOUCHED; 2];
        let borrowed = |bit: u32| missing >> bit & 1 == 0;
        let played = library::run_borrowed(
            borrowed(0).then_some(&mut state),
            (&mut lent.main, &mut lent.small),
            borrowed(1).then_some(&steps),
            borrowed(2).then_some(&mut answers),
            borrowed(3).then_some(&mut array),
        );
        let plays = borrowed(1) && borrowed(2);
        same(
            &check,
            "steps played",
            if plays { 2 } else { 0 },
            played as u64,
        )?;
        // With no state and no array, document 01 does not say which of the
        // two refusals is due.
        let due: &[u64] = match (plays, borrowed(0), borrowed(3)) {
            (false, ..) => &[UNTOUCHED],
            (true, true, true) => &[0],
            (true, true, false) => &[1 << 32],
            (true, false, _) => &[1 << 32, 2 << 32],
        };
        for answer in answers {
            if !due.contains(&answer) {
                return Err(failure(&check, "answer", due[0], answer));
            }
        }
        let mut expected = device.clone();
        expected.supply = plays && borrowed(0) && borrowed(3);
        for (place, (expected, got)) in state::encode(&expected).into_iter().zip(state).enumerate()
        {
            let what = format!("state word {place} ({})", state::name(place));
            same(&check, &what, expected, got)?;
        }
        counts::same_lent(&check, Some(&device.counts), &lent)?;
    }
    reports_of_nothing(&device.counts)
}

/// The reports of a null pointer with the count 0.
fn reports_of_nothing(counts: &EraseCounts) -> Checked {
    let lent = Lent::of(counts);
    let nothing = Asked {
        state: None,
        main: &lent.main,
        small: &lent.small,
    };
    let check = "reports of no state";
    same(check, "unprotected blocks", 2 << 32, nothing.report())?;
    same(check, "most worn block", 2 << 32, nothing.most_worn())?;
    same(check, "erases of block 4", 2 << 32, nothing.erase_count(4))
}

/// Steps of all five kinds, good and refused; tried on states.
fn probes(part: Part) -> Vec<u64> {
    let last = part.array_length() as u32 - 1;
    let steps = [
        Step::Read(0),
        Step::Read(last),
        Step::Read(ADDRESSES),
        Step::Work(65_536),
        Step::Write(ADDRESSES, 0x00FF),
        Step::Work(1),
        Step::Read(part.unit() + 2),
        Step::Write(last, 0x0090),
        Step::Work(65_535),
        Step::Write(part.unit(), 0x00D0),
        Step::Work(3),
        Step::Write(0, 0x00B0),
        Step::Supply(true),
        Step::Read(part.unit()),
        Step::Write(0, 0x0060),
        Step::Write(0, 0x00D0),
        Step::Reset,
        Step::Supply(false),
        // Where a lock set-up was refused with all else, 03h would be its second cycle.
        Step::Write(part.unit(), 0x0060),
        Step::Write(0xC035, 0x0003),
    ];
    steps.map(library::number).to_vec()
}

/// What is left of a load of two words, and of the buffer program that it comes
/// to, from the cycle or the unit on that is due; none where there is neither.
fn rest_of_load(device: &Device) -> Option<Vec<u64>> {
    let begun = match (device.setup, device.running, device.suspended_program) {
        (Some(Setup::LoadCount { .. }), ..) => 0,
        (Some(Setup::LoadFirst { .. }), ..) => 1,
        (Some(Setup::LoadNext { due: 1.., .. }), ..) => 2,
        (Some(Setup::LoadNext { .. }), ..) => 3,
        (_, Some(Operation::Program(Program::Buffer { .. })), _) => 4,
        (.., Some(Program::Buffer { .. })) => 6,
        _ => return None,
    };
    let at = buffer_start(device.part);
    let steps = [
        Step::Write(at + 2, 1),
        Step::Write(at, 0xA5F0),
        Step::Write(at + 1, 0x5A0F),
        Step::Write(at + 3, 0x00D0),
        Step::Work(1),
        Step::Write(at, 0x00B0),
        Step::Read(at),
        Step::Write(at, 0x00D0),
        Step::Work(40),
        Step::Read(at),
        Step::Write(at, 0x00FF),
        Step::Read(at),
        Step::Read(at + 1),
    ];
    Some(
        steps[begun..]
            .iter()
            .copied()
            .map(library::number)
            .collect(),
    )
}

/// State words with the erase counts beside them.
type Given<'a> = (&'a [u64], &'a EraseCounts);

/// Plays the probes from some state words in one call.
fn probe(pair: &mut Pair, given: Given, array: usize, whole: bool) -> Result<(), Difference> {
    let numbers = probes(pair.part());
    probe_with(pair, &numbers, given, array, whole)
}

fn probe_with(
    pair: &mut Pair,
    numbers: &[u64],
    (words, counts): Given,
    array: usize,
    whole: bool,
) -> Result<(), Difference> {
    pair.begin_on_same_array(Start::Words(words.to_vec(), *counts))?;
    let mut call = pair.call(numbers.len(), array);
    for &number in numbers {
        pair.add(&mut call, number);
    }
    pair.check(call, whole)
}

/// States that are not well formed, by document 01's sentence, and state words
/// that are of no device. Here the refusal is not taken from the second model:
/// every step must be refused 2 by both, and nothing may change.
pub fn check_malformed(pair: &mut Pair) -> Result<usize, Failure> {
    let part = pair.part();
    let good = part.array_length();
    let states = all_malformed(part);
    for (name, words, counts) in &states {
        let check = format!("{name}, on part {}", part.number());
        let fail = |difference| Failure {
            check: check.clone(),
            difference,
        };
        let device = state::decode(words, counts);
        let (refused, steps) = (pair.counts.refused[2], pair.counts.steps);
        probe(pair, (words, counts), good, true).map_err(fail)?;
        let refused = pair.counts.refused[2] - refused;
        let steps = pair.counts.steps - steps;
        same(
            &check,
            "steps refused 2 by the second model",
            steps,
            refused,
        )?;
        // A wrong array as well: the lowest number is 1 where there is a part.
        for length in [good - 1, good + 1, 0] {
            let refused = pair.counts.refused[1];
            probe(pair, (words, counts), length, false).map_err(fail)?;
            let refused = pair.counts.refused[1] - refused;
            let due = if device.is_some() { steps } else { 0 };
            same(&check, "steps refused 1 by the second model", due, refused)?;
        }
    }
    pair.finish().map_err(|difference| Failure {
        check: "array after the states that are not well formed".to_string(),
        difference,
    })?;
    Ok(states.len())
}

/// Each with erase counts, which are refused with it or are why it is refused.
fn all_malformed(part: Part) -> Vec<(String, Words, EraseCounts)> {
    let mut states = Vec::new();
    for (place, (name, words)) in malformed(part).into_iter().enumerate() {
        let counts = counts::VARIED[place % counts::VARIED.len()];
        states.push((name, words, counts()));
    }
    states.extend(broken_clauses(part));
    states.extend(counts::malformed(part));
    states
}

fn malformed(part: Part) -> Vec<(String, Words)> {
    let size = |block: u32| part.block(block).expect("a block of the part").size;
    let start = |block: u32| part.block(block).expect("a block of the part").start;
    let words = part.array_length() as u32;
    let program = Program::Word {
        location: start(100) + 7,
        data: 0x1234,
    };
    let erase = Erase {
        block: 200,
        done: 5,
    };
    let base = Device {
        unprotected: [true; BLOCKS],
        supply: true,
        ..Device::power_up(part.number())
    };
    let mut states: Vec<(String, Words)> = Vec::new();
    let mut device = |name: &str, change: &dyn Fn(&mut Device)| {
        let mut device = base.clone();
        change(&mut device);
        states.push((name.to_string(), state::encode(&device)));
    };
    for setup in [Setup::Program, Setup::Erase, Setup::Lock] {
        device(&format!("program runs with {setup:?} set-up"), &|d| {
            d.running = Some(Operation::Program(program));
            d.setup = Some(setup);
        });
        device(&format!("erase runs with {setup:?} set-up"), &|d| {
            d.running = Some(Operation::Erase(erase));
            d.setup = Some(setup);
        });
        device(&format!("program suspended with {setup:?} set-up"), &|d| {
            d.suspended_program = Some(program);
            d.setup = Some(setup);
        });
    }
    device("program runs with a suspended program", &|d| {
        d.running = Some(Operation::Program(program));
        d.suspended_program = Some(Program::Word {
            location: 3,
            data: 0,
        });
    });
    device("erase runs with a suspended program", &|d| {
        d.running = Some(Operation::Erase(erase));
        d.suspended_program = Some(program);
    });
    device("erase runs with a suspended erase", &|d| {
        d.running = Some(Operation::Erase(erase));
        d.suspended_erase = Some(Erase { block: 9, done: 0 });
    });
    device("erase set-up with a suspended erase", &|d| {
        d.setup = Some(Setup::Erase);
        d.suspended_erase = Some(erase);
    });
    for block in [0, 3, 4, 200, 258] {
        for more in [0, 1, 1 << 20] {
            let done = size(block) + more;
            let erase = Erase { block, done };
            device(&format!("erase of {block} runs, {done} done"), &|d| {
                d.running = Some(Operation::Erase(erase));
            });
            device(&format!("erase of {block} suspended, {done} done"), &|d| {
                d.suspended_erase = Some(erase);
            });
        }
        for offset in [0, size(block) - 1] {
            let program = Program::Word {
                location: start(block) + offset,
                data: 0,
            };
            let erase = Erase { block, done: 0 };
            device(&format!("program runs in suspended erase {block}"), &|d| {
                d.running = Some(Operation::Program(program));
                d.suspended_erase = Some(erase);
            });
            device(&format!("program suspended in erase {block}"), &|d| {
                d.suspended_program = Some(program);
                d.suspended_erase = Some(erase);
            });
        }
    }
    for block in [259, 260, 320, 1 << 16, u32::MAX] {
        let erase = Erase { block, done: 0 };
        device(&format!("erase of block {block} runs"), &|d| {
            d.running = Some(Operation::Erase(erase));
        });
        device(&format!("erase of block {block} suspended"), &|d| {
            d.suspended_erase = Some(erase);
        });
    }
    for location in [words, words + 1, words * 2, 1 << 31, u32::MAX] {
        let program = Program::Word { location, data: 0 };
        device(&format!("program at {location} runs"), &|d| {
            d.running = Some(Operation::Program(program));
        });
        device(&format!("program at {location} suspended"), &|d| {
            d.suspended_program = Some(program);
        });
    }

    // Words of no device, where the part is still known.
    let mut number = |name: &str, field: Field, value: u64| {
        let mut words = state::encode(&base);
        field.put(&mut words, value);
        states.push((format!("{name}, {} is {value:X}h", place(field)), words));
    };
    for value in [4, 5, 8, 16, 128, 255] {
        for bank in 0..16 {
            number("mode", state::mode(bank), value);
        }
    }
    let kind = |four| state::number(four, 0);
    for value in [4, 5, 1 << 8, 1 << 16, 1 << 31, u64::from(u32::MAX)] {
        number("running", kind(state::RUNNING), value);
    }
    // A load or buffer program of no words is one of a device, if not well formed.
    for value in [5, 6, 7, 8, 1 << 8, 1 << 16, 1 << 31, u64::from(u32::MAX)] {
        number("set-up", kind(state::SETUP), value);
    }
    number("running", kind(state::RUNNING), 3);
    for value in [2, 3, 1 << 8, 1 << 31, u64::from(u32::MAX)] {
        number("suspended program", kind(state::SUSPENDED_PROGRAM), value);
        number("suspended erase", kind(state::SUSPENDED_ERASE), value);
    }
    for value in [2, 3, 4, 128, 255] {
        for flag in 0..4 {
            number("flag", state::flag(flag), value);
        }
    }
    for value in [2, 3, 1 << 8, 1 << 15, 0xFFFF] {
        number("supply", state::SUPPLY, value);
    }
    for value in [1, 4, 1 << 31, u64::from(u32::MAX)] {
        for four in state::FOURS {
            for place in 1..4 {
                number("unused number", state::number(four, place), value);
            }
        }
    }
    for bit in 3..64 {
        let value = 7 | 1 << bit;
        number("spare protection bit", state::protection(4), value);
    }

    // Numbers too great for what they say, but right if they were cut short; and
    // bits beside a number that takes all of its own.
    let mut long = |name: &str, device: &Device, field: Field, bits: &[u32]| {
        for bit in bits {
            let mut words = state::encode(device);
            words[field.word] |= 1 << (field.low + bit);
            states.push((format!("{name}, {} with bit {bit}", place(field)), words));
        }
    };
    // The flags lie below the configuration register, the supply above it.
    long("configuration register", &base, state::flag(3), &[7]);
    long("configuration register", &base, state::SUPPLY, &[1, 15]);
    let mut both = base.clone();
    both.running = Some(Operation::Program(program));
    both.suspended_erase = Some(erase);
    let mut suspended = base.clone();
    suspended.suspended_program = Some(program);
    let mut erasing = base.clone();
    erasing.running = Some(Operation::Erase(erase));
    for (name, device, four) in [
        ("running program", &both, state::RUNNING),
        ("suspended erase", &both, state::SUSPENDED_ERASE),
        ("suspended program", &suspended, state::SUSPENDED_PROGRAM),
        ("running erase", &erasing, state::RUNNING),
    ] {
        // The block or location lies above the kind, the count or data below
        // what is not used.
        long(name, device, state::number(four, 0), &[8, 31]);
        long(name, device, state::number(four, 3), &[0, 31]);
    }
    for (name, device, four) in [
        ("running program's data", &both, state::RUNNING),
        (
            "suspended program's data",
            &suspended,
            state::SUSPENDED_PROGRAM,
        ),
    ] {
        long(name, device, state::number(four, 2), &[16, 31]);
    }
    states.extend(malformed_buffer_words(&base));
    states.extend(malformed_registers(&base));
    states.extend(malformed_supply(&base));
    states
}

/// "In a well made state something runs only with supply on" (document 02, item 5):
/// each kind of operation without it, also in an erase suspend, and each in a device
/// that is else as after power-up.
fn malformed_supply(base: &Device) -> Vec<(String, Words)> {
    let fresh = Device::power_up(base.part.number());
    let start = buffer_start(base.part);
    let (words, done) = (2, 1);
    let word = Program::Word {
        location: start,
        data: 0x1234,
    };
    let programs = [word, Program::Buffer { start, words, done }].map(Operation::Program);
    let erase = Erase {
        block: 200,
        done: 5,
    };
    let mut states = Vec::new();
    for (name, device) in [("power-up", &fresh), ("all unprotected", base)] {
        let mut add = |running, suspended_erase| {
            let device = Device {
                running: Some(running),
                suspended_erase,
                supply: false,
                ..device.clone()
            };
            let beside = suspended_erase.is_some();
            let name = format!("{name}, {running:?} without supply, erase suspended: {beside}");
            states.push((name, state::encode(&device)));
        };
        for running in programs {
            add(running, None);
            add(running, Some(erase));
        }
        add(Operation::Erase(erase), None);
    }
    states
}

/// "a well made state has them 0" (document 02, item 4): power-up, a device with
/// supply and unprotected blocks, and one for which 03h would store a good
/// register, with reserved bits set.
fn malformed_registers(base: &Device) -> Vec<(String, Words)> {
    let fresh = Device::power_up(base.part.number());
    let mut lock = base.clone();
    lock.setup = Some(Setup::Lock);
    let mut states = Vec::new();
    for (name, device) in [
        ("power-up", &fresh),
        ("all unprotected", base),
        ("lock set-up", &lock),
    ] {
        for register in [
            0x4000, 0x0020, 0x0010, 0x4020, 0x4010, 0x0030, 0x4030, 0xFFFF, 0xFFCF, 0xBFEF, 0xBFDF,
        ] {
            let mut words = state::encode(device);
            state::CONFIGURATION.put(&mut words, register);
            states.push((format!("{name}, register {register:04X}h"), words));
        }
    }
    states
}

/// What the rule of well-formed states says of the write buffer, of the configuration
/// register, of the supply and of the erase counts, broken clause by clause.
fn broken_clauses(part: Part) -> Vec<(String, Words, EraseCounts)> {
    let mut states = Vec::new();
    let seeds = BROKEN[usize::from(part.unit() == 64)];
    for (clause, name) in CLAUSES.iter().enumerate() {
        for seed in 0..seeds {
            let device = Author::new(part, seed).broken(clause);
            let name = format!("{name}, seed {seed}");
            states.push((name, state::encode(&device), device.counts));
        }
    }
    states
}

/// Words of no device where there is a load or a buffer program: kinds too great,
/// but right if they were cut short, and unused numbers that are not 0.
fn malformed_buffer_words(base: &Device) -> Vec<(String, Words)> {
    let mut states = Vec::new();
    for (shape, device) in buffer_shapes(base).iter().enumerate() {
        let original = state::encode(device);
        let mut bits = |field: Field, bits: [u32; 2]| {
            for bit in bits {
                let mut words = original;
                words[field.word] |= 1 << (field.low + bit);
                let name = format!("buffer shape {shape}, {} with bit {bit}", place(field));
                states.push((name, words));
            }
        };
        for four in state::FOURS {
            let kind = state::number(four, 0);
            if kind.of(&original) != 0 {
                bits(kind, [3, 31]);
            }
        }
        let used = match device.setup {
            Some(Setup::LoadCount { .. }) => 2,
            Some(Setup::LoadFirst { .. }) => 3,
            _ => 4,
        };
        for place in used..4 {
            bits(state::number(state::SETUP, place), [0, 31]);
        }
    }
    states
}

/// Where a number of the state stands, for messages.
fn place(field: Field) -> String {
    format!("word {} from bit {}", field.word, field.low)
}

/// Where the loads and buffer programs of `buffer_shapes` begin.
fn buffer_start(part: Part) -> u32 {
    part.block(100).expect("a block of the part").start + 7
}

/// One of each shape of a load or buffer program, of two words; all else as in a
/// device in which nothing is pending, running or suspended but an erase.
fn buffer_shapes(base: &Device) -> Vec<Device> {
    let (block, start, words) = (100, buffer_start(base.part), 2);
    let next = |due| Setup::LoadNext { start, words, due };
    let mut shapes = Vec::new();
    let first = Setup::LoadFirst { block, words };
    for load in [Setup::LoadCount { block }, first, next(1), next(0)] {
        let mut device = base.clone();
        device.setup = Some(load);
        if matches!(load, Setup::LoadNext { .. }) {
            device.buffer[..2].copy_from_slice(&[0x0FF0, 0xFFFF]);
        }
        shapes.push(device);
    }
    let done = 1;
    let program = Program::Buffer { start, words, done };
    let mut device = base.clone();
    device.buffer[..2].copy_from_slice(&[0x0FF0, 0x1248]);
    shapes.push(Device {
        running: Some(Operation::Program(program)),
        ..device.clone()
    });
    shapes.push(Device {
        suspended_program: Some(program),
        ..device
    });
    shapes
}

/// States to change words of: one of each shape that a device can have.
fn shapes(part: Part) -> Vec<Device> {
    let start = |block: u32| part.block(block).expect("a block of the part").start;
    let program = Some(Program::Word {
        location: start(100) + 7,
        data: 0xF0F1,
    });
    let erase = Some(Erase {
        block: 99,
        done: 10,
    });
    let running_program = program.map(Operation::Program);
    let running_erase = erase.map(Operation::Erase);
    let mut unprotected = [false; BLOCKS];
    for block in [0, 63, 64, 99, 100, 258] {
        unprotected[block] = true;
    }
    let mut busy = Device {
        unprotected,
        supply: true,
        configuration: 0x1204,
        flags: Flags {
            sr5: true,
            sr1: true,
            ..Flags::default()
        },
        ..Device::power_up(part.number())
    };
    busy.modes[3] = Mode::Status;
    busy.modes[6] = Mode::Signature;
    busy.modes[15] = Mode::Query;

    let mut shapes = vec![Device::power_up(part.number())];
    for (setup, running, suspended_program, suspended_erase) in [
        (None, None, None, None),
        (Some(Setup::Program), None, None, None),
        (Some(Setup::Erase), None, None, None),
        (Some(Setup::Lock), None, None, None),
        (None, running_program, None, None),
        (None, running_erase, None, None),
        (None, None, program, None),
        (None, None, None, erase),
        (None, running_program, None, erase),
        (None, None, program, erase),
        (Some(Setup::Program), None, None, erase),
        (Some(Setup::Lock), None, None, erase),
    ] {
        shapes.push(Device {
            setup,
            running,
            suspended_program,
            suspended_erase,
            ..busy.clone()
        });
    }
    shapes.extend(buffer_shapes(&busy));
    busy.suspended_erase = erase;
    shapes.extend(buffer_shapes(&busy));
    // What is suspended or set up needs no supply.
    let mut unsupplied = shapes.clone();
    unsupplied.retain(|device| device.supply && device.running.is_none());
    for device in &mut unsupplied {
        device.supply = false;
    }
    shapes.extend(unsupplied);
    shapes
}

/// Every number of the state, and every word, changed alone to many values.
/// Where the changed words are of a device, the second model says what is due;
/// elsewhere every step is refused and nothing changes. Gives the number of
/// changed states.
pub fn check_each_number(pair: &mut Pair) -> Result<u64, Failure> {
    let part = pair.part();
    let length = part.array_length();
    let whole = !pair.is_full();
    let counts = counts::VARIED.map(|counts| counts());
    let mut changed = 0;
    for (shape, device) in shapes(part).into_iter().enumerate() {
        // Else every changed state would be refused.
        let check = format!("shape {shape} of part {}, well formed", part.number());
        same(&check, "well formed", 1, u64::from(device.well_formed()))?;
        let rest = rest_of_load(&device);
        for damaged in changed_words(part, &state::encode(&device)) {
            // The count of a block that is erased to its end goes to the limit, or stays there.
            let counts = &counts[changed as usize % counts.len()];
            let mut tried = probe(pair, (&damaged, counts), length, whole);
            if let (Ok(()), Some(rest)) = (&tried, &rest) {
                tried = probe_with(pair, rest, (&damaged, counts), length, whole);
            }
            tried.map_err(|difference| Failure {
                check: format!(
                    "shape {shape} of part {}, changed to {damaged:X?}",
                    part.number()
                ),
                difference,
            })?;
            changed += 1;
        }
        // A full array is compared once for each shape.
        pair.finish().map_err(|difference| Failure {
            check: format!("array after shape {shape} of part {}", part.number()),
            difference,
        })?;
    }
    Ok(changed)
}

/// Every configuration register of 16 bits, handed in and stored by 03h. Gives how
/// many.
pub fn check_registers(pair: &mut Pair) -> Result<u64, Failure> {
    let part = pair.part();
    let failed = |what: &str, difference| Failure {
        check: format!("{what} on part {}", part.number()),
        difference,
    };
    let mut shown = Device::power_up(part.number());
    shown.modes = [Mode::Signature; BANKS];
    for register in 0..=0xFFFF {
        shown.configuration = register;
        let reads = [library::number(Step::Read(5))];
        let words = state::encode(&shown);
        let given = (&words[..], &shown.counts);
        probe_with(pair, &reads, given, part.array_length(), false)
            .map_err(|d| failed(&format!("register {register:04X}h handed in"), d))?;
    }
    let fresh = state::encode(&Device::power_up(part.number()));
    let given = (&fresh[..], &shown.counts);
    for upper in 0..=0xFF {
        let numbers = stored_registers(part, upper);
        probe_with(pair, &numbers, given, part.array_length(), false)
            .map_err(|d| failed("a register stored by 03h", d))?;
    }
    pair.finish()
        .map_err(|d| failed("array after the registers", d))?;
    Ok(1 << 16)
}

/// The registers whose upper byte is the one given, each stored and read, by
/// addresses that have all upper lines in turn. The set-up goes elsewhere: its
/// address says nothing.
fn stored_registers(part: Part, upper: u32) -> Vec<u64> {
    let last = part.array_length() as u32 - 1;
    let mut steps = Vec::new();
    for lower in 0..=0xFF {
        let address = (upper ^ lower) << 16 | upper << 8 | lower;
        steps.extend([Step::Write(last, 0x60), Step::Write(address, 0x03)]);
        steps.extend([Step::Write(0, 0x90), Step::Read(5)]);
    }
    // No flag was set; the last one is reset.
    steps.extend([Step::Write(0, 0x70), Step::Read(0), Step::Reset]);
    steps.extend([Step::Write(0, 0x90), Step::Read(5)]);
    steps.into_iter().map(library::number).collect()
}

/// State words with one number, or one word, changed.
fn changed_words(part: Part, original: &Words) -> BTreeSet<Words> {
    let mut fields = state::fields();
    fields.extend((0..STATE_WORDS).map(|word| Field {
        word,
        low: 0,
        bits: 64,
    }));
    let mut changed = BTreeSet::new();
    for field in fields {
        for value in values(part, field.of(original)) {
            let mut words = *original;
            field.put(&mut words, value);
            changed.insert(words);
        }
    }
    changed.remove(original);
    changed
}

/// Many values for a number of the state; of one that it cannot hold it takes
/// the lower bits.
fn values(part: Part, old: u64) -> Vec<u64> {
    let words = part.array_length() as u64;
    let unit = u64::from(part.unit());
    let block = part.block(99).expect("a block of the part");
    let (start, size) = (u64::from(block.start), u64::from(block.size));
    let mut values: Vec<u64> = (0..64).map(|bit| old ^ 1 << bit).collect();
    values.extend(0..8);
    values.extend([old.wrapping_add(1), old.wrapping_sub(1), !old, u64::MAX]);
    values.extend([unit / 4 - 1, unit / 4, unit - 1, unit, 15, 16, 17]);
    values.extend([31, 32, 33, 0xFFFF_0000, 0xFFFF << 32, 0xFFFF << 48]);
    values.extend([size - 1, size, start, start + size - 1, start + size]);
    values.extend([98, 99, 100, 257, 258, 259, 0xFFFF, 0x1_0000]);
    values.extend([words - 1, words, words + 1, 1 << 24, u64::from(u32::MAX)]);
    values
}

/// State words of other counts than 25, those of older headers among them: every step is refused.
pub fn check_state_counts(pair: &mut Pair) -> Checked {
    let part = pair.part();
    for count in [
        0,
        1,
        17,
        STATE_WORDS - 1,
        STATE_WORDS + 1,
        38,
        2 * STATE_WORDS,
        51,
    ] {
        let mut words = state::encode(&Device::power_up(part.number())).to_vec();
        words.resize(count, 0);
        for counts in counts::VARIED {
            let given = (&words[..], &counts());
            probe(pair, given, part.array_length(), true).map_err(|difference| Failure {
                check: format!("{count} state words, on part {}", part.number()),
                difference,
            })?;
        }
    }
    Ok(())
}
