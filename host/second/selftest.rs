//! Self-test of the second model: document 01's twelve proved cases, its
//! worked script, the refusal card, the cases of the write buffer, of the
//! configuration register, of supply drops and of wear counts, and random lists of
//! steps whose array and counts are compared with the recorder's reading. Prints one
//! line; panics on a difference, and where the lists drop the supply or finish erases
//! too seldom.
//!
//!     rustc -O --edition 2021 selftest.rs -o selftest
//!     ./selftest [seed]

mod buffer_cases;
mod configuration_cases;
mod geometry;
mod journal;
mod model;
mod script;
mod steps;
mod supply_cases;
mod wear_cases;

use geometry::{Part, ADDRESSES, BANKS, BLOCKS};
use journal::{Kind, Recorder, State};
use model::{
    lookup, Answer, Device, Erase, Mode, Operation, Program, Setup, UnprotectedReport, WornReport,
};
use script::transcript;
use steps::Step;

const BENCH_LISTS: u32 = 10_000; // for each bench part
const FULL_LISTS: u32 = 4; // for each full part
const LEAST_DROPS: u64 = 200; // of each kind, by the supply
const LEAST_WEAR: u64 = 200; // finished erases of each kind
const DEFAULT_SEED: u64 = 0x5EED_F1A5_4C41_9001;

fn main() {
    let seed = match std::env::args().nth(1) {
        None => DEFAULT_SEED,
        Some(text) => text.parse().expect("the seed is a decimal number"),
    };
    let mut random = Random::new(seed);
    let locations = check_geometry();
    let cases = check_proved_cases();
    let errors = check_errors_that_look_right();
    let loads = buffer_cases::check();
    let registers = configuration_cases::check();
    let drops = supply_cases::check();
    let worn = wear_cases::check();
    let states = check_malformed_states();
    check_reads();
    check_modes_and_flags();
    check_refusals();
    let scripts = check_scripts();
    let tally = check_lists(&mut random);
    println!(
        "selftest ok: seed {seed}, {cases} proved cases, {errors} errors that look right, \
         {loads} buffer cases, {registers} configuration register cases, {drops} supply cases, \
         {worn} wear cases, {states} malformed states, {scripts} scripts, {locations} locations, {}",
        tally.text()
    );
}

/// Random lists on all parts. Gives what they came to, which is enough of each kind.
fn check_lists(random: &mut Random) -> Tally {
    let mut tally = Tally::default();
    for part in [2, 3] {
        for _ in 0..BENCH_LISTS {
            check_list(random, part, 400, &mut tally);
        }
    }
    for part in [0, 1] {
        for _ in 0..FULL_LISTS {
            check_list(random, part, 100_000, &mut tally);
        }
    }
    let rarest = tally.drops.rarest();
    assert!(rarest >= LEAST_DROPS, "{}", tally.drops.text());
    let rarest = tally.wear.rarest();
    assert!(rarest >= LEAST_WEAR, "{}", tally.wear.text());
    tally
}

/// Xorshift, 64 bits, shifts 13, 7, 17.
struct Random(u64);

impl Random {
    fn new(seed: u64) -> Random {
        Random(if seed == 0 { DEFAULT_SEED } else { seed })
    }

    fn next(&mut self) -> u64 {
        self.0 ^= self.0 << 13;
        self.0 ^= self.0 >> 7;
        self.0 ^= self.0 << 17;
        self.0
    }

    fn below(&mut self, limit: u32) -> u32 {
        ((self.next() >> 32) % u64::from(limit)) as u32
    }

    fn one_in(&mut self, limit: u32) -> bool {
        self.below(limit) == 0
    }

    fn word(&mut self) -> u16 {
        (self.next() >> 32) as u16
    }

    fn pick<T: Copy>(&mut self, from: &[T]) -> T {
        from[self.below(from.len() as u32) as usize]
    }
}

/// A device with its array, for the cases written out by hand.
#[derive(Clone)]
struct Bench {
    device: Device,
    array: Vec<u16>,
}

impl Bench {
    fn new(part: u32, word: u16) -> Bench {
        let device = Device::power_up(part);
        let array = vec![word; device.part.array_length()];
        Bench { device, array }
    }

    /// A bench bottom part of FFFFh words with supply on and some unprotected blocks.
    fn ready(blocks: &[u32]) -> Bench {
        let mut bench = Bench::new(2, 0xFFFF);
        bench.step(Step::Supply(true));
        for &block in blocks {
            bench.unprotect(block);
        }
        bench
    }

    fn step(&mut self, step: Step) -> u16 {
        let answer = self.device.step(&mut self.array, step);
        assert_eq!(answer.refusal, 0, "{step:?}");
        assert!(self.device.well_formed(), "{step:?}");
        answer.value
    }

    fn read(&mut self, address: u32) -> u16 {
        self.step(Step::Read(address))
    }

    fn write(&mut self, address: u32, words: &[u16]) {
        for &word in words {
            self.step(Step::Write(address, word));
        }
    }

    fn work(&mut self, count: u32) -> u16 {
        self.step(Step::Work(count))
    }

    fn start(&self, block: u32) -> u32 {
        self.device.part.block(block).unwrap().start
    }

    fn unprotect(&mut self, block: u32) {
        self.write(self.start(block), &[0x60, 0xD0]);
    }

    fn mode(&self, bank: usize) -> Mode {
        self.device.modes[bank]
    }
}

/// The list of blocks against the document's closed rules, at every location
/// of every part. Gives the number of locations.
fn check_geometry() -> u64 {
    let mut count = 0;
    for part in Part::ALL {
        let unit = part.unit();
        let length = 256 * unit;
        assert_eq!(part.array_length(), length as usize);
        assert_eq!(Part::from_number(part.number()), Some(part));
        let mut words = [0; BLOCKS];
        for location in 0..length {
            let rule = if part.is_top() {
                length - 1 - location
            } else {
                location
            };
            let block = if rule < unit {
                rule / (unit / 4)
            } else {
                rule / unit + 3
            };
            let place = part.place(location).unwrap();
            assert_eq!((place.block, place.bank), (block, rule / (16 * unit)));
            if words[block as usize] == 0 {
                assert_eq!(part.block(block).unwrap().start, location);
            }
            words[block as usize] += 1;
        }
        for (&size, number) in words.iter().zip(0..) {
            let block = part.block(number).unwrap();
            assert_eq!(block.size, size);
            assert_eq!(part.place(block.start).unwrap().bank, block.bank);
        }
        for bank in 0..BANKS as u32 {
            let row = if part.is_top() { 15 - bank } else { bank };
            assert_eq!(part.bank_start(bank), Some(row * 16 * unit));
        }
        assert_eq!(part.place(length), None);
        assert_eq!(part.place(u32::MAX), None);
        assert_eq!(part.block(BLOCKS as u32), None);
        assert_eq!(part.bank_start(BANKS as u32), None);
        count += u64::from(length);
    }
    count
}

/// "Table of proved cases", all twelve.
fn check_proved_cases() -> u32 {
    let block = |part, address| {
        let (refusal, block, _) = lookup(part, address);
        assert_eq!(refusal, 0);
        block
    };
    // (1) to (4), full bottom
    assert_eq!((block(0, 0x003FFF), block(0, 0x004000)), (0, 1));
    assert_eq!((block(0, 0x00FFFF), block(0, 0x010000)), (3, 4));
    assert_eq!(lookup(0, 0x0FFFFF), (0, 18, 0));
    assert_eq!(lookup(0, 0x100000), (0, 19, 1));
    assert_eq!(lookup(0, 0xFFFFFF), (0, 258, 15));
    // (5) and (6), full top
    assert_eq!((block(1, 0xFF0000), block(1, 0xFEFFFF)), (3, 4));
    assert_eq!(lookup(1, 0x000000), (0, 258, 15));

    // (7) program refused for protection 92h, for supply 98h
    let mut bench = Bench::ready(&[]);
    bench.write(0x40, &[0x40, 0x1234]);
    assert_eq!(bench.read(0x40), 0x92);
    let mut bench = Bench::new(2, 0xFFFF);
    bench.write(0x40, &[0x40, 0x1234]);
    assert_eq!(bench.read(0x40), 0x98);

    // (8) erase refused for protection A2h, wrong second cycle B0h
    let mut bench = Bench::ready(&[]);
    bench.write(0x40, &[0x20, 0xD0]);
    assert_eq!(bench.read(0x40), 0xA2);
    let mut bench = Bench::ready(&[]);
    bench.write(0x40, &[0x20, 0x20]);
    assert_eq!(bench.read(0x40), 0xB0);

    // (9) erase suspended C0h, program suspended in it C4h
    let mut bench = Bench::ready(&[4, 5]);
    bench.write(0x40, &[0x20, 0xD0, 0xB0]);
    assert_eq!(bench.read(0x40), 0xC0);
    bench.write(0x80, &[0x40, 0x1234, 0xB0]);
    assert_eq!(bench.read(0x80), 0xC4);

    // (10) 00F0 programmed on 0FF0 gives 00F0, and FFFF after it changes nothing
    let mut bench = Bench::ready(&[4]);
    bench.array[0x41] = 0x0FF0;
    bench.write(0x41, &[0x40, 0x00F0]);
    assert_eq!(bench.work(1), 1);
    assert_eq!(bench.array[0x41], 0x00F0);
    bench.write(0x41, &[0x40, 0xFFFF]);
    assert_eq!(bench.work(1), 1);
    bench.write(0x41, &[0xFF]);
    assert_eq!(bench.read(0x41), 0x00F0);

    // (11) block 4 all 0000, erase, work 10, reset: ten words FFFF, 54 words 0000
    let mut bench = Bench::ready(&[4]);
    bench.array[0x40..0x80].fill(0x0000);
    bench.write(0x40, &[0x20, 0xD0]);
    assert_eq!(bench.work(10), 10);
    bench.step(Step::Reset);
    assert!(bench.array[0x40..0x4A].iter().all(|&word| word == 0xFFFF));
    assert!(bench.array[0x4A..0x80].iter().all(|&word| word == 0x0000));

    // (12) set-up 40h, then FFh to an unprotected block: 00FF is programmed, no mode
    // goes to array
    let mut bench = Bench::ready(&[4]);
    for bank in 0..BANKS as u32 {
        bench.write(bank * 1024, &[0x98]);
    }
    bench.write(0x41, &[0x40, 0x00FF]);
    assert_eq!(bench.work(1), 1);
    assert_eq!(bench.array[0x41], 0x00FF);
    assert_eq!(bench.mode(0), Mode::Status);
    assert!(bench.device.modes[1..]
        .iter()
        .all(|&mode| mode == Mode::Query));
    12
}

/// "Errors that look right", all five.
fn check_errors_that_look_right() -> u32 {
    // The second program cycle is data, also when it is FFh or 50h.
    let mut bench = Bench::ready(&[4]);
    bench.write(0x40, &[0x20, 0x00, 0x40, 0x0050]); // SR5 and SR4 are set
    assert_eq!(bench.read(0x40), 0x30);
    assert_eq!(bench.work(9), 1);
    assert_eq!(bench.array[0x40], 0x0050);

    // The blocks 0 to 2.
    for (address, block) in [(0x00, 0), (0x0F, 0), (0x10, 1), (0x2F, 2), (0x30, 3)] {
        assert_eq!(lookup(2, address), (0, block, 0));
        assert_eq!(lookup(3, 0x3FFF - address), (0, block, 0));
    }

    // A block protected during its suspended erase is still erased.
    let mut bench = Bench::ready(&[4]);
    bench.array[0x40..0x80].fill(0x0000);
    bench.write(0x40, &[0x20, 0xD0]);
    assert_eq!(bench.work(3), 3);
    bench.write(0x40, &[0xB0, 0x60, 0x01]);
    assert_eq!(bench.work(100), 0);
    bench.write(0x40, &[0xD0]);
    assert_eq!(bench.work(100), 61);
    assert_eq!(bench.work(100), 0);
    assert!(bench.array[0x40..0x80].iter().all(|&word| word == 0xFFFF));

    // Program data is anded in.
    let mut bench = Bench::ready(&[4]);
    for data in [0x0FF0, 0xF0F0, 0xFFFF] {
        bench.write(0x7F, &[0x10, data]);
        bench.work(1);
    }
    assert_eq!(bench.array[0x7F], 0x00F0);

    // Reset protects unprotected blocks and keeps the supply.
    let mut bench = Bench::ready(&[4, 258]);
    let report = |count, lowest, refusal| UnprotectedReport {
        count,
        lowest,
        refusal,
    };
    assert_eq!(bench.device.unprotected_report(), report(2, 4, 0));
    bench.step(Step::Reset);
    assert_eq!(bench.device.unprotected_report(), report(0, 259, 0));
    let mut fresh = Device::power_up(2);
    assert_ne!(bench.device, fresh);
    fresh.supply = true;
    assert_eq!(bench.device, fresh);
    5
}

type Change<'a> = &'a dyn Fn(&mut Device);

/// States that break one clause of "well made" (document 01) each. Gives their
/// number.
fn check_malformed_states() -> u32 {
    let program = |location| Program::Word { location, data: 7 };
    let erase = |block, done| Erase { block, done };
    let run_program = |location| Some(Operation::Program(program(location)));
    let run_erase = |block, done| Some(Operation::Erase(erase(block, done)));

    let ill: [Change; 19] = [
        &|d| (d.running, d.setup) = (run_program(0), Some(Setup::Program)),
        &|d| (d.running, d.setup) = (run_erase(4, 0), Some(Setup::Lock)),
        &|d| (d.running, d.suspended_program) = (run_program(0), Some(program(1))),
        &|d| (d.running, d.suspended_program) = (run_erase(4, 0), Some(program(1))),
        &|d| (d.suspended_program, d.setup) = (Some(program(0)), Some(Setup::Program)),
        &|d| (d.suspended_program, d.setup) = (Some(program(0)), Some(Setup::Lock)),
        &|d| (d.suspended_program, d.setup) = (Some(program(0)), Some(Setup::Erase)),
        &|d| (d.suspended_erase, d.running) = (Some(erase(4, 0)), run_erase(5, 0)),
        &|d| (d.suspended_erase, d.setup) = (Some(erase(4, 0)), Some(Setup::Erase)),
        &|d| d.running = run_program(16_384),
        &|d| d.suspended_program = Some(program(16_384)),
        &|d| d.running = run_erase(259, 0),
        &|d| d.suspended_erase = Some(erase(259, 0)),
        &|d| d.running = run_erase(3, 16),
        &|d| d.running = run_erase(4, 64),
        &|d| d.suspended_erase = Some(erase(258, 64)),
        &|d| d.suspended_erase = Some(erase(0, 16)),
        &|d| (d.suspended_erase, d.running) = (Some(erase(4, 0)), run_program(0x40)),
        &|d| {
            d.suspended_erase = Some(erase(4, 0));
            d.suspended_program = Some(program(0x7F));
        },
    ];
    let well: [Change; 7] = [
        &|_| {},
        &|d| d.running = run_erase(3, 15),
        &|d| d.running = run_program(16_383),
        &|d| (d.suspended_erase, d.running) = (Some(erase(4, 63)), run_program(0x80)),
        &|d| (d.suspended_erase, d.setup) = (Some(erase(4, 1)), Some(Setup::Lock)),
        &|d| (d.suspended_erase, d.setup) = (Some(erase(4, 1)), Some(Setup::Program)),
        &|d| {
            d.suspended_erase = Some(erase(4, 0));
            d.suspended_program = Some(program(0x3F));
        },
    ];
    check_states(&ill, &well)
        + buffer_cases::check_states()
        + configuration_cases::check_states()
        + supply_cases::check_states()
        + wear_cases::check_states()
}

/// All five steps and the reports refuse 2 in the first states, with supply on and
/// off, and none in the others, with supply on and, where nothing runs, off. Gives
/// the number of the first.
fn check_states(ill: &[Change], well: &[Change]) -> u32 {
    for supply in [false, true] {
        let changed = |change: &Change| {
            let mut device = Device::power_up(2);
            device.supply = supply;
            change(&mut device);
            device
        };
        for device in ill.iter().map(changed) {
            check_malformed(&device);
        }
        for device in well.iter().map(changed) {
            let good = supply || device.running.is_none();
            assert_eq!(device.well_formed(), good, "{device:?}");
            let refusal = if good { 0 } else { 2 };
            assert_eq!(device.unprotected_report().refusal, refusal, "{device:?}");
            assert_eq!(device.most_worn().refusal, refusal, "{device:?}");
            assert_eq!(device.erase_count(4).refusal, refusal, "{device:?}");
        }
    }
    ill.len() as u32
}

/// Each step, and each report, refuses the state by 2; a step by 1 where the array
/// is wrong too.
fn check_malformed(device: &Device) {
    check_reports_refused(device);
    let words = device.part.array_length();
    for step in [
        Step::Read(0),
        Step::Read(ADDRESSES),
        Step::Write(0, 0xFF),
        Step::Write(0, 0x03),
        Step::Write(0, 0xB0),
        Step::Write(0, 0xD0),
        Step::Write(ADDRESSES, 0xFF),
        Step::Work(0),
        Step::Work(1),
        Step::Work(65_536),
        Step::Supply(false),
        Step::Supply(true),
        Step::Reset,
    ] {
        refused(device, words, step, 2);
        refused(device, words - 1, step, 1);
    }
}

/// The reports refuse the state: "its number beside the answer 0".
fn check_reports_refused(device: &Device) {
    assert!(!device.well_formed(), "{device:?}");
    let report = device.unprotected_report();
    assert_eq!((report.count, report.lowest, report.refusal), (0, 0, 2));
    let refused = WornReport {
        refusal: 2,
        block: 0,
        count: 0,
    };
    assert_eq!(device.most_worn(), refused, "{device:?}");
    for block in [0, 3, 4, 19, 258, 259, u32::MAX] {
        assert_eq!(device.erase_count(block), refused, "{device:?}");
    }
}

/// The step is refused with this number and changes nothing.
fn refused(device: &Device, length: usize, step: Step, refusal: u8) {
    let mut after = device.clone();
    let mut array = vec![0x1234; length];
    let answer = after.step(&mut array, step);
    assert_eq!(answer, Answer { value: 0, refusal }, "{step:?}");
    assert_eq!(after, *device, "{step:?}");
    assert!(array.iter().all(|&word| word == 0x1234), "{step:?}");
}

/// Signature, query, configuration and the status word of another bank.
fn check_reads() {
    for (part, device_code) in [(2, 0x885F), (3, 0x885E)] {
        let mut bench = Bench::new(part, 0x1234);
        let unprotected = bench.device.part.place(0x410).unwrap().block;
        bench.unprotect(unprotected);
        bench.write(0xABC405, &[0x60, 0x03]);
        bench.write(0x400, &[0x90]);
        for offset in 0..1024 {
            let place = bench.device.part.place(0x400 + offset).unwrap();
            let block = bench.device.part.block(place.block).unwrap();
            let expected = match offset {
                0 => 0x0020,
                1 => device_code,
                5 => 0x8405, // C405h without bit 14
                _ if 0x400 + offset == block.start + 2 => u16::from(place.block != unprotected),
                _ => 0,
            };
            assert_eq!(bench.read(0x400 + offset), expected);
        }
        bench.write(0x7FF, &[0x98]);
        for offset in 0..1024 {
            let expected = match offset {
                0x10 => 0x51,
                0x11 => 0x52,
                0x12 => 0x59,
                _ => 0,
            };
            assert_eq!(bench.read(0x400 + offset), expected);
        }
        // A program runs in the bank of 400h: 00h there, 01h in another bank.
        bench.step(Step::Supply(true));
        bench.write(0x410, &[0x40, 0x0034]);
        bench.write(0x800, &[0x70]);
        assert_eq!((bench.read(0x410), bench.read(0x800)), (0x00, 0x01));
        // Array mode: the status word in the running bank, the word elsewhere.
        bench.write(0x410, &[0xFF]);
        bench.write(0x800, &[0xFF]);
        assert_eq!((bench.read(0x410), bench.read(0x800)), (0x00, 0x1234));
        bench.write(0x800, &[0xB0]);
        assert_eq!(bench.read(0x410), 0x1234);
        bench.write(0x800, &[0xD0]);
        assert_eq!((bench.work(0), bench.work(5)), (0, 1));
        assert_eq!(bench.read(0x410), 0x0034);
    }
}

/// Which writes change a mode, and the flags the proved cases leave out.
fn check_modes_and_flags() {
    // Each cycle puts the bank of its own address in status mode.
    let mut bench = Bench::ready(&[]);
    bench.step(Step::Write(0x400, 0x40));
    assert_eq!((bench.mode(1), bench.mode(2)), (Mode::Status, Mode::Array));
    bench.step(Step::Write(0x800, 0x00FF));
    assert_eq!((bench.mode(1), bench.mode(2)), (Mode::Status, Mode::Status));
    // Flags stay until 50h or reset and block no later command.
    assert_eq!(bench.read(0x800), 0x92);
    bench.unprotect(4);
    bench.write(0x40, &[0x20, 0xD0]);
    assert_eq!((bench.read(0x40), bench.read(0x800)), (0x12, 0x13));
    // While it runs: no set-up, no clearing, no mode but by the four commands.
    bench.write(0x1000, &[0x10, 0x20, 0x40, 0x50, 0x60, 0xD0, 0x00]);
    assert_eq!((bench.read(0x40), bench.mode(4)), (0x12, Mode::Array));
    // Suspend, clear and resume leave the modes; a second B0h is ignored.
    bench.write(0x1000, &[0xB0, 0xB0, 0x50]);
    assert_eq!((bench.read(0x40), bench.mode(4)), (0xC0, Mode::Array));
    // No erase set-up beside it; a program into its block sets SR4 alone.
    bench.write(0x1000, &[0x20]);
    assert_eq!((bench.device.setup, bench.mode(4)), (None, Mode::Array));
    bench.write(0x41, &[0x10, 0x0000]);
    assert_eq!(bench.read(0x40), 0xD0);
    bench.write(0x1000, &[0x50, 0xD0]);
    assert_eq!((bench.read(0x40), bench.mode(4)), (0x00, Mode::Array));
    bench.step(Step::Reset);
    bench.write(0, &[0x70]);
    assert_eq!(bench.read(0), 0x80);
    // Wrong lock cycle B0h; erase without supply A8h, unless its second cycle
    // is wrong.
    bench.write(0, &[0x60, 0x02]);
    assert_eq!(bench.read(0), 0xB0);
    bench.step(Step::Supply(false));
    bench.write(0, &[0x50, 0x20, 0xD0]);
    assert_eq!(bench.read(0), 0xA8);
    bench.write(0, &[0x50, 0x20, 0x01]);
    assert_eq!(bench.read(0), 0xB0);
}

/// The refusal card beyond state 2, and the lookup's own refusals.
fn check_refusals() {
    let device = Device::power_up(2);
    refused(&device, 16_384, Step::Read(ADDRESSES), 3);
    refused(&device, 16_384, Step::Write(u32::MAX, 0x90), 3);
    refused(&device, 16_384, Step::Work(65_536), 4);
    refused(&device, 16_385, Step::Work(65_536), 1);
    refused(&device, 0, Step::Supply(true), 1);
    refused(&device, 16_777_216, Step::Reset, 1);
    refused(&Device::power_up(0), 16_384, Step::Reset, 1);
    assert_eq!(lookup(4, 0), (7, 0, 0));
    assert_eq!(lookup(4, ADDRESSES), (3, 0, 0));
    assert_eq!(lookup(0, ADDRESSES), (3, 0, 0));
    assert_eq!(lookup(2, 0xFFFFFF), (0, 258, 15));
    assert_eq!(lookup(3, 0xFFFFFF), (0, 0, 0));
}

/// The worked script and the corners of its rules. Gives the number of scripts.
fn check_scripts() -> u32 {
    let worked_input = "V 1\nW 000040 0060\nW 000040 00D0\nW 000041 0040\nW 000041 1234\n\
                        R 000041\nK 5\nR 000041\nW 000000 00FF\nR 000041\nR 004041\nK 99999\n";
    let worked_output = "1 ok\n2 ok\n3 ok\n4 ok\n5 ok\n6 0000\n7 1\n8 0080\n9 ok\n10 1234\n\
                         11 1234\n12 refused 4\nend 12\n";
    let bad_lines = [
        "z",
        "Z ",
        " Z",
        "Z\r",
        "V 2",
        "V",
        "V  1",
        "V 10",
        "R 00041",
        "R 0000041",
        "R 00004a",
        "R  000041",
        "R000041",
        "R 000041 ",
        "W 000040",
        "W 000040 006",
        "W 000040 00600",
        "W 000040  060",
        "W 000040 00d0",
        "W 0000400060",
        "W 00004 00060",
        "W 00004G 0060",
        "W 000040 006G",
        "K",
        "K ",
        "K 00",
        "K 01",
        "K 100000",
        "K -1",
        "K 1 ",
        "K 12A",
        "K A",
        "r 000041",
        "R 0000\u{e9}",
        "12345678901234567",
        "R 000041R 000041",
        "\0",
    ];
    let mut scripts: Vec<(Vec<u8>, String)> = vec![
        (worked_input.into(), worked_output.into()),
        (worked_input.trim_end().into(), worked_output.into()),
        ("".into(), "end 0\n".into()),
        ("\n".into(), "1 refused 6\nend 1\n".into()),
        (
            "\n\nZ".into(),
            "1 refused 6\n2 refused 6\n3 ok\nend 3\n".into(),
        ),
        ("K 0\nV 0\nK 65535".into(), "1 0\n2 ok\n3 0\nend 3\n".into()),
        (
            "K 65536\nR FFFFFF".into(),
            "1 refused 4\n2 FFFF\nend 2\n".into(),
        ),
    ];
    for line in bad_lines {
        let output = "1 refused 6\n2 ok\nend 2\n";
        scripts.push((format!("{line}\nZ\n").into(), output.into()));
    }
    // The script ends at byte 16,384: a cut line is a line, and what follows a
    // last LF is not seen. "Z\n" 8,191 times is 16,382 bytes.
    let many: String = (1..=8191).map(|number| format!("{number} ok\n")).collect();
    for (tail, output) in [
        ("K 12", "8192 refused 6\nend 8192\n"), // cut to "K "
        ("Z\nZ\nZ", "8192 ok\nend 8192\n"),
        ("Z", "8192 ok\nend 8192\n"),
        ("\n\n\n", "8192 refused 6\n8193 refused 6\nend 8193\n"),
        ("", "end 8191\n"),
    ] {
        let input = "Z\n".repeat(8191) + tail;
        scripts.push((input.into(), many.clone() + output));
    }
    for (input, output) in &scripts {
        assert_eq!(String::from_utf8(transcript(input)).as_ref(), Ok(output));
    }
    scripts.len() as u32
}

/// Lines of a script, each that prints more than `ok` with what it prints.
fn check_example(text: &str) {
    let (mut input, mut output, mut count) = (String::new(), String::new(), 0);
    for item in text.split(';').map(str::trim) {
        let (line, printed) = item.split_once(" = ").unwrap_or((item, "ok"));
        count += 1;
        input += &format!("{line}\n");
        output += &format!("{count} {printed}\n");
    }
    output += &format!("end {count}\n");
    assert_eq!(
        String::from_utf8(transcript(input.as_bytes())),
        Ok(output),
        "{text}"
    );
}

/// What the random lists came to.
#[derive(Default)]
struct Tally {
    lists: u64,
    steps: u64,
    refusals: u64,
    units: u64,
    finished_programs: u64,
    unfinished_programs: u64,
    finished_buffers: u64,
    unfinished_buffers: u64,
    finished_erases: u64,
    unfinished_erases: u64,
    /// Loads dropped by a reset or a wrong cycle, or refused at D0h.
    lost_loads: u64,
    both_suspended: u64,
    changed_words: u64,
    drops: Drops,
    wear: Wear,
}

/// What the supply ended in the random lists (document 02, item 5): programs,
/// buffer programs and erases, by supply off and by D0h without supply.
#[derive(Default)]
struct Drops {
    running: [u64; 3],
    suspended: [u64; 3],
    /// V 0 and V 1 while something was suspended, and while a set-up was pending.
    beside_suspended: u64,
    beside_set_up: u64,
}

impl Drops {
    fn note(&mut self, before: &Device, after: &Device, step: Step) {
        let place = |operation| match operation {
            Operation::Program(Program::Word { .. }) => 0,
            Operation::Program(Program::Buffer { .. }) => 1,
            Operation::Erase(_) => 2,
        };
        let suspended = (before.suspended_program, before.suspended_erase);
        match (step, before.running) {
            (Step::Supply(false), Some(operation)) => self.running[place(operation)] += 1,
            (Step::Supply(_), _) => {
                self.beside_suspended += u64::from(suspended != (None, None));
                self.beside_set_up += u64::from(before.setup.is_some());
            }
            (Step::Write(..), None) if after.running.is_none() => {
                let ended = match (suspended.0, suspended.1) {
                    (Some(program), _) if after.suspended_program.is_none() => {
                        Operation::Program(program)
                    }
                    (_, Some(erase)) if after.suspended_erase.is_none() => Operation::Erase(erase),
                    _ => return,
                };
                self.suspended[place(ended)] += 1;
            }
            _ => {}
        }
    }

    fn rarest(&self) -> u64 {
        let ended = self.running.iter().chain(&self.suspended);
        let beside = [self.beside_suspended, self.beside_set_up];
        ended.copied().chain(beside).min().unwrap_or(0)
    }

    fn text(&self) -> String {
        format!(
            "ended by supply off, and by D0h without supply: programs {} and {}, buffer programs \
             {} and {}, erases {} and {}; {} supply steps beside something suspended, {} beside a \
             set-up",
            self.running[0],
            self.suspended[0],
            self.running[1],
            self.suspended[1],
            self.running[2],
            self.suspended[2],
            self.beside_suspended,
            self.beside_set_up
        )
    }
}

/// What erases the random lists finished (document 02, item 6).
#[derive(Default)]
struct Wear {
    small: u64,
    main: u64,
    /// In a step that had units to spare.
    exceeded: u64,
    /// Suspended before.
    resumed: u64,
    /// Of a block that had been erased before in the list.
    again: u64,
    /// Resets of a device with a count that was not 0.
    kept: u64,
    /// The erase that is under way has been suspended.
    suspended: bool,
}

impl Wear {
    /// Counts move by one, for one block, in a work step, where its erase ended.
    fn note(&mut self, before: &Device, after: &Device, step: Step) {
        if before.setup == Some(Setup::Erase) && after.running.is_some() {
            self.suspended = false;
        }
        self.suspended |= after.suspended_erase.is_some();
        match (step, before.running, after.running) {
            (Step::Work(count), Some(Operation::Erase(erase)), None) => {
                self.finished(before, after, erase, count);
            }
            _ => assert_eq!(before.counts, after.counts, "{step:?}"),
        }
        if step == Step::Reset && before.most_worn().count > 0 {
            self.kept += 1;
        }
    }

    fn finished(&mut self, before: &Device, after: &Device, erase: Erase, count: u32) {
        for block in 0..BLOCKS as u32 {
            let due = before.counts.of(block) + u16::from(block == erase.block);
            assert_eq!(after.counts.of(block), due, "block {block}");
        }
        self.small += u64::from(erase.block < 4);
        self.main += u64::from(erase.block >= 4);
        let size = before.part.block(erase.block).unwrap().size;
        self.exceeded += u64::from(count > size - erase.done);
        self.resumed += u64::from(self.suspended);
        self.again += u64::from(before.counts.of(erase.block) > 0);
    }

    fn rarest(&self) -> u64 {
        let erases = [self.small, self.main, self.exceeded, self.resumed];
        let kept = [self.again, self.kept];
        erases.into_iter().chain(kept).min().unwrap_or(0)
    }

    fn text(&self) -> String {
        format!(
            "finished erases: {} of small blocks, {} of main blocks, {} with units to spare, {} \
             after a suspend, {} of a block erased before; {} resets with counts",
            self.small, self.main, self.exceeded, self.resumed, self.again, self.kept
        )
    }
}

impl Tally {
    /// Counts a step by what it found and what became of it.
    fn note_step(&mut self, before: &Device, after: &Device, step: Step) {
        self.drops.note(before, after, step);
        self.wear.note(before, after, step);
        if before.suspended_program.is_some() && before.suspended_erase.is_some() {
            self.both_suspended += 1;
        }
        let lost = after.setup.is_none() && after.running.is_none();
        if before.setup.is_some_and(Setup::is_load) && lost {
            self.lost_loads += 1;
        }
        self.steps += 1;
    }

    /// Counts a list, its units and the entries of its journal.
    fn note(&mut self, recorder: &Recorder, units: u64) {
        self.lists += 1;
        self.units += units;
        for entry in recorder.entries() {
            let counter = match (&entry.kind, entry.state) {
                (Kind::Program { .. }, State::Finished) => &mut self.finished_programs,
                (Kind::Program { .. }, _) => &mut self.unfinished_programs,
                (Kind::Buffer { .. }, State::Finished) => &mut self.finished_buffers,
                (Kind::Buffer { .. }, _) => &mut self.unfinished_buffers,
                (Kind::Erase { .. }, State::Finished) => &mut self.finished_erases,
                (Kind::Erase { .. }, _) => &mut self.unfinished_erases,
            };
            *counter += 1;
        }
    }

    fn text(&self) -> String {
        format!(
            "{} random lists of {} steps ({} refused, {} with both suspended), {} units, \
             programs {} finished {} not, buffer programs {} finished {} not ({} loads came to \
             none), erases {} finished {} not, {} words changed; {}; {}",
            self.lists,
            self.steps,
            self.refusals,
            self.both_suspended,
            self.units,
            self.finished_programs,
            self.unfinished_programs,
            self.finished_buffers,
            self.unfinished_buffers,
            self.lost_loads,
            self.finished_erases,
            self.unfinished_erases,
            self.changed_words,
            self.drops.text(),
            self.wear.text()
        )
    }
}

/// Plays one random list on a random array; the array and the counts after it must
/// be the recorder's reading of the journal.
fn check_list(random: &mut Random, part: u32, longest: u32, tally: &mut Tally) {
    let mut device = Device::power_up(part);
    let start: Vec<u16> = (0..device.part.array_length())
        .map(|_| random.word())
        .collect();
    let mut array = start.clone();
    let mut recorder = Recorder::new(part);
    let mut units = 0;
    for step in random_list(random, device.part, longest) {
        let before = device.clone();
        let answer = device.step(&mut array, step);
        recorder.note(step);

        assert!(device.well_formed(), "{step:?} on {before:?}");
        check_recorder(&recorder, &device);
        if answer.refusal != 0 {
            assert_eq!(device, before, "{step:?}");
            assert_eq!(answer.value, 0, "{step:?}");
            tally.refusals += 1;
        } else if matches!(step, Step::Work(_)) {
            units += u64::from(answer.value);
        }
        tally.note_step(&before, &device, step);
    }
    assert!(
        array == recorder.apply(&start),
        "the array is not the journal"
    );
    check_counts(&recorder, &device);

    // The answers of the work steps are the journal's units.
    let noted: u64 = recorder.entries().iter().map(|e| u64::from(e.units)).sum();
    assert_eq!(units, noted);

    tally.note(&recorder, units);
    let changed = start.iter().zip(&array).filter(|(old, new)| old != new);
    tally.changed_words += changed.count() as u64;
}

/// The recorder holds what the device holds of the supply, the blocks and what is
/// under way.
fn check_recorder(recorder: &Recorder, device: &Device) {
    assert_eq!(device.unprotected, *recorder.unprotected_blocks());
    assert_eq!(device.supply, recorder.supply());
    assert_eq!(device.setup.is_some(), recorder.set_up_pending());
    assert_eq!(device.running.is_some(), recorder.running().is_some());
    if let (Some(operation), Some(entry)) = (device.running, recorder.running()) {
        assert_eq!(done(operation), entry.units);
    }
    let (program, erase) = (&device.suspended_program, &device.suspended_erase);
    let suspended = (program.is_some(), erase.is_some());
    assert_eq!(suspended, recorder.suspended());
}

/// "each count is the lesser of 65,535 and the number of finished erases of that block
/// in the journal" (document 02, item 6).
fn check_counts(recorder: &Recorder, device: &Device) {
    for block in 0..BLOCKS as u32 {
        let due = recorder.finished_erases(block).min(65_535);
        let report = device.erase_count(block);
        assert_eq!((report.refusal, report.block), (0, block));
        assert_eq!(u64::from(report.count), due, "block {block}");
    }
    assert_eq!(device.counts.main[0][0], 0);
}

/// The units that a running operation has had.
fn done(operation: Operation) -> u32 {
    match operation {
        Operation::Program(Program::Word { .. }) => 0,
        Operation::Program(Program::Buffer { done, .. }) => done,
        Operation::Erase(erase) => erase.done,
    }
}

/// A list that stays among a few blocks, mostly with whole commands, so that
/// operations meet; stray commands and steps come between.
fn random_list(random: &mut Random, part: Part, longest: u32) -> Vec<Step> {
    let hot: Vec<u32> = (0..1 + random.below(5))
        .map(|_| match random.below(3) {
            0 => random.below(6),
            1 => 15 + random.below(8),
            _ => random.below(BLOCKS as u32),
        })
        .collect();
    let commands = [
        0x01, 0x03, 0x10, 0x20, 0x40, 0x50, 0x60, 0x70, 0x90, 0x98, 0xB0, 0xD0, 0xFF,
    ];
    let mut list = Vec::new();
    if !random.one_in(8) {
        list.push(Step::Supply(true));
        for &block in &hot {
            let address = address_in(random, part, block);
            list.push(Step::Write(address, 0x60));
            list.push(Step::Write(address, 0xD0));
        }
    }
    let length = 1 + random.below(longest) as usize;
    while list.len() < length {
        let block = random.pick(&hot);
        let address = address_in(random, part, block);
        let upper = if random.one_in(4) {
            random.word() & 0xFF00
        } else {
            0
        };
        let mut write = |command: u16| list.push(Step::Write(address, upper | command));
        match random.below(48) {
            0..=6 => {
                write(random.pick(&[0x10, 0x40]));
                let second = address_in(random, part, block);
                list.push(Step::Write(second, random.word()));
            }
            7..=11 => {
                write(0x20);
                write(0xD0);
            }
            12..=14 => {
                write(0x60);
                write(random.pick(&[0xD0, 0xD0, 0xD0, 0x01, 0x03]));
            }
            15..=19 => write(0xB0),
            20..=22 => write(0xD0),
            23..=25 => write(random.pick(&commands)),
            26 => write(random.word() & 0x00FF),
            27..=34 => {
                let size = part.block(block).unwrap().size;
                let count = match random.below(6) {
                    0 => 0,
                    1 => 1,
                    2 => size.min(65_535),
                    3 => random.below(65_536),
                    _ => random.below(size),
                };
                list.push(Step::Work(count));
            }
            35 | 36 => list.push(Step::Read(address)),
            37 => list.push(match random.below(4) {
                0 => Step::Work(65_536 + random.below(1000)),
                1 => Step::Write(ADDRESSES + random.below(1000), random.pick(&commands)),
                2 => Step::Read(ADDRESSES + random.below(1000)),
                _ => Step::Write(random.below(ADDRESSES), random.pick(&commands)),
            }),
            38 => {
                let on = !random.one_in(4);
                list.push(Step::Supply(on));
            }
            46 | 47 => random_drop(random, address, &mut list),
            39 => {
                if random.one_in(4) {
                    list.push(Step::Reset);
                }
            }
            _ => random_load(random, part, block, &mut list),
        }
    }
    list
}

/// Supply off, whatever is pending, runs or is suspended, most often soon on again;
/// between the two now and then a D0h, a set-up's second cycle or some work.
fn random_drop(random: &mut Random, address: u32, list: &mut Vec<Step>) {
    match random.below(6) {
        0 => list.push(Step::Write(address, random.pick(&[0x20, 0x40, 0x60]))),
        1 => list.push(Step::Write(address, 0xB0)),
        _ => {}
    }
    list.push(Step::Supply(false));
    match random.below(8) {
        0 | 1 => list.push(Step::Write(address, 0xD0)),
        2 => list.extend([0xD0, 0xD0].map(|command| Step::Write(address, command))),
        3 => list.push(Step::Work(1 + random.below(99))),
        4 => list.push(Step::Supply(false)),
        _ => {}
    }
    if !random.one_in(4) {
        list.push(Step::Supply(true));
    }
}

/// A load, now and then with another step or a wrong cycle in it, some work and
/// maybe a suspend.
fn random_load(random: &mut Random, part: Part, block: u32, list: &mut Vec<Step>) {
    let size = part.block(block).unwrap().size;
    let words = match random.below(4) {
        0 => 1,
        1 => 32.min(size),
        _ => 1 + random.below(32.min(size)),
    };
    let last = part.block(block).unwrap().start + size - words;
    let first = match random.below(12) {
        0 => last + 1, // leaves the block by one word
        1 => last,
        _ => last - random.below(size - words + 1),
    };
    list.push(Step::Write(address_in(random, part, block), 0xE8));
    list.push(Step::Write(
        address_in(random, part, block),
        words as u16 - 1,
    ));
    for place in 0..words {
        let again = place > 0 && random.one_in(4);
        let offset = if again { random.below(words) } else { place };
        list.push(Step::Write(first + offset, random.word()));
        if random.one_in(8 * words) {
            let stray = random.pick(&[first + words, first.wrapping_sub(1), first + 1]);
            list.push(Step::Write(stray, random.word()));
        }
        if random.one_in(20) {
            let off = Step::Supply(random.one_in(2));
            list.push(random.pick(&[off, Step::Supply(true), Step::Work(3), Step::Read(first)]));
        }
    }
    let confirm = random.pick(&[0xD0, 0xD0, 0xD0, 0x12D0, 0xFF]);
    list.push(Step::Write(address_in(random, part, block), confirm));
    list.push(Step::Work(random.below(2 * words)));
    if random.one_in(2) {
        list.push(Step::Write(first, 0xB0));
        list.push(Step::Write(first, 0xD0));
        list.push(Step::Work(random.below(words)));
    }
}

/// An address in a block: its lowest, its highest or any; on a bench part with
/// any upper lines.
fn address_in(random: &mut Random, part: Part, number: u32) -> u32 {
    let block = part.block(number).unwrap();
    let offset = match random.below(4) {
        0 => 0,
        1 => block.size - 1,
        _ => random.below(block.size),
    };
    let length = part.array_length() as u32;
    let lines = random.below(ADDRESSES / length) * length;
    lines + block.start + offset
}
