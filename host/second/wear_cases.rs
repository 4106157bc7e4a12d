//! Cases of wear counts (document 02, item 6). On a bench bottom part block 0 begins
//! at 0h, block 1 at 10h, block 4 at 40h, block 5 at 80h, block 19 and bank 1 at 400h.

use crate::journal::{Recorder, State};
use crate::model::{
    Device, Erase, EraseCounts, Operation, Part, Program, Setup, WornReport, BLOCKS,
};
use crate::script::parse;
use crate::steps::Step;
use crate::{check_counts, check_malformed, check_reports_refused, refused, Bench, Change};

const ON: Step = Step::Supply(true);
const OFF: Step = Step::Supply(false);

/// Plays all cases; gives their number.
pub fn check() -> u32 {
    let cases = [
        worked_examples,
        places_by_number,
        rows_are_banks,
        no_block_has_no_count,
        every_block_whole,
        every_block_by_its_last_word,
        full_parts_whole,
        counted_in_the_step_of_the_last_word,
        units_to_spare_count_once,
        suspended_at_each_word,
        programs_in_a_suspended_erase,
        refused_erases,
        refused_steps,
        broken_off_before_the_last_word,
        broken_off_and_erased_again,
        stops_at_the_most,
        most_worn_alone,
        most_worn_on_a_tie,
        power_up_has_none,
        reset_keeps_counts,
        other_steps_leave_counts,
        counts_change_no_answer,
        journal_of_erases,
        journal_past_the_most,
    ];
    for case in cases {
        case();
    }
    cases.len() as u32
}

/// Lines of a script on a bench bottom part; `M` asks for the most worn block, which
/// comes with its count. Each that answers comes with its answer.
fn check_worn_example(text: &str) {
    let mut bench = Bench::new(2, 0x0F0F);
    for item in text.split(';').map(str::trim) {
        let (line, due) = item.split_once(" = ").unwrap_or((item, ""));
        let got = if line == "M" {
            let worn = bench.device.most_worn();
            assert_eq!(worn.refusal, 0, "{text}");
            format!("{} of {}", worn.count, worn.block)
        } else {
            let step = parse(line.as_bytes()).unwrap();
            let value = bench.step(step);
            match step {
                Step::Work(_) => value.to_string(),
                _ => String::new(),
            }
        };
        assert_eq!(got, due, "{item} in {text}");
    }
}

fn worked_examples() {
    // A small and a main block, a suspend between; reset keeps, an erase that it
    // breaks off is not counted.
    check_worn_example(
        "M = 0 of 0; V 1; W 000000 0060; W 000000 00D0; W 000040 0060; W 000040 00D0;
         W 000000 0020; W 000000 00D0; K 16 = 16; M = 1 of 0; W 000040 0020; W 000040 00D0;
         K 63 = 63; W 000040 00B0; M = 1 of 0; W 000040 00D0; K 1 = 1; M = 1 of 0;
         W 000040 0020; W 000040 00D0; K 64 = 64; M = 2 of 4; Z; W 000040 0060; W 000040 00D0;
         W 000040 0020; W 000040 00D0; K 10 = 10; Z; M = 2 of 4",
    );
    // A tie of blocks 19 and 1; a second erase of 19 that the supply cuts.
    check_worn_example(
        "V 1; W 000400 0060; W 000400 00D0; W 000010 0060; W 000010 00D0; W 000400 0020;
         W 000400 00D0; K 64 = 64; M = 1 of 19; W 000010 0020; W 000010 00D0; K 16 = 16;
         M = 1 of 1; W 000400 0020; W 000400 00D0; K 30 = 30; V 0; K 34 = 0; M = 1 of 1",
    );
}

/// The counts with the number of each block in its own place: the small blocks apart,
/// the main blocks one after another from the place after the shared one on.
fn numbered() -> EraseCounts {
    let mut counts = EraseCounts::none();
    counts.small = [1000, 1001, 1002, 1003];
    let places = counts.main.iter_mut().flatten().skip(1);
    for (place, block) in places.zip(4..) {
        *place = 1000 + block;
    }
    counts
}

/// The words of a block.
fn size(part: Part, block: u32) -> u32 {
    part.block(block).unwrap().size
}

/// A part with supply on, the block open and its erase running, so many words before
/// its end.
fn lacking(part: Part, block: u32, words: u32) -> Device {
    let mut device = Device::power_up(part.number());
    device.supply = true;
    device.unprotected[block as usize] = true;
    let done = size(part, block) - words;
    device.running = Some(Operation::Erase(Erase { block, done }));
    device
}

fn bench_parts() -> impl Iterator<Item = Part> {
    Part::ALL.into_iter().filter(|part| part.unit() == 64)
}

impl Bench {
    /// An erase of a block that is open runs, with so many words done.
    fn begin_erase(&mut self, block: u32, words: u32) {
        self.write(self.start(block), &[0x20, 0xD0]);
        assert_eq!(u32::from(self.work(words)), words);
        let erase = Operation::Erase(Erase { block, done: words });
        assert_eq!(self.device.running, Some(erase));
    }

    /// A whole erase of a block that is open.
    fn erase(&mut self, block: u32) {
        self.begin_erase(block, 0);
        let size = size(self.device.part, block);
        let first = size.min(65_535);
        assert_eq!(u32::from(self.work(first)), first);
        assert_eq!(u32::from(self.work(65_535)), size - first);
        assert_eq!(self.device.running, None);
    }

    /// Each named block has its count, and no other block has one.
    fn counts_are(&self, due: &[(u32, u16)]) {
        for block in 0..BLOCKS as u32 {
            let named = due.iter().find(|(named, _)| *named == block);
            let count = named.map_or(0, |&(_, count)| count);
            assert_eq!(self.device.counts.of(block), count, "block {block}");
        }
    }
}

/// "held as sixteen rows of sixteen main-size places": where the counts of some blocks
/// lie on every part, read and raised.
fn places_by_number() {
    for (block, row, place) in [
        (4, 0, 1),
        (18, 0, 15),
        (19, 1, 0),
        (34, 1, 15),
        (35, 2, 0),
        (257, 15, 14),
        (258, 15, 15),
    ] {
        let mut counts = EraseCounts::none();
        counts.main[row][place] = 7;
        assert_eq!(counts.of(block), 7);
        for part in bench_parts() {
            let device = lacking(part, block, 1);
            let mut array = vec![0; part.array_length()];
            let mut after = Device { counts, ..device };
            after.step(&mut array, Step::Work(1));
            let mut due = counts;
            due.main[row][place] = 8;
            assert_eq!(after.counts, due);
        }
    }
    for block in 0..4 {
        let mut counts = EraseCounts::none();
        counts.small[block as usize] = 9;
        assert_eq!(counts.of(block), 9);
    }
}

/// The row of a main block is its bank, on top and bottom parts; each block has a
/// place of its own, and none has the shared one.
fn rows_are_banks() {
    let counts = numbered();
    assert_eq!(counts.main[0][0], 0);
    for block in 0..BLOCKS as u32 {
        assert_eq!(u32::from(counts.of(block)), 1000 + block);
        for part in Part::ALL {
            let bank = part.block(block).unwrap().bank as usize;
            let found = counts.main[bank].contains(&(1000 + block as u16));
            assert_eq!(found, block >= 4);
        }
    }
}

fn no_block_has_no_count() {
    let mut device = Device::power_up(2);
    device.counts = numbered();
    for block in [259, 260, 263, 515, 65_536, 1 << 31, u32::MAX] {
        assert_eq!(device.counts.of(block), 0);
        let due = WornReport {
            refusal: 0,
            block,
            count: 0,
        };
        assert_eq!(device.erase_count(block), due);
    }
    for block in 0..BLOCKS as u32 {
        let due = WornReport {
            refusal: 0,
            block,
            count: 1000 + block,
        };
        assert_eq!(device.erase_count(block), due);
    }
}

/// Every block of the bench parts, erased by commands from power-up: its own count is
/// raised, and no other's.
fn every_block_whole() {
    for part in bench_parts() {
        let mut bench = Bench::new(part.number(), 0x0F0F);
        bench.step(ON);
        let mut due = EraseCounts::none();
        for block in 0..BLOCKS as u32 {
            bench.unprotect(block);
            bench.erase(block);
            match block {
                0..=3 => due.small[block as usize] = 1,
                _ => due.main[(block as usize - 3) / 16][(block as usize - 3) % 16] = 1,
            }
            assert_eq!(bench.device.counts, due, "{part:?}, block {block}");
        }
        let all_ones = due.main.iter().flatten().skip(1).chain(&due.small);
        assert!(all_ones.copied().all(|count| count == 1));
        assert!(bench.array.iter().all(|&word| word == 0xFFFF));
    }
}

/// The same of every part, the full ones too, by the last word of an erase alone, and
/// with another count for each block.
fn every_block_by_its_last_word() {
    for part in Part::ALL {
        let mut array = vec![0x0F0F; part.array_length()];
        for block in 0..BLOCKS as u32 {
            let mut device = lacking(part, block, 1);
            device.counts = numbered();
            assert_eq!(device.step(&mut array, Step::Work(1)).value, 1);
            for other in 0..BLOCKS as u32 {
                let due = 1000 + other + u32::from(other == block);
                assert_eq!(u32::from(device.counts.of(other)), due, "{part:?}");
            }
            assert!(device.well_formed() && device.running.is_none());
        }
    }
}

/// On the full parts a main block has more words than a step has units.
fn full_parts_whole() {
    for part in [0, 1] {
        let mut bench = Bench::new(part, 0x0F0F);
        bench.step(ON);
        for (block, count) in [0, 3, 4, 18, 19, 34, 35, 257, 258].into_iter().zip(1..) {
            bench.unprotect(block);
            for _ in 0..count {
                bench.erase(block);
            }
            assert_eq!(bench.device.counts.of(block), count);
            let worn = bench.device.most_worn();
            assert_eq!((worn.block, worn.count), (block, u32::from(count)));
        }
        let rows = bench.device.counts.main;
        assert_eq!((rows[0][1], rows[1][15], rows[15][15]), (3, 6, 9));
    }
}

/// Nothing is counted before the step that does the last word, and nothing after it.
fn counted_in_the_step_of_the_last_word() {
    for part in Part::ALL {
        let mut bench = Bench::new(part.number(), 0x0F0F);
        bench.step(ON);
        for block in [2, 4, 258] {
            bench.unprotect(block);
            bench.begin_erase(block, 0);
            assert_eq!(bench.device.counts.of(block), 0); // not at acceptance
            let most = size(part, block) - 1;
            assert_eq!(u32::from(bench.work(most)), most);
            assert_eq!(bench.work(0), 0);
            assert_eq!(bench.device.counts.of(block), 0);
            assert_eq!((bench.work(1), bench.device.counts.of(block)), (1, 1));
            assert_eq!((bench.work(1), bench.device.counts.of(block)), (0, 1));
            assert_eq!((bench.work(65_535), bench.device.counts.of(block)), (0, 1));
        }
    }
    // One word at a time.
    let mut bench = Bench::ready(&[4]);
    bench.begin_erase(4, 0);
    for done in 1..=64 {
        assert_eq!(bench.work(1), 1);
        bench.counts_are(&[(4, u16::from(done == 64))]);
    }
}

/// However many units are left over.
fn units_to_spare_count_once() {
    for count in [16, 17, 32, 64, 128, 65_535] {
        let mut bench = Bench::ready(&[1]);
        bench.begin_erase(1, 0);
        assert_eq!(bench.work(count), 16);
        bench.counts_are(&[(1, 1)]);
    }
    for count in [1, 2, 63, 64, 65, 127, 128, 65_535] {
        let mut bench = Bench::ready(&[4]);
        bench.begin_erase(4, 63);
        assert_eq!(bench.work(count), 1);
        bench.counts_are(&[(4, 1)]);
    }
}

/// Suspended and resumed at each word, before the last one too: neither counts, and
/// the last word does once.
fn suspended_at_each_word() {
    for block in [3, 4] {
        let mut bench = Bench::ready(&[block]);
        let words = size(bench.device.part, block);
        bench.begin_erase(block, 0);
        for _ in 0..words {
            for command in [0xB0, 0xD0, 0xB0] {
                bench.write(0, &[command]);
                bench.counts_are(&[]);
            }
            assert_eq!(bench.work(65_535), 0);
            bench.write(0x400, &[0xD0]);
            bench.counts_are(&[]);
            assert_eq!(bench.work(1), 1);
        }
        bench.counts_are(&[(block, 1)]);
        bench.write(0, &[0xD0, 0xB0, 0xD0]);
        assert_eq!(bench.work(65_535), 0);
        bench.counts_are(&[(block, 1)]);
    }
}

/// A program or a buffer program that ends beside the suspended erase, or by itself,
/// counts for no block.
fn programs_in_a_suspended_erase() {
    let mut bench = Bench::ready(&[0, 4, 5]);
    bench.begin_erase(4, 63);
    bench.write(0x40, &[0xB0]);
    bench.write(0x80, &[0x40, 0x1234]);
    assert_eq!(bench.work(65_535), 1);
    bench.load_and_confirm(0x80, &[1; 32]);
    assert_eq!(bench.work(65_535), 32);
    bench.load_and_confirm(0x00, &[1; 16]); // the whole of a small block
    assert_eq!(bench.work(65_535), 16);
    bench.counts_are(&[]);
    bench.write(0x40, &[0xD0]);
    assert_eq!(bench.work(65_535), 1);
    bench.counts_are(&[(4, 1)]);
}

/// An erase that is not accepted, by a wrong second cycle, without supply or by
/// protection, counts for nothing, whatever work follows.
fn refused_erases() {
    let mut bench = Bench::ready(&[4]);
    bench.write(0x40, &[0x20, 0xFF]);
    bench.write(0x80, &[0x20, 0xD0]); // protected
    bench.step(OFF);
    bench.write(0x40, &[0x20, 0xD0]);
    bench.step(ON);
    assert_eq!(bench.work(65_535), 0);
    bench.counts_are(&[]);
    // Nor does a set-up without its second cycle.
    bench.write(0x40, &[0x20]);
    assert_eq!(bench.work(65_535), 0);
    bench.counts_are(&[]);
    // Protection after acceptance does not keep it from being counted.
    let mut bench = Bench::ready(&[4]);
    bench.begin_erase(4, 63);
    bench.write(0x40, &[0xB0, 0x60, 0x01, 0xD0]);
    assert_eq!(bench.work(1), 1);
    bench.counts_are(&[(4, 1)]);
}

/// A refused step is none: it leaves the erase before its last word, and the counts.
fn refused_steps() {
    for part in bench_parts() {
        let mut device = lacking(part, 19, 1);
        device.counts = numbered();
        refused(&device, 16_384, Step::Work(65_536), 4);
        refused(&device, 16_383, Step::Work(1), 1);
        refused(&device, 0, Step::Reset, 1);
        refused(&device, 16_384, Step::Write(0x0100_0000, 0xD0), 3);
    }
}

/// The ways in which an erase is broken off: by reset while it runs and while it is
/// suspended, by supply off, and by D0h without supply.
fn break_off(bench: &mut Bench, way: u32) {
    match way {
        0 => {
            bench.step(Step::Reset);
        }
        1 => {
            bench.write(0, &[0xB0]);
            bench.step(Step::Reset);
        }
        2 => {
            bench.step(OFF);
        }
        _ => {
            bench.write(0, &[0xB0]);
            bench.step(OFF);
            bench.write(0, &[0xD0]);
        }
    }
}

/// One word before the end, on every part: not counted, and no later step brings it
/// back.
fn broken_off_before_the_last_word() {
    for part in Part::ALL {
        let mut bench = Bench::new(part.number(), 0x0F0F);
        for block in [0, 3, 4, 19, 258] {
            for way in 0..4 {
                bench.device = lacking(part, block, 1);
                break_off(&mut bench, way);
                bench.counts_are(&[]);
                for step in [Step::Work(1), ON, Step::Work(65_535)] {
                    bench.step(step);
                    bench.write(0, &[0xD0]);
                }
                assert_eq!(bench.work(65_535), 0);
                bench.counts_are(&[]);
            }
        }
    }
}

/// The new erase begins at its first word and is counted once; the counts from before
/// the breaks stay.
fn broken_off_and_erased_again() {
    let mut bench = Bench::ready(&[1, 4]);
    for (round, way) in (0..4).enumerate() {
        for block in [1, 4] {
            bench.step(ON);
            bench.unprotect(block);
            bench.begin_erase(block, size(bench.device.part, block) - 1);
            break_off(&mut bench, way);
            bench.step(ON);
            bench.unprotect(block);
            bench.erase(block);
        }
        let count = round as u16 + 1;
        bench.counts_are(&[(1, count), (4, count)]);
    }
}

/// "the lesser of 65,535 and the number": from 65,534 on.
fn stops_at_the_most() {
    for part in Part::ALL {
        let mut bench = Bench::new(part.number(), 0x0F0F);
        for block in [0, 3, 4, 258] {
            let mut counts = EraseCounts::none();
            match block {
                0..=3 => counts.small[block as usize] = 65_533,
                _ => counts.main[(block as usize - 3) / 16][(block as usize - 3) % 16] = 65_533,
            }
            for due in [65_534, 65_535, 65_535, 65_535] {
                bench.device = lacking(part, block, 1);
                bench.device.counts = counts;
                assert_eq!(bench.work(9), 1);
                bench.counts_are(&[(block, due)]);
                let worn = bench.device.most_worn();
                assert_eq!((worn.block, worn.count), (block, u32::from(due)));
                counts = bench.device.counts;
            }
        }
    }
}

/// A device with these counts, and all other counts `rest`.
fn worn(blocks: &[u32], count: u16, rest: u16) -> Device {
    let mut device = Device::power_up(2);
    device.counts.small = [rest; 4];
    let places = device.counts.main.iter_mut().flatten();
    places.skip(1).for_each(|place| *place = rest);
    for &block in blocks {
        match block as usize {
            small @ 0..=3 => device.counts.small[small] = count,
            main => device.counts.main[(main - 3) / 16][(main - 3) % 16] = count,
        }
    }
    device
}

fn most_worn_is(device: &Device, block: u32, count: u32) {
    let due = WornReport {
        refusal: 0,
        block,
        count,
    };
    assert_eq!(device.most_worn(), due);
    assert_eq!(device.erase_count(block), due);
}

/// One block ahead of all others by one or by many.
fn most_worn_alone() {
    for block in 0..BLOCKS as u32 {
        for (count, rest) in [(1, 0), (65_535, 0), (65_535, 65_534), (256, 255), (9, 8)] {
            most_worn_is(&worn(&[block], count, rest), block, u32::from(count));
        }
    }
}

/// "the lowest number on a tie"; block 0 where all are alike.
fn most_worn_on_a_tie() {
    for count in [0, 1, 65_535] {
        most_worn_is(&worn(&[], 0, count), 0, u32::from(count));
    }
    for low in 0..BLOCKS as u32 {
        for high in (low + 1..BLOCKS as u32).step_by(7).chain([258]) {
            let low = low.min(high);
            most_worn_is(&worn(&[low, high], 65_535, 0), low, 65_535);
            most_worn_is(&worn(&[low, high], 2, 1), low, 2);
        }
        let from_low: Vec<u32> = (low..BLOCKS as u32).collect();
        most_worn_is(&worn(&from_low, 5, 4), low, 5);
    }
}

fn power_up_has_none() {
    for part in 0..4 {
        let device = Device::power_up(part);
        assert_eq!(device.counts, EraseCounts::none());
        assert_eq!(device.counts.main, [[0; 16]; 16]);
        assert_eq!(device.counts.small, [0; 4]);
        most_worn_is(&device, 0, 0);
    }
}

/// "Reset keeps counts", whatever is set up, runs or is suspended, with supply on and
/// off; all else is as after power-up.
fn reset_keeps_counts() {
    let erase = Erase { block: 4, done: 63 };
    let changes: [Change; 6] = [
        &|_| {},
        &|d| (d.running, d.supply) = (Some(Operation::Erase(erase)), true),
        &|d| d.suspended_erase = Some(erase),
        &|d| (d.suspended_program, d.suspended_erase) = (Some(WORD), Some(erase)),
        &|d| d.setup = Some(Setup::Erase),
        &|d| d.unprotected = [true; BLOCKS],
    ];
    for part in bench_parts() {
        for (change, on) in changes.iter().flat_map(|c| [(c, false), (c, true)]) {
            let mut bench = Bench::new(part.number(), 0x0F0F);
            bench.device.supply = on;
            bench.device.counts = numbered();
            change(&mut bench.device);
            let due = Device {
                supply: bench.device.supply,
                counts: numbered(),
                ..Device::power_up(part.number())
            };
            bench.step(Step::Reset);
            bench.step(Step::Reset);
            assert_eq!(bench.device, due);
        }
    }
}

const WORD: Program = Program::Word {
    location: 0x85,
    data: 7,
};

/// Reads, writes of every command, work with nothing running and supply steps leave
/// the counts of a device with an erase suspended before its last word.
fn other_steps_leave_counts() {
    let mut idle = Bench::ready(&[4, 5]);
    idle.device.counts = numbered();
    let mut suspended = idle.clone();
    suspended.begin_erase(4, 63);
    suspended.write(0, &[0xB0]);
    for bench in [idle, suspended] {
        for command in 0..=0xFF {
            let mut bench = bench.clone();
            bench.write(0x40, &[command]);
            bench.write(0x40, &[command]);
            bench.read(0x40);
            bench.step(OFF);
            bench.step(ON);
            assert_eq!(bench.device.counts, numbered(), "{command:02X}h");
        }
    }
}

/// Two devices that differ in the counts alone give the same answers, and differ in
/// the counts alone after each step.
fn counts_change_no_answer() {
    let mut fresh = Bench::ready(&[0, 4, 5]);
    let mut used = fresh.clone();
    used.device.counts = worn(&[0, 4, 258], 65_535, 17).counts;
    let erase = [
        Step::Write(0x40, 0x20),
        Step::Write(0x40, 0xD0),
        Step::Work(63),
        Step::Write(0x40, 0xB0),
        Step::Write(0x40, 0xD0),
        Step::Work(9),
    ];
    let reads = [0x90, 0x98, 0x70, 0xFF].map(|command| [Step::Write(2, command), Step::Read(2)]);
    let ends = [OFF, Step::Read(0x40), Step::Reset, Step::Read(0x40)];
    for step in erase.into_iter().chain(reads.concat()).chain(ends) {
        assert_eq!(fresh.step(step), used.step(step));
        let same = Device {
            counts: fresh.device.counts,
            ..used.device.clone()
        };
        assert!(same == fresh.device && used.array == fresh.array);
    }
}

/// The journal's number is that of the finished entries of the block alone.
fn journal_of_erases() {
    let mut bench = Bench::new(2, 0x0F0F);
    let mut recorder = Recorder::new(2);
    let mut step = |step| {
        bench.step(step);
        recorder.note(step);
        check_counts(&recorder, &bench.device);
    };
    for (start, last) in [
        (0x40, Step::Work(64)),
        (0x40, Step::Work(65_535)),
        (0x10, Step::Work(16)),
        (0x80, Step::Reset),
        (0x80, OFF),
        (0x40, Step::Work(63)),
    ] {
        step(ON);
        for command in [0x60, 0xD0, 0x20, 0xD0] {
            step(Step::Write(start, command));
        }
        step(Step::Work(5));
        step(last);
    }
    // The last one is finished now; the next is suspended before its last word.
    for command in [0xB0, 0xD0] {
        step(Step::Write(0x40, command));
    }
    step(Step::Work(1));
    for command in [0x20, 0xD0] {
        step(Step::Write(0x40, command));
    }
    step(Step::Work(63));
    step(Step::Write(0x40, 0xB0));
    bench.counts_are(&[(1, 1), (4, 3)]);
    let numbers = [0, 1, 4, 5, 259].map(|block| recorder.finished_erases(block));
    assert_eq!(numbers, [0, 1, 3, 0, 0]);
    let last = recorder.entries().last().unwrap();
    assert_eq!(last.state, State::Suspended);
}

/// From power-up to more erases of two blocks than a count holds: the journal's number
/// goes on, the count does not.
fn journal_past_the_most() {
    for (part, starts) in [(2, [0x00, 0x40]), (3, [0x3FF0, 0x3F80])] {
        let mut bench = Bench::new(part, 0x0F0F);
        let mut recorder = Recorder::new(part);
        let mut step = |bench: &mut Bench, step| {
            bench.step(step);
            recorder.note(step);
        };
        step(&mut bench, ON);
        for start in starts {
            step(&mut bench, Step::Write(start, 0x60));
            step(&mut bench, Step::Write(start, 0xD0));
        }
        for erases in 1..=65_538_u32 {
            for start in starts {
                step(&mut bench, Step::Write(start, 0x20));
                step(&mut bench, Step::Write(start, 0xD0));
                step(&mut bench, Step::Work(65_535));
            }
            let due = erases.min(65_535) as u16;
            assert_eq!(bench.device.counts.of(0), due);
            assert_eq!(bench.device.counts.of(4), due);
        }
        bench.counts_are(&[(0, 65_535), (4, 65_535)]);
        check_counts(&recorder, &bench.device);
        assert_eq!(recorder.finished_erases(0), 65_538);
        assert_eq!(recorder.finished_erases(4), 65_538);
    }
}

/// "2 as before, also when the shared place is not 0": in every state that is well
/// formed but for it. Gives the number of states that are not well formed.
pub fn check_states() -> u32 {
    let erase = Erase { block: 4, done: 63 };
    let others: [Change; 6] = [
        &|_| {},
        &|d| d.counts = numbered(),
        &|d| (d.running, d.supply) = (Some(Operation::Erase(erase)), true),
        &|d| d.suspended_erase = Some(erase),
        &|d| d.suspended_program = Some(WORD),
        &|d| d.setup = Some(Setup::Erase),
    ];
    let mut count = 0;
    for part in Part::ALL {
        for (other, shared) in others.iter().zip([1, 65_535, 0x100, 0x8000, 2, 1]) {
            let mut device = Device::power_up(part.number());
            other(&mut device);
            assert!(device.well_formed());
            device.counts.main[0][0] = shared;
            check_reports_refused(&device);
            refused(&device, part.array_length(), Step::Work(65_535), 2);
            if part.unit() == 64 {
                check_malformed(&device);
            }
            count += 1;
        }
    }
    // No other count keeps a state from being well formed.
    let well: [Change; 3] = [
        &|d| d.counts = numbered(),
        &|d| d.counts.small = [65_535; 4],
        &|d| d.counts = worn(&[], 0, 65_535).counts,
    ];
    crate::check_states(&[], &well);
    count
}
