//! Cases of the write buffer (document 02, item 1; section 4.9), on a bench
//! bottom part: blocks 0 to 3 have 16 words, block 4 begins at 40h, block 5 at
//! 80h, bank 1 at 400h.

use crate::journal::{Kind, Recorder, State};
use crate::model::{Device, Erase, Flags, Mode, Operation, Program, Setup, BUFFER_WORDS};
use crate::steps::Step;
use crate::{check_example, refused, Bench, Change};

/// Plays all cases; gives their number.
pub fn check() -> u32 {
    let cases = [
        worked_examples,
        taken_when_a_program_is,
        each_cycle_marks_its_bank,
        all_cycles_in_the_block,
        count_is_the_whole_word,
        words_that_leave_the_block,
        range_of_the_later_words,
        repeated_and_missing_words,
        one_word,
        every_write_is_a_cycle,
        tests_at_the_confirm,
        confirm_by_its_lower_byte,
        after_a_wrong_cycle,
        units_from_the_lowest,
        suspended_and_resumed,
        inside_a_suspended_erase,
        what_ends_a_load,
        what_empties_the_buffer,
        full_and_top_parts,
        entries_of_the_journal,
    ];
    for case in cases {
        case();
    }
    cases.len() as u32
}

impl Bench {
    /// E8h, the count and the words one after another, all from `start` on; D0h
    /// is due.
    pub fn load(&mut self, start: u32, words: &[u16]) {
        self.write(start, &[0xE8, words.len() as u16 - 1]);
        for (&word, location) in words.iter().zip(start..) {
            self.write(location, &[word]);
        }
    }

    pub fn load_and_confirm(&mut self, start: u32, words: &[u16]) {
        self.load(start, words);
        self.write(start, &[0xD0]);
    }

    /// The same bench after one more write.
    pub fn after(&self, address: u32, data: u16) -> Bench {
        let mut after = self.clone();
        after.write(address, &[data]);
        after
    }

    /// Whether a wrong cycle has just ended a load: no other rule sets SR5 and
    /// SR4 alone.
    fn ended_wrongly(&self) -> bool {
        let flags = Flags {
            sr5: true,
            sr4: true,
            ..Flags::default()
        };
        let idle = self.device.setup.is_none() && self.device.running.is_none();
        idle && self.device.flags == flags && self.device.buffer == [0; BUFFER_WORDS]
    }

    fn loading(&self) -> bool {
        self.device.setup.is_some_and(Setup::is_load)
    }
}

fn worked_examples() {
    // A load with E8h at the block's end, words given twice and not at all.
    check_example(
        "V 1; W 000040 0060; W 000040 00D0; W 00007F 00E8; W 000040 0003; W 000050 1111;
         W 000052 2222; W 000052 3333; W 000050 F0F0; R 000050 = 0080; W 000040 00D0;
         R 000050 = 0000; K 3 = 3; R 000400 = FFFF; W 000400 0070; R 000400 = 0001; K 9 = 1;
         R 000040 = 0080; W 000040 00FF; R 000050 = F0F0; R 000051 = FFFF; R 000052 = 3333;
         R 000053 = FFFF",
    );
    // Wrong cycles: leaves the block, below the start, count 32, another bank.
    check_example(
        "V 1; W 000000 0060; W 000000 00D0; W 000000 00E8; W 000001 0003; W 00000E AAAA;
         R 000000 = 00B0; W 000000 00D0; R 000000 = 00B0; W 000000 0050; W 000000 00E8;
         W 000000 0003; W 00000C 1111; W 00000B 2222; R 000000 = 00B0; W 000000 0050;
         W 000000 00E8; W 000000 0020; R 000000 = 00B0; W 000000 0050; W 000000 00E8;
         W 000400 0000; R 000400 = 00B0; R 000000 = 00B0; W 000000 00FF; R 00000C = FFFF",
    );
    // Suspended after two of three units, E8h not taken, resumed, reset.
    check_example(
        "V 1; W 000040 0060; W 000040 00D0; W 000040 00E8; W 000040 0002; W 000040 0001;
         W 000041 0002; W 000042 0003; W 000040 00D0; K 2 = 2; W 000000 00B0; R 000040 = 0084;
         W 000040 00E8; W 000040 00FF; R 000041 = 0002; R 000042 = FFFF; W 000400 00D0;
         R 000040 = 0000; Z; K 5 = 0; R 000040 = 0001; R 000041 = 0002; R 000042 = FFFF",
    );
    // Refused at D0h for supply and protection; count 0100h.
    check_example(
        "W 000040 00E8; W 000040 0000; W 000040 1234; W 000040 00D0; R 000040 = 0098;
         W 000040 0050; V 1; W 000040 00E8; W 000040 0000; W 000040 1234; W 000040 00D0;
         R 000040 = 0092; W 000040 0050; W 000040 00E8; W 000040 0100; R 000040 = 00B0",
    );
}

/// A bench in each of the states that decide whether a program set-up is taken.
fn busy_and_idle() -> Vec<Bench> {
    let idle = Bench::ready(&[4, 5]);
    let erase = idle.after(0x40, 0x20).after(0x40, 0xD0);
    let erase_suspended = erase.after(0x40, 0xB0);
    let program = idle.after(0x80, 0x40).after(0x80, 0x1234);
    let mut buffer_program = idle.clone();
    buffer_program.load_and_confirm(0x80, &[1, 2]);
    let mut nested = erase_suspended.clone();
    nested.load_and_confirm(0x80, &[1, 2]);
    let programs = [program, buffer_program, nested];
    let suspended = programs.each_ref().map(|bench| bench.after(0, 0xB0));
    let rest = [idle, erase, erase_suspended];
    [programs, suspended, rest].into_iter().flatten().collect()
}

/// "E8h is taken when 40h is, whatever the flags". What is not taken changes
/// nothing.
fn taken_when_a_program_is() {
    let mut taken = 0;
    for mut bench in busy_and_idle() {
        bench.write(0x400, &[0x90]);
        for bits in 0..16 {
            bench.device.flags = Flags {
                sr5: bits & 8 != 0,
                sr4: bits & 4 != 0,
                sr3: bits & 2 != 0,
                sr1: bits & 1 != 0,
            };
            let mut expected = bench.device.clone();
            if bench.after(0x410, 0x40).device.setup == Some(Setup::Program) {
                expected.setup = Some(Setup::LoadCount { block: 19 });
                expected.modes[1] = Mode::Status;
                taken += 1;
            }
            assert_eq!(bench.after(0x410, 0x12E8).device, expected);
        }
    }
    assert_eq!(taken, 2 * 16); // idle, and beside a suspended erase
}

/// Each cycle puts the bank of its own address in status mode, a wrong one too.
fn each_cycle_marks_its_bank() {
    let mut bench = Bench::ready(&[4]);
    for cycle in [0xE8, 0x0001, 0x00FF, 0x0070, 0x00D0] {
        bench.device.modes = [Mode::Query; 16];
        let wrong = bench.after(0x800, cycle);
        bench.write(0x41, &[cycle]);
        assert_eq!((bench.mode(0), bench.mode(2)), (Mode::Status, Mode::Query));
        // E8h itself is right anywhere, so there is none before it.
        if cycle != 0xE8 {
            assert!(wrong.ended_wrongly());
            assert_eq!((wrong.mode(0), wrong.mode(2)), (Mode::Query, Mode::Status));
        }
    }
    assert!(bench.device.running.is_some());
}

/// The block is that of E8h: the count, each word and D0h lie in it.
fn all_cycles_in_the_block() {
    let mut bench = Bench::ready(&[4, 5]);
    let other = [0x00, 0x3F, 0x80, 0xBF, 0x400, 0x3FFF];
    for (address, data) in [(0x7F, 0xE8), (0x40, 2), (0x5D, 7), (0x5F, 8), (0x5E, 9)] {
        bench.write(address, &[data]);
        let due = if bench.device.setup == Some(Setup::LoadCount { block: 4 }) {
            2
        } else {
            0xD0
        };
        for address in other {
            assert!(bench.after(address, due).ended_wrongly(), "{address:X}");
        }
    }
    // D0h anywhere in the block, also with upper lines that the part ignores.
    for address in [0x40, 0x5D, 0x7F, 0xFFC040, 0x4060] {
        let done = 0;
        let (start, words) = (0x5D, 3);
        let program = Operation::Program(Program::Buffer { start, words, done });
        assert_eq!(
            bench.after(address, 0xD0).device.running,
            Some(program),
            "{address:X}"
        );
    }
}

/// Above 31 is wrong, at once and by all 16 bits.
fn count_is_the_whole_word() {
    let mut bench = Bench::ready(&[0]);
    bench.write(0, &[0xE8]);
    for count in 0..=0xFFFF {
        let mut device = bench.device.clone();
        device.step(&mut bench.array, Step::Write(0x0F, count));
        let expected = (count < 32).then_some(Setup::LoadFirst {
            block: 0,
            words: u32::from(count) + 1,
        });
        assert_eq!(device.setup, expected, "{count:X}");
        assert_eq!(device.flags.sr5 && device.flags.sr4, count >= 32);
    }
}

/// "a first word from which so many would leave its block", judged at that word:
/// in block 0 none of 17 words or more is right.
fn words_that_leave_the_block() {
    for (block, size) in [(0, 16), (3, 16), (4, 64), (258, 64)] {
        let mut bench = Bench::ready(&[block]);
        let start = bench.start(block);
        for count in 0..32 {
            bench.write(start, &[0xE8, count]);
            for offset in 0..size {
                let right = offset + u32::from(count) < size;
                let mut device = bench.device.clone();
                device.step(&mut bench.array, Step::Write(start + offset, 0x1234));
                assert_eq!(device.setup.is_some(), right);
                assert!(device.well_formed());
                assert_eq!(device.flags.sr5, !right);
            }
            bench.step(Step::Reset);
        }
    }
}

/// The later words lie from the first one's location to so many on, in any
/// order; the first one given is the start, also where a lower one would fit.
fn range_of_the_later_words() {
    let mut bench = Bench::ready(&[4]);
    bench.write(0x40, &[0xE8, 3]);
    bench.write(0x50, &[0x1111]);
    for (location, right) in [
        (0x40, false),
        (0x4F, false),
        (0x50, true),
        (0x51, true),
        (0x53, true),
        (0x54, false),
        (0x7F, false),
    ] {
        let after = bench.after(location, 0x2222);
        assert_eq!((after.loading(), after.ended_wrongly()), (right, !right));
    }
    for location in [0x53, 0x51, 0x52] {
        bench.write(location, &[location as u16]);
    }
    bench.write(0x40, &[0xD0]);
    assert_eq!(bench.work(9), 4);
    assert_eq!(bench.array[0x50..0x54], [0x1111, 0x51, 0x52, 0x53]);
}

/// As many data cycles as words, not as many different words.
fn repeated_and_missing_words() {
    let mut bench = Bench::ready(&[4]);
    bench.array[0x40..0x80].fill(0x0FF0);
    bench.write(0x40, &[0xE8, 3]);
    bench.write(0x41, &[0x0000, 0x00FF, 0x0F0F]); // the last counts
    bench.write(0x43, &[0x1230]);
    let setup = Setup::LoadNext {
        start: 0x41,
        words: 4,
        due: 0,
    };
    assert_eq!(bench.device.setup, Some(setup));
    let mut buffer = [0; BUFFER_WORDS];
    buffer[..4].copy_from_slice(&[0x0F0F, 0xFFFF, 0x1230, 0xFFFF]);
    assert_eq!(bench.device.buffer, buffer);
    bench.write(0x40, &[0xD0]);
    assert_eq!((bench.work(2), bench.work(65_535)), (2, 2));
    assert_eq!(bench.array[0x41..0x45], [0x0F00, 0x0FF0, 0x0230, 0x0FF0]);
    assert!(bench.array[0x45..0x80].iter().all(|&word| word == 0x0FF0));
}

/// Count 0 takes one data cycle.
fn one_word() {
    let mut bench = Bench::ready(&[4]);
    bench.write(0x7F, &[0xE8, 0, 0x1234]);
    assert!(bench.after(0x7F, 0x1234).ended_wrongly());
    bench.write(0x40, &[0xD0]);
    assert_eq!((bench.work(0), bench.work(9), bench.work(9)), (0, 1, 0));
    assert_eq!(bench.array[0x7F], 0x1234);
}

/// In a load no write is a command: FFh, 70h, B0h, 50h, D0h and E8h are counts,
/// words or wrong cycles.
fn every_write_is_a_cycle() {
    let commands = [
        0xFF, 0x70, 0x90, 0x98, 0xB0, 0xD0, 0x50, 0x10, 0x40, 0x60, 0x20, 0xE8,
    ];
    let mut bench = Bench::ready(&[4]);
    bench.write(0x40, &[0xE8]);
    for command in commands {
        let after = bench.after(0x40, command);
        assert_eq!(after.ended_wrongly(), command != 0x10); // 17 words
        assert_eq!(after.mode(0), Mode::Status);
    }
    bench.write(0x40, &[11]);
    for (location, command) in (0x40..).zip(commands) {
        bench.write(location, &[command]);
        assert!(bench.loading());
    }
    assert_eq!(bench.device.buffer[..12], commands);
    assert_eq!(bench.device.buffer[12..], [0; 20]);
    bench.write(0x40, &[0xD0]);
    assert_eq!(bench.work(99), 12);
    assert_eq!(bench.array[0x40..0x4C], commands);
}

/// Supply, protection and the suspended erase are looked at only at D0h, in this
/// order, with a program's flags.
fn tests_at_the_confirm() {
    for (supply, unprotected, other, status) in [
        (false, false, true, 0xD8),
        (false, false, false, 0xD8),
        (false, true, false, 0xD8),
        (true, false, false, 0xD2),
        (true, false, true, 0xD2),
        (true, true, false, 0xD0),
        (true, true, true, 0x40),
    ] {
        let mut bench = Bench::ready(&[4, 5]);
        bench.write(0x40, &[0x20, 0xD0, 0xB0]);
        let start = if other { 0x80 } else { 0x40 };
        if !unprotected {
            bench.write(start, &[0x60, 0x01]);
        }
        bench.step(Step::Supply(supply));
        bench.load(start, &[1, 2, 3]);
        assert_eq!(bench.read(start), 0xC0);
        bench.write(start + 9, &[0xD0]);
        assert_eq!(bench.read(start), status);
        assert_eq!(bench.device.setup, None);
        assert_eq!(bench.device.buffer[0], u16::from(status == 0x40));
    }
    // The supply at D0h counts, not the one while the words came.
    let mut bench = Bench::ready(&[4]);
    bench.step(Step::Supply(false));
    bench.load(0x40, &[1, 2]);
    bench.step(Step::Supply(true));
    bench.write(0x40, &[0xD0]);
    assert_eq!((bench.read(0x40), bench.work(9)), (0x00, 2));
}

fn confirm_by_its_lower_byte() {
    let mut bench = Bench::ready(&[4]);
    bench.load(0x40, &[1, 2]);
    for data in 0..=0xFFFF {
        let mut device = bench.device.clone();
        device.step(&mut bench.array, Step::Write(0x7F, data));
        let right = data % 256 == 0xD0;
        assert_eq!(device.running.is_some(), right);
        assert_eq!(device.flags.sr5 && device.flags.sr4, !right);
        assert_eq!(device.setup, None);
    }
}

/// A wrong cycle is spent and what follows is read as commands; the array stays,
/// and the flags block nothing.
fn after_a_wrong_cycle() {
    let mut bench = Bench::ready(&[4]);
    bench.write(0x40, &[0xE8, 1, 0x0000]);
    bench.write(0x48, &[0x12FF]);
    assert!(bench.ended_wrongly());
    assert_eq!(bench.mode(0), Mode::Status); // FFh was the wrong cycle
    bench.write(0x40, &[0x34FF]);
    assert_eq!(bench.mode(0), Mode::Array);
    assert_eq!(bench.read(0x40), 0xFFFF);
    bench.write(0x40, &[0xD0]);
    assert_eq!(bench.device.running, None);
    bench.load_and_confirm(0x40, &[0x00AA]);
    assert_eq!((bench.read(0x40), bench.work(9)), (0x30, 1));
    assert_eq!((bench.read(0x40), bench.array[0x40]), (0xB0, 0x00AA));
}

/// "One unit puts in one word, from the lowest location up": and, not store.
fn units_from_the_lowest() {
    let mut bench = Bench::ready(&[4]);
    bench.array[0x40..0x80].fill(0xF0FF);
    bench.write(0x40, &[0xE8, 31]);
    bench.write(0x60, &[0x0F0F]);
    for location in (0x61..0x80).rev() {
        bench.write(location, &[0x0F0F]);
    }
    bench.write(0x40, &[0xD0]);
    assert_eq!(bench.work(0), 0);
    let mut done = 0;
    for (count, units) in [(1, 1), (7, 7), (0, 0), (23, 23), (65_535, 1), (1, 0)] {
        assert_eq!(bench.work(count), units);
        done += usize::from(units);
        let (in_place, rest) = bench.array[0x60..0x80].split_at(done);
        assert!(in_place.iter().all(|&word| word == 0x000F));
        assert!(rest.iter().all(|&word| word == 0xF0FF));
    }
    assert!(bench.array[0x40..0x60].iter().all(|&word| word == 0xF0FF));
    // Busy in the bank of its words, and seen as such from another bank.
    bench.load_and_confirm(0x40, &[1, 2, 3]);
    bench.write(0x400, &[0xFF]);
    bench.write(0x40, &[0xFF]);
    assert_eq!((bench.read(0x3FF), bench.read(0x400)), (0x00, 0xFFFF));
    bench.write(0x400, &[0x70]);
    assert_eq!((bench.work(2), bench.read(0x400)), (2, 0x01));
    assert_eq!((bench.work(1), bench.read(0x400)), (1, 0x80));
    assert_eq!(bench.read(0x7F), 0x000F);
}

/// It is a suspended program: SR2, and only D0h goes on with it.
fn suspended_and_resumed() {
    let mut bench = Bench::ready(&[4]);
    bench.load_and_confirm(0x40, &[1, 2, 3, 4]);
    bench.write(0x400, &[0x10, 0x20, 0x40, 0x50, 0x60, 0xD0, 0xE8]); // ignored
    assert_eq!((bench.work(3), bench.mode(1)), (3, Mode::Array));
    let running = bench.device.clone();
    bench.write(0x400, &[0xB0]);
    let suspended = Program::Buffer {
        start: 0x40,
        words: 4,
        done: 3,
    };
    assert_eq!(bench.device.suspended_program, Some(suspended));
    assert_eq!((bench.read(0x40), bench.work(9)), (0x84, 0));
    bench.write(0x400, &[0x10, 0x20, 0x40, 0x60, 0xE8, 0xB0, 0x50]);
    assert_eq!(
        (bench.device.setup, bench.mode(1), bench.read(0x40)),
        (None, Mode::Array, 0x84)
    );
    bench.write(0x3FFF, &[0xD0]);
    assert_eq!(bench.device, running);
    assert_eq!((bench.work(9), bench.read(0x40)), (1, 0x80));
    assert_eq!(bench.array[0x40..0x45], [1, 2, 3, 4, 0xFFFF]);
}

fn inside_a_suspended_erase() {
    let mut bench = Bench::ready(&[4, 5]);
    bench.array[0x40..0x80].fill(0x0000);
    bench.write(0x40, &[0x20, 0xD0]);
    assert_eq!(bench.work(3), 3);
    bench.write(0x40, &[0xB0]);
    bench.load_and_confirm(0x80, &[1, 2, 3]);
    assert_eq!((bench.read(0x80), bench.work(1)), (0x40, 1));
    bench.write(0x80, &[0xB0]);
    assert_eq!(bench.read(0x80), 0xC4);
    bench.write(0x80, &[0xD0]);
    assert_eq!((bench.read(0x80), bench.work(9)), (0x40, 2));
    assert_eq!(bench.read(0x80), 0xC0);
    bench.write(0x80, &[0xD0]);
    assert_eq!(bench.work(65_535), 61);
    assert_eq!(bench.array[0x80..0x84], [1, 2, 3, 0xFFFF]);
    assert!(bench.array[0x40..0x80].iter().all(|&word| word == 0xFFFF));
}

/// Reset drops a load. Supply steps, reads, work and refused steps leave it.
fn what_ends_a_load() {
    let mut bench = Bench::ready(&[4]);
    for (address, data) in [(0x40, 0xE8), (0x40, 1), (0x50, 7), (0x51, 8)] {
        bench.write(address, &[data]);
        let load = bench.device.clone();
        for address in [0x40, 0x400] {
            bench.read(address);
        }
        assert_eq!((bench.work(0), bench.work(65_535)), (0, 0));
        bench.step(Step::Supply(false));
        bench.step(Step::Supply(true));
        assert_eq!(bench.device, load);
        refused(&load, 16_384, Step::Write(0x0100_0040, 0xD0), 3);
        refused(&load, 16_384, Step::Write(u32::MAX, 0x0001), 3);
        refused(&load, 16_384, Step::Read(0x0100_0000), 3);
        refused(&load, 16_384, Step::Work(65_536), 4);
        refused(&load, 16_383, Step::Write(0x40, 1), 1);
        refused(&load, 16_383, Step::Reset, 1);
        bench.step(Step::Reset);
        let mut fresh = Device::power_up(2);
        fresh.supply = true;
        assert_eq!(bench.device, fresh);
        bench.device = load;
    }
}

/// The end of a buffer program, a load that ends wrongly or is refused, and
/// reset leave no word in the buffer.
fn what_empties_the_buffer() {
    let empty = [0; BUFFER_WORDS];
    let mut bench = Bench::ready(&[4]);
    bench.load(0x40, &[7, 8, 9]);
    let mut held = empty;
    held[..3].copy_from_slice(&[7, 8, 9]);
    assert_eq!(bench.device.buffer, held);
    assert_eq!(bench.after(0x40, 0xFF).device.buffer, empty);
    let mut unsupplied = bench.clone();
    unsupplied.step(Step::Supply(false));
    assert_eq!(unsupplied.after(0x40, 0xD0).device.buffer, empty);
    bench.write(0x40, &[0xD0]);
    assert_eq!((bench.work(2), bench.device.buffer), (2, held));
    let mut suspended = bench.after(0x40, 0xB0);
    assert_eq!(suspended.device.buffer, held);
    suspended.step(Step::Reset);
    assert_eq!(suspended.device.buffer, empty);
    assert_eq!((bench.work(1), bench.device.buffer), (1, empty));
    bench.write(0x40, &[0xE8, 5]);
    assert_eq!(bench.device.buffer, empty);
    bench.write(0x40, &[0x0000]);
    assert_eq!(bench.device.buffer[..6], [0, !0, !0, !0, !0, !0]);
    assert_eq!(bench.device.buffer[6..], empty[6..]);
    assert_eq!(bench.after(0x46, 1).device.buffer, empty);
}

/// 32 words at the end of the first and last block, with upper locations next
/// to them, on each part.
fn full_and_top_parts() {
    for part in 0..4 {
        let mut bench = Bench::new(part, 0xFFFF);
        bench.step(Step::Supply(true));
        for block in [3, 4, 258] {
            bench.unprotect(block);
            let size = bench.device.part.block(block).unwrap().size;
            let words = size.min(32);
            let start = bench.start(block) + size - words;
            let data: Vec<u16> = (0..words as u16).collect();
            bench.load_and_confirm(start, &data);
            assert_eq!(bench.work(65_535), words as u16);
            let range = start as usize..(start + words) as usize;
            assert_eq!(bench.array[range], data);
            if words == 32 {
                bench.write(start, &[0x50, 0xE8, 31]);
                bench.write(start + 1, &[0]);
                assert!(bench.ended_wrongly());
            }
        }
    }
}

/// "an unfinished one has reached as many of its lowest as it had units"; it is
/// accepted at D0h.
fn entries_of_the_journal() {
    let mut recorder = Recorder::new(2);
    let mut note = |steps: &[Step]| {
        for &step in steps {
            recorder.note(step);
        }
        recorder.clone()
    };
    let write = Step::Write;
    note(&[Step::Supply(true), write(0x40, 0x60), write(0x40, 0xD0)]);
    note(&[write(0x7F, 0xE8), write(0x40, 0x0002), write(0x50, 0x1111)]);
    note(&[write(0x52, 0x2222), Step::Reset]); // no block is unprotected now
    note(&[write(0x52, 0x0060), write(0x52, 0x00D0)]);
    note(&[write(0x7F, 0xE8), write(0x40, 0x0002), write(0x50, 0x1111)]);
    note(&[write(0x52, 0x2222), write(0x52, 0x3333)]);
    note(&[write(0x0100_0000, 0x00D0), Step::Work(9), Step::Read(0x40)]);
    let before = note(&[Step::Supply(false), Step::Supply(true)]);
    assert!(before.entries().is_empty() && before.set_up_pending());
    note(&[write(0x40, 0xD0), Step::Work(1), write(0x00, 0xB0)]);
    let suspended = note(&[Step::Work(9), write(0x40, 0xE8)]);
    let entry = &suspended.entries()[0];
    let kind = Kind::Buffer {
        start: 0x50,
        words: vec![0x1111, 0xFFFF, 0x3333],
    };
    assert_eq!((&entry.kind, entry.units), (&kind, 1));
    assert_eq!(entry.state, State::Suspended);
    assert!(!suspended.set_up_pending());
    let mut array = vec![0xFF00; 16_384];
    array[0x50] = 0x1100;
    assert_eq!(suspended.apply(&vec![0xFF00; 16_384]), array);
    let cut = note(&[write(0x00, 0xD0), Step::Work(1), Step::Reset]);
    let entry = &cut.entries()[0];
    assert_eq!((entry.units, entry.state), (2, State::BrokenOff));
    assert_eq!(cut.apply(&vec![0xFF00; 16_384]), array);
}

fn load_count(block: u32) -> Option<Setup> {
    Some(Setup::LoadCount { block })
}

fn load_first(block: u32, words: u32) -> Option<Setup> {
    Some(Setup::LoadFirst { block, words })
}

fn load_next(start: u32, words: u32, due: u32) -> Option<Setup> {
    Some(Setup::LoadNext { start, words, due })
}

fn buffer_program(start: u32, words: u32, done: u32) -> Option<Program> {
    Some(Program::Buffer { start, words, done })
}

fn running(start: u32, words: u32, done: u32) -> Option<Operation> {
    buffer_program(start, words, done).map(Operation::Program)
}

const WORD: Program = Program::Word {
    location: 0x80,
    data: 7,
};
const ERASE: Erase = Erase { block: 4, done: 1 };

/// The rule of well-formed states: "a load half done and a buffer program, whose
/// words lie in one block and are more than it has done". Gives the number of
/// states that are not well formed.
pub fn check_states() -> u32 {
    well_formed_states();
    malformed_loads() + malformed_buffer_programs()
}

fn malformed_loads() -> u32 {
    let ill: [Change; 24] = [
        &|d| (d.setup, d.running) = (load_count(4), Some(Operation::Program(WORD))),
        &|d| (d.setup, d.running) = (load_first(4, 2), Some(Operation::Erase(ERASE))),
        &|d| (d.setup, d.running) = (load_next(0x40, 2, 1), Some(Operation::Program(WORD))),
        &|d| (d.setup, d.suspended_program) = (load_count(4), Some(WORD)),
        &|d| (d.setup, d.suspended_program) = (load_first(4, 2), Some(WORD)),
        &|d| (d.setup, d.suspended_program) = (load_next(0x40, 2, 1), Some(WORD)),
        &|d| d.setup = load_count(259),
        &|d| d.setup = load_count(u32::MAX),
        &|d| d.setup = load_first(259, 1),
        &|d| d.setup = load_first(4, 0),
        &|d| d.setup = load_first(4, 33),
        &|d| d.setup = load_first(4, u32::MAX),
        &|d| d.setup = load_next(0x40, 0, 0),
        &|d| d.setup = load_next(0x40, 33, 0),
        &|d| d.setup = load_next(0x40, 4, 4),
        &|d| d.setup = load_next(0x40, 4, u32::MAX),
        &|d| d.setup = load_next(0x0F, 2, 0),
        &|d| d.setup = load_next(0x61, 32, 0),
        &|d| d.setup = load_next(16_383, 2, 0),
        &|d| d.setup = load_next(16_384, 1, 0),
        &|d| d.setup = load_next(u32::MAX, 32, 0),
        &|d| (d.setup, d.buffer[0]) = (load_count(4), 1),
        &|d| (d.setup, d.buffer[31]) = (load_first(4, 32), 1),
        &|d| (d.setup, d.buffer[4]) = (load_next(0x40, 4, 3), 0xFFFF),
    ];
    crate::check_states(&ill, &[])
}

fn malformed_buffer_programs() -> u32 {
    let ill: [Change; 17] = [
        &|d| (d.running, d.setup) = (running(0x40, 2, 1), Some(Setup::Program)),
        &|d| (d.running, d.setup) = (running(0x40, 2, 1), load_count(4)),
        &|d| (d.running, d.suspended_program) = (running(0x40, 2, 1), Some(WORD)),
        &|d| {
            d.running = running(0x40, 2, 1);
            d.suspended_program = buffer_program(0x80, 2, 0);
        },
        &|d| (d.setup, d.suspended_program) = (Some(Setup::Lock), buffer_program(0x80, 2, 0)),
        &|d| (d.running, d.suspended_erase) = (running(0x40, 2, 1), Some(ERASE)),
        &|d| {
            d.suspended_program = buffer_program(0x7F, 1, 0);
            d.suspended_erase = Some(ERASE);
        },
        &|d| d.running = running(0x40, 0, 0),
        &|d| d.running = running(0x40, 33, 0),
        &|d| d.running = running(0x40, 4, 4),
        &|d| d.running = running(0x40, 4, u32::MAX),
        &|d| d.running = running(0x0F, 2, 0),
        &|d| d.suspended_program = buffer_program(0x3FFF, 2, 0),
        &|d| d.suspended_program = buffer_program(0x4000, 1, 0),
        &|d| d.running = running(u32::MAX, 32, 0),
        &|d| (d.running, d.buffer[31]) = (running(0x40, 31, 0), 1),
        &|d| (d.running, d.buffer[0]) = (Some(Operation::Program(WORD)), 1),
    ];
    crate::check_states(&ill, &[])
}

fn well_formed_states() {
    let well: [Change; 15] = [
        &|d| d.setup = load_count(258),
        &|d| (d.setup, d.suspended_erase) = (load_count(4), Some(ERASE)),
        // Whether the words fit the block is judged at the first of them.
        &|d| d.setup = load_first(0, 32),
        &|d| (d.setup, d.suspended_erase) = (load_first(4, 32), Some(ERASE)),
        &|d| (d.setup, d.buffer) = (load_next(0x60, 32, 31), [0xFFFF; 32]),
        &|d| (d.setup, d.buffer[3]) = (load_next(0x0C, 4, 0), 1),
        &|d| (d.setup, d.suspended_erase) = (load_next(0x40, 1, 0), Some(ERASE)),
        &|d| d.setup = load_next(16_383, 1, 0),
        &|d| d.setup = load_next(16_352, 32, 0),
        &|d| d.running = running(0x40, 1, 0),
        &|d| (d.running, d.buffer) = (running(0x60, 32, 31), [0x1234; 32]),
        &|d| d.suspended_program = buffer_program(0x3FE0, 32, 0),
        &|d| (d.suspended_program, d.buffer[1]) = (buffer_program(0x0E, 2, 1), 7),
        &|d| (d.running, d.suspended_erase) = (running(0x80, 32, 1), Some(ERASE)),
        &|d| {
            d.suspended_program = buffer_program(0x3F, 1, 0);
            d.suspended_erase = Some(ERASE);
        },
    ];
    crate::check_states(&[], &well);
}
