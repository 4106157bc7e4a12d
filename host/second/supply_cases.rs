//! Cases of supply drops (document 02, item 5), on a bench bottom part: block 4
//! begins at 40h, block 5 at 80h, block 6 at C0h, bank 1 at 400h.

use crate::journal::{Kind, Recorder, State};
use crate::model::{
    Device, Erase, Flags, Mode, Operation, Part, Program, Setup, BANKS, BUFFER_WORDS,
};
use crate::steps::Step;
use crate::{check_example, check_malformed, check_recorder, refused, Bench, Change};

const ON: Step = Step::Supply(true);
const OFF: Step = Step::Supply(false);

/// Plays all cases; gives their number.
pub fn check() -> u32 {
    let cases = [
        worked_examples,
        what_runs_ends,
        flags_are_joined,
        erased_words_stay,
        buffer_words_stay,
        program_reaches_nothing,
        array_mode_shows_the_array_again,
        nothing_comes_back,
        supply_on_while_running,
        suspended_stay,
        suspended_go_on_with_supply,
        resume_without_supply_ends_one,
        resume_without_supply_and_nothing_suspended,
        second_cycle_is_no_resume,
        cut_inside_a_suspended_erase,
        set_ups_stay,
        set_ups_meet_the_supply_test,
        loads_stay,
        supply_before_the_suspended_erase,
        reset_keeps_the_supply,
        refused_steps_cut_nothing,
        every_part,
        entries_of_cut_operations,
        entries_of_ended_resumes,
        new_entry_after_a_cut,
    ];
    for case in cases {
        case();
    }
    cases.len() as u32
}

fn worked_examples() {
    // An erase cut after 10 of 64 units: A8h; offset 9 is erased, offset 10 is not.
    check_example(
        "V 1; W 000040 0060; W 000040 00D0; W 000040 0040; W 000040 0000; K 1 = 1;
         W 00004A 0040; W 00004A 0000; K 1 = 1; W 000040 0020; W 000040 00D0; K 10 = 10; V 0;
         R 000040 = 00A8; K 5 = 0; W 000040 0050; V 1; K 5 = 0; R 000040 = 0080; W 000040 00FF;
         R 000040 = FFFF; R 00004A = 0000",
    );
    // Both suspended; two D0h without supply end the program and then the erase.
    check_example(
        "V 1; W 000040 0060; W 000040 00D0; W 000080 0060; W 000080 00D0; W 000040 0020;
         W 000040 00D0; K 1 = 1; W 000040 00B0; W 000080 0040; W 000080 1234; W 000080 00B0;
         R 000080 = 00C4; V 0; R 000080 = 00C4; W 000080 00D0; R 000080 = 00D8; W 000080 00D0;
         R 000080 = 00B8; V 1; K 5 = 0; W 000080 00D0; R 000080 = 00B8; W 000080 00FF;
         R 000080 = FFFF",
    );
    // Supply off and on in a load does nothing; off after one of two units: 98h.
    check_example(
        "V 1; W 000040 0060; W 000040 00D0; W 000040 00E8; W 000040 0001; W 000040 AAAA;
         W 000041 BBBB; V 0; V 1; W 000040 00D0; K 1 = 1; V 0; R 000040 = 0098; W 000040 00FF;
         R 000040 = AAAA; R 000041 = FFFF",
    );
}

/// Supply on, blocks 4 to 6 unprotected, all words 0F0Fh, every bank in another
/// mode than its neighbours.
fn idle() -> Bench {
    let mut bench = Bench::ready(&[4, 5, 6]);
    bench.array.fill(0x0F0F);
    let modes = [Mode::Query, Mode::Array, Mode::Signature, Mode::Status];
    for bank in 0..BANKS {
        bench.device.modes[bank] = modes[bank % 4];
    }
    bench
}

/// The same with the erase of block 6 suspended after three units.
fn erase_suspended() -> Bench {
    let mut bench = idle();
    bench.write(0xC0, &[0x20, 0xD0]);
    assert_eq!(bench.work(3), 3);
    bench.after(0xC0, 0xB0)
}

/// A bench with each kind of program running, by its units, and the flags that its
/// end sets.
fn with_programs(bench: &Bench) -> Vec<(Bench, Flags)> {
    let mut benches = vec![bench.after(0x85, 0x40).after(0x85, 0x1234)];
    for units in [0, 1, 3] {
        let mut bench = bench.clone();
        bench.load_and_confirm(0x48, &[1, 2, 3, 0xFFFF]);
        assert_eq!(u32::from(bench.work(units)), units);
        benches.push(bench);
    }
    benches.into_iter().map(|bench| (bench, SR43)).collect()
}

/// Each kind of operation running, at no unit, at some and before the last one;
/// programs beside a suspended erase too.
fn running() -> Vec<(Bench, Flags)> {
    let mut benches = with_programs(&idle());
    benches.extend(with_programs(&erase_suspended()));
    for units in [0, 1, 40, 63] {
        let mut bench = idle();
        bench.write(0x40, &[0x20, 0xD0]);
        assert_eq!(u32::from(bench.work(units)), units);
        benches.push((bench, SR53));
    }
    benches
}

/// Each kind of operation suspended, and a program in an erase suspend; the flags
/// are those of the one that D0h resumes.
fn suspended() -> Vec<(Bench, Flags)> {
    let mut benches = running();
    for (bench, _) in &mut benches {
        bench.write(0x400, &[0xB0]);
    }
    benches
}

const NO_FLAGS: Flags = Flags {
    sr5: false,
    sr4: false,
    sr3: false,
    sr1: false,
};
/// SR3 and SR4, of a program.
const SR43: Flags = Flags {
    sr4: true,
    sr3: true,
    ..NO_FLAGS
};
/// SR3 and SR5, of an erase.
const SR53: Flags = Flags {
    sr5: true,
    sr3: true,
    ..NO_FLAGS
};

fn joined(one: Flags, other: Flags) -> Flags {
    Flags {
        sr5: one.sr5 || other.sr5,
        sr4: one.sr4 || other.sr4,
        sr3: one.sr3 || other.sr3,
        sr1: one.sr1 || other.sr1,
    }
}

fn all_flags() -> impl Iterator<Item = Flags> {
    (0..16).map(|bits| Flags {
        sr5: bits & 8 != 0,
        sr4: bits & 4 != 0,
        sr3: bits & 2 != 0,
        sr1: bits & 1 != 0,
    })
}

impl Bench {
    /// The same bench after one more step.
    fn then(&self, step: Step) -> Bench {
        let mut after = self.clone();
        after.step(step);
        after
    }

    /// The device is the one due, and the words are those of another bench.
    fn is(&self, due: &Device, words: &Bench) {
        assert_eq!(self.device, *due);
        assert!(self.array == words.array, "words have changed");
    }
}

/// "When supply goes off, a running operation ends then and there": it is gone, its
/// flags are set, the buffer is empty; modes, protection and what is suspended stay,
/// and so does every word.
fn what_runs_ends() {
    for (bench, flags) in running() {
        let due = Device {
            supply: false,
            running: None,
            flags,
            buffer: [0; BUFFER_WORDS],
            ..bench.device.clone()
        };
        bench.then(OFF).is(&due, &bench);
    }
}

/// Flags that are there stay, and none keeps an operation from being cut.
fn flags_are_joined() {
    for (mut bench, flags) in running() {
        for before in all_flags() {
            bench.device.flags = before;
            let after = bench.then(OFF).device;
            assert_eq!(after.flags, joined(before, flags));
            assert_eq!(after.running, None);
        }
    }
    for (mut bench, flags) in suspended() {
        bench.step(OFF);
        for before in all_flags() {
            bench.device.flags = before;
            let after = bench.after(0x400, 0xD0).device;
            assert_eq!(after.flags, joined(before, flags));
        }
    }
}

/// As many of the lowest words as it had units are FFFFh, in one step or in many.
fn erased_words_stay() {
    for units in 0..64 {
        let mut bench = idle();
        bench.write(0x40, &[0x20, 0xD0]);
        let first = units / 3;
        bench.work(first);
        bench.work(units - first);
        bench.step(OFF);
        let words = bench.array.clone();
        let (reached, rest) = words[0x40..0x80].split_at(units as usize);
        assert!(reached.iter().all(|&word| word == 0xFFFF));
        assert!(rest.iter().all(|&word| word == 0x0F0F));
        bench.write(0x40, &[0x70]);
        assert_eq!((bench.read(0x40), bench.work(65_535)), (0xA8, 0));
        bench.step(ON);
        assert_eq!((bench.read(0x40), bench.work(65_535)), (0xA8, 0));
        assert!(bench.array == words);
    }
}

/// The same of a buffer program: its lowest words are anded in.
fn buffer_words_stay() {
    let data: Vec<u16> = (0..32).map(|place| 0x8101 * (1 + place % 7)).collect();
    for units in 0..32 {
        let mut bench = idle();
        bench.load_and_confirm(0x50, &data);
        assert_eq!(bench.work(units), units as u16);
        bench.step(OFF);
        for (place, &word) in data.iter().enumerate() {
            let reached = place < units as usize;
            let due = if reached { 0x0F0F & word } else { 0x0F0F };
            assert_eq!(bench.array[0x50 + place], due);
        }
        assert_eq!((bench.read(0x50), bench.device.buffer), (0x98, [0; 32]));
        bench.step(ON);
        assert_eq!((bench.work(9), bench.read(0x50)), (0, 0x98));
    }
}

fn program_reaches_nothing() {
    let mut bench = idle();
    bench.write(0x41, &[0x40, 0x0000]);
    assert_eq!(bench.work(0), 0);
    bench.step(OFF);
    assert_eq!((bench.read(0x41), bench.array[0x41]), (0x98, 0x0F0F));
    bench.step(ON);
    assert_eq!((bench.work(1), bench.array[0x41]), (0, 0x0F0F));
}

/// No mode changes, so a bank in array mode showed the status word while something
/// ran there, and shows its words after the cut.
fn array_mode_shows_the_array_again() {
    for (mut bench, _) in running() {
        bench.write(0x40, &[0xFF]);
        assert_eq!(bench.read(0x7F) & 0xBF, 0x00);
        bench.step(OFF);
        assert_eq!((bench.mode(0), bench.read(0x7F)), (Mode::Array, 0x0F0F));
    }
}

/// Supply off again, on, work, D0h and B0h bring nothing back of what was cut; the
/// flags stay until 50h and block no new operation.
fn nothing_comes_back() {
    for (mut bench, flags) in with_programs(&idle()) {
        bench.step(OFF);
        let cut = bench.clone();
        bench.step(OFF);
        bench.is(&cut.device, &cut);
        bench.write(0x40, &[0xD0, 0xB0]);
        assert_eq!(bench.work(65_535), 0);
        bench.step(ON);
        bench.write(0x40, &[0xD0, 0xB0, 0xD0]);
        assert_eq!(bench.work(65_535), 0);
        let due = Device {
            supply: true,
            ..cut.device.clone()
        };
        bench.is(&due, &cut);
        bench.load_and_confirm(0x48, &[1, 2]);
        assert_eq!((bench.work(9), bench.device.flags), (2, flags));
        bench.write(0x40, &[0x20, 0xD0]);
        assert_eq!((bench.work(99), bench.read(0x40)), (64, 0x98));
        bench.write(0x40, &[0x50]);
        assert_eq!(bench.read(0x40), 0x80);
    }
}

/// Supply on when it is on changes nothing, whatever runs or is suspended.
fn supply_on_while_running() {
    for (bench, _) in running().into_iter().chain(suspended()) {
        bench.then(ON).is(&bench.device, &bench);
    }
    for (mut bench, _) in running() {
        bench.step(ON);
        assert!(bench.work(1) == 1 && bench.device.flags == NO_FLAGS);
    }
}

/// "Suspended ones stay": off, off again and on change nothing but the supply.
fn suspended_stay() {
    for (bench, _) in suspended() {
        let off = Device {
            supply: false,
            ..bench.device.clone()
        };
        let mut after = bench.then(OFF);
        after.is(&off, &bench);
        after.step(OFF);
        after.is(&off, &bench);
        assert_eq!(after.work(65_535), 0);
        after.step(ON);
        after.is(&bench.device, &bench);
    }
}

/// With supply on again, D0h resumes as if it had never been off.
fn suspended_go_on_with_supply() {
    for (bench, _) in suspended() {
        let mut dropped = bench.then(OFF).then(ON);
        let mut kept = bench.clone();
        for _ in 0..2 {
            dropped.write(0x400, &[0xD0]);
            kept.write(0x400, &[0xD0]);
            assert_eq!(dropped.work(65_535), kept.work(65_535));
            dropped.is(&kept.device, &kept);
        }
        assert_eq!(dropped.device.flags, NO_FLAGS);
    }
}

/// "resumed without supply, they end with the same flags and no unit": the one that
/// would have been resumed, and it alone; a second D0h ends the other. Neither changes
/// a mode, also where its bank is in array or signature mode.
fn resume_without_supply_ends_one() {
    for (mut bench, flags) in suspended() {
        bench.step(OFF);
        let mut due = bench.device.clone();
        due.flags = flags;
        due.buffer = [0; BUFFER_WORDS];
        let both = due.suspended_program.is_some() && due.suspended_erase.is_some();
        if due.suspended_program.take().is_none() {
            due.suspended_erase = None;
        }
        let mut after = bench.after(0x400, 0x12D0);
        after.is(&due, &bench);
        after.write(0x800, &[0xD0]);
        if both {
            due.suspended_erase = None;
            due.flags = joined(SR43, SR53);
        }
        after.is(&due, &bench);
        assert_eq!(after.work(65_535), 0);
        after.step(ON);
        after.write(0, &[0xD0]);
        assert_eq!((after.work(65_535), after.device.running), (0, None));
    }
}

fn resume_without_supply_and_nothing_suspended() {
    let mut bench = idle();
    bench.step(OFF);
    for flags in all_flags() {
        bench.device.flags = flags;
        bench.after(0x40, 0xD0).is(&bench.device, &bench);
    }
}

/// D0h as the second cycle of a set-up or as a cycle of a load is no resume: the
/// suspended erase stays.
fn second_cycle_is_no_resume() {
    let mut bench = erase_suspended();
    bench.step(OFF);
    let erase = bench.device.suspended_erase;
    let lock = bench.after(0x400, 0x60).after(0x400, 0xD0).device;
    assert!(lock.unprotected[19] && lock.suspended_erase == erase);
    assert_eq!(lock.flags, NO_FLAGS);
    let program = bench.after(0x40, 0x40).after(0x40, 0x00D0).device;
    assert_eq!((program.suspended_erase, program.flags), (erase, SR43));
    bench.load(0x40, &[0x00D0, 0x00D0]);
    assert_eq!(bench.device.suspended_erase, erase);
    assert_eq!(bench.device.flags, NO_FLAGS);
    bench.write(0x40, &[0xD0]);
    assert_eq!(
        (bench.device.suspended_erase, bench.read(0x40)),
        (erase, 0xD8)
    );
    assert_eq!(bench.device.buffer, [0; BUFFER_WORDS]);
    // Now there is no set-up, and D0h is one.
    bench.write(0x40, &[0xD0]);
    assert_eq!(
        (bench.device.suspended_erase, bench.read(0x40)),
        (None, 0xB8)
    );
    // Of an erase set-up nothing can be suspended; its D0h is refused.
    let mut bench = idle();
    bench.step(OFF);
    bench.write(0x40, &[0x20, 0xD0]);
    assert_eq!(bench.read(0x40), 0xA8);
}

/// The program ends and the erase stays suspended; with supply it goes on.
fn cut_inside_a_suspended_erase() {
    for (mut bench, _) in with_programs(&erase_suspended()) {
        let erase = bench.device.suspended_erase;
        bench.step(OFF);
        assert_eq!(bench.device.suspended_erase, erase);
        bench.write(0x40, &[0x70]);
        assert_eq!(bench.read(0x40), 0xD8);
        let mut ended = bench.after(0x40, 0xD0);
        assert_eq!((ended.read(0x40), ended.work(99)), (0xB8, 0));
        assert_eq!(ended.array[0xC2..0xC4], [0xFFFF, 0x0F0F]);
        bench.step(ON);
        bench.write(0x40, &[0xD0]);
        assert_eq!((bench.read(0x40), bench.work(99)), (0x18, 61));
        assert_eq!(bench.read(0x40), 0x98);
        assert!(bench.array[0xC0..0x100].iter().all(|&word| word == 0xFFFF));
    }
}

/// A pending set-up stays over supply steps, beside a suspended erase too.
fn set_ups_stay() {
    for bench in [idle(), erase_suspended()] {
        for command in [0x10, 0x40, 0x60, 0x20, 0xE8] {
            let set_up = bench.after(0x40, command);
            let due = bench.device.suspended_erase.is_none() || command != 0x20;
            assert_eq!(set_up.device.setup.is_some(), due);
            let off = Device {
                supply: false,
                ..set_up.device.clone()
            };
            set_up.then(OFF).is(&off, &bench);
            set_up.then(OFF).then(OFF).is(&off, &bench);
            set_up.then(OFF).then(ON).is(&set_up.device, &bench);
            set_up.then(ON).is(&set_up.device, &bench);
        }
    }
}

/// The second cycle looks at the supply as it is then; a lock does not.
fn set_ups_meet_the_supply_test() {
    let bench = idle();
    for (command, data, flags) in [(0x40, 0x00FF, SR43), (0x20, 0x00D0, SR53)] {
        let set_up = bench.after(0x40, command);
        let off = set_up.then(OFF).after(0x40, data).device;
        assert_eq!((off.running, off.setup, off.flags), (None, None, flags));
        let on = set_up.then(OFF).then(ON).after(0x40, data).device;
        assert_eq!((on.setup, on.flags), (None, NO_FLAGS));
        assert_eq!(on, set_up.after(0x40, data).device);
        // A set-up that was made without supply is none the worse for it.
        let late = bench.then(OFF).after(0x40, command).then(ON);
        assert_eq!(late.after(0x40, data).device, on);
    }
    // A wrong second cycle is wrong whatever the supply.
    let wrong = bench.after(0x40, 0x20).then(OFF).after(0x40, 0x00FF).device;
    assert!(wrong.flags.sr5 && wrong.flags.sr4 && !wrong.flags.sr3);
    let lock = bench.after(0x40, 0x60).then(OFF);
    assert!(!lock.after(0x40, 0x01).device.unprotected[4]);
    assert!(lock.after(0x400, 0xD0).device.unprotected[19]);
    assert_eq!(lock.after(0x8005, 0x03).device.configuration, 0x8005);
    assert_eq!(lock.after(0x40, 0x01).device.flags, NO_FLAGS);
}

/// A load stays over supply steps at each of its cycles, with the words in it.
fn loads_stay() {
    let cycles = [
        (0x40, 0x00E8),
        (0x40, 0x0002),
        (0x50, 0xAAAA),
        (0x52, 0x00D0),
    ];
    let cycles = cycles.into_iter().chain([(0x51, 0x00B0)]);
    let (mut bench, mut dropped) = (idle(), idle());
    for (address, data) in cycles {
        bench.write(address, &[data]);
        dropped.write(address, &[data]);
        dropped.step(OFF);
        let off = Device {
            supply: false,
            ..bench.device.clone()
        };
        dropped.is(&off, &bench);
        // The cycles go on without supply as well: only D0h looks at it.
        if data == 0x00E8 {
            continue;
        }
        dropped.step(ON);
        dropped.is(&bench.device, &bench);
    }
    let mut off = dropped.then(OFF).after(0x40, 0xD0);
    assert_eq!((off.read(0x40), off.work(9)), (0x98, 0));
    assert_eq!(off.device.buffer, [0; BUFFER_WORDS]);
    assert_eq!(off.device.setup, None);
    dropped.write(0x40, &[0xD0]);
    assert_eq!((dropped.read(0x40), dropped.work(9)), (0x00, 3));
    assert_eq!(dropped.array[0x50..0x53], [0x0A0A, 0x0000, 0x0000]);
}

/// "supply off, set SR4 and SR3" comes before the suspended erase's SR4.
fn supply_before_the_suspended_erase() {
    let mut bench = erase_suspended();
    bench.step(OFF);
    let program = bench.after(0xC0, 0x40).after(0xC0, 0x1234).device;
    assert_eq!(program.flags, SR43);
    bench.load_and_confirm(0xC0, &[1, 2]);
    assert_eq!((bench.read(0xC0), bench.device.flags), (0xD8, SR43));
}

/// Reset gives the power-up state with the supply as it is, and sets no flag.
fn reset_keeps_the_supply() {
    for (bench, _) in running().into_iter().chain(suspended()) {
        for cut in [false, true] {
            let before = if cut { bench.then(OFF) } else { bench.clone() };
            let after = before.then(Step::Reset);
            let due = Device {
                supply: !cut,
                ..Device::power_up(2)
            };
            after.is(&due, &bench);
        }
    }
}

/// A refused supply step is none.
fn refused_steps_cut_nothing() {
    for (bench, _) in running() {
        for step in [OFF, ON] {
            refused(&bench.device, 16_383, step, 1);
        }
    }
    for (bench, _) in suspended() {
        let off = bench.then(OFF).device;
        refused(&off, 16_384, Step::Write(0x0100_0000, 0xD0), 3);
        refused(&off, 16_383, Step::Write(0x40, 0xD0), 1);
    }
}

/// An erase and a buffer program cut after some units, at both ends of each part.
fn every_part() {
    for part in Part::ALL {
        let mut bench = Bench::new(part.number(), 0x0F0F);
        bench.step(ON);
        for block in [0, 4, 258] {
            bench.unprotect(block);
            let start = bench.start(block);
            let first = start as usize;
            bench.write(start, &[0x20, 0xD0]);
            assert_eq!(bench.work(10), 10);
            bench.step(OFF);
            assert_eq!((bench.read(start), bench.work(65_535)), (0xA8, 0));
            assert_eq!(bench.array[first + 9..first + 11], [0xFFFF, 0x0F0F]);
            bench.step(ON);
            bench.write(start, &[0x50]);
            bench.load_and_confirm(start + 1, &[1, 2, 3, 4]);
            assert_eq!(bench.work(2), 2);
            bench.step(OFF);
            assert_eq!((bench.read(start), bench.work(65_535)), (0x98, 0));
            assert_eq!(bench.array[first..first + 4], [0xFFFF, 1, 2, 0xFFFF]);
            bench.step(ON);
            bench.write(start, &[0x50, 0x20, 0xD0]);
            let size = bench.device.part.block(block).unwrap().size;
            assert_eq!(u32::from(bench.work(65_535)), size.min(65_535));
            bench.work(1);
            assert_eq!((bench.read(start), bench.device.running), (0x80, None));
        }
    }
}

/// A bench and a recorder that are told the same steps: after each of them the words
/// are those of the journal.
struct Told {
    bench: Bench,
    recorder: Recorder,
    start: Vec<u16>,
}

impl Told {
    /// Supply on and blocks 4 to 6 unprotected, all words 0F0Fh.
    fn new() -> Told {
        let bench = Bench::new(2, 0x0F0F);
        let mut told = Told {
            start: bench.array.clone(),
            bench,
            recorder: Recorder::new(2),
        };
        told.step(ON);
        for start in [0x40, 0x80, 0xC0] {
            told.write(start, &[0x60, 0xD0]);
        }
        told
    }

    fn step(&mut self, step: Step) {
        self.bench.step(step);
        self.recorder.note(step);
        assert!(self.bench.array == self.recorder.apply(&self.start));
        check_recorder(&self.recorder, &self.bench.device);
    }

    fn write(&mut self, address: u32, words: &[u16]) {
        for &word in words {
            self.step(Step::Write(address, word));
        }
    }

    /// The units and the state of each entry.
    fn entries(&self) -> Vec<(u32, State)> {
        let entries = self.recorder.entries().iter();
        entries.map(|entry| (entry.units, entry.state)).collect()
    }
}

/// "Demand 3 counts such an entry as unfinished": supply off breaks off what runs,
/// and no later step gives it a unit.
fn entries_of_cut_operations() {
    for (cycles, units) in [
        (&[(0x41, 0x40), (0x41, 0x0000)][..], 0),
        (&[(0x40, 0x20), (0x40, 0xD0)], 10),
        (
            &[(0x40, 0xE8), (0x40, 1), (0x41, 7), (0x42, 8), (0x40, 0xD0)],
            1,
        ),
    ] {
        let mut told = Told::new();
        for &(address, data) in cycles {
            told.write(address, &[data]);
        }
        told.step(Step::Work(units));
        told.step(ON); // it is on already
        assert_eq!(told.entries(), [(units, State::Running)]);
        told.step(OFF);
        assert_eq!(told.entries(), [(units, State::BrokenOff)]);
        for step in [OFF, Step::Work(9), ON, Step::Work(9), Step::Reset] {
            told.step(step);
            told.write(0x40, &[0xD0, 0xB0]);
        }
        assert_eq!(told.entries(), [(units, State::BrokenOff)]);
    }
}

/// D0h without supply breaks off the program's entry, a second one the erase's.
fn entries_of_ended_resumes() {
    for buffer in [false, true] {
        let mut told = Told::new();
        told.write(0xC0, &[0x20, 0xD0]);
        told.step(Step::Work(5));
        told.write(0xC0, &[0xB0]);
        if buffer {
            told.write(0x80, &[0xE8, 1, 7, 8, 0xD0]);
            told.step(Step::Work(1));
        } else {
            told.write(0x80, &[0x40, 7]);
        }
        told.write(0x80, &[0xB0]);
        let units = u32::from(buffer);
        let entries = |erase, program| vec![(5, erase), (units, program)];
        told.step(OFF);
        assert_eq!(told.entries(), entries(State::Suspended, State::Suspended));
        told.write(0x80, &[0x12D0]);
        assert_eq!(told.entries(), entries(State::Suspended, State::BrokenOff));
        told.step(Step::Work(9));
        let mut resumed = Told {
            bench: told.bench.clone(),
            recorder: told.recorder.clone(),
            start: told.start.clone(),
        };
        resumed.step(ON);
        resumed.write(0x80, &[0xD0]);
        resumed.step(Step::Work(65_535));
        let finished = vec![(64, State::Finished), (units, State::BrokenOff)];
        assert_eq!(resumed.entries(), finished);
        told.write(0x80, &[0xD0]);
        assert_eq!(told.entries(), entries(State::BrokenOff, State::BrokenOff));
        told.step(ON);
        told.write(0x80, &[0xD0]);
        told.step(Step::Work(9));
        assert_eq!(told.entries(), entries(State::BrokenOff, State::BrokenOff));
    }
}

/// The word is programmed again, and the block erased again, by new entries; none is
/// added while supply is off.
fn new_entry_after_a_cut() {
    let mut told = Told::new();
    told.write(0x80, &[0x40, 0x00FF]);
    told.step(OFF);
    told.write(0x80, &[0x40, 0x00FF]);
    told.write(0x40, &[0x20, 0xD0]);
    told.write(0x80, &[0xE8, 0, 7, 0xD0]);
    assert_eq!(told.entries(), [(0, State::BrokenOff)]);
    told.step(ON);
    told.write(0x80, &[0x40, 0x00FF]);
    told.step(Step::Work(1));
    assert_eq!(
        told.entries(),
        [(0, State::BrokenOff), (1, State::Finished)]
    );
    assert_eq!(told.bench.array[0x80], 0x000F);
    told.write(0x80, &[0x20, 0xD0]);
    told.step(Step::Work(1));
    told.step(OFF);
    told.step(ON);
    told.write(0x80, &[0x20, 0xD0]);
    told.step(Step::Work(65_535));
    let last = told.recorder.entries().last().unwrap();
    assert_eq!(
        (&last.kind, last.state),
        (&Kind::Erase { block: 5 }, State::Finished)
    );
    assert_eq!(told.entries()[2], (1, State::BrokenOff));
}

const WORD: Program = Program::Word {
    location: 0x80,
    data: 7,
};
const BUFFER: Program = Program::Buffer {
    start: 0x80,
    words: 2,
    done: 1,
};
const ERASE: Erase = Erase {
    block: 200,
    done: 1,
};

/// "In a well made state something runs only with supply on". Gives the number of
/// states that are not well formed.
pub fn check_states() -> u32 {
    suspended_and_set_up_states();
    let mut count = 0;
    for (bench, _) in running() {
        let mut device = bench.device;
        device.supply = false;
        check_malformed(&device);
        count += 1;
    }
    for part in Part::ALL {
        for shape in RUNNING {
            let mut device = Device::power_up(part.number());
            shape(&mut device);
            assert_eq!(device.unprotected_report().refusal, 2, "{device:?}");
            if part.unit() == 64 {
                check_malformed(&device);
            }
            device.supply = true;
            assert!(device.well_formed(), "{device:?}");
            count += 1;
        }
    }
    count
}

/// Something runs, and all else is as after power-up but for a suspended erase.
const RUNNING: [Change; 5] = [
    &|d| d.running = Some(Operation::Program(WORD)),
    &|d| d.running = Some(Operation::Program(BUFFER)),
    &|d| d.running = Some(Operation::Erase(ERASE)),
    &|d| {
        d.running = Some(Operation::Program(WORD));
        d.suspended_erase = Some(ERASE);
    },
    &|d| {
        d.running = Some(Operation::Program(BUFFER));
        d.suspended_erase = Some(ERASE);
    },
];

/// Well formed with supply on and with supply off.
fn suspended_and_set_up_states() {
    let load = Setup::LoadFirst { block: 4, words: 2 };
    let well: [Change; 9] = [
        &|d| d.suspended_program = Some(WORD),
        &|d| d.suspended_program = Some(BUFFER),
        &|d| d.suspended_erase = Some(ERASE),
        &|d| (d.suspended_program, d.suspended_erase) = (Some(WORD), Some(ERASE)),
        &|d| (d.suspended_program, d.suspended_erase) = (Some(BUFFER), Some(ERASE)),
        &|d| d.setup = Some(Setup::Program),
        &|d| d.setup = Some(Setup::Erase),
        &|d| (d.setup, d.suspended_erase) = (Some(Setup::Lock), Some(ERASE)),
        &|d| (d.setup, d.suspended_erase) = (Some(load), Some(ERASE)),
    ];
    crate::check_states(&[], &well);
}
