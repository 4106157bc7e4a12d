//! Compares the plain C model with the independent second model on random lists
//! of steps, from power-up, on all four parts: every answer, the counts of finished
//! erases and the most worn block after each call, and the whole array after each
//! list. Counts what became of the steps, and fails too where the lists reach less
//! than they did.
//!
//!     plain_compare
//!
//! Exit status: 0 all equal, 1 a difference.

#[allow(dead_code)] // its states to begin from: the C model takes none
mod author;
mod library;
mod outcome;
mod plain;
mod plain_wear;
mod second {
    pub mod geometry;
    pub mod model;
    pub mod steps;
}

use author::{Author, Dice};
use plain::Plain;
use plain_wear::Wear;
use second::model::{
    Answer, Device, Erase, Flags, Mode, Operation, Part, Place, Program, Setup, ADDRESSES, BANKS,
    BLOCKS, BUFFER_WORDS, DEFAULT_CONFIGURATION,
};
use second::steps::Step;
use std::collections::{BTreeMap, VecDeque};
use std::process::ExitCode;

/// Lists for each part.
const LISTS: [u64; 4] = [30, 30, 4_000, 4_000];

/// How many different things become of a step. Fewer would mean that the lists
/// try less than they seem to.
const OUTCOMES: usize = 218;

/// How often each outcome of a supply step, and each end without supply, has to come.
const LEAST_DROPS: u64 = 100;

/// How often each kind of erase that is finished, or broken off before its last word,
/// and each kind of most worn block has to come (document 02, item 6).
const LEAST_WEAR: u64 = 1_000;
const WEAR: [&str; 4] = [
    "finished erase",
    "erase broken off before its last word",
    "most worn block",
    "wear counts",
];

/// What lies in an answer before a call.
const UNTOUCHED: u64 = 0xA5A5_5A5A_C3C3_3C3C;

/// Steps that are printed before a difference.
const LAST_STEPS: usize = 10;

fn main() -> ExitCode {
    outcome::end(compare())
}

fn compare() -> Result<String, String> {
    let mut tally = Tally::default();
    for part in Part::ALL {
        let mut pair = Pair::new(part);
        // Other seeds for each part, so that no two parts get the same lists.
        let first = u64::from(part.number()) << 32;
        for seed in first..first + LISTS[part.number() as usize] {
            pair.list(seed).map_err(|difference| {
                format!("plain_compare: {part:?}, seed {seed}: {difference}")
            })?;
        }
        println!("{part:?}: {}", pair.tally.text());
        tally.add(pair.tally);
    }
    print!("{}", tally.table());
    let beyond = beyond_the_most()?;
    println!("erases beyond 65,535: {}", beyond.text());
    let reached = tally.outcomes.len();
    if reached != OUTCOMES {
        return Err(format!(
            "plain_compare: {reached} outcomes reached, and not {OUTCOMES}"
        ));
    }
    if let Some(seldom) = tally.seldom() {
        return Err(format!("plain_compare: too seldom: {seldom}"));
    }
    Ok(format!(
        "plain_compare: all equal: {}, {reached} outcomes",
        tally.text()
    ))
}

/// On the bench parts, a small and a main block are erased more often than a count
/// holds; what becomes of these many steps is not counted with that of the lists.
fn beyond_the_most() -> Result<Tally, String> {
    let mut tally = Tally::default();
    for part in [Part::BenchBottom, Part::BenchTop] {
        let mut pair = Pair::new(part);
        pair.beyond_the_most().map_err(|difference| {
            format!("plain_compare: {part:?}, erases beyond 65,535: {difference}")
        })?;
        tally.add(pair.tally);
    }
    Ok(tally)
}

/// What was compared, and what became of the steps.
#[derive(Default)]
struct Tally {
    lists: u64,
    steps: u64,
    words: u64,
    outcomes: BTreeMap<(&'static str, &'static str), u64>,
}

impl Tally {
    fn count(&mut self, asked: &'static str, became: &'static str, times: u64) {
        *self.outcomes.entry((asked, became)).or_default() += times;
    }

    fn add(&mut self, other: Tally) {
        self.lists += other.lists;
        self.steps += other.steps;
        self.words += other.words;
        for ((asked, became), times) in other.outcomes {
            self.count(asked, became, times);
        }
    }

    fn text(&self) -> String {
        format!(
            "{} lists, {} steps, {} array words",
            self.lists, self.steps, self.words
        )
    }

    /// What the lists do too seldom with the supply (document 02, item 5) and with the
    /// counts (item 6).
    fn seldom(&self) -> Option<String> {
        let drop = |asked: &str, became: &str| {
            asked.starts_with("supply") || asked == "write, D0h" && became.starts_with("ended")
        };
        let least = |asked, became| match (WEAR.contains(&asked), drop(asked, became)) {
            (true, _) => LEAST_WEAR,
            (_, true) => LEAST_DROPS,
            _ => 1,
        };
        self.outcomes
            .iter()
            .find(|&(&(asked, became), &times)| times < least(asked, became))
            .map(|((asked, became), times)| format!("{asked}: {times} {became}"))
    }

    /// A line for each thing asked, with what became of it.
    fn table(&self) -> String {
        let mut lines: BTreeMap<&str, Vec<String>> = BTreeMap::new();
        for ((asked, became), times) in &self.outcomes {
            let line = lines.entry(asked).or_default();
            line.push(format!("{times} {became}"));
        }
        lines
            .iter()
            .map(|(asked, line)| format!("  {asked}: {}\n", line.join(", ")))
            .collect()
    }
}

/// Both models of one part, each with its own array.
struct Pair {
    part: Part,
    plain: Plain,
    array: Vec<u16>,
    device: Device,
    model_array: Vec<u16>,
    /// The steps of the list so far.
    history: Vec<u64>,
    /// The words that were given to the load so far, by the bits from the start on.
    given: u32,
    wear: Wear,
    tally: Tally,
}

impl Pair {
    fn new(part: Part) -> Pair {
        Pair {
            part,
            plain: Plain::power_up(part.number()),
            array: vec![0; part.array_length()],
            device: Device::power_up(part.number()),
            model_array: vec![0; part.array_length()],
            history: Vec::new(),
            given: 0,
            wear: Wear::default(),
            tally: Tally::default(),
        }
    }

    /// Plays the list of a seed from power-up on a random array, then asks for
    /// all that the state holds, then compares the arrays.
    fn list(&mut self, seed: u64) -> Result<(), String> {
        let mut dice = Dice::new(seed);
        let mut author = Author::new(self.part, dice.next());
        self.begin(&mut dice);
        let blocks = plain_wear::blocks(&mut dice);
        let mut scene = VecDeque::new();

        let words = self.array.len();
        let mut left = dice.index(if self.part.unit() > 64 { 6_000 } else { 600 });
        while left > 0 {
            let size = left.min(1 + dice.index(60));
            let told = match dice.below(40) {
                0 => dice.pick(&[words - 1, words / 2, 1, 0]),
                _ => words,
            };
            if dice.percent(10) {
                scene.extend(plain_wear::scene(&mut dice, self.part, &blocks));
            }
            self.call(told, size, &mut |device| match scene.pop_front() {
                Some(step) => library::number(step),
                None => author.next(device),
            })?;
            left -= size;
        }
        let closing = closing(&self.device, dice.percent(50));
        self.steps(&closing)?;
        self.same_arrays()?;
        self.tally.lists += 1;
        Ok(())
    }

    /// Power-up of both, and the same random words.
    fn begin(&mut self, dice: &mut Dice) {
        self.plain = Plain::power_up(self.part.number());
        self.device = Device::power_up(self.part.number());
        self.history.clear();
        fill(&mut self.array, dice);
        self.model_array.copy_from_slice(&self.array);
    }

    /// One call of these steps.
    fn steps(&mut self, steps: &[Step]) -> Result<(), String> {
        let mut numbers = steps.iter().copied().map(library::number);
        let mut next = |_: &Device| numbers.next().expect("as many as are asked for");
        self.call(self.array.len(), steps.len(), &mut next)
    }

    /// The list of `plain_wear::beyond_the_most`, at whose end both counts have stopped.
    fn beyond_the_most(&mut self) -> Result<(), String> {
        let blocks = [3, 19];
        self.begin(&mut Dice::new(u64::from(self.part.number())));
        for steps in plain_wear::beyond_the_most(self.part, blocks).chunks(60) {
            self.steps(steps)?;
        }
        for block in blocks {
            let count = self.plain.erase_count(block);
            if count != 65_535 {
                return Err(format!("{count} erases of block {block} at the end"));
            }
        }
        self.same_arrays()?;
        self.tally.lists += 1;
        Ok(())
    }

    /// One call of so many numbers, which is told of the first words of the array
    /// alone: every answer is compared, and how many steps were played.
    fn call(
        &mut self,
        told: usize,
        size: usize,
        next: &mut dyn FnMut(&Device) -> u64,
    ) -> Result<(), String> {
        let first = self.history.len();
        let mut expected = self.expected(told, size, next);
        let played = expected.len();
        let numbers = &self.history[first..];
        expected.resize(numbers.len(), UNTOUCHED);
        let mut answers = vec![UNTOUCHED; numbers.len()];
        let array = &mut self.array[..told];
        let got = self.plain.run(numbers, &mut answers, array);
        let different = |&place: &usize| expected[place] != answers[place];
        if let Some(place) = (0..answers.len()).find(different) {
            let (expected, got) = (expected[place], answers[place]);
            let what = format!("answer {got:09X}h, and not {expected:09X}h");
            return Err(self.message(first + place, &what));
        }
        if got != played {
            let what = format!("{got} steps played, and not {played}");
            return Err(self.message(first + played, &what));
        }
        self.same_counts()
    }

    /// The second model's answers to so many numbers, which are kept in the
    /// history. A number that is no step ends them: a reset follows it there,
    /// which is not to be reached.
    fn expected(
        &mut self,
        told: usize,
        size: usize,
        next: &mut dyn FnMut(&Device) -> u64,
    ) -> Vec<u64> {
        let mut answers = Vec::new();
        for _ in 0..size {
            let number = next(&self.device);
            self.history.push(number);
            let Some(step) = library::step(number) else {
                self.history.push(library::number(Step::Reset));
                self.tally
                    .count("a number that is no step", "ended a call", 1);
                break;
            };
            answers.push(self.model_step(told, step));
        }
        answers
    }

    /// Plays a step on the second model, and counts what became of it.
    fn model_step(&mut self, told: usize, step: Step) -> u64 {
        let before = self.device.clone();
        let array = &mut self.model_array[..told];
        let answer = self.device.step(array, step);
        // The flags that a write or a supply step set, where some were set before
        // it. Both leave the array.
        let mut bare = before.clone();
        bare.flags = Flags::default();
        if matches!(step, Step::Write(..) | Step::Supply(_)) {
            bare.step(array, step);
        }
        let became = match (answer.refusal, flags_text(bare.flags)) {
            (0, "") => became(&before, &self.device, step, answer),
            (0, flags) if without_supply(&before, step).is_some() => ended(&before, step, flags),
            (0, WRONG_CYCLE) => wrong_cycle(&before, step),
            (0, flags) => flags,
            (1, _) => "refused 1",
            (3, _) => "refused 3",
            (4, _) => "refused 4",
            _ => "refused by a number that is not due",
        };
        self.tally.count(asked(&before, step), became, 1);
        self.follow_load(&before, step);
        if answer.refusal == 0 {
            self.count_register(&before, step);
            for (asked, became) in self.wear.facts(&before, &self.device, step) {
                self.tally.count(asked, became, 1);
            }
        }
        self.tally.steps += 1;
        library::answer(answer)
    }

    /// Notes the words that a load is given, and counts the loads that come to
    /// run.
    fn follow_load(&mut self, before: &Device, step: Step) {
        let Step::Write(address, _) = step else {
            return;
        };
        match (before.setup, self.device.setup) {
            // A refused write is no cycle.
            (before, after) if before == after => {}
            (Some(Setup::LoadFirst { .. }), Some(_)) => self.given = 1,
            (Some(Setup::LoadNext { start, .. }), Some(_)) => {
                self.given |= 1 << (self.part.location(address) - start);
            }
            (Some(Setup::LoadNext { start, words, .. }), None) => {
                if self.device.running.is_some() {
                    self.count_buffer_program(start, words);
                }
            }
            _ => {}
        }
    }

    /// Counts a buffer program that has begun, by its words and by what it runs in.
    fn count_buffer_program(&mut self, start: u32, words: u32) {
        let mut count = |fact| self.tally.count("buffer program", fact, 1);
        count(match words as usize {
            BUFFER_WORDS => "of 32 words",
            1 => "of one word",
            _ => "of another number of words",
        });
        let block = self.part.block(place(&self.device, start).block);
        let block = block.expect("a block of the part");
        if start + words == block.start + block.size {
            count("up to its block's end");
        }
        if self.given.count_ones() < words {
            count("with a word given twice and one given none");
        }
        if self.device.suspended_erase.is_some() {
            count("in a suspended erase");
        }
    }

    /// Counts what an accepted step does to the configuration register: 03h by the
    /// reserved bits that its address has set, and by whether its location would do
    /// for its address.
    fn count_register(&mut self, before: &Device, step: Step) {
        let mut count = |fact| self.tally.count("configuration register", fact, 1);
        match (step, before.setup) {
            (Step::Write(address, data), Some(Setup::Lock)) if data % 256 == 0x03 => {
                count(match address & 0x4030 {
                    0x0000 => "stored as written",
                    0x4000 => "stored without bit 14",
                    0x0020 => "stored without bit 5",
                    0x0010 => "stored without bit 4",
                    _ => "stored without two or three bits",
                });
                if (address ^ self.part.location(address)) & 0xBFCF != 0 {
                    count("stored other than the location");
                }
            }
            (Step::Reset, _) if before.configuration != DEFAULT_CONFIGURATION => {
                count("reset from another than the default");
            }
            _ => {}
        }
    }

    /// The counts of all blocks, and of numbers that are none, and the most worn block.
    fn same_counts(&mut self) -> Result<(), String> {
        let last = self.history.len() - 1;
        for block in (0..BLOCKS as u32).chain([259, u32::MAX]) {
            let (got, expected) = (self.plain.erase_count(block), self.device.counts.of(block));
            if got != expected {
                let what = format!("{got} erases of block {block}, and not {expected}");
                return Err(self.message(last, &what));
            }
        }
        let (got, expected) = (self.plain.most_worn(), self.device.most_worn());
        if got != expected.block {
            let what = format!("most worn block {got}, and not {}", expected.block);
            return Err(self.message(last, &what));
        }
        let (asked, became) = plain_wear::lead(&self.device, expected);
        self.tally.count(asked, became, 1);
        Ok(())
    }

    fn same_arrays(&mut self) -> Result<(), String> {
        self.tally.words += self.array.len() as u64;
        if self.array == self.model_array {
            return Ok(());
        }
        let differ = |&place: &usize| self.array[place] != self.model_array[place];
        let places: Vec<usize> = (0..self.array.len()).filter(differ).collect();
        let (got, expected) = (self.array[places[0]], self.model_array[places[0]]);
        Err(format!(
            "after {} steps {} words differ, the first at {:06X}: {got:04X}, and not {expected:04X}",
            self.history.len(),
            places.len(),
            places[0]
        ))
    }

    /// A difference at a step of the list, with the steps before it.
    fn message(&self, step: usize, what: &str) -> String {
        let end = self.history.len().min(step + 1);
        let mut text = format!("step {step} (from 0): {what}\nthe steps up to it:");
        for &number in &self.history[end.saturating_sub(LAST_STEPS)..end] {
            match library::step(number) {
                Some(step) => text.push_str(&format!("\n  {step:X?}")),
                None => text.push_str(&format!("\n  no step: {number:016X}h")),
            }
        }
        text
    }
}

/// Steps whose answers, and the array after them, tell all that a state holds; without
/// supply, what is suspended ends with its flags alone, and with it by its units.
fn closing(device: &Device, supply: bool) -> Vec<Step> {
    let part = device.part;
    let banks = (0..BANKS as u32).map(|bank| part.bank_start(bank).expect("a bank of the part"));
    let mut steps: Vec<Step> = banks.clone().map(Step::Read).collect();
    if supply {
        steps.push(Step::Supply(true));
    }
    // A load gets the data cycles that it lacks, all for its start, and D0h.
    if let Some(Setup::LoadNext { start, due, .. }) = device.setup {
        steps.extend((0..due).map(|_| Step::Write(start, 0xFFFF)));
        steps.push(Step::Write(start, 0xD0));
    }
    // What is suspended goes on and ends, a program before an erase.
    for _ in 0..2 {
        steps.extend([Step::Work(65_535), Step::Work(1), Step::Write(0, 0xD0)]);
    }
    steps.extend([Step::Work(65_535), Step::Work(1)]);
    for start in banks.clone() {
        steps.extend([Step::Write(start, 0x70), Step::Read(start)]);
        steps.push(Step::Write(start, 0x98));
        steps.extend((0x0F..0x14).map(|offset| Step::Read(start + offset)));
        steps.push(Step::Write(start, 0x90));
        steps.extend([0, 1, 5].map(|offset| Step::Read(start + offset)));
    }
    for block in 0..BLOCKS as u32 {
        let start = part.block(block).expect("a block of the part").start;
        steps.push(Step::Read(start + 2));
    }
    steps
}

fn fill(array: &mut [u16], dice: &mut Dice) {
    for words in array.chunks_mut(4) {
        let drawn = dice.next();
        for (place, word) in words.iter_mut().enumerate() {
            *word = (drawn >> (16 * place)) as u16;
        }
    }
}

/// What is asked of a device: a read by the mode of its bank, a write by its
/// cycle and its command.
fn asked(device: &Device, step: Step) -> &'static str {
    match (step, device.setup) {
        (Step::Read(address), _) => match device.modes[bank(device, address) as usize] {
            Mode::Array => "read, array mode",
            Mode::Status => "read, status mode",
            // Banks begin at multiples of their 16u words, so this is bank offset 5.
            Mode::Signature if address < ADDRESSES && address % (16 * device.part.unit()) == 5 => {
                "read, configuration register"
            }
            Mode::Signature => "read, signature mode",
            Mode::Query => "read, query mode",
        },
        (Step::Write(_, data), None) => command_text(data % 256),
        (Step::Write(..), Some(Setup::LoadCount { .. })) => "write, count of a load",
        (Step::Write(..), Some(Setup::LoadFirst { .. })) => "write, first word of a load",
        (Step::Write(..), Some(Setup::LoadNext { due: 0, .. })) => "write, last cycle of a load",
        (Step::Write(..), Some(Setup::LoadNext { .. })) => "write, later word of a load",
        (Step::Write(..), Some(Setup::Program)) => "write, second cycle of a program",
        (Step::Write(..), Some(Setup::Erase)) => "write, second cycle of an erase",
        (Step::Write(_, data), Some(Setup::Lock)) => match data % 256 {
            0x01 => "write, second cycle of a lock, 01h",
            0x03 => "write, second cycle of a lock, 03h",
            0xD0 => "write, second cycle of a lock, D0h",
            _ => "write, second cycle of a lock, another",
        },
        (Step::Work(_), _) => "work",
        (Step::Supply(true), _) => "supply on",
        (Step::Supply(false), _) => "supply off",
        (Step::Reset, _) => "reset",
    }
}

fn command_text(command: u16) -> &'static str {
    match command {
        0xFF => "write, FFh",
        0x70 => "write, 70h",
        0x90 => "write, 90h",
        0x98 => "write, 98h",
        0xB0 => "write, B0h",
        0xD0 => "write, D0h",
        0x50 => "write, 50h",
        0x10 => "write, 10h",
        0x40 => "write, 40h",
        0x60 => "write, 60h",
        0x20 => "write, 20h",
        0xE8 => "write, E8h",
        _ => "write, another",
    }
}

/// What became of an accepted step that set no flag.
fn became(before: &Device, after: &Device, step: Step, answer: Answer) -> &'static str {
    match step {
        Step::Read(address) => became_of_read(before, address),
        Step::Write(..) => became_of_write(before, after),
        Step::Work(_) => became_of_work(before, after, answer),
        Step::Supply(_) => became_of_supply(before, after),
        Step::Reset => became_of_reset(before),
    }
}

/// What became of a supply step that ended nothing.
fn became_of_supply(before: &Device, after: &Device) -> &'static str {
    use Program as P;
    match before.setup {
        Some(Setup::LoadCount { .. }) => return "in a load before its count",
        Some(Setup::LoadFirst { .. }) => return "in a load before its first word",
        Some(Setup::LoadNext { due: 0, .. }) => return "in a load before D0h",
        Some(Setup::LoadNext { .. }) => return "in a load among its words",
        Some(Setup::Program) => return "in the set-up of a program",
        Some(Setup::Erase) => return "in the set-up of an erase",
        Some(Setup::Lock) => return "in the set-up of a lock",
        None => {}
    }
    match (before.suspended_program, before.suspended_erase) {
        (Some(P::Word { .. }), None) => "with a program suspended",
        (Some(P::Word { .. }), Some(_)) => "with a program and an erase suspended",
        (Some(P::Buffer { .. }), None) => "with a buffer program suspended",
        (Some(P::Buffer { .. }), Some(_)) => "with a buffer program and an erase suspended",
        (None, Some(_)) if before.running.is_none() => "with an erase suspended",
        _ if before.running.is_some() => "with something running",
        _ if before == after => "changed nothing",
        _ => "changed the state",
    }
}

/// The operation that a step ends for want of supply (document 02, item 5).
fn without_supply(before: &Device, step: Step) -> Option<Operation> {
    match step {
        Step::Supply(false) => before.running,
        Step::Write(_, data) if data % 256 == 0xD0 && before.setup.is_none() && !before.supply => {
            let program = before.suspended_program.map(Operation::Program);
            program.or(before.suspended_erase.map(Operation::Erase))
        }
        _ => None,
    }
}

/// Which operation a step ended for want of supply, and after how many units where it
/// was running; the flags are those that the kind of operation has.
fn ended(before: &Device, step: Step, flags: &str) -> &'static str {
    use {Operation as O, Program as P};
    let nested = before.suspended_erase.is_some();
    let suspended = before.running.is_none();
    match (without_supply(before, step), flags) {
        (Some(O::Program(P::Word { .. })), PROGRAM_CUT) if nested => "ended a program in an erase",
        (Some(O::Program(P::Word { .. })), PROGRAM_CUT) => "ended a program",
        (Some(O::Program(P::Buffer { .. })), PROGRAM_CUT) if nested => {
            "ended a buffer program in an erase"
        }
        (Some(O::Program(P::Buffer { .. })), PROGRAM_CUT) if suspended => "ended a buffer program",
        (Some(O::Program(P::Buffer { words, done, .. })), PROGRAM_CUT) => match done {
            0 => "ended a buffer program before its first word",
            _ if words - done == 1 => "ended a buffer program before its last word",
            _ => "ended a buffer program among its words",
        },
        (Some(O::Erase(_)), ERASE_CUT) if suspended => "ended an erase",
        (Some(O::Erase(erase)), ERASE_CUT) => match erase.done {
            0 => "ended an erase before its first word",
            _ if lacks_one(before, erase) => "ended an erase before its last word",
            _ => "ended an erase among its words",
        },
        _ => "ended with flags that are not due",
    }
}

/// Whether an erase lacks one unit.
fn lacks_one(device: &Device, erase: Erase) -> bool {
    let block = device.part.block(erase.block).expect("a block of the part");
    block.size - erase.done == 1
}

fn became_of_read(device: &Device, address: u32) -> &'static str {
    match device.running {
        None => "with nothing running",
        Some(operation) if bank(device, address) == running_bank(device, operation) => {
            "with something running in the bank"
        }
        Some(_) => "with something running in another bank",
    }
}

fn became_of_write(before: &Device, after: &Device) -> &'static str {
    use {Operation as O, Program as P};
    match (before.running, after.running) {
        (None, Some(O::Program(P::Word { .. }))) => "set a program running",
        (None, Some(O::Program(P::Buffer { .. }))) => "set a buffer program running",
        (None, Some(O::Erase(_))) => "set an erase running",
        (Some(O::Program(P::Word { .. })), None) => "suspended a program",
        (Some(O::Program(P::Buffer { done: 0, .. })), None) => {
            "suspended a buffer program before its first word"
        }
        (Some(O::Program(P::Buffer { .. })), None) => "suspended a buffer program among its words",
        (Some(O::Erase(_)), None) => "suspended an erase",
        _ if before.setup.is_none() && is_load(after.setup) => "began a load",
        _ if before.setup.is_none() && after.setup.is_some() => "made a set-up",
        _ if is_load(after.setup) => "went on with the load",
        _ if before == after => "changed nothing",
        _ => "changed the state",
    }
}

fn became_of_work(before: &Device, after: &Device, answer: Answer) -> &'static str {
    use {Operation as O, Program as P};
    match (before.running, after.running) {
        (None, _) => "found nothing running",
        (Some(O::Program(P::Word { .. })), None) => "ended a program",
        (Some(O::Program(P::Buffer { .. })), None) => "ended a buffer program",
        (Some(O::Erase(_)), None) => "ended an erase",
        (Some(O::Program(_)), Some(_)) if answer.value > 0 => "did a part of a buffer program",
        (Some(O::Erase(_)), Some(_)) if answer.value > 0 => "did a part of an erase",
        (Some(_), Some(_)) => "did no unit",
    }
}

fn became_of_reset(before: &Device) -> &'static str {
    use {Operation as O, Program as P};
    match (before.setup, before.running, before.suspended_program) {
        (Some(Setup::LoadCount { .. }), ..) => "cut a load before its count",
        (Some(Setup::LoadFirst { .. }), ..) => "cut a load before its first word",
        (Some(Setup::LoadNext { due: 0, .. }), ..) => "cut a load before D0h",
        (Some(Setup::LoadNext { .. }), ..) => "cut a load among its words",
        (_, Some(O::Program(P::Buffer { .. })), _) => "with a buffer program broken off",
        (.., Some(P::Buffer { .. })) => "with a suspended buffer program broken off",
        (_, None, None) if before.suspended_erase.is_none() => "with nothing broken off",
        _ => "with something broken off",
    }
}

/// The flags of a wrong cycle, and of what ends without supply.
const WRONG_CYCLE: &str = "set SR5 SR4";
const PROGRAM_CUT: &str = "set SR4 SR3";
const ERASE_CUT: &str = "set SR5 SR3";

/// What is wrong with a wrong cycle; of a load, the first rule that it breaks.
fn wrong_cycle(before: &Device, step: Step) -> &'static str {
    let (Step::Write(address, data), Some(setup)) = (step, before.setup) else {
        return "wrong without a set-up";
    };
    let location = before.part.location(address);
    let block = place(before, location).block;
    match setup {
        Setup::Program | Setup::Erase | Setup::Lock => WRONG_CYCLE,
        Setup::LoadCount { block: due } | Setup::LoadFirst { block: due, .. } if block != due => {
            "wrong: in another block"
        }
        Setup::LoadNext { start, .. } if block != place(before, start).block => {
            "wrong: in another block"
        }
        Setup::LoadCount { .. } if data % 256 <= 31 => "wrong: above 31 by its upper byte",
        Setup::LoadCount { .. } => "wrong: above 31",
        Setup::LoadFirst { .. } => "wrong: too many words for the block",
        Setup::LoadNext { due: 0, .. } => "wrong: not D0h",
        Setup::LoadNext { start, .. } if location < start => "wrong: below the start",
        Setup::LoadNext { .. } => "wrong: past the last word",
    }
}

fn is_load(setup: Option<Setup>) -> bool {
    !matches!(
        setup,
        None | Some(Setup::Program | Setup::Erase | Setup::Lock)
    )
}

fn place(device: &Device, location: u32) -> Place {
    device.part.place(location).expect("a location of the part")
}

fn bank(device: &Device, address: u32) -> u32 {
    place(device, device.part.location(address)).bank
}

fn running_bank(device: &Device, operation: Operation) -> u32 {
    match operation {
        Operation::Program(program) => bank(device, program.start()),
        Operation::Erase(erase) => {
            let block = device.part.block(erase.block);
            block.expect("a block of the part").bank
        }
    }
}

fn flags_text(flags: Flags) -> &'static str {
    match (flags.sr5, flags.sr4, flags.sr3, flags.sr1) {
        (false, false, false, false) => "",
        (false, true, true, false) => PROGRAM_CUT,
        (false, true, false, true) => "set SR4 SR1",
        (false, true, false, false) => "set SR4",
        (true, true, false, false) => WRONG_CYCLE,
        (true, false, true, false) => ERASE_CUT,
        (true, false, false, true) => "set SR5 SR1",
        _ => "set flags that no rule sets",
    }
}
