//! The library and the second model side by side, on one part. Both get the
//! same state, the same erase counts, the same array and the same numbers; after each
//! call of m58_run everything that the call could have changed is compared.

use crate::author::{self, Dice};
use crate::kinds::{self, Glance, Reached, Watch};
use crate::library::{self, Asked};
use crate::second::journal::Recorder;
use crate::second::model::{Device, EraseCounts, Operation, Part, BLOCKS};
use crate::second::steps::Step;
use crate::state;
use crate::wear::{self, Lent, Wrong};

/// Cells kept on both sides of borrowed memory, so that a write outside is seen.
const MARGIN: usize = 16;

/// What lies in answers and margins before a call.
const UNTOUCHED: u64 = 0xA5A5_5A5A_C3C3_3C3C;

/// Borrowed memory with its margins.
struct Borrowed<T>(Vec<T>);

impl<T: Copy> Borrowed<T> {
    fn new(count: usize, value: T) -> Borrowed<T> {
        Borrowed(vec![value; count + 2 * MARGIN])
    }

    /// The first `count` cells; more than were asked for reach into the margin.
    fn first(&mut self, count: usize) -> &mut [T] {
        &mut self.0[MARGIN..MARGIN + count]
    }
}

/// What was done and compared.
#[derive(Clone, Copy, Default)]
pub struct Counts {
    pub lists: u64,
    /// States tried with a few fixed steps.
    pub states: u64,
    pub calls: u64,
    pub steps: u64,
    pub no_steps: u64,
    pub programs: u64,
    pub erases: u64,
    pub nested: u64,
    pub suspends: u64,
    pub resumes: u64,
    pub resets: u64,
    pub cuts: u64,
    /// Operations that the supply ended, where they ran and where they would have
    /// been resumed.
    pub supply_cuts: u64,
    pub supply_ends: u64,
    /// Refused steps by the number of the refusal; 0 counts the accepted ones.
    pub refused: [u64; 8],
    pub words: u64,
    pub journals: u64,
    pub reached: Reached,
}

impl Counts {
    pub fn plus(self, other: Counts) -> Counts {
        let mut refused = self.refused;
        for (all, more) in refused.iter_mut().zip(other.refused) {
            *all += more;
        }
        Counts {
            lists: self.lists + other.lists,
            states: self.states + other.states,
            calls: self.calls + other.calls,
            steps: self.steps + other.steps,
            no_steps: self.no_steps + other.no_steps,
            programs: self.programs + other.programs,
            erases: self.erases + other.erases,
            nested: self.nested + other.nested,
            suspends: self.suspends + other.suspends,
            resumes: self.resumes + other.resumes,
            resets: self.resets + other.resets,
            cuts: self.cuts + other.cuts,
            supply_cuts: self.supply_cuts + other.supply_cuts,
            supply_ends: self.supply_ends + other.supply_ends,
            refused,
            words: self.words + other.words,
            journals: self.journals + other.journals,
            reached: self.reached.plus(other.reached),
        }
    }

    pub fn text(&self) -> String {
        let refused: u64 = self.refused[1..].iter().sum();
        let by_number: Vec<String> = (1..5)
            .map(|number| format!("{} by {number}", self.refused[number]))
            .collect();
        format!(
            "{} lists, {} states, {} steps in {} calls, {} numbers that are no step; accepted {} programs \
             ({} beside a suspended erase) and {} erases; {} suspends, {} resumes, {} resets \
             ({} cut something); {} operations ended by supply off, {} by D0h without supply; \
             {refused} steps refused ({}); {} array words compared, {} journals applied",
            self.lists,
            self.states,
            self.steps,
            self.calls,
            self.no_steps,
            self.programs,
            self.nested,
            self.erases,
            self.suspends,
            self.resumes,
            self.resets,
            self.cuts,
            self.supply_cuts,
            self.supply_ends,
            by_number.join(", "),
            self.words,
            self.journals,
        )
    }
}

/// Something that is not equal. The step counts from 0 in the list.
pub struct Difference {
    pub step: usize,
    pub what: String,
    pub expected: String,
    pub got: String,
}

/// One call of m58_run, played on the second model while it is put together.
pub struct Call {
    numbers: Vec<u64>,
    /// Words of the array and room for answers that the library is told of.
    length: usize,
    room: usize,
    expected: Vec<u64>,
    stopped: bool,
    /// Where the list stood before the call.
    from: usize,
}

/// What became of a number added to a call.
#[derive(PartialEq, Eq)]
pub enum Fate {
    Played,
    /// No step: the call ends before it.
    Stopped,
    /// Past the end of the room or past a number that is no step.
    NotReached,
}

/// What a list begins with.
#[derive(Clone)]
pub enum Start {
    PowerUp,
    Words(Vec<u64>, EraseCounts),
}

impl Start {
    /// The state words and the counts of a device.
    pub fn of(device: &Device) -> Start {
        Start::Words(state::encode(device).to_vec(), device.counts)
    }
}

pub struct Pair {
    part: Part,
    start: Start,
    array_seed: u64,
    /// The start array, until a journal is applied to it.
    start_array: Vec<u16>,
    /// The library's side.
    state: Borrowed<u64>,
    state_count: usize,
    lent: Lent,
    array: Borrowed<u16>,
    /// The second model's side; no device where the state words are of none.
    device: Option<Device>,
    model_array: Borrowed<u16>,
    recorder: Option<Recorder>,
    /// Each number so far that was played or stopped a call, and the words of
    /// the array that the library was told of.
    history: Vec<(u64, usize)>,
    watch: Watch,
    /// Whether a list is played, and not a state tried.
    in_list: bool,
    /// The number whose erases are asked for after the next call.
    asked: u32,
    pub counts: Counts,
}

impl Pair {
    pub fn new(part: Part) -> Pair {
        let words = part.array_length();
        let margin = UNTOUCHED as u16;
        Pair {
            part,
            start: Start::PowerUp,
            array_seed: 0,
            start_array: vec![0; words],
            state: Borrowed::new(0, UNTOUCHED),
            state_count: 0,
            lent: Lent::untouched(),
            array: Borrowed::new(words, margin),
            device: None,
            model_array: Borrowed::new(words, margin),
            recorder: None,
            history: Vec::new(),
            watch: Watch::default(),
            in_list: false,
            asked: 0,
            counts: Counts::default(),
        }
    }

    pub fn part(&self) -> Part {
        self.part
    }

    pub fn is_full(&self) -> bool {
        self.part.unit() > 64
    }

    /// The second model's device, if the state is that of one.
    pub fn device(&self) -> Option<&Device> {
        self.device.as_ref()
    }

    pub fn start(&self) -> &Start {
        &self.start
    }

    pub fn history(&self) -> &[(u64, usize)] {
        &self.history
    }

    /// Begins a list on a new array.
    pub fn begin(&mut self, start: Start, array_seed: u64) -> Result<(), Difference> {
        self.array_seed = array_seed;
        fill(&mut self.start_array, array_seed);
        if let Start::Words(words, counts) = &start {
            let device = state::decode(words, counts);
            kinds::note_state(&mut self.counts.reached, device.as_ref(), counts);
        }
        let words = self.start_array.len();
        self.model_array
            .first(words)
            .copy_from_slice(&self.start_array);
        self.array.first(words).copy_from_slice(&self.start_array);
        self.counts.lists += 1;
        self.in_list = true;
        self.begin_again(start)
    }

    /// Begins to try a state on the array that the last list left. No journal: the recorder
    /// would need a copy of that array.
    pub fn begin_on_same_array(&mut self, start: Start) -> Result<(), Difference> {
        self.counts.states += 1;
        self.in_list = false;
        let begun = self.begin_again(start);
        self.recorder = None;
        begun
    }

    fn begin_again(&mut self, start: Start) -> Result<(), Difference> {
        self.history.clear();
        self.watch = Watch::default();
        self.start = start;
        match &self.start {
            Start::PowerUp => {
                let part = self.part.number();
                self.device = Some(Device::power_up(part));
                self.recorder = Some(Recorder::new(part));
                self.state_count = library::STATE_WORDS;
                self.state = Borrowed::new(self.state_count, UNTOUCHED);
                self.lent = Lent::untouched();
                let state = self.state.first(self.state_count);
                let given =
                    library::power_up(part, state, &mut self.lent.main, &mut self.lent.small);
                same("what m58_power_up returns", 0, 1, u64::from(given))?;
            }
            Start::Words(words, counts) => {
                self.device = state::decode(words, counts);
                self.lent = Lent::of(counts);
                self.recorder = None;
                self.state_count = words.len();
                self.state = Borrowed::new(words.len(), UNTOUCHED);
                self.state.first(words.len()).copy_from_slice(words);
            }
        }
        self.check_state(0)
    }

    /// A call with room for so many answers and an array of so many words.
    pub fn call(&self, room: usize, length: usize) -> Call {
        Call {
            numbers: Vec::new(),
            length,
            room,
            expected: Vec::new(),
            stopped: false,
            from: self.history.len(),
        }
    }

    /// Adds a number to a call, and plays it on the second model if the library
    /// is going to play it.
    pub fn add(&mut self, call: &mut Call, number: u64) -> Fate {
        call.numbers.push(number);
        if call.stopped || call.expected.len() == call.room {
            return Fate::NotReached;
        }
        self.history.push((number, call.length));
        let Some(step) = library::step(number) else {
            call.stopped = true;
            self.counts.no_steps += 1;
            return Fate::Stopped;
        };
        let answer = match &mut self.device {
            None => library::refused(2),
            Some(device) => {
                let before = Glance::at(device);
                let answer = device.step(self.model_array.first(call.length), step);
                if answer.refusal == 0 {
                    self.counts.note(step, before, Glance::at(device));
                }
                let reached = &mut self.counts.reached;
                self.watch.step(reached, &before, step, answer, device);
                library::answer(answer)
            }
        };
        if let Some(recorder) = &mut self.recorder {
            if call.length == self.part.array_length() {
                recorder.note(step);
            }
        }
        self.counts.steps += 1;
        self.counts.refused[(answer >> 32) as usize] += 1;
        call.expected.push(answer);
        Fate::Played
    }

    /// Makes the call and compares what it returns and writes. The whole array
    /// is compared only where `whole` says so, since a full part's is long.
    pub fn check(&mut self, call: Call, whole: bool) -> Result<(), Difference> {
        self.counts.calls += 1;
        let last = self.history.len().max(call.from + 1) - 1;
        let mut answers = Borrowed::new(call.room, UNTOUCHED);
        let numbers = call.numbers.clone();
        let played = library::run(
            self.state.first(self.state_count),
            (&mut self.lent.main, &mut self.lent.small),
            &numbers,
            answers.first(call.room),
            self.array.first(call.length),
        );
        // Answers first: the first wrong one tells most.
        self.check_answers(&call, &answers)?;
        let due = call.expected.len() as u64;
        same(
            "steps that m58_run says it played",
            last,
            due,
            played as u64,
        )?;
        if numbers != call.numbers {
            return Err(Difference {
                step: last,
                what: "the list of steps, which m58_run may not change".to_string(),
                expected: format!("{:X?}", call.numbers),
                got: format!("{numbers:X?}"),
            });
        }
        self.check_state(last)?;
        if whole {
            self.check_array(last)?;
        }
        Ok(())
    }

    /// The answers, and those that no step has, which stay as they were.
    fn check_answers(&mut self, call: &Call, answers: &Borrowed<u64>) -> Result<(), Difference> {
        let mut expected = Borrowed::new(call.room, UNTOUCHED);
        expected
            .first(call.expected.len())
            .copy_from_slice(&call.expected);
        let either = self.device.is_none() && !self.array_is_of_part_word(call.length);
        for (index, (&expected, &got)) in expected.0.iter().zip(&answers.0).enumerate() {
            let refused_1_instead =
                either && expected == library::refused(2) && got == library::refused(1);
            if expected != got && !refused_1_instead {
                let place = index.wrapping_sub(MARGIN);
                let what = if place < call.expected.len() {
                    "answer of the step"
                } else {
                    "answers that no step has"
                };
                return Err(Difference {
                    step: call.from + place.min(call.expected.len().max(1) - 1),
                    what: what.to_string(),
                    expected: answer_text(expected),
                    got: answer_text(got),
                });
            }
        }
        Ok(())
    }

    /// Ends a list: compares the whole array with the second model's and, where
    /// the list began at power-up, with the journal's reading of the start.
    pub fn finish(&mut self) -> Result<(), Difference> {
        let last = self.history.len().max(1) - 1;
        self.check_array(last)?;
        self.check_erases()?;
        let Some(recorder) = self.recorder.take() else {
            return Ok(());
        };
        self.check_finished(last, &recorder)?;
        self.counts.journals += 1;
        recorder.apply_to(&mut self.start_array);
        let words = self.start_array.len();
        let got = self.array.first(words);
        if got != self.start_array {
            let expected = &self.start_array;
            let place = (0..words).find(|&at| got[at] != expected[at]).unwrap_or(0);
            return Err(Difference {
                step: last,
                what: format!("the journal's reading of the word at location {place:06X}"),
                expected: format!("{:04X}", expected[place]),
                got: format!("{:04X}", got[place]),
            });
        }
        self.counts.words += words as u64;
        self.check_recorder(last, &recorder)
    }

    /// The recorder also holds the unprotected blocks and the supply.
    fn check_recorder(&self, last: usize, recorder: &Recorder) -> Result<(), Difference> {
        if let Some(device) = &self.device {
            let pairs = [
                (
                    "unprotected blocks",
                    recorder.unprotected_blocks() == &device.unprotected,
                ),
                ("supply", recorder.supply() == device.supply),
                (
                    "set-up",
                    recorder.set_up_pending() == device.setup.is_some(),
                ),
                (
                    "running",
                    recorder.running().is_some() == device.running.is_some(),
                ),
                ("suspended", recorder.suspended() == suspended(device)),
            ];
            if let Some((name, _)) = pairs.iter().find(|(_, equal)| !equal) {
                return Err(Difference {
                    step: last,
                    what: format!("the recorder's {name}, against the second model's device"),
                    expected: "equal".to_string(),
                    got: "different".to_string(),
                });
            }
        }
        Ok(())
    }

    /// After a difference: plays the list again, one number a call, to find the
    /// step at which it first shows.
    pub fn locate(&mut self, found: Difference) -> Difference {
        let history = self.history.clone();
        let counts = self.counts;
        let again = self.play_singly(&history);
        self.counts = counts;
        self.history = history;
        match again {
            Err(difference) => difference,
            Ok(()) => Difference {
                what: format!("{} (in the calls as made, not one step a call)", found.what),
                ..found
            },
        }
    }

    fn play_singly(&mut self, history: &[(u64, usize)]) -> Result<(), Difference> {
        self.begin(self.start.clone(), self.array_seed)?;
        for &(number, length) in history {
            let mut call = self.call(1, length);
            self.add(&mut call, number);
            let works = matches!(library::step(number), Some(Step::Work(_)));
            self.check(call, works || !self.is_full())?;
        }
        self.finish()
    }

    /// The state words, their margins, the erase counts and the reports.
    fn check_state(&mut self, step: usize) -> Result<(), Difference> {
        let expected = match (&self.device, &self.start) {
            (Some(device), _) => state::encode(device).to_vec(),
            // No device: the state stays as it was handed over.
            (None, Start::Words(words, _)) => words.clone(),
            (None, Start::PowerUp) => unreachable!("power-up gives a device"),
        };
        let margin = [UNTOUCHED; MARGIN];
        let expected_cells = margin.iter().chain(&expected).chain(&margin);
        for (index, (&expected, &got)) in expected_cells.zip(&self.state.0).enumerate() {
            if expected != got {
                let word = index.wrapping_sub(MARGIN);
                return Err(Difference {
                    step,
                    what: format!("state word {word} ({}) after the step", state::name(word)),
                    expected: format!("{expected:X}h"),
                    got: format!("{got:X}h"),
                });
            }
        }
        self.check_counts(step)?;
        self.check_report(step)
    }

    /// The report of unprotected blocks.
    fn check_report(&mut self, step: usize) -> Result<(), Difference> {
        let expected = match &self.device {
            Some(device) => library::unprotected_report(device.unprotected_report()),
            None => library::refused(2),
        };
        let asked = asked(&mut self.state, self.state_count, &self.lent);
        let got = asked.report();
        if expected != got {
            let text = |report: u64| {
                format!(
                    "refusal {}, {} unprotected, lowest {}",
                    report >> 32,
                    report >> 16 & 0xFFFF,
                    report & 0xFFFF
                )
            };
            return Err(Difference {
                step,
                what: "report of unprotected blocks after the step".to_string(),
                expected: text(expected),
                got: text(got),
            });
        }
        Ok(())
    }

    /// The erase counts, what lies around them, and the reports of them: the most worn
    /// block, its count, and in turn the count of each block.
    fn check_counts(&mut self, step: usize) -> Result<(), Difference> {
        let due = match (&self.device, &self.start) {
            (Some(device), _) => &device.counts,
            (None, Start::Words(_, counts)) => counts,
            (None, Start::PowerUp) => unreachable!("power-up gives a device"),
        };
        if let Some((what, due, got)) = self.lent.difference(due) {
            return Err(Difference {
                step,
                what: format!("{what} after the step"),
                expected: due.to_string(),
                got: got.to_string(),
            });
        }
        self.asked = (self.asked + 1) % (BLOCKS as u32 + 2);
        let block = self.asked;
        self.check_reports(step, |asked, device| {
            wear::check_most_worn(asked, device)?;
            wear::check_erases(asked, device, block)
        })?;
        if self.in_list {
            if let Some(device) = &self.device {
                kinds::note_reports(&mut self.counts.reached, device);
            }
        }
        Ok(())
    }

    /// Reports of the erase counts.
    fn check_reports(
        &mut self,
        step: usize,
        check: impl Fn(Asked, Option<&Device>) -> Result<(), Wrong>,
    ) -> Result<(), Difference> {
        let asked = asked(&mut self.state, self.state_count, &self.lent);
        check(asked, self.device.as_ref()).map_err(|(what, due, got)| {
            let text = |report: u64| {
                let (count, block) = (report as u32 >> 16, report & 0xFFFF);
                format!("{report:X}h (refusal {}, {count}, {block})", report >> 32)
            };
            Difference {
                step,
                what: format!("{what} after the step"),
                expected: text(due),
                got: text(got),
            }
        })
    }

    /// The count of every block.
    pub fn check_erases(&mut self) -> Result<(), Difference> {
        let last = self.history.len().max(1) - 1;
        self.check_reports(last, wear::check_all_erases)
    }

    /// "each count is the lesser of 65,535 and the number of finished erases of that
    /// block in the journal" (document 02, item 6).
    fn check_finished(&self, step: usize, recorder: &Recorder) -> Result<(), Difference> {
        for block in 0..BLOCKS as u32 {
            let due = recorder.finished_erases(block).min(65_535);
            let got = match author::wear::place(block).expect("a block") {
                (Some(row), place) => self.lent.main[row][place],
                (None, place) => self.lent.small[place],
            };
            let what = format!("finished erases of block {block}, against the journal");
            same(&what, step, due, u64::from(got))?;
        }
        Ok(())
    }

    /// Every word of the array, and the margins.
    fn check_array(&mut self, step: usize) -> Result<(), Difference> {
        self.counts.words += self.part.array_length() as u64;
        let (expected, got) = (&self.model_array.0, &self.array.0);
        if expected == got {
            return Ok(());
        }
        let index = (0..got.len())
            .find(|&index| expected[index] != got[index])
            .unwrap_or(0);
        let differing = expected.iter().zip(got).filter(|(a, b)| a != b).count();
        let place = if index < MARGIN {
            "before the array".to_string()
        } else if index >= MARGIN + self.part.array_length() {
            "past the array".to_string()
        } else {
            format!("at location {:06X}", index - MARGIN)
        };
        Err(Difference {
            step,
            what: format!("word {place} after the step, the first of {differing}"),
            expected: format!("{:04X}", expected[index]),
            got: format!("{:04X}", got[index]),
        })
    }

    /// Whether an array of so many words is right for the part that the state
    /// words name. Where they name none, or are of no device, and the array is
    /// wrong too, document 01 does not say whether refusal 1 or 2 is due.
    fn array_is_of_part_word(&mut self, length: usize) -> bool {
        let words = self.state.first(self.state_count);
        let part = words
            .first()
            .and_then(|&word| Part::from_number(u32::try_from(word).ok()?));
        part.is_some_and(|part| part.array_length() == length)
    }
}

impl Counts {
    /// Counts what an accepted step did.
    fn note(&mut self, step: Step, before: Glance, after: Glance) {
        match (step, before.running, after.running) {
            (Step::Reset, running, _) => {
                let cut = running.is_some()
                    || before.suspended_program.is_some()
                    || before.suspended_erase.is_some();
                self.resets += 1;
                self.cuts += u64::from(cut);
            }
            (Step::Write(..), None, Some(_)) if before.setup.is_none() => self.resumes += 1,
            (Step::Write(..), None, Some(Operation::Program(_))) => {
                self.programs += 1;
                self.nested += u64::from(after.suspended_erase.is_some());
            }
            (Step::Write(..), None, Some(Operation::Erase(_))) => self.erases += 1,
            (Step::Write(..), Some(_), None) => self.suspends += 1,
            (Step::Write(..), None, None) => {
                let count = |glance: Glance| {
                    u64::from(glance.suspended_program.is_some())
                        + u64::from(glance.suspended_erase.is_some())
                };
                self.supply_ends += count(before) - count(after);
            }
            (Step::Supply(false), Some(_), _) => self.supply_cuts += 1,
            _ => {}
        }
    }
}

/// The library's state and counts, for a report.
fn asked<'a>(state: &'a mut Borrowed<u64>, count: usize, lent: &'a Lent) -> Asked<'a> {
    Asked {
        state: Some(state.first(count)),
        main: &lent.main,
        small: &lent.small,
    }
}

/// Whether a program is suspended, and whether an erase is.
fn suspended(device: &Device) -> (bool, bool) {
    let (program, erase) = (&device.suspended_program, &device.suspended_erase);
    (program.is_some(), erase.is_some())
}

fn same(what: &str, step: usize, expected: u64, got: u64) -> Result<(), Difference> {
    if expected == got {
        return Ok(());
    }
    Err(Difference {
        step,
        what: what.to_string(),
        expected: expected.to_string(),
        got: got.to_string(),
    })
}

fn answer_text(answer: u64) -> String {
    if answer == UNTOUCHED {
        return "not written".to_string();
    }
    format!("value {:04X}, refusal {}", answer as u32, answer >> 32)
}

/// A start array: all ones, all zeros or random words.
fn fill(array: &mut [u16], seed: u64) {
    let mut dice = Dice::new(seed);
    match dice.below(5) {
        0 => array.fill(0xFFFF),
        1 => array.fill(0x0000),
        _ => {
            for words in array.chunks_mut(4) {
                let drawn = dice.next();
                for (place, word) in words.iter_mut().enumerate() {
                    *word = (drawn >> (16 * place)) as u16;
                }
            }
        }
    }
}
