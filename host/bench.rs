//! Measures the static library against the independent second model, the plain C
//! model, another static library and, for erases, a plain fill of the same
//! words. Prints ratios, since times say more of the machine than of the library;
//! of a block burned by loads of the buffer and word by word, also the steps and
//! the words a second, which tell what the buffer saves.
//!
//!     bench [rounds]

mod library;
mod other;
mod plain;
mod second {
    pub mod geometry;
    pub mod model;
    pub mod steps;
}

use plain::Plain;
use second::model::{lookup, Device, EraseCounts, Part, BANKS, BLOCKS};
use second::steps::Step;
use std::hint::black_box;
use std::mem::size_of;
use std::ops::Range;
use std::process::ExitCode;
use std::time::Instant;

const PART: Part = Part::FullBottom;
const ROUNDS: usize = 15;

/// Seconds that a measured run takes at least, so that it is long against the
/// clock and against what else the machine does. A list that the quickest side
/// plays in less is played again and again.
const MEASURED: f64 = 0.01;

/// Steps of a list that is long against a call, and addresses that are looked up.
const LONG: usize = 200_000;

/// The block that is read, programmed and erased where one is enough.
const BLOCK: u32 = 100;

/// Main blocks that are burned word by word.
const BURNED: [u32; 4] = [4, 90, 180, 258];

/// Words of a full load of the buffer.
const BUFFER: u32 = 32;

/// Steps of a full load: E8h, the count, the words, D0h and the work.
const LOAD: usize = BUFFER as usize + 4;

fn main() -> ExitCode {
    let rounds = match std::env::args().nth(1).map(|text| text.parse()) {
        None => ROUNDS,
        Some(Ok(rounds)) if rounds > 0 => rounds,
        Some(_) => {
            eprintln!("usage: bench [rounds]");
            return ExitCode::from(2);
        }
    };
    println!("library against others, full bottom part, {rounds} rounds: the median of the ratios and their middle half");
    println!("(1.00: as long as the other; 2.00: twice as long)\n");
    let columns: String = Player::NAMES[1..]
        .iter()
        .map(|name| format!(" {name:>22}"))
        .collect();
    println!("{:42}{columns}", "");
    let mut bench = Bench::new(rounds);
    for workload in workloads() {
        if workload.loads && !bench.other_takes_loads() {
            println!(
                "{}: left out, the other library is an older one",
                workload.name
            );
            continue;
        }
        for &a_call in &workload.calls {
            bench.measure(&workload, a_call);
        }
    }
    lookups(rounds);
    println!(
        "\nstate handed over: {} words, {} bytes; erase counts beside it: {} bytes",
        library::STATE_WORDS,
        library::STATE_WORDS * size_of::<u64>(),
        size_of::<library::Rows>() + size_of::<library::Small>()
    );
    ExitCode::SUCCESS
}

/// Measures the block of an address, one a call, and prints its ratios to the sides
/// that have a lookup.
fn lookups(rounds: usize) {
    let sides: [(&str, fn(u32, u32) -> u32); 3] = [
        ("library", library::lookup_block),
        (Player::NAMES[1], |part, address| lookup(part, address).1),
        (Player::NAMES[3], other::lookup_block),
    ];
    println!("\n{:42} {:>22} {:>22}", "", sides[1].0, sides[2].0);
    let mut number = numbers();
    let addresses: Vec<u32> = (0..LONG).map(|_| number(1 << 24)).collect();
    for part in [Part::FullBottom, Part::BenchTop] {
        let sum = |side: usize| -> u64 {
            let block = |&address: &u32| u64::from(sides[side].1(part.number(), address));
            addresses.iter().map(block).sum()
        };
        assert!((1..3).all(|side| sum(side) == sum(0)), "the lookups differ");
        let turn = |round: usize| {
            let mut taken = vec![0.0; 3];
            for side in (0..3).map(|turn| (round + turn) % 3) {
                taken[side] = time(5, || {
                    black_box(sum(side));
                });
            }
            taken
        };
        let taken: Vec<_> = (0..=rounds).map(turn).collect();
        row(&format!("block of an address, {part:?}"), &taken);
    }
}

/// What is measured: a list of steps, played in calls of so many.
struct Workload {
    name: &'static str,
    steps: Vec<Step>,
    calls: Vec<usize>,
    /// The words that the list leaves erased, where a fill does the same.
    fill: Option<Range<usize>>,
    /// The words that the list burns, where words a second are printed.
    burned: Option<u32>,
    /// The list has loads of the write buffer.
    loads: bool,
}

/// All steps in one call.
const ALL: usize = usize::MAX;

fn workloads() -> Vec<Workload> {
    let near = reads(start(BLOCK), PART.unit());
    let far = reads(0, PART.array_length() as u32);
    let whole = (0..BLOCKS as u32).flat_map(erase).collect();
    let first = start(BLOCK) as usize;
    let block = first..first + PART.unit() as usize;
    vec![
        list("reads in one block", near, &[ALL, 10, 1]),
        list("reads all over the part", far, &[ALL, 1]),
        list("status reads", status_reads(), &[ALL, 1]),
        list("mode commands", mode_commands(), &[ALL, 1]),
        list("protection commands", protections(), &[ALL, 1]),
        list("word programs", programs(), &[ALL, 3, 1]),
        list("programs with a poll", polled_programs(), &[ALL, 4, 1]),
        list("suspended programs", suspended_programs(), &[ALL, 1]),
        list("burn of 4 main blocks", burn(), &[ALL]),
        Workload {
            loads: true,
            ..burned("burn by loads", burn_by_loads(BLOCK), &[ALL, LOAD])
        },
        burned("burn by words", burn_by_words(BLOCK), &[ALL, 3]),
        list("mixed list", mixed(), &[ALL, 1]),
        list("erase by single units", slow_erase(), &[ALL, 1]),
        Workload {
            fill: Some(block),
            ..list("erase of a main block", erase(BLOCK), &[ALL, 1])
        },
        Workload {
            fill: Some(0..PART.array_length()),
            ..list("erase of the whole part", whole, &[ALL])
        },
    ]
}

fn list(name: &'static str, steps: Vec<Step>, calls: &[usize]) -> Workload {
    Workload {
        name,
        steps,
        calls: calls.to_vec(),
        fill: None,
        burned: None,
        loads: false,
    }
}

/// A list that burns a main block.
fn burned(name: &'static str, steps: Vec<Step>, calls: &[usize]) -> Workload {
    Workload {
        burned: Some(PART.unit()),
        ..list(name, steps, calls)
    }
}

fn reads(base: u32, range: u32) -> Vec<Step> {
    let mut next = numbers();
    (0..LONG).map(|_| Step::Read(base + next(range))).collect()
}

/// Reads of a bank in status mode.
fn status_reads() -> Vec<Step> {
    let mut steps = vec![Step::Write(start(BLOCK), 0x70)];
    steps.extend(reads(start(BLOCK), PART.unit()));
    steps
}

fn mode_commands() -> Vec<Step> {
    let mut next = numbers();
    let mut command = || {
        let start = bank_start(next(BANKS as u32));
        Step::Write(start, [0xFF, 0x70, 0x90, 0x98][next(4) as usize])
    };
    (0..LONG).map(|_| command()).collect()
}

/// A block protected and unprotected, again and again.
fn protections() -> Vec<Step> {
    let pair = [0x60, 0x01, 0x60, 0xD0].map(|word| Step::Write(start(BLOCK), word));
    (0..LONG / 4).flat_map(|_| pair).collect()
}

/// Set-up, data and one unit of work for each word.
fn programs() -> Vec<Step> {
    let locations = start(BLOCK)..start(BLOCK) + 50_000;
    locations.flat_map(|at| program(at, 0x5A5A)).collect()
}

/// The same, and a read of the status after each.
fn polled_programs() -> Vec<Step> {
    let locations = start(BLOCK)..start(BLOCK) + 50_000;
    locations
        .flat_map(|at| program(at, 0xA5A5).into_iter().chain([Step::Read(at)]))
        .collect()
}

/// Programs that are suspended and resumed, with a read of the status between.
fn suspended_programs() -> Vec<Step> {
    let locations = start(BLOCK)..start(BLOCK) + 30_000;
    locations
        .flat_map(|at| {
            let [set_up, data, work] = program(at, 0x5A5A);
            let write = |command| Step::Write(at, command);
            [set_up, data, write(0xB0), Step::Read(at), write(0xD0), work]
        })
        .collect()
}

fn burn() -> Vec<Step> {
    BURNED.into_iter().flat_map(burn_by_words).collect()
}

fn burn_by_words(block: u32) -> Vec<Step> {
    let offsets = 0..PART.unit();
    offsets
        .flat_map(|offset| program(start(block) + offset, offset as u16))
        .collect()
}

fn burn_by_loads(block: u32) -> Vec<Step> {
    let offsets = (0..PART.unit()).step_by(BUFFER as usize);
    offsets
        .flat_map(|offset| load(start(block) + offset, offset as u16))
        .collect()
}

/// Erases a main block with one unit a step.
fn slow_erase() -> Vec<Step> {
    let mut steps = erase(BLOCK)[..2].to_vec();
    steps.extend((0..PART.unit()).map(|_| Step::Work(1)));
    steps
}

/// Reads, polled programs, nested programs in a suspended erase of a small
/// block, protection and identification, in no order.
fn mixed() -> Vec<Step> {
    let mut next = numbers();
    let mut steps = Vec::new();
    while steps.len() < LONG {
        let base = start(4 + next(BLOCKS as u32 - 4));
        let at = base + next(PART.unit());
        let write = |command| Step::Write(at, command);
        match next(1000) {
            0..=499 => steps.extend([write(0xFF), Step::Read(at), Step::Read(at ^ 1)]),
            500..=799 => {
                steps.extend(program(at, next(65_536) as u16));
                steps.push(Step::Read(at));
            }
            800..=899 => {
                let [set_up, data, work] = program(at, next(65_536) as u16);
                let status = Step::Read(at);
                steps.extend([set_up, data, write(0xB0), status, write(0xD0), work, status]);
            }
            900..=949 => steps.extend([write(0x60), write(0x01), write(0x60), write(0xD0)]),
            950..=997 => {
                let [signature, query] = [base + 2, base + 0x10].map(Step::Read);
                steps.extend([write(0x90), signature, write(0x98), query, write(0x50)]);
            }
            _ => {
                let small = start(next(4));
                steps.extend([Step::Write(small, 0x20), Step::Write(small, 0xD0)]);
                steps.extend([Step::Work(100), write(0xB0)]);
                steps.extend(program(at, next(65_536) as u16));
                steps.extend([write(0xD0), Step::Work(65_535), Step::Read(small)]);
            }
        }
    }
    steps
}

/// A model with what it holds of a device; or a fill, which holds none.
enum Player {
    Library([u64; library::STATE_WORDS], EraseCounts),
    Second(Device),
    Plain(Plain),
    Other(Vec<u64>, EraseCounts),
    Fill,
}

impl Player {
    /// In the order of `all`.
    const NAMES: [&'static str; 5] = [
        "library",
        "second model",
        "plain C model",
        "other library",
        "fill",
    ];

    fn all() -> [Player; 5] {
        let part = PART.number();
        let mut state = [0; library::STATE_WORDS];
        let mut counts = EraseCounts::none();
        library::power_up(part, &mut state, &mut counts.main, &mut counts.small);
        [
            Player::Library(state, counts),
            Player::Second(Device::power_up(part)),
            Player::Plain(Plain::power_up(part)),
            other_power_up(part),
            Player::Fill,
        ]
    }

    /// The erase counts, of those that have some.
    fn counts(&self) -> Option<&EraseCounts> {
        match self {
            Player::Library(_, counts) => Some(counts),
            Player::Second(device) => Some(&device.counts),
            Player::Other(_, counts) if other::COUNTS => Some(counts),
            _ => None,
        }
    }
}

/// The other library's power-up: another version may have another number of
/// state words, and takes no other.
fn other_power_up(part: u32) -> Player {
    let mut counts = EraseCounts::none();
    let mut powered = |mut state: Vec<u64>| {
        (other::power_up(part, &mut state, &mut counts) == 1).then_some(state)
    };
    let state = (1..=1024).find_map(|count| powered(vec![0; count]));
    Player::Other(state.expect("the other library powers up"), counts)
}

/// A list as the players take it: the second model the steps, the others their
/// numbers, so many a call.
struct List<'a> {
    name: &'static str,
    steps: &'a [Step],
    numbers: Vec<u64>,
    a_call: usize,
    fill: Range<usize>,
}

impl<'a> List<'a> {
    fn new(workload: &'a Workload, a_call: usize) -> List<'a> {
        let steps = &workload.steps;
        List {
            name: workload.name,
            steps,
            numbers: steps.iter().copied().map(library::number).collect(),
            a_call: a_call.min(steps.len()),
            fill: workload.fill.clone().unwrap_or(0..0),
        }
    }

    /// Plays the numbers by calls of a function.
    fn calls(&self, answers: &mut [u64], mut run: impl FnMut(&[u64], &mut [u64]) -> usize) {
        let answers = answers.chunks_mut(self.a_call);
        for (numbers, answers) in self.numbers.chunks(self.a_call).zip(answers) {
            run(numbers, answers);
        }
    }
}

/// A player with its own array and answers.
struct Side {
    player: Player,
    array: Vec<u16>,
    answers: Vec<u64>,
}

impl Side {
    fn play(&mut self, list: &List) {
        let Side {
            player,
            array,
            answers,
        } = self;
        match player {
            Player::Library(state, EraseCounts { main, small }) => {
                list.calls(answers, |n, a| {
                    library::run(state, (main, small), n, a, array)
                });
            }
            Player::Other(state, counts) => {
                list.calls(answers, |n, a| other::run(state, counts, n, a, array));
            }
            Player::Plain(device) => list.calls(answers, |n, a| device.run(n, a, array)),
            Player::Second(device) => {
                for (&step, answer) in list.steps.iter().zip(answers) {
                    *answer = library::answer(device.step(array, step));
                }
            }
            Player::Fill => {
                array[list.fill.clone()].fill(0xFFFF);
                black_box(array);
            }
        }
    }
}

struct Bench {
    rounds: usize,
    sides: [Side; 5],
}

impl Bench {
    fn new(rounds: usize) -> Bench {
        let sides = Player::all().map(|player| Side {
            player,
            array: vec![0xFFFF; PART.array_length()],
            answers: Vec::new(),
        });
        let mut bench = Bench { rounds, sides };
        // Every block is unprotected once, so that all that follows is accepted.
        let mut steps = vec![Step::Supply(true)];
        for start in (0..BLOCKS as u32).map(start) {
            steps.extend([Step::Write(start, 0x60), Step::Write(start, 0xD0)]);
        }
        bench.play(&List::new(&list("unprotect", steps, &[]), ALL));
        bench
    }

    /// The library with 38 state words has no write buffer: it ignores E8h.
    fn other_takes_loads(&self) -> bool {
        self.sides
            .iter()
            .any(|side| matches!(&side.player, Player::Other(state, _) if state.len() != 38))
    }

    /// Plays a workload on all sides and prints the row of its ratios. The sides
    /// take turns at going first.
    fn measure(&mut self, workload: &Workload, a_call: usize) {
        let starts = (0..BANKS as u32).map(bank_start);
        let array_mode = starts.map(|start| Step::Write(start, 0xFF)).collect();
        self.play(&List::new(&list("array mode", array_mode, &[]), ALL));
        let list = List::new(workload, a_call);
        self.play(&list);
        let sides = self.sides.len() - usize::from(workload.fill.is_none());
        let once = |side: &mut Side| time(1, || side.play(&list));
        let quickest = self.sides[..sides].iter_mut().map(once).reduce(f64::min);
        let times = repeats(quickest.expect("there are sides"));
        let mut rounds = Vec::new();
        for round in 0..=self.rounds {
            let mut taken = vec![0.0; sides];
            for turn in 0..sides {
                let side = (round + turn) % sides;
                taken[side] = time(times, || self.sides[side].play(&list));
            }
            rounds.push(taken);
        }
        self.same(workload.name);
        let calls = match a_call {
            ALL => "one call".to_string(),
            1 => "one step a call".to_string(),
            _ => format!("{a_call} steps a call"),
        };
        row(&format!("{}, {calls}", workload.name), &rounds);
        if let Some(words) = workload.burned {
            let words = f64::from(words) * times as f64;
            rates(list.steps.len(), words, &rounds);
        }
    }

    /// Plays a list on all sides without measuring.
    fn play(&mut self, list: &List) {
        for side in &mut self.sides {
            side.answers.clear();
            side.answers.resize(list.steps.len(), 0);
            side.play(list);
        }
        self.same(list.name);
    }

    /// Speed is worth nothing if the work was not the same.
    fn same(&self, name: &str) {
        let library = &self.sides[0];
        for (side, player) in self.sides.iter().zip(Player::NAMES) {
            if !matches!(side.player, Player::Fill) {
                let same = side.answers == library.answers;
                assert!(same, "{name}: the answers are not the {player}'s");
                let same = side.array == library.array;
                assert!(same, "{name}: the array is not the {player}'s");
                let counts = side.player.counts().or(library.player.counts());
                let same = counts == library.player.counts();
                assert!(same, "{name}: the erase counts are not the {player}'s");
            }
        }
    }
}

fn start(block: u32) -> u32 {
    PART.block(block).expect("a block of the part").start
}

fn bank_start(bank: u32) -> u32 {
    PART.bank_start(bank).expect("a bank of the part")
}

fn program(location: u32, data: u16) -> [Step; 3] {
    [
        Step::Write(location, 0x40),
        Step::Write(location, data),
        Step::Work(1),
    ]
}

/// A full load of the buffer, its words counting up from `data`, and its units.
fn load(location: u32, data: u16) -> Vec<Step> {
    let write = |data| Step::Write(location, data);
    let words = (0..BUFFER).map(|place| Step::Write(location + place, data + place as u16));
    let set_up = [write(0xE8), write(BUFFER as u16 - 1)];
    let confirm = [write(0xD0), Step::Work(BUFFER)];
    set_up.into_iter().chain(words).chain(confirm).collect()
}

fn erase(block: u32) -> Vec<Step> {
    let start = start(block);
    let mut steps = vec![Step::Write(start, 0x20), Step::Write(start, 0xD0)];
    let size = PART.block(block).expect("a block of the part").size;
    // Work goes in steps of 65,535 units and one step of the rest.
    steps.push(Step::Work(size.min(65_535)));
    if size > 65_535 {
        steps.push(Step::Work(size - 65_535));
    }
    steps
}

/// Numbers below a limit, the same in every run.
fn numbers() -> impl FnMut(u32) -> u32 {
    let mut x: u64 = 0x2545_F491_4F6C_DD1D;
    move |limit| {
        x ^= x << 13;
        x ^= x >> 7;
        x ^= x << 17;
        (((x >> 32) * u64::from(limit)) >> 32) as u32
    }
}

fn time(times: usize, mut work: impl FnMut()) -> f64 {
    let begin = Instant::now();
    for _ in 0..times {
        work();
    }
    begin.elapsed().as_secs_f64()
}

/// How often to do what takes so many seconds once.
fn repeats(once: f64) -> usize {
    (MEASURED / once).ceil().clamp(1.0, 10_000.0) as usize
}

/// One row, of the times that the sides took in each round, the library's
/// first: the median of the ratios to each other side, and between what the
/// middle half of them lies. The first round only warms up.
fn row(name: &str, rounds: &[Vec<f64>]) {
    let mut columns = String::new();
    for side in 1..rounds[0].len() {
        let [low, median, high] = quarters(rounds[1..].iter().map(|t| t[0] / t[side]));
        columns.push_str(&format!(" {median:6.2} {low:6.2} to {high:5.2}"));
    }
    println!("{name:42}{columns}");
}

/// Beneath a row, the steps of its list, and the words that a side burns in a
/// second: so many in the median of the times that it took in each round.
fn rates(steps: usize, words: f64, rounds: &[Vec<f64>]) {
    let rate = |side: usize| {
        let [_, median, _] = quarters(rounds[1..].iter().map(|t| t[side]));
        format!("{} {:.1}", Player::NAMES[side], words / median / 1e6)
    };
    let rates = [0, 1, 2].map(rate).join(", ");
    println!("    {steps} steps; million words a second: {rates}");
}

/// The lower quarter, the median and the upper quarter.
fn quarters(values: impl Iterator<Item = f64>) -> [f64; 3] {
    let mut values: Vec<f64> = values.collect();
    values.sort_by(f64::total_cmp);
    [1, 2, 3].map(|quarter| values[(values.len() - 1) * quarter / 4])
}
