//! Compares the static library with the independent second model.
//!
//!     compare quick                  a fixed set of lists and checks
//!     compare soak [seconds] [seed]  random lists until the time is over
//!     compare replay PART SEED       the one list of a part and a seed
//!
//! Exit status: 0 all equal, 1 a difference, 2 wrong arguments.

mod author;
mod checks;
mod kinds;
mod library;
mod lists;
mod outcome;
mod pair;
mod second {
    pub mod geometry;
    pub mod journal;
    pub mod model;
    pub mod steps;
}
mod state;
mod wear;

use kinds::Reached;
use pair::{Counts, Difference, Pair, Start};
use second::model::Part;
use second::steps::Step;
use std::process::ExitCode;
use std::time::{Duration, Instant, SystemTime, UNIX_EPOCH};

const PART_NAMES: [&str; 4] = ["full bottom", "full top", "bench bottom", "bench top"];

/// The lists of `quick`, for each part.
const QUICK_LISTS: [u64; 4] = [80, 80, 8_000, 8_000];

/// Lists on a bench part for each one on a full part, in a soak.
const SOAK_BENCH_LISTS: u64 = 300;

const SOAK_SECONDS: u64 = 60;
const PROGRESS: Duration = Duration::from_secs(5);

/// Steps that are printed before a difference.
const LAST_STEPS: usize = 25;

fn main() -> ExitCode {
    let arguments: Vec<String> = std::env::args().skip(1).collect();
    let words: Vec<&str> = arguments.iter().map(String::as_str).collect();
    let result = match words[..] {
        ["quick"] => quick(),
        ["soak"] => soak(SOAK_SECONDS, fresh_seed()),
        ["soak", seconds] => match seconds.parse() {
            Ok(seconds) => soak(seconds, fresh_seed()),
            Err(_) => return usage(),
        },
        ["soak", seconds, seed] => match (seconds.parse(), seed.parse()) {
            (Ok(seconds), Ok(seed)) => soak(seconds, seed),
            _ => return usage(),
        },
        ["replay", part, seed] => match (part.parse().map(Part::from_number), seed.parse()) {
            (Ok(Some(part)), Ok(seed)) => replay(part, seed),
            _ => return usage(),
        },
        _ => return usage(),
    };
    outcome::end(result)
}

fn usage() -> ExitCode {
    eprintln!("usage: compare quick | compare soak [seconds] [seed] | compare replay PART SEED");
    ExitCode::from(2)
}

/// A seed that no earlier run had.
fn fresh_seed() -> u64 {
    let time = SystemTime::now().duration_since(UNIX_EPOCH);
    time.map_or(1, |time| time.as_micros() as u64)
}

fn quick() -> Result<String, String> {
    let mut counts = fixed_checks()?;
    counts.reached = Reached::default(); // the lists have to reach all by themselves
    for part in Part::ALL {
        let mut pair = Pair::new(part);
        // Other seeds for each part, so that no two parts get the same lists.
        let first = u64::from(part.number()) << 32;
        for seed in first..first + QUICK_LISTS[part.number() as usize] {
            list(&mut pair, seed)?;
        }
        println!("{}: {}", name(part), pair.counts.text());
        counts = counts.plus(pair.counts);
    }
    print!("{}", counts.reached.table());
    let missing = counts.reached.missing();
    if !missing.is_empty() {
        return Err(format!(
            "compare quick: never reached, or too seldom: {}",
            missing.join("; ")
        ));
    }
    Ok(format!("compare quick: all equal: {}", counts.text()))
}

/// The checks that need no chance, on every part.
fn fixed_checks() -> Result<Counts, String> {
    let asked = checks::check_lookup().map_err(|f| check_message(&f, None))?;
    let starts = checks::check_block_starts().map_err(|f| check_message(&f, None))?;
    checks::check_power_up().map_err(|f| check_message(&f, None))?;
    println!("lookup at {asked} addresses, {starts} block starts and power-up compared");
    let mut counts = Counts::default();
    for part in Part::ALL {
        let mut pair = Pair::new(part);
        let fresh = pair.begin(Start::PowerUp, 2);
        fresh.map_err(|difference| list_message(&pair, None, &difference))?;
        checks::check_null(&mut pair).map_err(|f| check_message(&f, None))?;
        checks::check_state_counts(&mut pair).map_err(|f| check_message(&f, Some(&pair)))?;
        let named =
            checks::check_malformed(&mut pair).map_err(|f| check_message(&f, Some(&pair)))?;
        let changed =
            checks::check_each_number(&mut pair).map_err(|f| check_message(&f, Some(&pair)))?;
        let registers =
            checks::check_registers(&mut pair).map_err(|f| check_message(&f, Some(&pair)))?;
        let counts_tried =
            checks::check_counts(&mut pair).map_err(|f| check_message(&f, Some(&pair)))?;
        println!(
            "{}: {named} states that are not well formed, {changed} with one number or word changed, \
             {registers} configuration registers, {counts_tried} with other erase counts",
            name(part)
        );
        counts = counts.plus(pair.counts);
    }
    Ok(counts)
}

fn soak(seconds: u64, seed: u64) -> Result<String, String> {
    println!("soak of {seconds} seconds from seed {seed}");
    let begin = Instant::now();
    let mut said = begin;
    let mut pairs = Part::ALL.map(Pair::new);
    // The seeds of the lists count on from the soak's, so that each list can be
    // replayed alone. The full and the bench parts take turns.
    for round in 0.. {
        for bench in 0..SOAK_BENCH_LISTS {
            let seed = seed.wrapping_add(round * SOAK_BENCH_LISTS + bench);
            list(&mut pairs[2 + seed as usize % 2], seed)?;
            if bench == 0 {
                list(&mut pairs[round as usize % 2], seed)?;
            }
        }
        if said.elapsed() >= PROGRESS {
            said = Instant::now();
            let counts = total(&pairs);
            println!(
                "  {} s, seeds to {}: {} lists, {} steps equal",
                begin.elapsed().as_secs(),
                seed.wrapping_add((round + 1) * SOAK_BENCH_LISTS - 1),
                counts.lists,
                counts.steps
            );
        }
        if begin.elapsed().as_secs() >= seconds {
            break;
        }
    }
    let counts = total(&pairs);
    print!("{}", counts.reached.table());
    Ok(format!(
        "compare soak: seed {seed}: all equal: {}",
        counts.text()
    ))
}

fn replay(part: Part, seed: u64) -> Result<String, String> {
    let mut pair = Pair::new(part);
    list(&mut pair, seed)?;
    let counts = pair.counts.text();
    Ok(format!(
        "compare replay: {}, seed {seed}: all equal: {counts}",
        name(part)
    ))
}

fn list(pair: &mut Pair, seed: u64) -> Result<(), String> {
    lists::play(pair, seed).map_err(|difference| {
        let difference = pair.locate(difference);
        list_message(pair, Some(seed), &difference)
    })
}

fn name(part: Part) -> &'static str {
    PART_NAMES[part.number() as usize]
}

fn total(pairs: &[Pair]) -> Counts {
    pairs
        .iter()
        .fold(Counts::default(), |all, pair| all.plus(pair.counts))
}

fn check_message(failure: &checks::Failure, pair: Option<&Pair>) -> String {
    let mut text = format!("compare: difference in a check: {}\n", failure.check);
    if let Some(pair) = pair {
        text.push_str(&steps_text(pair, failure.difference.step));
    }
    text + &difference_text(&failure.difference)
}

fn list_message(pair: &Pair, seed: Option<u64>, difference: &Difference) -> String {
    let part = pair.part();
    let mut text = format!(
        "compare: difference: part {} ({}), ",
        part.number(),
        name(part)
    );
    if let Some(seed) = seed {
        text.push_str(&format!("seed {seed}, "));
    }
    text.push_str(&format!("step {} (from 0)\n", difference.step));
    text.push_str(&steps_text(pair, difference.step));
    text.push_str(&difference_text(difference));
    if let Some(seed) = seed {
        text.push_str(&format!(
            "\nagain with: compare replay {} {seed}",
            part.number()
        ));
    }
    text
}

fn difference_text(difference: &Difference) -> String {
    format!(
        "{}\n  expected {}\n  got      {}",
        difference.what, difference.expected, difference.got
    )
}

/// The state a list began with and its last steps up to one, in script form.
fn steps_text(pair: &Pair, step: usize) -> String {
    let mut text = match pair.start() {
        Start::PowerUp => "begun at power-up".to_string(),
        Start::Words(words, counts) => {
            let mut text = format!("begun with {} state words, those not 0:", words.len());
            for (place, word) in words.iter().enumerate().filter(|(_, &word)| word != 0) {
                text.push_str(&format!("\n  {place}: {word:X}h, {}", state::name(place)));
            }
            text + &wear::text(counts)
        }
    };
    let history = pair.history();
    let end = history.len().min(step + 1);
    let first = end.saturating_sub(LAST_STEPS);
    text.push_str(&format!("\nsteps {first} to {step}:\n"));
    for (index, &(number, length)) in history.iter().enumerate().take(end).skip(first) {
        text.push_str(&format!("  {index}: {}", number_text(number)));
        if length != pair.part().array_length() {
            text.push_str(&format!(" (array of {length} words)"));
        }
        text.push('\n');
    }
    text
}

/// A number as a line of a script; a refused address has more digits.
fn number_text(number: u64) -> String {
    match library::step(number) {
        Some(Step::Read(address)) => format!("R {address:06X}"),
        Some(Step::Write(address, data)) => format!("W {address:06X} {data:04X}"),
        Some(Step::Work(count)) => format!("K {count}"),
        Some(Step::Supply(on)) => format!("V {}", u8::from(on)),
        Some(Step::Reset) => "Z".to_string(),
        None => format!("no step: {number:016X}h"),
    }
}
