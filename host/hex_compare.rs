//! Compares the static library's Intel HEX (document 02, item 3) with the
//! independent second reader and writer: the answer and every word of the array
//! for good and for damaged texts, and every byte of the text for arrays that are
//! written out. Fails too where an answer, a kind of damage or a feature of the
//! texts is met too seldom.
//!
//!     hex_compare [LISTS] [SEED]
//!
//! Each list is a text that is accepted, and damaged versions of it; it is made by
//! its seed alone, so `hex_compare 1 SEED` makes one again.
//!
//! Exit status: 0 all equal, 1 a difference, 2 wrong arguments.

mod hex {
    pub mod damage;
    pub mod features;
    pub mod fixed;
    pub mod library;
    pub mod pair;
    pub mod tally;
    pub mod texts;
    pub mod writing;
}
mod outcome;
mod second {
    pub mod geometry;
    pub mod hex;
    pub mod hex_cases;
}

use hex::damage::DAMAGES;
use hex::features::{self, FEATURES};
use hex::pair::{Compare, Pair, PART_NAMES};
use hex::tally::{Tally, READINGS, WRITINGS};
use hex::texts::{self, Draft, Random};
use hex::{fixed, writing};
use second::geometry::Part;
use std::process::ExitCode;
use std::time::Instant;

const LISTS: u64 = 8_000;
const SEED: u64 = 20_081_103;

/// Arrays of a bench part that are written out, for each of the two.
const WRITTEN: usize = 150;

/// Lists on a full part between two comparisons of its whole array.
const WHOLE: usize = 8;

/// Of the texts on a full part, one in so many has the whole array compared.
const WHOLE_TEXTS: usize = 150;

/// A kind of damage has to be given the one answer that is due to it in one list
/// of so many at least.
const OFTEN: u64 = 2;

/// The same for each of several answers, for other kinds, and for the features.
const SELDOM: u64 = 100;

const ACCEPTED: &str = "good text";
const COVERING: &str = "good text of every byte of the array";
const COVERING_DAMAGED: &str = "text of every byte of the array, damaged";
const EVERY_CUT: &str = "good text cut at every byte";
const TWO_IN_ONE: &str = "two damages in one line";
const TWO_IN_TWO: &str = "two damages in two lines";

/// The kinds of texts in a list, beside those of one damage.
const KINDS: &[(&str, &[u32])] = &[
    (ACCEPTED, &[0]),
    (COVERING, &[0]),
    (COVERING_DAMAGED, &[0, 10, 11, 12]),
    (EVERY_CUT, &[0, 10, 14]),
    (TWO_IN_ONE, &[0, 10, 11, 12, 13, 14]),
    (TWO_IN_TWO, &[0, 10, 11, 12, 13, 14]),
];

fn main() -> ExitCode {
    let arguments: Vec<String> = std::env::args().skip(1).collect();
    let number = |place: usize, default: u64| match arguments.get(place) {
        None => Some(default),
        Some(text) => text.parse().ok(),
    };
    match (number(0, LISTS), number(1, SEED), arguments.len()) {
        (Some(lists), Some(seed), 0..=2) => outcome::end(compare(lists, seed)),
        _ => {
            eprintln!("usage: hex_compare [LISTS] [SEED]");
            ExitCode::from(2)
        }
    }
}

fn compare(lists: u64, seed: u64) -> Result<String, String> {
    println!("hex_compare: {lists} lists from seed {seed}");
    let begin = Instant::now();
    let cases = second::hex_cases::selftest()?;
    println!("self test of the second reader and writer: {cases} cases");
    let mut pairs = Part::ALL.map(Pair::new);
    let mut tally = Tally::default();
    let mut random = Random::new(seed);
    fixed_texts(&mut pairs, &mut random, &mut tally)?;
    writing::check_calls(&mut tally)?;
    for pair in &mut pairs[2..] {
        writing::check_bench(pair, &mut random, WRITTEN)?;
    }
    play(&mut pairs, lists, seed)?;
    for (number, part) in [(0, 0), (1, 1), (2, 0)] {
        writing::check_full(&mut pairs[part], &mut random, number)?;
    }
    for (pair, name) in pairs.into_iter().zip(PART_NAMES) {
        println!("{name}: {}", pair.tally.summary());
        println!("{name}: {}", pair.tally.writings());
        tally.add(pair.tally);
    }
    print!("{}", tally.table());
    let seldom = [seldom_kinds(&tally, lists), seldom_answers(&tally, lists)].concat();
    if !seldom.is_empty() {
        return Err(format!("hex_compare: too seldom: {}", seldom.join("; ")));
    }
    Ok(format!(
        "hex_compare: all equal: seed {seed}, {lists} lists, {}; {}; {} s",
        tally.summary(),
        tally.writings(),
        begin.elapsed().as_secs()
    ))
}

fn fixed_texts(
    pairs: &mut [Pair; 4],
    random: &mut Random,
    tally: &mut Tally,
) -> Result<(), String> {
    for pair in pairs.iter_mut() {
        pair.begin(random);
        fixed::check(pair)?;
    }
    fixed::check_calls(tally)?;
    let texts: u64 = pairs.iter().map(|pair| pair.tally.texts).sum();
    println!("{texts} fixed texts, {} calls refused", tally.texts);
    Ok(())
}

/// The part of a list: most are on a bench part.
fn part(seed: u64) -> usize {
    [2, 3, 2, 3, 2, 3, 0, 1][seed as usize % 8]
}

fn play(pairs: &mut [Pair; 4], lists: u64, seed: u64) -> Result<(), String> {
    // Seeds on a full part since its whole array was last compared.
    let mut since: [Vec<u64>; 2] = Default::default();
    for seed in (0..lists).map(|place| seed.wrapping_add(place)) {
        let part = part(seed);
        let pair = &mut pairs[part];
        if part >= 2 {
            pair.begin(&mut Random::new(!seed));
            list(pair, seed, WHOLE_TEXTS)?;
            continue;
        }
        let since = &mut since[part];
        since.push(seed);
        let mut played = list(pair, seed, WHOLE_TEXTS);
        if since.len() == WHOLE {
            played = played.and_then(|()| pair.all_restored());
        }
        played.map_err(|found| located(pair, since, found))?;
        if since.len() == WHOLE {
            since.clear();
        }
    }
    pairs[..2]
        .iter_mut()
        .zip(since)
        .try_for_each(|(pair, since)| {
            let restored = pair.all_restored();
            restored.map_err(|found| located(pair, &since, found))
        })
}

/// After a difference on a full part: plays the lists since its whole array was
/// last compared again, with the whole array after each text, to find the first
/// text at which it shows.
fn located(pair: &mut Pair, seeds: &[u64], found: String) -> String {
    pair.begin(&mut Random::new(0));
    let again = seeds.iter().try_for_each(|&seed| list(pair, seed, 1));
    again.err().unwrap_or(found)
}

/// A text that is accepted, and damaged versions of it: one of each kind, and some
/// with two damages.
fn list(pair: &mut Pair, seed: u64, whole: usize) -> Result<(), String> {
    let mut random = Random::new(seed);
    let random = &mut random;
    let in_list = |message| format!("the list of seed {seed}: {message}");
    let good = texts::accepted(random, pair.bytes());
    for damage in DAMAGES {
        let mut draft = good.clone();
        let at = random.below(draft.lines.len());
        damage.to(random, &mut draft, at);
        one(pair, random, damage.name, &draft, whole).map_err(in_list)?;
    }
    for _ in 0..6 {
        let draft = twice(random, good.clone(), true);
        one(pair, random, TWO_IN_ONE, &draft, whole).map_err(in_list)?;
        let draft = twice(random, good.clone(), false);
        one(pair, random, TWO_IN_TWO, &draft, whole).map_err(in_list)?;
    }
    one(pair, random, ACCEPTED, &good, whole).map_err(in_list)?;
    if random.one_in(40) {
        every_cut(pair, &good.text()).map_err(in_list)?;
    }
    if part(seed) >= 2 && random.one_in(12) {
        covering(pair, random).map_err(in_list)?;
    }
    Ok(())
}

/// The bytes past the cut are still there in memory, for a reader that goes on.
fn every_cut(pair: &mut Pair, text: &[u8]) -> Result<(), String> {
    for end in 0..=text.len() {
        pair.text(EVERY_CUT, &text[..end], Compare::Named)?;
    }
    Ok(())
}

/// A long text, damaged near its end, and whole.
fn covering(pair: &mut Pair, random: &mut Random) -> Result<(), String> {
    let good = texts::covering(random, pair.bytes());
    for _ in 0..4 {
        let mut draft = good.clone();
        let at = draft.lines.len() - 1 - random.below(8);
        DAMAGES[random.below(DAMAGES.len())].to(random, &mut draft, at);
        one(pair, random, COVERING_DAMAGED, &draft, 1)?;
    }
    one(pair, random, COVERING, &good, 1)
}

/// Two damages of any kinds, in one line or in two.
fn twice(random: &mut Random, mut draft: Draft, same: bool) -> Draft {
    let lines = draft.lines.len();
    let first = random.below(lines);
    let second = match same {
        true => first,
        false => (first + random.below(lines)) % lines,
    };
    for at in [first, second] {
        DAMAGES[random.below(DAMAGES.len())].to(random, &mut draft, at);
    }
    draft
}

fn one(
    pair: &mut Pair,
    random: &mut Random,
    kind: &'static str,
    draft: &Draft,
    whole: usize,
) -> Result<(), String> {
    let text = draft.text();
    let compare = match random.one_in(whole) {
        true => Compare::Whole,
        false => Compare::Named,
    };
    let (answer, named) = pair.text(kind, &text, compare)?;
    let part = pair.part();
    features::note(&mut pair.tally, &text, answer, &named, part);
    Ok(())
}

/// The kinds of texts that were given an answer fewer times than is due. Those that
/// the lists do not make are due twice.
fn seldom_kinds(tally: &Tally, lists: u64) -> Vec<String> {
    let damages = DAMAGES.iter().map(|damage| match damage.due.len() {
        1 => (damage.name, damage.due, lists / OFTEN),
        _ => (damage.name, damage.due, lists / SELDOM),
    });
    let others = KINDS.iter().map(|&(kind, due)| (kind, due, lists / SELDOM));
    let fixed = fixed::KINDS.iter().chain(writing::KINDS);
    let fixed = fixed.map(|&(kind, due)| (kind, due, 2));
    let mut seldom = Vec::new();
    for (kind, due, least) in damages.chain(others).chain(fixed) {
        for &refusal in due {
            let times = tally.of_kind(kind, refusal);
            if times < least {
                seldom.push(format!(
                    "{kind}, refusal {refusal}: {times} times, and not {least}"
                ));
            }
        }
    }
    seldom
}

/// The features and the answers that were met fewer times than is due.
fn seldom_answers(tally: &Tally, lists: u64) -> Vec<String> {
    let features = FEATURES.iter().map(|&feature| {
        let times = tally.of_feature(feature);
        (feature.to_string(), times, lists / SELDOM)
    });
    let readings = READINGS.iter().map(|&refusal| {
        let times = tally.of_reading(refusal);
        (format!("reading, refusal {refusal}"), times, 100)
    });
    let writings = WRITINGS.iter().map(|&refusal| {
        let times = tally.of_writing(refusal);
        (format!("writing, refusal {refusal}"), times, 100)
    });
    features
        .chain(readings)
        .chain(writings)
        .filter(|(_, times, least)| times < least)
        .map(|(what, times, least)| format!("{what}: {times} times, and not {least}"))
        .collect()
}
