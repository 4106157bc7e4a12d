//! Random lists. A list is made by its part and its seed alone: the state and
//! array it begins with, its steps, and the calls it is played in.

use crate::author::states::{CLAUSES, SHARED_CLAUSE, SUPPLY_CLAUSES};
use crate::author::{Author, Dice};
use crate::library::STATE_WORDS;
use crate::pair::{Difference, Fate, Pair, Start};
use crate::second::model::Device;
use crate::state::{self, Words};
use std::collections::VecDeque;

/// Plays the list of a seed on the pair's part.
pub fn play(pair: &mut Pair, seed: u64) -> Result<(), Difference> {
    let part = pair.part();
    let mut dice = Dice::new(seed);
    let mut author = Author::new(part, dice.next());
    // Most lists begin at power-up, since only those have a journal.
    let start = match dice.below(20) {
        0..=11 => Start::PowerUp,
        12..=16 => Start::of(&author.device()),
        17 => {
            let clause = match dice.below(5) {
                0 => SUPPLY_CLAUSES + dice.index(SHARED_CLAUSE - SUPPLY_CLAUSES),
                1 => SHARED_CLAUSE,
                _ => dice.index(CLAUSES.len()),
            };
            pair.counts.reached.add_clause(clause);
            Start::of(&author.broken(clause))
        }
        _ => {
            let mut device = author.device();
            // Beside words that are of no device, too.
            if dice.percent(20) {
                device.counts.main[0][0] = dice.pick(&[1, 65_535]);
            }
            Start::Words(damaged(&mut dice, state::encode(&device)), device.counts)
        }
    };
    let mut left = length(&mut dice, pair.is_full());
    pair.begin(start, dice.next())?;
    // A state that is not well formed refuses all, however long the list is.
    if !pair.device().is_some_and(Device::well_formed) {
        left = left.min(40);
    }

    // Where the state is of no device, the author looks at this one instead.
    let stand_in = Device::power_up(part.number());
    let mut waiting: VecDeque<u64> = VecDeque::new();
    while left > 0 {
        let size = match dice.below(20) {
            0 => 0,
            1..=5 => 1,
            6..=10 => 2 + dice.index(7),
            11..=15 => 9 + dice.index(56),
            _ => left,
        };
        let size = size.min(left);
        let room = match dice.below(20) {
            0 => dice.index(size + 1),
            1 => size + 1 + dice.index(3),
            _ => size,
        };
        let words = part.array_length();
        let array = match dice.below(40) {
            0 => dice.pick(&[words - 1, words + 1, 0, 1, words / 2, 16_384.min(words - 1)]),
            _ => words,
        };

        let mut call = pair.call(room, array);
        let mut later = Vec::new();
        for _ in 0..size {
            let number = waiting
                .pop_front()
                .unwrap_or_else(|| author.next(pair.device().unwrap_or(&stand_in)));
            match pair.add(&mut call, number) {
                // A step refused for the array is still to be played.
                Fate::Played if array != words => later.push(number),
                Fate::Played | Fate::Stopped => left -= 1,
                Fate::NotReached => later.push(number),
            }
        }
        for number in later.into_iter().rev() {
            waiting.push_front(number);
        }
        let whole = !pair.is_full() || dice.below(200) == 0;
        pair.check(call, whole)?;
    }
    pair.finish()
}

/// How many steps. On a full part the array costs more than the steps, so the
/// lists there are long.
fn length(dice: &mut Dice, full: bool) -> usize {
    match (full, dice.below(10)) {
        (false, 0..=2) => dice.index(13),
        (false, 3..=8) => dice.index(300),
        (false, _) => dice.index(3_000),
        (true, 0) => dice.index(50),
        (true, 1..=8) => dice.index(3_000),
        (true, _) => dice.index(20_000),
    }
}

/// State words with one or two numbers or words changed, or of another count.
fn damaged(dice: &mut Dice, mut words: Words) -> Vec<u64> {
    match dice.below(10) {
        0 => {
            let mut words = words.to_vec();
            words.resize(dice.pick(&[0, 1, STATE_WORDS - 1, STATE_WORDS + 1]), 0);
            return words;
        }
        1..=3 => damage(dice, &mut words),
        _ => {}
    }
    damage(dice, &mut words);
    words.to_vec()
}

/// A number of the state is changed, or, one time in four, a whole word.
fn damage(dice: &mut Dice, words: &mut Words) {
    let mut field = dice.pick(&state::fields());
    if dice.below(4) == 0 {
        (field.low, field.bits) = (0, 64);
    }
    let old = field.of(words);
    let new = match dice.below(4) {
        0 => dice.next() >> dice.below(64),
        1 => old ^ 1 << dice.below(u64::from(field.bits)),
        2 => old.wrapping_add(1),
        _ => dice.below(5),
    };
    field.put(words, new);
}
