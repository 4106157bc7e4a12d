//! Checks of the erase counts (document 02, item 6) that need no chance: the last word of
//! each block's erase, from counts below, at and just before the limit; each place alone;
//! each pair of blocks with the same count; and the shared place that is not 0.

use super::{probe_with, shapes, Checked, Failure};
use crate::author::wear::{counts_by, set_count};
use crate::library;
use crate::pair::{Difference, Pair, Start};
use crate::second::model::{Device, Erase, EraseCounts, Operation, Part, Setup, BLOCKS};
use crate::second::steps::Step;
use crate::state::{self, Words};
use crate::wear::Lent;

/// Where a count stops.
const LIMIT: u16 = 65_535;

/// Counts to hand in: none, each another, and all at the limit or just below it.
pub const VARIED: [fn() -> EraseCounts; 4] = [
    EraseCounts::none,
    numbered,
    || counts_by(|_| LIMIT),
    || counts_by(|_| LIMIT - 1),
];

/// A count for each block that no other block has.
pub fn numbered() -> EraseCounts {
    counts_by(|block| 1_000 + 7 * block as u16)
}

/// Lent memory, as these counts or, where there are none, untouched.
pub fn same_lent(check: &str, due: Option<&EraseCounts>, lent: &Lent) -> Checked {
    let untouched = Lent::untouched();
    let difference = match due {
        Some(due) => lent.difference(due),
        None => lent.difference(&EraseCounts {
            main: untouched.main,
            small: untouched.small,
        }),
    };
    match difference {
        None => Ok(()),
        Some((what, due, got)) => Err(super::failure(check, &what, due.into(), got.into())),
    }
}

/// Devices of every shape, each with numbers that the shared place may wrongly hold; all
/// else is well formed. On a full part, whose array takes long to compare, one number for
/// each shape.
pub fn malformed(part: Part) -> Vec<(String, Words, EraseCounts)> {
    let mut states = Vec::new();
    let numbers: Vec<u16> = (0..16)
        .map(|bit| 1 << bit)
        .chain([3, 0x00FF, 0xFF00, LIMIT])
        .collect();
    for (shape, device) in shapes(part).into_iter().enumerate() {
        for (number, &shared) in numbers.iter().enumerate() {
            if part.unit() > 64 && number != shape % numbers.len() {
                continue;
            }
            let mut counts = VARIED[(number + shape) % VARIED.len()]();
            counts.main[0][0] = shared;
            let name = format!("shared place {shared}, shape {shape}");
            states.push((name, state::encode(&device), counts));
        }
    }
    states
}

/// All of it; gives how many counts were handed in.
pub fn check_counts(pair: &mut Pair) -> Result<u64, Failure> {
    let mut tried = 0;
    let part = pair.part().number();
    let mut failed = |what: String, tried_one: Result<(), Difference>| {
        tried += 1;
        tried_one.map_err(|difference| Failure {
            check: format!("{what}, on part {part}"),
            difference,
        })
    };
    for block in 0..BLOCKS as u32 {
        for count in [0, 1, 255, 256, LIMIT - 1, LIMIT] {
            for steps in last_word(pair.part(), block) {
                let what = format!("last word of block {block} with count {count}");
                failed(what, finish(pair, block, count, &steps))?;
            }
            failed(format!("count {count} of block {block} alone"), {
                let mut counts = EraseCounts::none();
                set_count(&mut counts, block, count);
                all_reports(pair, counts)
            })?;
        }
    }
    for low in 0..BLOCKS as u32 {
        for high in low + 1..BLOCKS as u32 {
            failed(format!("a tie of blocks {low} and {high}"), {
                tie(pair, low, high)
            })?;
        }
    }
    Ok(tried)
}

/// Ways to the last word of an erase that has been accepted, and ways not to it.
fn last_word(part: Part, block: u32) -> Vec<Vec<u64>> {
    let start = part.block(block).expect("a block of the part").start;
    let (suspend, resume) = (Step::Write(start, 0xB0), Step::Write(start, 0xD0));
    let (off, on) = (Step::Supply(false), Step::Supply(true));
    let work = Step::Work(1);
    let ways: [&[Step]; 7] = [
        &[work],
        &[Step::Work(65_535), work],
        &[Step::Work(0), suspend, work, resume, work, work],
        &[Step::Reset, work],
        &[suspend, Step::Reset, resume, work],
        &[off, work, on, work],
        &[suspend, off, resume, work, on, resume, work],
    ];
    ways.map(|steps| steps.iter().copied().map(library::number).collect())
        .to_vec()
}

/// An erase of which the last word is due, from a count of its own among others.
fn finish(pair: &mut Pair, block: u32, count: u16, steps: &[u64]) -> Result<(), Difference> {
    let size = pair.part().block(block).expect("a block of the part").size;
    let device = Device {
        running: Some(Operation::Erase(Erase {
            block,
            done: size - 1,
        })),
        supply: true,
        ..Device::power_up(pair.part().number())
    };
    let mut counts = numbered();
    set_count(&mut counts, block, count);
    let words = state::encode(&device);
    let length = pair.part().array_length();
    probe_with(pair, steps, (&words, &counts), length, false)
}

/// The reports of counts beside a device that is well formed.
fn all_reports(pair: &mut Pair, counts: EraseCounts) -> Result<(), Difference> {
    let device = Device {
        setup: Some(Setup::Lock),
        ..Device::power_up(pair.part().number())
    };
    let words = state::encode(&device).to_vec();
    pair.begin_on_same_array(Start::Words(words, counts))?;
    pair.check_erases()
}

/// Two blocks with one count, and all others with less.
fn tie(pair: &mut Pair, low: u32, high: u32) -> Result<(), Difference> {
    let mut counts = counts_by(|block| (block % 3) as u16);
    set_count(&mut counts, low, 4);
    set_count(&mut counts, high, 4);
    let words = state::encode(&Device::power_up(pair.part().number())).to_vec();
    pair.begin_on_same_array(Start::Words(words, counts))
}
