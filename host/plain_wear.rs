//! Erases for plain_compare, so that the counts of finished erases (document 02,
//! item 6) are raised often, and what became of them.

use crate::author::Dice;
use crate::second::model::{Device, Erase, Operation, Part, Setup, WornReport, BLOCKS};
use crate::second::steps::Step;

const OFF: Step = Step::Supply(false);
const ON: Step = Step::Supply(true);

/// A few blocks that a list erases again and again.
pub fn blocks(dice: &mut Dice) -> Vec<u32> {
    let some = |dice: &mut Dice| match dice.below(3) {
        0 => dice.below(4) as u32,
        1 => dice.pick(&[4, 18, 19, 34, 35, 257, 258]),
        _ => dice.below(BLOCKS as u64) as u32,
    };
    (0..1 + dice.below(3)).map(|_| some(dice)).collect()
}

/// What is under way ends, by a reset now and then; then one of the blocks is erased,
/// to its end or up to its last word.
pub fn scene(dice: &mut Dice, part: Part, blocks: &[u32]) -> Vec<Step> {
    let number = dice.pick(blocks);
    let block = part.block(number).expect("a block of the part");
    let write = |command| Step::Write(block.start, command);
    let mut steps = Vec::new();
    if dice.percent(30) {
        steps.push(Step::Reset);
    } else {
        steps.extend([ON, write(0xFF)]);
        for _ in 0..2 {
            steps.extend([write(0xD0), Step::Work(65_535), Step::Work(1)]);
        }
    }
    steps.extend([ON, write(0x60), write(0xD0)]);
    for _ in 0..1 + dice.below(3) {
        steps.extend([write(0x20), write(0xD0)]);
        steps.extend(ending(dice, block.start, block.size));
    }
    steps
}

/// The work of an erase of so many words: whole, with a suspend, or broken off before
/// the last word in one of the three ways.
fn ending(dice: &mut Dice, start: u32, size: u32) -> Vec<Step> {
    let write = |command| Step::Write(start, command);
    let some = dice.below(u64::from(size)) as u32;
    let most = Step::Work(size - 1);
    match dice.below(10) {
        0..=2 => vec![Step::Work(65_535), Step::Work(dice.pick(&[1, 9]))],
        3 => vec![most, Step::Work(0), Step::Work(1), Step::Work(1)],
        4 => vec![most, write(0xB0), write(0xD0), Step::Work(1)],
        5 => vec![Step::Work(some), write(0xB0), write(0xD0), most],
        6 => vec![most, Step::Reset],
        7 => vec![most, write(0xB0), Step::Reset],
        8 => vec![most, OFF, Step::Work(1), ON],
        _ => vec![most, write(0xB0), OFF, write(0xD0), ON, Step::Work(1)],
    }
}

/// The erases of two blocks, in turn, until both have had more than a count holds:
/// "the lesser of 65,535 and the number of finished erases".
pub fn beyond_the_most(part: Part, blocks: [u32; 2]) -> Vec<Step> {
    let starts = blocks.map(|block| part.block(block).expect("a block of the part").start);
    let write = |start, command| Step::Write(start, command);
    let mut steps = vec![ON];
    for start in starts {
        steps.extend([write(start, 0x60), write(start, 0xD0)]);
    }
    for _ in 0..65_535 + 3 {
        for start in starts {
            steps.extend([write(start, 0x20), write(start, 0xD0), Step::Work(64)]);
        }
    }
    steps
}

/// Follows the erase that is under way.
#[derive(Default)]
pub struct Wear {
    suspended: bool,
}

impl Wear {
    /// What an accepted step does to erases and to counts: by what is asked, and what
    /// became of it.
    pub fn facts(&mut self, before: &Device, after: &Device, step: Step) -> Vec<Fact> {
        if before.setup == Some(Setup::Erase) {
            self.suspended = false;
        }
        self.suspended |= after.suspended_erase.is_some();
        let running = match before.running {
            Some(Operation::Erase(erase)) => Some(erase),
            _ => None,
        };
        let suspended = before.suspended_erase;
        match (step, running.or(suspended)) {
            (Step::Work(count), Some(erase)) if running.is_some() && after.running.is_none() => {
                self.finished(before, erase, count)
            }
            (Step::Reset, erase) => {
                let mut facts = broken_off(before, erase, "by a reset");
                if before.most_worn().count > 0 {
                    facts.push(("wear counts", "kept by a reset"));
                }
                facts
            }
            (OFF, _) => broken_off(before, running, "by supply off"),
            (Step::Write(..), Some(_)) if !under_way(after) => {
                broken_off(before, suspended, "by D0h without supply")
            }
            _ => Vec::new(),
        }
    }

    fn finished(&self, before: &Device, erase: Erase, count: u32) -> Vec<Fact> {
        let counted = before.counts.of(erase.block);
        let size = words(before, erase);
        let facts = [
            (erase.block < 4, "of a small block"),
            (erase.block >= 4, "of a main block"),
            (self.suspended, "after a suspend"),
            (counted > 0, "of a block erased before"),
            (count > size - erase.done, "in a step with units to spare"),
        ];
        let held = facts.into_iter().filter(|&(holds, _)| holds);
        held.map(|(_, fact)| ("finished erase", fact)).collect()
    }
}

pub type Fact = (&'static str, &'static str);

/// An erase that ends one word before its end.
fn broken_off(device: &Device, erase: Option<Erase>, way: &'static str) -> Vec<Fact> {
    match erase {
        Some(erase) if words(device, erase) - erase.done == 1 => {
            vec![("erase broken off before its last word", way)]
        }
        _ => Vec::new(),
    }
}

fn under_way(device: &Device) -> bool {
    let erase_runs = matches!(device.running, Some(Operation::Erase(_)));
    device.suspended_erase.is_some() || erase_runs
}

fn words(device: &Device, erase: Erase) -> u32 {
    let block = device.part.block(erase.block);
    block.expect("a block of the part").size
}

/// How the most worn block comes to be that.
pub fn lead(device: &Device, worn: WornReport) -> Fact {
    let with_as_many =
        (0..BLOCKS as u32).filter(|&block| u32::from(device.counts.of(block)) == worn.count);
    let how = match (worn.count, with_as_many.count()) {
        (0, _) => "with no count",
        (_, 1) => "alone",
        _ => "on a tie",
    };
    ("most worn block", how)
}
