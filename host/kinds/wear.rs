//! What the lists reach of the erase counts (document 02, item 6): erases that are
//! finished, and how; erases that are broken off; the most worn block; and the shared place
//! that is not 0.

use super::{Glance, Kind, Reached};
use crate::author::wear::place;
use crate::second::model::{Device, Erase, EraseCounts, Operation, Setup, BLOCKS};
use crate::second::steps::Step;

/// Follows the erases of a list, which a device does not tell.
#[derive(Clone, Copy, Default)]
pub struct Wear {
    /// The erase under way was accepted in this list, and suspended so often.
    accepted: bool,
    suspends: u32,
    /// A program was finished while it was suspended.
    around: bool,
    /// A bit for each block whose erase was finished.
    finished: [u64; BLOCKS.div_ceil(64)],
}

impl Wear {
    /// Counts what an accepted step came to.
    pub fn step(&mut self, reached: &mut Reached, before: &Glance, step: Step, after: &Device) {
        match (step, before.running) {
            (Step::Work(count), Some(Operation::Erase(erase))) if after.running.is_none() => {
                self.finish(reached, before, erase, count, after);
            }
            (Step::Work(_), Some(Operation::Program(_))) => {
                self.around |= after.running.is_none() && before.erase_suspended();
            }
            (Step::Write(..), None) if before.setup == Some(Setup::Erase) => {
                if after.running.is_some() {
                    let finished = self.finished;
                    *self = Wear {
                        accepted: true,
                        finished,
                        ..Wear::default()
                    };
                }
            }
            (Step::Write(..), Some(Operation::Erase(_))) if after.running.is_none() => {
                self.suspends += 1;
            }
            (Step::Write(..), None) => note_resume(reached, before, after),
            (Step::Supply(false), Some(Operation::Erase(erase))) => {
                let last = is_last(erase, after);
                reached.add(Kind::BrokenOff);
                reached.add_if(last, Kind::BrokenOffLast);
            }
            (Step::Reset, _) => note_reset(reached, before, after),
            _ => {}
        }
    }

    /// The last word of an erase, by a step of so many units.
    fn finish(
        &mut self,
        reached: &mut Reached,
        before: &Glance,
        erase: Erase,
        count: u32,
        after: &Device,
    ) {
        let number = erase.block as usize;
        let small = number < 4;
        let lacking = lacking(erase, after);
        reached.finished[number] += 1;
        reached.add_if(small, Kind::FinishedSmall);
        reached.add_if(!small, Kind::FinishedMain);
        reached.add_if(!after.part.is_top(), Kind::FinishedBottom);
        reached.add_if(after.part.is_top(), Kind::FinishedTop);
        reached.add_if(after.part.unit() > 64, Kind::FinishedFull);
        reached.add_if(self.suspends == 1, Kind::FinishedSuspended);
        reached.add_if(self.suspends > 1, Kind::FinishedSuspendedOften);
        reached.add_if(self.around, Kind::FinishedAround);
        reached.add_if(lacking == 1, Kind::FinishedOneWord);
        reached.add_if(lacking == count, Kind::FinishedExact);
        reached.add_if(lacking < count, Kind::FinishedOver);
        reached.add_if(!self.accepted, Kind::FinishedGiven);
        reached.add_if(before.erases == 65_534, Kind::CountToLimit);
        reached.add_if(before.erases == 65_535, Kind::CountAtLimit);
        reached.add_if(!after.unprotected[number], Kind::CountProtected);
        let (word, bit) = (number / 64, 1 << (number % 64));
        reached.add_if(self.finished[word] & bit != 0, Kind::FinishedAgain);
        self.finished[word] |= bit;
        let finished = self.finished;
        *self = Wear {
            finished,
            ..Wear::default()
        };
    }
}

/// The words that an erase of a well-formed device has still to do.
fn lacking(erase: Erase, device: &Device) -> u32 {
    let block = device.part.block(erase.block).expect("a block of the part");
    block.size - erase.done
}

fn is_last(erase: Erase, device: &Device) -> bool {
    lacking(erase, device) == 1
}

/// A write with nothing running that is not the second cycle of an erase: D0h without
/// supply ends a suspended erase, where no program is suspended.
fn note_resume(reached: &mut Reached, before: &Glance, after: &Device) {
    if let (Some(erase), None, None) =
        (before.suspended_erase, after.suspended_erase, after.running)
    {
        reached.add(Kind::BrokenResume);
        reached.add_if(is_last(erase, after), Kind::BrokenResumeLast);
    }
}

fn note_reset(reached: &mut Reached, before: &Glance, after: &Device) {
    let some = after.counts != EraseCounts::none();
    reached.add_if(some, Kind::ResetCounts);
    if let Some(Operation::Erase(erase)) = before.running {
        reached.add(Kind::BrokenReset);
        reached.add_if(is_last(erase, after), Kind::BrokenResetLast);
    }
    if let Some(erase) = before.suspended_erase {
        reached.add(Kind::BrokenSuspended);
        reached.add_if(is_last(erase, after), Kind::BrokenSuspendedLast);
    }
}

/// Counts the reports that are made after a call.
pub fn note_reports(reached: &mut Reached, device: &Device) {
    if device.counts.main[0][0] != 0 {
        reached.add_if(only_shared(device), Kind::SharedReports);
        return;
    }
    let worn = device.most_worn();
    if worn.refusal != 0 {
        return;
    }
    if worn.count == 0 {
        reached.add(Kind::WornNone);
        return;
    }
    let mut others = worn.block + 1..BLOCKS as u32;
    let tie = others.any(|block| u32::from(device.counts.of(block)) == worn.count);
    reached.add_if(tie, Kind::WornTie);
    reached.add_if(worn.block < 4, Kind::WornSmall);
    reached.add_if(worn.block >= 4, Kind::WornMain);
}

/// Whether the device is well formed but for the shared place.
fn only_shared(device: &Device) -> bool {
    let mut other = device.clone();
    other.counts.main[0][0] = 0;
    device.counts.main[0][0] != 0 && other.well_formed()
}

/// Counts a step that is refused for the shared place and for nothing else, and one that
/// is refused 1 beside it.
pub fn note_refused(reached: &mut Reached, step: Step, refusal: u8, device: &Device) {
    if device.counts.main[0][0] == 0 || !only_shared(device) {
        return;
    }
    if refusal == 1 {
        reached.add(Kind::SharedArray);
        return;
    }
    reached.add(match step {
        Step::Read(_) => Kind::SharedRead,
        Step::Write(..) => Kind::SharedWrite,
        Step::Work(_) => Kind::SharedWork,
        Step::Supply(false) => Kind::SharedOff,
        Step::Supply(true) => Kind::SharedOn,
        Step::Reset => Kind::SharedReset,
    });
}

/// Counts what a list begins with; no device where the state words are of none.
pub fn note_state(reached: &mut Reached, device: Option<&Device>, counts: &EraseCounts) {
    let some = *counts != EraseCounts::none();
    let Some(device) = device else {
        reached.add_if(some, Kind::GivenNoDevice);
        reached.add_if(counts.main[0][0] != 0, Kind::GivenNoDeviceShared);
        return;
    };
    if device.well_formed() {
        reached.add_if(some, Kind::GivenCounts);
        let limit = Glance::at(device).erases >= 65_534;
        reached.add_if(limit, Kind::GivenLimit);
    }
}

/// The finished erases of each small block, and of the main blocks by row and by place:
/// each with the least that it has to be. The least of all blocks is 1.
pub fn named(finished: &[u64; BLOCKS]) -> impl Iterator<Item = (u64, u64, String)> {
    let mut rows = [0; 16];
    let mut places = [0; 16];
    let mut small = Vec::new();
    for (block, &times) in finished.iter().enumerate() {
        match place(block as u32).expect("a block") {
            (Some(row), place) => {
                rows[row] += times;
                places[place] += times;
            }
            (None, block) => small.push((times, 50, format!("erase finished of block {block}"))),
        }
    }
    let line = |what: &'static str| {
        move |(number, times)| (times, 50, format!("erase finished in {what} {number}"))
    };
    let rarest = finished.iter().copied().min().unwrap_or(0);
    let all = (
        rarest,
        1,
        "erase finished of the block that is erased least".to_string(),
    );
    small
        .into_iter()
        .chain(rows.into_iter().enumerate().map(line("row")))
        .chain(places.into_iter().enumerate().map(line("place")))
        .chain([all])
}
