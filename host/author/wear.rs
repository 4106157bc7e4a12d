//! Scenes in which erases are finished, or broken off just before (document 02, item 6),
//! and erase counts to begin from.

use super::Author;
use crate::second::model::{Device, EraseCounts, Operation, BLOCKS};
use crate::second::steps::Step;

/// Where a count stops.
const LIMIT: u16 = 65_535;

/// Where the count of a block lies: its row, none for a small block, and its place there.
/// None where there is no such block.
pub fn place(block: u32) -> Option<(Option<usize>, usize)> {
    match block as usize {
        small @ 0..4 => Some((None, small)),
        main @ 4..BLOCKS => Some((Some((main - 3) / 16), (main - 3) % 16)),
        _ => None,
    }
}

/// Sets the count of a block.
pub fn set_count(counts: &mut EraseCounts, block: u32, count: u16) {
    match place(block).expect("a block") {
        (Some(row), place) => counts.main[row][place] = count,
        (None, place) => counts.small[place] = count,
    }
}

/// Every block's count made by a function of the block; the shared place is 0.
pub fn counts_by(mut count: impl FnMut(u32) -> u16) -> EraseCounts {
    let mut counts = EraseCounts::none();
    for block in 0..BLOCKS as u32 {
        set_count(&mut counts, block, count(block));
    }
    counts
}

impl Author {
    /// Counts to begin from, often at the limit or just below it for the blocks that the
    /// list keeps coming back to and for the erase under way.
    pub(super) fn erase_counts(&mut self, device: &Device) -> EraseCounts {
        let style = self.dice.below(6);
        let same = self.dice.next() as u16;
        let mut counts = counts_by(|_| match style {
            0 => 0,
            1 => LIMIT,
            2 => same,
            3 => self.dice.below(3) as u16,
            _ => self.dice.next() as u16,
        });
        let mut blocks = self.favoured.clone();
        if let Some(Operation::Erase(erase)) = device.running {
            blocks.push(erase.block);
        }
        blocks.extend(device.suspended_erase.map(|erase| erase.block));
        for block in blocks {
            if self.dice.percent(60) {
                set_count(&mut counts, block, LIMIT - self.dice.below(3) as u16);
            }
        }
        counts
    }

    /// With supply on, one block erased some times.
    pub(super) fn plan_wear_scene(&mut self) {
        let number = match self.dice.below(3) {
            0 => self.usual_block(),
            _ => self.dice.below(BLOCKS as u64) as u32, // so that each block has its turn
        };
        self.plan_writes(number, &[0x60, 0xD0]);
        for _ in 0..self.dice.pick(&[1, 1, 1, 2, 3]) {
            let left = self.plan_suspends(number);
            if !self.plan_last_word(number, left) {
                break;
            }
        }
    }

    /// An erase, suspended and resumed some times, now and then with a program of another
    /// block between; gives the words that are left to do.
    fn plan_suspends(&mut self, number: u32) -> u32 {
        let mut left = self.block(number).size;
        self.plan_writes(number, &[0x20, 0xD0]);
        for _ in 0..self.dice.pick(&[0, 0, 0, 1, 1, 2, 3]) {
            let units = match self.dice.below(4) {
                0 => 0,
                1 => left - 1,
                _ => self.dice.below(u64::from(left)) as u32,
            };
            left -= units;
            self.plan_work(units);
            self.plan_writes(number, &[0xB0]);
            if self.dice.percent(40) {
                let further = 1 + self.dice.below(BLOCKS as u64 - 1) as u32;
                let other = (number + further) % BLOCKS as u32;
                let data = self.data();
                self.plan_writes(other, &[0x60, 0xD0, 0x40]);
                let address = self.address_in(other);
                self.scene
                    .extend([Step::Write(address, data), Step::Work(1)]);
            }
            self.plan_writes(number, &[0xD0]);
        }
        left
    }

    /// The last word of an erase in most scenes: with all else, or alone; or an end one
    /// word before it. Gives whether the block can be erased again.
    fn plan_last_word(&mut self, number: u32, left: u32) -> bool {
        let way = self.dice.below(20);
        if way >= 10 {
            self.plan_finish(left);
            return true;
        }
        let units = match self.dice.below(4) {
            0 => self.dice.below(u64::from(left)) as u32,
            _ => left - 1,
        };
        self.plan_work(units);
        let suspended = way % 2 == 1;
        if suspended {
            self.plan_writes(number, &[0xB0]);
        }
        match way / 2 {
            0 | 1 => {
                self.scene.push_back(Step::Reset);
                return false;
            }
            2 | 3 => {
                self.scene.push_back(Step::Supply(false));
                self.plan_writes(number, &[0xD0]);
                self.scene.extend([Step::Work(1), Step::Supply(true)]);
            }
            _ => {
                self.plan_writes(number, &[0xD0]); // resumes it where it is suspended
                self.scene.push_back(Step::Work(left - units));
            }
        }
        true
    }

    /// The words that are left, at once or the last one alone, and with units to spare.
    fn plan_finish(&mut self, left: u32) {
        let spare = match self.dice.below(3) {
            0 => self.dice.pick(&[1, 7, 65_535]),
            _ => 0,
        };
        match self.dice.below(3) {
            0 => {
                self.plan_work(left - 1);
                self.scene.push_back(Step::Work(65_535.min(1 + spare)));
            }
            _ if left + spare <= 65_535 => self.plan_work(left + spare),
            _ => {
                self.plan_work(left);
                self.scene.push_back(Step::Work(spare));
            }
        }
    }

    /// Work of any number of units, in as few steps as can be.
    fn plan_work(&mut self, units: u32) {
        let first = units.min(65_535);
        self.scene.push_back(Step::Work(first));
        if units > first {
            self.scene.push_back(Step::Work(units - first));
        }
    }
}
