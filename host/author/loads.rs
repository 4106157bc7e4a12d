//! The cycles of a load after its E8h: right ones, and each wrong one that there
//! is.

use super::Author;
use crate::second::model::{Block, Device, Setup, ADDRESSES, BLOCKS, BUFFER_WORDS};
use crate::second::steps::Step;

/// In which order the words of a load come, after the first.
#[derive(Clone, Copy)]
pub enum Order {
    Upward,
    Downward,
    /// Some twice or more, and so some not at all.
    Any,
}

impl Author {
    /// The next cycle of a load, most often a right one; now and then a step
    /// that leaves the load standing.
    pub(super) fn load_cycle(&mut self, device: &Device, setup: Setup) -> Step {
        // A damaged state may name no block.
        if !device.well_formed() {
            return Step::Write(self.address(), self.command());
        }
        if !device.supply && self.dice.percent(4) {
            return Step::Supply(true); // else most loads would come to nothing
        }
        match self.dice.below(100) {
            0 => return Step::Supply(!device.supply),
            1 => return Step::Work(0),
            2 => {
                let past = self.dice.below(100) as u32;
                return Step::Write(ADDRESSES + past, self.data());
            }
            _ => {}
        }
        match setup {
            Setup::LoadCount { block } => self.load_count(block),
            Setup::LoadFirst { block, words } => self.load_first(block, words),
            Setup::LoadNext { start, words, due } if due > 0 => self.load_next(start, words, due),
            Setup::LoadNext { start, .. } => self.load_confirm(start),
            Setup::Program | Setup::Erase | Setup::Lock => unreachable!("no load"),
        }
    }

    fn load_count(&mut self, block: u32) -> Step {
        self.order = self
            .dice
            .pick(&[Order::Upward, Order::Upward, Order::Downward, Order::Any]);
        let size = self.block(block).size;
        let most = size.min(BUFFER_WORDS as u32) as u16;
        let count = match self.dice.below(20) {
            0..=3 => 0,
            4..=7 => self.dice.below(6) as u16 % most,
            8..=13 => self.dice.below(u64::from(most)) as u16,
            14..=15 => most - 1,
            16 => self.dice.below(BUFFER_WORDS as u64) as u16, // more than a small block may have
            17 => self.dice.pick(&[32, 33, 255, 0xD0, 0xFF]),
            18 => (1 + self.dice.below(255) as u16) << 8 | self.dice.below(32) as u16,
            _ => self.dice.next() as u16,
        };
        Step::Write(self.address_in_or_out(block, 94), count)
    }

    /// In a block, most often such that the words fit it.
    fn load_first(&mut self, number: u32, words: u32) -> Step {
        let block = self.block(number);
        let last = block.size.saturating_sub(words); // the last offset that fits
        let offset = match self.dice.below(20) {
            0..=3 => 0,
            4..=6 => last,
            7 => (last + 1).min(block.size - 1),
            8 => block.size - 1,
            9..=11 => self.dice.below(u64::from(last) + 1) as u32 / 32 * 32,
            _ => self.dice.below(u64::from(last) + 1) as u32,
        };
        let address = if self.dice.percent(94) {
            self.raised(block.start + offset)
        } else {
            self.address_outside(number)
        };
        Step::Write(address, self.data())
    }

    fn load_next(&mut self, start: u32, words: u32, due: u32) -> Step {
        let number = self.block_of(start);
        let block = self.block(number);
        // As likely to go wrong with many words as with few.
        if self.dice.below(u64::from(words) * 3) == 0 {
            let address = self.address_beside(number, block, start, words);
            return Step::Write(address, self.data());
        }
        let offset = match self.order {
            _ if self.dice.percent(3) => self.dice.below(u64::from(words)) as u32,
            Order::Upward => words - due,
            Order::Downward => due,
            Order::Any => self.dice.below(u64::from(words)) as u32,
        };
        let data = match self.dice.below(20) {
            0 => 0xFFFF,
            _ => self.data(),
        };
        Step::Write(self.raised(start + offset), data)
    }

    fn load_confirm(&mut self, start: u32) -> Step {
        let block = self.block_of(start);
        let data = if self.dice.percent(90) {
            self.dressed(0xD0)
        } else {
            self.command()
        };
        Step::Write(self.address_in_or_out(block, 93), data)
    }

    /// For none of the words of a load: below them, above them or in another
    /// block.
    fn address_beside(&mut self, number: u32, block: Block, start: u32, words: u32) -> u32 {
        let near = self.dice.percent(60);
        let (below, end) = (start - block.start, start + words);
        let above = block.start + block.size - end;
        match self.dice.below(3) {
            0 if below > 0 => {
                let back = if near {
                    0
                } else {
                    self.dice.below(u64::from(below)) as u32
                };
                self.raised(start - 1 - back)
            }
            1 if above > 0 => {
                let on = if near {
                    0
                } else {
                    self.dice.below(u64::from(above)) as u32
                };
                self.raised(end + on)
            }
            _ => self.address_outside(number),
        }
    }

    /// In a block, with such a chance; else outside it.
    fn address_in_or_out(&mut self, block: u32, chance: u64) -> u32 {
        if self.dice.percent(chance) {
            self.address_in(block)
        } else {
            self.address_outside(block)
        }
    }

    /// In another block, often the next one.
    fn address_outside(&mut self, block: u32) -> u32 {
        let blocks = BLOCKS as u32;
        let further = match self.dice.below(4) {
            0 => 1,
            1 => blocks - 1,
            _ => 1 + self.dice.below(u64::from(blocks) - 1) as u32,
        };
        self.address_in((block + further) % blocks)
    }

    pub(super) fn block(&self, number: u32) -> Block {
        self.part.block(number).expect("a block of the part")
    }

    fn block_of(&self, location: u32) -> u32 {
        let place = self.part.place(location);
        place.expect("a location of the part").block
    }
}
