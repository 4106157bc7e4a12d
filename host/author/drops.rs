//! Scenes in which the supply drops (document 02, item 5): something is set up, runs
//! or is suspended, the supply goes off, now and then on again, D0h comes, and the
//! status and the words are looked at.

use super::Author;
use crate::second::model::{Block, BLOCKS, BUFFER_WORDS};
use crate::second::steps::Step;

const OFF: Step = Step::Supply(false);
const ON: Step = Step::Supply(true);

/// Words of a block that a scene changes: so many from the first on, of which its
/// operation has had so many units.
#[derive(Clone, Copy)]
struct Words {
    first: u32,
    count: u32,
    units: u32,
}

impl Author {
    /// With supply on, a drop of it over something in a block, now and then beside the
    /// suspended erase of another.
    pub(super) fn plan_supply_scene(&mut self) {
        let number = self.usual_block();
        let further = 1 + self.dice.below(BLOCKS as u64 - 1) as u32;
        let other = (number + further) % BLOCKS as u32;
        self.plan_writes(number, &[0x60, 0xD0]);
        let nested = self.dice.percent(50);
        let erased = nested.then(|| {
            self.plan_writes(other, &[0x60, 0xD0]);
            let words = self.plan_erase(other);
            self.plan_writes(other, &[0xB0]);
            words
        });
        let words = if self.dice.percent(40) {
            self.plan_set_up(number, nested)
        } else {
            self.plan_drop(number, nested)
        };
        self.plan_end(number);
        self.plan_looks(number, words);
        if let Some(words) = erased {
            self.plan_looks(other, words);
        }
    }

    pub(super) fn plan_writes(&mut self, block: u32, commands: &[u16]) {
        for &command in commands {
            let step = Step::Write(self.address_in(block), self.dressed(command));
            self.scene.push_back(step);
        }
    }

    /// An operation, running or suspended, and the supply off, or off and on.
    fn plan_drop(&mut self, block: u32, nested: bool) -> Words {
        let words = match self.dice.below(4) {
            0 if !nested => self.plan_erase(block),
            3 => self.plan_program(block),
            _ => self.plan_load(block),
        };
        if self.dice.percent(55) {
            self.plan_writes(block, &[0xB0]);
        }
        self.plan_supply(30);
        words
    }

    /// Supply off; on again with such a chance.
    fn plan_supply(&mut self, back: u64) {
        if self.dice.percent(10) {
            self.scene.push_back(ON); // it is on already
        }
        self.scene.push_back(OFF);
        if self.dice.percent(15) {
            self.scene.push_back(OFF);
        }
        if self.dice.percent(back) {
            self.scene.push_back(ON);
        }
    }

    /// D0h and work, some times, and the supply on before, between or not at all.
    fn plan_end(&mut self, block: u32) {
        let on = self.dice.pick(&[0, 1, 2, 9, 9]);
        for round in 0..self.dice.pick(&[0, 1, 1, 2, 2, 3]) {
            if round == on {
                self.scene.push_back(ON);
            }
            let count = self.dice.pick(&[0, 1, 1, 7, 65_535]);
            let step = Step::Write(self.address(), self.dressed(0xD0));
            self.scene.extend([step, Step::Work(count)]);
        }
        let start = self.block(block).start;
        let status = Step::Read(self.raised(start));
        self.scene.push_back(status);
    }

    fn plan_program(&mut self, block: u32) -> Words {
        let address = self.address_in(block);
        let (set_up, data) = (self.dice.pick(&[0x10, 0x40]), self.data());
        self.scene.push_back(Step::Write(address, set_up));
        self.scene.push_back(Step::Write(address, data));
        self.scene.push_back(Step::Work(0));
        Words {
            first: self.part.location(address),
            count: 1,
            units: 0,
        }
    }

    /// An erase with no word done, with some or with all but one.
    fn plan_erase(&mut self, number: u32) -> Words {
        let Block { start, size, .. } = self.block(number);
        let units = self.units(size);
        self.plan_writes(number, &[0x20, 0xD0]);
        self.scene.push_back(Step::Work(units));
        Words {
            first: start,
            count: size,
            units,
        }
    }

    fn units(&mut self, lacking: u32) -> u32 {
        match self.dice.below(3) {
            0 => 0,
            1 => lacking - 1,
            _ => self.dice.below(u64::from(lacking)) as u32,
        }
    }

    /// A buffer program with no word in, with some or with all but one.
    fn plan_load(&mut self, block: u32) -> Words {
        let (cycles, words) = self.load_cycles(block);
        let units = self.units(words.count);
        self.scene.extend(cycles);
        self.scene.push_back(Step::Work(units));
        Words { units, ..words }
    }

    /// E8h, the count, the words upward and D0h.
    fn load_cycles(&mut self, number: u32) -> (Vec<Step>, Words) {
        let block = self.block(number);
        let most = u64::from(block.size.min(BUFFER_WORDS as u32));
        let count = 1 + self.dice.below(most) as u32;
        let offset = self.dice.below(u64::from(block.size - count) + 1) as u32;
        let first = block.start + offset;
        let mut cycles = vec![
            Step::Write(self.address_in(number), 0xE8),
            Step::Write(self.address_in(number), count as u16 - 1),
        ];
        for location in first..first + count {
            cycles.push(Step::Write(self.raised(location), self.data()));
        }
        cycles.push(Step::Write(self.address_in(number), 0xD0));
        let units = 0;
        let words = Words {
            first,
            count,
            units,
        };
        (cycles, words)
    }

    /// A set-up of any kind, with supply steps before one of its later cycles.
    fn plan_set_up(&mut self, number: u32, nested: bool) -> Words {
        let (mut cycles, words) = self.load_cycles(number);
        let address = self.address_in(number);
        let mut pair = |first, second| {
            cycles = vec![Step::Write(address, first), Step::Write(address, second)];
        };
        match self.dice.below(6) {
            0 => pair(0x40, self.data()),
            1 if !nested => pair(0x20, self.dressed(0xD0)),
            2 | 1 => pair(0x60, self.dice.pick(&[0xD0, 0xD0, 0x01, 0x03])),
            _ => {}
        }
        // Of a load, each kind of cycle is as likely to be the one that is due.
        let last = cycles.len() - 1;
        let before = match self.dice.below(4) {
            0 => last,
            1 => 1,
            2 => last.min(2),
            _ => 1 + self.dice.index(last),
        };
        let rest = cycles.split_off(before);
        self.scene.extend(cycles);
        self.plan_supply(50);
        self.scene.extend(rest);
        let units = self.units(words.count);
        self.scene.push_back(Step::Work(units));
        Words { units, ..words }
    }

    /// The words on both sides of where an operation stopped, its first and its last.
    fn plan_looks(&mut self, block: u32, words: Words) {
        self.plan_writes(block, &[0xFF]);
        let last = words.count - 1;
        for place in [
            words.units.saturating_sub(1),
            words.units.min(last),
            0,
            last,
        ] {
            let address = self.raised(words.first + place);
            self.scene.push_back(Step::Read(address));
        }
    }
}
