//! Writes the steps of random lists, and random states to begin from. All is
//! drawn from a seed, with an eye on the second model's device, so that blocks
//! are unprotected, loads come to their end, and programs and erases are accepted,
//! suspended, nested and cut, by resets and by the supply, and erases finished, far
//! more often than by chance.

mod drops;
mod loads;
pub mod states;
pub mod wear;

use crate::library;
use crate::second::model::{
    without_reserved_bits, Device, Mode, Operation, Part, Program, Setup, ADDRESSES, BANKS, BLOCKS,
    BUFFER_WORDS, RESERVED_BITS,
};
use crate::second::steps::Step;
use loads::Order;
use std::collections::VecDeque;

/// SplitMix64.
#[derive(Clone)]
pub struct Dice(u64);

impl Dice {
    pub fn new(seed: u64) -> Dice {
        Dice(seed)
    }

    pub fn next(&mut self) -> u64 {
        self.0 = self.0.wrapping_add(0x9E37_79B9_7F4A_7C15);
        let mut x = self.0;
        x = (x ^ x >> 30).wrapping_mul(0xBF58_476D_1CE4_E5B9);
        x = (x ^ x >> 27).wrapping_mul(0x94D0_49BB_1331_11EB);
        x ^ x >> 31
    }

    /// A number below `limit`, which is not 0.
    pub fn below(&mut self, limit: u64) -> u64 {
        ((u128::from(self.next()) * u128::from(limit)) >> 64) as u64
    }

    pub fn index(&mut self, length: usize) -> usize {
        self.below(length as u64) as usize
    }

    pub fn percent(&mut self, chance: u64) -> bool {
        self.below(100) < chance
    }

    pub fn pick<T: Copy>(&mut self, from: &[T]) -> T {
        from[self.index(from.len())]
    }
}

/// The commands, and some that are none.
const COMMANDS: [u16; 16] = [
    0xFF, 0x70, 0x90, 0x98, 0xB0, 0xD0, 0x50, 0x10, 0x40, 0x60, 0x20, 0x01, 0x03, 0x00, 0xE8, 0x2F,
];

/// Those that fit what runs or is suspended, with some that are ignored then.
const BUSY_COMMANDS: [u16; 11] = [
    0xB0, 0xB0, 0xB0, 0xD0, 0x50, 0x40, 0x60, 0x20, 0xE8, 0xFF, 0x70,
];
const PROGRAM_SUSPENDED_COMMANDS: [u16; 11] = [
    0xD0, 0xD0, 0xD0, 0x40, 0x10, 0x60, 0x20, 0xE8, 0x50, 0xB0, 0xFF,
];
const ERASE_SUSPENDED_COMMANDS: [u16; 13] = [
    0xD0, 0x40, 0x10, 0x40, 0x40, 0xE8, 0xE8, 0xE8, 0x60, 0x60, 0x20, 0x50, 0x90,
];
const IDLE_COMMANDS: [u16; 13] = [
    0x40, 0x10, 0x40, 0x40, 0xE8, 0xE8, 0xE8, 0x20, 0x20, 0x20, 0x60, 0x50, 0xD0,
];

/// Offsets in a bank or block at which a read may find something.
const OFFSETS: [u32; 9] = [0, 1, 2, 3, 4, 5, 0x10, 0x11, 0x12];

pub struct Author {
    dice: Dice,
    part: Part,
    /// The blocks the list keeps coming back to.
    favoured: Vec<u32>,
    /// Of a hundred steps, those drawn without a look at the device.
    wild: u64,
    /// Of a thousand numbers, resets and numbers that are no step.
    resets: u64,
    no_steps: u64,
    /// In which order the words of the load come.
    order: Order,
    /// The steps to come of a scene in which the supply drops, or a block is erased.
    scene: VecDeque<Step>,
}

impl Author {
    pub fn new(part: Part, seed: u64) -> Author {
        let mut dice = Dice::new(seed);
        let mut favoured = Vec::new();
        for _ in 0..1 + dice.below(5) {
            favoured.push(some_block(&mut dice));
        }
        // Neighbours share an edge, and most often a bank.
        if dice.percent(50) {
            favoured.push((favoured[0] + 1) % BLOCKS as u32);
        }
        Author {
            part,
            favoured,
            wild: dice.pick(&[0, 0, 2, 5, 20, 100]),
            resets: dice.pick(&[0, 1, 5, 30]),
            no_steps: dice.pick(&[0, 0, 5, 30]),
            order: Order::Upward,
            scene: VecDeque::new(),
            dice,
        }
    }

    /// The next number of the list: most often a step.
    pub fn next(&mut self, device: &Device) -> u64 {
        if self.dice.below(1000) < self.no_steps {
            return self.no_step();
        }
        let step = if self.dice.below(1000) < self.resets {
            Step::Reset
        } else if self.dice.percent(self.wild) {
            self.wild_step()
        } else {
            self.fitting_step(device)
        };
        library::number(step)
    }

    /// A number that no macro of m58.h makes, most often by one bit.
    pub fn no_step(&mut self) -> u64 {
        loop {
            let step = self.wild_step();
            let number = match self.dice.below(4) {
                0 => self.dice.next(),
                1 => library::number(step) ^ 1 << self.dice.below(64),
                2 => library::number(step) ^ (1 + self.dice.below(0xFFFF)) << 32,
                _ => (5 + self.dice.below(4)) << 48,
            };
            if library::step(number).is_none() {
                return number;
            }
        }
    }

    fn wild_step(&mut self) -> Step {
        match self.dice.below(100) {
            0..=29 => Step::Read(self.address()),
            30..=74 => Step::Write(self.address(), self.command()),
            75..=93 => Step::Work(self.count(1)),
            94..=98 => Step::Supply(self.dice.percent(70)),
            _ => Step::Reset,
        }
    }

    /// A step for a state that refuses all.
    fn step_of_any_kind(&mut self) -> Step {
        match self.dice.below(6) {
            0 => Step::Read(self.address()),
            1 => Step::Write(self.address(), self.command()),
            2 => Step::Work(self.count(1)),
            3 => Step::Supply(false),
            4 => Step::Supply(true),
            _ => Step::Reset,
        }
    }

    fn fitting_step(&mut self, device: &Device) -> Step {
        if !device.well_formed() && self.dice.percent(60) {
            return self.step_of_any_kind();
        }
        if self.dice.percent(98) {
            if let Some(step) = self.scene.pop_front() {
                return step;
            }
        }
        match self.dice.below(100) {
            0..=11 => return Step::Read(self.address()),
            12..=13 => return Step::Read(self.register_place(device)),
            14 => return Step::Supply(self.dice.percent(70)),
            15..=16 => return Step::Work(self.count(lacking(device))),
            // Not in a load, which few of them would leave standing.
            17..=18 if device.setup.is_none_or(|setup| !setup.is_load()) => {
                return Step::Write(self.address(), self.command());
            }
            _ => {}
        }
        match device.setup {
            Some(setup) if setup.is_load() => return self.load_cycle(device, setup),
            Some(setup) => return self.second_cycle(device, setup),
            None => {}
        }
        if half_done(device) && self.dice.percent(3) {
            return Step::Reset;
        }
        // More often on than off, so that more is finished than cut.
        if under_way(device) && self.dice.percent(if device.supply { 3 } else { 30 }) {
            return Step::Supply(!device.supply);
        }
        if device.running.is_some() && self.dice.percent(60) {
            return Step::Work(self.count(lacking(device)));
        }
        if idle(device) && self.dice.percent(7) {
            return self.begin_scene();
        }
        self.fitting_command(device)
    }

    /// Draws the steps of a scene, which come one after another; gives the first.
    fn begin_scene(&mut self) -> Step {
        self.scene.clear();
        match self.dice.below(7) {
            0..=3 => self.plan_supply_scene(),
            _ => self.plan_wear_scene(),
        }
        Step::Supply(true)
    }

    fn fitting_command(&mut self, device: &Device) -> Step {
        let commands: &[u16] = if device.running.is_some() {
            &BUSY_COMMANDS
        } else if device.suspended_program.is_some() {
            &PROGRAM_SUSPENDED_COMMANDS
        } else if device.suspended_erase.is_some() {
            &ERASE_SUSPENDED_COMMANDS
        } else {
            if !device.supply && self.dice.percent(50) {
                return Step::Supply(true);
            }
            if !self
                .favoured
                .iter()
                .any(|&b| device.unprotected[b as usize])
                && self.dice.percent(50)
            {
                &[0x60]
            } else {
                &IDLE_COMMANDS
            }
        };
        let mut command = self.dice.pick(commands);
        if self.dice.percent(12) {
            command = self.dice.pick(&[0xFF, 0x70, 0x90, 0x98]);
        }
        // The block of a load is that of its first cycle.
        let address = match command {
            0xE8 => self.address_to_change(device),
            _ => self.address(),
        };
        Step::Write(address, self.dressed(command))
    }

    /// An address, more often than not in an unprotected block; or in the block
    /// of the suspended erase.
    fn address_to_change(&mut self, device: &Device) -> u32 {
        let mut address = self.address();
        let favoured = self.favoured.iter().copied();
        let unprotected: Vec<u32> = favoured
            .filter(|&b| device.unprotected[b as usize])
            .collect();
        if !unprotected.is_empty() && self.dice.percent(70) {
            let block = self.dice.pick(&unprotected);
            address = self.address_in(block);
        }
        if let Some(erase) = device.suspended_erase {
            // A damaged state may name no block.
            if erase.block < BLOCKS as u32 && self.dice.percent(15) {
                address = self.address_in(erase.block);
            }
        }
        address
    }

    fn second_cycle(&mut self, device: &Device, setup: Setup) -> Step {
        if self.dice.percent(if device.supply { 2 } else { 20 }) {
            return Step::Supply(!device.supply);
        }
        if setup == Setup::Lock && self.dice.percent(15) {
            return Step::Write(self.register_address(), self.dressed(0x03));
        }
        let address = match setup {
            Setup::Lock => self.address(),
            _ => self.address_to_change(device),
        };
        let data = match setup {
            Setup::Program => self.data(),
            Setup::Erase if self.dice.percent(85) => self.dressed(0xD0),
            Setup::Lock if self.dice.percent(60) => self.dressed(0xD0),
            Setup::Lock if self.dice.percent(60) => {
                let command = self.dice.pick(&[0x01, 0x03]);
                self.dressed(command)
            }
            _ => self.command(),
        };
        Step::Write(address, data)
    }

    /// An address for 03h, which stores its lower 16 bits but for the reserved ones:
    /// often one of those is set, or all or none of them. On a bench part it is most
    /// often no location.
    fn register_address(&mut self) -> u32 {
        let word = self.dice.next() as u16;
        let reserved = match self.dice.below(8) {
            0..=3 => 1 << self.dice.pick(&RESERVED_BITS),
            4 => !without_reserved_bits(!0),
            5 => word,
            _ => 0,
        };
        let lower = without_reserved_bits(word) | reserved;
        let upper = self.dice.pick(&[0, 0, 1, 0x80, 0xFF]);
        upper << 16 | u32::from(lower)
    }

    /// Where a bank in signature mode shows the register; any address where no
    /// bank is in that mode.
    fn register_place(&mut self, device: &Device) -> u32 {
        let banks = (0..BANKS as u32).zip(&device.modes);
        let banks: Vec<u32> = banks
            .filter_map(|(bank, &mode)| (mode == Mode::Signature).then_some(bank))
            .collect();
        if banks.is_empty() {
            return self.address();
        }
        let bank = self.dice.pick(&banks);
        let start = self.part.bank_start(bank).expect("a bank of the part");
        self.raised(start + 5)
    }

    /// A word to program.
    fn data(&mut self) -> u16 {
        match self.dice.below(4) {
            0 => self.command(),
            1 => !(1 << self.dice.below(16)),
            _ => self.dice.next() as u16,
        }
    }

    /// A command with an upper byte that says nothing.
    fn dressed(&mut self, command: u16) -> u16 {
        let upper = if self.dice.percent(60) {
            0
        } else {
            self.dice.below(256) as u16
        };
        upper << 8 | command
    }

    fn command(&mut self) -> u16 {
        let command = if self.dice.percent(80) {
            self.dice.pick(&COMMANDS)
        } else {
            self.dice.below(256) as u16
        };
        self.dressed(command)
    }

    /// An address: most often in a favoured block, now and then anywhere, at an edge,
    /// or at and past the bound.
    fn address(&mut self) -> u32 {
        match self.dice.below(100) {
            0..=74 => {
                let block = self.dice.pick(&self.favoured);
                self.address_in(block)
            }
            75..=84 => {
                let block = some_block(&mut self.dice);
                self.address_in(block)
            }
            85..=88 => {
                let bank = self.dice.below(BANKS as u64) as u32;
                let start = self.part.bank_start(bank).expect("a bank of the part");
                let offset = self.dice.pick(&OFFSETS);
                self.raised(start + offset)
            }
            89..=93 => self.dice.below(u64::from(ADDRESSES)) as u32,
            94..=96 => self.dice.pick(&[0, ADDRESSES - 1, ADDRESSES - 2]),
            97 => self
                .dice
                .pick(&[ADDRESSES, ADDRESSES + 1, 1 << 31, u32::MAX]),
            _ => (u64::from(ADDRESSES) + self.dice.below((1 << 32) - u64::from(ADDRESSES))) as u32,
        }
    }

    fn address_in(&mut self, block: u32) -> u32 {
        let block = self.part.block(block).expect("a block of the part");
        let offset = match self.dice.below(10) {
            0..=3 => self.dice.pick(&OFFSETS) % block.size,
            4..=5 => block.size - 1 - self.dice.below(2) as u32,
            6 => self.dice.below(4) as u32, // the same few words again
            _ => self.dice.below(u64::from(block.size)) as u32,
        };
        self.raised(block.start + offset)
    }

    /// The address of a location, with upper lines where the part ignores them.
    fn raised(&mut self, location: u32) -> u32 {
        let length = self.part.array_length() as u64;
        let copies = u64::from(ADDRESSES) / length;
        if self.dice.percent(50) {
            location
        } else {
            location + (self.dice.below(copies) * length) as u32
        }
    }

    /// A count of work, with an eye on the units that are lacking.
    fn count(&mut self, lacking: u32) -> u32 {
        let unit = self.part.unit();
        match self.dice.below(20) {
            0 => 0,
            1..=3 => 1,
            4..=6 => self.dice.below(9) as u32,
            7 => lacking - 1,
            8..=9 => lacking,
            10 => lacking + 1,
            11 => lacking / 2,
            12 => self.dice.pick(&[unit / 4, unit / 4 - 1, unit - 1, unit]),
            13..=14 => 65_535,
            15..=17 => self.dice.below(u64::from(unit)) as u32,
            18 => self.dice.below(65_536) as u32,
            _ => self
                .dice
                .pick(&[65_536, 65_537, 131_071, 1 << 31, u32::MAX - 1, u32::MAX]),
        }
    }
}

/// A block, often one at an edge of the small blocks or of a bank.
fn some_block(dice: &mut Dice) -> u32 {
    if dice.percent(50) {
        dice.pick(&[0, 1, 2, 3, 4, 5, 18, 19, 34, 35, 63, 64, 255, 256, 257, 258])
    } else {
        dice.below(BLOCKS as u64) as u32
    }
}

/// The units that the running operation lacks; 1 where nothing runs.
fn lacking(device: &Device) -> u32 {
    match device.running {
        Some(Operation::Erase(erase)) => {
            let block = device.part.block(erase.block);
            block.map_or(1, |block| block.size.saturating_sub(erase.done).max(1))
        }
        Some(Operation::Program(Program::Buffer { words, done, .. })) => {
            words.saturating_sub(done).clamp(1, BUFFER_WORDS as u32)
        }
        _ => 1,
    }
}

fn under_way(device: &Device) -> bool {
    device.running.is_some()
        || device.suspended_program.is_some()
        || device.suspended_erase.is_some()
}

/// Whether nothing is pending, runs or is suspended.
fn idle(device: &Device) -> bool {
    device.setup.is_none() && !under_way(device)
}

/// Whether a buffer program has had some of its units.
fn half_done(device: &Device) -> bool {
    let some_done = |program| matches!(program, Program::Buffer { done: 1.., .. });
    match device.running {
        Some(Operation::Program(program)) => some_done(program),
        _ => device.suspended_program.is_some_and(some_done),
    }
}
