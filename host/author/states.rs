//! Random states to begin from: well formed, or with one clause broken of what
//! the rule of well-formed states says of the write buffer, of the configuration
//! register, of the supply and of the erase counts.

use super::{some_block, Author};
use crate::second::model::{
    without_reserved_bits, Device, Erase, Flags, Mode, Operation, Program, Setup, BLOCKS,
    BUFFER_WORDS, RESERVED_BITS,
};

/// The clauses that `Author::broken` breaks.
pub const CLAUSES: [&str; 28] = [
    "a load beside a running operation",
    "a load beside a suspended program",
    "a load of a block that the part has not",
    "a load of no words",
    "a load of more than 32 words",
    "a load whose words leave their block",
    "a load past the array",
    "a load with no fewer data cycles due than words",
    "a buffer program beside a set-up",
    "a running operation beside a suspended buffer program",
    "a buffer program of no words",
    "a buffer program of more than 32 words",
    "a buffer program whose words leave their block",
    "a buffer program past the array",
    "a buffer program with no fewer words done than it has",
    "a buffer program in the block of the suspended erase",
    "a word in the buffer, and neither a load with a word nor a buffer program",
    "a word in the buffer past those of the load or buffer program",
    "a configuration register with reserved bit 14 set",
    "a configuration register with reserved bit 5 set",
    "a configuration register with reserved bit 4 set",
    "a configuration register with two or three reserved bits set",
    "a program that runs without supply",
    "a buffer program that runs without supply",
    "an erase that runs without supply",
    "a program that runs beside a suspended erase without supply",
    "a buffer program that runs beside a suspended erase without supply",
    "an erase count in the place that the small blocks share",
];

/// The first of those that say that something runs without supply.
pub const SUPPLY_CLAUSES: usize = 22;

/// The one of the erase counts (document 02, item 6).
pub const SHARED_CLAUSE: usize = 27;

/// Numbers of words that the buffer has not.
const TOO_MANY: [u32; 5] = [33, 34, 64, 1 << 16, u32::MAX];

impl Author {
    /// A well-formed device, mostly one that no short list reaches.
    pub fn device(&mut self) -> Device {
        let mut device = self.idle_device();
        let scene = self.dice.below(13);
        // Scenes 5 to 9 have a suspended erase, and a program only beside it; 3, 11 and
        // 12 a running one, which may be about to end.
        if (5..10).contains(&scene) {
            device.suspended_erase = Some(self.erase());
        }
        let program = loop {
            let program = self.program();
            let place = self.part.place(program.start());
            if device.suspended_erase.map(|e| e.block) != place.map(|p| p.block) {
                break program;
            }
        };
        match scene {
            0 | 5 => {
                let load = self.load();
                device.setup = Some(self.dice.pick(&[Setup::Program, Setup::Lock, load, load]));
            }
            1 => device.setup = Some(Setup::Erase),
            2 | 6 | 7 => device.running = Some(Operation::Program(program)),
            3 | 11 | 12 => device.running = Some(Operation::Erase(self.erase())),
            4 | 8 => device.suspended_program = Some(program),
            _ => {}
        }
        self.fill_buffer(&mut device);
        supply_what_runs(&mut device);
        device.counts = self.erase_counts(&device);
        device
    }

    /// A device that breaks a clause; the number is a place in `CLAUSES`.
    pub fn broken(&mut self, clause: usize) -> Device {
        let mut device = self.idle_device();
        match clause {
            0..8 => self.break_load(clause, &mut device),
            8..16 => self.break_program(clause - 8, &mut device),
            16..18 => device = self.break_spare(clause - 16, device),
            18..SUPPLY_CLAUSES => return self.break_register(clause - 18),
            SHARED_CLAUSE => return self.break_counts(),
            _ => return self.break_supply(clause - SUPPLY_CLAUSES),
        }
        if clause < 16 {
            self.fill_buffer(&mut device);
        }
        supply_what_runs(&mut device);
        device.counts = self.erase_counts(&device);
        device
    }

    /// Any device but for the shared place, which is not 0.
    fn break_counts(&mut self) -> Device {
        let mut device = self.device();
        let other = 1 + self.dice.below(65_535) as u16;
        device.counts.main[0][0] = self.dice.pick(&[1, 0x0100, 0x8000, 65_535, other]);
        device
    }

    /// Any device in which an operation of one kind runs, but without supply.
    fn break_supply(&mut self, clause: usize) -> Device {
        use {Operation as O, Program as P};
        loop {
            let mut device = self.device();
            let kind = match (device.running, device.suspended_erase) {
                (Some(O::Program(P::Word { .. })), None) => 0,
                (Some(O::Program(P::Buffer { .. })), None) => 1,
                (Some(O::Erase(_)), _) => 2,
                (Some(O::Program(P::Word { .. })), Some(_)) => 3,
                (Some(O::Program(P::Buffer { .. })), Some(_)) => 4,
                (None, _) => continue,
            };
            if kind == clause {
                device.supply = false;
                return device;
            }
        }
    }

    /// Any device that would be well formed but for the reserved bits of its
    /// register: one of them, or two or three.
    fn break_register(&mut self, clause: usize) -> Device {
        let mut device = self.device();
        let spared = self.dice.index(4);
        for (place, bit) in RESERVED_BITS.iter().enumerate() {
            let set = match clause {
                3 => place != spared,
                _ => place == clause,
            };
            device.configuration |= u16::from(set) << bit;
        }
        device
    }

    fn break_load(&mut self, clause: usize, device: &mut Device) {
        let (start, words) = self.range();
        let block = self.dice.pick(&[BLOCKS as u32, 260, 1 << 16, u32::MAX]);
        let (edge, long) = self.range_over_an_edge();
        let past = self.start_past_array(words);
        let many = self.dice.pick(&TOO_MANY);
        device.setup = Some(match (clause, self.dice.percent(50)) {
            (2, true) => Setup::LoadCount { block },
            (2, false) => Setup::LoadFirst { block, words },
            (3, true) => self.load_first_due(0),
            (3, false) => load_next(start, 0, 0),
            (4, true) => self.load_first_due(many),
            (4, false) => load_next(self.block(200).start, many, 0),
            (5, _) => load_next(edge, long, 0),
            (6, _) => load_next(past, words, 0),
            (7, true) => load_next(start, words, words),
            (7, false) => load_next(start, words, u32::MAX),
            _ => self.load(),
        });
        match clause {
            0 => device.running = Some(self.operation()),
            1 => device.suspended_program = Some(self.program()),
            _ => {}
        }
    }

    fn break_program(&mut self, clause: usize, device: &mut Device) {
        let (start, words) = self.range();
        let done = self.dice.below(u64::from(words)) as u32;
        let (edge, long) = self.range_over_an_edge();
        let many = self.dice.pick(&TOO_MANY);
        let program = match (clause, self.dice.percent(50)) {
            (2, _) => buffer_program(start, 0, 0),
            (3, _) => buffer_program(self.block(200).start, many, done),
            (4, _) => buffer_program(edge, long, done % long),
            (5, _) => buffer_program(self.start_past_array(words), words, done),
            (6, true) => buffer_program(start, words, words),
            (6, false) => buffer_program(start, words, u32::MAX),
            _ => buffer_program(start, words, done),
        };
        if clause != 1 && self.dice.percent(50) {
            device.running = Some(Operation::Program(program));
        } else {
            device.suspended_program = Some(program);
        }
        let place = self.part.place(start).expect("a location of the part");
        let load = self.load();
        match clause {
            0 => device.setup = Some(self.dice.pick(&[Setup::Program, Setup::Lock, load])),
            1 => device.running = Some(self.operation()),
            7 => {
                let (block, done) = (place.block, 0);
                device.suspended_erase = Some(Erase { block, done });
            }
            _ => {}
        }
    }

    fn break_spare(&mut self, clause: usize, mut device: Device) -> Device {
        let words = match clause {
            0 => 0,
            _ => 1 + self.dice.below(BUFFER_WORDS as u64 - 1) as u32,
        };
        let start = self.block(200).start;
        let word = Program::Word {
            location: start,
            data: 0,
        };
        match (words, self.dice.below(4)) {
            (0, 0) => device.setup = Some(self.load_first_due(32)),
            (0, 1) => device.running = Some(Operation::Program(word)),
            (0, 2) => device.setup = Some(Setup::LoadCount { block: 200 }),
            (0, _) => {}
            (_, 0) => device.setup = Some(load_next(start, words, 0)),
            (_, 1) => device.setup = Some(load_next(start, words, words - 1)),
            (_, 2) => device.suspended_program = Some(buffer_program(start, words, 0)),
            _ => device.running = Some(Operation::Program(buffer_program(start, words, 0))),
        }
        self.fill_buffer(&mut device);
        let spare = BUFFER_WORDS - words as usize;
        let place = words as usize + self.dice.index(spare);
        device.buffer[place] = self.dice.pick(&[1, 0x8000, 0xFFFF]);
        device
    }

    /// Nothing pending, running or suspended; all else any.
    fn idle_device(&mut self) -> Device {
        let mut device = Device::power_up(self.part.number());
        let dice = &mut self.dice;
        let modes = [Mode::Array, Mode::Status, Mode::Signature, Mode::Query];
        for mode in &mut device.modes {
            *mode = dice.pick(&modes);
        }
        device.flags = Flags {
            sr5: dice.percent(50),
            sr4: dice.percent(50),
            sr3: dice.percent(50),
            sr1: dice.percent(50),
        };
        let density = dice.pick(&[0, 3, 50, 100]);
        for unprotected in &mut device.unprotected {
            *unprotected = dice.percent(density);
        }
        // Else every step would be refused.
        device.configuration = without_reserved_bits(dice.next() as u16);
        device.supply = dice.percent(60);
        device
    }

    /// Puts words in the places of the buffer that are not spare, some as if
    /// none had been given.
    fn fill_buffer(&mut self, device: &mut Device) {
        let running = match device.running {
            Some(Operation::Program(program)) => Some(program),
            _ => None,
        };
        let words = match (device.setup, running.or(device.suspended_program)) {
            (Some(Setup::LoadNext { words, .. }), _) => words,
            (_, Some(Program::Buffer { words, .. })) => words,
            _ => 0,
        };
        for word in device.buffer.iter_mut().take(words as usize) {
            *word = match self.dice.below(4) {
                0 => 0xFFFF,
                _ => self.dice.next() as u16,
            };
        }
    }

    fn operation(&mut self) -> Operation {
        match self.dice.below(3) {
            0 => Operation::Erase(self.erase()),
            _ => Operation::Program(self.program()),
        }
    }

    fn program(&mut self) -> Program {
        if self.dice.percent(50) {
            let (start, words) = self.range();
            let done = match self.dice.below(3) {
                0 => 0,
                1 => words - 1,
                _ => self.dice.below(u64::from(words)) as u32,
            };
            return buffer_program(start, words, done);
        }
        let block = self.usual_block();
        let address = self.address_in(block);
        Program::Word {
            location: self.part.location(address),
            data: self.dice.next() as u16,
        }
    }

    /// A load with any cycle due. Before the first word it need not fit its
    /// block.
    fn load(&mut self) -> Setup {
        let (start, words) = self.range();
        match self.dice.below(6) {
            0 => Setup::LoadCount {
                block: self.usual_block(),
            },
            1 => {
                let words = 1 + self.dice.below(BUFFER_WORDS as u64) as u32;
                match self.dice.below(4) {
                    0 => Setup::LoadFirst { block: 3, words },
                    _ => self.load_first_due(words),
                }
            }
            2..=3 => load_next(start, words, 0),
            4 => load_next(start, words, words - 1),
            _ => load_next(start, words, self.dice.below(u64::from(words)) as u32),
        }
    }

    fn load_first_due(&mut self, words: u32) -> Setup {
        let block = self.usual_block();
        Setup::LoadFirst { block, words }
    }

    /// A start and a number of words for the buffer that lie in one block, often
    /// at its end.
    fn range(&mut self) -> (u32, u32) {
        let number = self.usual_block();
        let block = self.block(number);
        let most = u64::from(block.size.min(BUFFER_WORDS as u32));
        let words = match self.dice.below(4) {
            0 => 1,
            1 => most as u32,
            _ => 1 + self.dice.below(most) as u32,
        };
        let last = block.size - words;
        let offset = match self.dice.below(4) {
            0 => 0,
            1 => last,
            _ => self.dice.below(u64::from(last) + 1) as u32,
        };
        (block.start + offset, words)
    }

    /// The same over the end of a block.
    fn range_over_an_edge(&mut self) -> (u32, u32) {
        let number = self.usual_block();
        let block = self.block(number);
        let words = 2 + self.dice.below(BUFFER_WORDS as u64 - 1) as u32;
        let inside = 1 + self.dice.below(u64::from(words) - 1) as u32;
        (block.start + block.size - inside.min(block.size), words)
    }

    /// A start that is no location, also one from which so many words come round
    /// to 0 in 32 bits.
    fn start_past_array(&mut self, words: u32) -> u32 {
        let length = self.part.array_length() as u32;
        self.dice.pick(&[length, u32::MAX - (words - 1)])
    }

    fn erase(&mut self) -> Erase {
        let block = self.usual_block();
        let size = self.block(block).size;
        let done = match self.dice.below(4) {
            0 => 0,
            1 => size - 1,
            _ => self.dice.below(u64::from(size)) as u32,
        };
        Erase { block, done }
    }

    pub(super) fn usual_block(&mut self) -> u32 {
        if self.dice.percent(70) {
            self.dice.pick(&self.favoured)
        } else {
            some_block(&mut self.dice)
        }
    }
}

/// "In a well made state something runs only with supply on" (document 02, item 5).
fn supply_what_runs(device: &mut Device) {
    device.supply |= device.running.is_some();
}

fn load_next(start: u32, words: u32, due: u32) -> Setup {
    Setup::LoadNext { start, words, due }
}

fn buffer_program(start: u32, words: u32, done: u32) -> Program {
    Program::Buffer { start, words, done }
}
