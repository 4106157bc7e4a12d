//! The recorder of document 01, "The journal" (there: the clerk), with the entries of document 02,
//! item 1, and its supply drops, item 5; it tells the finished erases of item 6. It is told the part
//! and the steps "but no device, array or answer"; nothing here comes from the model.

#![allow(dead_code)] // a program that takes this module in need not use all of it

use super::geometry::{Part, ADDRESSES, BLOCKS};
use super::steps::Step;

/// "a program's location and data or an erase's block"; a buffer program's
/// entries "cover several words" (document 02, item 1), from `start` on.
#[derive(Clone, Debug, PartialEq, Eq)]
pub enum Kind {
    Program { location: u32, data: u16 },
    Buffer { start: u32, words: Vec<u16> },
    Erase { block: u32 },
}

/// "running, suspended, finished or broken off". "All but the finished are
/// unfinished."
#[derive(Clone, Copy, Debug, PartialEq, Eq)]
pub enum State {
    Running,
    Suspended,
    Finished,
    BrokenOff,
}

#[derive(Clone, Debug, PartialEq, Eq)]
pub struct Entry {
    pub kind: Kind,
    pub units: u32,
    pub state: State,
}

impl Entry {
    /// A program of one word or of several.
    pub fn is_program(&self) -> bool {
        !matches!(self.kind, Kind::Erase { .. })
    }

    pub fn is_finished(&self) -> bool {
        self.state == State::Finished
    }
}

#[derive(Clone, Debug, PartialEq, Eq)]
enum Setup {
    Program,
    Erase,
    Lock,
    Load(Load),
}

/// A buffer program between its E8h and its D0h.
#[derive(Clone, Debug, PartialEq, Eq)]
struct Load {
    /// The block of E8h.
    block: u32,
    /// How many data cycles it has; none before the count.
    words: Option<u32>,
    /// Location and data of each data cycle so far.
    given: Vec<(u32, u16)>,
}

impl Load {
    /// What is written on D0h: "of two data for one word the later counts, and
    /// a word given none takes FFFFh".
    fn kind(&self) -> Kind {
        let start = self.given[0].0;
        let mut words = vec![0xFFFF; self.given.len()];
        for &(location, data) in &self.given {
            words[(location - start) as usize] = data;
        }
        Kind::Buffer { start, words }
    }
}

/// "He holds supply, the open blocks, the set-up and the journal".
#[derive(Clone, Debug)]
pub struct Recorder {
    part: Part,
    supply: bool,
    unprotected: [bool; BLOCKS],
    setup: Option<Setup>,
    entries: Vec<Entry>,
    /// The places in `entries` of what runs or is suspended, at most two; kept
    /// only so that a long journal need not be searched.
    live: Vec<usize>,
}

impl Recorder {
    /// "He begins with supply off, no block open, no set-up and no entry." The
    /// part is 0 to 3; another number panics.
    pub fn new(part: u32) -> Recorder {
        Recorder {
            part: Part::from_number(part).expect("a part is 0 to 3"),
            supply: false,
            unprotected: [false; BLOCKS],
            setup: None,
            entries: Vec::new(),
            live: Vec::new(),
        }
    }

    /// "entries in order of acceptance".
    pub fn entries(&self) -> &[Entry] {
        &self.entries
    }

    /// "the number of finished erases of that block in the journal" (document 02,
    /// item 6), which no bound stops.
    pub fn finished_erases(&self, block: u32) -> u64 {
        let own = Kind::Erase { block };
        let finished = |entry: &&Entry| entry.is_finished() && entry.kind == own;
        self.entries.iter().filter(finished).count() as u64
    }

    pub fn supply(&self) -> bool {
        self.supply
    }

    pub fn unprotected_blocks(&self) -> &[bool; BLOCKS] {
        &self.unprotected
    }

    pub fn set_up_pending(&self) -> bool {
        self.setup.is_some()
    }

    /// The entry that runs, if any.
    pub fn running(&self) -> Option<&Entry> {
        self.find(|entry| entry.state == State::Running)
            .map(|index| &self.entries[index])
    }

    /// Whether a program is suspended, and whether an erase is.
    pub fn suspended(&self) -> (bool, bool) {
        let is = |program| {
            self.find(|entry| entry.state == State::Suspended && entry.is_program() == program)
                .is_some()
        };
        (is(true), is(false))
    }

    /// Takes down one step.
    pub fn note(&mut self, step: Step) {
        match step {
            // "An address of 16,777,216 or more, a work count above 65,535,
            // any read: nothing."
            Step::Read(_) => {}
            Step::Write(address, _) if address >= ADDRESSES => {}
            Step::Work(count) if count > 65_535 => {}
            Step::Write(address, data) => match self.setup.take() {
                None => self.first_write(address, data),
                Some(setup) => self.second_write(setup, address, data),
            },
            Step::Work(count) => self.work(count),
            Step::Supply(on) => self.supply_step(on),
            // "Reset: every block is shut, the set-up ends, what runs or is
            // suspended is broken off."
            Step::Reset => {
                self.unprotected = [false; BLOCKS];
                self.setup = None;
                for index in self.live.drain(..) {
                    self.entries[index].state = State::BrokenOff;
                }
            }
        }
    }

    /// "the start array with the journal applied": see `apply_to`.
    pub fn apply(&self, start: &[u16]) -> Vec<u16> {
        let mut array = start.to_vec();
        self.apply_to(&mut array);
        array
    }

    /// Applies the entries in order of acceptance. A finished program ands its
    /// data in, an unfinished one does nothing; a buffer program "has reached as
    /// many of its lowest as it had units" (document 02, item 1); an erase sets
    /// to FFFFh as many of its block's lowest words as it had units, which is
    /// the whole block once it is finished. An array of another length than the
    /// part's panics.
    pub fn apply_to(&self, array: &mut [u16]) {
        assert_eq!(array.len(), self.part.array_length());
        for entry in &self.entries {
            match &entry.kind {
                Kind::Program { location, data } => {
                    if entry.is_finished() {
                        array[*location as usize] &= data;
                    }
                }
                Kind::Buffer { start, words } => {
                    let reached = &words[..entry.units as usize];
                    for (word, data) in array[*start as usize..].iter_mut().zip(reached) {
                        *word &= data;
                    }
                }
                Kind::Erase { block } => {
                    let block = self.part.block(*block).expect("a block of the part");
                    let words = if entry.is_finished() {
                        block.size
                    } else {
                        entry.units
                    };
                    let first = block.start as usize;
                    array[first..first + words as usize].fill(0xFFFF);
                }
            }
        }
    }

    /// "Work n: the running entry, if any, gets the lesser of n and the units
    /// it lacks of 1 (program) or of its block's words (erase). Lacking none,
    /// it is finished." A buffer program has a unit for each of its words.
    fn work(&mut self, count: u32) {
        let Some(index) = self.find(|entry| entry.state == State::Running) else {
            return;
        };
        let whole = match &self.entries[index].kind {
            Kind::Program { .. } => 1,
            Kind::Buffer { words, .. } => words.len() as u32,
            Kind::Erase { block } => self.part.block(*block).expect("a block of the part").size,
        };
        let entry = &mut self.entries[index];
        entry.units += count.min(whole - entry.units);
        if entry.units == whole {
            entry.state = State::Finished;
            self.live.retain(|&other| other != index);
        }
    }

    /// "Supply: noted." When it goes off, what runs ends, and "Demand 3 counts such
    /// an entry as unfinished" (document 02, item 5). What is suspended stays.
    fn supply_step(&mut self, on: bool) {
        self.supply = on;
        let running = self.find(|entry| entry.state == State::Running);
        if let (false, Some(index)) = (on, running) {
            self.break_off(index);
        }
    }

    /// Ends an entry before it is finished: no later step reaches it.
    fn break_off(&mut self, index: usize) {
        self.entries[index].state = State::BrokenOff;
        self.live.retain(|&other| other != index);
    }

    /// "Write, no set-up".
    fn first_write(&mut self, address: u32, data: u16) {
        let command = data % 256;
        if let Some(index) = self.find(|entry| entry.state == State::Running) {
            // "B0h suspends what runs." All else here is for "If nothing runs".
            if command == 0xB0 {
                self.entries[index].state = State::Suspended;
            }
            return;
        }
        // Nothing runs, so what is live is suspended.
        let program = self.find(|entry| entry.is_program());
        let erase = self.find(|entry| !entry.is_program());
        match command {
            // "D0h sets the suspended program running, else the suspended erase";
            // "resumed without supply, they end" (document 02, item 5)
            0xD0 => match program.or(erase) {
                Some(index) if self.supply => self.entries[index].state = State::Running,
                Some(index) => self.break_off(index),
                None => {}
            },
            // "10h and 40h (program) and 60h (lock) become the set-up if no
            // program is suspended, 20h (erase) if nothing is"
            0x10 | 0x40 if program.is_none() => self.setup = Some(Setup::Program),
            0x60 if program.is_none() => self.setup = Some(Setup::Lock),
            0x20 if self.live.is_empty() => self.setup = Some(Setup::Erase),
            // "E8h is taken when 40h is" (document 02, item 1)
            0xE8 if program.is_none() => {
                self.setup = Some(Setup::Load(Load {
                    block: self.place(address).1,
                    words: None,
                    given: Vec::new(),
                }));
            }
            // "Else nothing."
            _ => {}
        }
    }

    /// "Write, set-up: it ends." The caller has ended it.
    fn second_write(&mut self, setup: Setup, address: u32, data: u16) {
        let (location, block) = self.place(address);
        match (setup, data % 256) {
            // "Lock: the protection commands D0h and 01h open and shut the
            // block."
            (Setup::Lock, 0xD0) => self.unprotected[block as usize] = true,
            (Setup::Lock, 0x01) => self.unprotected[block as usize] = false,
            // "Program with any data, erase with D0h"
            (Setup::Program, _) => self.accept(block, Kind::Program { location, data }),
            (Setup::Erase, 0xD0) => self.accept(block, Kind::Erase { block }),
            (Setup::Load(load), _) => self.load_write(load, location, block, data),
            // "Else nothing."
            (Setup::Lock | Setup::Erase, _) => {}
        }
    }

    /// A cycle of a load (section 4.9). It ends at a wrong cycle, which adds
    /// nothing, or at D0h; else it stays the set-up.
    fn load_write(&mut self, mut load: Load, location: u32, block: u32, data: u16) {
        if block != load.block {
            return;
        }
        match load.words {
            // "A count word above 31 is a wrong cycle".
            None if data > 31 => return,
            None => load.words = Some(u32::from(data) + 1),
            Some(words) if load.given.len() < words as usize => {
                let start = load.given.first().map_or(location, |first| first.0);
                let end = start + words;
                let block = self.part.block(block).expect("a block of the part");
                // "a first word from which so many would leave its block"; the
                // later ones lie in the range that it begins.
                if location < start || location >= end || end > block.start + block.size {
                    return;
                }
                load.given.push((location, data));
            }
            Some(_) => {
                if data % 256 == 0xD0 {
                    self.accept(block, load.kind());
                }
                return;
            }
        }
        self.setup = Some(Setup::Load(load));
    }

    /// "if supply is on, the block open and no erase of it suspended, a running
    /// entry with 0 units is added".
    fn accept(&mut self, block: u32, kind: Kind) {
        let own_erase = Kind::Erase { block };
        let erase_suspended = self
            .find(|entry| entry.kind == own_erase && entry.state == State::Suspended)
            .is_some();
        if self.supply && self.unprotected[block as usize] && !erase_suspended {
            self.live.push(self.entries.len());
            self.entries.push(Entry {
                kind,
                units: 0,
                state: State::Running,
            });
        }
    }

    /// Location and block of an address.
    fn place(&self, address: u32) -> (u32, u32) {
        let location = self.part.location(address);
        match self.part.place(location) {
            Some(place) => (location, place.block),
            None => unreachable!("every location lies in a block"),
        }
    }

    /// The place of the live entry for which `test` holds.
    fn find(&self, test: impl Fn(&Entry) -> bool) -> Option<usize> {
        self.live
            .iter()
            .copied()
            .find(|&index| test(&self.entries[index]))
    }
}
