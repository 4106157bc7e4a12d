//! What the lists reach of the write buffer, of the configuration register, of supply
//! drops, of the erase counts and of the status word: each kind of step and of state, each
//! block whose erase is finished and each status word that is read, is counted, by the second
//! model's device before and after the step.

mod drops;
mod wear;

use crate::author::states::CLAUSES;
use crate::second::model::{
    without_reserved_bits, Answer, Device, Erase, EraseCounts, Flags, Mode, Operation, Program,
    Setup, BLOCKS, DEFAULT_CONFIGURATION, RESERVED_BITS,
};
use crate::second::steps::Step;
use drops::Drops;
pub use wear::note_reports;
use wear::Wear;

/// The kinds, each with its text.
macro_rules! kinds {
    ($($kind:ident, $text:literal;)*) => {
        #[derive(Clone, Copy)]
        pub enum Kind {
            $($kind,)*
        }

        const NAMES: &[&str] = &[$($text,)*];
    };
}

kinds! {
    Taken, "E8h taken";
    TakenWithFlags, "E8h taken with SR5 and SR4 set";
    TakenBesideErase, "E8h taken beside a suspended erase";
    NotTakenBusy, "E8h not taken, something running";
    NotTakenSuspended, "E8h not taken, a program suspended";

    CountOutside, "count in another block";
    CountAbove, "count above 31";
    CountUpperByte, "count above 31 by its upper byte alone";
    FirstOutside, "first word in another block";
    FirstLeaves, "first word from which so many leave the block";
    LaterBelow, "later word below the start";
    LaterAbove, "later word above the last";
    LaterOutside, "later word in another block";
    ConfirmOther, "confirm not D0h";
    ConfirmOutside, "confirm in another block";
    WrongOtherBank, "wrong cycle in another bank";

    RefusedSupply, "refused at D0h, supply off";
    RefusedProtection, "refused at D0h, protected";
    RefusedErase, "refused at D0h, block of the suspended erase";

    ConfirmedOne, "confirmed, 1 word";
    ConfirmedShort, "confirmed, 2 to 16 words";
    ConfirmedLong, "confirmed, 17 to 31 words";
    ConfirmedMost, "confirmed, 32 words";
    ConfirmedAll, "confirmed, each word given once, upward";
    ConfirmedOrder, "confirmed, not upward";
    ConfirmedRepeated, "confirmed, a word given twice";
    ConfirmedMissing, "confirmed, a word given none";
    ConfirmedAtEnd, "confirmed, to the end of its block";
    ConfirmedUpperByte, "confirmed, D0h with an upper byte";
    ConfirmedNested, "confirmed beside a suspended erase";

    Suspended, "buffer program suspended";
    SuspendedNested, "buffer program suspended beside a suspended erase";
    Resumed, "buffer program resumed";
    Ignored, "write ignored while a buffer program runs";
    WorkedPart, "part of a buffer program done";
    Finished, "buffer program finished";
    FinishedInParts, "buffer program finished in several steps";
    FinishedNested, "buffer program finished beside a suspended erase";
    CutRunning, "running buffer program cut by a reset, some units done";
    CutSuspended, "suspended buffer program cut by a reset, some units done";
    ReadBusy, "array mode read in the bank of a buffer program";
    ReadElsewhere, "status read in another bank than a buffer program's";

    DroppedAtCount, "load dropped by a reset, count due";
    DroppedAtFirst, "load dropped by a reset, first word due";
    DroppedAtLater, "load dropped by a reset, later word due";
    DroppedAtConfirm, "load dropped by a reset, D0h due";
    LoadSupply, "supply step in a load";
    LoadRefused, "refused write in a load";
    LoadWork, "work in a load";
    LoadWork0, "work of 0 in a load";
    LoadRead, "read in a load";

    GivenCount, "state with a load, count due";
    GivenFirst, "state with a load, first word due";
    GivenFirstLong, "state with a load longer than its block";
    GivenLater, "state with a load, later word due";
    GivenConfirm, "state with a load, D0h due";
    GivenLoadNested, "state with a load in the block of the suspended erase";
    GivenRunning, "state with a running buffer program";
    GivenSuspended, "state with a suspended buffer program";
    GivenNested, "state with a buffer program beside a suspended erase";

    Stored14, "03h, of the reserved bits only bit 14 set in the address";
    Stored5, "03h, of the reserved bits only bit 5 set in the address";
    Stored4, "03h, of the reserved bits only bit 4 set in the address";
    StoredSeveral, "03h, two or three reserved bits set in the address";
    StoredPlain, "03h, no reserved bit set in the address";
    StoredPastArray, "03h at an address that is not its location";
    StoredNotLocation, "03h that stores other bits than the location's";
    ResetRegister, "reset of a register that was not the default";
    ReadReserved, "register read after 03h with a reserved bit set";
    ReadPlain, "register read after 03h with none set";
    ReadReset, "register read after a reset of one that was not the default";
    ReadGiven, "register read as the list began with it";
    GivenRegister, "state with a register that is not the default";

    CutProgram, "supply off, program running";
    CutProgramErase, "supply off, program running beside a suspended erase";
    CutBufferNone, "supply off, buffer program running, no word in";
    CutBufferSome, "supply off, buffer program running, some words in";
    CutBufferLast, "supply off, buffer program running, all words in but one";
    CutBufferErase, "supply off, buffer program running beside a suspended erase";
    CutEraseNone, "supply off, erase running, no word done";
    CutEraseSome, "supply off, erase running, some words done";
    CutEraseLast, "supply off, erase running, all words done but one";
    CutFlags, "supply off, something running, flags set before";

    StaysProgram, "supply off, program suspended";
    StaysBuffer, "supply off, buffer program suspended";
    StaysErase, "supply off, erase suspended";
    StaysProgramErase, "supply off, program and erase suspended";
    StaysBufferErase, "supply off, buffer program and erase suspended";
    OffAgain, "supply off when it is off";
    OffAgainSuspended, "supply off when it is off, something suspended";
    OnRunning, "supply on, something running";
    OnSuspended, "supply on again, something suspended";

    EndedProgram, "D0h without supply, program suspended";
    EndedBuffer, "D0h without supply, buffer program suspended";
    EndedErase, "D0h without supply, erase suspended";
    EndedProgramErase, "D0h without supply, program and erase suspended";
    EndedBufferErase, "D0h without supply, buffer program and erase suspended";
    EndedSecond, "D0h without supply again: after the program the erase";
    EndedFlags, "D0h without supply, something suspended, flags set before";
    EndedNothing, "D0h without supply, nothing suspended";
    ResumedProgram, "program resumed, over which supply was off";
    ResumedBuffer, "buffer program resumed, over which supply was off";
    ResumedErase, "erase resumed, over which supply was off";

    OffProgram, "supply off in the set-up of a program";
    OffErase, "supply off in the set-up of an erase";
    OffLock, "supply off in the set-up of a lock";
    OffCount, "supply off in a load, count due";
    OffFirst, "supply off in a load, first word due";
    OffLater, "supply off in a load, later word due";
    OffConfirm, "supply off in a load, D0h due";
    OnProgram, "supply on again in the set-up of a program";
    OnErase, "supply on again in the set-up of an erase";
    OnLock, "supply on again in the set-up of a lock";
    OnCount, "supply on again in a load, count due";
    OnFirst, "supply on again in a load, first word due";
    OnLater, "supply on again in a load, later word due";
    OnConfirm, "supply on again in a load, D0h due";
    RefusedProgramOff, "program refused, supply off since its set-up";
    RefusedEraseOff, "erase refused, supply off since its set-up";
    RefusedLoadOff, "buffer program refused, supply off since its E8h";
    RunsProgramBack, "program accepted, supply off and on since its set-up";
    RunsEraseBack, "erase accepted, supply off and on since its set-up";
    RunsLoadBack, "buffer program accepted, supply off and on since its E8h";
    LockNoResume, "D0h of a lock without supply, erase suspended";

    SeenErased, "word read that an erase had reached when it ended without supply";
    SeenNotErased, "word read that it had not reached";
    SeenLoaded, "word read that a buffer program had put in when it ended without supply";
    SeenNotLoaded, "word read that it had not put in";
    SeenNotProgrammed, "word read whose program ended without supply";

    RefusedRead, "read refused, something running without supply";
    RefusedWrite, "write refused, something running without supply";
    RefusedWork, "work refused, something running without supply";
    RefusedOff, "supply off refused, something running without supply";
    RefusedOn, "supply on refused, something running without supply";
    RefusedReset, "reset refused, something running without supply";

    GivenOffProgram, "state without supply, program suspended";
    GivenOffBuffer, "state without supply, buffer program suspended";
    GivenOffErase, "state without supply, erase suspended";
    GivenOffProgramErase, "state without supply, program and erase suspended";
    GivenOffBufferErase, "state without supply, buffer program and erase suspended";
    GivenOffSetUp, "state without supply, set-up of two cycles pending";
    GivenOffLoad, "state without supply, load pending";

    FinishedSmall, "erase finished, small block";
    FinishedMain, "erase finished, main block";
    FinishedBottom, "erase finished, bottom part";
    FinishedTop, "erase finished, top part";
    FinishedFull, "erase finished, full part";
    FinishedSuspended, "erase finished that was suspended once";
    FinishedSuspendedOften, "erase finished that was suspended several times";
    FinishedAround, "erase finished, a program finished while it was suspended";
    FinishedOneWord, "erase finished by one unit";
    FinishedExact, "erase finished by just as many units as it lacked";
    FinishedOver, "erase finished by more units than it lacked";
    FinishedGiven, "erase finished that the list began with";
    FinishedAgain, "erase finished of a block for a second or later time in a list";
    CountToLimit, "erase finished, its count goes from 65,534 to 65,535";
    CountAtLimit, "erase finished, its count stays 65,535";
    CountProtected, "erase finished of a block that is protected meanwhile";

    BrokenReset, "running erase broken off by a reset";
    BrokenResetLast, "running erase broken off by a reset one word before its end";
    BrokenSuspended, "suspended erase broken off by a reset";
    BrokenSuspendedLast, "suspended erase broken off by a reset one word before its end";
    BrokenOff, "running erase broken off by supply off";
    BrokenOffLast, "running erase broken off by supply off one word before its end";
    BrokenResume, "suspended erase broken off by D0h without supply";
    BrokenResumeLast, "suspended erase broken off by D0h without supply one word before its end";
    ResetCounts, "reset with erase counts that are not all 0";

    WornNone, "most worn block, all counts 0";
    WornTie, "most worn block, one of several with its count";
    WornSmall, "most worn block, a small one";
    WornMain, "most worn block, a main one";

    SharedRead, "read refused, shared place not 0";
    SharedWrite, "write refused, shared place not 0";
    SharedWork, "work refused, shared place not 0";
    SharedOff, "supply off refused, shared place not 0";
    SharedOn, "supply on refused, shared place not 0";
    SharedReset, "reset refused, shared place not 0";
    SharedReports, "the three reports refused, shared place not 0";
    SharedArray, "step refused 1, shared place not 0 too";

    GivenCounts, "state with erase counts not all 0";
    GivenLimit, "state with the running erase's count at 65,534 or 65,535";
    GivenNoDevice, "words of no device with erase counts not all 0";
    GivenNoDeviceShared, "words of no device, shared place not 0";
}

/// How often the lists of `quick` have to reach each kind, at the least: those of
/// the register, of the supply and of the erase counts come last, and a list has one state
/// to begin with.
fn least(kind: usize) -> u64 {
    let given = (Kind::GivenOffProgram as usize..=Kind::GivenOffLoad as usize).contains(&kind)
        || kind >= Kind::SharedRead as usize;
    if kind < Kind::Stored14 as usize {
        1
    } else if given {
        50
    } else {
        200
    }
}

/// How often each kind was reached, each clause of a well-formed state broken, each
/// block's erase finished, and each status word read.
#[derive(Clone, Copy)]
pub struct Reached {
    kinds: [u64; NAMES.len()],
    clauses: [u64; CLAUSES.len()],
    finished: [u64; BLOCKS],
    status: [u64; 256],
}

/// The status words that a well-formed state can show: SR0 only while something
/// runs (SR7 = 0), SR2 only while nothing does.
fn possible(word: usize) -> bool {
    if word & 0x80 != 0 {
        word & 0x01 == 0
    } else {
        word & 0x04 == 0
    }
}

impl Default for Reached {
    fn default() -> Reached {
        Reached {
            kinds: [0; NAMES.len()],
            clauses: [0; CLAUSES.len()],
            finished: [0; BLOCKS],
            status: [0; 256],
        }
    }
}

impl Reached {
    fn add(&mut self, kind: Kind) {
        self.kinds[kind as usize] += 1;
    }

    fn add_if(&mut self, condition: bool, kind: Kind) {
        self.kinds[kind as usize] += u64::from(condition);
    }

    pub fn add_clause(&mut self, clause: usize) {
        self.clauses[clause] += 1;
    }

    pub fn plus(mut self, other: Reached) -> Reached {
        for (all, more) in self.kinds.iter_mut().zip(other.kinds) {
            *all += more;
        }
        for (all, more) in self.clauses.iter_mut().zip(other.clauses) {
            *all += more;
        }
        for (all, more) in self.finished.iter_mut().zip(other.finished) {
            *all += more;
        }
        for (all, more) in self.status.iter_mut().zip(other.status) {
            *all += more;
        }
        self
    }

    /// Each count with the least that it has to be, and its name.
    fn named(&self) -> impl Iterator<Item = (u64, u64, String)> + '_ {
        let kinds = self.kinds.iter().zip(NAMES).enumerate();
        let clauses = self.clauses.iter().zip(&CLAUSES);
        let bits = (0..8usize).rev().flat_map(|bit| [(bit, 0), (bit, 1)]);
        kinds
            .map(|(kind, (&count, name))| (count, least(kind), name.to_string()))
            .chain(wear::named(&self.finished))
            .chain(clauses.map(|(&count, name)| (count, 1, format!("malformed state: {name}"))))
            .chain(bits.map(|(bit, value)| {
                let name = format!("status word read with SR{bit} = {value}");
                (self.status_reads(|word| word >> bit & 1 == value), 1, name)
            }))
    }

    /// Reads of status words of a kind.
    fn status_reads(&self, of_kind: impl Fn(usize) -> bool) -> u64 {
        let words = (0..256).filter(|&word| of_kind(word));
        words.map(|word| self.status[word]).sum()
    }

    /// The status words that can be read and were not, the others, and how often
    /// the rarest of those was.
    fn status_words(&self) -> (Vec<usize>, usize, u64) {
        let possible = (0..256).filter(|&word| possible(word));
        let (read, unread): (Vec<_>, Vec<_>) = possible.partition(|&word| self.status[word] > 0);
        let rarest = read.iter().map(|&word| self.status[word]).min();
        (unread, read.len(), rarest.unwrap_or(0))
    }

    /// A line for each kind.
    pub fn table(&self) -> String {
        let (unread, read, rarest) = self.status_words();
        let words = format!(
            "{read:>9} different status words read of {} that can be, the rarest {rarest} times\n",
            read + unread.len()
        );
        self.named()
            .map(|(count, _, name)| format!("{count:>9} {name}\n"))
            .chain([words])
            .collect()
    }

    /// What was never reached, or too seldom.
    pub fn missing(&self) -> Vec<String> {
        let unread = self.status_words().0.into_iter();
        self.named()
            .filter(|&(count, least, _)| count < least)
            .map(|(count, least, name)| format!("{name} ({count}, at least {least})"))
            .chain(unread.map(|word| format!("status word {word:02X}h")))
            .collect()
    }
}

/// What of a device is kept while a step is made.
#[derive(Clone, Copy)]
pub struct Glance {
    pub setup: Option<Setup>,
    pub running: Option<Operation>,
    pub suspended_program: Option<Program>,
    pub suspended_erase: Option<Erase>,
    flags: Flags,
    configuration: u16,
    supply: bool,
    /// The count of the block whose erase runs.
    erases: u16,
}

impl Glance {
    pub fn at(device: &Device) -> Glance {
        Glance {
            setup: device.setup,
            running: device.running,
            suspended_program: device.suspended_program,
            suspended_erase: device.suspended_erase,
            flags: device.flags,
            configuration: device.configuration,
            supply: device.supply,
            erases: match device.running {
                Some(Operation::Erase(erase)) => device.counts.of(erase.block),
                _ => 0,
            },
        }
    }

    /// The load, if one is pending.
    fn load(&self) -> Option<Setup> {
        self.setup.filter(|setup| setup.is_load())
    }

    fn erase_suspended(&self) -> bool {
        self.suspended_erase.is_some()
    }

    fn program_suspended(&self) -> bool {
        self.suspended_program.is_some()
    }
}

/// Where the register's bits come from.
#[derive(Clone, Copy, Default)]
enum Register {
    #[default]
    Given,
    /// From 03h, with a reserved bit set in its address.
    Reserved,
    /// From 03h, with none set.
    Plain,
    /// From a reset that changed it.
    Reset,
}

/// Watches the steps of a list; of a load it keeps which words were given, of the
/// register where it comes from, of the supply where it went off, and of an erase what
/// came before, which the device does not tell.
#[derive(Clone, Copy, Default)]
pub struct Watch {
    /// Of a load whose first word was seen: a bit for each word given.
    given: Option<u32>,
    last: u32,
    upward: bool,
    repeated: bool,
    register: Register,
    drops: Drops,
    wear: Wear,
}

impl Watch {
    /// Counts what a step came to.
    pub fn step(
        &mut self,
        reached: &mut Reached,
        before: &Glance,
        step: Step,
        answer: Answer,
        after: &Device,
    ) {
        if answer.refusal != 0 {
            note_refused(reached, before, step, answer.refusal, after);
            return;
        }
        if let Step::Read(address) = step {
            let bank = Cycle::new(after, address, 0).bank;
            let shown = after.shown(bank) == Mode::Status;
            reached.status[usize::from(answer.value & 0xFF)] += u64::from(shown);
        }
        self.register_step(reached, before, step, after);
        self.drops.step(reached, before, step, after);
        self.wear.step(reached, before, step, after);
        match (step, before.load()) {
            (Step::Write(address, data), Some(load)) => {
                let cycle = Cycle::new(after, address, data);
                self.load_cycle(reached, before, load, cycle, after);
            }
            (Step::Write(_, data), None) => note_command(reached, before, data, after),
            (Step::Work(count), None) => note_work(reached, before, count, after),
            (Step::Work(count), Some(_)) => {
                reached.add(Kind::LoadWork);
                reached.add_if(count == 0, Kind::LoadWork0);
            }
            (Step::Read(_), Some(_)) => reached.add(Kind::LoadRead),
            (Step::Read(address), None) => note_read(reached, before, address, after),
            (Step::Supply(_), load) => reached.add_if(load.is_some(), Kind::LoadSupply),
            (Step::Reset, load) => note_reset(reached, before, load),
        }
    }

    /// Counts the steps that store, reset or read the configuration register.
    fn register_step(
        &mut self,
        reached: &mut Reached,
        before: &Glance,
        step: Step,
        after: &Device,
    ) {
        match (step, before.setup) {
            (Step::Write(address, data), Some(Setup::Lock)) if data % 256 == 0x03 => {
                let set = note_stored(reached, address, after);
                self.register = match set {
                    0 => Register::Plain,
                    _ => Register::Reserved,
                };
            }
            (Step::Reset, _) if before.configuration != DEFAULT_CONFIGURATION => {
                reached.add(Kind::ResetRegister);
                self.register = Register::Reset;
            }
            (Step::Read(address), _) if shows_register(after, address) => {
                reached.add(match self.register {
                    Register::Given => Kind::ReadGiven,
                    Register::Reserved => Kind::ReadReserved,
                    Register::Plain => Kind::ReadPlain,
                    Register::Reset => Kind::ReadReset,
                });
            }
            _ => {}
        }
    }

    fn load_cycle(
        &mut self,
        reached: &mut Reached,
        before: &Glance,
        load: Setup,
        cycle: Cycle,
        after: &Device,
    ) {
        if let Some(Operation::Program(Program::Buffer { start, words, .. })) = after.running {
            self.confirmed(reached, words);
            let block = after.part.block(cycle.block).expect("a block of the part");
            let at_end = start + words == block.start + block.size;
            reached.add_if(at_end, Kind::ConfirmedAtEnd);
            reached.add_if(cycle.data > 0xFF, Kind::ConfirmedUpperByte);
            reached.add_if(before.erase_suspended(), Kind::ConfirmedNested);
        } else if let Some(setup) = after.setup {
            self.given(load, setup, cycle.location);
        } else {
            note_end(reached, load, cycle, after);
        }
    }

    /// Keeps which word a data cycle gave.
    fn given(&mut self, load: Setup, next: Setup, location: u32) {
        let Setup::LoadNext { start, .. } = next else {
            return;
        };
        if matches!(load, Setup::LoadFirst { .. }) {
            *self = Watch {
                given: Some(1),
                upward: true,
                register: self.register,
                drops: self.drops,
                wear: self.wear,
                ..Watch::default()
            };
        } else if let Some(given) = self.given {
            let place = location - start;
            self.upward &= place > self.last;
            self.repeated |= given >> place & 1 == 1;
            self.given = Some(given | 1 << place);
            self.last = place;
        }
    }

    fn confirmed(&mut self, reached: &mut Reached, words: u32) {
        reached.add(match words {
            1 => Kind::ConfirmedOne,
            2..=16 => Kind::ConfirmedShort,
            17..=31 => Kind::ConfirmedLong,
            _ => Kind::ConfirmedMost,
        });
        // Nothing is known where the load came with the state.
        if let Some(given) = self.given.take() {
            let missing = given.count_ones() < words;
            reached.add_if(self.upward && !missing, Kind::ConfirmedAll);
            reached.add_if(!self.upward, Kind::ConfirmedOrder);
            reached.add_if(self.repeated, Kind::ConfirmedRepeated);
            reached.add_if(missing, Kind::ConfirmedMissing);
        }
    }
}

/// An accepted write, by where it goes.
#[derive(Clone, Copy)]
struct Cycle {
    location: u32,
    block: u32,
    bank: u32,
    data: u16,
}

impl Cycle {
    fn new(device: &Device, address: u32, data: u16) -> Cycle {
        let location = device.part.location(address);
        let place = device.part.place(location).expect("an accepted address");
        Cycle {
            location,
            block: place.block,
            bank: place.bank,
            data,
        }
    }
}

/// Whether a read of an address shows the configuration register.
fn shows_register(device: &Device, address: u32) -> bool {
    let Cycle { location, bank, .. } = Cycle::new(device, address, 0);
    let start = device.part.bank_start(bank).expect("a bank of the part");
    device.shown(bank) == Mode::Signature && location - start == 5
}

/// Counts an accepted 03h by its address; gives how many reserved bits are set
/// there.
fn note_stored(reached: &mut Reached, address: u32, after: &Device) -> usize {
    let kinds = [Kind::Stored14, Kind::Stored5, Kind::Stored4];
    let bits = RESERVED_BITS.iter().zip(kinds);
    let set: Vec<Kind> = bits
        .filter_map(|(bit, kind)| (address >> bit & 1 == 1).then_some(kind))
        .collect();
    reached.add(match set[..] {
        [] => Kind::StoredPlain,
        [kind] => kind,
        _ => Kind::StoredSeveral,
    });
    let location = after.part.location(address);
    reached.add_if(location != address, Kind::StoredPastArray);
    let other = without_reserved_bits(location as u16) != after.configuration;
    reached.add_if(other, Kind::StoredNotLocation);
    set.len()
}

/// The block of a load.
fn block_of(device: &Device, load: Setup) -> Option<u32> {
    match load {
        Setup::LoadCount { block } | Setup::LoadFirst { block, .. } => Some(block),
        Setup::LoadNext { start, .. } => Some(device.part.place(start)?.block),
        Setup::Program | Setup::Erase | Setup::Lock => None,
    }
}

fn note_refused(reached: &mut Reached, before: &Glance, step: Step, refusal: u8, after: &Device) {
    let write = matches!(step, Step::Write(..));
    reached.add_if(write && before.load().is_some(), Kind::LoadRefused);
    if refusal == 2 {
        drops::note_refused(reached, step, after);
    }
    wear::note_refused(reached, step, refusal, after);
}

/// A load that came to nothing: at a wrong cycle, or refused at D0h.
fn note_end(reached: &mut Reached, load: Setup, cycle: Cycle, after: &Device) {
    let number = block_of(after, load).expect("a load of the part");
    let block = after.part.block(number).expect("a block of the part");
    let outside = cycle.block != number;
    let confirms = cycle.data % 256 == 0xD0;
    reached.add_if(cycle.bank != block.bank, Kind::WrongOtherBank);
    reached.add(match load {
        Setup::LoadCount { .. } if outside => Kind::CountOutside,
        Setup::LoadCount { .. } if cycle.data % 256 < 32 => Kind::CountUpperByte,
        Setup::LoadCount { .. } => Kind::CountAbove,
        Setup::LoadFirst { .. } if outside => Kind::FirstOutside,
        Setup::LoadFirst { .. } => Kind::FirstLeaves,
        Setup::LoadNext { due: 0, .. } if !confirms => Kind::ConfirmOther,
        Setup::LoadNext { due: 0, .. } if outside => Kind::ConfirmOutside,
        Setup::LoadNext { due: 0, .. } if !after.supply => Kind::RefusedSupply,
        Setup::LoadNext { due: 0, .. } if !after.unprotected[number as usize] => {
            Kind::RefusedProtection
        }
        Setup::LoadNext { due: 0, .. } => Kind::RefusedErase,
        Setup::LoadNext { .. } if outside => Kind::LaterOutside,
        Setup::LoadNext { start, .. } if cycle.location < start => Kind::LaterBelow,
        _ => Kind::LaterAbove,
    });
}

/// A write with no load pending.
fn note_command(reached: &mut Reached, before: &Glance, data: u16, after: &Device) {
    let buffer = |operation| matches!(operation, Some(Operation::Program(Program::Buffer { .. })));
    let nested = before.erase_suspended();
    if before.setup.is_some() {
        return;
    }
    match (buffer(before.running), buffer(after.running)) {
        (true, false) => {
            reached.add(Kind::Suspended);
            reached.add_if(nested, Kind::SuspendedNested);
        }
        (false, true) => reached.add(Kind::Resumed),
        (true, true) => {
            let mode = [0xFF, 0x70, 0x90, 0x98].contains(&(data % 256));
            reached.add_if(!mode, Kind::Ignored);
        }
        (false, false) => {}
    }
    if data % 256 == 0xE8 {
        let taken = after.setup.is_some();
        let both = before.flags.sr5 && before.flags.sr4;
        reached.add_if(taken, Kind::Taken);
        reached.add_if(taken && both, Kind::TakenWithFlags);
        reached.add_if(taken && nested, Kind::TakenBesideErase);
        reached.add_if(before.running.is_some(), Kind::NotTakenBusy);
        reached.add_if(before.suspended_program.is_some(), Kind::NotTakenSuspended);
    }
}

fn note_work(reached: &mut Reached, before: &Glance, count: u32, after: &Device) {
    let Some(Operation::Program(Program::Buffer { done, .. })) = before.running else {
        return;
    };
    if after.running.is_some() {
        reached.add_if(count > 0, Kind::WorkedPart);
    } else {
        reached.add(Kind::Finished);
        reached.add_if(done > 0, Kind::FinishedInParts);
        reached.add_if(before.erase_suspended(), Kind::FinishedNested);
    }
}

fn note_read(reached: &mut Reached, before: &Glance, address: u32, after: &Device) {
    let Some(Operation::Program(program @ Program::Buffer { .. })) = before.running else {
        return;
    };
    let Cycle { bank, .. } = Cycle::new(after, address, 0);
    let busy = Cycle::new(after, program.start(), 0).bank;
    let mode = after.modes[bank as usize];
    reached.add_if(bank == busy && mode == Mode::Array, Kind::ReadBusy);
    reached.add_if(bank != busy && mode == Mode::Status, Kind::ReadElsewhere);
}

fn note_reset(reached: &mut Reached, before: &Glance, load: Option<Setup>) {
    let some_done = |program| matches!(program, Program::Buffer { done: 1.., .. });
    match load {
        Some(Setup::LoadCount { .. }) => reached.add(Kind::DroppedAtCount),
        Some(Setup::LoadFirst { .. }) => reached.add(Kind::DroppedAtFirst),
        Some(Setup::LoadNext { due: 0, .. }) => reached.add(Kind::DroppedAtConfirm),
        Some(_) => reached.add(Kind::DroppedAtLater),
        None => {}
    }
    if let Some(Operation::Program(program)) = before.running {
        reached.add_if(some_done(program), Kind::CutRunning);
    }
    if let Some(program) = before.suspended_program {
        reached.add_if(some_done(program), Kind::CutSuspended);
    }
}

/// Counts what a list begins with; no device where the state words are of none.
pub fn note_state(reached: &mut Reached, device: Option<&Device>, counts: &EraseCounts) {
    wear::note_state(reached, device, counts);
    let Some(device) = device.filter(|device| device.well_formed()) else {
        return;
    };
    drops::note_state(reached, device);
    let changed = device.configuration != DEFAULT_CONFIGURATION;
    reached.add_if(changed, Kind::GivenRegister);
    let erased = device.suspended_erase.map(|erase| erase.block);
    if let Some(load) = Glance::at(device).load() {
        reached.add(match load {
            Setup::LoadCount { .. } => Kind::GivenCount,
            Setup::LoadFirst { .. } => Kind::GivenFirst,
            Setup::LoadNext { due: 0, .. } => Kind::GivenConfirm,
            _ => Kind::GivenLater,
        });
        let number = block_of(device, load);
        reached.add_if(erased.is_some() && number == erased, Kind::GivenLoadNested);
        if let Setup::LoadFirst { block, words } = load {
            let size = device.part.block(block).map_or(0, |block| block.size);
            reached.add_if(words > size, Kind::GivenFirstLong);
        }
    }
    let running = matches!(
        device.running,
        Some(Operation::Program(Program::Buffer { .. }))
    );
    let suspended = matches!(device.suspended_program, Some(Program::Buffer { .. }));
    reached.add_if(running, Kind::GivenRunning);
    reached.add_if(suspended, Kind::GivenSuspended);
    let nested = (running || suspended) && erased.is_some();
    reached.add_if(nested, Kind::GivenNested);
}
