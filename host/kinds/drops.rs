//! What the lists reach of supply drops (document 02, item 5): what the supply ends,
//! where it runs and where it would be resumed, what stays, and what is looked at after.

use super::{Cycle, Glance, Kind, Reached};
use crate::second::model::{Device, Erase, Flags, Mode, Operation, Program, Setup};
use crate::second::steps::Step;

/// Follows the supply over a list, which a device does not tell.
#[derive(Clone, Copy, Default)]
pub struct Drops {
    /// Supply has been off since something was suspended.
    over_suspended: bool,
    /// Supply has gone off since the set-up.
    over_set_up: bool,
    /// D0h without supply has ended a program and left an erase.
    erase_left: bool,
    /// What ended without supply, until something runs again.
    cut: Option<Operation>,
}

impl Drops {
    /// Counts what an accepted step came to.
    pub fn step(&mut self, reached: &mut Reached, before: &Glance, step: Step, after: &Device) {
        match (step, before.setup) {
            (Step::Supply(true), _) => note_on(reached, before),
            (Step::Supply(false), _) => self.off(reached, before, after),
            (Step::Write(_, data), Some(setup)) => {
                self.second_cycle(reached, before, setup, data, after);
            }
            (Step::Write(_, data), None) if data % 256 == 0xD0 && before.running.is_none() => {
                self.resume(reached, before);
            }
            (Step::Read(address), _) => self.look(reached, address, after),
            _ => {}
        }
        let suspended = after.suspended_program.is_some() || after.suspended_erase.is_some();
        self.over_suspended &= suspended;
        self.over_set_up &= after.setup.is_some();
        self.erase_left &= after.suspended_erase.is_some() && !after.supply;
        if after.running.is_some() || step == Step::Reset {
            self.cut = None;
        }
    }

    fn off(&mut self, reached: &mut Reached, before: &Glance, after: &Device) {
        let suspended = before.program_suspended() || before.erase_suspended();
        if !before.supply {
            reached.add(Kind::OffAgain);
            reached.add_if(suspended, Kind::OffAgainSuspended);
            return;
        }
        if let Some(setup) = before.setup {
            reached.add(off_in_set_up(setup));
            self.over_set_up = true;
        }
        if let Some(operation) = before.running {
            reached.add(cut(operation, before.erase_suspended(), after));
            reached.add_if(before.flags != Flags::default(), Kind::CutFlags);
            self.cut = Some(operation);
        } else if suspended {
            reached.add(by_suspended(before, Kind::STAYS).expect("something is suspended"));
        }
        self.over_suspended |= suspended;
    }

    /// D0h with no set-up, and nothing running.
    fn resume(&mut self, reached: &mut Reached, before: &Glance) {
        let program = before.suspended_program.map(Operation::Program);
        let operation = program.or(before.suspended_erase.map(Operation::Erase));
        if before.supply {
            let kind = match operation.filter(|_| self.over_suspended) {
                Some(Operation::Program(Program::Word { .. })) => Kind::ResumedProgram,
                Some(Operation::Program(Program::Buffer { .. })) => Kind::ResumedBuffer,
                Some(Operation::Erase(_)) => Kind::ResumedErase,
                None => return,
            };
            reached.add(kind);
            return;
        }
        reached.add(by_suspended(before, Kind::ENDS).unwrap_or(Kind::EndedNothing));
        let flags = operation.is_some() && before.flags != Flags::default();
        reached.add_if(flags, Kind::EndedFlags);
        reached.add_if(self.erase_left && program.is_none(), Kind::EndedSecond);
        self.erase_left = program.is_some() && before.erase_suspended();
        self.cut = operation;
    }

    /// The second cycle of a set-up, or a cycle of a load.
    fn second_cycle(
        &mut self,
        reached: &mut Reached,
        before: &Glance,
        setup: Setup,
        data: u16,
        after: &Device,
    ) {
        let confirms = data % 256 == 0xD0;
        if setup == Setup::Lock && confirms && !after.supply {
            reached.add_if(before.erase_suspended(), Kind::LockNoResume);
        }
        if !self.over_set_up || after.setup.is_some() {
            return;
        }
        let refused = !after.supply && after.flags.sr3 && !before.flags.sr3;
        let (refusal, acceptance) = match setup {
            Setup::Program => (Kind::RefusedProgramOff, Kind::RunsProgramBack),
            Setup::Erase => (Kind::RefusedEraseOff, Kind::RunsEraseBack),
            Setup::Lock => return,
            _ => (Kind::RefusedLoadOff, Kind::RunsLoadBack),
        };
        reached.add_if(refused, refusal);
        reached.add_if(after.running.is_some(), acceptance);
    }

    /// A read that shows a word of what ended without supply.
    fn look(&self, reached: &mut Reached, address: u32, after: &Device) {
        let Cycle {
            location,
            block,
            bank,
            ..
        } = Cycle::new(after, address, 0);
        if after.shown(bank) != Mode::Array {
            return;
        }
        let kind = match self.cut {
            Some(Operation::Erase(erase)) if erase.block == block => {
                let start = after.part.block(block).expect("a block of the part").start;
                match location - start < erase.done {
                    true => Kind::SeenErased,
                    false => Kind::SeenNotErased,
                }
            }
            Some(Operation::Program(Program::Buffer { start, words, done }))
                if (start..start + words).contains(&location) =>
            {
                match location - start < done {
                    true => Kind::SeenLoaded,
                    false => Kind::SeenNotLoaded,
                }
            }
            Some(Operation::Program(Program::Word { location: own, .. })) if own == location => {
                Kind::SeenNotProgrammed
            }
            _ => return,
        };
        reached.add(kind);
    }
}

impl Kind {
    /// Each for a program, a buffer program, an erase, a program in an erase, a
    /// buffer program in an erase.
    const STAYS: [Kind; 5] = [
        Kind::StaysProgram,
        Kind::StaysBuffer,
        Kind::StaysErase,
        Kind::StaysProgramErase,
        Kind::StaysBufferErase,
    ];
    const ENDS: [Kind; 5] = [
        Kind::EndedProgram,
        Kind::EndedBuffer,
        Kind::EndedErase,
        Kind::EndedProgramErase,
        Kind::EndedBufferErase,
    ];
    const GIVEN: [Kind; 5] = [
        Kind::GivenOffProgram,
        Kind::GivenOffBuffer,
        Kind::GivenOffErase,
        Kind::GivenOffProgramErase,
        Kind::GivenOffBufferErase,
    ];
}

/// The kind of what is suspended.
fn by_suspended(before: &Glance, kinds: [Kind; 5]) -> Option<Kind> {
    let place = match (before.suspended_program, before.suspended_erase) {
        (None, None) => return None,
        (Some(Program::Word { .. }), None) => 0,
        (Some(Program::Buffer { .. }), None) => 1,
        (None, Some(_)) => 2,
        (Some(Program::Word { .. }), Some(_)) => 3,
        (Some(Program::Buffer { .. }), Some(_)) => 4,
    };
    Some(kinds[place])
}

/// The kind of a running operation that ends.
fn cut(operation: Operation, nested: bool, device: &Device) -> Kind {
    match operation {
        Operation::Program(Program::Word { .. }) if nested => Kind::CutProgramErase,
        Operation::Program(Program::Word { .. }) => Kind::CutProgram,
        Operation::Program(Program::Buffer { .. }) if nested => Kind::CutBufferErase,
        Operation::Program(Program::Buffer { done: 0, .. }) => Kind::CutBufferNone,
        Operation::Program(Program::Buffer { words, done, .. }) if words - done == 1 => {
            Kind::CutBufferLast
        }
        Operation::Program(Program::Buffer { .. }) => Kind::CutBufferSome,
        Operation::Erase(Erase { done: 0, .. }) => Kind::CutEraseNone,
        Operation::Erase(Erase { block, done }) => {
            let size = device.part.block(block).expect("a block of the part").size;
            match size - done {
                1 => Kind::CutEraseLast,
                _ => Kind::CutEraseSome,
            }
        }
    }
}

fn note_on(reached: &mut Reached, before: &Glance) {
    let suspended = before.program_suspended() || before.erase_suspended();
    reached.add_if(before.running.is_some(), Kind::OnRunning);
    if before.supply {
        return;
    }
    reached.add_if(suspended, Kind::OnSuspended);
    if let Some(setup) = before.setup {
        reached.add(on_in_set_up(setup));
    }
}

fn off_in_set_up(setup: Setup) -> Kind {
    match setup {
        Setup::Program => Kind::OffProgram,
        Setup::Erase => Kind::OffErase,
        Setup::Lock => Kind::OffLock,
        Setup::LoadCount { .. } => Kind::OffCount,
        Setup::LoadFirst { .. } => Kind::OffFirst,
        Setup::LoadNext { due: 0, .. } => Kind::OffConfirm,
        Setup::LoadNext { .. } => Kind::OffLater,
    }
}

fn on_in_set_up(setup: Setup) -> Kind {
    match setup {
        Setup::Program => Kind::OnProgram,
        Setup::Erase => Kind::OnErase,
        Setup::Lock => Kind::OnLock,
        Setup::LoadCount { .. } => Kind::OnCount,
        Setup::LoadFirst { .. } => Kind::OnFirst,
        Setup::LoadNext { due: 0, .. } => Kind::OnConfirm,
        Setup::LoadNext { .. } => Kind::OnLater,
    }
}

/// Counts a step that is refused because something runs without supply, and for
/// nothing else.
pub fn note_refused(reached: &mut Reached, step: Step, device: &Device) {
    if device.running.is_none() || device.supply {
        return;
    }
    let mut supplied = device.clone();
    supplied.supply = true;
    if !supplied.well_formed() {
        return;
    }
    reached.add(match step {
        Step::Read(_) => Kind::RefusedRead,
        Step::Write(..) => Kind::RefusedWrite,
        Step::Work(_) => Kind::RefusedWork,
        Step::Supply(false) => Kind::RefusedOff,
        Step::Supply(true) => Kind::RefusedOn,
        Step::Reset => Kind::RefusedReset,
    });
}

/// Counts what a list begins with, without supply.
pub fn note_state(reached: &mut Reached, device: &Device) {
    if device.supply {
        return;
    }
    if let Some(kind) = by_suspended(&Glance::at(device), Kind::GIVEN) {
        reached.add(kind);
    }
    if let Some(setup) = device.setup {
        reached.add_if(!setup.is_load(), Kind::GivenOffSetUp);
        reached.add_if(setup.is_load(), Kind::GivenOffLoad);
    }
}
