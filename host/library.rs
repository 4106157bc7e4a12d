//! The static library, called through the prototypes of m58.h. The rest of the
//! host programs is safe code: every pointer is made here, from a Rust slice.

#![allow(dead_code)] // a program that takes this module in need not use all of it

use crate::second::model::{Answer, UnprotectedReport, WornReport};
use crate::second::steps::Step;
use std::ptr;

/// M58_STATE_WORDS.
pub const STATE_WORDS: usize = 25;

/// The erase counts of m58.h: M58_ROWS of m58_row, which has nothing but its
/// M58_PLACES words, and M58_SMALL_BLOCKS words. Their pointers have no count, so
/// only arrays of these lengths are borrowed.
pub type Row = [u16; 16];
pub type Rows = [Row; 16];
pub type Small = [u16; 4];

/// The prototypes of power-up and of a run, under the names that a library has
/// for them: benchmark links a second one beside the first.
macro_rules! prototypes {
    ($power_up:ident, $run:ident) => {
        extern "C" {
            pub fn $power_up(
                part: u32,
                state: *mut u64,
                state_count: usize,
                main: *mut crate::library::Row,
                small: *mut u16,
            ) -> u32;
            pub fn $run(
                state: *mut u64,
                state_count: usize,
                main: *mut crate::library::Row,
                small: *mut u16,
                steps: *const u64,
                step_count: usize,
                answers: *mut u64,
                answer_count: usize,
                array: *mut u16,
                array_count: usize,
            ) -> usize;
        }
    };
}
#[allow(unused_imports)] // only benchmark has a second library
pub(crate) use prototypes;

mod c {
    prototypes!(m58_power_up, m58_run);
    extern "C" {
        pub fn m58_lookup_refusal(part: u32, address: u32) -> u32;
        pub fn m58_lookup_block(part: u32, address: u32) -> u32;
        pub fn m58_lookup_bank(part: u32, address: u32) -> u32;
        pub fn m58_block_start(part: u32, block: u32) -> u64;
        pub fn m58_report(
            state: *const u64,
            state_count: usize,
            main: *const super::Row,
            small: *const u16,
        ) -> u64;
        pub fn m58_most_worn(
            state: *const u64,
            state_count: usize,
            main: *const super::Row,
            small: *const u16,
        ) -> u64;
        pub fn m58_erase_count(
            state: *const u64,
            state_count: usize,
            main: *const super::Row,
            small: *const u16,
            block: u32,
        ) -> u64;
    }
}

/// Refusal, block and bank of an address.
pub fn lookup(part: u32, address: u32) -> (u32, u32, u32) {
    // SAFETY: plain numbers go in and out; m58.h allows any of them.
    unsafe {
        (
            c::m58_lookup_refusal(part, address),
            c::m58_lookup_block(part, address),
            c::m58_lookup_bank(part, address),
        )
    }
}

/// The block of an address.
pub fn lookup_block(part: u32, address: u32) -> u32 {
    // SAFETY: plain numbers go in and out; m58.h allows any of them.
    unsafe { c::m58_lookup_block(part, address) }
}

/// The lowest location of a block, with a refusal from bit 32.
pub fn block_start(part: u32, block: u32) -> u64 {
    // SAFETY: plain numbers go in and out; m58.h allows any of them.
    unsafe { c::m58_block_start(part, block) }
}

/// m58_power_up on state words of any count.
pub fn power_up(part: u32, state: &mut [u64], main: &mut Rows, small: &mut Small) -> u32 {
    power_up_borrowed(part, Some(state), main, small)
}

/// m58_power_up with a null pointer and the count 0 where no state is borrowed.
pub fn power_up_borrowed(
    part: u32,
    state: Option<&mut [u64]>,
    main: &mut Rows,
    small: &mut Small,
) -> u32 {
    let (state, count) = borrowed(state);
    // SAFETY: the pointer and the count are those of one slice, borrowed to be
    // changed for the length of the call, or null and 0, which m58.h allows; the
    // counts' arrays have the lengths of m58.h.
    unsafe { c::m58_power_up(part, state, count, main.as_mut_ptr(), small.as_mut_ptr()) }
}

/// m58_run on memory of any counts.
pub fn run(
    state: &mut [u64],
    (main, small): (&mut Rows, &mut Small),
    steps: &[u64],
    answers: &mut [u64],
    array: &mut [u16],
) -> usize {
    let counts = (main, small);
    run_borrowed(Some(state), counts, Some(steps), Some(answers), Some(array))
}

/// m58_run with a null pointer and the count 0 where nothing is borrowed.
pub fn run_borrowed(
    state: Option<&mut [u64]>,
    (main, small): (&mut Rows, &mut Small),
    steps: Option<&[u64]>,
    answers: Option<&mut [u64]>,
    array: Option<&mut [u16]>,
) -> usize {
    let (state, state_count) = borrowed(state);
    let (answers, answer_count) = borrowed(answers);
    let (array, array_count) = borrowed(array);
    let (steps, step_count) = steps.map_or((ptr::null(), 0), |s| (s.as_ptr(), s.len()));
    // SAFETY: each pointer and its count are those of one slice, borrowed for the
    // length of the call, to be changed where the prototype is not const; so
    // no two overlap. A null pointer has the count 0, which m58.h allows. The
    // counts' arrays have the lengths of m58.h.
    unsafe {
        c::m58_run(
            state,
            state_count,
            main.as_mut_ptr(),
            small.as_mut_ptr(),
            steps,
            step_count,
            answers,
            answer_count,
            array,
            array_count,
        )
    }
}

/// The device that a report is asked of: state words of any count, none for a null
/// pointer and the count 0, and the counts.
#[derive(Clone, Copy)]
pub struct Asked<'a> {
    pub state: Option<&'a [u64]>,
    pub main: &'a Rows,
    pub small: &'a Small,
}

impl Asked<'_> {
    fn state(&self) -> (*const u64, usize) {
        self.state
            .map_or((ptr::null(), 0), |words| (words.as_ptr(), words.len()))
    }

    // SAFETY, of all three: the pointer and the count are those of one slice, only
    // read, or null and 0, which m58.h allows; the counts' arrays have the lengths
    // of m58.h.

    pub fn report(&self) -> u64 {
        let (state, count) = self.state();
        unsafe { c::m58_report(state, count, self.main.as_ptr(), self.small.as_ptr()) }
    }

    pub fn most_worn(&self) -> u64 {
        let (state, count) = self.state();
        unsafe { c::m58_most_worn(state, count, self.main.as_ptr(), self.small.as_ptr()) }
    }

    pub fn erase_count(&self, block: u32) -> u64 {
        let (state, count) = self.state();
        let (main, small) = (self.main.as_ptr(), self.small.as_ptr());
        unsafe { c::m58_erase_count(state, count, main, small, block) }
    }
}

fn borrowed<T>(memory: Option<&mut [T]>) -> (*mut T, usize) {
    memory.map_or((ptr::null_mut(), 0), |m| (m.as_mut_ptr(), m.len()))
}

/// The number of a step, as the macros of m58.h make it.
pub fn number(step: Step) -> u64 {
    match step {
        Step::Read(address) => u64::from(address),
        Step::Write(address, data) => 1 << 48 | u64::from(data) << 32 | u64::from(address),
        Step::Work(count) => 2 << 48 | u64::from(count),
        Step::Supply(on) => 3 << 48 | u64::from(on),
        Step::Reset => 4 << 48,
    }
}

/// The step of a number; none where no macro of m58.h makes the number.
pub fn step(number: u64) -> Option<Step> {
    let low = number as u32;
    let middle = (number >> 32) as u16;
    match (number >> 48, middle, low) {
        (0, 0, address) => Some(Step::Read(address)),
        (1, data, address) => Some(Step::Write(address, data)),
        (2, 0, count) => Some(Step::Work(count)),
        (3, 0, 0) => Some(Step::Supply(false)),
        (3, 0, 1) => Some(Step::Supply(true)),
        (4, 0, 0) => Some(Step::Reset),
        _ => None,
    }
}

/// The number of a step's answer.
pub fn answer(answer: Answer) -> u64 {
    refused(answer.refusal) | u64::from(answer.value)
}

/// The answer of a refused step, and of a refused report.
pub fn refused(refusal: u8) -> u64 {
    u64::from(refusal) << 32
}

/// The number of a report of unprotected blocks.
pub fn unprotected_report(report: UnprotectedReport) -> u64 {
    refused(report.refusal) | u64::from(report.count) << 16 | u64::from(report.lowest)
}

/// The number of a report of the most worn block.
pub fn worn_report(report: WornReport) -> u64 {
    refused(report.refusal) | u64::from(report.count) << 16 | u64::from(report.block)
}

/// The number of a report of one block's erases.
pub fn erases_report(report: WornReport) -> u64 {
    refused(report.refusal) | u64::from(report.count)
}
