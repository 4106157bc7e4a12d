//! Another static library, linked beside the first: benchmark renames its
//! m58_power_up, m58_run and m58_lookup_block, since two of a name cannot be
//! linked. One from before the erase counts (document 02, item 6) takes none;
//! benchmark tells by the name other_counts that it does.

use crate::second::model::EraseCounts;

#[cfg(other_counts)]
mod c {
    crate::library::prototypes!(other_power_up, other_run);
}

#[cfg(not(other_counts))]
mod c {
    extern "C" {
        pub fn other_power_up(part: u32, state: *mut u64, state_count: usize) -> u32;
        pub fn other_run(
            state: *mut u64,
            state_count: usize,
            steps: *const u64,
            step_count: usize,
            answers: *mut u64,
            answer_count: usize,
            array: *mut u16,
            array_count: usize,
        ) -> usize;
    }
}

extern "C" {
    fn other_lookup_block(part: u32, address: u32) -> u32;
}

/// The block of an address.
pub fn lookup_block(part: u32, address: u32) -> u32 {
    // SAFETY: plain numbers go in and out; m58.h allows any of them.
    unsafe { other_lookup_block(part, address) }
}

/// Whether it counts erases.
pub const COUNTS: bool = cfg!(other_counts);

#[cfg(other_counts)]
pub fn power_up(part: u32, state: &mut [u64], counts: &mut EraseCounts) -> u32 {
    let (main, small) = (counts.main.as_mut_ptr(), counts.small.as_mut_ptr());
    // SAFETY: the pointer and the count are those of one slice, borrowed to be
    // changed for the length of the call; the counts' arrays have the lengths of
    // m58.h.
    unsafe { c::other_power_up(part, state.as_mut_ptr(), state.len(), main, small) }
}

#[cfg(not(other_counts))]
pub fn power_up(part: u32, state: &mut [u64], _: &mut EraseCounts) -> u32 {
    // SAFETY: the pointer and the count are those of one slice, borrowed to be
    // changed for the length of the call.
    unsafe { c::other_power_up(part, state.as_mut_ptr(), state.len()) }
}

#[cfg(other_counts)]
pub fn run(
    state: &mut [u64],
    counts: &mut EraseCounts,
    steps: &[u64],
    answers: &mut [u64],
    array: &mut [u16],
) -> usize {
    // SAFETY: each pointer and its count are those of one slice, borrowed for
    // the length of the call, to be changed where the prototype is not const; the
    // counts' arrays have the lengths of m58.h.
    unsafe {
        c::other_run(
            state.as_mut_ptr(),
            state.len(),
            counts.main.as_mut_ptr(),
            counts.small.as_mut_ptr(),
            steps.as_ptr(),
            steps.len(),
            answers.as_mut_ptr(),
            answers.len(),
            array.as_mut_ptr(),
            array.len(),
        )
    }
}

#[cfg(not(other_counts))]
pub fn run(
    state: &mut [u64],
    _: &mut EraseCounts,
    steps: &[u64],
    answers: &mut [u64],
    array: &mut [u16],
) -> usize {
    // SAFETY: each pointer and its count are those of one slice, borrowed for
    // the length of the call, to be changed where the prototype is not const.
    unsafe {
        c::other_run(
            state.as_mut_ptr(),
            state.len(),
            steps.as_ptr(),
            steps.len(),
            answers.as_mut_ptr(),
            answers.len(),
            array.as_mut_ptr(),
            array.len(),
        )
    }
}
