//! The plain C model, called through the prototypes of plain/plain.h. Every
//! pointer is made here, from a Rust slice.

#![allow(dead_code)] // a program that takes this module in need not use all of it

mod c {
    extern "C" {
        pub fn plain_size() -> usize;
        pub fn plain_power_up(device: *mut u64, part: u32);
        pub fn plain_run(
            device: *mut u64,
            steps: *const u64,
            n: usize,
            answers: *mut u64,
            array: *mut u16,
            count: usize,
        ) -> usize;
        pub fn plain_erase_count(device: *const u64, block: u32) -> u16;
        pub fn plain_most_worn(device: *const u64) -> u32;
    }
}

/// Room for the C struct. None of its fields is wider than a u64, so a u64 is
/// aligned well enough.
pub struct Plain(Vec<u64>);

impl Plain {
    /// A device of a part, 0 to 3.
    pub fn power_up(part: u32) -> Plain {
        // SAFETY: no argument, no memory.
        let bytes = unsafe { c::plain_size() };
        let mut device = vec![0; bytes.div_ceil(8)];
        // SAFETY: the pointer is to at least as many bytes as the struct has.
        unsafe { c::plain_power_up(device.as_mut_ptr(), part) };
        Plain(device)
    }

    /// plain_run with room for an answer to each step.
    pub fn run(&mut self, steps: &[u64], answers: &mut [u64], array: &mut [u16]) -> usize {
        assert!(answers.len() >= steps.len(), "an answer for each step");
        // SAFETY: the device was filled by plain_power_up. Each other pointer
        // and its count are those of one slice, borrowed for the length of the
        // call, to be changed where the prototype is not const.
        unsafe {
            c::plain_run(
                self.0.as_mut_ptr(),
                steps.as_ptr(),
                steps.len(),
                answers.as_mut_ptr(),
                array.as_mut_ptr(),
                array.len(),
            )
        }
    }

    /// The finished erases of a block; 0 for a number that is no block.
    pub fn erase_count(&self, block: u32) -> u16 {
        // SAFETY: the device was filled by plain_power_up, and is only read; any
        // number may be asked for.
        unsafe { c::plain_erase_count(self.0.as_ptr(), block) }
    }

    /// The block with the most finished erases, the lowest number on a tie.
    pub fn most_worn(&self) -> u32 {
        // SAFETY: the device was filled by plain_power_up, and is only read.
        unsafe { c::plain_most_worn(self.0.as_ptr()) }
    }
}
