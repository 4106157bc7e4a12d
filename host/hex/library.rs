//! The static library's Intel HEX, called through the prototypes of m58.h. Every
//! pointer is made here, from a Rust slice.

#![allow(dead_code)] // a program that takes this module in need not use all of it

use crate::second::hex::Answer;
use std::ptr;

extern "C" {
    fn m58_hex_read(
        part: u32,
        text: *const u8,
        text_count: usize,
        array: *mut u16,
        array_count: usize,
    ) -> u64;
    fn m58_hex_write(
        part: u32,
        array: *const u16,
        array_count: usize,
        text: *mut u8,
        text_count: usize,
    ) -> u64;
}

/// m58_hex_read on memory of any counts.
pub fn read(part: u32, text: &[u8], array: &mut [u16]) -> u64 {
    read_borrowed(part, Some(text), Some(array))
}

/// m58_hex_read with a null pointer and the count 0 where nothing is borrowed.
pub fn read_borrowed(part: u32, text: Option<&[u8]>, array: Option<&mut [u16]>) -> u64 {
    let (text, text_count) = text.map_or((ptr::null(), 0), |t| (t.as_ptr(), t.len()));
    let (array, array_count) = array.map_or((ptr::null_mut(), 0), |a| (a.as_mut_ptr(), a.len()));
    // SAFETY: each pointer and its count are those of one slice, borrowed for the
    // length of the call, the array to be changed. A null pointer has the count
    // 0, which m58.h allows.
    unsafe { m58_hex_read(part, text, text_count, array, array_count) }
}

/// m58_hex_write on memory of any counts.
pub fn write(part: u32, array: &[u16], text: &mut [u8]) -> u64 {
    write_borrowed(part, Some(array), Some(text))
}

/// m58_hex_write with a null pointer and the count 0 where nothing is borrowed.
pub fn write_borrowed(part: u32, array: Option<&[u16]>, text: Option<&mut [u8]>) -> u64 {
    let (array, array_count) = array.map_or((ptr::null(), 0), |a| (a.as_ptr(), a.len()));
    let (text, text_count) = text.map_or((ptr::null_mut(), 0), |t| (t.as_mut_ptr(), t.len()));
    // SAFETY: as in read_borrowed; here the text is to be changed.
    unsafe { m58_hex_write(part, array, array_count, text, text_count) }
}

/// The number that the library returns for an answer: the refusal above 32 bits
/// of the line or the length, which stops at the highest number they hold.
pub fn number(answer: Answer) -> u64 {
    u64::from(answer.refusal) << 32 | answer.number.min(u64::from(u32::MAX))
}

/// What a returned number says.
pub fn text(number: u64) -> String {
    format!("refusal {}, number {}", number >> 32, number as u32)
}
