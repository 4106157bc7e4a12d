//! Intel HEX, after document 02, item 3: the second reader and the second writer.
//!
//! The reader keeps apart what a text names, and puts it into the array only
//! where the whole text is accepted.

#![allow(dead_code)] // a program that takes this module in need not use all of it

use super::geometry::Part;

/// Document 01's refusals: the array's length, the part's number.
const ARRAY_LENGTH: u32 = 1;
const PART_NUMBER: u32 = 7;

/// "10 record malformed (also a 01 or 04 of other offset or length), 11 sum
/// wrong, 12 other type, 13 byte outside the array or offset passed, 14 no end
/// record; writing, 17 text too short".
const MALFORMED: u32 = 10;
const SUM: u32 = 11;
const TYPE: u32 = 12;
const OUTSIDE: u32 = 13;
const NO_END: u32 = 14;
const TEXT_SHORT: u32 = 17;

/// "Read records 00, 01 and 04".
const DATA: u8 = 0x00;
const END: u8 = 0x01;
const UPPER: u8 = 0x04;

/// "Record offset plus length may not pass 65,536."
const OFFSETS: usize = 65_536;

/// "16 data bytes a record".
const RECORD_BYTES: usize = 16;

/// The number of the refusal, 0 where there is none, and beside it: of a reading
/// the line that decided, counted from 1; of a writing the bytes of the text.
#[derive(Clone, Copy, Debug, PartialEq, Eq)]
pub struct Answer {
    pub refusal: u32,
    pub number: u64,
}

/// The bytes that a text names, in the order in which it names them.
#[derive(Default)]
pub struct Named {
    bytes: Vec<u8>,
    /// Address and number of bytes, for each record that has any.
    runs: Vec<(usize, usize)>,
}

impl Named {
    pub fn runs(&self) -> &[(usize, usize)] {
        &self.runs
    }

    fn add(&mut self, address: usize, data: &[u8]) {
        if !data.is_empty() {
            self.bytes.extend_from_slice(data);
            self.runs.push((address, data.len()));
        }
    }

    /// "an even byte address is a word's low half"; "Words and halves not named
    /// stay; a byte named twice keeps the later value".
    pub fn put(&self, array: &mut [u16]) {
        let mut bytes = self.bytes.iter();
        for &(address, count) in &self.runs {
            for (address, &byte) in (address..address + count).zip(&mut bytes) {
                let word = &mut array[address / 2];
                let [low, high] = word.to_le_bytes();
                *word = match address % 2 {
                    0 => u16::from_le_bytes([byte, high]),
                    _ => u16::from_le_bytes([low, byte]),
                };
            }
        }
    }
}

/// Reads a text into a part's array. "A refused file leaves the array as it was."
pub fn read(part: u32, text: &[u8], array: &mut [u16]) -> Answer {
    let (answer, named) = scan(part, text, array.len());
    if answer.refusal == 0 {
        named.put(array);
    }
    answer
}

/// What a reading answers for an array of so many words, and what the text names
/// up to the line that decides.
pub fn scan(part: u32, text: &[u8], words: usize) -> (Answer, Named) {
    let mut named = Named::default();
    if let Some(refusal) = refused_before(part, words) {
        return (Answer { refusal, number: 0 }, named);
    }
    let mut base = 0; // until the first 04 record
    let mut number = 0;
    let mut bytes = Vec::new();
    for line in lines(text) {
        number += 1;
        let refusal = refusal(line, base, 2 * words, &mut bytes);
        if refusal != 0 {
            return (Answer { refusal, number }, named);
        }
        // The line is one sound record: its length, offset, type, data and sum.
        let data = &bytes[4..bytes.len() - 1];
        match bytes[3] {
            END => return (Answer { refusal, number }, named),
            UPPER => base = pair(data[0], data[1]) * OFFSETS,
            _ => named.add(base + pair(bytes[1], bytes[2]), data),
        }
    }
    let refusal = NO_END;
    (Answer { refusal, number }, named)
}

/// The refusals that do not look at the text: "Refusals 1 to 3 come before an
/// added part's own". A part that is none has no length to compare with.
fn refused_before(part: u32, words: usize) -> Option<u32> {
    match Part::from_number(part) {
        None => Some(PART_NUMBER),
        Some(part) if part.array_length() != words => Some(ARRAY_LENGTH),
        Some(_) => None,
    }
}

/// "Lines end in LF or CR LF, the last may lack it". A CR anywhere else, at the
/// text's end too, is of its line.
fn lines(text: &[u8]) -> impl Iterator<Item = &[u8]> {
    let whole = text.split_inclusive(|&byte| byte == b'\n');
    whole.map(|line| match line {
        [record @ .., b'\r', b'\n'] | [record @ .., b'\n'] => record,
        record => record,
    })
}

/// The refusal of one line, "the lowest number within it", with the bytes of its
/// digit pairs; 0 for a sound record. `base` is the address that the last 04
/// record gave, `limit` the first byte address past the array.
fn refusal(line: &[u8], base: usize, limit: usize, bytes: &mut Vec<u8>) -> u32 {
    // "each line is one record and nothing else"
    if !decode(line, bytes) {
        return MALFORMED;
    }
    let [length, high, low, kind, data @ .., _] = &bytes[..] else {
        return MALFORMED;
    };
    if usize::from(*length) != data.len() {
        return MALFORMED;
    }
    let (offset, count) = (pair(*high, *low), data.len());
    // "A 04 record has two data bytes and offset 0"; "`:00000001FF`, the one
    // sound record of type 01"
    match *kind {
        END if (offset, count) != (0, 0) => return MALFORMED,
        UPPER if (offset, count) != (0, 2) => return MALFORMED,
        _ => {}
    }
    // "The byte sum of each record, its check byte included, comes to 0 as it
    // wraps at 256"
    let sum: u32 = bytes.iter().map(|&byte| u32::from(byte)).sum();
    let wrapped = sum % 256;
    if wrapped != 0 {
        return SUM;
    }
    if ![DATA, END, UPPER].contains(kind) {
        return TYPE;
    }
    let outside = count > 0 && base + offset + count > limit;
    if *kind == DATA && (offset + count > OFFSETS || outside) {
        return OUTSIDE;
    }
    0
}

/// A number of two bytes, the high one first, as offsets and 04 records have it.
fn pair(high: u8, low: u8) -> usize {
    usize::from(high) * 256 + usize::from(low)
}

/// A colon and then the bytes of digit pairs; false where the line is not that.
fn decode(line: &[u8], bytes: &mut Vec<u8>) -> bool {
    bytes.clear();
    let [b':', digits @ ..] = line else {
        return false;
    };
    for two in digits.chunks(2) {
        let [high, low] = two else {
            return false;
        };
        let (Some(high), Some(low)) = (digit(*high), digit(*low)) else {
            return false;
        };
        bytes.push(high * 16 + low);
    }
    true
}

/// "hex of either case".
fn digit(character: u8) -> Option<u8> {
    match character {
        b'0'..=b'9' => Some(character - b'0'),
        b'A'..=b'F' => Some(character - b'A' + 10),
        b'a'..=b'f' => Some(character - b'a' + 10),
        _ => None,
    }
}

/// Writes an array out into a text. A refused writing leaves the text; places
/// past the length written stay.
pub fn write(part: u32, array: &[u16], text: &mut [u8]) -> Answer {
    let number = 0;
    if let Some(refusal) = refused_before(part, array.len()) {
        return Answer { refusal, number };
    }
    let written = written(array);
    let Some(room) = text.get_mut(..written.len()) else {
        let refusal = TEXT_SHORT;
        return Answer { refusal, number };
    };
    room.copy_from_slice(&written);
    Answer {
        refusal: 0,
        number: written.len() as u64,
    }
}

/// The text of an array: "16 data bytes a record, lowest first, a 04 record
/// before each 65,536 bytes or a bench part's 32,768, the end record last".
pub fn written(array: &[u16]) -> Vec<u8> {
    let mut text = Vec::new();
    for (words, upper) in array.chunks(OFFSETS / 2).zip(0u16..) {
        add_record(&mut text, 0, UPPER, &upper.to_be_bytes());
        let data: Vec<u8> = words.iter().flat_map(|word| word.to_le_bytes()).collect();
        for (data, place) in data.chunks(RECORD_BYTES).zip(0u16..) {
            add_record(&mut text, place * RECORD_BYTES as u16, DATA, data);
        }
    }
    add_record(&mut text, 0, END, &[]);
    text
}

/// "upper case, LF after each record".
fn add_record(text: &mut Vec<u8>, offset: u16, kind: u8, data: &[u8]) {
    let [high, low] = offset.to_be_bytes();
    let head = [data.len() as u8, high, low, kind];
    let bytes = head.iter().chain(data);
    let sum: u32 = bytes.clone().map(|&byte| u32::from(byte)).sum();
    let check = ((256 - sum % 256) % 256) as u8;
    text.push(b':');
    for &byte in bytes.chain(&[check]) {
        text.push(b"0123456789ABCDEF"[usize::from(byte / 16)]);
        text.push(b"0123456789ABCDEF"[usize::from(byte % 16)]);
    }
    text.push(b'\n');
}
