//! Texts that need no chance: every byte of a short text replaced, dropped or
//! added, every cut, every type, length, check byte, offset and 04 record, pairs of
//! any two characters, long lines and many, and calls that are refused for their array or
//! part.

use super::pair::{refused_call, Compare, Pair};
use super::tally::Tally;
use super::texts::{line, mend, record, Case, Random, DATA, END, END_RECORD, UPPER};
use crate::second::geometry::Part;

/// Kinds of the texts here, with the answers that they have to reach.
pub const KINDS: &[(&str, &[u32])] = &[
    (EVERY_BYTE, &[0, 10, 11]),
    (EVERY_GAP, &[0, 10]),
    (EVERY_DROP, &[0, 10, 14]),
    (EVERY_CUT, &[0, 10, 14]),
    (EVERY_TYPE, &[0, 10, 11, 12, 13]),
    (EVERY_LENGTH, &[0, 10, 11]),
    (EVERY_CHECK, &[0, 11]),
    (EVERY_OFFSET, &[0, 13]),
    (EVERY_HALF, &[0, 13]),
    (EVERY_PAIR, &[10, 11]),
    (LONG_LINES, &[10]),
    (MANY_LINES, &[0, 10, 11, 12, 13, 14]),
    (WRONG_ARRAY, &[1]),
    (WRONG_PART, &[7]),
    (NO_TEXT, &[14]),
];

const EVERY_BYTE: &str = "fixed: every byte for every character";
const EVERY_GAP: &str = "fixed: a character added in every place";
const EVERY_DROP: &str = "fixed: every character dropped";
const EVERY_CUT: &str = "fixed: the text cut at every byte";
const EVERY_TYPE: &str = "fixed: every type";
const EVERY_LENGTH: &str = "fixed: every length";
const EVERY_CHECK: &str = "fixed: every check byte";
const EVERY_OFFSET: &str = "fixed: every offset";
const EVERY_HALF: &str = "fixed: every 04 record";
const EVERY_PAIR: &str = "fixed: every two characters";
const LONG_LINES: &str = "fixed: long lines";
const MANY_LINES: &str = "fixed: many lines";
const WRONG_ARRAY: &str = "fixed: array of another length";
const WRONG_PART: &str = "fixed: part above 3";
const NO_TEXT: &str = "fixed: no text";

type Checked = Result<(), String>;

/// Texts whose characters and cuts are all tried.
const SHORT: &[&[u8]] = &[
    b":0400000034127856E8\n:03000a00cdab99e2\r\n:00000001ff\nrubbish",
    b":020000040000FA\n:017FFF00AAD7\n:02000000AABB99\r\n:01000100CC32\n:00000001FF\n",
    b":0000000000\r\n:020000040001F9\r\n:0000000000\r\n:00000001FF\r\n:00000001FF\r\n",
    b":00000001FF",
];

/// Texts for calls that are refused before any of the text.
const CALLS: [&[u8]; 5] = [b"", b":00000001FF\n", SHORT[0], b"x", b":02FFFF00AABB9B\n"];

/// The words of a bench part's array, and of a full part's.
const BENCH: usize = 16_384;
const FULL: usize = 16_777_216;

/// Numbers above 3; the lower bits of some are a part's.
const NO_PARTS: [u32; 8] = [4, 5, 7, 255, 258, 65_538, 1 << 31, u32::MAX];

/// All of them on one part.
pub fn check(pair: &mut Pair) -> Checked {
    for text in SHORT {
        every_byte(pair, text)?;
        every_gap(pair, text)?;
        every_drop(pair, text)?;
        every_cut(pair, text)?;
    }
    every_type(pair)?;
    every_length(pair)?;
    every_check(pair)?;
    every_offset(pair)?;
    every_half(pair)?;
    every_pair(pair)?;
    long_lines(pair)?;
    many_lines(pair)?;
    pair.all_restored()
}

/// A few words are named, so on a full part these alone are compared.
fn try_text(pair: &mut Pair, kind: &'static str, text: &[u8]) -> Checked {
    pair.text(kind, text, Compare::Named).map(|_| ())
}

fn every_byte(pair: &mut Pair, text: &[u8]) -> Checked {
    let mut changed = text.to_vec();
    for place in 0..text.len() {
        for byte in 0..=255 {
            changed[place] = byte;
            try_text(pair, EVERY_BYTE, &changed)?;
        }
        changed[place] = text[place];
    }
    Ok(())
}

fn every_gap(pair: &mut Pair, text: &[u8]) -> Checked {
    for place in 0..=text.len() {
        for &byte in b"\r\n \t:0Ff/@G`g\0\xFF" {
            let mut changed = text.to_vec();
            changed.insert(place, byte);
            try_text(pair, EVERY_GAP, &changed)?;
            changed.insert(place, byte);
            try_text(pair, EVERY_GAP, &changed)?;
        }
        let mut changed = text.to_vec();
        changed.splice(place..place, *b"\r\n");
        try_text(pair, EVERY_GAP, &changed)?;
    }
    Ok(())
}

fn every_drop(pair: &mut Pair, text: &[u8]) -> Checked {
    for place in 0..text.len() {
        for end in place + 1..=text.len() {
            let mut changed = text.to_vec();
            changed.drain(place..end);
            try_text(pair, EVERY_DROP, &changed)?;
        }
    }
    Ok(())
}

/// The bytes past the cut are still there in memory, for a reader that goes on.
fn every_cut(pair: &mut Pair, text: &[u8]) -> Checked {
    for end in 0..=text.len() {
        try_text(pair, EVERY_CUT, &text[..end])?;
        for start in 0..end.min(14) {
            try_text(pair, EVERY_CUT, &text[start..end])?;
        }
    }
    Ok(())
}

/// A record and the end record, each on its line.
fn with_end(bytes: &[u8]) -> Vec<u8> {
    // Of one case, so nothing is drawn.
    let mut text = line(&mut Random::new(0), Case::Upper, bytes);
    text.push(b'\n');
    text.extend_from_slice(END_RECORD);
    text.push(b'\n');
    text
}

fn every_type(pair: &mut Pair) -> Checked {
    let data = [0x12, 0x34, 0x56, 0x78, 0x9A];
    for kind in 0..=255 {
        for count in 0..=data.len() {
            for offset in [0, 1, 0x7FFC, 0x8000, 0xFFFC, 0xFFFF] {
                let mut bytes = record(offset, kind, &data[..count]);
                try_text(pair, EVERY_TYPE, &with_end(&bytes))?;
                bytes[count + 4] ^= 1;
                try_text(pair, EVERY_TYPE, &with_end(&bytes))?;
            }
        }
    }
    Ok(())
}

fn every_length(pair: &mut Pair) -> Checked {
    let data = [0xA5; 260];
    for length in 0..=255 {
        let near = usize::from(length);
        let counts = [0, 1, 2, 16, near.max(1) - 1, near, near + 1, 254, 255, 256];
        for (count, kind) in counts
            .into_iter()
            .flat_map(|c| [(c, DATA), (c, UPPER), (c, END)])
        {
            let mut bytes = record(0, kind, &data[..count]);
            bytes[0] = length;
            mend(&mut bytes);
            try_text(pair, EVERY_LENGTH, &with_end(&bytes))?;
            bytes[count + 4] ^= 0x80;
            try_text(pair, EVERY_LENGTH, &with_end(&bytes))?;
        }
    }
    Ok(())
}

fn every_check(pair: &mut Pair) -> Checked {
    let records = [
        record(0x1234, DATA, &[0x56, 0x78, 0x9A]),
        record(0x0002, DATA, &[0xFF; 255]),
        record(0, UPPER, &[0, 0]),
        record(0, END, &[]),
    ];
    for mut bytes in records {
        for check in 0..=255 {
            let last = bytes.len() - 1;
            bytes[last] = check;
            try_text(pair, EVERY_CHECK, &with_end(&bytes))?;
        }
    }
    Ok(())
}

fn every_offset(pair: &mut Pair) -> Checked {
    for offset in 0..=0xFFFF {
        let count = 1 + offset % 5;
        let data = [0x3C, offset as u8, 0xC3, 0x5A, 0xA5];
        try_text(
            pair,
            EVERY_OFFSET,
            &with_end(&record(offset, DATA, &data[..count])),
        )?;
    }
    Ok(())
}

fn every_half(pair: &mut Pair) -> Checked {
    for half in 0..=0xFFFFu16 {
        let mut text = with_end(&record(0, UPPER, &half.to_be_bytes()));
        text.truncate(16);
        // The last byte under the highest half is the last that 32 bits count.
        let offset = [0, 1, 0x7FFF, 0xFFFF][usize::from(half % 4)];
        text.extend(with_end(&record(offset, DATA, &[half as u8])));
        try_text(pair, EVERY_HALF, &text)?;
    }
    Ok(())
}

/// Every two characters as a data byte, every third of them as a length.
fn every_pair(pair: &mut Pair) -> Checked {
    let mut data = with_end(&record(0, DATA, &[0x11]));
    let mut length = with_end(&record(0, DATA, &[0x22; 16]));
    for two in 0..=0xFFFFu16 {
        let two = two.to_be_bytes();
        data[9..11].copy_from_slice(&two);
        try_text(pair, EVERY_PAIR, &data)?;
        if two[1] % 3 == 0 {
            length[1..3].copy_from_slice(&two);
            try_text(pair, EVERY_PAIR, &length)?;
        }
    }
    Ok(())
}

/// Lines with more data than a length can tell, with lengths that are right as far
/// as they go.
fn long_lines(pair: &mut Pair) -> Checked {
    let counts = [
        256, 257, 258, 260, 511, 512, 514, 65_535, 65_536, 65_538, 131_072,
    ];
    for count in counts {
        for kind in [DATA, END, UPPER, 0x02] {
            let mut bytes = record(0, kind, &vec![0; count]);
            try_text(pair, LONG_LINES, &with_end(&bytes))?;
            bytes[count + 4] ^= 1;
            try_text(pair, LONG_LINES, &with_end(&bytes))?;
        }
    }
    Ok(())
}

/// Lines past what 16 bits count, and each answer after them.
fn many_lines(pair: &mut Pair) -> Checked {
    let last: [&[u8]; 7] = [
        b":00000001FF\n",
        b":00000001FF",
        b"\n",
        b":00000001FE\n",
        b":00000006FA\n",
        b":02FFFF00AABB9B\n",
        b"",
    ];
    for count in [255, 256, 65_534, 65_535, 65_536, 70_000] {
        let text = b":0100000011EE\r\n".repeat(count);
        for last in last {
            let text = [&text[..], last].concat();
            try_text(pair, MANY_LINES, &text)?;
        }
    }
    Ok(())
}

/// Calls that are refused for their array or their part, and calls without text.
pub fn check_calls(tally: &mut Tally) -> Checked {
    for part in Part::ALL {
        let words = part.array_length();
        let others = [
            0,
            1,
            words - 1,
            words + 1,
            words / 2,
            2 * words,
            BENCH,
            FULL,
        ];
        for other in others.into_iter().filter(|&other| other != words) {
            // Memory of a full part's length costs more than the call.
            let tried = if other > BENCH * 4 { 1..3 } else { 0..5 };
            for text in &CALLS[tried] {
                refused_call(tally, WRONG_ARRAY, (part.number(), other), text)?;
            }
        }
    }
    for part in NO_PARTS {
        for text in CALLS {
            for words in [0, 1, BENCH] {
                refused_call(tally, WRONG_PART, (part, words), text)?;
            }
        }
    }
    refused_call(tally, WRONG_PART, (4, FULL), CALLS[1])?;
    check_nothing(tally)
}

/// Null pointers with the count 0.
fn check_nothing(tally: &mut Tally) -> Checked {
    use super::library;
    use crate::second::hex;
    for part in 0..6 {
        let due = hex::scan(part, b"", 0).0;
        let given = [
            library::read_borrowed(part, None, None),
            library::read_borrowed(part, Some(b"x"), None),
        ];
        if given != [library::number(due); 2] {
            return Err(format!(
                "part {part}, no array: {}",
                library::text(given[0])
            ));
        }
        let kind = if part < 4 { WRONG_ARRAY } else { WRONG_PART };
        tally.text(kind, due);
    }
    for part in [2, 3] {
        let mut array = vec![0x1234; BENCH];
        let due = hex::scan(part, b"", array.len()).0;
        let given = library::read_borrowed(part, None, Some(&mut array));
        if given != library::number(due) || array.iter().any(|&word| word != 0x1234) {
            return Err(format!("part {part}, no text: {}", library::text(given)));
        }
        tally.text(NO_TEXT, due);
    }
    Ok(())
}
