//! What a text has in it, found in the text itself and not told by its author.

use super::tally::Tally;
use super::texts::OFFSETS;
use crate::second::geometry::Part;
use crate::second::hex::{scan, Answer, Named};

/// Features of accepted texts, and of refused ones.
pub const FEATURES: &[&str] = &[
    "a record of 0 bytes",
    "a record of 1 byte",
    "a record of 16 bytes",
    "a record of 17 to 254 bytes",
    "a record of 255 bytes",
    "an even first address",
    "an odd first address",
    "an odd address past the last byte",
    "a record up to the array's end",
    "a record up to offset 65,536",
    "a record of 0 bytes outside the array",
    "a record of 0 bytes at offset 65,535",
    "a 04 record of 0",
    "a 04 record of 1 to 255",
    "a 04 record of 256 to 511",
    "a 04 record of 512 or more",
    "data under a 04 record of 256 or more",
    "a 04 record lower than the one before",
    "addresses going down",
    "a byte named twice",
    "lower case",
    "upper case",
    "both cases in one line",
    "LF",
    "CR LF",
    "LF and CR LF",
    "no end of the last line",
    "text after the end record's line",
    "no data",
    "bytes named, then refused 10",
    "bytes named, then refused 11",
    "bytes named, then refused 12",
    "bytes named, then refused 13",
    "bytes named, then refused 14",
    "a refused first line",
    "a refused later line",
    "a refused line, then one of a lower refusal",
];

/// Counts the features of a text; a feature that it has several times counts once.
pub fn note(tally: &mut Tally, text: &[u8], answer: Answer, named: &Named, part: Part) {
    let mut found = [false; FEATURES.len()];
    let mut find = |name: &str| {
        let place = FEATURES.iter().position(|&feature| feature == name);
        found[place.expect("a feature of the list")] = true;
    };
    if answer.refusal != 0 {
        note_refused(answer, named, &mut find);
        note_later(text, answer, part, &mut find);
    } else {
        note_lines(text, answer, &mut find);
        note_records(text, answer, 2 * part.array_length(), &mut find);
        note_runs(named, &mut find);
    }
    for (name, _) in FEATURES.iter().zip(found).filter(|(_, found)| *found) {
        tally.feature(name);
    }
}

fn note_refused(answer: Answer, named: &Named, find: &mut impl FnMut(&str)) {
    if answer.number > 0 {
        find(match answer.number {
            1 => "a refused first line",
            _ => "a refused later line",
        });
    }
    if !named.runs().is_empty() {
        match answer.refusal {
            10 => find("bytes named, then refused 10"),
            11 => find("bytes named, then refused 11"),
            12 => find("bytes named, then refused 12"),
            13 => find("bytes named, then refused 13"),
            14 => find("bytes named, then refused 14"),
            _ => {}
        }
    }
}

/// The first bad record decides, whatever comes after it.
fn note_later(text: &[u8], answer: Answer, part: Part, find: &mut impl FnMut(&str)) {
    let read: usize = lines(text, answer).map(<[u8]>::len).sum();
    if (11..=13).contains(&answer.refusal) {
        let later = scan(part.number(), &text[read..], part.array_length()).0;
        if (10..answer.refusal).contains(&later.refusal) {
            find("a refused line, then one of a lower refusal");
        }
    }
}

/// The lines up to the one that decided.
fn lines(text: &[u8], answer: Answer) -> impl Iterator<Item = &[u8]> {
    text.split_inclusive(|&c| c == b'\n')
        .take(answer.number as usize)
}

fn note_lines(text: &[u8], answer: Answer, find: &mut impl FnMut(&str)) {
    let (mut lf, mut crlf) = (false, false);
    for line in lines(text, answer) {
        let lower = line.iter().any(u8::is_ascii_lowercase);
        let upper = line.iter().any(u8::is_ascii_uppercase);
        if lower {
            find("lower case");
        }
        if upper {
            find("upper case");
        }
        if lower && upper {
            find("both cases in one line");
        }
        crlf |= line.ends_with(b"\r\n");
        lf |= line.ends_with(b"\n") && !line.ends_with(b"\r\n");
    }
    if lf {
        find("LF");
    }
    if crlf {
        find("CR LF");
    }
    if lf && crlf {
        find("LF and CR LF");
    }
    let read: usize = lines(text, answer).map(<[u8]>::len).sum();
    if !text[..read].ends_with(b"\n") {
        find("no end of the last line");
    }
    if read < text.len() {
        find("text after the end record's line");
    }
}

fn note_records(text: &[u8], answer: Answer, bytes: usize, find: &mut impl FnMut(&str)) {
    let mut half = 0;
    for line in lines(text, answer) {
        let field = |from: usize, to: usize| {
            let digits = line[from..to].iter().map(|&c| (c as char).to_digit(16));
            digits.fold(0, |number, digit| 16 * number + digit.unwrap_or(0) as usize)
        };
        let (count, offset) = (field(1, 3), field(3, 7));
        match field(7, 9) {
            0 => note_data(half, offset, count, bytes, find),
            4 => {
                let new = field(9, 13);
                if new < half {
                    find("a 04 record lower than the one before");
                }
                half = new;
                find(match half {
                    0 => "a 04 record of 0",
                    1..=255 => "a 04 record of 1 to 255",
                    256..=511 => "a 04 record of 256 to 511",
                    _ => "a 04 record of 512 or more",
                });
            }
            _ => {}
        }
    }
}

fn note_data(half: usize, offset: usize, count: usize, bytes: usize, find: &mut impl FnMut(&str)) {
    let address = half * OFFSETS + offset;
    match count {
        0 => find("a record of 0 bytes"),
        1 => find("a record of 1 byte"),
        16 => find("a record of 16 bytes"),
        17..=254 => find("a record of 17 to 254 bytes"),
        255 => find("a record of 255 bytes"),
        _ => {}
    }
    if count == 0 {
        if address >= bytes {
            find("a record of 0 bytes outside the array");
        }
        if offset == OFFSETS - 1 {
            find("a record of 0 bytes at offset 65,535");
        }
        return;
    }
    find(match address % 2 {
        0 => "an even first address",
        _ => "an odd first address",
    });
    if (address + count) % 2 == 1 {
        find("an odd address past the last byte");
    }
    if address + count == bytes {
        find("a record up to the array's end");
    }
    if offset + count == OFFSETS {
        find("a record up to offset 65,536");
    }
    if half > 255 {
        find("data under a 04 record of 256 or more");
    }
}

fn note_runs(named: &Named, find: &mut impl FnMut(&str)) {
    let runs = named.runs();
    if runs.is_empty() {
        find("no data");
    }
    if runs.windows(2).any(|two| two[1].0 < two[0].0) {
        find("addresses going down");
    }
    let mut sorted = runs.to_vec();
    sorted.sort_unstable();
    if sorted.windows(2).any(|two| two[0].0 + two[0].1 > two[1].0) {
        find("a byte named twice");
    }
}
