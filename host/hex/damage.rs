//! Damaged texts of Intel HEX. Each kind of damage is done to one line of a text
//! that was accepted, and tells the answers that it has to reach.

#![allow(dead_code)] // a program that takes this module in need not use all of it

use super::texts::{line, mend, record, Case, Draft, Line, Random};
use super::texts::{DATA, END, END_RECORD, OFFSETS, UPPER};

/// A kind of damage. `due` are the refusals that its texts have to be given, each
/// of them often; 0 is for texts that are accepted.
pub struct Damage {
    pub name: &'static str,
    pub due: &'static [u32],
    apply: fn(&mut Random, &mut Draft, usize),
}

/// The kinds, each with its answers and what it does to line `at`.
macro_rules! damages {
    ($($name:literal, $due:expr, $apply:expr;)*) => {
        pub const DAMAGES: &[Damage] = &[
            $(Damage { name: $name, due: &$due, apply: $apply },)*
        ];
    };
}

damages! {
    // characters
    "any byte for a character", [10, 11], |r, d, at| replace(r, d, at, any_byte);
    "another digit for a digit", [10, 11], |r, d, at| replace_digit(r, d, at, other_digit);
    "a neighbour of the digits for a digit", [10], |r, d, at| replace_digit(r, d, at, neighbour);
    "a letter for a digit", [10], |r, d, at| replace_digit(r, d, at, letter);
    "one bit of a character", [10, 11], |r, d, at| replace(r, d, at, flipped);
    "the other case of a letter", [0], |r, d, at| replace(r, d, at, |_, old| other_case(old));
    "a character missing", [10], character_missing;
    "a character twice", [10], character_twice;
    "two characters swapped", [0, 10, 11], characters_swapped;
    "a digit added", [10], |r, d, at| add(r, d, at, b"0123456789ABCDEFabcdef", 1);
    "two digits added", [10], |r, d, at| add(r, d, at, b"0123456789ABCDEFabcdef", 2);
    "two digits missing", [10], pair_missing;
    "a space or a tab added", [10], |r, d, at| add(r, d, at, b" \t", 1);
    "a control or high byte added", [10], |r, d, at| add(r, d, at, b"\0\x0B\x7F\x80\xFF\xA0", 1);
    "a colon added", [10], |r, d, at| add(r, d, at, b":", 1);
    "no colon", [10], no_mark;
    "another character for the colon", [10], other_mark;
    "space at the line's end", [10], |_, d, at| d.lines[at].text.push(b' ');

    // lines
    "an empty line", [10], |_, d, at| d.insert(at, Vec::new(), b"\n");
    "an empty line of CR LF", [10], |_, d, at| d.insert(at, Vec::new(), b"\r\n");
    "a line of a space", [10], |_, d, at| d.insert(at, b" ".to_vec(), b"\n");
    "a CR in the line", [10], |r, d, at| add(r, d, at, b"\r", 1);
    "CR before the line", [10], |_, d, at| d.lines[at].text.insert(0, b'\r');
    "CR CR LF", [10], |_, d, at| d.lines[at].end = b"\r\r\n";
    "LF CR", [0, 10], |_, d, at| d.lines[at].end = b"\n\r";
    "CR for a line's end", [10], |_, d, at| d.lines[at].end = b"\r";
    "CR at the text's end", [10], |_, d, at| d.cut_after(at, b"\r");
    "CR LF for LF or LF for CR LF", [0], |_, d, at| d.lines[at].end = other_end(d.lines[at].end);
    "a line's end missing", [0, 10], |_, d, at| d.lines[at].end = b"";
    "a line broken in two", [10], line_broken;
    "the first characters of a line only", [10], |r, d, at| shorten(r, d, at);
    "the text cut", [10, 14], cut;
    "the text cut after a line", [0, 14], |_, d, at| d.cut_after(at, b"\n");
    "the text cut before a line's end", [0, 14], |_, d, at| d.cut_after(at, b"");
    "a line missing", [0, 14], |_, d, at| { d.lines.remove(at); };
    "a line twice", [0], line_twice;
    "two lines swapped", [0], lines_swapped;

    // lengths and sums
    "the check byte off", [11], |r, d, at| d.change(r, at, |r, bytes| spoil(r, bytes));
    "a data byte off", [11], |r, d, at| d.change(r, at, |r, bytes| byte_off(r, bytes));
    "the check byte missing", [10], |r, d, at| d.change(r, at, |_, bytes| { bytes.pop(); });
    "another length, good sum", [10], |r, d, at| other_length(r, d, at, true);
    "another length, wrong sum", [10], |r, d, at| other_length(r, d, at, false);
    "a data byte more, good sum", [10], byte_more;
    "a data byte less, good sum", [10], byte_less;
    "the first four bytes of a record only", [10], |r, d, at| d.change(r, at, |_, b| b.truncate(4));
    "check byte 0", [11], |_, d, at| zero_check(d, at);

    // types
    "type 02, good sum", [12], |r, d, at| put_type(r, d, at, 0x02, 2, true);
    "type 03, good sum", [12], |r, d, at| put_type(r, d, at, 0x03, 4, true);
    "type 05, good sum", [12], |r, d, at| put_type(r, d, at, 0x05, 4, true);
    "type 02, 03 or 05, wrong sum", [11], known_type_wrong;
    "a type above 05, good sum", [12], |r, d, at| high_type(r, d, at, true);
    "a type above 05, wrong sum", [11], |r, d, at| high_type(r, d, at, false);
    "another type in a record, good sum", [10, 12], |r, d, at| change_type(r, d, at, true);
    "another type in a record, wrong sum", [10, 11], |r, d, at| change_type(r, d, at, false);
    "other type outside, good sum", [12], |r, d, at| type_outside(r, d, at, true);
    "other type outside, wrong sum", [11], |r, d, at| type_outside(r, d, at, false);
    "other type, other length, good sum", [10], type_and_length;

    // 01 and 04
    "01 of other offset, good sum", [10], |r, d, at| end_offset(r, d, at, true);
    "01 of other offset, wrong sum", [10], |r, d, at| end_offset(r, d, at, false);
    "01 of other length, good sum", [10], |r, d, at| end_length(r, d, at, true);
    "01 of other length, wrong sum", [10], |r, d, at| end_length(r, d, at, false);
    "01 with a wrong sum", [11], |r, d, at| put(r, d, at, 0, END, &[], false);
    "04 of other offset, good sum", [10], |r, d, at| upper_offset(r, d, at, true);
    "04 of other offset, wrong sum", [10], |r, d, at| upper_offset(r, d, at, false);
    "04 of other length, good sum", [10], |r, d, at| upper_length(r, d, at, true);
    "04 of other length, wrong sum", [10], |r, d, at| upper_length(r, d, at, false);
    "04 with a wrong sum", [11], |r, d, at| put(r, d, at, 0, UPPER, &[0, 0], false);
    "04 outside the array", [0, 13], upper_outside;
    "04 of any half", [0, 13], upper_any;

    // places
    "past the array, good sum", [13], |r, d, at| past_array(r, d, at, true);
    "past the array, wrong sum", [11], |r, d, at| past_array(r, d, at, false);
    "past offset 65,536, good sum", [13], |r, d, at| past_offset(r, d, at, true);
    "past offset 65,536, wrong sum", [11], |r, d, at| past_offset(r, d, at, false);
    "past offset 65,536 and the array", [13], past_both;
    "past the array, other length", [10], past_and_length;
    "any offset in a record, good sum", [0, 13], any_offset;
    "no bytes, anywhere", [0], nothing_anywhere;

    // the end record
    "no end record", [14], |_, d, _| end_missing(d);
    "no end record, more lines", [10, 14], end_missing_more;
    "an end record early", [0], |_, d, at| d.insert(at, END_RECORD.to_vec(), b"\n");
    "more on the end record's line", [10], end_and_more;
    "more after the end record's line", [0], after_end;
    "no line but the end record", [0], |_, d, _| { d.lines = d.lines.split_off(d.lines.len() - 1) };
}

impl Damage {
    /// Damages line `at`, or the last where a damage before left fewer lines.
    pub fn to(&self, random: &mut Random, draft: &mut Draft, at: usize) {
        if let Some(last) = draft.lines.len().checked_sub(1) {
            (self.apply)(random, draft, at.min(last));
        }
    }
}

impl Draft {
    fn insert(&mut self, at: usize, text: Vec<u8>, end: &'static [u8]) {
        self.lines.insert(at, Line { text, end });
    }

    /// The text ends with line `at`, and with that as its end.
    fn cut_after(&mut self, at: usize, end: &'static [u8]) {
        self.lines.truncate(at + 1);
        self.lines[at].end = end;
        self.rest.clear();
    }

    /// Changes the bytes of a line that holds pairs of digits, else nothing.
    fn change(
        &mut self,
        random: &mut Random,
        at: usize,
        f: impl FnOnce(&mut Random, &mut Vec<u8>),
    ) {
        if let Some(mut bytes) = decoded(&self.lines[at].text) {
            f(random, &mut bytes);
            self.lines[at].text = line(random, Case::Mixed, &bytes);
        }
    }
}

/// The bytes of a record's line, where it has a byte for each field at least.
fn decoded(text: &[u8]) -> Option<Vec<u8>> {
    let digits = std::str::from_utf8(text.strip_prefix(b":")?).ok()?;
    let pairs = digits.as_bytes().chunks(2);
    let bytes: Option<Vec<u8>> = pairs
        .map(|pair| u8::from_str_radix(std::str::from_utf8(pair).ok()?, 16).ok())
        .collect();
    bytes.filter(|bytes| bytes.len() >= 5)
}

/// Makes the check byte wrong.
fn spoil(random: &mut Random, bytes: &mut [u8]) {
    let off = match random.below(3) {
        0 => 1,
        1 => 255,
        _ => 1 + random.below(255) as u8,
    };
    if let Some(check) = bytes.last_mut() {
        *check = check.wrapping_add(off);
    }
}

/// A good sum, or a wrong one.
fn settle(random: &mut Random, bytes: &mut [u8], good: bool) {
    mend(bytes);
    if !good {
        spoil(random, bytes);
    }
}

/// A record before line `at`.
fn put(r: &mut Random, d: &mut Draft, at: usize, offset: usize, kind: u8, data: &[u8], good: bool) {
    let mut bytes = record(offset, kind, data);
    settle(r, &mut bytes, good);
    let text = line(r, Case::Mixed, &bytes);
    d.insert(at, text, b"\n");
}

fn replace(r: &mut Random, d: &mut Draft, at: usize, by: fn(&mut Random, u8) -> u8) {
    let text = &mut d.lines[at].text;
    if !text.is_empty() {
        let place = r.below(text.len());
        text[place] = by(r, text[place]);
    }
}

fn replace_digit(r: &mut Random, d: &mut Draft, at: usize, by: fn(&mut Random, u8) -> u8) {
    let text = &mut d.lines[at].text;
    if text.len() > 1 {
        let place = 1 + r.below(text.len() - 1);
        text[place] = by(r, text[place]);
    }
}

fn no_mark(_: &mut Random, d: &mut Draft, at: usize) {
    let text = &mut d.lines[at].text;
    text.drain(..text.len().min(1));
}

fn other_mark(r: &mut Random, d: &mut Draft, at: usize) {
    if let Some(mark) = d.lines[at].text.first_mut() {
        *mark = r.pick(b";9 .S\0/");
    }
}

fn any_byte(r: &mut Random, _: u8) -> u8 {
    r.byte()
}

fn other_digit(r: &mut Random, old: u8) -> u8 {
    let new = r.pick(b"0123456789ABCDEF");
    if new.eq_ignore_ascii_case(&old) {
        return if old == b'0' { b'1' } else { b'0' };
    }
    new
}

/// The characters just outside the ranges of digits.
fn neighbour(r: &mut Random, _: u8) -> u8 {
    r.pick(b"/:@G`g")
}

fn letter(r: &mut Random, _: u8) -> u8 {
    r.pick(b"GHIJKLMNOPQRSTUVWXYZghijklmnopqrstuvwxyz")
}

fn flipped(r: &mut Random, old: u8) -> u8 {
    old ^ 1 << r.below(8)
}

fn other_case(old: u8) -> u8 {
    if old.is_ascii_alphabetic() {
        old ^ 0x20
    } else {
        old
    }
}

fn character_missing(r: &mut Random, d: &mut Draft, at: usize) {
    let text = &mut d.lines[at].text;
    if !text.is_empty() {
        text.remove(r.below(text.len()));
    }
}

fn character_twice(r: &mut Random, d: &mut Draft, at: usize) {
    let text = &mut d.lines[at].text;
    if !text.is_empty() {
        let place = r.below(text.len());
        text.insert(place, text[place]);
    }
}

fn characters_swapped(r: &mut Random, d: &mut Draft, at: usize) {
    let text = &mut d.lines[at].text;
    if text.len() > 1 {
        let place = r.below(text.len() - 1);
        text.swap(place, place + 1);
    }
}

/// So many characters out of `from`, in one place after the first.
fn add(r: &mut Random, d: &mut Draft, at: usize, from: &[u8], count: usize) {
    let text = &mut d.lines[at].text;
    let place = 1 + r.below(text.len().max(1));
    for _ in 0..count {
        text.insert(place.min(text.len()), r.pick(from));
    }
}

fn pair_missing(r: &mut Random, d: &mut Draft, at: usize) {
    let text = &mut d.lines[at].text;
    if text.len() > 3 {
        let place = 1 + r.below(text.len() - 2);
        text.drain(place..place + 2);
    }
}

fn other_end(end: &[u8]) -> &'static [u8] {
    match end {
        b"\n" => b"\r\n",
        b"\r\n" => b"\n",
        _ => b"",
    }
}

fn line_broken(r: &mut Random, d: &mut Draft, at: usize) {
    let text = &mut d.lines[at].text;
    if text.len() > 1 {
        let rest = text.split_off(1 + r.below(text.len() - 1));
        let end = d.lines[at].end;
        d.lines[at].end = r.pick(&[&b"\n"[..], b"\r\n"]);
        d.insert(at + 1, rest, end);
    }
}

fn shorten(r: &mut Random, d: &mut Draft, at: usize) {
    let text = &mut d.lines[at].text;
    text.truncate(r.below(text.len().clamp(1, 12)));
}

/// Cuts the text in line `at`, in the line's end too.
fn cut(r: &mut Random, d: &mut Draft, at: usize) {
    let Line { text, end } = d.lines[at].clone();
    let place = r.below(text.len() + end.len() + 1);
    d.cut_after(at, &end[..place.saturating_sub(text.len())]);
    d.lines[at].text.truncate(place);
}

fn line_twice(r: &mut Random, d: &mut Draft, at: usize) {
    let again = d.lines[at].clone();
    let place = r.below(at + 1);
    d.lines.insert(place, again);
}

fn lines_swapped(r: &mut Random, d: &mut Draft, at: usize) {
    // The end record stays where it is.
    let others = d.lines.len() - 1;
    if others > 0 {
        d.lines.swap(at.min(others - 1), r.below(others));
    }
}

/// A byte between the first and the check byte; one of offset, type or data.
fn byte_off(r: &mut Random, bytes: &mut [u8]) {
    let data = bytes.len() - 5;
    if data > 0 {
        let place = 4 + r.below(data);
        bytes[place] = bytes[place].wrapping_add(1 + r.below(255) as u8);
    }
}

fn other_length(r: &mut Random, d: &mut Draft, at: usize, good: bool) {
    d.change(r, at, |r, bytes| {
        let drawn = 1 + r.below(255) as u8;
        let off = r.pick(&[1, 255, drawn]);
        bytes[0] = bytes[0].wrapping_add(off);
        settle(r, bytes, good);
    });
}

fn byte_more(r: &mut Random, d: &mut Draft, at: usize) {
    d.change(r, at, |r, bytes| {
        bytes.insert(4, r.byte());
        mend(bytes);
    });
}

fn byte_less(r: &mut Random, d: &mut Draft, at: usize) {
    d.change(r, at, |_, bytes| {
        bytes.remove(4.min(bytes.len() - 2));
        mend(bytes);
    });
}

fn zero_check(d: &mut Draft, at: usize) {
    let text = &mut d.lines[at].text;
    let length = text.len();
    if length > 2 {
        text[length - 2..].fill(b'0');
    }
}

fn put_type(r: &mut Random, d: &mut Draft, at: usize, kind: u8, count: usize, good: bool) {
    let data = r.bytes(count);
    put(r, d, at, 0, kind, &data, good);
}

fn known_type_wrong(r: &mut Random, d: &mut Draft, at: usize) {
    let (kind, count) = r.pick(&[(0x02, 2), (0x03, 4), (0x05, 4)]);
    put_type(r, d, at, kind, count, false);
}

fn high_type(r: &mut Random, d: &mut Draft, at: usize, good: bool) {
    let drawn = r.byte().max(6);
    let kind = r.pick(&[0x06, 0x10, 0x14, 0x40, 0x80, 0x84, 0xFF, drawn, drawn]);
    let count = r.below(20);
    put_type(r, d, at, kind, count, good);
}

/// Any other type; 01 and 04 too, which then have another offset or length.
fn change_type(r: &mut Random, d: &mut Draft, at: usize, good: bool) {
    d.change(r, at, |r, bytes| {
        let drawn = 1 + r.below(255) as u8;
        let off = r.pick(&[1, 2, 3, 4, 5, drawn]);
        bytes[3] = bytes[3].wrapping_add(off);
        settle(r, bytes, good);
    });
}

/// A record of another type, where a data record would be refused 13.
fn type_outside(r: &mut Random, d: &mut Draft, at: usize, good: bool) {
    let kind = r.pick(&[0x02, 0x03, 0x05, 0x06, 0xFF]);
    let count = 2 + r.below(8);
    let data = r.bytes(count);
    put(r, d, at, OFFSETS - 1, kind, &data, good);
}

fn type_and_length(r: &mut Random, d: &mut Draft, at: usize) {
    put_type(r, d, at, 0x06, 4, true);
    other_length(r, d, at, true);
}

fn not_0(r: &mut Random) -> usize {
    let drawn = 1 + r.below(OFFSETS - 1);
    r.pick(&[1, 0x100, 0xFFFF, 0x8000, drawn])
}

fn end_offset(r: &mut Random, d: &mut Draft, at: usize, good: bool) {
    let offset = not_0(r);
    put(r, d, at, offset, END, &[], good);
}

fn end_length(r: &mut Random, d: &mut Draft, at: usize, good: bool) {
    let drawn = 1 + r.below(255);
    let count = r.pick(&[1, 2, 4, 255, drawn]);
    put_type(r, d, at, END, count, good);
}

fn upper_offset(r: &mut Random, d: &mut Draft, at: usize, good: bool) {
    let offset = not_0(r);
    put(r, d, at, offset, UPPER, &[0, 0], good);
}

fn upper_length(r: &mut Random, d: &mut Draft, at: usize, good: bool) {
    let drawn = 3 + r.below(253);
    let count = r.pick(&[0, 1, 3, 4, 255, drawn]);
    put(r, d, at, 0, UPPER, &[0; 255][..count], good);
}

fn upper_outside(r: &mut Random, d: &mut Draft, at: usize) {
    let halves = d.bytes.div_ceil(OFFSETS);
    let drawn = halves + r.below(OFFSETS - halves);
    let half = r.pick(&[halves, drawn, 0xFFFF, 0x8000]);
    put(r, d, at, 0, UPPER, &(half as u16).to_be_bytes(), true);
}

fn upper_any(r: &mut Random, d: &mut Draft, at: usize) {
    let half = r.below(OFFSETS) >> r.below(16);
    put(r, d, at, 0, UPPER, &(half as u16).to_be_bytes(), true);
}

/// Past the array and not past offset 65,536: on a full part under a 04 record
/// that lies outside, on a bench part also from inside on.
fn past_array(r: &mut Random, d: &mut Draft, at: usize, good: bool) {
    let count = 1 + r.below(20);
    let data = r.bytes(count);
    let highest = OFFSETS - count;
    if d.bytes < OFFSETS && r.one_in(2) {
        let lowest = d.bytes + 1 - count;
        let drawn = lowest + r.below(highest + 1 - lowest);
        let offset = r.pick(&[lowest, d.bytes, d.bytes - 1, lowest + 1, highest, drawn]);
        put(r, d, at, offset.max(lowest), DATA, &data, good);
        put(r, d, at, 0, UPPER, &[0, 0], true);
    } else {
        let drawn = r.below(highest + 1);
        let offset = r.pick(&[0, 1, highest, drawn]);
        put(r, d, at, offset, DATA, &data, good);
        upper_outside(r, d, at);
    }
}

/// Past offset 65,536, and on a full part not past the array.
fn past_offset(r: &mut Random, d: &mut Draft, at: usize, good: bool) {
    let count = 2 + r.below(20);
    let data = r.bytes(count);
    let lowest = OFFSETS + 1 - count;
    let drawn = lowest + r.below(count - 1);
    let offset = r.pick(&[lowest, OFFSETS - 1, drawn]);
    put(r, d, at, offset, DATA, &data, good);
    let half = r.below(d.bytes.div_ceil(OFFSETS).max(2) - 1) as u16;
    put(r, d, at, 0, UPPER, &half.to_be_bytes(), true);
}

fn past_both(r: &mut Random, d: &mut Draft, at: usize) {
    let count = 2 + r.below(254);
    let data = r.bytes(count);
    let offset = OFFSETS + 1 - count + r.below(count - 1);
    put(r, d, at, offset, DATA, &data, true);
    let last = d.bytes.div_ceil(OFFSETS) as u16 - 1;
    put(r, d, at, 0, UPPER, &last.to_be_bytes(), true);
}

fn past_and_length(r: &mut Random, d: &mut Draft, at: usize) {
    put(r, d, at, OFFSETS - 1, DATA, &[1, 2, 3], true);
    other_length(r, d, at, true);
}

/// Another offset in a record of data; other records are left.
fn any_offset(r: &mut Random, d: &mut Draft, at: usize) {
    d.change(r, at, |r, bytes| {
        if bytes[3] == DATA {
            (bytes[1], bytes[2]) = (r.byte(), r.byte());
            mend(bytes);
        }
    });
}

fn nothing_anywhere(r: &mut Random, d: &mut Draft, at: usize) {
    let drawn = r.below(OFFSETS);
    let offset = r.pick(&[0, 0x8000, OFFSETS - 1, drawn]);
    put(r, d, at, offset, DATA, &[], true);
}

fn end_missing(d: &mut Draft) {
    d.lines.pop();
    d.rest.clear();
}

fn end_missing_more(r: &mut Random, d: &mut Draft, _: usize) {
    end_missing(d);
    d.rest = r
        .pick(&[
            &b"\n"[..],
            b":",
            b":0000000000",
            b":0100000011EE\r\n",
            b"\r",
        ])
        .to_vec();
}

fn end_and_more(r: &mut Random, d: &mut Draft, _: usize) {
    let last = d.lines.len() - 1;
    let more = [
        &b" "[..],
        b"0",
        b"00",
        b"rubbish",
        b":00000001FF",
        b"\r",
        b"\0",
        b";",
    ];
    d.lines[last].text.extend_from_slice(r.pick(&more));
}

fn after_end(r: &mut Random, d: &mut Draft, _: usize) {
    let last = d.lines.len() - 1;
    d.lines[last].end = r.pick(&[&b"\n"[..], b"\r\n"]);
    let count = 1 + r.below(60);
    let drawn = r.bytes(count);
    let more = [
        &b"\n\n"[..],
        b"\r",
        b"rubbish\n",
        b":0100000011EE\n",
        b":00000001FF",
        &drawn,
    ];
    d.rest = r.pick(&more).to_vec();
}
