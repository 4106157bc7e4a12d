//! Random texts of Intel HEX that a part accepts, by document 02, item 3: records
//! of every length and place, of either case, with either end of a line.

#![allow(dead_code)] // a program that takes this module in need not use all of it

/// xorshift64*: the same texts on every machine.
pub struct Random(u64);

impl Random {
    pub fn new(seed: u64) -> Random {
        // Seeds that follow each other begin far apart, and none begins at 0.
        Random((seed.wrapping_mul(0x9E37_79B9_7F4A_7C15) ^ 0xD1B5_4A32_D192_ED03) | 1)
    }

    pub fn next(&mut self) -> u64 {
        self.0 ^= self.0 >> 12;
        self.0 ^= self.0 << 25;
        self.0 ^= self.0 >> 27;
        self.0.wrapping_mul(0x2545_F491_4F6C_DD1D)
    }

    /// A number below `limit`, which is not 0.
    pub fn below(&mut self, limit: usize) -> usize {
        (((self.next() >> 32) * limit as u64) >> 32) as usize
    }

    pub fn one_in(&mut self, limit: usize) -> bool {
        self.below(limit) == 0
    }

    pub fn byte(&mut self) -> u8 {
        (self.next() >> 56) as u8
    }

    pub fn pick<T: Copy>(&mut self, from: &[T]) -> T {
        from[self.below(from.len())]
    }

    pub fn bytes(&mut self, count: usize) -> Vec<u8> {
        (0..count).map(|_| self.byte()).collect()
    }

    pub fn fill(&mut self, array: &mut [u16]) {
        for words in array.chunks_mut(4) {
            let drawn = self.next();
            for (place, word) in words.iter_mut().enumerate() {
                *word = (drawn >> (16 * place)) as u16;
            }
        }
    }
}

pub const END_RECORD: &[u8] = b":00000001FF";
pub const DATA: u8 = 0x00;
pub const END: u8 = 0x01;
pub const UPPER: u8 = 0x04;

/// The bytes under one 04 record.
pub const OFFSETS: usize = 65_536;

/// A line and what ends it.
#[derive(Clone)]
pub struct Line {
    pub text: Vec<u8>,
    pub end: &'static [u8],
}

/// A text in lines, with what follows them.
#[derive(Clone)]
pub struct Draft {
    pub lines: Vec<Line>,
    pub rest: Vec<u8>,
    /// The bytes of the part's array.
    pub bytes: usize,
}

impl Draft {
    pub fn text(&self) -> Vec<u8> {
        let mut text = Vec::with_capacity(64 * self.lines.len() + self.rest.len());
        for line in &self.lines {
            text.extend_from_slice(&line.text);
            text.extend_from_slice(line.end);
        }
        text.extend_from_slice(&self.rest);
        text
    }
}

/// The bytes of a record: length, offset, type, data, and the check byte.
pub fn record(offset: usize, kind: u8, data: &[u8]) -> Vec<u8> {
    let mut bytes = vec![data.len() as u8, (offset >> 8) as u8, offset as u8, kind];
    bytes.extend_from_slice(data);
    bytes.push(0);
    mend(&mut bytes);
    bytes
}

/// Makes the check byte right.
pub fn mend(bytes: &mut [u8]) {
    if let Some((check, before)) = bytes.split_last_mut() {
        let sum = before.iter().fold(0u8, |sum, &byte| sum.wrapping_add(byte));
        *check = sum.wrapping_neg();
    }
}

/// How the letters among the digits are written.
#[derive(Clone, Copy)]
pub enum Case {
    Upper,
    Lower,
    Mixed,
}

/// A record's line, without its end.
pub fn line(random: &mut Random, case: Case, bytes: &[u8]) -> Vec<u8> {
    let mut text = vec![b':'];
    for digit in bytes.iter().flat_map(|byte| [byte >> 4, byte & 0xF]) {
        let lower = match case {
            Case::Upper => false,
            Case::Lower => true,
            Case::Mixed => digit > 9 && random.one_in(2),
        };
        text.push(match (digit, lower) {
            (0..=9, _) => b'0' + digit,
            (_, false) => b'A' + digit - 10,
            (_, true) => b'a' + digit - 10,
        });
    }
    text
}

/// What the last data record named, for records that lie on or beside it.
struct Writer<'a> {
    random: &'a mut Random,
    bytes: usize,
    upper: usize,
    last: usize,
    last_count: usize,
}

/// A text that is accepted on a part whose array has so many bytes.
pub fn accepted(random: &mut Random, bytes: usize) -> Draft {
    let count = match random.below(8) {
        0 => random.below(3),
        1..=5 => 1 + random.below(6),
        6 => 4 + random.below(12),
        _ => random.below(40),
    };
    let case = random.pick(&[Case::Upper, Case::Lower, Case::Mixed, Case::Mixed]);
    let ends: [&'static [u8]; 2] = match random.below(3) {
        0 => [b"\n", b"\n"],
        1 => [b"\r\n", b"\r\n"],
        _ => [b"\n", b"\r\n"],
    };
    let mut writer = Writer::new(random, bytes);
    let mut records: Vec<Vec<u8>> = (0..count).map(|_| writer.record()).collect();
    records.push(record(0, END, &[]));
    let mut lines = Vec::with_capacity(records.len() + 2);
    for bytes in records {
        let text = line(random, case, &bytes);
        let end = random.pick(&ends);
        lines.push(Line { text, end });
    }
    let rest = rest(random);
    if rest.is_empty() && random.one_in(3) {
        let last = lines.len() - 1;
        lines[last].end = b"";
    }
    Draft { lines, rest, bytes }
}

/// What may follow the end record's line: "what follows is ignored".
fn rest(random: &mut Random) -> Vec<u8> {
    match random.below(12) {
        0 => b"\n".to_vec(),
        1 => b"rubbish".to_vec(),
        2 => b":00000001FF\r\n".to_vec(),
        3 => b"\r".to_vec(),
        4 => {
            let data = random.bytes(4);
            line(random, Case::Upper, &record(0, DATA, &data))
        }
        5 => {
            let count = random.below(40);
            random.bytes(count)
        }
        _ => Vec::new(),
    }
}

impl Writer<'_> {
    fn new(random: &mut Random, bytes: usize) -> Writer<'_> {
        Writer {
            random,
            bytes,
            upper: 0,
            last: 0,
            last_count: 0,
        }
    }

    fn record(&mut self) -> Vec<u8> {
        // Not long under an upper half that lies outside the array.
        let outside = self.upper * OFFSETS >= self.bytes;
        if self.random.one_in(if outside { 2 } else { 7 }) {
            self.upper = self.upper_half();
            return record(0, UPPER, &(self.upper as u16).to_be_bytes());
        }
        self.data_record()
    }

    fn upper_half(&mut self) -> usize {
        let halves = self.bytes.div_ceil(OFFSETS);
        match self.random.below(12) {
            0..=1 => 0,
            2..=3 => halves - 1,
            4 => self.random.pick(&[halves, 0xFFFF, 0x8000, 0x0200, 0xFF00]),
            5 => halves / 2,
            6 => self.upper, // the same again
            _ => self.random.below(halves),
        }
    }

    /// Any data record that names only bytes of the array.
    fn data_record(&mut self) -> Vec<u8> {
        let base = self.upper * OFFSETS;
        let room = self.bytes.saturating_sub(base).min(OFFSETS);
        let count = self.count().min(room);
        // Of no bytes the record may lie anywhere.
        let highest = match count {
            0 => OFFSETS - 1,
            _ => room - count,
        };
        let offset = self.offset(base, highest);
        (self.last, self.last_count) = (base + offset, count);
        let data = self.random.bytes(count);
        record(offset, DATA, &data)
    }

    fn count(&mut self) -> usize {
        match self.random.below(12) {
            0 => 0,
            1..=2 => 1,
            3 => 2,
            4..=5 => 16,
            6..=8 => 1 + self.random.below(8),
            9..=10 => self.random.below(40),
            _ => self.random.pick(&[254, 255, 255, 128, 32, 100, 31, 33]),
        }
    }

    fn offset(&mut self, base: usize, highest: usize) -> usize {
        let near = self.random.below(9);
        let drawn = match self.random.below(12) {
            0 => 0,
            1 => near,
            2 => highest,
            3 => highest.saturating_sub(near),
            // on the record before, so that bytes are named twice, or at its end
            4..=5 => (self.last + near).saturating_sub(base + 4),
            6 => self.last.saturating_sub(base),
            7..=8 => (self.last + self.last_count).saturating_sub(base),
            _ => self.random.below(highest + 1),
        };
        drawn.min(highest)
    }
}

/// A text of records of all sizes that together name every byte of a bench
/// part's array, in any order, some bytes twice.
pub fn covering(random: &mut Random, bytes: usize) -> Draft {
    let mut records = Vec::new();
    let mut place = 0;
    while place < bytes {
        let count = (1 + random.below(255)).min(bytes - place);
        let data = random.bytes(count);
        records.push(record(place, DATA, &data));
        place += count - random.below(count.min(3));
    }
    for place in (1..records.len()).rev() {
        records.swap(place, random.below(place + 1));
    }
    records.push(record(0, END, &[]));
    let mut lines = Vec::with_capacity(records.len());
    for bytes in &records {
        let text = line(random, Case::Mixed, bytes);
        let end = random.pick(&[&b"\n"[..], b"\r\n"]);
        lines.push(Line { text, end });
    }
    let rest = Vec::new();
    Draft { lines, rest, bytes }
}
