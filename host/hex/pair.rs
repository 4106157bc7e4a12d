//! The library and the second reader side by side, on one part: the same text is
//! read by both into arrays that hold the same words, and all that a reading
//! could have changed is compared.

use super::library;
use super::tally::Tally;
use super::texts::Random;
use crate::second::geometry::Part;
use crate::second::hex::{self, Answer, Named};

pub const PART_NAMES: [&str; 4] = ["full bottom", "full top", "bench bottom", "bench top"];

/// Words kept on both sides of an array, so that a write outside is seen.
const MARGIN: usize = 16;

/// The most that is printed of a text.
const PRINTED: usize = 3_000;

/// How much of the arrays is compared after a text that a full part reads; on a
/// bench part it is always all.
#[derive(Clone, Copy, PartialEq)]
pub enum Compare {
    Whole,
    /// The words that the text names.
    Named,
}

pub struct Pair {
    part: Part,
    /// The words before each text; both arrays return to them after it.
    start: Vec<u16>,
    library: Vec<u16>,
    second: Vec<u16>,
    pub tally: Tally,
}

impl Pair {
    pub fn new(part: Part) -> Pair {
        let cells = vec![0xFFFF; part.array_length() + 2 * MARGIN];
        Pair {
            part,
            start: cells.clone(),
            library: cells.clone(),
            second: cells,
            tally: Tally::default(),
        }
    }

    /// The bytes of the part's array.
    pub fn bytes(&self) -> usize {
        2 * self.part.array_length()
    }

    pub fn part(&self) -> Part {
        self.part
    }

    /// New words to begin with: random, or now and then all the same.
    pub fn begin(&mut self, random: &mut Random) {
        match random.below(6) {
            0 => self.start.fill(0xFFFF),
            1 => self.start.fill(0x0000),
            _ => random.fill(&mut self.start),
        }
        self.library.copy_from_slice(&self.start);
        self.second.copy_from_slice(&self.start);
    }

    /// Both read a text; gives the answer, and what the text names up to the line
    /// that decided.
    pub fn text(
        &mut self,
        kind: &'static str,
        text: &[u8],
        compare: Compare,
    ) -> Result<(Answer, Named), String> {
        let words = self.part.array_length();
        let number = self.part.number();
        let array = MARGIN..MARGIN + words;
        let (due, named) = hex::scan(number, text, words);
        let kept = text.to_vec();
        let given = library::read(number, text, &mut self.library[array.clone()]);
        if given != library::number(due) {
            return Err(self.message(kind, text, due, given, ""));
        }
        if text != kept {
            let what = "the library changed the text";
            return Err(self.message(kind, &kept, due, given, what));
        }
        if due.refusal == 0 {
            named.put(&mut self.second[array]);
        }
        if let Some(what) = self.difference(&named, compare) {
            return Err(self.message(kind, text, due, given, &what));
        }
        self.restore(&named);
        self.tally.text(kind, due);
        Ok((due, named))
    }

    /// The first word that differs, if any.
    fn difference(&mut self, named: &Named, compare: Compare) -> Option<String> {
        let place = if compare == Compare::Whole || self.bytes() < 65_536 {
            self.tally.words += self.part.array_length() as u64;
            if self.library == self.second {
                return None;
            }
            (0..self.second.len()).find(|&place| self.library[place] != self.second[place])
        } else {
            let mut places = cells(named).inspect(|_| self.tally.words += 1);
            places.find(|&place| self.library[place] != self.second[place])
        };
        place.map(|place| {
            format!(
                "word {:X}: the library has {:04X}, the second reader {:04X}, before it was {:04X}",
                place as isize - MARGIN as isize,
                self.library[place],
                self.second[place],
                self.start[place]
            )
        })
    }

    /// Both arrays as they were before the text: nothing but what was named can
    /// differ from the start, unless the library changed something else, which
    /// the next comparison of the whole shows.
    fn restore(&mut self, named: &Named) {
        for place in cells(named) {
            self.second[place] = self.start[place];
            self.library[place] = self.start[place];
        }
    }

    /// The whole of the library's array, against the words before the texts.
    pub fn all_restored(&mut self) -> Result<(), String> {
        self.tally.words += self.part.array_length() as u64;
        if self.library == self.start {
            return Ok(());
        }
        let place = (0..self.start.len()).find(|&place| self.library[place] != self.start[place]);
        Err(format!(
            "part {}: one of the last texts changed word {:X}, which it does not name",
            PART_NAMES[self.part as usize],
            place.unwrap_or(0) as isize - MARGIN as isize
        ))
    }

    fn message(&self, kind: &str, text: &[u8], due: Answer, given: u64, what: &str) -> String {
        let shown = text[..text.len().min(PRINTED)].escape_ascii();
        let mut lines = text.split_inclusive(|&byte| byte == b'\n');
        let line = lines.nth((due.number as usize).saturating_sub(1));
        let line = line.unwrap_or(b"");
        format!(
            "{kind}, part {} ({}): a text of {} bytes:\n\"{shown}\"\n\
             the library: {}\nthe second reader: {}, by \"{}\"\n{what}",
            self.part as u32,
            PART_NAMES[self.part as usize],
            text.len(),
            library::text(given),
            library::text(library::number(due)),
            line[..line.len().min(PRINTED)].escape_ascii(),
        )
    }
}

/// The places, in an array with margins, of all words that are named. A word is
/// met again where it is named again.
fn cells(named: &Named) -> impl Iterator<Item = usize> + '_ {
    let runs = named.runs().iter();
    runs.flat_map(|&(address, count)| address / 2..(address + count).div_ceil(2))
        .map(|word| word + MARGIN)
}

/// A call that is refused before any of the text: a wrong array or part. Both the
/// array and the text stay.
pub fn refused_call(
    tally: &mut Tally,
    kind: &'static str,
    (part, words): (u32, usize),
    text: &[u8],
) -> Result<(), String> {
    let mut cells = vec![0x5AA5; words + 2 * MARGIN];
    let due = hex::scan(part, text, words).0;
    let given = library::read(part, text, &mut cells[MARGIN..MARGIN + words]);
    if given != library::number(due) || cells.iter().any(|&cell| cell != 0x5AA5) {
        return Err(format!(
            "{kind}: part {part}, {words} words, text \"{}\": the library: {}; the second \
             reader: {}; or the array did not stay",
            text.escape_ascii(),
            library::text(given),
            library::text(library::number(due)),
        ));
    }
    tally.text(kind, due);
    Ok(())
}
