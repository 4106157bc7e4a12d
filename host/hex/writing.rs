//! Arrays written out by the library and by the second writer: the whole text,
//! what lies beside it, the room that it needs, and the words that both readers
//! read back.

use super::library;
use super::pair::{Compare, Pair, PART_NAMES};
use super::tally::Tally;
use super::texts::{Random, END_RECORD};
use crate::second::geometry::Part;
use crate::second::hex;

/// The kinds of the texts that are read here, with the answers that they have to
/// reach.
pub const KINDS: &[(&str, &[u32])] = &[(BACK, &[0]), (DAMAGED, &[10, 11, 14])];

const BACK: &str = "written: read back";
const DAMAGED: &str = "written: damaged at its end";

/// The bytes of the text that is written of a part.
const FULL_TEXT: usize = 92_282_892;
const BENCH_TEXT: usize = 90_140;

/// Bytes kept on both sides of the text, so that a write outside is seen.
const MARGIN: usize = 64;

/// What lies in the text's room before a writing: no character of a text.
const UNTOUCHED: u8 = 0xA5;

type Checked = Result<(), String>;

/// Random arrays and special ones of a bench part, each with several rooms.
pub fn check_bench(pair: &mut Pair, random: &mut Random, arrays: usize) -> Checked {
    let words = pair.part().array_length();
    for number in 0..arrays {
        let array = array(random, number, words);
        let mut rooms = all_rooms(random);
        if number >= 6 {
            rooms = vec![random.pick(&rooms), random.pick(&rooms)];
        }
        for room in rooms {
            write(pair, &array, room)?;
        }
        let mut text = write(pair, &array, BENCH_TEXT)?;
        read_back(pair, &array, &text)?;
        for end in ENDS {
            damaged(pair, &mut text, end)?;
        }
    }
    Ok(())
}

/// An array of a full part, by its number with too little room and no room, with
/// all that it needs or more, and with one of the damages at the text's end.
pub fn check_full(pair: &mut Pair, random: &mut Random, number: usize) -> Checked {
    let words = pair.part().array_length();
    let array = array(random, number, words);
    let (short, enough) = [(1, 0), (FULL_TEXT, 1), (44, 100)][number % 3];
    write(pair, &array, FULL_TEXT - short)?;
    let mut text = write(pair, &array, FULL_TEXT + enough)?;
    read_back(pair, &array, &text)?;
    damaged(pair, &mut text, ENDS[number % 3])
}

fn array(random: &mut Random, number: usize, words: usize) -> Vec<u16> {
    let mut array = vec![0; words];
    match number {
        0 => random.fill(&mut array),
        1 => (0..words).for_each(|place| array[place] = place as u16),
        2 => array.fill(0xFFFF),
        3 => array.fill(0x0000),
        4 => (0..words).for_each(|place| array[place] = (place * 0x0101) as u16),
        5 => array.fill(0xFF00),
        _ => random.fill(&mut array),
    }
    array
}

/// The room that a bench part's text needs, and others, nearly all of which are
/// too short by some part of a line or longer.
fn all_rooms(random: &mut Random) -> Vec<usize> {
    let exact = BENCH_TEXT;
    let mut rooms = vec![exact, exact - 1, exact + 1, 0, 1, 2 * exact, exact + 65_536];
    rooms.extend([10, 11, 12, 15, 16, 17, 43, 44, 59, 60, 61, exact / 2]);
    rooms.extend([2, 11, 12, 13, 44, 56, 57].map(|less| exact - less));
    rooms.extend([2, 12, 16, 44].map(|more| exact + more));
    rooms.push(random.below(exact));
    rooms.push(exact + random.below(exact));
    rooms
}

/// Both write into rooms of so many bytes; all of both rooms has to be equal.
/// Gives the text.
fn write(pair: &mut Pair, array: &[u16], room: usize) -> Result<Vec<u8>, String> {
    let part = pair.part();
    let mut second = vec![UNTOUCHED; room + 2 * MARGIN];
    let mut text = second.clone();
    let kept = array.to_vec();
    let due = hex::write(part.number(), array, &mut second[MARGIN..MARGIN + room]);
    let given = library::write(part.number(), array, &mut text[MARGIN..MARGIN + room]);
    let what = format!("writing {} into {room} bytes", PART_NAMES[part as usize]);
    if given != library::number(due) {
        return Err(format!(
            "{what}: the library: {}; the second writer: {}",
            library::text(given),
            library::text(library::number(due))
        ));
    }
    if text != second {
        let place = (0..text.len()).find(|&place| text[place] != second[place]);
        return Err(format!("{what}: {}", around(&text, &second, place)));
    }
    if array != kept {
        return Err(format!("{what}: the library changed the array"));
    }
    pair.tally.writing(due);
    text.truncate(MARGIN + due.number as usize);
    text.drain(..MARGIN);
    Ok(text)
}

/// The line in which two texts differ first.
fn around(text: &[u8], second: &[u8], place: Option<usize>) -> String {
    let place = place.unwrap_or(0);
    let shown = place.saturating_sub(50)..(place + 50).min(text.len());
    format!(
        "byte {} differs\nthe library:       \"{}\"\nthe second writer: \"{}\"",
        place as isize - MARGIN as isize,
        text[shown.clone()].escape_ascii(),
        second[shown].escape_ascii()
    )
}

/// "such that reading it back gives the same words": both readers have put the
/// same words over others, and the text names every byte of the array.
fn read_back(pair: &mut Pair, array: &[u16], text: &[u8]) -> Checked {
    let (answer, named) = pair.text(BACK, text, Compare::Whole)?;
    let mut back: Vec<u16> = array.iter().map(|word| !word).collect();
    named.put(&mut back);
    if answer.refusal == 0 && back == array {
        return Ok(());
    }
    Err(format!(
        "{}: what is read back is not what was written: {}",
        PART_NAMES[pair.part() as usize],
        library::text(library::number(answer))
    ))
}

/// Damages at the very end of a text.
#[derive(Clone, Copy)]
enum End {
    Sum,
    Missing,
    Begun,
}

const ENDS: [End; 3] = [End::Sum, End::Missing, End::Begun];

/// All but the text's end is good, and the array has to stay.
fn damaged(pair: &mut Pair, text: &mut Vec<u8>, end: End) -> Checked {
    // Before the end record lies the LF of the last data record.
    let place = text.len() - END_RECORD.len() - 1;
    let tail = text.split_off(place - 2);
    text.extend_from_slice(match end {
        End::Sum if tail[0] == b'0' => b"1",
        End::Sum => b"0",
        End::Missing | End::Begun => &tail[..1],
    });
    text.extend_from_slice(match end {
        End::Sum => &tail[1..],
        End::Missing => &tail[1..2],
        End::Begun => b"\n:00",
    });
    pair.text(DAMAGED, text, Compare::Whole)?;
    text.truncate(place - 2);
    text.extend(tail);
    Ok(())
}

/// Writings that are refused for their array or their part.
pub fn check_calls(tally: &mut Tally) -> Checked {
    let bench = 16_384;
    for part in Part::ALL {
        let words = part.array_length();
        for other in [0, 1, bench - 1, bench, bench + 1, words - 1, words + 1] {
            if other != words {
                refused_call(tally, part.number(), other)?;
            }
        }
    }
    for part in [4, 5, 6, 255, 256, 258, 65_538, 1 << 31, u32::MAX] {
        for words in [0, 1, bench] {
            refused_call(tally, part, words)?;
        }
    }
    for part in 0..6 {
        let due = hex::write(part, &[], &mut []);
        let given = library::write_borrowed(part, None, None);
        if given != library::number(due) {
            return Err(format!("part {part}, no array: {}", library::text(given)));
        }
        tally.writing(due);
    }
    for part in [2, 3] {
        let array = vec![0x1234; bench];
        let due = hex::write(part, &array, &mut []);
        let given = library::write_borrowed(part, Some(&array), None);
        if given != library::number(due) {
            return Err(format!("part {part}, no room: {}", library::text(given)));
        }
        tally.writing(due);
    }
    Ok(())
}

fn refused_call(tally: &mut Tally, part: u32, words: usize) -> Checked {
    let array = vec![0x1234; words];
    for room in [0, 1, BENCH_TEXT - 1, BENCH_TEXT, BENCH_TEXT + 100] {
        let mut text = vec![UNTOUCHED; room];
        let due = hex::write(part, &array, &mut text);
        let given = library::write(part, &array, &mut text);
        if given != library::number(due) || text.iter().any(|&byte| byte != UNTOUCHED) {
            return Err(format!(
                "writing part {part}, {words} words, into {room} bytes: the library: {}; the \
                 second writer: {}; or the text did not stay",
                library::text(given),
                library::text(library::number(due))
            ));
        }
        tally.writing(due);
    }
    Ok(())
}
