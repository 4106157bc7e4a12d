//! Cases of Intel HEX (document 02, item 3), worked out by hand: the second
//! reader and the second writer have to give these answers and these words.

use super::hex::{read, write, written, Answer};

/// Parts by document 01's numbers, and their words.
const FULL: u32 = 0;
const BENCH: u32 = 2;
const FULL_WORDS: usize = 16_777_216;
const BENCH_WORDS: usize = 16_384;

/// The bytes of the text that is written of a part.
const FULL_TEXT: usize = 92_282_892;
const BENCH_TEXT: usize = 90_140;

/// A text, the refusal and the line that are due, and the words that are no
/// longer FFFFh after it.
type Case = (&'static str, u32, u64, &'static [(usize, u16)]);

/// Reads all cases and writes some arrays; gives the number of cases.
pub fn selftest() -> Result<usize, String> {
    let lists = [
        (BENCH, BENCH_WORDS, [RECORDS, LINES, FAULTS, ORDER]),
        (BENCH + 1, BENCH_WORDS, [RECORDS, LINES, FAULTS, ORDER]),
        (FULL, FULL_WORDS, [FULL_RECORDS, LINES, &[], &[]]),
        (FULL + 1, FULL_WORDS, [FULL_RECORDS, &[], &[], &[]]),
    ];
    let mut cases = 0;
    for (part, words, lists) in lists {
        let mut array = vec![0xFFFF; words];
        for case in lists.into_iter().flatten() {
            check_case(part, &mut array, case)?;
            cases += 1;
        }
    }
    Ok(cases + check_calls()? + check_longest()? + check_bench_text()? + check_full_text()?)
}

fn check_case(part: u32, array: &mut [u16], case: &Case) -> Result<(), String> {
    let &(text, refusal, number, words) = case;
    let due = Answer { refusal, number };
    let given = read(part, text.as_bytes(), array);
    same(&format!("{text:?} on part {part}"), given, due)?;
    for &(place, word) in words {
        same(&format!("{text:?}, word {place:X}"), array[place], word)?;
        array[place] = 0xFFFF;
    }
    let changed = array.iter().position(|&word| word != 0xFFFF);
    same(&format!("{text:?}, other words"), changed, None)
}

fn same<T: PartialEq + std::fmt::Debug>(what: &str, given: T, due: T) -> Result<(), String> {
    if given == due {
        return Ok(());
    }
    Err(format!(
        "the second reader or writer fails its self test: {what}: {given:X?}, and not {due:X?}"
    ))
}

const RECORDS: &[Case] = &[
    (
        ":0400000034127856E8\n:03000a00cdab99e2\r\n:00000001ff\nrubbish",
        0,
        3,
        &[(0, 0x1234), (1, 0x5678), (5, 0xABCD), (6, 0xFF99)],
    ),
    // one half of a word, and its other half named by a later record
    (":0100000011EE\n:00000001FF\n", 0, 2, &[(0, 0xFF11)]),
    (":0100010022DC\n:00000001FF\n", 0, 2, &[(0, 0x22FF)]),
    (
        ":0100010022DC\n:0100000011EE\n:00000001FF\n",
        0,
        3,
        &[(0, 0x2211)],
    ),
    // three bytes from an odd address on
    (
        ":03000100AABBCCCB\n:00000001FF\n",
        0,
        2,
        &[(0, 0xAAFF), (1, 0xCCBB)],
    ),
    // a byte named twice keeps the later value
    (
        ":02000000AABB99\n:01000100CC32\n:00000001FF\n",
        0,
        3,
        &[(0, 0xCCAA)],
    ),
    (
        ":01000100CC32\n:02000000AABB99\n:00000001FF\n",
        0,
        3,
        &[(0, 0xBBAA)],
    ),
    // the last byte of the array, and the first past it
    (":017FFF00AAD7\n:00000001FF\n", 0, 2, &[(0x3FFF, 0xAAFF)]),
    (":01800000AAD5\n:00000001FF\n", 13, 1, &[]),
    (":027FFF00AABB1B\n:00000001FF\n", 13, 1, &[]),
    (":02FFFF00AABB9B\n:00000001FF\n", 13, 1, &[]),
    // records of no bytes, and 04 records, name no byte
    (":0080000080\n:00000001FF\n", 0, 2, &[]),
    (":00FFFF0002\n:00000001FF\n", 0, 2, &[]),
    (":020000040001F9\n:00000001FF\n", 0, 2, &[]),
    (":02000004FFFFFC\n:0000000000\n:00000001FF\n", 0, 3, &[]),
    (":020000040001F9\n:0100000011EE\n:00000001FF\n", 13, 2, &[]),
    (
        ":020000040001F9\n:020000040000FA\n:0100000011EE\n:00000001FF\n",
        0,
        4,
        &[(0, 0xFF11)],
    ),
    (":00000001FF\n", 0, 1, &[]),
];

const LINES: &[Case] = &[
    ("", 14, 0, &[]),
    ("\n", 10, 1, &[]),
    ("\r\n", 10, 1, &[]),
    ("\r", 10, 1, &[]),
    (":00000001FF", 0, 1, &[]),
    (":00000001FF\r\n", 0, 1, &[]),
    (":00000001FF\r", 10, 1, &[]),
    (":00000001FF\r\r\n", 10, 1, &[]),
    ("\r:00000001FF\n", 10, 1, &[]),
    (":0000\r0001FF\n", 10, 1, &[]),
    (":0000\n0001FF\n", 10, 1, &[]),
    (":0000000000\n\r:00000001FF\n", 10, 2, &[]),
    (":0000000000\r:00000001FF\n", 10, 1, &[]),
    (":0000000000:00000001FF\n", 10, 1, &[]),
    (":0000000000\n\n:00000001FF\n", 10, 2, &[]),
    ("\n:00000001FF\n", 10, 1, &[]),
    // what follows the end record's line is ignored, more on that line is not
    (":00000001FF\n\n", 0, 1, &[]),
    (":00000001FF\n:0100000011EE\n", 0, 1, &[]),
    (":00000001FF\r\n\r", 0, 1, &[]),
    (":00000001FF \n", 10, 1, &[]),
    (":00000001FFrubbish\n", 10, 1, &[]),
    (":00000001FF:00000001FF\n", 10, 1, &[]),
    // no end record
    (":0100000011EE\n", 14, 1, &[]),
    (":0100000011EE", 14, 1, &[]),
    (":0100000011EE\r\n:020000040000FA\r\n", 14, 2, &[]),
    (":0100000011EE\n\n", 10, 2, &[]),
    (":0100000011EE\n:00000001F", 10, 2, &[]),
    (":0100000011EE\n:", 10, 2, &[]),
];

const FAULTS: &[Case] = &[
    (":", 10, 1, &[]),
    (":0", 10, 1, &[]),
    (":00", 10, 1, &[]),
    (":00000001", 10, 1, &[]),
    (":00000001F", 10, 1, &[]),
    (":00000001FFF", 10, 1, &[]),
    (":00000001FF00", 10, 1, &[]),
    ("::00000001FF", 10, 1, &[]),
    (" :00000001FF", 10, 1, &[]),
    ("00000001FF", 10, 1, &[]),
    (";00000001FF", 10, 1, &[]),
    (":0000 0001FF", 10, 1, &[]),
    // the characters beside the digits
    (":0000000/FF", 10, 1, &[]),
    (":0000000:FF", 10, 1, &[]),
    (":00000001F@", 10, 1, &[]),
    (":00000001FG", 10, 1, &[]),
    (":00000001f`", 10, 1, &[]),
    (":00000001fg", 10, 1, &[]),
    // length and data differ
    (":0100000000", 10, 1, &[]),
    (":0000000011EF", 10, 1, &[]),
    (":0200000011ED", 10, 1, &[]),
    // 01 and 04 of other offset or length, with good and with wrong sums
    (":00000101FE", 10, 1, &[]),
    (":00000101FF", 10, 1, &[]),
    (":00010001FE", 10, 1, &[]),
    (":0100000111ED", 10, 1, &[]),
    (":0100000111EE", 10, 1, &[]),
    (":020001040000F9", 10, 1, &[]),
    (":020100040000F9", 10, 1, &[]),
    (":00000004FC", 10, 1, &[]),
    (":0100000411EA", 10, 1, &[]),
    (":03000004000000F9", 10, 1, &[]),
    (":0400000400000000F8", 10, 1, &[]),
    // sums
    (":00000001FE", 11, 1, &[]),
    (":0000000100", 11, 1, &[]),
    (":020000040000FB", 11, 1, &[]),
    (":0100000011EF\n", 11, 1, &[]),
    (":0100000011ED\n", 11, 1, &[]),
    // other types
    (":02000002F0000C", 12, 1, &[]),
    (":0400000300003800C1", 12, 1, &[]),
    (":04000005000000CD2A", 12, 1, &[]),
    (":00000006FA", 12, 1, &[]),
    (":00000011EF", 12, 1, &[]),
    (":000000FF01", 12, 1, &[]),
    (":00000010F0", 12, 1, &[]),
];

/// Two faults: the lower number within a record, the first of two records.
const ORDER: &[Case] = &[
    (":02000002F00000", 11, 1, &[]),
    (":01800000AAD4", 11, 1, &[]),
    (":02FFFF00AABB9A", 11, 1, &[]),
    (":01800006AACF", 12, 1, &[]),
    (":01800006AACE", 11, 1, &[]),
    (":02FFFF06AABB95", 12, 1, &[]),
    (":02800000AAD4", 10, 1, &[]),
    (":00800001FF", 10, 1, &[]),
    (":02000006AA4E", 10, 1, &[]),
    (":01800000AAD5\nx\n", 13, 1, &[]),
    (":00000006FA\n:01800000AAD4\n", 12, 1, &[]),
    (":0100000011EE\n:00000006FA\nx\n", 12, 2, &[]),
    (":0100000011EE\n:00000001FE\n", 11, 2, &[]),
    (":0100000011EE\n:01800000AAD5\n:00000001FF\n", 13, 2, &[]),
];

const FULL_RECORDS: &[Case] = &[
    // the high byte of a 04 record comes first
    (
        ":020000040001F9\n:0100000011EE\n:00000001FF\n",
        0,
        3,
        &[(0x8000, 0xFF11)],
    ),
    (
        ":020000040100F9\n:0100000011EE\n:00000001FF\n",
        0,
        3,
        &[(0x80_0000, 0xFF11)],
    ),
    // a 04 record holds until the next
    (
        ":020000040001F9\n:0100000011EE\n:0100020022DB\n\
         :020000040000FA\n:0100000033CC\n:00000001FF\n",
        0,
        6,
        &[(0x8000, 0xFF11), (0x8001, 0xFF22), (0, 0xFF33)],
    ),
    // to offset 65,536, and past it
    (":02FFFE00AABB9C\n:00000001FF\n", 0, 2, &[(0x7FFF, 0xBBAA)]),
    (":02FFFF00AABB9B\n:00000001FF\n", 13, 1, &[]),
    (":01800000AAD5\n:00000001FF\n", 0, 2, &[(0x4000, 0xFFAA)]),
    // the last byte of the array, and the first past it
    (
        ":0200000401FFFA\n:01FFFF00AA57\n:00000001FF\n",
        0,
        3,
        &[(0xFF_FFFF, 0xAAFF)],
    ),
    (
        ":0200000401FFFA\n:02FFFF00AABB9B\n:00000001FF\n",
        13,
        2,
        &[],
    ),
    (":020000040200F8\n:0100000011EE\n:00000001FF\n", 13, 2, &[]),
    (":020000040200F8\n:0000000000\n:00000001FF\n", 0, 3, &[]),
    (":02000004FFFFFC\n:01FFFF00AA57\n:00000001FF\n", 13, 2, &[]),
];

/// Refusals 1 and 7, before any of the text.
fn check_calls() -> Result<usize, String> {
    let texts = ["", "x", ":00000001FF\n", ":0100000011EE\n:00000001FF\n"];
    let calls = [
        (0, BENCH_WORDS, 1),
        (1, 0, 1),
        (2, BENCH_WORDS - 1, 1),
        (3, BENCH_WORDS + 1, 1),
        (3, 0, 1),
        (4, BENCH_WORDS, 7),
        (4, 0, 7),
        (u32::MAX, BENCH_WORDS, 7),
    ];
    for (part, words, refusal) in calls {
        let due = Answer { refusal, number: 0 };
        let mut array = vec![0xFFFF; words];
        let what = format!("part {part} with {words} words");
        for text in texts {
            same(&what, read(part, text.as_bytes(), &mut array), due)?;
        }
        let mut room = vec![b'x'; BENCH_TEXT];
        same(&what, write(part, &array, &mut room), due)?;
        let stayed = array.iter().all(|&word| word == 0xFFFF) && room.iter().all(|&c| c == b'x');
        same(&what, stayed, true)?;
    }
    Ok(calls.len())
}

/// A record of 255 bytes, the most that its length can tell.
fn check_longest() -> Result<usize, String> {
    let text = format!(":FF000000{}01\n:00000001FF\n", "00".repeat(255));
    let mut array = vec![0xFFFF; BENCH_WORDS];
    let given = read(BENCH, text.as_bytes(), &mut array);
    let due = Answer {
        refusal: 0,
        number: 2,
    };
    same("255 bytes", given, due)?;
    same("255 bytes, whole words", &array[..127], &[0; 127][..])?;
    same("255 bytes, the rest", &array[127..129], &[0xFF00, 0xFFFF])?;
    Ok(1)
}

/// The words i x 0101h of a bench part, and the room that their text needs.
fn check_bench_text() -> Result<usize, String> {
    let array: Vec<u16> = (0..BENCH_WORDS as u32)
        .map(|place| (place * 0x0101) as u16)
        .collect();
    let mut text = vec![b'x'; BENCH_TEXT + 3];
    let due = |refusal, number| Answer { refusal, number };
    let short = write(BENCH, &array, &mut text[..BENCH_TEXT - 1]);
    same("a byte too few", short, due(17, 0))?;
    same("no byte", write(BENCH, &array, &mut []), due(17, 0))?;
    same("refused", text.iter().all(|&c| c == b'x'), true)?;
    let long = write(BENCH, &array, &mut text);
    same("three bytes more", long, due(0, BENCH_TEXT as u64))?;
    let exact = write(BENCH, &array, &mut text[..BENCH_TEXT]);
    same("no byte more", exact, due(0, BENCH_TEXT as u64))?;
    same("past the text", &text[BENCH_TEXT..], b"xxx")?;
    let first = b":020000040000FA\n:1000000000000101020203030404050506060707B8\n:10001000";
    same("the first lines", &text[..first.len()], first)?;
    let last = b"\n:107FF000F837F938FA39FB3AFC3BFD3CFE3DFF3ED1\n:00000001FF\n";
    same(
        "the last lines",
        &text[BENCH_TEXT - last.len()..BENCH_TEXT],
        last,
    )?;
    let mut back = vec![0x5A5A; BENCH_WORDS];
    let given = read(BENCH + 1, &text[..BENCH_TEXT], &mut back);
    same("read back", given, due(0, 2050))?;
    same("words read back", back == array, true)?;
    Ok(4)
}

/// The length of a full part's text, and its second and last 04 record.
fn check_full_text() -> Result<usize, String> {
    let text = written(&vec![0; FULL_WORDS]);
    same("bytes of a full part's text", text.len(), FULL_TEXT)?;
    let part = 16 + 4096 * 44; // a 04 record and 4,096 records of 16 bytes
    let end = FULL_TEXT - 12;
    same("04", &text[part..part + 16], b":020000040001F9\n")?;
    same(
        "04",
        &text[end - part..end - part + 16],
        b":0200000401FFFA\n",
    )?;
    same("the end", &text[end..], b":00000001FF\n")?;
    Ok(1)
}
