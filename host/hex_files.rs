//! Intel HEX in files, for compare-hex: what the static library writes into a file
//! and reads from one, compared with the second reader and writer on the way.
//!
//!     hex_files image PART SEED IMAGE       random bytes for a part's array
//!     hex_files write PART IMAGE HEX        the library's text of an image
//!     hex_files read PART HEX [IMAGE]       prints the answer to a text; an image
//!                                           is what the array has to hold then
//!     hex_files damage PART HEX COUNT SEED  so many damaged versions of a text
//!
//! An image is a part's bytes in the order of their addresses. The array holds
//! FFFFh before a reading. Exit status: 0, 1 for a difference or a file that cannot
//! be read or written, 2 for wrong arguments.

mod hex {
    pub mod damage;
    pub mod library;
    pub mod texts;
}
mod second {
    pub mod geometry;
    pub mod hex;
}

use hex::damage::DAMAGES;
use hex::library;
use hex::texts::{Draft, Line, Random};
use second::geometry::Part;
use second::hex::{read, written};
use std::process::ExitCode;

/// Longer texts are damaged in place, by a character.
const SHORT: usize = 1 << 20;

fn main() -> ExitCode {
    let arguments: Vec<String> = std::env::args().skip(1).collect();
    let words: Vec<&str> = arguments.iter().map(String::as_str).collect();
    let part = words.get(1).and_then(|number| number.parse().ok());
    let Some(part) = part.and_then(Part::from_number) else {
        return usage();
    };
    let result = match words[..] {
        ["image", _, seed, image] => match seed.parse() {
            Ok(seed) => make_image(part, seed, image),
            Err(_) => return usage(),
        },
        ["write", _, image, text] => write_file(part, image, text),
        ["read", _, text] => read_file(part, text, None),
        ["read", _, text, image] => read_file(part, text, Some(image)),
        ["damage", _, text, count, seed] => match (count.parse(), seed.parse()) {
            (Ok(count), Ok(seed)) => damage(part, text, count, seed),
            _ => return usage(),
        },
        _ => return usage(),
    };
    match result {
        Ok(said) => {
            print!("{said}");
            ExitCode::SUCCESS
        }
        Err(message) => {
            eprintln!("hex_files: {message}");
            ExitCode::from(1)
        }
    }
}

fn usage() -> ExitCode {
    eprintln!("usage: hex_files image|write|read|damage PART ..");
    ExitCode::from(2)
}

fn file(path: &str) -> Result<Vec<u8>, String> {
    std::fs::read(path).map_err(|error| format!("{path}: {error}"))
}

fn make_file(path: &str, bytes: &[u8]) -> Result<(), String> {
    std::fs::write(path, bytes).map_err(|error| format!("{path}: {error}"))
}

fn words(part: Part, image: &str) -> Result<Vec<u16>, String> {
    let bytes = file(image)?;
    if bytes.len() != 2 * part.array_length() {
        return Err(format!("{image}: {} bytes are no image", bytes.len()));
    }
    let pairs = bytes.chunks_exact(2);
    Ok(pairs
        .map(|two| u16::from_le_bytes([two[0], two[1]]))
        .collect())
}

fn make_image(part: Part, seed: u64, image: &str) -> Result<String, String> {
    let mut array = vec![0; part.array_length()];
    Random::new(seed).fill(&mut array);
    let bytes: Vec<u8> = array.iter().flat_map(|word| word.to_le_bytes()).collect();
    make_file(image, &bytes)?;
    Ok(String::new())
}

fn write_file(part: Part, image: &str, path: &str) -> Result<String, String> {
    let array = words(part, image)?;
    let second = written(&array);
    let mut text = vec![0; second.len()];
    let given = library::write(part.number(), &array, &mut text);
    if given != text.len() as u64 || text != second {
        return Err(format!(
            "{image}: the library's text is not the second writer's: {}",
            library::text(given)
        ));
    }
    make_file(path, &text)?;
    Ok(String::new())
}

fn read_file(part: Part, path: &str, image: Option<&str>) -> Result<String, String> {
    let mut reading = Reading::new(part);
    let given = reading
        .both(&file(path)?)
        .map_err(|what| format!("{path}: {what}"))?;
    if let Some(image) = image {
        if reading.array != words(part, image)? {
            return Err(format!(
                "{path}: the array does not hold the bytes of {image}"
            ));
        }
    }
    Ok(match given >> 32 {
        0 => format!("accepted at line {}\n", given as u32),
        refusal => format!("refused {refusal} at line {}\n", given as u32),
    })
}

/// The arrays that the two readers read into.
struct Reading {
    part: Part,
    array: Vec<u16>,
    second: Vec<u16>,
}

impl Reading {
    fn new(part: Part) -> Reading {
        let array = vec![0xFFFF; part.array_length()];
        let second = array.clone();
        Reading {
            part,
            array,
            second,
        }
    }

    /// Both read a text over the words there; the library's answer.
    fn both(&mut self, text: &[u8]) -> Result<u64, String> {
        let due = library::number(read(self.part.number(), text, &mut self.second));
        let given = library::read(self.part.number(), text, &mut self.array);
        if given == due && self.array == self.second {
            return Ok(given);
        }
        Err(format!(
            "the library: {}; the second reader: {}; or the words differ",
            library::text(given),
            library::text(due)
        ))
    }
}

fn damage(part: Part, path: &str, count: usize, seed: u64) -> Result<String, String> {
    let text = file(path)?;
    let mut random = Random::new(seed);
    let mut refused = 0;
    for number in 0..count {
        let damaged = match text.len() < SHORT {
            true => damaged_line(&mut random, &text, 2 * part.array_length(), number),
            false => damaged_character(&mut random, &text),
        };
        // On new arrays: what one text left would hide what the next one writes.
        let given = Reading::new(part)
            .both(&damaged)
            .map_err(|what| format!("{path}, {}: {what}", around(&text, &damaged)))?;
        refused += u64::from(given >> 32 != 0);
    }
    Ok(format!("{count} damaged, {refused} of them refused\n"))
}

/// The first place at which a text is damaged.
fn around(text: &[u8], damaged: &[u8]) -> String {
    let same = text.iter().zip(damaged).take_while(|(old, new)| old == new);
    let place = same.count();
    let end = damaged.len().min(place + 60);
    let shown = damaged[place.saturating_sub(60)..end].escape_ascii();
    format!("damaged from byte {place} on, around it \"{shown}\"")
}

/// Each kind of damage in its turn, in one line of the text.
fn damaged_line(random: &mut Random, text: &[u8], bytes: usize, number: usize) -> Vec<u8> {
    let lines = text.split_inclusive(|&byte| byte == b'\n').map(|line| {
        let (text, end): (&[u8], &'static [u8]) = match line {
            [text @ .., b'\r', b'\n'] => (text, b"\r\n"),
            [text @ .., b'\n'] => (text, b"\n"),
            text => (text, b""),
        };
        let text = text.to_vec();
        Line { text, end }
    });
    let mut draft = Draft {
        lines: lines.collect(),
        rest: Vec::new(),
        bytes,
    };
    let at = random.below(draft.lines.len());
    DAMAGES[number % DAMAGES.len()].to(random, &mut draft, at);
    draft.text()
}

/// Another character, or the text cut, in any place.
fn damaged_character(random: &mut Random, text: &[u8]) -> Vec<u8> {
    let mut damaged = text.to_vec();
    let place = random.below(text.len());
    match random.below(4) {
        0 => damaged.truncate(place),
        1 => damaged[place] = random.byte(),
        _ => damaged[place] = random.pick(b"0123456789ABCDEFabcdefG\r\n: "),
    }
    damaged
}
