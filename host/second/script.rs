//! The transcript of document 01, "The script program".

#![allow(dead_code)] // a program that takes this module in need not use all of it

use super::model::Device;
use super::steps::Step;

/// "Only the first 16,384 bytes are the script."
const SCRIPT_BYTES: usize = 16_384;

/// "A line over 16 bytes, or empty, is refused 6." The LF is not counted; no
/// form is longer than 13 bytes, so the count decides nothing by itself.
const LINE_BYTES: usize = 16;

/// "a bench bottom part whose 16,384 words start as FFFFh".
pub const BENCH_BOTTOM: u32 = 2;
pub const BENCH_WORDS: usize = 16_384;

/// What the script program prints for an input. Every printed line ends in LF,
/// the last too (document 01 does not say).
pub fn transcript(input: &[u8]) -> Vec<u8> {
    let mut device = Device::power_up(BENCH_BOTTOM);
    let mut array = vec![0xFFFF; BENCH_WORDS];
    let mut output = String::new();
    let mut number = 0;
    for line in lines(input) {
        number += 1;
        let text = play(&mut device, &mut array, line);
        output.push_str(&format!("{number} {text}\n"));
    }
    // "At the end: `end` and the count of lines."
    output.push_str(&format!("end {number}\n"));
    output.into_bytes()
}

/// The lines of a script. "Lines end in LF, the last may lack it": so nothing
/// follows a closing LF, and a line cut off by the script's end is a line.
pub fn lines(input: &[u8]) -> impl Iterator<Item = &[u8]> {
    let script = &input[..input.len().min(SCRIPT_BYTES)];
    script
        .split_inclusive(|&byte| byte == b'\n')
        .map(|line| line.strip_suffix(b"\n").unwrap_or(line))
}

/// Plays one line and gives what is printed after its number: "4 hex digits
/// (R), units in decimal (K), `ok`, or `refused` and the number".
fn play(device: &mut Device, array: &mut [u16], line: &[u8]) -> String {
    let Some(step) = parse(line) else {
        return "refused 6".to_string();
    };
    let answer = device.step(array, step);
    if answer.refusal != 0 {
        return format!("refused {}", answer.refusal);
    }
    match step {
        Step::Read(_) => format!("{:04X}", answer.value),
        Step::Work(_) => format!("{}", answer.value),
        Step::Write(..) | Step::Supply(_) | Step::Reset => "ok".to_string(),
    }
}

/// The step a line stands for, if it is one of the forms: "`R` and 6 hex
/// digits; `W`, 6 digits, 4 digits; `K` and 1 to 5 decimal digits without
/// leading zero (`K 0` is a form); `V 0` or `V 1`; `Z`".
pub fn parse(line: &[u8]) -> Option<Step> {
    if line.is_empty() || line.len() > LINE_BYTES {
        return None;
    }
    match line {
        b"Z" => Some(Step::Reset),
        b"V 0" => Some(Step::Supply(false)),
        b"V 1" => Some(Step::Supply(true)),
        [b'R', b' ', address @ ..] => Some(Step::Read(hex(address, 6)?)),
        [b'W', b' ', address @ .., b' ', _, _, _, _] => {
            let data = hex(&line[line.len() - 4..], 4)?;
            Some(Step::Write(hex(address, 6)?, data as u16))
        }
        [b'K', b' ', count @ ..] => Some(Step::Work(decimal(count)?)),
        _ => None,
    }
}

/// A number of exactly `length` upper-case hex digits.
fn hex(digits: &[u8], length: usize) -> Option<u32> {
    if digits.len() != length {
        return None;
    }
    digits.iter().try_fold(0, |number, &digit| match digit {
        b'0'..=b'9' => Some(number * 16 + u32::from(digit - b'0')),
        b'A'..=b'F' => Some(number * 16 + u32::from(digit - b'A') + 10),
        _ => None,
    })
}

/// A number of 1 to 5 decimal digits without leading zero.
fn decimal(digits: &[u8]) -> Option<u32> {
    match digits {
        b"0" => return Some(0),
        [b'1'..=b'9', rest @ ..] if rest.len() < 5 => {}
        _ => return None,
    }
    digits.iter().try_fold(0, |number, &digit| match digit {
        b'0'..=b'9' => Some(number * 10 + u32::from(digit - b'0')),
        _ => None,
    })
}
