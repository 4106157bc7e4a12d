//! Plays scripts through the real program and compares what it prints with the transcript of the independent second model: the stored examples, every form
//! and its near misses, the bounds of document 01, random scripts and damaged ones, and input that arrives a byte at a time. Fails too where the random scripts
//! drop the supply too seldom over something that runs or is suspended (document 02, item 5).
//!
//! usage: script_compare PROGRAM EXAMPLES [COUNT [SEED]]

#[path = "second/geometry.rs"]
mod geometry;
#[path = "second/model.rs"]
mod model;
#[path = "second/script.rs"]
mod script;
#[path = "second/steps.rs"]
mod steps;

use model::{Device, Operation, Program};
use std::io::{Read, Write};
use std::process::{Command, Stdio};
use steps::Step;

/// xorshift64*: the same scripts on every machine.
struct Random(u64);

impl Random {
    fn next(&mut self) -> u64 {
        self.0 ^= self.0 >> 12;
        self.0 ^= self.0 << 25;
        self.0 ^= self.0 >> 27;
        self.0.wrapping_mul(0x2545_F491_4F6C_DD1D)
    }

    fn below(&mut self, n: u64) -> u64 {
        self.next() % n
    }

    fn pick<'a, T>(&mut self, items: &'a [T]) -> &'a T {
        &items[self.below(items.len() as u64) as usize]
    }
}

/// How the script is handed over and the transcript taken: at once, a byte at a time, or in small parts with waits between them.
#[derive(Clone, Copy, PartialEq)]
enum Pace {
    Fast,
    SlowIn,
    SlowOut,
}

/// What the program prints for a script, and what it says beside it on standard error: no more than a pipe holds.
fn played(program: &str, input: &[u8], pace: Pace) -> (Vec<u8>, String) {
    let mut child = Command::new(program)
        .stdin(Stdio::piped())
        .stdout(Stdio::piped())
        .stderr(Stdio::piped())
        .spawn()
        .unwrap_or_else(|e| fail(&format!("cannot start {program}: {e}")));
    let mut stdin = child.stdin.take().expect("a pipe was asked for");
    let bytes = input.to_vec();
    let writer = std::thread::spawn(move || {
        // the program reads no more than it needs, so a write may find the pipe closed
        if pace == Pace::SlowIn {
            for b in bytes {
                if stdin.write_all(&[b]).is_err() {
                    break;
                }
                std::thread::sleep(std::time::Duration::from_micros(200));
            }
        } else {
            let _ = stdin.write_all(&bytes);
        }
    });
    let mut out = Vec::new();
    let mut stdout = child.stdout.take().expect("a pipe was asked for");
    let mut part = [0u8; 1000];
    loop {
        if pace == Pace::SlowOut {
            std::thread::sleep(std::time::Duration::from_millis(1));
        }
        match stdout.read(&mut part) {
            Ok(0) => break,
            Ok(n) => out.extend_from_slice(&part[..n]),
            Err(e) => fail(&format!("cannot read from {program}: {e}")),
        }
    }
    let _ = writer.join();
    let mut said = String::new();
    let mut stderr = child.stderr.take().expect("a pipe was asked for");
    if let Err(e) = stderr.read_to_string(&mut said) {
        fail(&format!("cannot read what {program} says: {e}"));
    }
    let status = child.wait().unwrap_or_else(|e| fail(&e.to_string()));
    if !status.success() {
        fail(&format!("{program} ended with {status}: {said}"));
    }
    (out, said)
}

/// The warnings that are due for a script: bytes past the first 16,384, and lines of the script that end in CR LF.
fn warnings(input: &[u8]) -> String {
    let mut due = String::new();
    if input.len() > 16384 {
        due += "play: warning: the script is longer than 16,384 bytes; only the first 16,384 are played\n";
    }
    let script = &input[..input.len().min(16384)];
    if script.windows(2).any(|pair| pair == b"\r\n") {
        due += "play: warning: lines end in CR LF, not LF; each of them is refused 6\n";
    }
    due
}

fn fail(message: &str) -> ! {
    eprintln!("script_compare: {message}");
    std::process::exit(1);
}

struct Compare<'a> {
    program: &'a str,
    scripts: u64,
    lines: u64,
    refused: u64,
    warned: u64,
    drops: Drops,
}

/// How often each of the counts in `Drops` has to be reached for a thousand random scripts.
const LEAST_DROPS: u64 = 200;

/// Programs, buffer programs and erases that end without supply: by supply off, and by D0h.
#[derive(Default)]
struct Drops {
    running: [u64; 3],
    suspended: [u64; 3],
}

impl Drops {
    /// Counts those of a script, by the second model.
    fn note(&mut self, input: &[u8]) {
        let mut device = Device::power_up(script::BENCH_BOTTOM);
        let mut array = vec![0xFFFF; script::BENCH_WORDS];
        let place = |operation| match operation {
            Operation::Program(Program::Word { .. }) => 0,
            Operation::Program(Program::Buffer { .. }) => 1,
            Operation::Erase(_) => 2,
        };
        for step in script::lines(input).filter_map(script::parse) {
            let (running, supply) = (device.running, device.supply);
            let program = device.suspended_program.map(Operation::Program);
            let resumed = program.or(device.suspended_erase.map(Operation::Erase));
            let first_cycle = device.setup.is_none();
            device.step(&mut array, step);
            match (step, running, resumed) {
                (Step::Supply(false), Some(operation), _) => self.running[place(operation)] += 1,
                (Step::Write(_, data), None, Some(operation))
                    if data % 256 == 0xD0 && first_cycle && !supply =>
                {
                    self.suspended[place(operation)] += 1;
                }
                _ => {}
            }
        }
    }

    /// Prints the counts of so many random scripts; fails where one is too low.
    fn report(&self, scripts: u64) {
        let Drops { running, suspended } = self;
        println!("programs, buffer programs and erases ended by supply off: {running:?}; by D0h without supply: {suspended:?}");
        let least = LEAST_DROPS * scripts / 1000;
        if running.iter().chain(suspended).any(|&count| count < least) {
            fail("the random scripts drop the supply too seldom");
        }
    }
}

impl Compare<'_> {
    fn one(&mut self, what: &str, input: &[u8], pace: Pace) {
        let expected = script::transcript(input);
        let (got, said) = played(self.program, input, pace);
        if said != warnings(input) {
            fail(&format!(
                "{what}: {:?} is due, {said:?} was said",
                warnings(input)
            ));
        }
        self.warned += u64::from(!said.is_empty());
        if got != expected {
            eprintln!("script: {:?}", String::from_utf8_lossy(input));
            let (g, e) = (
                String::from_utf8_lossy(&got),
                String::from_utf8_lossy(&expected),
            );
            for (i, (a, b)) in e.lines().zip(g.lines()).enumerate() {
                if a != b {
                    eprintln!("line {}: expected {a:?}, got {b:?}", i + 1);
                    break;
                }
            }
            fail(&format!(
                "{what}: {} bytes expected, {} printed",
                expected.len(),
                got.len()
            ));
        }
        self.scripts += 1;
        self.lines += got.iter().filter(|b| **b == b'\n').count() as u64;
        self.refused += got.windows(8).filter(|w| w == b" refused").count() as u64;
    }
}

/// The forms of document 01, and what is nearly one.
const NEAR: &[&str] = &[
    "R 000000",
    "R FFFFFF",
    "R 00000",
    "R 0000000",
    "R 00000a",
    "R 00000G",
    "R  00000",
    "R000000",
    "r 000000",
    "R 000000 ",
    " R 000000",
    "R\t000000",
    "R 00 000",
    "R",
    "R ",
    "W 000040 0060",
    "W 000040 006",
    "W 000040 00600",
    "W 000040  060",
    "W 00040 0060",
    "w 000040 0060",
    "W 000040 00g0",
    "W 0000400060",
    "W 000040\t0060",
    "W 000040",
    "W",
    "W 000040 0060 ",
    "K 0",
    "K 00",
    "K 01",
    "K 1",
    "K 9",
    "K 10",
    "K 65535",
    "K 65536",
    "K 99999",
    "K 100000",
    "K",
    "K ",
    "K -1",
    "K +1",
    "K 1 ",
    "k 1",
    "K 1A",
    "K  1",
    "K\t1",
    "K 1.0",
    "V 0",
    "V 1",
    "V 2",
    "V",
    "V ",
    "V 01",
    "V 1 ",
    "v 1",
    "V  1",
    "V1",
    "V\t1",
    "Z",
    "z",
    "Z ",
    " Z",
    "ZZ",
    "Z0",
    "",
    " ",
    "\r",
    "Z\r",
    "R 000000\r",
    "\0",
    "Z\0",
    "A",
    "0",
    "end 0",
    "ok",
    "1234567890123456",
    "12345678901234567",
    "W 000040 0060xyz",
    "W 000040 0060xyzw",
    "R 0000000000000000",
];

fn bounds() -> Vec<(String, Vec<u8>)> {
    let mut out: Vec<(String, Vec<u8>)> = vec![
        ("empty input".into(), vec![]),
        ("one LF".into(), b"\n".to_vec()),
        ("two LF".into(), b"\n\n".to_vec()),
        ("no last LF".into(), b"V 1\nZ".to_vec()),
        ("CR LF".into(), b"V 1\r\nZ\r\n".to_vec()),
        ("high bytes".into(), (128..=255u8).collect()),
        ("every byte".into(), (0..=255u8).collect()),
        (
            "every byte a line".into(),
            (0..=255u8).flat_map(|b| [b, b'\n']).collect(),
        ),
        ("16,384 empty lines".into(), vec![b'\n'; 16384]),
        ("16,385 empty lines".into(), vec![b'\n'; 16385]),
        ("one line of 16,384 bytes".into(), vec![b'Z'; 16384]),
        ("much more than the script".into(), b"Z\n".repeat(200_000)),
    ];
    // 16,384 bytes exactly, one more, and a cut in each place of each form
    for form in ["R 000041\n", "W 000041 1234\n", "K 65535\n", "V 1\n", "Z\n"] {
        for cut in 0..=form.len() {
            let mut text = b"Z\n".repeat(8192);
            text.truncate(16384 - cut);
            if text.last() != Some(&b'\n') {
                if let Some(last) = text.last_mut() {
                    *last = b'\n';
                }
            }
            text.extend_from_slice(form.as_bytes());
            text.extend_from_slice(b"V 1\nZ\n");
            out.push((format!("cut after {cut} bytes of {form:?}"), text));
        }
    }
    out
}

/// A script in which things happen, and with `damage` some bytes of it changed, dropped or added.
fn random_script(r: &mut Random, damage: bool) -> Vec<u8> {
    const COMMANDS: &[u32] = &[
        0xFF, 0x70, 0x90, 0x98, 0xB0, 0xD0, 0x50, 0x10, 0x40, 0x60, 0x20, 0xD0, 0x01, 0x03, 0xE8,
        0x00,
    ];
    const PLACES: &[u32] = &[
        0x00, 0x01, 0x02, 0x05, 0x0F, 0x10, 0x12, 0x3F, 0x40, 0x41, 0x42, 0x7F, 0x80, 0x82, 0xC0,
        0x3FF, 0x400, 0x402, 0x405, 0x410, 0x3FFF, 0x3F80, 0x4041, 0xFFFFFF,
    ];
    let mut text = String::new();
    let lines = 1 + r.below(120);
    if r.below(4) > 0 {
        text.push_str("V 1\nW 000040 0060\nW 000040 00D0\nW 000080 0060\nW 000080 00D0\n");
    }
    for _ in 0..lines {
        let address = if r.below(8) == 0 {
            r.below(1 << 24) as u32
        } else {
            *r.pick(PLACES)
        };
        match r.below(26) {
            0..=4 => text.push_str(&format!("R {address:06X}\n")),
            5..=8 => {
                // both cycles of a command to one place
                let (a, b) = *r.pick(&[
                    (0x60, 0xD0),
                    (0x60, 0x01),
                    (0x60, 0x03),
                    (0x20, 0xD0),
                    (0x20, 0x00),
                ]);
                text.push_str(&format!(
                    "W {address:06X} {a:04X}\nW {address:06X} {b:04X}\n"
                ));
            }
            9..=11 => {
                let word = r.below(65536);
                text.push_str(&format!(
                    "W {address:06X} 0040\nW {address:06X} {word:04X}\n"
                ));
            }
            12..=14 => {
                let high = if r.below(4) == 0 {
                    r.below(256) << 8
                } else {
                    0
                };
                text.push_str(&format!(
                    "W {address:06X} {:04X}\n",
                    u64::from(*r.pick(COMMANDS)) | high
                ));
            }
            15..=17 => {
                let n = *r.pick(&[0u64, 1, 1, 3, 10, 63, 64, 65535, 65536, 99999]);
                text.push_str(&format!("K {n}\n"));
            }
            18 => text.push_str(if r.below(3) == 0 { "V 0\n" } else { "V 1\n" }),
            19..=20 => text.push_str(&random_load(r, address)),
            21 => text.push_str(&random_register(r)),
            22..=24 => text.push_str(&random_drop(r)),
            _ => text.push_str(if r.below(3) == 0 { "Z\n" } else { "R 000040\n" }),
        }
    }
    let mut bytes = text.into_bytes();
    if damage {
        for _ in 0..1 + r.below(6) {
            let at = r.below(bytes.len() as u64) as usize;
            match r.below(4) {
                0 => bytes[at] = r.below(256) as u8,
                1 => {
                    bytes.remove(at);
                }
                2 => bytes.insert(at, *r.pick(b" \n\r\t\0aZ09")),
                _ => {
                    let line = r.pick(NEAR).as_bytes().to_vec();
                    bytes.splice(at..at, line);
                }
            }
            if bytes.is_empty() {
                break;
            }
        }
    }
    if r.below(3) == 0 && bytes.last() == Some(&b'\n') {
        bytes.pop();
    }
    bytes
}

/// A load of the write buffer: most often right, if its words fit their block.
fn random_load(r: &mut Random, address: u32) -> String {
    let words = 1 + r.below(5) as u32;
    let mut text = format!("W {address:06X} 00E8\nW {address:06X} {:04X}\n", words - 1);
    for place in 0..words {
        let further = if place == 0 {
            0
        } else {
            r.below(u64::from(words)) as u32
        };
        let location = (address + further) & 0xFF_FFFF;
        text += &format!("W {location:06X} {:04X}\n", r.below(65536));
    }
    let confirm = if r.below(6) == 0 { 0xFF } else { 0xD0 };
    text + &format!("W {address:06X} {confirm:04X}\n")
}

/// A configuration register from any address, shown, and sometimes shown again after a reset: its reserved bits are 0 (document 02, item 4).
fn random_register(r: &mut Random) -> String {
    let address = r.below(1 << 24) as u32 | *r.pick(&[0, 0x4000, 0x0020, 0x0010]);
    let mut text = format!("W {address:06X} 0060\nW {address:06X} 0003\nW 000400 0090\nR 000405\n");
    if r.below(4) == 0 {
        text += "Z\nW 000400 0090\nR 000405\n";
    }
    text
}

/// An operation that the supply ends where it runs, or where it is suspended and D0h comes; or that goes on with supply again. What it left is read.
fn random_drop(r: &mut Random) -> String {
    let address = *r.pick(&[0x40, 0x41, 0x44, 0x80, 0x82]);
    let write = |data: u64| format!("W {address:06X} {data:04X}\n");
    let mut text = "V 1\n".to_string() + &write(0x60) + &write(0xD0);
    text += &match r.below(3) {
        0 => write(0x40) + &write(r.below(65536)),
        1 => write(0x20) + &write(0xD0),
        _ => random_load(r, address),
    };
    text += &format!("K {}\n", r.pick(&[0, 0, 1, 2, 3, 10, 63]));
    if r.below(2) == 0 {
        text += &write(0xB0);
    }
    text += "V 0\n";
    if r.below(2) == 0 {
        text += &write(0xD0);
    }
    text += &format!("R {address:06X}\n");
    if r.below(4) > 0 {
        text += "V 1\n";
    }
    if r.below(2) == 0 {
        text += &write(0xD0);
    }
    text + "K 1\n" + &write(0xFF) + &format!("R {address:06X}\nR {:06X}\n", address + 1)
}

fn examples(compare: &mut Compare, folder: &str) -> u64 {
    let mut names: Vec<_> = std::fs::read_dir(folder)
        .unwrap_or_else(|e| fail(&format!("cannot read {folder}: {e}")))
        .filter_map(|f| f.ok().map(|f| f.path()))
        .filter(|p| p.extension().is_some_and(|e| e == "script"))
        .collect();
    if names.is_empty() {
        fail(&format!("{folder} has no script"));
    }
    names.sort();
    for path in &names {
        let input = std::fs::read(path).unwrap_or_else(|e| fail(&e.to_string()));
        let stored = std::fs::read(path.with_extension("out"))
            .unwrap_or_else(|e| fail(&format!("{}: {e}", path.display())));
        if script::transcript(&input) != stored {
            fail(&format!(
                "{}: the stored transcript is not the second model's",
                path.display()
            ));
        }
        compare.one(&path.display().to_string(), &input, Pace::Fast);
    }
    names.len() as u64
}

fn main() {
    let args: Vec<String> = std::env::args().collect();
    if args.len() < 3 {
        eprintln!("usage: script_compare PROGRAM EXAMPLES [COUNT [SEED]]");
        std::process::exit(2);
    }
    let number = |i: usize, default: u64| {
        args.get(i).map_or(default, |a| {
            a.parse()
                .unwrap_or_else(|_| fail("COUNT and SEED are numbers"))
        })
    };
    let (count, seed) = (number(3, 1000), number(4, 20_070_301));
    let mut compare = Compare {
        program: &args[1],
        scripts: 0,
        lines: 0,
        refused: 0,
        warned: 0,
        drops: Drops::default(),
    };
    let stored = examples(&mut compare, &args[2]);
    for near in NEAR {
        compare.one("near miss", near.as_bytes(), Pace::Fast);
        compare.one(
            "near miss, first line",
            format!("{near}\nV 1\nR 000000\n").as_bytes(),
            Pace::Fast,
        );
    }
    compare.one("all near misses", NEAR.join("\n").as_bytes(), Pace::Fast);
    for (what, text) in bounds() {
        compare.one(&what, &text, Pace::Fast);
    }
    let mut r = Random(seed | 1);
    for i in 0..count {
        let text = random_script(&mut r, i % 2 == 1);
        compare.drops.note(&text);
        compare.one(
            &format!("random script {i} of seed {seed}"),
            &text,
            Pace::Fast,
        );
    }
    for i in 0..5 {
        let text = random_script(&mut r, i % 2 == 1);
        compare.one(
            "a byte at a time",
            &text[..text.len().min(1500)],
            Pace::SlowIn,
        );
    }
    compare.one("a slow reader", &[b'\n'; 16384], Pace::SlowOut);
    compare.drops.report(count);
    println!(
        "scripts: {} compared, {stored} of them stored examples and {count} random of seed {seed}; {} lines printed, {} of them refused; {} scripts warned of",
        compare.scripts, compare.lines, compare.refused, compare.warned
    );
}
