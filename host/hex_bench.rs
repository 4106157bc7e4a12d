//! Measures reading and writing of Intel HEX on a full part: the static library's
//! calls against a native reader and writer (the second one, in Rust), and
//! `./m58 hex` against objcopy and srec_cat, where they are installed, each as a
//! process that turns a file into a file. Prints ratios in one run.
//!
//!     hex_bench PROGRAM FOLDER [ROUNDS]

mod hex {
    pub mod library;
}
mod second {
    pub mod geometry;
    pub mod hex;
}

use hex::library;
use std::fs;
use std::hint::black_box;
use std::path::{Path, PathBuf};
use std::process::{Command, ExitCode, Stdio};
use std::time::Instant;

const PART: u32 = 0;
const WORDS: usize = 16_777_216;
const TEXT: usize = 92_282_892;
const ROUNDS: usize = 7;

fn main() -> ExitCode {
    let arguments: Vec<String> = std::env::args().collect();
    let rounds = arguments.get(3).map_or(Some(ROUNDS), |text| text.parse().ok());
    match (arguments.get(1), arguments.get(2), rounds) {
        (Some(program), Some(folder), Some(rounds)) if rounds > 0 => {
            measure(program, Path::new(folder), rounds)
        }
        _ => {
            eprintln!("usage: hex_bench PROGRAM FOLDER [ROUNDS]");
            ExitCode::from(2)
        }
    }
}

fn measure(program: &str, folder: &Path, rounds: usize) -> ExitCode {
    let words = image();
    let mut text = vec![0; TEXT];
    if library::write(PART, &words, &mut text) != TEXT as u64 {
        eprintln!("hex_bench: the library does not write the text");
        return ExitCode::FAILURE;
    }
    println!("\nIntel HEX, full part, {TEXT} bytes of text, {rounds} rounds: the median of the ratios and their middle half");
    println!("(1.00: as long as the other; 2.00: twice as long)\n");
    in_memory(&words, &text, rounds);
    let files = Files::new(folder);
    if fs::write(&files.image, bytes(&words)).is_err() || fs::write(&files.text, &text).is_err() {
        eprintln!("hex_bench: cannot write into {}", folder.display());
        return ExitCode::FAILURE;
    }
    let whole = files.convert(program, rounds);
    files.remove();
    if whole {
        ExitCode::SUCCESS
    } else {
        ExitCode::FAILURE
    }
}

/// Words that no program can foresee.
fn image() -> Vec<u16> {
    let mut x: u64 = 0x9E37_79B9_7F4A_7C15;
    (0..WORDS)
        .map(|_| {
            x ^= x << 13;
            x ^= x >> 7;
            x ^= x << 17;
            (x >> 32) as u16
        })
        .collect()
}

fn bytes(words: &[u16]) -> Vec<u8> {
    words.iter().flat_map(|word| word.to_le_bytes()).collect()
}

/// The calls alone, on memory that is there already.
fn in_memory(words: &[u16], text: &[u8], rounds: usize) {
    let mut array = vec![0xFFFF; WORDS];
    let mut room = vec![0; TEXT];
    let mut rows = [Vec::new(), Vec::new()];
    for _ in 0..rounds {
        let ours = seconds(|| black_box(library::read(PART, text, &mut array)));
        let native = seconds(|| black_box(second::hex::read(PART, text, &mut array)));
        rows[0].push([ours, native]);
        let ours = seconds(|| black_box(library::write(PART, words, &mut room)));
        let native = seconds(|| black_box(second::hex::write(PART, words, &mut room)));
        rows[1].push([ours, native]);
    }
    for (name, row) in ["read, the call", "write, the call"].iter().zip(rows) {
        print_row(name, "native Rust", &row.iter().map(|[a, b]| a / b).collect::<Vec<_>>());
    }
}

struct Files {
    image: PathBuf,
    text: PathBuf,
    made: PathBuf,
}

impl Files {
    fn new(folder: &Path) -> Files {
        let file = |name: &str| folder.join(name);
        Files {
            image: file("bench.bin"),
            text: file("bench.hex"),
            made: file("bench.made"),
        }
    }

    /// Each program turns the same file into a file, in turn. False where one fails.
    fn convert(&self, program: &str, rounds: usize) -> bool {
        let (image, text, made) = (self.image.as_path(), self.text.as_path(), self.made.as_path());
        let read = [
            command(program, &["hex", "read", "bottom"], &[text, made], &[]),
            command("objcopy", &["-I", "ihex", "-O", "binary"], &[text, made], &[]),
            command("srec_cat", &[], &[text], &["-Intel", "-Output"]).then(made, &["-Binary"]),
        ];
        let write = [
            command(program, &["hex", "write", "bottom"], &[image, made], &[]),
            command("objcopy", &["-I", "binary", "-O", "ihex"], &[image, made], &[]),
            command("srec_cat", &[], &[image], &["-Binary", "-Output"])
                .then(made, &["-Intel", "-Output_Block_Size=16"]),
        ];
        self.turns("read, file to file", &read, rounds) && self.turns("write, file to file", &write, rounds)
    }

    fn turns(&self, name: &str, programs: &[Line], rounds: usize) -> bool {
        let mut times = vec![Vec::new(); programs.len()];
        for _ in 0..rounds {
            for (line, times) in programs.iter().zip(&mut times) {
                let _ = fs::remove_file(&self.made);
                let mut done = None;
                let time = seconds(|| done = line.run());
                match done {
                    Some(true) => times.push(time),
                    Some(false) => {
                        eprintln!("hex_bench: {} failed", line.0[0]);
                        return false;
                    }
                    None => {}
                }
            }
        }
        for (line, other) in programs[1..].iter().zip(&times[1..]) {
            if other.is_empty() {
                println!("{name:24} against {:12} not installed, not compared", line.0[0]);
                continue;
            }
            let ratios: Vec<f64> = times[0].iter().zip(other).map(|(a, b)| a / b).collect();
            print_row(name, &line.0[0], &ratios);
        }
        true
    }

    fn remove(&self) {
        for file in [&self.image, &self.text, &self.made] {
            let _ = fs::remove_file(file);
        }
    }
}

/// A program and its arguments.
struct Line(Vec<String>);

fn command(program: &str, before: &[&str], files: &[&Path], after: &[&str]) -> Line {
    let mut words = vec![program.to_string()];
    words.extend(before.iter().map(|word| word.to_string()));
    words.extend(files.iter().map(|file| file.display().to_string()));
    words.extend(after.iter().map(|word| word.to_string()));
    Line(words)
}

impl Line {
    fn then(mut self, file: &Path, after: &[&str]) -> Line {
        self.0.push(file.display().to_string());
        self.0.extend(after.iter().map(|word| word.to_string()));
        self
    }

    /// Whether it succeeded; none where it is not installed.
    fn run(&self) -> Option<bool> {
        let status = Command::new(&self.0[0])
            .args(&self.0[1..])
            .stdout(Stdio::null())
            .status();
        status.ok().map(|status| status.success())
    }
}

fn seconds<T>(work: impl FnOnce() -> T) -> f64 {
    let start = Instant::now();
    black_box(work());
    start.elapsed().as_secs_f64()
}

fn print_row(name: &str, other: &str, ratios: &[f64]) {
    let mut sorted = ratios.to_vec();
    sorted.sort_by(f64::total_cmp);
    let at = |part: usize| sorted[(sorted.len() - 1) * part / 4];
    println!("{name:24} against {other:12} {:.2} ({:.2} to {:.2})", at(2), at(1), at(3));
}
