//! Checks docs/STATUS.md: the eight bits stand there in the card's order with their names and weights; each whole status word is the sum of the bits beside it,
//! and is what the real program prints at every line of an example that the row names, where the second model says that the read shows the status word,
//! or stands in the computed table; and every status word that an example or that table shows has a row. Then the page is damaged, a cell or a row at a time,
//! and each damaged page must be refused.
//!
//! usage: status_page PROGRAM EXAMPLES PAGE CASES

#[path = "second/geometry.rs"]
mod geometry;
#[path = "second/model.rs"]
mod model;
#[path = "outcome.rs"]
mod outcome;
#[path = "second/script.rs"]
mod script;
#[path = "second/steps.rs"]
mod steps;

use model::{Device, Mode};
use std::collections::{BTreeMap, BTreeSet};
use std::fs;
use std::path::Path;
use std::process::{Command, ExitCode, Stdio};
use steps::Step;

/// What the page calls the computed table.
const COMPUTED: &str = "StatusCases";

/// The heads of the page's tables.
const BITS_HEAD: &str = "| Bit | Weight | Name on the card | 1 means | Goes to 1 | Goes to 0 |";
const WORDS_HEAD: &str =
    "| Word | SR7 | SR6 | SR5 | SR4 | SR3 | SR2 | SR1 | SR0 | Read as | Shown by |";

/// Table 9 of the data sheet, from SR7 down.
const CARD: [&str; 8] = [
    "P/EC status",
    "Erase suspend status",
    "Erase/blank check status",
    "Program status",
    "VPP status",
    "Program suspend status",
    "Block protection status",
    "Bank write status",
];

/// Of each example, by its name: the status words that the program printed, by line.
type Shown = BTreeMap<String, BTreeMap<usize, u16>>;

/// What the page is held against.
struct Sources {
    shown: Shown,
    computed: BTreeSet<u16>,
}

/// A row of a whole status word.
struct Row {
    word: u16,
    cited: Vec<(String, usize)>,
}

/// The lines of a script, from 1, whose read shows the status word by the second model.
fn status_reads(input: &[u8]) -> Vec<usize> {
    let mut device = Device::power_up(script::BENCH_BOTTOM);
    let mut array = vec![0xFFFF; script::BENCH_WORDS];
    let mut lines = Vec::new();
    for (at, line) in script::lines(input).enumerate() {
        let Some(step) = script::parse(line) else {
            continue;
        };
        if let Step::Read(address) = step {
            let place = device.part.place(device.part.location(address));
            if place.is_some_and(|place| device.shown(place.bank) == Mode::Status) {
                lines.push(at + 1);
            }
        }
        device.step(&mut array, step);
    }
    lines
}

/// What the program prints for a script, line by line.
fn played(program: &str, path: &Path) -> Result<Vec<String>, String> {
    let input = fs::File::open(path).map_err(|e| format!("{}: {e}", path.display()))?;
    let output = Command::new(program)
        .stdin(Stdio::from(input))
        .output()
        .map_err(|e| format!("cannot start {program}: {e}"))?;
    if !output.status.success() || !output.stderr.is_empty() {
        return Err(format!("{}: the program had trouble", path.display()));
    }
    let text = String::from_utf8(output.stdout).map_err(|e| e.to_string())?;
    Ok(text.lines().map(str::to_string).collect())
}

/// The status words that an example shows, as the program prints them.
fn shown_by(program: &str, path: &Path) -> Result<BTreeMap<usize, u16>, String> {
    let input = fs::read(path).map_err(|e| format!("{}: {e}", path.display()))?;
    let printed = played(program, path)?;
    let word = |line: usize| {
        let answer = printed.get(line - 1)?.strip_prefix(&format!("{line} "))?;
        u16::from_str_radix(answer, 16).ok()
    };
    status_reads(&input)
        .into_iter()
        .map(|line| {
            let word = word(line).ok_or(format!("{} {line}: no word", path.display()))?;
            Ok((line, word))
        })
        .collect()
}

fn all_shown(program: &str, folder: &str) -> Result<Shown, String> {
    let mut shown = Shown::new();
    for entry in fs::read_dir(folder).map_err(|e| format!("{folder}: {e}"))? {
        let path = entry.map_err(|e| e.to_string())?.path();
        if path.extension().is_some_and(|e| e == "script") {
            let name = path.file_stem().unwrap_or_default().to_string_lossy();
            shown.insert(name.into_owned(), shown_by(program, &path)?);
        }
    }
    Ok(shown)
}

/// The status words of the computed table: its cases `ready ..` and `status ..` end in one or two of them.
fn computed(path: &str) -> Result<BTreeSet<u16>, String> {
    let text = fs::read_to_string(path).map_err(|e| format!("{path}: {e}"))?;
    let hex = |token: &str| u16::from_str_radix(token.strip_prefix("0x")?, 16).ok();
    let mut words = BTreeSet::new();
    for line in text.lines() {
        let case = line.trim_start().trim_start_matches("∷ ");
        if case.starts_with("ready ") || case.starts_with("status ") {
            words.extend(case.split(' ').rev().map_while(hex));
        }
    }
    Ok(words)
}

/// The cells of a row of a table.
fn cells(line: &str) -> Vec<&str> {
    let Some(inner) = line.strip_prefix("| ").and_then(|l| l.strip_suffix(" |")) else {
        return Vec::new();
    };
    inner.split(" | ").collect()
}

/// `92h`, of two digits
fn byte(cell: &str) -> Option<u16> {
    let digits = cell.strip_suffix('h').filter(|digits| digits.len() == 2)?;
    u16::from_str_radix(digits, 16).ok()
}

/// The page's row of a whole status word, with the bits beside it compared.
fn row_of(cells: &[&str]) -> Result<Row, String> {
    let [word, bits @ .., _, shown_by] = cells else {
        return Err(format!("{}: too few cells", cells.join(" ")));
    };
    let word = byte(word).ok_or(format!("{word}: no word"))?;
    let due: Vec<String> = (0..8).rev().map(|i| (word >> i & 1).to_string()).collect();
    if bits != due {
        return Err(format!("{word:02X}h: its bits are {}", due.join(" ")));
    }
    let cited = shown_by.split(", ").map(cited).collect::<Vec<_>>();
    if cited.iter().collect::<BTreeSet<_>>().len() != cited.len() {
        return Err(format!("{word:02X}h: a line is named twice"));
    }
    Ok(Row { word, cited })
}

/// `NAME LINE`; without a line, as the computed table is named, it is line 0.
fn cited(item: &str) -> (String, usize) {
    let line = item
        .rsplit_once(' ')
        .filter(|(_, digits)| digits.bytes().all(|b| b.is_ascii_digit()));
    match line {
        Some((name, digits)) => (name.to_string(), digits.parse().unwrap_or(0)),
        None => (item.to_string(), 0),
    }
}

/// That a row's word is shown where the row says.
fn check_row(row: &Row, sources: &Sources) -> Result<(), String> {
    for (name, line) in &row.cited {
        let word = row.word;
        if (name.as_str(), *line) == (COMPUTED, 0) {
            if !sources.computed.contains(&word) {
                return Err(format!("{word:02X}h: not in the computed table"));
            }
            continue;
        }
        let lines = sources
            .shown
            .get(name)
            .ok_or(format!("no example {name}"))?;
        match lines.get(line) {
            Some(&shown) if shown == word => {}
            Some(shown) => return Err(format!("{name} {line}: {shown:04X}, not {word:02X}h")),
            None => return Err(format!("{name} {line}: no read of the status word")),
        }
    }
    Ok(())
}

/// The rows of the page: of the eight bits, and of the whole words. Any other line with a bar is the head of a table or is refused, so that no row goes unread.
fn rows_of(page: &str) -> Result<(Vec<String>, Vec<Row>), String> {
    let (mut bits, mut rows) = (Vec::new(), Vec::new());
    for (at, line) in page.lines().enumerate() {
        let cells = cells(line);
        let rule = line.starts_with("|-") && line.bytes().all(|b| b == b'|' || b == b'-');
        match cells.first() {
            Some(first) if first.starts_with("SR") && cells.len() == 6 => {
                bits.push(cells[..3].join(" "));
            }
            Some(first) if byte(first).is_some() => rows.push(row_of(&cells)?),
            _ if rule || line == BITS_HEAD || line == WORDS_HEAD => {}
            _ if line.contains('|') => return Err(format!("line {}: no row", at + 1)),
            _ => {}
        }
    }
    Ok((bits, rows))
}

/// The whole page: how many words it has, how many lines of examples they were compared with, and how many are of the computed table.
fn check(page: &str, sources: &Sources) -> Result<(usize, usize, usize), String> {
    let (bits, rows) = rows_of(page)?;
    let due = (0..8).rev().zip(CARD);
    let due = due.map(|(i, name)| format!("SR{i} {:02X}h {name}", 1 << i));
    if bits != due.collect::<Vec<_>>() {
        return Err("the eight bits are not the card's".to_string());
    }
    rows.iter().try_for_each(|row| check_row(row, sources))?;
    let words: BTreeSet<u16> = rows.iter().map(|row| row.word).collect();
    if words.len() != rows.len() {
        return Err("a word has two rows".to_string());
    }
    let shown = sources.shown.values().flat_map(BTreeMap::values);
    if let Some(word) = shown
        .chain(&sources.computed)
        .find(|word| !words.contains(word))
    {
        return Err(format!("{word:04X} is shown, and is not on the page"));
    }
    let cited = || rows.iter().flat_map(|row| &row.cited);
    let computed = cited().filter(|(name, _)| name == COMPUTED).count();
    Ok((rows.len(), cited().count() - computed, computed))
}

/// A row with some of its cells changed.
fn changed(cells: &[&str], changes: &[(usize, &str)]) -> String {
    let mut row = cells.to_vec();
    for &(cell, text) in changes {
        row[cell] = text;
    }
    format!("| {} |", row.join(" | "))
}

/// Rows of a whole word with one thing wrong: the word, a bit, both alike, or the line that is named.
fn damaged_words(cells: &[&str], word: u16) -> Vec<String> {
    let mut rows = Vec::new();
    for bit in 0..8usize {
        let other = format!("{:02X}h", word ^ 1 << bit);
        let flipped = if cells[8 - bit] == "0" { "1" } else { "0" };
        rows.push(changed(cells, &[(0, &other)]));
        rows.push(changed(cells, &[(8 - bit, flipped)]));
        rows.push(changed(cells, &[(0, &other), (8 - bit, flipped)]));
    }
    rows.push(changed(cells, &[(10, &format!("{}1", cells[10]))]));
    rows.push(changed(cells, &[(10, "")]));
    rows
}

/// A row with one thing wrong; none where the line is no row.
fn damaged_rows(line: &str) -> Vec<String> {
    let cells = cells(line);
    let Some(first) = cells.first() else {
        return Vec::new();
    };
    let mut rows = match byte(first) {
        Some(word) => damaged_words(&cells, word),
        None if first.starts_with("SR") => vec![
            changed(&cells, &[(0, "SR8")]),
            changed(&cells, &[(1, "00h")]),
            changed(&cells, &[(2, "Status")]),
        ],
        None => Vec::new(),
    };
    rows.push(format!(" {line}"));
    rows.push(format!("|---{line}"));
    rows
}

/// Pages with one thing wrong: a damaged row, a row of the card in another's place, the columns of a head exchanged.
fn damaged(page: &str) -> Vec<String> {
    let lines: Vec<&str> = page.lines().collect();
    let mut pages = Vec::new();
    for (at, line) in lines.iter().enumerate() {
        for row in damaged_rows(line) {
            let mut all = lines.clone();
            all[at] = &row;
            pages.push(all.join("\n"));
        }
        let next = lines.get(at + 1);
        if line.starts_with("| SR") && next.is_some_and(|next| next.starts_with("| SR")) {
            let mut all = lines.clone();
            all.swap(at, at + 1);
            pages.push(all.join("\n"));
        }
    }
    pages.push(page.replace("SR5 | SR4 |", "SR4 | SR5 |"));
    pages
}

/// Pages without the row of a word that an example or the computed table shows.
fn shortened(page: &str, sources: &Sources) -> Vec<String> {
    let shown = sources.shown.values().flat_map(BTreeMap::values);
    let words: BTreeSet<&u16> = shown.chain(&sources.computed).collect();
    let without = |word: &&u16| {
        let row = format!("| {word:02X}h |");
        let rest: Vec<&str> = page.lines().filter(|l| !l.starts_with(&row)).collect();
        rest.join("\n")
    };
    words.iter().map(without).collect()
}

fn run(args: &[String]) -> Result<String, String> {
    let [program, examples, page, cases] = args else {
        return Err("usage: status_page PROGRAM EXAMPLES PAGE CASES".to_string());
    };
    let sources = Sources {
        shown: all_shown(program, examples)?,
        computed: computed(cases)?,
    };
    let page = fs::read_to_string(page).map_err(|e| format!("{page}: {e}"))?;
    let (words, lines, cases) = check(&page, &sources).map_err(|e| format!("status page: {e}"))?;
    let mut wrong = damaged(&page);
    wrong.extend(shortened(&page, &sources));
    if let Some(accepted) = wrong.iter().find(|page| check(page, &sources).is_ok()) {
        let differs = |(a, b): &(&str, &str)| a != b;
        let line = accepted.lines().zip(page.lines()).find(differs);
        return Err(format!("status page: accepted though damaged: {line:?}"));
    }
    let reads: usize = sources.shown.values().map(BTreeMap::len).sum();
    Ok(format!(
        "status page: {words} words; {lines} lines of examples compared, {cases} words of the computed table; {reads} reads of the status word in {} examples, each on the page; {} damaged pages refused",
        sources.shown.len(),
        wrong.len()
    ))
}

fn main() -> ExitCode {
    let args: Vec<String> = std::env::args().skip(1).collect();
    outcome::end(run(&args))
}
