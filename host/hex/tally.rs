//! What was compared, and how often each answer was given and each kind of text
//! was met.

use crate::second::hex::Answer;
use std::collections::BTreeMap;

/// The refusals of readings, with 0 for acceptance.
pub const READINGS: [u32; 8] = [0, 1, 7, 10, 11, 12, 13, 14];

/// The refusals of writings, with 0 for acceptance.
pub const WRITINGS: [u32; 4] = [0, 1, 7, 17];

#[derive(Default)]
pub struct Tally {
    pub texts: u64,
    /// Lines up to the one that decided.
    pub lines: u64,
    pub words: u64,
    pub written: u64,
    /// Answers to readings, by the kind of the text and the refusal.
    kinds: BTreeMap<(&'static str, u32), u64>,
    /// Answers to writings, by the refusal.
    writings: BTreeMap<u32, u64>,
    /// Texts that have a feature.
    features: BTreeMap<&'static str, u64>,
}

impl Tally {
    pub fn text(&mut self, kind: &'static str, answer: Answer) {
        self.texts += 1;
        self.lines += answer.number;
        *self.kinds.entry((kind, answer.refusal)).or_default() += 1;
    }

    pub fn writing(&mut self, answer: Answer) {
        self.written += answer.number;
        *self.writings.entry(answer.refusal).or_default() += 1;
    }

    pub fn feature(&mut self, name: &'static str) {
        *self.features.entry(name).or_default() += 1;
    }

    pub fn add(&mut self, other: Tally) {
        self.texts += other.texts;
        self.lines += other.lines;
        self.words += other.words;
        self.written += other.written;
        for (kind, times) in other.kinds {
            *self.kinds.entry(kind).or_default() += times;
        }
        for (refusal, times) in other.writings {
            *self.writings.entry(refusal).or_default() += times;
        }
        for (name, times) in other.features {
            *self.features.entry(name).or_default() += times;
        }
    }

    pub fn of_kind(&self, kind: &'static str, refusal: u32) -> u64 {
        self.kinds.get(&(kind, refusal)).copied().unwrap_or(0)
    }

    pub fn of_reading(&self, refusal: u32) -> u64 {
        let met = self.kinds.iter().filter(|((_, met), _)| *met == refusal);
        met.map(|(_, times)| times).sum()
    }

    pub fn of_writing(&self, refusal: u32) -> u64 {
        self.writings.get(&refusal).copied().unwrap_or(0)
    }

    pub fn of_feature(&self, name: &'static str) -> u64 {
        self.features.get(name).copied().unwrap_or(0)
    }

    /// One line: texts, lines and answers.
    pub fn summary(&self) -> String {
        let readings: Vec<String> = READINGS
            .iter()
            .map(|&refusal| format!("{} {}", self.of_reading(refusal), answer(refusal)))
            .collect();
        format!(
            "{} texts, {} lines: {}; {} array words compared",
            self.texts,
            self.lines,
            readings.join(", "),
            self.words
        )
    }

    pub fn writings(&self) -> String {
        let writings: Vec<String> = WRITINGS
            .iter()
            .map(|&refusal| format!("{} {}", self.of_writing(refusal), answer(refusal)))
            .collect();
        format!("writings: {}; {} bytes", writings.join(", "), self.written)
    }

    /// A line for each kind of text with the answers to it, and then one for each
    /// feature.
    pub fn table(&self) -> String {
        let mut lines: BTreeMap<&str, Vec<String>> = BTreeMap::new();
        for ((kind, refusal), times) in &self.kinds {
            let line = lines.entry(kind).or_default();
            line.push(format!("{times} {}", answer(*refusal)));
        }
        let kinds = lines
            .iter()
            .map(|(kind, line)| format!("  {kind}: {}\n", line.join(", ")));
        let features = self
            .features
            .iter()
            .map(|(name, times)| format!("  with {name}: {times}\n"));
        kinds.chain(features).collect()
    }
}

fn answer(refusal: u32) -> String {
    match refusal {
        0 => "accepted".to_string(),
        _ => format!("refused {refusal}"),
    }
}
