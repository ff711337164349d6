//! The text of a list: its lines, its comments, and how many lines it has of each kind.

use std::collections::BTreeMap;
use std::fmt::Write;

/// The seed whose bytes are all 0xff: they make the largest sum.
pub const ALL_ONES: u8 = 0xff;

pub fn ruled_bytes(seed: u8, len: usize) -> Vec<u8> {
    if seed == ALL_ONES {
        return vec![0xff; len];
    }
    (0..len)
        .map(|i| ((seed as usize + 17 * i) % 251) as u8)
        .collect()
}

pub fn hex(bytes: &[u8]) -> String {
    bytes.iter().map(|byte| format!("{byte:02x}")).collect()
}

/// The bytes of a line that has no comment; spaces count for nothing.
pub fn bytes_of(line: &str) -> Vec<u8> {
    let digits: Vec<char> = line.chars().filter(|digit| *digit != ' ').collect();
    digits
        .chunks(2)
        .map(|pair| u8::from_str_radix(&String::from_iter(pair), 16).unwrap())
        .collect()
}

pub struct Lines {
    text: String,
    by_kind_and_verdict: BTreeMap<(u8, Option<u8>), usize>,
}

impl Lines {
    pub fn new() -> Self {
        Lines {
            text: String::new(),
            by_kind_and_verdict: BTreeMap::new(),
        }
    }

    pub fn comment(&mut self, words: &str) {
        writeln!(self.text, "# {words}").unwrap();
    }

    pub fn add(&mut self, kind: u8, verdict: Option<u8>, line: &str) {
        self.text.push_str(line.trim_end());
        self.text.push('\n');
        *self.by_kind_and_verdict.entry((kind, verdict)).or_default() += 1;
    }

    /// Ends the list with its counts, so that a cut copy can be told from a whole one.
    pub fn finish(mut self) -> String {
        for ((kind, verdict), lines) in std::mem::take(&mut self.by_kind_and_verdict) {
            let verdict = verdict.map_or(String::new(), |number| format!(" verdict {number:02x}"));
            self.comment(&format!("kind {kind:02x}{verdict}: {lines} lines"));
        }
        self.text
    }
}
