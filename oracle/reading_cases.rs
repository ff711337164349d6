//! The list of readings: frames with what the judge says of them, each as a line.

use std::collections::{BTreeMap, HashSet};
use std::fmt::Write;

use crate::draws::{Draws, READINGS_SEED};
use crate::grammar_01::{self, Kind, Reading};
use crate::lines::hex;

#[derive(Clone, Copy, Debug, PartialEq, Eq, PartialOrd, Ord)]
pub enum Origin {
    Captured = 1,
    Damaged = 2,
    Sums = 3,
    Lengths = 4,
    Options = 5,
    Own = 6,
    Drawn = 7,
}

/// The words are the program's too, which names its rows by them.
pub const ORIGINS: [(Origin, &str); 7] = [
    (Origin::Captured, "captured as real software sent it"),
    (Origin::Damaged, "captured, and damaged"),
    (Origin::Sums, "checksums stored as 0 and 0xffff, both ways"),
    (
        Origin::Lengths,
        "lengths at a limit and one past it, and trailing bytes",
    ),
    (Origin::Options, "option lists"),
    (Origin::Own, "the Rust's replies and built frames"),
    (Origin::Drawn, "drawn at random"),
];

const SPOILED: u8 = 0x80;
/// Fewer zeros at a frame's end are written out.
const SHORTEST_ZEROS: usize = 8;

pub struct ReadingList {
    pub draws: Draws,
    text: String,
    listed: HashSet<Vec<u8>>,
    counts: BTreeMap<(u8, Origin), usize>,
    longest: usize,
}

impl ReadingList {
    pub fn new() -> Self {
        ReadingList {
            draws: Draws::new(READINGS_SEED),
            text: String::new(),
            listed: HashSet::new(),
            counts: BTreeMap::new(),
            longest: 0,
        }
    }

    pub fn comment(&mut self, words: &str) {
        writeln!(self.text, "# {words}").unwrap();
    }

    /// Lists the frame with what the judge says, unless it is listed already.
    pub fn judged(&mut self, origin: Origin, frame: &[u8]) -> Option<Reading> {
        let reading = grammar_01::read(frame);
        if let Some(Reading { layers, .. }) = &reading {
            assert!(layers.iter().all(|[_, _, stop]| *stop == frame.len()));
        }
        if self.listed.insert(frame.to_vec()) {
            self.add(0, origin, reading.as_ref(), frame);
        }
        reading
    }

    /// Lists a frame that is in the grammar and of this kind.
    pub fn taken(&mut self, origin: Origin, kind: Kind, frame: &[u8]) -> Reading {
        let broken = grammar_01::broken(frame);
        let reading = self.judged(origin, frame);
        assert!(broken.is_empty(), "{} breaks {broken:?}", hex(frame));
        let reading = reading.unwrap();
        assert_eq!(reading.kind, kind, "{}", hex(frame));
        reading
    }

    /// Lists a frame that is outside the grammar, and breaks a sentence with these words.
    pub fn refused(&mut self, origin: Origin, words: &str, frame: &[u8]) {
        let broken = grammar_01::broken(frame);
        assert!(
            broken.iter().any(|sentence| sentence.contains(words)),
            "{} breaks {broken:?} and not {words}",
            hex(frame)
        );
        self.judged(origin, frame);
    }

    /// Lists a line whose expectation is wrong on purpose.
    pub fn spoiled(&mut self, origin: Origin, claim: Option<Reading>, frame: &[u8]) {
        assert_ne!(claim, grammar_01::read(frame));
        self.add(SPOILED, origin, claim.as_ref(), frame);
    }

    fn add(&mut self, mark: u8, origin: Origin, claim: Option<&Reading>, frame: &[u8]) {
        let kind = mark + claim.map_or(0, |reading| reading.kind as u8);
        let mut fields = vec![format!("{kind:02x} {:02x}", origin as u8)];
        if let Some(reading) = claim {
            let layers = reading.layers.iter();
            fields
                .extend(layers.map(|[start, stop, end]| format!("{start:08x}{stop:08x}{end:08x}")));
            fields.extend(reading.message_type.map(|number| format!("{number:02x}")));
        }
        let zeros = frame.iter().rev().take_while(|byte| **byte == 0).count();
        let zeros = if zeros < SHORTEST_ZEROS { 0 } else { zeros };
        fields.push(format!("{zeros:08x}"));
        fields.push(hex(&frame[..frame.len() - zeros]));
        writeln!(self.text, "{}", fields.join(" ").trim_end()).unwrap();
        *self.counts.entry((kind, origin)).or_default() += 1;
        self.longest = self.longest.max(frame.len());
    }

    pub fn drawn<T>(&mut self, draw: impl FnOnce(&mut Draws) -> T) -> T {
        draw(&mut self.draws)
    }

    /// The list, its head first: what a line holds and how many there are of each kind and origin.
    pub fn finish(self) -> String {
        let mut head = String::new();
        let mut comment =
            |words: &str| writeln!(head, "{}", format!("# {words}").trim_end()).unwrap();
        comment(
            "Frames, and what document 01's grammar says of each: written by oracle/readings, whose judge",
        );
        comment(
            "is oracle/grammar_01.rs. A line: KIND ORIGIN [LAYERS] [TYPE] ZEROS FRAME (oracle/README.md).",
        );
        comment("");
        for (origin, words) in ORIGINS {
            comment(&format!("origin {:02x}: {words}", origin as u8));
        }
        comment("");
        comment("Lines by KIND, counted as they were written; 80 to 86 are wrong on purpose:");
        let numbers = ORIGINS.map(|(origin, _)| format!("{:>6}", format!("{:02x}", origin as u8)));
        comment(&format!("  origin          {}   all", numbers.concat()));
        let kinds = (0..=6u8).chain(SPOILED..=SPOILED + 6);
        for kind in kinds {
            comment(&self.row(&format!("{kind:02x} {}", name(kind)), |k| k == kind));
        }
        comment(&self.row("all but 80 to 86", |kind| kind < SPOILED));
        comment(&self.row("all", |_| true));
        comment(&format!("The longest frame has {} bytes.", self.longest));
        head + &self.text
    }

    /// What the program has to print of the list.
    pub fn tally(&self) -> String {
        let mut rows = vec![(
            "spoiled line, found wrong: ".to_string(),
            self.count(|kind| kind >= SPOILED, None),
        )];
        for (origin, words) in ORIGINS {
            let lines = self.count(|kind| kind < SPOILED, Some(origin));
            rows.push((format!("{words}: "), lines));
        }
        for kind in 0..=6 {
            let words = if kind == 0 {
                "outside the grammar"
            } else {
                name(kind)
            };
            rows.push((format!("by kind, {words}: "), self.count(|k| k == kind, None)));
        }
        rows.push((String::new(), self.count(|_| true, None)));
        rows.into_iter()
            .filter(|(_, lines)| *lines > 0)
            .map(|(words, lines)| format!("{words}{lines} agree, 0 do not\n"))
            .collect()
    }

    fn count(&self, is_of: impl Fn(u8) -> bool, origin: Option<Origin>) -> usize {
        let counts = self.counts.iter();
        counts
            .filter(|((kind, of), _)| is_of(*kind) && origin.is_none_or(|origin| origin == *of))
            .map(|(_, lines)| lines)
            .sum()
    }

    fn row(&self, words: &str, is_of: impl Fn(u8) -> bool) -> String {
        let by_origin =
            ORIGINS.map(|(origin, _)| format!("{:>6}", self.count(&is_of, Some(origin))));
        format!(
            "  {words:<16}{}{:>6}",
            by_origin.concat(),
            self.count(&is_of, None)
        )
    }
}

fn name(kind: u8) -> &'static str {
    let names = ["outside", "ARP", "ICMP", "UDP", "DHCP", "TCP", "other IPv4"];
    names[usize::from(kind % SPOILED)]
}
