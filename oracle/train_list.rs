//! The list of trains as it is written, and a replay as it is made: each call with what it has to answer.

use std::collections::{BTreeMap, HashMap};
use std::fmt::Write;

use crate::draws::Draws;
use crate::reassembly_02::{COMPLETE, PASSED, RELEASED, STORED, Said, Store};
use crate::train_pieces;

const SEED: u64 = 0xa076_1d64_78bd_642f;

#[derive(Clone, Copy, Debug, PartialEq, Eq, PartialOrd, Ord)]
pub enum Origin {
    Ping = 1,
    Scapy = 2,
    Hostile = 3,
    Drawn = 4,
}

/// The words are the program's too, which names its rows by them.
const ORIGINS: [(Origin, &str); 4] = [
    (
        Origin::Ping,
        "the operating system's ping, its fragments in many orders",
    ),
    (Origin::Scapy, "scapy's trains, in many orders"),
    (Origin::Hostile, "hostile trains"),
    (Origin::Drawn, "trains drawn at random"),
];

const ANSWERS: [(u8, &str); 8] = [
    (PASSED, "calls that are to answer passed"),
    (STORED, "calls that are to answer stored"),
    (COMPLETE, "calls that are to answer complete"),
    (RELEASED, "calls that are to answer released"),
    (10, "calls that are to be refused, 10"),
    (11, "calls that are to be refused, 11"),
    (12, "calls that are to be refused, 12"),
    (13, "calls that are to be refused, 13"),
];

/// The sizes at which a store is lent, bytes and words; the first is its own.
pub const LENT: [(usize, usize); 8] = [
    (65_515, 128),
    (65_514, 128),
    (65_516, 128),
    (65_515, 127),
    (65_515, 129),
    (0, 128),
    (65_515, 0),
    (0, 0),
];

/// No frame, which is a release, and no payload.
const NONE: usize = 0x1fff;
const NUMBERS: usize = 0x2000;

/// What the program has room for.
const LONGEST_LIST: usize = 1_048_575;
const LONGEST_LINE: usize = 66_000;
const MOST_OF_A_TRAIN: usize = 1_048_576;

#[derive(Clone, Debug, PartialEq, Eq)]
pub struct Call {
    /// None for a release.
    pub frame: Option<Vec<u8>>,
    pub lent: usize,
    pub answer: u8,
    pub payload: Vec<u8>,
}

/// Calls on a store that was emptied, with what the judge says of each.
#[derive(Clone, Default)]
pub struct Replay {
    store: Store,
    pub calls: Vec<Call>,
}

impl Replay {
    pub fn new() -> Self {
        Self::default()
    }

    /// A call with the store lent at one of the sizes, and whatever the judge says.
    pub fn lent(&mut self, lent: usize, frame: Option<&[u8]>) -> Said {
        let said = match frame {
            Some(frame) => self.store.take(LENT[lent], frame),
            None => self.store.release(LENT[lent]),
        };
        self.calls.push(Call {
            frame: frame.map(<[u8]>::to_vec),
            lent,
            answer: said.answer,
            payload: said.payload.clone(),
        });
        said
    }

    pub fn judged(&mut self, frame: &[u8]) -> Said {
        self.lent(0, Some(frame))
    }

    /// A call that the judge has to answer so.
    fn answers(&mut self, answer: u8, frame: &[u8]) -> Said {
        let said = self.judged(frame);
        assert_eq!(
            said.answer,
            answer,
            "{} {}",
            said.why,
            crate::lines::hex(frame)
        );
        said
    }

    pub fn stored(&mut self, frame: &[u8]) -> &mut Self {
        self.answers(STORED, frame);
        self
    }

    /// The last missing fragment: the payload has to be this one.
    pub fn completes(&mut self, frame: &[u8], payload: &[u8]) -> &mut Self {
        assert!(
            self.answers(COMPLETE, frame).payload == payload,
            "another payload"
        );
        self
    }

    pub fn passes(&mut self, frame: &[u8], payload: &[u8]) -> &mut Self {
        assert!(
            self.answers(PASSED, frame).payload == payload,
            "another payload"
        );
        self
    }

    /// A refusal, and words of its reason.
    pub fn refused(&mut self, answer: u8, why: &str, frame: &[u8]) -> &mut Self {
        let said = self.answers(answer, frame);
        assert!(said.why.contains(why), "{} and not {why}", said.why);
        self
    }

    pub fn releases(&mut self) -> &mut Self {
        assert_eq!(self.lent(0, None).answer, RELEASED);
        self
    }

    /// All of a train's fragments, in this order, into an empty store: each is stored, and the last to
    /// come completes the datagram. That is the document's theorem, so the judge has to say it too.
    pub fn train(&mut self, frames: &[&[u8]], payload: &[u8]) -> &mut Self {
        let (last, others) = frames.split_last().unwrap();
        for frame in others {
            self.stored(frame);
        }
        self.completes(last, payload)
    }
}

pub struct TrainList {
    pub draws: Draws,
    text: String,
    origin: Origin,
    numbers: HashMap<Vec<u8>, usize>,
    length: usize,
    /// Whether the train has a replay that is right: one that has only spoiled ones is not counted.
    is_counted: bool,
    trains: BTreeMap<Origin, usize>,
    replays: BTreeMap<Origin, usize>,
    calls: BTreeMap<(Origin, u8), usize>,
    spoiled: usize,
}

impl TrainList {
    pub fn new() -> Self {
        Self::drawing_from(SEED)
    }

    pub fn drawing_from(seed: u64) -> Self {
        TrainList {
            draws: Draws::new(seed),
            text: String::new(),
            origin: Origin::Ping,
            numbers: HashMap::new(),
            length: 0,
            is_counted: false,
            trains: BTreeMap::new(),
            replays: BTreeMap::new(),
            calls: BTreeMap::new(),
            spoiled: 0,
        }
    }

    /// A new train: the frames and payloads that are listed so far are forgotten.
    pub fn train(&mut self, origin: Origin, words: &str) {
        self.origin = origin;
        self.numbers.clear();
        self.length = 0;
        self.is_counted = false;
        self.comment(words);
        self.line(&format!("00 {:02x}", origin as u8));
    }

    pub fn comment(&mut self, words: &str) {
        writeln!(self.text, "# {words}").unwrap();
    }

    pub fn replay(&mut self, replay: &Replay) {
        self.write("03", &replay.calls);
        *self.replays.entry(self.origin).or_default() += 1;
        if !self.is_counted {
            *self.trains.entry(self.origin).or_default() += 1;
            self.is_counted = true;
        }
        for call in &replay.calls {
            *self.calls.entry((self.origin, call.answer)).or_default() += 1;
        }
    }

    /// Calls with a claim that is wrong of one of them.
    pub fn spoiled(&mut self, calls: &[Call]) {
        let mut replay = Replay::new();
        for call in calls {
            replay.lent(call.lent, call.frame.as_deref());
        }
        assert_ne!(calls, replay.calls);
        self.write("83", calls);
        self.spoiled += 1;
    }

    fn write(&mut self, kind: &str, calls: &[Call]) {
        let mut line = kind.to_string();
        for call in calls {
            let frame = call
                .frame
                .as_ref()
                .map_or(NONE, |frame| self.number("01", frame));
            let payload = match &call.payload[..] {
                [] => NONE,
                payload => self.number("02", payload),
            };
            let number = call.lent * NUMBERS + frame;
            write!(line, " {number:04x}{:02x}{payload:04x}", call.answer).unwrap();
        }
        self.line(&line);
    }

    /// The number of a frame or a payload, which is listed where it isn't yet.
    fn number(&mut self, kind: &str, bytes: &[u8]) -> usize {
        if let Some(number) = self.numbers.get(bytes) {
            return *number;
        }
        let number = self.numbers.len();
        assert!(number < NONE);
        self.length += bytes.len();
        assert!(self.length <= MOST_OF_A_TRAIN);
        self.line(format!("{kind} {}", train_pieces::written(bytes)).trim_end());
        self.numbers.insert(bytes.to_vec(), number);
        number
    }

    fn line(&mut self, line: &str) {
        assert!(line.len() / 2 < LONGEST_LINE);
        self.text.push_str(line);
        self.text.push('\n');
    }

    /// The list, its head first: what a line holds, and how much there is of each origin.
    pub fn finish(self) -> String {
        let mut head = String::new();
        let mut comment =
            |words: &str| writeln!(head, "{}", format!("# {words}").trim_end()).unwrap();
        comment(
            "Trains of fragments, and what document 02's request 4/13 says of each call: written by",
        );
        comment(
            "oracle/trains, whose judge is oracle/reassembly_02.rs (oracle/README.md has the form).",
        );
        comment("");
        comment(
            "00 ORIGIN: a new train. 01 PIECES: a frame. 02 PIECES: a payload. Both are numbered from 0.",
        );
        comment(
            "03 STEPS: a replay, in a store that was emptied. 83 STEPS: one that is wrong on purpose.",
        );
        comment(
            "A step: CALL(2), the frame's number or 1fff for a release, and 2000 times how the store is",
        );
        comment(
            "lent; ANSWER(1); PAYLOAD(2), the number of what is to be handed out, or 1fff for nothing.",
        );
        comment("");
        for (origin, words) in ORIGINS {
            comment(&format!("origin {:02x}: {words}", origin as u8));
        }
        comment("");
        comment("Calls by ANSWER, counted as they were written:");
        let numbers = ORIGINS.map(|(origin, _)| format!("{:>7}", format!("{:02x}", origin as u8)));
        comment(&format!("  origin       {}    all", numbers.concat()));
        for (answer, words) in ANSWERS {
            let word = words.rsplit(' ').next().unwrap();
            let row = |origin| self.calls.get(&(origin, answer)).copied().unwrap_or(0);
            comment(&row_of(&format!("{answer:02x} {word}"), row));
        }
        let all = |origin| {
            ANSWERS
                .iter()
                .map(|(answer, _)| self.calls.get(&(origin, *answer)).unwrap_or(&0))
                .sum()
        };
        comment(&row_of("all calls", all));
        comment(&row_of("replays", |origin| {
            self.replays.get(&origin).copied().unwrap_or(0)
        }));
        comment(&row_of("trains", |origin| {
            self.trains.get(&origin).copied().unwrap_or(0)
        }));
        comment(&format!(
            "{} replays more are wrong on purpose.",
            self.spoiled
        ));
        let list = head + &self.text;
        assert!(list.len() <= LONGEST_LIST, "{} bytes", list.len());
        list
    }

    /// What the program has to print of the list.
    pub fn tally(&self) -> String {
        let mut rows = vec![("spoiled replay, found wrong: ".to_string(), self.spoiled)];
        for (origin, words) in ORIGINS {
            rows.push((
                format!("{words}: "),
                self.replays.get(&origin).copied().unwrap_or(0),
            ));
        }
        let all = rows.iter().map(|(_, replays)| replays).sum();
        for (answer, words) in ANSWERS {
            let calls = self.calls.iter().filter(|((_, of), _)| *of == answer);
            rows.push((format!("{words}: "), calls.map(|(_, calls)| calls).sum()));
        }
        rows.push((String::new(), all));
        rows.into_iter()
            .filter(|(_, cases)| *cases > 0)
            .map(|(words, cases)| format!("{words}{cases} agree, 0 do not\n"))
            .collect()
    }
}

fn row_of(words: &str, count: impl Fn(Origin) -> usize) -> String {
    let counts = ORIGINS.map(|(origin, _)| count(origin));
    let columns = counts.map(|count| format!("{count:>7}"));
    format!(
        "  {words:<13}{}{:>7}",
        columns.concat(),
        counts.iter().sum::<usize>()
    )
}
