//! Runs every input on the library with counters and tells, a line for each, the most turns that were counted. tools/count-turns reads them.
//! With the word `built` the drawn inputs are left out.

mod built;
mod calls;
mod counted;
mod drawn;
mod frames;
mod rows;
#[cfg(shipped)]
mod shipped;

use calls::{Call, Outcome, caught};
use drawn::Draws;
use rows::{Row, row_of};
use std::collections::BTreeMap;
use std::fmt::Display;
use turns::Taken;

/// What docs/LOOPS.md has a column for.
const COLUMNS: [&str; 3] = ["1,514", "65,549", "any length"];
const LENGTHS_OF_COLUMNS: [usize; 2] = [1_514, 65_549];
const TOLD_DIFFERENCES: usize = 20;
/// Where a checksum is held to the plain sum, what both start from beside a drawn number.
const STARTS: [u16; 5] = [0, 1, 255, 256, 65_535];
/// A longer input takes seconds, and both sums start from the drawn number alone.
const LONG: usize = 2_000_000;

/// The most that was counted of one thing, and the first input that took it.
#[derive(Default)]
struct Most {
    count: u64,
    by: String,
}

/// How many turns a call took: its function, what came of it, the letters of the formula and the turns.
type Sample = (
    &'static str,
    &'static str,
    Vec<(char, usize)>,
    u64,
    &'static str,
);

#[derive(Default)]
struct Tally {
    origin: &'static str,
    calls: usize,
    /// By what is counted, the column and where the input comes from.
    most: BTreeMap<(String, usize, &'static str), Most>,
    /// How often each function gave each answer; a checksum is no answer.
    answers: BTreeMap<(&'static str, u32), usize>,
    /// What has to fit a formula of the page, and the first input of which it was counted.
    samples: BTreeMap<Sample, String>,
    starts: Draws,
    plain_sums: usize,
    differences: usize,
}

impl Tally {
    fn differs(&mut self, told: &str, call: &Call, why: impl Display) {
        self.differences += 1;
        if self.differences <= TOLD_DIFFERENCES {
            println!("difference\t{}, {told}: {why}", call.function());
        }
    }

    fn note(&mut self, what: String, column: usize, count: u64, by: &str) {
        let most = self.most.entry((what, column, self.origin)).or_default();
        if most.count < count {
            *most = Most {
                count,
                by: by.to_string(),
            };
        }
    }

    /// A column is for the calls that are lent a frame; `in any call` is for all.
    fn note_loops(&mut self, call: &Call, taken: &Taken, column: usize, told: &str) {
        let by = format!("{}, {told}", call.function());
        for (number, longest) in taken.longest_run.iter().enumerate() {
            if call.is_lent_a_frame() {
                self.note(format!("loop\t{number}"), column, *longest, &by);
            }
            self.note(format!("loop in any call\t{number}"), column, *longest, &by);
        }
        for (number, deepest) in taken.deepest.iter().enumerate() {
            self.note(format!("deepest\t{number}"), column, *deepest, &by);
            let calls = taken.calls[number];
            self.note(format!("calls\t{number}"), column, calls, &by);
        }
    }

    fn note_all(&mut self, call: &Call, taken: &Taken, told: &str) {
        let length = call.frame_length();
        for column in 0..COLUMNS.len() {
            let belongs = LENGTHS_OF_COLUMNS
                .get(column)
                .is_none_or(|of| length.is_none_or(|length| length == *of));
            if !belongs {
                continue;
            }
            self.note_loops(call, taken, column, told);
            self.note(
                format!("call\t{}", call.function()),
                column,
                taken.whole(),
                told,
            );
        }
    }

    /// The library's sum of what a checksum goes over, beside the plain one, which no exported function calls.
    fn compare_with_plain_sum(&mut self, call: &Call, data: &[u8], told: &str) {
        let drawn = self.starts.below(65_536) as u16;
        let fixed = if data.len() < LONG { &STARTS[..] } else { &[] };
        for start in fixed.iter().copied().chain([drawn]) {
            self.plain_sums += 1;
            match caught(|| (sums::sum(start, data), sums::plain(start, data))) {
                Ok((sum, plain)) if sum == plain => {}
                Ok((sum, plain)) => {
                    let why = format!("from {start} on it sums to {sum}, and plainly to {plain}");
                    self.differs(told, call, why);
                }
                Err(panic) => self.differs(told, call, panic),
            }
        }
    }

    fn run(&mut self, told: String, call: Call) -> Option<(Outcome, u64)> {
        self.calls += 1;
        let (outcome, taken) = match call.counted() {
            Ok(counted) => counted,
            Err(panic) => {
                self.differs(&told, &call, panic);
                return None;
            }
        };
        let whole = taken.whole();
        self.note_all(&call, &taken, &told);
        let Row { title, letters } = row_of(&call, &outcome);
        self.samples
            .entry((call.function(), title, letters, whole, self.origin))
            .or_insert_with(|| told.clone());
        if !matches!(call, Call::Checksum { .. }) {
            *self
                .answers
                .entry((call.function(), outcome.number))
                .or_default() += 1;
        }
        if let Call::Checksum { data } = &call {
            self.compare_with_plain_sum(&call, data, &told);
        }
        #[cfg(shipped)]
        if call.run(&shipped::ShippedLibrary) != outcome {
            self.differs(
                &told,
                &call,
                "the library with counters does not answer as the shipped one",
            );
        }
        Some((outcome, whole))
    }
}

fn main() {
    std::panic::set_hook(Box::new(|_| {}));
    let mut tally = Tally {
        origin: "built",
        ..Tally::default()
    };
    built::each(&mut |told, call| tally.run(told, call));
    println!("calls\tbuilt\t{}", tally.calls);
    if std::env::args().nth(1).as_deref() != Some("built") {
        (tally.origin, tally.calls) = ("drawn", 0);
        drawn::each(&mut |told, call| tally.run(told, call));
        println!("calls\tdrawn\t{}", tally.calls);
    }
    for ((what, column, origin), most) in &tally.most {
        println!(
            "most\t{what}\t{}\t{origin}\t{}\t{}",
            COLUMNS[*column], most.count, most.by
        );
    }
    for ((function, number), times) in &tally.answers {
        println!("answers\t{function}\t{number}\t{times}");
    }
    for ((function, title, letters, turns, origin), by) in &tally.samples {
        let letters: Vec<String> = letters.iter().map(|(l, n)| format!("{l}={n}")).collect();
        let letters = letters.join(",");
        println!("sample\t{function}\t{title}\t{letters}\t{turns}\t{origin}\t{by}");
    }
    for run in turns::runs_over() {
        println!("run\t{}\t{}\t{}", run.k, run.n, run.turns);
    }
    println!("calls\tplain\t{}", tally.plain_sums);
    println!("differences\t{}", tally.differences);
}
