//! Times the published Rust and the proved library in one process: bench/run says how it is run.

#[path = "../oracle/amended.rs"]
mod amended;
mod callgrind;
mod calls;
mod counted;
#[allow(dead_code)]
#[path = "../oracle/draws.rs"]
mod draws;
#[allow(dead_code)]
#[path = "../oracle/guest_frames.rs"]
mod guest_frames;
mod inputs;
#[allow(dead_code)]
#[path = "../oracle/mended.rs"]
mod mended;
#[allow(dead_code)]
#[path = "../oracle/networks.rs"]
mod networks;
mod numbers;
mod ours;
mod reassembly;
mod rounds;
mod rows;
mod sides;
mod stack;
#[allow(dead_code)]
#[path = "../oracle/the_rust.rs"]
mod the_rust;

use numbers::{grouped, nanoseconds};
use rounds::Timed;
use rows::{Goal, Row};

const USAGE: &str = "usage: bench table [INSTRUCTIONS] | bench stack | bench count
  INSTRUCTIONS  what bench/count-instructions makes of `bench count`";

fn main() {
    let words: Vec<String> = std::env::args().skip(1).collect();
    let words: Vec<&str> = words.iter().map(String::as_str).collect();
    match words[..] {
        ["table"] => print_table(""),
        ["table", file] => print_table(&std::fs::read_to_string(file).expect(file)),
        ["stack"] => print_stack(),
        ["count"] => count(),
        _ => {
            eprintln!("{USAGE}");
            std::process::exit(2);
        }
    }
}

fn print_table(instructions: &str) {
    let mut counts = counted::per_call(instructions).into_iter();
    print_beside_the_rust(&mut counts);
    println!();
    print_reassembly(&mut counts);
}

/// The times of the sides of each row, in their order.
fn timed(rows: &mut [Row]) -> Vec<[Option<Timed>; 3]> {
    let sides = rows.iter_mut().map(|row| row.sides.as_mut().in_order());
    rounds::by_turns(sides.collect())
}

fn print_beside_the_rust(counts: &mut impl Iterator<Item = u64>) {
    let mut rows = rows::all();
    let times = timed(&mut rows);
    println!(
        "| call | Rust, ns | ours, ns | ratio | goal | memcpy, ns | Rust, instructions | ours, instructions | memcpy, instructions |"
    );
    println!("|---|--:|--:|--:|---|--:|--:|--:|--:|");
    for (row, times) in rows.iter().zip(times) {
        let [rust, ours, _] = &times;
        let ratio = rust.as_ref().zip(ours.as_ref());
        let ratio = ratio.map(|(rust, ours)| ours.best / rust.best);
        let goal = row.goal.zip(ratio);
        let goal = or_dash(goal.map(|(goal, ratio)| judged(goal, ratio)));
        let ratio = or_dash(ratio.map(|ratio| format!("{ratio:.2}")));
        let [rust, ours, memcpy] = cells(times, counts);
        println!(
            "| {} | {} | {} | {ratio} | {goal} | {} | {} | {} | {} |",
            row.name, rust.time, ours.time, memcpy.time, rust.count, ours.count, memcpy.count
        );
    }
}

fn judged(goal: Goal, ratio: f64) -> String {
    let word = if ratio <= goal.0 { "met" } else { "missed" };
    // With as many digits as it has, one at least.
    format!("{:?}: {word}", goal.0)
}

fn print_reassembly(counts: &mut impl Iterator<Item = u64>) {
    let mut rows = reassembly::all();
    let times = timed(&mut rows);
    println!(
        "| call on a store | ours, ns | memcpy, ns | ours, instructions | memcpy, instructions |"
    );
    println!("|---|--:|--:|--:|--:|");
    for (row, times) in rows.iter().zip(times) {
        let [_, ours, memcpy] = cells(times, counts);
        println!(
            "| {} | {} | {} | {} | {} |",
            row.name, ours.time, memcpy.time, ours.count, memcpy.count
        );
    }
}

/// What a line says of one side.
struct Cells {
    time: String,
    count: String,
}

/// The cells of the Rust, of ours and of memcpy, with the next counts in them.
fn cells(times: [Option<Timed>; 3], counts: &mut impl Iterator<Item = u64>) -> [Cells; 3] {
    times.map(|side| {
        let (time, count) = side.map(|timed| (time(&timed), counts.next())).unzip();
        Cells {
            time: or_dash(time),
            count: or_dash(count.flatten().map(grouped)),
        }
    })
}

fn or_dash(cell: Option<String>) -> String {
    cell.unwrap_or("-".to_string())
}

/// The best round, and the median.
fn time(timed: &Timed) -> String {
    format!(
        "{} ({})",
        nanoseconds(timed.best),
        nanoseconds(timed.median)
    )
}

/// Each side of each row.
fn count() {
    for row in rows::all().iter_mut().chain(&mut reassembly::all()) {
        for calls in row.sides.as_mut().in_order().into_iter().flatten() {
            counted::count(calls);
        }
    }
}

fn print_stack() {
    println!("| call | deepest stack, bytes | on |");
    println!("|---|--:|---|");
    for deepest in stack::measured() {
        println!(
            "| {} | {} | {} |",
            deepest.export,
            grouped(deepest.bytes as u64),
            deepest.on
        );
    }
}
