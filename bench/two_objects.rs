//! Times the checksum of two objects in one process: bench/two-objects says how it is run.

mod callgrind;
mod calls;
mod counted;
#[allow(dead_code)]
#[path = "../oracle/draws.rs"]
mod draws;
#[allow(dead_code)]
#[path = "../oracle/networks.rs"]
mod networks;
mod numbers;
#[allow(dead_code)]
mod rounds;

use std::hint::black_box;

use calls::{Calls, calls};
use draws::Draws;
use numbers::{grouped, nanoseconds};

const USAGE: &str =
    "usage: two_objects time | two_objects count | two_objects table INSTRUCTIONS TIMES...
  INSTRUCTIONS  what bench/count-instructions makes of `two_objects count`
  TIMES         what `two_objects time` printed: the mean of all of them is told";

type Checksum = unsafe extern "C" fn(data: *const u8, data_len: usize) -> u16;

unsafe extern "C" {
    fn before_checksum(data: *const u8, data_len: usize) -> u16;
    fn after_checksum(data: *const u8, data_len: usize) -> u16;
}

/// Before and after, the order in which they are counted and printed.
const SIDES: [Checksum; 2] = [before_checksum, after_checksum];

const LENGTHS: [usize; 25] = [
    0, 1, 2, 3, 4, 5, 6, 7, 8, 9, 10, 11, 12, 13, 14, 15, 16, 20, 28, 40, 64, 300, 576, 1_480, MOST,
];
const MOST: usize = 65_515;
/// Up to here every length is compared.
const COMPARED: usize = 3_000;
const SEED: u64 = 0x3c6e_f372_fe94_f82b;

fn main() {
    let words: Vec<String> = std::env::args().skip(1).collect();
    let words: Vec<&str> = words.iter().map(String::as_str).collect();
    match words[..] {
        ["time"] => time(),
        ["count"] => rows().iter_mut().flatten().for_each(counted::count),
        ["table", instructions, ref times @ ..] if !times.is_empty() => {
            let times: Vec<String> = times.iter().map(|file| read(file)).collect();
            print_table(&read(instructions), &times);
        }
        _ => {
            eprintln!("{USAGE}");
            std::process::exit(2);
        }
    }
}

fn read(file: &str) -> String {
    std::fs::read_to_string(file).expect(file)
}

/// In every program at the same place of a cache line.
#[repr(align(64))]
struct Bytes([u8; MOST]);

fn drawn() -> &'static [u8] {
    let mut bytes = Box::new(Bytes([0; MOST]));
    bytes.0.copy_from_slice(&Draws::new(SEED).bytes(MOST));
    &Box::leak(bytes).0
}

fn ones() -> &'static [u8] {
    &Box::leak(Box::new(Bytes([0xff; MOST]))).0
}

#[inline(always)]
fn answer(checksum: Checksum, data: &[u8]) -> u16 {
    unsafe { checksum(data.as_ptr(), data.len()) }
}

/// Stops where the two sides answer differently.
fn compare(name: &str, bytes: &[u8]) {
    let short = (0..=COMPARED).flat_map(|len| [0, 1].map(|place| (place, len)));
    for (place, len) in short.chain(LENGTHS.map(|len| (0, len))) {
        let [before, after] = SIDES.map(|checksum| answer(checksum, &bytes[place..place + len]));
        if before != after {
            eprintln!(
                "two_objects: of {len} bytes at place {place} of {name} before answers {before:#06x}, after {after:#06x}"
            );
            std::process::exit(1);
        }
    }
}

/// The calls of both sides at each length. They share one loop, so that it takes the same of both.
fn rows() -> Vec<[Calls; 2]> {
    let bytes = drawn();
    let of_length = |len| {
        let data = &bytes[..len];
        SIDES.map(|checksum| {
            calls(move || {
                black_box(answer(checksum, black_box(data)));
            })
        })
    };
    LENGTHS.map(of_length).into()
}

/// Prints a line for each length, with the best round of both sides.
fn time() {
    compare("drawn bytes", drawn());
    compare("ones", ones());
    let [before, after] = SIDES.map(|checksum| checksum as usize % 64);
    eprintln!(
        "two_objects: timing, with before {before} bytes behind a multiple of 64 and after {after}"
    );
    let mut rows = rows();
    let sides = rows.iter_mut().map(|sides| sides.each_mut().map(Some));
    for times in rounds::by_turns(sides.collect()) {
        let best = times.map(|timed| timed.unwrap().best.to_string());
        println!("{}", best.join(" "));
    }
}

fn print_table(instructions: &str, times: &[String]) {
    let counts = counted::per_call(instructions);
    let counts = counts.chunks(2).map(Some).chain(std::iter::repeat(None));
    let (titles, lines) = match instructions {
        "" => ("", ""),
        _ => (" before, instructions | after, instructions |", "--:|--:|"),
    };
    println!("| bytes | before, ns | after, ns | ratio |{titles}");
    println!("|--:|--:|--:|--:|{lines}");
    for ((len, [before, after]), counts) in LENGTHS.into_iter().zip(means(times)).zip(counts) {
        let counts = counts.unwrap_or_default().iter();
        let counts: String = counts
            .map(|count| format!(" {} |", grouped(*count)))
            .collect();
        println!(
            "| {} | {} | {} | {:.2} |{counts}",
            grouped(len as u64),
            nanoseconds(before),
            nanoseconds(after),
            after / before
        );
    }
}

/// The means of both sides at each length.
fn means(times: &[String]) -> Vec<[f64; 2]> {
    let mut means = vec![[0.0; 2]; LENGTHS.len()];
    for file in times {
        assert_eq!(file.lines().count(), LENGTHS.len());
        for (mean, line) in means.iter_mut().zip(file.lines()) {
            for (mean, word) in mean.iter_mut().zip(line.split(' ')) {
                *mean += word.parse::<f64>().expect(line) / times.len() as f64;
            }
        }
    }
    means
}
