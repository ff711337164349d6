//! The comparison of the published Rust with the proved code, on the network that both are compiled for:
//! oracle/compare says how it is run. The one exception from equality is `amended.rs`: the ports of a DHCP
//! reply, and every datagram's checksum.

mod amended;
#[allow(dead_code)]
mod ask_dhcp;
#[allow(dead_code)]
mod ask_gateway;
#[allow(dead_code)]
mod captured;
#[allow(dead_code)]
mod cases;
mod compare_builders;
mod compare_call;
mod compare_drawn;
mod compare_every;
mod compare_grammar;
mod compare_long_sums;
mod compare_makings;
mod compare_ours;
mod compare_rust;
mod compare_sample;
mod compare_shrink;
mod compare_tally;
mod compare_worker;
#[allow(dead_code)]
mod dhcp_cases;
#[allow(dead_code)]
mod dhcp_vectors;
mod document_01;
mod drawn_frames;
#[allow(dead_code)]
mod draws;
#[allow(dead_code)]
mod gateway_cases;
#[allow(dead_code)]
mod gateway_sequences;
#[allow(dead_code)]
mod grammar_01;
#[allow(dead_code)]
mod guest_frames;
#[allow(dead_code)]
mod lines;
mod making_02;
#[allow(dead_code)]
mod mended;
#[allow(dead_code)]
mod networks;
mod pieces;
#[allow(dead_code)]
mod the_rust;

use std::io::{BufRead, BufReader};
use std::process::{Child, Command, Stdio, exit};
use std::sync::mpsc::{RecvTimeoutError, Sender, channel};
use std::thread;
use std::time::{Duration, Instant};

use compare_every::EVERY;
use compare_tally::{Row, grouped, sum};
use compare_worker::Plan;
use networks::NUMBER;

const USAGE: &str =
    "usage: compare [--seed NUMBER] [--frames NUMBER] [--processes NUMBER] [--sample NUMBER] [--records 1 | --long-sums 1]
  with --records the call that makes a record is compared instead, with --long-sums the sums of inputs past a piece
  at least 1 frame and 1 to 64 processes; oracle/compare --help says what each word is";

const FRAMES: u64 = 60_000_000;
/// A run of this many frames or more has to reach every verdict in its table.
const NO_SMALL_RUN: u64 = 1_000_000;

pub fn main() {
    let words: Vec<String> = std::env::args().skip(1).collect();
    let mut plan = Plan {
        seed: seed_of_this_moment(),
        frames: FRAMES,
        processes: 1,
        sample: 0,
    };
    let (mut process, mut records, mut long_sums) = (None, false, false);
    for pair in words.chunks(2) {
        let number = pair.get(1).and_then(|word| number_of(word));
        match (pair[0].as_str(), number) {
            ("--seed", Some(number)) => plan.seed = number,
            ("--frames", Some(number @ 1..)) => plan.frames = number,
            ("--processes", Some(number @ 1..=64)) => plan.processes = number,
            ("--sample", Some(number)) => plan.sample = number as usize,
            ("--process", Some(number)) => process = Some(number),
            ("--records", Some(1)) => records = true,
            ("--long-sums", Some(1)) => long_sums = true,
            _ => {
                eprintln!("{USAGE}");
                exit(2);
            }
        }
    }
    let is_good = match process {
        _ if records => compare_makings::run(plan.seed),
        _ if long_sums => compare_long_sums::run(plan.seed),
        Some(process) => compare_worker::work(&plan, process),
        None => run(&plan),
    };
    exit(if is_good { 0 } else { 1 });
}

/// Decimal, or hexadecimal behind 0x.
fn number_of(word: &str) -> Option<u64> {
    let word = word.replace([',', '_'], "");
    match word.strip_prefix("0x") {
        Some(digits) => u64::from_str_radix(digits, 16).ok(),
        None => word.parse().ok(),
    }
}

fn seed_of_this_moment() -> u64 {
    let now = std::time::SystemTime::now().duration_since(std::time::UNIX_EPOCH);
    now.unwrap().as_nanos() as u64 ^ u64::from(std::process::id()) << 32
}

enum Heard {
    Line(usize, String),
    Ended(usize),
}

/// What the processes have told so far.
#[derive(Default)]
struct Told {
    at: Vec<(u64, u64)>,
    rows: Vec<Row>,
    builders: Vec<Row>,
    wraps: u64,
    wraps_in_sequences: u64,
    all_ones: u64,
    samples: Vec<String>,
    done: usize,
    differs: bool,
    text: String,
}

impl Told {
    fn hear(&mut self, process: usize, line: &str) {
        if self.differs {
            self.text += line;
            self.text.push('\n');
            return;
        }
        let (word, rest) = line.split_once(' ').unwrap_or((line, ""));
        match word {
            "at" | "differs" => {
                let (frames, builders) = rest.split_once(' ').unwrap();
                let at = (frames.parse().unwrap(), builders.parse().unwrap());
                if at != (0, 0) {
                    self.at[process] = at;
                }
                self.differs = word == "differs";
            }
            "row" => add(&mut self.rows, Row::heard(rest)),
            "builder" => add(&mut self.builders, Row::heard(rest)),
            "wraps" => {
                let (all, in_sequences) = rest.split_once(' ').unwrap();
                self.wraps += all.parse::<u64>().unwrap();
                self.wraps_in_sequences += in_sequences.parse::<u64>().unwrap();
            }
            "all_ones" => self.all_ones += rest.parse::<u64>().unwrap(),
            "sample" => self.samples.push(rest.to_string()),
            "done" => self.done += 1,
            _ => {
                self.differs = true;
                self.text = format!("{line}\n");
            }
        }
    }

    fn calls(&self) -> (u64, u64) {
        let both = |sum: (u64, u64), at: &(u64, u64)| (sum.0 + at.0, sum.1 + at.1);
        self.at.iter().fold((0, 0), both)
    }
}

fn add(rows: &mut Vec<Row>, row: Row) {
    match rows.iter_mut().find(|known| known.name == row.name) {
        Some(known) => known.add(&row),
        None => rows.push(row),
    }
}

fn run(plan: &Plan) -> bool {
    let began = Instant::now();
    eprintln!(
        "network {NUMBER}, seed {:#x}, {} frames, {} {}",
        plan.seed,
        grouped(plan.frames),
        plan.processes,
        if plan.processes == 1 {
            "process"
        } else {
            "processes"
        }
    );
    let (sender, heard) = channel();
    let mut children: Vec<Child> = (0..plan.processes as usize)
        .map(|process| started(plan, process, sender.clone()))
        .collect();
    drop(sender);
    let mut told = Told {
        at: vec![(0, 0); children.len()],
        ..Told::default()
    };
    let (mut ended, mut shown, mut differing) = (0, Instant::now(), None);
    while ended < children.len() {
        match heard.recv_timeout(Duration::from_secs(1)) {
            // Behind a difference only the process that found it is listened to.
            Ok(Heard::Line(process, line)) => {
                if differing.is_none() || differing == Some(process) {
                    told.hear(process, &line);
                }
                if told.differs && differing.is_none() {
                    differing = Some(process);
                    let (frames, builders) = told.calls();
                    eprintln!(
                        "\na difference behind {:.1} s, {} frames and {} builder calls; it is made smaller",
                        began.elapsed().as_secs_f64(),
                        grouped(frames),
                        grouped(builders)
                    );
                }
            }
            Ok(Heard::Ended(process)) => {
                ended += 1;
                if differing == Some(process) {
                    break;
                }
            }
            Err(RecvTimeoutError::Timeout) => {}
            Err(RecvTimeoutError::Disconnected) => break,
        }
        if shown.elapsed() > Duration::from_secs(1) && !told.differs {
            shown = Instant::now();
            let (frames, builders) = told.calls();
            let seconds = began.elapsed().as_secs_f64();
            eprint!(
                "\r{seconds:6.0} s  {} frames, {} builder calls, 0 differences, {} a second ",
                grouped(frames),
                grouped(builders),
                grouped((frames as f64 / seconds) as u64)
            );
        }
    }
    eprintln!();
    for child in &mut children {
        let _ = child.kill();
        let _ = child.wait();
    }
    if told.differs || told.done < children.len() {
        print!("{}", told.text);
        println!(
            "seed {:#x}: the sides differ, or a process did not end",
            plan.seed
        );
        return false;
    }
    let (text, good) = table(plan, &told, began.elapsed());
    if plan.sample == 0 {
        print!("{text}");
        return good;
    }
    eprint!("{text}");
    println!(
        "# oracle/compare --seed {:#x} --frames {} --processes {} --sample {}",
        plan.seed, plan.frames, plan.processes, plan.sample
    );
    for line in &told.samples {
        println!("{line}");
    }
    good
}

fn started(plan: &Plan, process: usize, sender: Sender<Heard>) -> Child {
    let words = [
        ("--seed", plan.seed),
        ("--frames", plan.frames),
        ("--processes", plan.processes),
        ("--sample", plan.sample as u64),
        ("--process", process as u64),
    ];
    let mut command = Command::new(std::env::current_exe().expect("the program's own path"));
    for (word, number) in words {
        command.args([word, &number.to_string()]);
    }
    let mut child = command.stdout(Stdio::piped()).spawn().expect("a process");
    let output = child.stdout.take().unwrap();
    thread::spawn(move || {
        for line in BufReader::new(output).lines().map_while(Result::ok) {
            if sender.send(Heard::Line(process, line)).is_err() {
                return;
            }
        }
        let _ = sender.send(Heard::Ended(process));
    });
    child
}

/// How much of an exhaustive class was visited.
fn visited(calls: u64, of_all: Option<u64>) -> String {
    match of_all {
        None => String::new(),
        Some(all) if calls == all => "   all".to_string(),
        Some(all) => format!("   of {}", grouped(all)),
    }
}

/// The table, and whether nothing in it was starved.
fn table(plan: &Plan, told: &Told, took: Duration) -> (String, bool) {
    let frames = sum("all frames", &told.rows);
    let builders = sum("all builder calls", &told.builders);
    let mut lines = vec![compare_tally::head()];
    for row in told.rows.iter().chain([&frames]) {
        let every = EVERY.iter().find(|class| class.name == row.name);
        let of_all = every.map(|class| class.size as u64);
        lines.push(compare_tally::line(row) + &visited(row.calls(), of_all));
    }
    lines.push(String::new());
    for row in told.builders.iter().chain([&builders]) {
        lines.push(compare_tally::line(row));
    }
    lines.push(format!(
        "\nOur record's id went from 65,535 to 0 {} times, {} of them in a sequence; the Rust panicked {} times and cut a length {} times.",
        grouped(told.wraps),
        grouped(told.wraps_in_sequences),
        grouped(frames.panics + builders.panics),
        grouped(frames.cuts + builders.cuts)
    ));
    lines.push(format!(
        "{} datagrams were built whose checksum is computed as 0 and sent as 0xffff.",
        grouped(told.all_ones)
    ));
    lines.push(format!(
        "network {NUMBER}, seed {:#x}, processes {}, {:.0} s: {} frames, {} builder calls, 0 differences",
        plan.seed,
        plan.processes,
        took.as_secs_f64(),
        grouped(frames.calls()),
        grouped(builders.calls())
    ));
    let built = [1, 5, 6].map(|verdict| builders.verdicts[verdict]);
    let deeds = [
        told.wraps,
        told.wraps_in_sequences,
        told.all_ones,
        frames.panics,
        frames.cuts,
        builders.panics,
        builders.cuts,
    ];
    let rows = told.rows.iter().chain(&told.builders).map(Row::calls);
    let mut counts = frames
        .verdicts
        .into_iter()
        .chain(built)
        .chain(deeds)
        .chain(rows);
    let starved = plan.frames >= NO_SMALL_RUN && counts.any(|count| count == 0);
    let counted = (frames.calls(), builders.calls()) == told.calls();
    if starved || !counted {
        lines.push(
            "but a verdict, a class or a deed was never met, or calls were not counted".to_string(),
        );
    }
    (lines.join("\n") + "\n", counted && !starved)
}
