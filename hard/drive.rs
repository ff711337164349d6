//! Hard use of the library: hostile frames with every byte around what is lent watched, threads that serve at once, and
//! threads with little stack. hard/guards, hard/memory, hard/threads and hard/stack say how it is run.

include!("of_oracle.rs");

mod calls;
mod deep_lists;
mod faults;
#[allow(dead_code)]
mod fuzz_input;
mod lending;
mod library;
mod run;
mod serving;
mod signals;
mod stack;
mod stream;

use std::process::exit;

use lending::{Guarded, Heap};
use library::SHIPPED;

const USAGE: &str = "usage: drive guards|memory [--frames NUMBER] [--seed NUMBER] [--fault NAME]
       drive threads [--threads NUMBER] [--calls NUMBER] [--seed NUMBER] [--fault NAME]
       drive stack [--stack BYTES] [--fault NAME]
       drive faults guards|memory|threads|stack_overflow|stack_answer
       drive seeds FOLDER";

/// What the words ask for.
struct Plan {
    frames: u64,
    threads: usize,
    calls: usize,
    stack: usize,
    seed: u64,
    fault: Option<String>,
}

fn main() {
    let words: Vec<String> = std::env::args().skip(1).collect();
    let words: Vec<&str> = words.iter().map(String::as_str).collect();
    if let ["faults", harness] = words[..] {
        faults::names_for(harness)
            .iter()
            .for_each(|name| println!("{name}"));
        return;
    }
    if let ["seeds", folder] = words[..] {
        for (name, seed) in fuzz_input::seeds() {
            std::fs::write(format!("{folder}/{name}"), seed).expect("a file");
        }
        return;
    }
    let (mode, plan) = match words.split_first() {
        Some((mode, words)) => (*mode, plan_of(words)),
        None => ("", None),
    };
    let Some(plan) = plan else { fail(USAGE) };
    let library = match &plan.fault {
        None => &SHIPPED,
        Some(name) => match faults::with_fault(name) {
            Some(library) => library,
            None => fail("there is no such fault"),
        },
    };
    let good = match mode {
        "guards" => {
            let mut draws = draws::Draws::new(plan.seed | 1);
            let lender = Guarded::new(|len| draws.bytes(len));
            run::run_between_guards(library, lender, plan.frames, plan.seed)
        }
        "memory" if lending::is_on_valgrind() => {
            let good = run::run(library, &mut Heap::new(), plan.frames, plan.seed);
            let errors = lending::valgrinds_errors();
            println!("{errors} errors told by valgrind");
            good && errors == 0
        }
        "memory" => fail("this is to be run under valgrind: hard/memory does"),
        "threads" => serving::run(library, plan.threads, plan.calls, plan.seed),
        "stack" => match stack::run(library, plan.stack) {
            Some(good) => good,
            None => fail(
                "no thread can have such a stack here: a stack has whole pages of 4,096 bytes, 16,384 or more",
            ),
        },
        _ => fail(USAGE),
    };
    exit(if good { 0 } else { 1 });
}

fn fail(words: &str) -> ! {
    eprintln!("{words}");
    exit(2);
}

fn plan_of(words: &[&str]) -> Option<Plan> {
    let mut plan = Plan {
        frames: 1_000_000,
        threads: 8,
        calls: 1_000_000,
        stack: stack::WANTED,
        seed: 0x7a61_766f_6c65_6475,
        fault: None,
    };
    for pair in words.chunks(2) {
        let [word, value] = pair else { return None };
        match (*word, number_of(value)) {
            ("--frames", Some(number @ 1..)) => plan.frames = number,
            ("--seed", Some(number)) => plan.seed = number,
            ("--threads", Some(number @ 1..=64)) => plan.threads = number as usize,
            ("--calls", Some(number @ 1..)) => plan.calls = number as usize,
            ("--stack", Some(number)) => plan.stack = number as usize,
            ("--fault", _) => plan.fault = Some(value.to_string()),
            _ => return None,
        }
    }
    Some(plan)
}

/// Decimal, or hexadecimal behind 0x.
fn number_of(word: &str) -> Option<u64> {
    let word = word.replace([',', '_'], "");
    match word.strip_prefix("0x") {
        Some(digits) => u64::from_str_radix(digits, 16).ok(),
        None => word.parse().ok(),
    }
}
