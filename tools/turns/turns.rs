//! The counters. One call of the library is counted at a time: `start`, the call, `counted`.

use std::collections::BTreeSet;
use std::sync::Mutex;
use std::sync::atomic::{AtomicU64, Ordering::Relaxed};

const MOST: usize = 64;

static TURNS: [AtomicU64; MOST] = [const { AtomicU64::new(0) }; MOST];
static TURNS_OF_RUN: [AtomicU64; MOST] = [const { AtomicU64::new(0) }; MOST];
static LONGEST_RUN: [AtomicU64; MOST] = [const { AtomicU64::new(0) }; MOST];
static CALLS: [AtomicU64; MOST] = [const { AtomicU64::new(0) }; MOST];
static DEPTH: [AtomicU64; MOST] = [const { AtomicU64::new(0) }; MOST];
static DEEPEST: [AtomicU64; MOST] = [const { AtomicU64::new(0) }; MOST];
static RUNS_OVER: Mutex<BTreeSet<RunOver>> = Mutex::new(BTreeSet::new());

#[inline]
fn add(counter: &AtomicU64, number: u64) -> u64 {
    let more = counter.load(Relaxed) + number;
    counter.store(more, Relaxed);
    more
}

fn raise(most: &AtomicU64, value: u64) {
    if most.load(Relaxed) < value {
        most.store(value, Relaxed);
    }
}

/// The function of loop `k` starts: the turns of the run before are added to the others.
pub fn run(k: usize) {
    let turns = TURNS_OF_RUN[k].load(Relaxed);
    add(&TURNS[k], turns);
    raise(&LONGEST_RUN[k], turns);
    TURNS_OF_RUN[k].store(0, Relaxed);
}

/// A run of a function that is lent `n` bytes: its loop `k`, and the turns of that.
#[derive(Clone, PartialEq, Eq, PartialOrd, Ord)]
pub struct RunOver {
    pub k: usize,
    pub n: usize,
    pub turns: u64,
}

/// The function of loop `k` starts, to go over all of its `n` bytes; it has returned once this is dropped.
pub fn run_over(k: usize, n: usize) -> Running {
    run(k);
    Running { k, n }
}

pub struct Running {
    k: usize,
    n: usize,
}

impl Drop for Running {
    fn drop(&mut self) {
        let (k, n) = (self.k, self.n);
        let turns = TURNS_OF_RUN[k].load(Relaxed);
        RUNS_OVER.lock().unwrap().insert(RunOver { k, n, turns });
    }
}

/// All such runs of all calls until now, each once.
pub fn runs_over() -> BTreeSet<RunOver> {
    RUNS_OVER.lock().unwrap().clone()
}

/// Loop `k` takes a turn.
#[inline]
pub fn turn(k: usize) {
    add(&TURNS_OF_RUN[k], 1);
}

/// What is copied by loop `k`, a turn for each byte.
#[inline]
pub fn copied(k: usize, bytes: &[u8]) -> &[u8] {
    add(&TURNS_OF_RUN[k], bytes.len() as u64);
    bytes
}

/// What is filled by loop `k`, a turn for each number.
#[inline]
pub fn filled<T>(k: usize, numbers: &mut [T]) -> &mut [T] {
    add(&TURNS_OF_RUN[k], numbers.len() as u64);
    numbers
}

/// The test of loop `k`, a turn for each byte that is tested.
#[inline]
pub fn tested(k: usize, mut test: impl FnMut(&u8) -> bool) -> impl FnMut(&u8) -> bool {
    move |byte| {
        turn(k);
        test(byte)
    }
}

/// One of the functions of recursion `k` is called; it has returned once this is dropped.
pub fn call(k: usize) -> Call {
    add(&CALLS[k], 1);
    raise(&DEEPEST[k], add(&DEPTH[k], 1));
    Call(k)
}

pub struct Call(usize);

impl Drop for Call {
    fn drop(&mut self) {
        DEPTH[self.0].store(DEPTH[self.0].load(Relaxed) - 1, Relaxed);
    }
}

/// What one call of the library took.
#[derive(Clone, Default)]
pub struct Taken {
    /// For each loop all its turns, and the most turns in one run of its function.
    pub turns: Vec<u64>,
    pub longest_run: Vec<u64>,
    /// For each recursion all calls of its functions, and how deep they were nested.
    pub calls: Vec<u64>,
    pub deepest: Vec<u64>,
}

impl Taken {
    /// All turns of all loops, and all calls of the recursions, each of which counts as a turn.
    pub fn whole(&self) -> u64 {
        self.turns.iter().chain(&self.calls).sum()
    }
}

pub fn start() {
    for counters in [
        &TURNS,
        &TURNS_OF_RUN,
        &LONGEST_RUN,
        &CALLS,
        &DEPTH,
        &DEEPEST,
    ] {
        counters
            .iter()
            .for_each(|counter| counter.store(0, Relaxed));
    }
}

pub fn counted() -> Taken {
    (0..LOOPS.len()).for_each(run);
    let read = |counters: &[AtomicU64; MOST], len: usize| {
        counters[..len]
            .iter()
            .map(|counter| counter.load(Relaxed))
            .collect()
    };
    Taken {
        turns: read(&TURNS, LOOPS.len()),
        longest_run: read(&LONGEST_RUN, LOOPS.len()),
        calls: read(&CALLS, RECURSIONS.len()),
        deepest: read(&DEEPEST, RECURSIONS.len()),
    }
}

// Behind this line counted_sources.py writes what has a counter, LOOPS and RECURSIONS, in the order of the counters, and PIECE of `sums`.
