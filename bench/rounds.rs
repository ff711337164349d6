//! The rounds: the sides of every row by turns, the best of each.

use crate::calls::Calls;

/// The machine may be busy: what disturbs one round is gone in another.
const ROUNDS: usize = 41;
/// A round of one side lasts so many nanoseconds, or longer.
const SHORTEST: u64 = 5_000_000;

/// Nanoseconds of one call.
pub struct Timed {
    pub best: f64,
    pub median: f64,
}

/// One side of a row, and what each round of it took.
struct Side<'a> {
    calls: &'a mut Calls,
    in_a_round: u64,
    rounds: Vec<f64>,
}

impl<'a> Side<'a> {
    fn new(calls: &'a mut Calls) -> Self {
        Side {
            in_a_round: enough(calls),
            calls,
            rounds: vec![],
        }
    }

    fn round(&mut self) {
        // What another row has put out of the caches comes back first.
        (self.calls)(self.in_a_round / 8 + 1);
        let took = took(self.calls, self.in_a_round);
        self.rounds.push(took as f64 / self.in_a_round as f64);
    }

    fn timed(mut self) -> Timed {
        self.rounds.sort_by(f64::total_cmp);
        Timed {
            best: self.rounds[0],
            median: self.rounds[self.rounds.len() / 2],
        }
    }
}

#[repr(C)]
struct Time {
    seconds: i64,
    nanoseconds: i64,
}

unsafe extern "C" {
    fn clock_gettime(clock: i32, time: *mut Time) -> i32;
}

/// The nanoseconds that this thread has had a processor: while another has it, they don't grow.
fn now() -> u64 {
    const OF_THIS_THREAD: i32 = 3;
    let mut time = Time {
        seconds: 0,
        nanoseconds: 0,
    };
    assert_eq!(unsafe { clock_gettime(OF_THIS_THREAD, &mut time) }, 0);
    (time.seconds * 1_000_000_000 + time.nanoseconds) as u64
}

fn took(calls: &mut Calls, number: u64) -> u64 {
    let began = now();
    calls(number);
    now() - began
}

/// So many calls that a round lasts long enough, even the quickest of three.
fn enough(calls: &mut Calls) -> u64 {
    let mut number = 1;
    while (0..3).map(|_| took(calls, number)).min().unwrap() < SHORTEST {
        number *= 2;
    }
    number
}

/// The time of each side of each row, with the gaps of those that the row doesn't have.
pub fn by_turns<const N: usize>(rows: Vec<[Option<&mut Calls>; N]>) -> Vec<[Option<Timed>; N]> {
    let mut rows: Vec<[Option<Side>; N]> = rows
        .into_iter()
        .map(|sides| sides.map(|calls| calls.map(Side::new)))
        .collect();
    for round in 0..ROUNDS {
        for sides in &mut rows {
            let mut turns = sides.each_mut();
            if round % 2 == 1 {
                turns.reverse();
            }
            for side in turns.into_iter().flatten() {
                side.round();
            }
        }
    }
    rows.into_iter()
        .map(|sides| sides.map(|side| side.map(Side::timed)))
        .collect()
}
