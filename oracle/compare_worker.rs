//! One process of the comparison: it goes round the classes, so that each is visited early, and tells
//! on standard output how far it is, what it counted and how the sides differ.

use std::io::Write;
use std::sync::atomic::Ordering;

use crate::ask_gateway::Whose;
use crate::cases::MOST_ROOM;
use crate::compare_builders::{self, Builder};
use crate::compare_call::{Input, NOW, Sides};
use crate::compare_drawn::{
    ANY_LENGTH, Captured, DRAWN, LONG_FRAMES, frame_of_any_length, long_frame, replied_to,
};
use crate::compare_every::EVERY;
use crate::compare_sample::Sample;
use crate::compare_shrink;
use crate::compare_tally::Row;
use crate::document_01::{Answer, Record, Verdict};
use crate::drawn_frames::{drawn_frame, drawn_room};
use crate::draws::Draws;
use crate::gateway_cases::{USUAL_ROOM, numbers};

pub struct Plan {
    pub seed: u64,
    /// Of all processes together.
    pub frames: u64,
    pub processes: u64,
    /// How many lines to keep of each class and verdict.
    pub sample: usize,
}

const SEQUENCES: &str = "sequences through id 65,535, our record carried on";
const ROOMS: &str = "a reply's frame once more, the room around its length";
/// A builder is called behind this many turns.
const TURNS_TO_A_BUILDER: u64 = 8;
/// In about this many rounds each exhaustive class has been visited whole, within ten million frames.
const ROUNDS_TO_ALL: usize = 75_000;
/// Rounds of all classes to one long frame, and to one sequence.
const ROUNDS_TO_A_LONG_FRAME: u64 = 20;
const ROUNDS_TO_A_SEQUENCE: u64 = 6_000;
const CALLS_OF_A_SEQUENCE: usize = 120;
/// No call is lent more.
const LARGEST_ROOM: usize = 80_000;
/// Around a payload of 65,515 bytes.
const LONGEST_REPLY: usize = 65_549;

/// Rows of the table: the exhaustive classes, the drawn ones, and these four.
const ANY_LENGTH_ROW: usize = EVERY.len() + DRAWN.len();
const LONG_FRAMES_ROW: usize = ANY_LENGTH_ROW + 1;
const SEQUENCES_ROW: usize = LONG_FRAMES_ROW + 1;
const ROOMS_ROW: usize = SEQUENCES_ROW + 1;

/// Where a class that is visited whole stands.
struct Visit {
    next: usize,
    step: usize,
}

struct Worker {
    draws: Draws,
    sides: Sides,
    captured: Captured,
    visits: Vec<Visit>,
    rows: Vec<Row>,
    builder_rows: Vec<Row>,
    sample: Sample,
    /// The guest whose record is carried on.
    mac: [u8; 6],
    xid: u32,
    frames: u64,
    builders: u64,
    /// How often our record's id went from 65,535 to 0, and how often of these in a sequence.
    wraps: u64,
    wraps_in_sequences: u64,
    /// How many datagrams were built whose checksum is computed as 0.
    all_ones: u64,
}

/// Runs as the process with this number, and says whether there was no difference.
pub fn work(plan: &Plan, process: u64) -> bool {
    std::panic::set_hook(Box::new(|told| println!("broken {told}")));
    watch_for_crashes();
    let mut worker = Worker::new(plan, process);
    let wanted = plan.frames / plan.processes + u64::from(process < plan.frames % plan.processes);
    let outcome = worker.rounds(plan, wanted);
    if let Err((input, difference)) = outcome {
        println!("differs {} {}", worker.frames, worker.builders);
        print!(
            "{}",
            compare_shrink::report(&mut worker.sides, *input, difference)
        );
        return false;
    }
    for row in &worker.rows {
        println!("row {}", row.told());
    }
    for row in &worker.builder_rows {
        println!("builder {}", row.told());
    }
    println!("wraps {} {}", worker.wraps, worker.wraps_in_sequences);
    println!("all_ones {}", worker.all_ones);
    for line in worker.sample.lines(|row| worker.rows[row].name.clone()) {
        println!("sample {line}");
    }
    println!("at {} {}", worker.frames, worker.builders);
    println!("done");
    true
}

type Found = (Box<Input>, crate::compare_call::Difference);

impl Worker {
    fn new(plan: &Plan, process: u64) -> Self {
        let mut draws = Draws::new(mixed(plan.seed, process));
        let names = EVERY.iter().map(|class| class.name);
        let names = names.chain(DRAWN.iter().map(|class| class.name));
        let visits = EVERY.iter().map(|class| Visit {
            next: process as usize,
            step: coprime_step(class.size),
        });
        Worker {
            sides: Sides::new(LARGEST_ROOM, &mut draws),
            captured: Captured::new(),
            visits: visits.collect(),
            rows: names
                .chain([ANY_LENGTH, LONG_FRAMES, SEQUENCES, ROOMS])
                .map(Row::new)
                .collect(),
            builder_rows: compare_builders::NAMES.map(Row::new).to_vec(),
            sample: Sample::new(plan.sample, plan.seed),
            mac: draws.mac(),
            xid: draws.word(),
            draws,
            frames: 0,
            builders: 0,
            wraps: 0,
            wraps_in_sequences: 0,
            all_ones: 0,
        }
    }

    fn rounds(&mut self, plan: &Plan, wanted: u64) -> Result<(), Found> {
        let mut turns = 0;
        for round in 0.. {
            for (class, every) in EVERY.iter().enumerate() {
                // Large classes have more turns, so that they are through with the others.
                for _ in 0..1 + every.size / ROUNDS_TO_ALL {
                    let visit = &mut self.visits[class];
                    if visit.next < every.size {
                        let element = visit.next * visit.step % every.size;
                        visit.next += plan.processes as usize;
                        self.frame(class, (every.frame)(element), USUAL_ROOM)?;
                    }
                }
            }
            for (class, drawn) in DRAWN.iter().enumerate() {
                for _ in 0..drawn.weight {
                    let frame = (drawn.frame)(&mut self.draws, &self.captured);
                    let room = match self.draws.below(8) {
                        0 => drawn_room(&mut self.draws),
                        _ => USUAL_ROOM,
                    };
                    self.frame(EVERY.len() + class, frame, room)?;
                    turns += 1;
                    if turns % TURNS_TO_A_BUILDER == 0 {
                        self.builder()?;
                    }
                }
            }
            if round % ROUNDS_TO_A_LONG_FRAME == ROUNDS_TO_A_LONG_FRAME / 2 {
                let frame = frame_of_any_length(&mut self.draws);
                // What a ping is answered with has its length, if its header is plain.
                let (len, short) = (frame.len(), frame.len().saturating_sub(1));
                let room = self.draws.one_of(&[MOST_ROOM, MOST_ROOM, len, short, 0]);
                self.frame(ANY_LENGTH_ROW, frame, room)?;
            }
            if round % ROUNDS_TO_A_LONG_FRAME == 0 {
                let frame = long_frame(&mut self.draws);
                // 6 is decided before 5, so a payload that is too long has to meet small rooms too.
                let rooms = [MOST_ROOM, MOST_ROOM, LONGEST_REPLY, LONGEST_REPLY - 1, 0];
                let room = self.draws.one_of(&rooms);
                self.frame(LONG_FRAMES_ROW, frame, room)?;
            }
            if round % ROUNDS_TO_A_SEQUENCE == 0 {
                self.sequence()?;
            }
            if round % 64 == 0 {
                assert!(self.sides.rust.ids.is_followed());
                println!("at {} {}", self.frames, self.builders);
                std::io::stdout().flush().unwrap();
            }
            if self.frames >= wanted {
                return Ok(());
            }
        }
        Ok(())
    }

    /// A guest's frame; now and then the guest is another one, else the record is carried on.
    fn frame(&mut self, row: usize, frame: Vec<u8>, room: usize) -> Result<(), Found> {
        if self.draws.below(8) == 0 {
            (self.mac, self.xid) = (self.draws.mac(), self.draws.word());
        }
        let mut input = Input {
            mac: self.mac,
            xid: self.xid,
            room,
            bytes: frame,
            builder: None,
        };
        let answer = self.compared(row, &input)?;
        if let (Verdict::Reply(n), 0) = (answer.verdict, self.draws.below(4)) {
            let shorter = self.draws.below(n);
            input.room = self
                .draws
                .one_of(&[n - 1, n - 1, n, n, n + 1, 0, 1, shorter]);
            input.xid = self.xid;
            self.compared(ROOMS_ROW, &input)?;
        }
        Ok(())
    }

    /// One guest's calls. Elsewhere the id is wherever the Rust's counter stands; here the record is the
    /// one that our last call left, and behind a refusal, which cost the Rust an id, the Rust is brought
    /// to it.
    fn sequence(&mut self) -> Result<(), Found> {
        let mac = self.draws.mac();
        let (mut id, mut xid) = (65_535 - self.draws.below(24) as u16, 0);
        for _ in 0..CALLS_OF_A_SEQUENCE {
            let bytes = match self.draws.below(3) {
                0 => drawn_frame(&mut self.draws),
                _ => replied_to(&mut self.draws),
            };
            self.sides.rust.ids.bring_to(id);
            let input = Input {
                mac,
                xid,
                room: drawn_room(&mut self.draws),
                bytes,
                builder: None,
            };
            let answer = self.compared(SEQUENCES_ROW, &input)?;
            (id, xid) = (answer.after.id, answer.after.xid);
        }
        Ok(())
    }

    fn compared(&mut self, row: usize, input: &Input) -> Result<Answer, Found> {
        let before = self.sides.record(input);
        let (answer, whose) = self.both(input)?;
        let (number, ..) = numbers(answer.verdict);
        self.rows[row].count(number, whose);
        if row == SEQUENCES_ROW {
            self.wraps_in_sequences += u64::from(wrapped(before, answer.after));
        }
        self.frames += 1;
        self.xid = answer.after.xid;
        self.sample
            .offer((row, number), before, input, &answer, whose);
        Ok(answer)
    }

    fn builder(&mut self) -> Result<(), Found> {
        let builder = Builder::drawn(&mut self.draws, self.builders as usize);
        let bytes = builder.payload(&mut self.draws);
        let input = Input {
            mac: self.mac,
            xid: self.xid,
            room: builder.room(&mut self.draws, bytes.len()),
            bytes,
            builder: Some(builder.clone()),
        };
        let (answer, whose) = self.both(&input)?;
        let (number, ..) = numbers(answer.verdict);
        self.builder_rows[builder.index()].count(number, whose);
        self.all_ones +=
            u64::from(builder.is_datagram() && answer.reply.get(6..8) == Some(&[0xff; 2]));
        self.builders += 1;
        Ok(())
    }

    fn both(&mut self, input: &Input) -> Result<(Answer, Whose), Found> {
        let before = self.sides.record(input);
        let compared = self.sides.compare(input);
        if let Ok((answer, _)) = &compared {
            self.wraps += u64::from(wrapped(before, answer.after));
        }
        compared.map_err(|difference| (Box::new(input.clone()), difference))
    }
}

/// Our record's id went from 65,535 to 0. Where a call is refused it stays, whatever the Rust's does.
fn wrapped(before: Record, after: Record) -> bool {
    (before.id, after.id) == (u16::MAX, 0)
}

/// A seed of each process's own, and never 0.
fn mixed(seed: u64, process: u64) -> u64 {
    let mut mixed = seed.wrapping_add((process + 1).wrapping_mul(0x9e37_79b9_7f4a_7c15));
    mixed = (mixed ^ (mixed >> 30)).wrapping_mul(0xbf58_476d_1ce4_e5b9);
    mixed = (mixed ^ (mixed >> 27)).wrapping_mul(0x94d0_49bb_1331_11eb);
    (mixed ^ (mixed >> 31)) | 1
}

/// A step that visits every element once.
fn coprime_step(size: usize) -> usize {
    let common = |mut a: usize, mut b: usize| {
        while b > 0 {
            (a, b) = (b, a % b);
        }
        a
    };
    (size * 5 / 13 + 1..)
        .find(|step| common(*step, size) == 1)
        .unwrap()
}

// Our side is linked as it is: where a faulty one crashes, the bytes it was handed are told.

unsafe extern "C" {
    fn signal(number: i32, handler: extern "C" fn(i32)) -> usize;
    fn _exit(status: i32) -> !;
}

/// SIGILL, SIGTRAP, SIGABRT, SIGBUS, SIGFPE and SIGSEGV.
const CRASHES: [i32; 6] = [4, 5, 6, 7, 8, 11];

fn watch_for_crashes() {
    for number in CRASHES {
        unsafe { signal(number, on_crash) };
    }
}

extern "C" fn on_crash(number: i32) {
    let input = unsafe { &*NOW.load(Ordering::Relaxed) };
    println!("differs 0 0");
    println!("Our side ended by signal {number} on this call, which is not made smaller:");
    print!("{}", compare_shrink::call_text(input, None));
    std::io::stdout().flush().unwrap();
    unsafe { _exit(1) };
}
