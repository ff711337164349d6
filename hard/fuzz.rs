//! The fuzzer's target: the calls that its bytes stand for, judged by the published Rust, by document 01 read a second
//! time and, what the strict reader says, by document 01's grammar. hard/fuzz says how it is run. The Rust's frames are
//! read by oracle/amended.rs, so that a DHCP reply has document 02's ports and a datagram RFC 768's checksum; nothing else
//! is excepted.
//!
//! The library is there twice: as it ships, and with counters in it, which guide the fuzzer. Both are judged.

#![no_main]

include!("of_oracle.rs");

#[allow(dead_code)]
mod calls;
#[allow(dead_code)]
mod fuzz_input;
#[allow(dead_code)]
mod lending;
#[allow(dead_code)]
mod library;

use std::process::abort;
use std::ptr::null_mut;
use std::sync::atomic::{AtomicPtr, Ordering};

use published::SlirpBackend;

use ask_gateway::Whose;
use calls::{Answer, Plan};
use compare_builders::Builder;
use compare_rust::TheRust;
use compare_tally::grouped;
use document_01::Record;
use draws::Draws;
use fuzz_input::{Asked, Input};
use gateway_cases::numbers;
use lending::{Guarded, Lender};
use library::*;
use networks::HERE;

const GUIDING: Library = library!("guiding_");
const LIBRARIES: [(&str, Library); 2] = [("as it ships", SHIPPED), ("with counters", GUIDING)];

/// The Rust's counter of ids is looked at once in so many inputs.
const INPUTS_TO_A_LOOK: u64 = 1_024;

struct Judge {
    rust: TheRust,
    lender: Guarded,
    inputs: u64,
    sends: [u64; 8],
    builds: [u64; 8],
    checksums: u64,
    made: u64,
    not_made: u64,
    /// By kind, and outside; replies are not among them.
    reads: [u64; 9],
    replies_read: u64,
    panics: u64,
    cuts: u64,
    /// Frames of guests on other networks than the Rust's.
    elsewhere: u64,
}

/// The fuzzer has one thread. At its exit nothing that belongs to a thread is left.
static JUDGE: AtomicPtr<Judge> = AtomicPtr::new(null_mut());

unsafe extern "C" {
    fn atexit(at_exit: extern "C" fn()) -> i32;
}

#[unsafe(no_mangle)]
pub extern "C" fn LLVMFuzzerTestOneInput(bytes: *const u8, len: usize) -> i32 {
    // Of no bytes the fuzzer may give no address.
    let bytes = match len {
        0 => &[],
        _ => unsafe { std::slice::from_raw_parts(bytes, len) },
    };
    if JUDGE.load(Ordering::Relaxed).is_null() {
        JUDGE.store(Box::into_raw(Box::new(Judge::new())), Ordering::Relaxed);
    }
    unsafe { (*JUDGE.load(Ordering::Relaxed)).judge(bytes) };
    0
}

unsafe extern "C" {
    fn LLVMFuzzerMutate(bytes: *mut u8, len: usize, most: usize) -> usize;
}

/// The fuzzer's own changes, in one place of what the input stands for; one time in four in any place of the bytes.
#[unsafe(no_mangle)]
pub extern "C" fn LLVMFuzzerCustomMutator(
    bytes: *mut u8,
    len: usize,
    most: usize,
    seed: u32,
) -> usize {
    let mut draws = Draws::new(0x9e37_79b9_7f4a_7c15 ^ u64::from(seed) << 16);
    let mutate = |part: &[u8], most: usize| {
        let mut mutated = [part, &vec![0; most.saturating_sub(part.len())]].concat();
        let len = unsafe { LLVMFuzzerMutate(mutated.as_mut_ptr(), part.len(), mutated.len()) };
        mutated.truncate(len);
        mutated
    };
    unsafe {
        if draws.below(4) == 0 {
            return LLVMFuzzerMutate(bytes, len, most);
        }
        let input = Input::written(std::slice::from_raw_parts(bytes, len));
        let mut mutated = input.mutated(&mut draws, mutate);
        mutated.truncate(most);
        bytes.copy_from_nonoverlapping(mutated.as_ptr(), mutated.len());
        mutated.len()
    }
}

extern "C" fn at_exit() {
    unsafe { (*JUDGE.load(Ordering::Relaxed)).print() };
}

fn differs(library: &str, what: &str, input: &dyn std::fmt::Debug) -> ! {
    eprintln!("a difference, of the library {library}: {what}\n{input:?}");
    abort();
}

/// What has to be answered, in the form that our side answers.
fn expected(answer: &document_01::Answer) -> Answer {
    let (number, value, len) = numbers(answer.verdict);
    Answer {
        number: number.into(),
        values: [value, len],
        reply: answer.reply.clone(),
        after: guest_of(answer.after),
    }
}

fn guest_of(record: Record) -> Guest {
    Guest {
        mac: record.mac,
        id: record.id,
        xid: record.xid,
        network: Network::of_oracle(record.network),
    }
}

impl Judge {
    fn new() -> Self {
        unsafe { atexit(at_exit) };
        let mut draws = Draws::new(1);
        Judge {
            rust: TheRust::new(),
            lender: Guarded::new(|len| draws.bytes(len)),
            inputs: 0,
            sends: [0; 8],
            builds: [0; 8],
            checksums: 0,
            made: 0,
            not_made: 0,
            reads: [0; 9],
            replies_read: 0,
            panics: 0,
            cuts: 0,
            elsewhere: 0,
        }
    }

    fn judge(&mut self, bytes: &[u8]) {
        self.inputs += 1;
        if self.inputs % INPUTS_TO_A_LOOK == 0 {
            assert!(self.rust.ids.is_followed());
        }
        let input = Input::written(bytes);
        let mut record = input.record(0);
        for (asked, room) in input.calls() {
            // The id is where the Rust's counter stands, since that is one for the process. Behind a call that the
            // Rust answered this is the record as our side left it.
            record.id = self.rust.ids.next();
            match asked {
                Asked::Frame(frame) => record.xid = self.sent(record, &frame, room).after.xid,
                Asked::Built(Builder::Made(call), payload) => {
                    let builder = Builder::Made(call);
                    self.built(record, &builder, &payload, room);
                }
                Asked::Built(_, data) => self.summed(&data),
                Asked::Record(plan) => self.made(record, &plan),
            }
        }
    }

    fn note(&mut self, whose: Whose) {
        self.panics += u64::from(whose == Whose::WherePanics);
        self.cuts += u64::from(whose == Whose::WhereCuts);
    }

    /// A guest's frame: document 01's answer and ours are the same, where the network is the Rust's so is the Rust's, and so
    /// is what the reader says of frame and reply and what the grammar says.
    fn sent(&mut self, record: Record, frame: &[u8], room: usize) -> Answer {
        let said = document_01::answer(record, frame, room);
        if record.network == HERE {
            self.ask_the_rust(record, frame, room, &said);
        } else {
            self.elsewhere += 1;
        }
        let expected = expected(&said);
        self.ask(record, frame, room, &expected);
        let n = expected.reply.len();
        if n > 0 {
            // The Rust knows no room: one byte less is document 01's rule.
            let no_room = Answer {
                number: NO_ROOM,
                values: [n, 0],
                reply: vec![],
                after: guest_of(record),
            };
            self.ask(record, frame, n - 1, &no_room);
            self.ask(record, frame, n, &expected);
            if self.read(&expected.reply) == OUTSIDE {
                differs("of both", "a reply is outside the grammar", &expected);
            }
            self.replies_read += 1;
        }
        let kind = self.read(frame);
        self.reads[kind as usize] += 1;
        self.sends[expected.number as usize] += 1;
        expected
    }

    fn ask_the_rust(
        &mut self,
        record: Record,
        frame: &[u8],
        room: usize,
        said: &document_01::Answer,
    ) {
        let (rusts, whose) = match self.rust.answer(record, frame, room) {
            Ok(answered) => answered,
            Err(deed) => differs("published", &deed, &(record, frame, room)),
        };
        self.note(whose);
        if *said != rusts {
            let what = format!("the Rust {rusts:?}, document 01 {said:?}");
            differs("published", &what, &(record, frame, room));
        }
    }

    /// Our answer to the call, from each library and with the frame at each place in memory.
    fn ask(&mut self, record: Record, frame: &[u8], room: usize, expected: &Answer) {
        for (name, library) in &LIBRARIES {
            for place in 0..Guarded::PLACES {
                self.lender.go_to(place);
                let guest = guest_of(record);
                let ours = calls::send(&mut self.lender, library, guest, frame, room);
                if ours.as_ref() != Ok(expected) {
                    let what = format!("expected {expected:?}, ours {ours:?}");
                    differs(name, &what, &(record, frame, room));
                }
            }
        }
    }

    fn read(&mut self, frame: &[u8]) -> u32 {
        let says = calls::said_by_the_grammar(frame);
        for (name, library) in &LIBRARIES {
            self.lender.go_to(0);
            let ours = calls::read(&mut self.lender, library, frame);
            if ours != Ok(says) {
                let what = format!("the grammar says {says:?}, the reader {ours:?}");
                differs(name, &what, &frame);
            }
        }
        says.0
    }

    fn built(&mut self, record: Record, builder: &Builder, payload: &[u8], room: usize) {
        let Builder::Made(call) = builder else {
            return;
        };
        let (rusts, whose) = match builder.expected(&mut self.rust, record, payload, room) {
            Ok(answered) => answered,
            Err(deed) => differs("published", &deed, &(record, call, payload, room)),
        };
        self.note(whose);
        let expected = expected(&rusts);
        for (name, library) in &LIBRARIES {
            self.lender.go_to(0);
            let guest = guest_of(record);
            let ours = calls::make(&mut self.lender, library, guest, call, payload, room);
            if ours.as_ref() != Ok(&expected) {
                let what = format!("expected {expected:?}, ours {ours:?}");
                differs(name, &what, &(record, call, payload, room));
            }
        }
        self.builds[expected.number as usize] += 1;
    }

    fn summed(&mut self, data: &[u8]) {
        // Past this length the Rust's 32 bits are not certain, and document 01's rule is the judge.
        let sum = match data.len() {
            0..=131_074 => SlirpBackend::checksum(data),
            _ => u16::from_be_bytes(document_01::checksum(data)),
        };
        for (name, library) in &LIBRARIES {
            self.lender.go_to(0);
            let ours = calls::checksum(&mut self.lender, library, data);
            if ours != Ok(sum) {
                differs(name, &format!("checksum {sum}, ours {ours:?}"), &data);
            }
        }
        self.checksums += 1;
    }

    /// A record made over this one: document 02 is the judge, in `calls`.
    fn made(&mut self, record: Record, plan: &Plan) {
        let mut number = 0;
        for (name, library) in &LIBRARIES {
            for place in 0..Guarded::PLACES {
                self.lender.go_to(place);
                let made = calls::make_guest(&mut self.lender, library, guest_of(record), plan);
                number = made.unwrap_or_else(|what| differs(name, &what, &(record, plan)));
            }
        }
        match number {
            MADE => self.made += 1,
            _ => self.not_made += 1,
        }
    }

    fn print(&self) {
        let list = |counts: &[u64]| {
            let counts: Vec<_> = counts.iter().map(|count| grouped(*count)).collect();
            counts.join(" / ")
        };
        let builds = [1, 5, 6].map(|number| self.builds[number]);
        println!("judged, of {} inputs:", grouped(self.inputs));
        println!("  frames, verdicts 0 to 7: {}", list(&self.sends));
        println!(
            "  of these the Rust panics on {} and cuts a length of {}, builders included; {} are of other networks",
            grouped(self.panics),
            grouped(self.cuts),
            grouped(self.elsewhere)
        );
        println!(
            "  read strictly, kinds 1 to 6, and outside: {} / {}; replies read: {}",
            list(&self.reads[1..7]),
            grouped(self.reads[8]),
            grouped(self.replies_read)
        );
        println!("  builders, 1 / 5 / 6: {}", list(&builds));
        println!("  checksums: {}", grouped(self.checksums));
        println!(
            "  records, 24 / 9: {} / {}",
            grouped(self.made),
            grouped(self.not_made)
        );
    }
}
