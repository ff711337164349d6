//! Calls on threads with little stack. What lies below a stack can't be touched, so a call that goes past its stack is told.
//! The reader gets the lists that take it deepest, and has to answer as document 01's grammar, read a second time, says;
//! every other function is called with less stack still.

use std::ffi::c_void;
use std::ptr::null_mut;
use std::sync::atomic::{AtomicPtr, Ordering};
use std::time::Instant;

use crate::calls::said_by_the_grammar;
use crate::cases::MOST_ROOM;
use crate::compare_tally::grouped;
use crate::deep_lists::{ENVELOPES, LONGEST, MOST_PADS, lists};
use crate::draws::{BROADCAST_IP, GATEWAY_IP, GUEST_IP, GUEST_MAC};
use crate::guest_frames::*;
use crate::lending::*;
use crate::library;
use crate::library::store::*;
use crate::library::{
    BAD_RECORD, CUT_TYPE, DNS, DOCUMENT_01, DROP, Guest, Library, MADE, NO_ROOM, Network, OUTSIDE,
    Parts, RELAY, REPLY, TOO_LONG,
};
use crate::mended::{dhcp_frame, with_header_sum};
use crate::run::shown;
use crate::signals::{self, Told};

/// What include/yavoledu.h says that the reader wants.
pub const WANTED: usize = 65_536;
const PAGE: usize = 4_096;
/// The least that a thread can have on x86-64. Every function but the reader takes less than 1 kB.
const LEAST: usize = 16_384;
const MOST: usize = 1 << 30;
const ALTERNATE: usize = 256 * 1024;
const PAINT: u8 = 0x5a;
/// Flags and offset, in the IPv4 header of a frame.
const FRAGMENT_AT: usize = BODY_AT + 6;

// Threads and their stacks.

/// More than a `pthread_attr_t` has on any machine.
type Attributes = [u64; 16];

#[repr(C)]
struct AlternateStack {
    at: *mut u8,
    flags: i32,
    bytes: usize,
}

unsafe extern "C" {
    fn pthread_attr_init(attributes: *mut Attributes) -> i32;
    fn pthread_attr_setstack(attributes: *mut Attributes, at: *mut u8, bytes: usize) -> i32;
    fn pthread_create(
        thread: *mut usize,
        attributes: *const c_void,
        start: extern "C" fn(*mut c_void) -> *mut c_void,
        argument: *mut c_void,
    ) -> i32;
    fn pthread_join(thread: usize, told: *mut *mut c_void) -> i32;
    fn sigaltstack(new: *const AlternateStack, old: *mut AlternateStack) -> i32;
}

/// The memory of a thread's stack. The thread's own bookkeeping (pthread's and what is local to a thread) lies in it too, as
/// in every thread that is made with a stack of so many bytes.
struct Stack {
    lowest: *mut u8,
    bytes: usize,
    alternate: AlternateStack,
    attributes: Attributes,
}

impl Stack {
    /// None where a thread can't have a stack of so many bytes.
    fn of(bytes: usize) -> Option<Stack> {
        if bytes % PAGE != 0 || bytes > MOST {
            return None;
        }
        let mut attributes = [0; 16];
        unsafe {
            let own = PRIVATE | FROM_NO_FILE;
            let around = mapped(null_mut(), bytes + 2 * OUT_OF_REACH, NO_ACCESS, own, -1);
            let at = around.add(OUT_OF_REACH);
            let lowest = mapped(at, bytes, READ_AND_WRITE, own | AT_THIS_ADDRESS, -1);
            lowest.write_bytes(PAINT, bytes);
            let alternate = AlternateStack {
                at: mapped(null_mut(), ALTERNATE, READ_AND_WRITE, own, -1),
                flags: 0,
                bytes: ALTERNATE,
            };
            assert_eq!(pthread_attr_init(&mut attributes), 0);
            let set = pthread_attr_setstack(&mut attributes, lowest, bytes);
            (set == 0).then_some(Stack {
                lowest,
                bytes,
                alternate,
                attributes,
            })
        }
    }

    /// Makes the call on a new thread. The words say what it is, for where it goes past the stack.
    fn run(&self, words: &dyn Fn() -> String, bytes: &[u8], call: &mut dyn FnMut()) {
        let mut job = Job {
            stack: self,
            words,
            bytes,
            call,
        };
        let (mut thread, argument) = (0, &raw mut job);
        NOW.store(argument.cast(), Ordering::Relaxed);
        unsafe {
            let attributes = (&raw const self.attributes).cast();
            let made = pthread_create(&mut thread, attributes, start, argument.cast());
            assert_eq!(made, 0, "no thread");
            assert_eq!(pthread_join(thread, null_mut()), 0);
        }
        NOW.store(null_mut(), Ordering::Relaxed);
    }

    /// How many bytes of it have been in use, by the thread or by a call.
    fn used(&self) -> usize {
        let bytes = unsafe { std::slice::from_raw_parts(self.lowest, self.bytes) };
        let untouched = bytes.iter().take_while(|byte| **byte == PAINT).count();
        self.bytes - untouched
    }
}

struct Job<'a> {
    stack: &'a Stack,
    words: &'a dyn Fn() -> String,
    /// The frame, or what else the call is lent to read.
    bytes: &'a [u8],
    call: &'a mut dyn FnMut(),
}

/// The job that a thread is doing.
static NOW: AtomicPtr<Job> = AtomicPtr::new(null_mut());

extern "C" fn start(job: *mut c_void) -> *mut c_void {
    unsafe {
        let job = &mut *job.cast::<Job>();
        assert_eq!(sigaltstack(&job.stack.alternate, null_mut()), 0);
        (job.call)();
    }
    null_mut()
}

/// On the alternate stack. It prints, which a handler may not do in general; here the program is in the library, or it
/// ends wrongly anyway.
extern "C" fn on_fault(number: i32, told: *const Told, _: *const u8) {
    let (job, address) = unsafe { (NOW.load(Ordering::Relaxed).as_ref(), (*told).address) };
    let Some(Job {
        stack,
        words,
        bytes,
        ..
    }) = job
    else {
        println!("signal {number} outside of any call");
        signals::end(1);
    };
    let (lowest, size) = (stack.lowest as usize, grouped(stack.bytes as u64));
    match lowest.checked_sub(address) {
        Some(below @ 1..=OUT_OF_REACH) => {
            println!("stack overflow: {below} bytes past a stack of {size} bytes");
        }
        _ => println!("signal {number}, but no stack overflow, on a stack of {size} bytes"),
    }
    println!("in {}", words());
    println!("{}", shown(bytes));
    signals::end(1);
}

// The reader.

/// What stands in the parts before a call. On 8 it has to stand there behind it.
const STOOD_THERE: Parts = [0x5a5a_5a5a_5a5a; 13];

#[derive(Default)]
struct Tally {
    /// Frames in the grammar, and outside it.
    inside: u64,
    outside: u64,
    /// Frames in the grammar with the most pads that a list can have.
    deepest: u64,
}

/// Whether the reader answered right on a stack of so many bytes, and every other function on the smallest. What was wrong
/// is printed. None where a thread can't have such a stack.
pub fn run(library: &Library, bytes: usize) -> Option<bool> {
    let (stack, smallest) = (Stack::of(bytes)?, Stack::of(LEAST)?);
    signals::watch_for_faults(on_fault, signals::Stack::Alternate);
    Some(reads(library, &stack) && others(library, &smallest))
}

fn reads(library: &Library, stack: &Stack) -> bool {
    let (mut tally, began) = (Tally::default(), Instant::now());
    for list in lists() {
        for envelope in ENVELOPES {
            let frame = envelope.around(&list.bytes);
            let words = || format!("yavoledu_read: {}; {}", list.words, envelope.words());
            let (mut kind, mut parts) = (0, STOOD_THERE);
            stack.run(&words, &frame, &mut || {
                kind = unsafe { (library.read)(frame.as_ptr(), frame.len(), &mut parts) };
            });
            let expected = match said_by_the_grammar(&frame) {
                (OUTSIDE, _) => (OUTSIDE, STOOD_THERE),
                said => said,
            };
            if (kind, parts) != expected {
                match expected.0 == kind {
                    false => println!(
                        "another kind than the grammar's: {kind}, not {}",
                        expected.0
                    ),
                    true => println!(
                        "other parts than the grammar's: {parts:?}, not {:?}",
                        expected.1
                    ),
                }
                println!("in {}", words());
                println!("{}", shown(&frame));
                return false;
            }
            if kind == OUTSIDE {
                tally.outside += 1;
                continue;
            }
            tally.inside += 1;
            // Zeros behind END are no pads.
            let pads = list.bytes.iter().filter(|byte| **byte == PAD).count();
            tally.deepest += u64::from(pads == MOST_PADS && list.bytes.ends_with(&[END]));
        }
    }
    let Tally {
        inside,
        outside,
        deepest,
    } = tally;
    println!(
        "yavoledu_read: {} frames in {:.0} s, each on a thread with a stack of {} bytes",
        grouped(inside + outside),
        began.elapsed().as_secs_f64(),
        grouped(stack.bytes as u64)
    );
    println!(
        "in the grammar: {}, of which {} have {} pads; outside it: {}",
        grouped(inside),
        grouped(deepest),
        grouped(MOST_PADS as u64),
        grouped(outside)
    );
    println!(
        "of the stack {} bytes were in use at most, the thread's own among them",
        grouped(stack.used() as u64)
    );
    if deepest == 0 || outside == 0 {
        println!("but no list was the deepest that can be, or none was refused");
        return false;
    }
    true
}

// The other functions.

/// Calls on a stack, each with the answer that it has to give.
struct Calls<'a> {
    library: &'a Library,
    stack: &'a Stack,
    made: u64,
    wrong: u64,
}

impl Calls<'_> {
    fn ask(&mut self, words: &str, bytes: &[u8], expected: u32, call: &mut dyn FnMut() -> u32) {
        let mut answer = u32::MAX;
        let told = || words.to_string();
        self.stack.run(&told, bytes, &mut || answer = call());
        self.made += 1;
        if answer != expected {
            println!("another answer than {expected}: {answer}");
            println!("in {words}");
            println!("{}", shown(bytes));
            self.wrong += 1;
        }
    }

    fn send(&mut self, frame: &[u8], room: usize, expected: u32) {
        let mut guest = GUEST;
        let (mut reply, mut values, send) = (vec![0; room], [0; 2], self.library.send);
        self.ask("yavoledu_send", frame, expected, &mut || unsafe {
            let (at, len) = (frame.as_ptr(), frame.len());
            send(&mut guest, at, len, reply.as_mut_ptr(), room, &mut values)
        });
    }

    fn make_guest(&mut self, ip: [u8; 4], expected: u32) {
        let (make, Network { gateway, mask, .. }) = (self.library.make_guest, DOCUMENT_01);
        let mut guest = GUEST;
        guest.network.lease = 0;
        let [mac, gateway, ip, mask] = [&GUEST_MAC[..], &gateway, &ip, &mask].map(<[u8]>::as_ptr);
        self.ask("yavoledu_make_guest", &[], expected, &mut || unsafe {
            make(&mut guest, mac, gateway, ip, mask, 1, 3_600)
        });
    }

    /// Each builder with these bytes.
    fn build(&mut self, len: usize, room: usize, expected: u32) {
        let Library {
            make_ip_frame,
            make_udp_payload,
            make_tcp_frame,
            ..
        } = *self.library;
        let (data, mut out, mut id, mut values) = (vec![7; len], vec![0; room], 1, [0; 2]);
        let (mac, from, to) = (GUEST_MAC.as_ptr(), GATEWAY_IP.as_ptr(), GUEST_IP.as_ptr());
        let (at, out) = (data.as_ptr(), out.as_mut_ptr());
        self.ask("yavoledu_make_ip_frame", &data, expected, &mut || unsafe {
            make_ip_frame(&mut id, mac, from, to, 253, at, len, out, room, &mut values)
        });
        self.ask(
            "yavoledu_make_udp_payload",
            &data,
            expected,
            &mut || unsafe { make_udp_payload(from, 67, to, 68, at, len, out, room, &mut values) },
        );
        for flags in [0x02, 0x10] {
            self.ask("yavoledu_make_tcp_frame", &data, expected, &mut || unsafe {
                make_tcp_frame(
                    &mut id,
                    mac,
                    from,
                    443,
                    to,
                    40_000,
                    1,
                    2,
                    flags,
                    at,
                    len,
                    out,
                    room,
                    &mut values,
                )
            });
        }
    }

    /// Frames for one store, one behind the other.
    fn take_and_release(&mut self) {
        let (mut state, mut bytes) = (State([7; 6]), vec![0; STORE_BYTES]);
        let (mut bits, mut payload) = ([u64::MAX; STORE_WORDS], [0; 2]);
        let (bytes, bits) = (bytes.as_mut_ptr(), bits.as_mut_ptr());
        let release = |calls: &mut Self, state: &mut State, len: usize, expected: u32| {
            calls.ask("yavoledu_release", &[], expected, &mut || unsafe {
                yavoledu_release(state, bytes, len, bits, STORE_WORDS)
            });
        };
        release(self, &mut state, STORE_BYTES - 1, UNFIT);
        release(self, &mut state, STORE_BYTES, RELEASED);
        let other = with(fragment(0, true, 8), SOURCE_AT, &[10, 0, 2, 99]);
        let frames = [
            (ping(&[7; 56]), PASSED),
            (arp(1, GATEWAY_IP), UNFIT),
            (fragment(8, true, 1_480), STORED),
            (fragment(16, true, 8), OVERLAP),
            (with_header_sum(other), HELD),
            (fragment(1_488, false, 100), STORED),
            (fragment(2_000, true, 8), WRONG_END),
            (fragment(0, true, 8), COMPLETE),
            (fragment(0, true, 8), HELD),
        ];
        for (frame, expected) in frames {
            self.ask("yavoledu_take", &frame, expected, &mut || unsafe {
                let (at, len) = (frame.as_ptr(), frame.len());
                let lent = (&mut state, &mut payload);
                yavoledu_take(
                    lent.0,
                    at,
                    len,
                    bytes,
                    STORE_BYTES,
                    bits,
                    STORE_WORDS,
                    lent.1,
                )
            });
        }
        release(self, &mut state, STORE_BYTES, RELEASED);
    }
}

const GUEST: Guest = Guest {
    mac: GUEST_MAC,
    id: 1,
    xid: 0,
    network: DOCUMENT_01,
};

/// A fragment of one datagram of the guest's.
fn fragment(offset: usize, more: bool, len: usize) -> Vec<u8> {
    let frame = packet(UDP, GATEWAY_IP, &vec![7; len]);
    let word = (offset / 8) as u16 | u16::from(more) << 13;
    with_header_sum(with(frame, FRAGMENT_AT, &word.to_be_bytes()))
}

fn others(library: &Library, stack: &Stack) -> bool {
    let mut calls = Calls {
        library,
        stack,
        made: 0,
        wrong: 0,
    };
    calls.make_guest(GUEST_IP, MADE);
    calls.make_guest(BROADCAST_IP, BAD_RECORD);
    // The gateway walks options in a loop: no list takes it deep.
    let [discover, pads, cut_type] = [
        [&DISCOVER[..3], &[PAD; MOST_PADS], &[END]].concat(),
        vec![PAD; LONGEST],
        vec![TYPE, 1],
    ]
    .map(|options| dhcp_frame(&dhcp_message(1, &options)));
    for (frame, room, expected) in [
        (&arp(1, GATEWAY_IP), MOST_ROOM, REPLY),
        (&ping(&[7; 56]), MOST_ROOM, REPLY),
        (&ping(&vec![7; 65_507]), MOST_ROOM, REPLY),
        (&ping(&vec![7; 65_508]), MOST_ROOM, TOO_LONG),
        (&ping(&[7; 56]), 97, NO_ROOM),
        (&discover, MOST_ROOM, REPLY),
        (&discover, 341, NO_ROOM),
        (&pads, MOST_ROOM, DROP),
        (&cut_type, MOST_ROOM, CUT_TYPE),
        (&dns_query(), MOST_ROOM, DNS),
        (&udp(40_000, ELSEWHERE, 9_000, &[7; 512]), MOST_ROOM, RELAY),
        (&syn(), MOST_ROOM, library::TCP),
        (&vec![], 0, DROP),
    ] {
        calls.send(frame, room, expected);
    }
    for (len, room, expected) in [
        (0, MOST_ROOM, REPLY),
        (1_460, MOST_ROOM, REPLY),
        (65_487, MOST_ROOM, REPLY),
        (65_528, MOST_ROOM, TOO_LONG),
        (1_460, 1_467, NO_ROOM),
    ] {
        calls.build(len, room, expected);
    }
    for (len, sum) in [(0, 0xffff), (140_001, 0x00ff)] {
        let (ones, checksum) = (vec![0xff; len], library.checksum);
        calls.ask("yavoledu_checksum", &ones, sum, &mut || unsafe {
            checksum(ones.as_ptr(), len).into()
        });
    }
    calls.take_and_release();
    let Calls { made, wrong, .. } = calls;
    println!(
        "the other functions: {made} calls, each on a thread with a stack of {} bytes, of which {} were in use at most",
        grouped(stack.bytes as u64),
        grouped(stack.used() as u64)
    );
    if wrong == 0 {
        println!("none at fault");
    }
    wrong == 0
}
