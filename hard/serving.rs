//! Threads that serve at once, each with a record of its own: each must get what it gets alone.

use std::ffi::c_void;
use std::ptr::{null, null_mut};
use std::time::Instant;

use crate::cases::MOST_ROOM;
use crate::compare_tally::grouped;
use crate::drawn_frames::drawn_room;
use crate::draws::{GATEWAY_IP, GUEST_IP};
use crate::library::*;
use crate::stream::Stream;

/// The frames that are served over and over. Long ones would take most of the time.
const FRAMES: usize = 20_000;
const LONGEST: usize = 2_048;

/// One guest's service. The frames are the same memory for all threads.
#[derive(Clone)]
struct Service<'a> {
    library: &'a Library,
    calls: &'a [(Vec<u8>, usize)],
    guest: Guest,
    times: usize,
    /// What all answers, replies and records come to.
    digest: u64,
}

impl Service<'_> {
    fn mix(&mut self, number: u64) {
        self.digest = (self.digest ^ number)
            .wrapping_mul(0x9e37_79b9_7f4a_7c15)
            .rotate_left(29);
    }

    fn mix_bytes(&mut self, bytes: &[u8]) {
        for part in bytes.chunks(8) {
            let mut eight = [0; 8];
            eight[..part.len()].copy_from_slice(part);
            self.mix(u64::from_le_bytes(eight));
        }
    }

    fn mix_record(&mut self, guest: Guest) {
        let Guest {
            mac,
            id,
            xid,
            network,
        } = guest;
        self.mix(u64::from(id) << 32 | u64::from(xid));
        self.mix_bytes(&mac);
        self.mix_bytes(&[network.gateway, network.guest, network.mask].concat());
        self.mix(u64::from(network.lease));
    }

    fn serve(&mut self) {
        let (calls, library) = (self.calls, self.library);
        let (mut reply, mut values, mut parts) = (vec![0; MOST_ROOM], [0; 2], [0; 13]);
        // A record like this guest's, made now and then.
        let mut made = self.guest;
        for (turn, (frame, room)) in calls.iter().cycle().take(self.times).enumerate() {
            let (at, len) = (frame.as_ptr(), frame.len());
            let (out, room) = (reply.as_mut_ptr(), *room);
            let guest = &mut self.guest;
            // Of each eight calls seven are the gateway's.
            let (number, builds) = unsafe {
                match turn % 32 {
                    7 => ((library.read)(at, len, &mut parts), false),
                    15 => (u32::from((library.checksum)(at, len)), false),
                    23 => {
                        let (network, make) = (&guest.network, library.make_udp_payload);
                        let (from, to) = (network.gateway.as_ptr(), network.guest.as_ptr());
                        (
                            make(from, 53, to, 68, at, len, out, room, &mut values),
                            true,
                        )
                    }
                    31 => {
                        let (mac, make) = (guest.mac.as_ptr(), library.make_ip_frame);
                        let (from, to) = (GATEWAY_IP.as_ptr(), GUEST_IP.as_ptr());
                        let id = &mut guest.id;
                        (
                            make(id, mac, from, to, 17, at, len, out, room, &mut values),
                            true,
                        )
                    }
                    27 => {
                        let (network, make) = (&guest.network, library.make_guest);
                        let (mac, mask) = (guest.mac.as_ptr(), network.mask.as_ptr());
                        let (gateway, ip) = (network.gateway.as_ptr(), network.guest.as_ptr());
                        let lease = network.lease;
                        (make(&mut made, mac, gateway, ip, mask, 1, lease), false)
                    }
                    _ => {
                        let send = library.send;
                        (send(guest, at, len, out, room, &mut values), true)
                    }
                }
            };
            self.mix(u64::from(number));
            self.mix_record(self.guest);
            self.mix_record(made);
            for number in values.iter().chain(&parts) {
                self.mix(*number as u64);
            }
            if builds && number == REPLY {
                self.mix_bytes(&reply[..values[0].min(room)]);
            }
        }
    }
}

// Plain threads: a race detector knows these, and not what std's are joined by.
unsafe extern "C" {
    fn pthread_create(
        thread: *mut usize,
        attributes: *const c_void,
        start: extern "C" fn(*mut c_void) -> *mut c_void,
        argument: *mut c_void,
    ) -> i32;
    fn pthread_join(thread: usize, told: *mut *mut c_void) -> i32;
}

extern "C" fn serve(service: *mut c_void) -> *mut c_void {
    unsafe { (*service.cast::<Service>()).serve() };
    null_mut()
}

fn serve_at_once(services: &mut [Service]) {
    let start = |service: &mut Service| {
        let (mut thread, argument) = (0, (&raw mut *service).cast());
        let started = unsafe { pthread_create(&mut thread, null(), serve, argument) };
        assert_eq!(started, 0, "no thread");
        thread
    };
    let threads: Vec<usize> = services.iter_mut().map(start).collect();
    for thread in threads {
        assert_eq!(unsafe { pthread_join(thread, null_mut()) }, 0);
    }
}

/// Every second thread's guest has document 01's network, as all drawn frames have it; of the others each has its own, on
/// which the gateway has that address too.
fn network_of(thread: usize) -> Network {
    let own = Network {
        guest: [10, 0, 64 + thread as u8, 9],
        mask: [255, 255, 0, 0],
        lease: thread as u32,
        ..DOCUMENT_01
    };
    [DOCUMENT_01, own][thread % 2]
}

/// Whether each of the threads, at once, got what its guest got alone.
pub fn run(library: &Library, threads: usize, times: usize, seed: u64) -> bool {
    let mut stream = Stream::new(seed);
    let mut calls = vec![];
    while calls.len() < FRAMES.min(times) {
        let frame = stream.next();
        if frame.len() <= LONGEST {
            calls.push((frame, drawn_room(&mut stream.draws)));
        }
    }
    let service = |thread: usize| Service {
        library,
        calls: &calls,
        guest: Guest {
            mac: [2, 0, 0, 0, 0, thread as u8],
            id: 1 + 7_919 * thread as u16,
            xid: thread as u32,
            network: network_of(thread),
        },
        times,
        digest: 0,
    };
    let mut alone: Vec<Service> = (0..threads).map(service).collect();
    let mut at_once = alone.clone();
    let began = Instant::now();
    alone.iter_mut().for_each(Service::serve);
    let (took_alone, began) = (began.elapsed(), Instant::now());
    serve_at_once(&mut at_once);
    let took = began.elapsed();
    let same = |(alone, at_once): (&Service, &Service)| {
        (alone.digest, alone.guest) == (at_once.digest, at_once.guest)
    };
    let differing = alone
        .iter()
        .zip(&at_once)
        .filter(|both| !same(*both))
        .count();
    println!(
        "{threads} threads, {} calls each from seed {seed:#x}: alone, one after the other, {:.1} s, at once {:.1} s",
        grouped(times as u64),
        took_alone.as_secs_f64(),
        took.as_secs_f64()
    );
    println!("{differing} of {threads} threads got other answers than alone");
    differing == 0
}
