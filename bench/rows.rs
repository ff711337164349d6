//! The rows of the table: what is timed on each side, and that both sides do the same.

use std::hint::black_box;
use std::ptr::copy_nonoverlapping;

use published::handed::{self, To};
use published::{NetworkBackend, SlirpBackend};

use crate::amended::{amended_datagram, pushed};
use crate::calls::{Calls, calls};
use crate::draws::{GUEST_IP, GUEST_MAC};
use crate::guest_frames::{ELSEWHERE, dns_query};
use crate::inputs;
use crate::networks::{BROADCAST, HERE};
use crate::ours::{self, Guest, Network};
use crate::sides::Sides;
use crate::the_rust::IdCounter;

pub struct Row {
    pub name: &'static str,
    pub sides: Sides<Calls>,
    pub goal: Option<Goal>,
}

impl Row {
    pub fn of_ours(name: &'static str, ours: Calls) -> Row {
        let sides = Sides {
            rust: None,
            ours,
            memcpy: None,
        };
        Row {
            name,
            sides,
            goal: None,
        }
    }

    fn beside_the_rust(mut self, rust: Calls, goal: Option<Goal>) -> Row {
        self.sides.rust = Some(rust);
        self.goal = goal;
        self
    }

    pub fn beside_memcpy(mut self, memcpy: Calls) -> Row {
        self.sides.memcpy = Some(memcpy);
        self
    }
}

/// At most so many times the Rust's time.
#[derive(Clone, Copy)]
pub struct Goal(pub f64);

/// The customer's goals: where the sum takes most of the time, and elsewhere.
const RULED_BY_THE_SUM: Goal = Goal(1.0);
const NOT_RULED: Goal = Goal(0.5);

/// Our goals for the sum by itself, closer than the customer's (request 13/13: half of the Rust's time at 65,515 bytes). On
/// x86-64 64 bytes may take what they took before it, 0.85 of the Rust's time. 20 bytes are held to their own time before it
/// and not to the Rust's, so they have no goal here.
const SUM_OF_20: Option<Goal> = None;
const SUM_OF_64: Option<Goal> = Some(Goal(if ON_ARM { 0.8 } else { 0.85 }));
const LONG_SUM: Option<Goal> = Some(Goal(if ON_ARM { 0.5 } else { 0.35 }));
const ON_ARM: bool = cfg!(target_arch = "aarch64");

/// A host of the Rust's finds the reply in its queue; that there is none it learns there too.
enum Queue {
    LookedInto,
    LeftAlone,
}

/// Room for the longest frame.
pub const ROOM: usize = 65_549;

/// The network that the Rust knows, document 01's.
pub const NETWORK: Network = Network {
    gateway: HERE.gateway,
    guest: HERE.guest,
    mask: HERE.mask,
    lease: HERE.lease,
};

/// The rows of the gateway, the builders, the checksum, and of the reader and of making a record, which have no Rust beside
/// them.
pub fn all() -> Vec<Row> {
    let replied = |name, goal, frame| gateway(name, goal, frame, ours::REPLY, Queue::LookedInto);
    let handed_on =
        |name, frame, verdict| gateway(name, NOT_RULED, frame, verdict, Queue::LeftAlone);
    vec![
        replied("ARP request", NOT_RULED, inputs::arp_request()),
        replied("ping, 56 bytes", NOT_RULED, inputs::ping_of(56)),
        replied(
            "ping, 1,480 bytes",
            RULED_BY_THE_SUM,
            inputs::ping_of(1_480),
        ),
        replied(
            "ping, 65,507 bytes",
            RULED_BY_THE_SUM,
            inputs::ping_of(65_507),
        ),
        replied("DHCP discover", NOT_RULED, inputs::discover()),
        handed_on(
            "relayed datagram, 512 bytes",
            inputs::datagram_for_outside(512),
            ours::RELAY,
        ),
        handed_on("DNS query handed on", dns_query(), ours::DNS),
        handed_on("TCP frame handed on", inputs::opening_segment(), ours::TCP),
        handed_on("dropped frame", inputs::ipv6(), ours::DROP),
        gateway(
            "dropped frame, and a look into the queue",
            NOT_RULED,
            inputs::ipv6(),
            ours::DROP,
            Queue::LookedInto,
        ),
        segment("`make_tcp_frame`, 1,460 bytes", 1_460),
        datagram(
            "`make_udp_payload`, 1,472 bytes; the Rust sums nothing",
            1_472,
        ),
        checksum("`checksum`, 20 bytes", SUM_OF_20, 20),
        checksum("`checksum`, 64 bytes", SUM_OF_64, 64),
        checksum("`checksum`, 1,480 bytes", LONG_SUM, 1_480),
        checksum("`checksum`, 65,515 bytes", LONG_SUM, 65_515),
        reading(
            "strict reader: ping, 56 bytes",
            inputs::ping_of(56),
            ours::KIND_ICMP,
        ),
        reading(
            "strict reader: DHCP discover",
            inputs::discover(),
            ours::KIND_DHCP,
        ),
        reading(
            "strict reader: DHCP, 1,229 items",
            inputs::most_items(),
            ours::KIND_DHCP,
        ),
        making("`make_guest`, made", NETWORK, ours::MADE),
        making(
            "`make_guest`, refused by the last test",
            HIGHEST_GUEST,
            ours::BAD_RECORD,
        ),
        empty_call("a call that does nothing", inputs::ipv6()),
    ]
}

/// memcpy of these bytes to this place in a buffer.
pub fn copying(bytes: &'static [u8], place: usize) -> Calls {
    assert!(place + bytes.len() <= ROOM);
    let mut buffer = vec![0u8; ROOM];
    calls(move || {
        let (from, len) = (black_box(bytes).as_ptr(), black_box(bytes.len()));
        unsafe { copy_nonoverlapping(from, buffer.as_mut_ptr().add(black_box(place)), len) };
        black_box(&mut buffer);
    })
}

fn gateway(name: &'static str, goal: Goal, frame: Vec<u8>, verdict: u32, queue: Queue) -> Row {
    assert_same_deed(name, &frame, verdict);
    let frame: &'static [u8] = frame.leak();
    let mut backend = SlirpBackend::new(GUEST_MAC);
    let rust = match queue {
        // The reply, where there is one, is let go of.
        Queue::LookedInto => calls(move || {
            backend.send(black_box(frame));
            black_box(&backend.recv());
        }),
        Queue::LeftAlone => calls(move || backend.send(black_box(frame))),
    };
    let (mut guest, mut reply, mut values) = (new_guest(1), vec![0; ROOM], [0; 2]);
    let ours = calls(move || {
        black_box(send(&mut guest, black_box(frame), &mut reply, &mut values));
    });
    Row::of_ours(name, ours).beside_the_rust(rust, Some(goal))
}

pub fn new_guest(id: u16) -> Guest {
    Guest {
        mac: GUEST_MAC,
        id,
        xid: 0,
        network: NETWORK,
    }
}

#[inline(always)]
fn send(guest: &mut Guest, frame: &[u8], reply: &mut [u8], values: &mut [usize; 2]) -> u32 {
    let (at, room) = (reply.as_mut_ptr(), reply.len());
    unsafe { ours::yavoledu_send(guest, frame.as_ptr(), frame.len(), at, room, values) }
}

/// From the same record both do what this verdict says, with the same bytes but for the ports and the checksum
/// of a DHCP reply (oracle/amended.rs), and the same numbers and record.
fn assert_same_deed(name: &str, frame: &[u8], verdict: u32) {
    let ids = IdCounter::new();
    let mut backend = SlirpBackend::new(GUEST_MAC);
    backend.send(frame);
    let (received, handed) = (pushed(&mut backend), handed::take());

    let (mut guest, mut reply, mut values) = (new_guest(ids.next()), vec![0xa5; ROOM], [0; 2]);
    let number = send(&mut guest, frame, &mut reply, &mut values);
    assert_eq!(number, verdict, "{name}");
    assert_eq!(guest.xid, backend.dhcp_xid(), "{name}");
    assert!(backend.recv().is_none(), "{name}");
    match (number, received, handed) {
        (ours::REPLY, Some(sent), None) => assert!(reply[..values[0]] == sent, "{name}"),
        (ours::DROP, None, None) => {}
        (number, None, Some((to, place, len))) => {
            let start = place - frame.as_ptr() as usize;
            let (told, expected) = match to {
                To::Dns => (ours::DNS, [start, len]),
                To::Relay => (ours::RELAY, [start, len]),
                To::Tcp => (ours::TCP, [len, start]),
            };
            assert_eq!((number, values), (told, expected), "{name}");
        }
        _ => panic!("{name}: the Rust did something else"),
    }
    assert_eq!(guest.id, IdCounter::new().next().wrapping_sub(1), "{name}");
}

const SOURCE: ([u8; 4], u16) = (ELSEWHERE, 443);
const TARGET: ([u8; 4], u16) = (GUEST_IP, 40_000);
const SEQUENCE: u32 = 0x1122_3344;
const ACKNOWLEDGED: u32 = 0x5566_7788;
const PSH_AND_ACK: u8 = 0x18;

fn segment(name: &'static str, len: usize) -> Row {
    let data: &'static [u8] = inputs::filling(len).leak();
    let rust_frame = move || {
        let data = black_box(data);
        SlirpBackend::make_tcp_frame(
            GUEST_MAC,
            SOURCE,
            TARGET,
            SEQUENCE,
            ACKNOWLEDGED,
            PSH_AND_ACK,
            data,
        )
    };
    let our_frame = move |id: &mut u16, out: &mut [u8], values: &mut [usize; 2]| {
        let (data, at, room) = (black_box(data), out.as_mut_ptr(), out.len());
        unsafe {
            ours::yavoledu_make_tcp_frame(
                id,
                &GUEST_MAC,
                &SOURCE.0,
                SOURCE.1,
                &TARGET.0,
                TARGET.1,
                SEQUENCE,
                ACKNOWLEDGED,
                PSH_AND_ACK,
                data.as_ptr(),
                data.len(),
                at,
                room,
                values,
            )
        }
    };
    let (mut id, mut out, mut values) = (IdCounter::new().next(), vec![0xa5; ROOM], [0; 2]);
    let expected = rust_frame();
    assert_eq!(
        our_frame(&mut id, &mut out, &mut values),
        ours::REPLY,
        "{name}"
    );
    assert!(out[..values[0]] == expected, "{name}");
    let rust = calls(move || {
        black_box(&rust_frame());
    });
    let ours = calls(move || {
        black_box(our_frame(&mut id, &mut out, &mut values));
    });
    Row::of_ours(name, ours).beside_the_rust(rust, Some(RULED_BY_THE_SUM))
}

/// The Rust leaves the checksum 0 and reads the data once, to copy it; ours reads it a second time, to sum it.
fn datagram(name: &'static str, len: usize) -> Row {
    let data: &'static [u8] = inputs::filling(len).leak();
    let rust_datagram = move || SlirpBackend::make_udp_payload(SOURCE.1, TARGET.1, black_box(data));
    let our_datagram = move |out: &mut [u8], values: &mut [usize; 2]| {
        let (data, at, room) = (black_box(data), out.as_mut_ptr(), out.len());
        unsafe {
            ours::yavoledu_make_udp_payload(
                &SOURCE.0,
                SOURCE.1,
                &TARGET.0,
                TARGET.1,
                data.as_ptr(),
                data.len(),
                at,
                room,
                values,
            )
        }
    };
    let (mut out, mut values) = (vec![0xa5; ROOM], [0; 2]);
    let expected = amended_datagram(SOURCE.0, TARGET.0, rust_datagram());
    assert_eq!(our_datagram(&mut out, &mut values), ours::REPLY, "{name}");
    assert!(out[..values[0]] == expected, "{name}");
    let rust = calls(move || {
        black_box(&rust_datagram());
    });
    let ours = calls(move || {
        black_box(our_datagram(&mut out, &mut values));
    });
    Row::of_ours(name, ours).beside_the_rust(rust, Some(RULED_BY_THE_SUM))
}

/// memcpy of the bytes that are summed stands beside, which reads each of them too.
fn checksum(name: &'static str, goal: Option<Goal>, len: usize) -> Row {
    let data: &'static [u8] = inputs::filling(len).leak();
    let rust_sum = move || SlirpBackend::checksum(black_box(data));
    let our_sum = move || {
        let data = black_box(data);
        unsafe { ours::yavoledu_checksum(data.as_ptr(), data.len()) }
    };
    assert_eq!(rust_sum(), our_sum(), "{name}");
    let rust = calls(move || {
        black_box(rust_sum());
    });
    let ours = calls(move || {
        black_box(our_sum());
    });
    Row::of_ours(name, ours)
        .beside_the_rust(rust, goal)
        .beside_memcpy(copying(data, 0))
}

/// What the loop and a call by themselves take, which is in every other row too.
fn empty_call(name: &'static str, frame: Vec<u8>) -> Row {
    let frame: &'static [u8] = frame.leak();
    let ours = calls(move || {
        black_box(returns_at_once(black_box(frame)));
    });
    Row::of_ours(name, ours)
}

#[inline(never)]
fn returns_at_once(frame: &[u8]) -> u32 {
    // So that the call is not taken for one that can be left out.
    black_box(());
    frame.len() as u32
}

/// The guest's address is the highest of its network: of all tests the last one refuses it.
pub const HIGHEST_GUEST: Network = Network {
    guest: BROADCAST,
    ..NETWORK
};

/// What the memory holds that a record is made in.
pub const STOOD_THERE: Guest = Guest {
    mac: [0x11; 6],
    id: 0x2222,
    xid: 0x3333_3333,
    network: Network {
        gateway: [0x44; 4],
        guest: [0x55; 4],
        mask: [0x66; 4],
        lease: 0x7777_7777,
    },
};

#[inline(always)]
pub fn make_guest(guest: &mut Guest, network: &Network) -> u32 {
    let Network {
        gateway,
        guest: guest_ip,
        mask,
        lease,
    } = network;
    unsafe { ours::yavoledu_make_guest(guest, &GUEST_MAC, gateway, guest_ip, mask, 1, *lease) }
}

fn making(name: &'static str, network: Network, answer: u32) -> Row {
    let mut guest = STOOD_THERE;
    assert_eq!(make_guest(&mut guest, &network), answer, "{name}");
    let made = Guest {
        network,
        ..new_guest(1)
    };
    let expected = if answer == ours::MADE {
        made
    } else {
        STOOD_THERE
    };
    assert_eq!(guest, expected, "{name}");
    let ours = calls(move || {
        black_box(make_guest(&mut guest, black_box(&network)));
    });
    Row::of_ours(name, ours)
}

fn reading(name: &'static str, frame: Vec<u8>, kind: u32) -> Row {
    let frame: &'static [u8] = frame.leak();
    let mut parts = [0; 13];
    let mut read = move || {
        let frame = black_box(frame);
        unsafe { ours::yavoledu_read(frame.as_ptr(), frame.len(), &mut parts) }
    };
    assert_eq!(read(), kind, "{name}");
    let ours = calls(move || {
        black_box(read());
    });
    Row::of_ours(name, ours)
}
