//! Document 02, 8/13: the ids of the IPv4 frames that are built from one record over a long run of calls. They are read off the
//! buffers, bytes 18 and 19 of what stands there, and counted here by themselves.

use yavoledu::{Endpoints, Guest, NetworkPlan, Refusal, Verdict, make_udp_payload};

use crate::frames::*;

/// More than two rounds of 65,536, and some.
const FRAMES: usize = 2 * 65_536 + 1_234;

const TARGET: [u8; 4] = [198, 51, 100, 7];

const SYN: u8 = 0x02;
const ACK: u8 = 0x10;

/// What is to come of a call, by documents 01 and 02 alone.
#[derive(Clone, Copy, Debug, PartialEq)]
enum Comes {
    /// An IPv4 frame, which takes an id.
    Ipv4,
    /// An ARP reply, which takes none.
    Arp,
    /// A datagram in no frame, which takes none.
    Alone,
    /// Nothing is built: a drop, a handoff or a refusal, of this number.
    Nothing(u8),
}

/// A call that a run may make.
struct Call {
    name: &'static str,
    comes: Comes,
    room: usize,
    asked: Asked,
}

enum Asked {
    Frame(Vec<u8>),
    IpFrame(Vec<u8>),
    TcpFrame(u8, Vec<u8>),
    Datagram(Vec<u8>),
}

fn call(name: &'static str, comes: Comes, room: usize, asked: Asked) -> Call {
    Call {
        name,
        comes,
        room,
        asked,
    }
}

/// Every answer that the gateway and the builders have.
fn calls() -> Vec<Call> {
    use Asked::{Datagram, Frame, IpFrame, TcpFrame};
    use Comes::{Alone, Arp, Ipv4, Nothing};

    let ping_of = |len: usize| ping(&pattern(len - 4));
    let discover = || Frame(from_dhcp_client(&dhcp_message(&DISCOVER)));
    let request = || Frame(from_dhcp_client(&dhcp_message(&[53, 1, 3, 255])));
    let other_cookie = || {
        let mut message = dhcp_message(&DISCOVER);
        message[239] ^= 1;
        Frame(from_dhcp_client(&message))
    };
    let datagram_to = |target, port| Frame(from_guest(UDP, target, &udp(1024, port, b"data")));
    let too_long = || {
        let mut frame = ping(&PING);
        frame.resize(34 + 65_516, 0);
        Frame(frame)
    };
    vec![
        call("ping", Ipv4, 42, Frame(ping(&PING))),
        call("ping, odd", Ipv4, 1_514, Frame(ping_of(63))),
        call("ping, the longest", Ipv4, 65_549, Frame(ping_of(65_515))),
        call("discover", Ipv4, 342, discover()),
        call("request", Ipv4, 1_514, request()),
        call("IPv4 frame, empty", Ipv4, 34, IpFrame(vec![])),
        call("IPv4 frame", Ipv4, 1_514, IpFrame(pattern(77))),
        call(
            "IPv4 frame, the longest",
            Ipv4,
            65_549,
            IpFrame(pattern(65_515)),
        ),
        call("SYN", Ipv4, 62, TcpFrame(SYN, vec![])),
        call("segment", Ipv4, 1_514, TcpFrame(ACK, pattern(99))),
        call(
            "segment, the longest",
            Ipv4,
            65_549,
            TcpFrame(ACK, pattern(65_495)),
        ),
        call("ARP", Arp, 42, Frame(arp_request())),
        call("ARP, more room", Arp, 1_514, Frame(arp_request())),
        call("no byte", Nothing(0), 1_514, Frame(vec![])),
        call(
            "13 bytes",
            Nothing(0),
            1_514,
            Frame(ping(&PING)[..13].to_vec()),
        ),
        call(
            "ARP for another",
            Nothing(0),
            1_514,
            Frame(arp_request_for(TARGET)),
        ),
        call(
            "ping for another",
            Nothing(0),
            1_514,
            Frame(ping_to(TARGET, &PING)),
        ),
        call(
            "another cookie, xid noted",
            Nothing(0),
            1_514,
            other_cookie(),
        ),
        call("DNS", Nothing(2), 1_514, datagram_to(GATEWAY_IP, 53)),
        call("relay", Nothing(3), 1_514, datagram_to(TARGET, 7)),
        call(
            "TCP",
            Nothing(4),
            1_514,
            Frame(from_guest(TCP, TARGET, &pattern(20))),
        ),
        call("5 to a ping", Nothing(5), 41, Frame(ping(&PING))),
        call("5 to a ping, no room", Nothing(5), 0, Frame(ping_of(63))),
        call("5 to a discover", Nothing(5), 341, discover()),
        call("5 to ARP", Nothing(5), 41, Frame(arp_request())),
        call("5 of an IPv4 frame", Nothing(5), 33, IpFrame(vec![])),
        call("5 of a SYN", Nothing(5), 61, TcpFrame(SYN, vec![])),
        call(
            "5 of a segment",
            Nothing(5),
            152,
            TcpFrame(ACK, pattern(99)),
        ),
        call("6 to a ping", Nothing(6), 65_550, too_long()),
        call(
            "6 of an IPv4 frame",
            Nothing(6),
            65_550,
            IpFrame(pattern(65_516)),
        ),
        call(
            "6 of a SYN",
            Nothing(6),
            65_550,
            TcpFrame(SYN, pattern(65_488)),
        ),
        call(
            "6 of a segment",
            Nothing(6),
            65_550,
            TcpFrame(ACK, pattern(65_496)),
        ),
        call(
            "7",
            Nothing(7),
            1_514,
            Frame(from_dhcp_client(&dhcp_message(&[53, 1]))),
        ),
        call("datagram alone", Alone, 1_514, Datagram(pattern(77))),
    ]
}

impl Call {
    /// Makes the call in the front of `buffer`, and answers the id of the IPv4 frame that then stands there, if one does.
    fn make(&self, guest: &mut Guest, buffer: &mut [u8]) -> Option<u16> {
        let out = &mut buffer[..self.room];
        let (number, n) = self.answer(guest, out);
        let came = match (number, &self.asked) {
            (1, Asked::Datagram(_)) => Comes::Alone,
            (1, _) if out[..n][12..14] == [0x08, 0x00] => Comes::Ipv4,
            (1, _) if out[..n][12..14] == [0x08, 0x06] => Comes::Arp,
            (1, _) => panic!("{}: neither IPv4 nor ARP: {:02x?}", self.name, &out[..n]),
            _ => Comes::Nothing(number),
        };
        assert_eq!(came, self.comes, "{}", self.name);
        (came == Comes::Ipv4).then(|| u16::from_be_bytes([out[..n][18], out[..n][19]]))
    }

    /// Document 01's number of the answer, and on 1 the bytes built.
    fn answer(&self, guest: &mut Guest, out: &mut [u8]) -> (u8, usize) {
        let built = match &self.asked {
            Asked::Frame(frame) => return numbered(guest.send(frame, out)),
            Asked::IpFrame(payload) => {
                guest.make_ip_frame(GUEST_MAC, TARGET, GUEST_IP, 99, payload, out)
            }
            Asked::TcpFrame(flags, data) => {
                let ends = Endpoints {
                    dst_mac: GUEST_MAC,
                    src_ip: TARGET,
                    src_port: 80,
                    dst_ip: GUEST_IP,
                    dst_port: 49_152,
                };
                guest.make_tcp_frame(&ends, 1, 2, *flags, data, out)
            }
            Asked::Datagram(data) => make_udp_payload(TARGET, 7, GUEST_IP, 1024, data, out),
        };
        match built {
            Ok(n) => (1, n),
            Err(Refusal::NoRoom(_)) => (5, 0),
            Err(Refusal::TooLong(_)) => (6, 0),
        }
    }
}

fn numbered(verdict: Verdict) -> (u8, usize) {
    match verdict {
        Verdict::Drop => (0, 0),
        Verdict::Reply(n) => (1, n),
        Verdict::Dns { .. } => (2, 0),
        Verdict::Relay { .. } => (3, 0),
        Verdict::Tcp(_) => (4, 0),
        Verdict::NoRoom(_) => (5, 0),
        Verdict::TooLong(_) => (6, 0),
        Verdict::CutType(_) => (7, 0),
    }
}

/// Draws the calls of a run, the same ones each time.
struct Draw(u64);

impl Draw {
    fn below(&mut self, bound: usize) -> usize {
        self.0 ^= self.0 << 13;
        self.0 ^= self.0 >> 7;
        self.0 ^= self.0 << 17;
        (self.0 >> 33) as usize % bound
    }

    /// The place of one of the calls; those that move much memory are rare.
    fn one_of(&mut self, calls: &[Call]) -> usize {
        loop {
            let drawn = self.below(calls.len());
            if calls[drawn].room < 65_549 || self.below(64) == 0 {
                return drawn;
            }
        }
    }
}

/// The ids of the next `frames` IPv4 frames that a run of drawn calls builds from this record, and how often each call was made.
fn run(guest: &mut Guest, draw: &mut Draw, frames: usize) -> (Vec<u16>, Vec<usize>) {
    let calls = calls();
    let mut buffer = pattern(65_550);
    let mut ids = Vec::new();
    let mut made = vec![0; calls.len()];
    while ids.len() < frames {
        let drawn = draw.one_of(&calls);
        ids.extend(calls[drawn].make(guest, &mut buffer));
        made[drawn] += 1;
    }
    (ids, made)
}

/// Document 02: "frame number k, counted from 0, carries the starting id plus k, modulo 65,536". The first that doesn't.
fn first_wrong(start: u16, ids: &[u16]) -> Option<usize> {
    let carries = |(k, id): (usize, &u16)| (usize::from(start) + k) % 65_536 == usize::from(*id);
    ids.iter()
        .enumerate()
        .position(|numbered| !carries(numbered))
}

/// "any 65,536 such frames in a row carry different ids", and two with the same id are a multiple of 65,536 apart. The first
/// frame whose id came before at another distance.
fn first_too_near(ids: &[u16]) -> Option<usize> {
    let mut last = vec![None; 65_536];
    ids.iter().enumerate().position(|(k, id)| {
        let before: Option<usize> = last[usize::from(*id)].replace(k);
        before.is_some_and(|place| (k - place) % 65_536 != 0)
    })
}

fn guest_with_id(id: u16) -> Guest {
    Guest {
        id,
        ..new_guest(GUEST_MAC)
    }
}

/// One that the library makes.
fn new_record() -> Guest {
    Guest::new(GUEST_MAC, &NetworkPlan::DOCUMENT_01).unwrap()
}

/// A run from this record, and what is left behind it.
fn assert_counts_on(mut guest: Guest, seed: u64) {
    let start = guest.id;
    let (ids, made) = run(&mut guest, &mut Draw(seed), FRAMES);
    assert_eq!(ids.len(), FRAMES);
    assert_eq!(first_wrong(start, &ids), None, "from {start}");
    assert_eq!(first_too_near(&ids), None, "from {start}");
    // many a call built nothing, each was made, and the record has the next id
    assert!(made.iter().sum::<usize>() > 3 * FRAMES, "{made:?}");
    assert!(made.iter().all(|times| *times > 100), "{made:?}");
    assert_eq!(
        usize::from(guest.id),
        (usize::from(start) + FRAMES) % 65_536
    );
}

#[test]
fn a_new_record_counts_from_1() {
    let guest = new_record();
    assert_eq!(guest.id, 1);
    assert_counts_on(guest, 0x7a61_766f_6c65_6475);
}

#[test]
fn a_run_counts_on_from_other_ids() {
    for (start, seed) in [(0, 1), (65_535, 2), (0x80ff, 3)] {
        assert_counts_on(guest_with_id(start), seed);
    }
}

#[test]
fn each_call_by_itself_takes_one_id_or_none() {
    let mut buffer = pattern(65_550);
    for call in calls() {
        for start in [0, 1, 0x00ff, 0x7fff, 65_534, 65_535] {
            let mut guest = guest_with_id(start);
            let id = call.make(&mut guest, &mut buffer);
            let taken = if call.comes == Comes::Ipv4 { 1 } else { 0 };
            assert_eq!(id, (taken == 1).then_some(start), "{}", call.name);
            let next = (usize::from(start) + taken) % 65_536;
            assert_eq!(usize::from(guest.id), next, "{}", call.name);
        }
    }
}

#[test]
fn from_an_older_or_a_fresh_record_the_count_starts_anew() {
    let mut draw = Draw(4);
    let mut guest = guest_with_id(65_000);
    let (first, _) = run(&mut guest, &mut draw, 1_000);
    assert_eq!(first_wrong(65_000, &first), None);

    // 65,000 and 1,000 more, modulo 65,536
    let older = guest.clone();
    let (ids, _) = run(&mut guest, &mut draw, 70_000);
    assert_eq!(first_wrong(464, &ids), None);

    guest = older;
    let (again, _) = run(&mut guest, &mut draw, 70_000);
    assert_eq!(first_wrong(464, &again), None);

    guest = new_record();
    let (fresh, _) = run(&mut guest, &mut draw, 70_000);
    assert_eq!(first_wrong(1, &fresh), None);

    // over the whole of it, what is claimed of one count does not hold
    let all = [ids, again, fresh].concat();
    assert_eq!(first_wrong(464, &all), Some(70_000));
    assert!(first_too_near(&all).is_some());
}

#[test]
fn two_guests_in_turn_count_by_themselves() {
    let calls = calls();
    let mut buffer = pattern(65_550);
    let mut draw = Draw(5);
    let mut guests = [guest_with_id(65_530), guest_with_id(7)];
    let mut ids = [vec![], vec![]];
    for _ in 0..500_000 {
        let who = draw.below(2);
        let call = &calls[draw.one_of(&calls)];
        ids[who].extend(call.make(&mut guests[who], &mut buffer));
    }
    for (ids, start) in ids.iter().zip([65_530, 7]) {
        assert!(ids.len() > 65_536, "{} frames", ids.len());
        assert_eq!(first_wrong(start, ids), None);
        assert_eq!(first_too_near(ids), None);
    }
}

/// The judges themselves: each wrong count is found, at its place.
#[test]
fn a_wrong_count_is_found() {
    let right = |start: usize, len: usize| -> Vec<u16> {
        (0..len).map(|k| ((start + k) % 65_536) as u16).collect()
    };
    let ids = right(65_000, 140_000);
    assert_eq!(first_wrong(65_000, &ids), None);
    assert_eq!(first_too_near(&ids), None);

    // an id spent on nothing
    let mut skipped = ids.clone();
    skipped.remove(70);
    assert_eq!(first_wrong(65_000, &skipped), Some(70));
    assert_eq!(first_too_near(&skipped), Some(65_535));
    // an id not spent
    let mut repeated = ids.clone();
    repeated.insert(70, ids[70]);
    assert_eq!(first_wrong(65_000, &repeated), Some(71));
    assert_eq!(first_too_near(&repeated), Some(71));
    // 65,535 followed by 1
    let mut without_0 = ids.clone();
    without_0.remove(536);
    assert_eq!(first_wrong(65_000, &without_0), Some(536));
    assert_eq!(first_too_near(&without_0), Some(65_535));
    // from 1
    assert_eq!(first_wrong(65_000, &right(1, 10)), Some(0));
}
