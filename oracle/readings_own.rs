//! Frames that the gateway and the builders make: the answers of the published Rust, and the datagrams of
//! others, out of the list that `replay` replays. The gateway's replies have to be in the grammar, all of
//! them. Each datagram has to have a checksum and, unless it is between DHCP's ports, to be in the grammar.

use crate::document_01::{Record, ip_frame};
use crate::draws::GUEST_MAC;
use crate::grammar_01::Kind;
use crate::lines::{bytes_of, ruled_bytes};
use crate::networks::{HERE, Network};
use crate::pieces::laid;
use crate::reading_cases::{Origin, ReadingList};

const REPLAYED: &str = include_str!("../crates/replay/stdin");
/// The sample of the comparison stands behind this line. It may be drawn anew, and is left out here.
const SAMPLE: &str = "\n# A sample of what oracle/compare compared.\n";

/// Longer frames are left out, but for those that end in zeros.
const LONGEST: usize = 130;
const MOST_DHCP_REPLIES: usize = 30;

fn number(bytes: &[u8]) -> usize {
    bytes.iter().fold(0, |n, byte| 256 * n + *byte as usize)
}

/// What a builder made, by its line: `tail` is where TAIL starts.
fn built(case: &[u8], tail: usize) -> Option<Vec<u8>> {
    let tail = &case[tail..];
    let (verdict, seed, len, head) = (tail[4], tail[9], number(&tail[10..14]), tail[14]);
    let head = 15 + usize::from(head);
    let payload = match seed {
        0 => tail[head..].to_vec(),
        seed => ruled_bytes(seed, len),
    };
    (verdict == 1).then(|| [&tail[15..head], &payload].concat())
}

/// The gateway's reply, by its line: `fields` is where CALL starts.
fn reply(case: &[u8], fields: usize) -> Option<Vec<u8>> {
    let call = &case[fields..];
    let frame_end = 26 + number(&call[24..26]);
    let frame = laid(&call[26..frame_end], &[]);
    (call[17] == 1).then(|| laid(&call[frame_end..], &frame))
}

fn cases() -> Vec<Vec<u8>> {
    let (listed, _) = REPLAYED.split_once(SAMPLE).expect("the sample is listed");
    let lines = listed.lines().map(|line| line.split('#').next().unwrap());
    lines
        .map(bytes_of)
        .filter(|case| !case.is_empty())
        .collect()
}

/// The kind of a reply of the gateway's.
pub fn kind_of(reply: &[u8]) -> Kind {
    match (reply[13], reply[23]) {
        (6, _) => Kind::Arp,
        (_, 1) => Kind::Icmp,
        _ => Kind::Dhcp,
    }
}

/// All of ARP, and of the others some.
fn replies(list: &mut ReadingList) {
    let (mut dhcp_replies, mut echoes) = (0, 0);
    for case in cases() {
        let reply = match case[0] {
            0x0d => reply(&case, 7),
            0x0e => reply(&case, 1),
            _ => None,
        };
        let Some(reply) = reply else {
            continue;
        };
        let ends_in_zeros = reply.iter().rev().take(100).all(|byte| *byte == 0);
        let kind = kind_of(&reply);
        dhcp_replies += usize::from(kind == Kind::Dhcp);
        echoes += usize::from(kind == Kind::Icmp);
        let is_listed = match kind {
            Kind::Dhcp => dhcp_replies <= MOST_DHCP_REPLIES,
            Kind::Icmp => echoes % 2 == 1 && (reply.len() <= LONGEST || ends_in_zeros),
            _ => true,
        };
        if is_listed {
            list.taken(Origin::Own, kind, &reply);
        }
    }
}

fn ip_frames(list: &mut ReadingList) {
    for case in cases().iter().filter(|case| case[0] == 3) {
        if let Some(frame) = built(case, 18).filter(|frame| frame.len() <= LONGEST) {
            list.judged(Origin::Own, &frame);
        }
    }
}

/// Every third of those built: there is one for each byte of flags.
fn tcp_frames(list: &mut ReadingList) {
    let cases = cases();
    let frames = cases
        .iter()
        .filter(|case| case[0] == 6)
        .filter_map(|case| built(case, 30));
    for frame in frames.filter(|frame| frame.len() <= LONGEST).step_by(3) {
        list.taken(Origin::Own, Kind::Tcp, &frame);
    }
}

/// A datagram of the builder's, in the frame that document 01 says the other builder makes, between the
/// same addresses: every second, and those whose checksum is computed as 0.
fn datagrams(list: &mut ReadingList) {
    let cases = cases();
    let cases = cases.iter().filter(|case| case[0] == 5);
    let built = cases.filter_map(|case| Some((case, built(case, 13)?)));
    for (turn, (case, datagram)) in built.enumerate() {
        let (source, target) = (&case[1..5], &case[7..11]);
        let network = Network {
            gateway: source.try_into().unwrap(),
            ..HERE
        };
        let record = Record {
            mac: GUEST_MAC,
            id: turn as u16,
            xid: 0,
            network,
        };
        let frame = ip_frame(record, &GUEST_MAC, target, 17, &datagram);
        assert!(datagram[6..8] != [0, 0]);
        let is_listed = turn % 2 == 0 || datagram[6..8] == [0xff, 0xff];
        if frame.len() > LONGEST || !is_listed {
            continue;
        }
        match [number(&datagram[..2]), number(&datagram[2..4])] {
            [67, 68] | [68, 67] => drop(list.judged(Origin::Own, &frame)),
            _ => drop(list.taken(Origin::Own, Kind::Udp, &frame)),
        }
    }
}

pub fn list(list: &mut ReadingList) {
    list.comment("the gateway's replies");
    replies(list);
    list.comment("make_tcp_frame");
    tcp_frames(list);
    list.comment("make_ip_frame: the payload is any bytes, so of protocols 1, 6 and 17 few are in the grammar");
    ip_frames(list);
    list.comment("make_udp_payload, in an IPv4 frame");
    datagrams(list);
}
