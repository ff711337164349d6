//! Which calls of the gateway are listed on a network other than document 01's.

use crate::cases::MOST_ROOM;
use crate::dhcp_vectors::TYPE;
use crate::document_01::Record;
use crate::drawn_frames::{drawn_frame, drawn_room};
use crate::draws::{BROADCAST_IP, GATEWAY_IP, GUEST_IP, NETWORKS_SEED};
use crate::gateway_cases::{FRESH, GatewayList, USUAL_ROOM};
use crate::guest_frames::*;
use crate::lines::ruled_bytes;
use crate::networks::{HERE, NETWORKS, NUMBER, STRANGER};

const DRAWN_FRAMES: usize = 20;

const GROUPS: [(&str, fn(&mut GatewayList)); 6] = [
    ("0f: requests, pings and queries by targets", targets),
    ("0f: DHCP", leases),
    ("0f: rooms", rooms),
    ("0f: ids and record's MACs", ids),
    ("0f: drawn frames", drawn_frames),
    (
        "0f, then 0e: a guest starts, refusals between",
        guest_starts,
    ),
];

pub fn list() -> String {
    let mut list = GatewayList::new(NETWORKS_SEED + NUMBER as u64);
    list.lines.comment(&format!(
        "Calls of the gateway on network {NUMBER}: the Rust was compiled with its constants."
    ));
    list.lines.comment(&format!("{HERE:?}"));
    for (words, add_cases) in GROUPS {
        list.group(words, add_cases);
    }
    list.finish()
}

/// The addresses that decide, those beside the gateway's, and those that decide on document 01's network.
fn targets(list: &mut GatewayList) {
    let documents = [STRANGER, NETWORKS[0].network.guest, NETWORKS[0].broadcast];
    let here = [GATEWAY_IP, GUEST_IP, BROADCAST_IP, lowest()];
    let others = [EVERYONE, ELSEWHERE, [0; 4]];
    let targets = here.into_iter().chain(near(GATEWAY_IP));
    for target in targets.chain(documents).chain(others) {
        list.frame(&arp(1, target));
        list.frame(&with(ping(&[7]), TARGET_AT, &target));
        list.frame(&udp(40_000, target, 53, b"query"));
    }
    for target in [GATEWAY_IP, STRANGER, BROADCAST_IP, ELSEWHERE] {
        list.frame(&udp(5_000, target, 6_000, b"relay"));
        list.frame(&with(syn(), TARGET_AT, &target));
        list.frame(&packet(2, target, &[0; 8]));
    }
    list.frame(&arp(2, GATEWAY_IP));
}

fn lowest() -> [u8; 4] {
    std::array::from_fn(|at| HERE.guest[at] & HERE.mask[at])
}

fn leases(list: &mut GatewayList) {
    for target in [EVERYONE, GATEWAY_IP, BROADCAST_IP, STRANGER] {
        for options in [DISCOVER, REQUEST] {
            let frame = dhcp(&dhcp_message(list.draws.word(), &options));
            list.frame(&with(frame, TARGET_AT, &target));
        }
    }
    let options: [&[u8]; 4] = [&[TYPE, 1], &[TYPE, 1, 8], &[TYPE, 0], &[]];
    for options in options {
        let xid = list.draws.word();
        list.frame(&dhcp(&dhcp_message(xid, options)));
    }
    let xid = list.draws.word();
    list.frame(&xid_bringer(xid));
}

fn rooms(list: &mut GatewayList) {
    let ping = ping(&[1, 2, 3]);
    let discover = dhcp(&dhcp_message(0x9192_9394, &DISCOVER));
    let calls = [(arp(1, GATEWAY_IP), 42), (ping, 45), (discover, 342)];
    for (frame, needed) in calls {
        for room in [needed, needed - 1, 0] {
            list.frame_in(&frame, room);
        }
    }
    list.frame_in(&too_long(), 0);
    list.frame_in(&too_long(), MOST_ROOM);
}

/// Its payload has 65,516 bytes.
fn too_long() -> Vec<u8> {
    ping(&ruled_bytes(8, 65_508))
}

fn ids(list: &mut GatewayList) {
    for (mac, id) in [([0; 6], 65_535), ([0xff; 6], 0)] {
        let record = Record {
            mac,
            id,
            xid: 0xffff_ffff,
            network: HERE,
        };
        list.call(record, &ping(&[]), USUAL_ROOM);
        list.call(record, &dhcp(&dhcp_message(0, &REQUEST)), USUAL_ROOM);
    }
}

fn drawn_frames(list: &mut GatewayList) {
    for _ in 0..DRAWN_FRAMES {
        let frame = drawn_frame(&mut list.draws);
        let room = drawn_room(&mut list.draws);
        list.frame_in(&frame, room);
    }
}

fn guest_starts(list: &mut GatewayList) {
    let message = |options: &[u8]| dhcp(&dhcp_message(0x3903_f326, options));
    list.call(FRESH, &message(&DISCOVER), USUAL_ROOM);
    let calls = [
        (message(&REQUEST), 341),
        (message(&REQUEST), USUAL_ROOM),
        (arp(1, GATEWAY_IP), USUAL_ROOM),
        (arp(1, STRANGER), USUAL_ROOM),
        (dns_query(), 0),
        (ping(&[]), USUAL_ROOM),
        (ping(&[]), 41),
        (xid_bringer(0x0708_090a), USUAL_ROOM),
        (udp(5_000, ELSEWHERE, 6_000, &[1]), 0),
        (syn(), 0),
        (message(&[TYPE, 1]), USUAL_ROOM),
        (message(&DISCOVER), 342),
        (ping(&[9]), 43),
    ];
    for (frame, room) in calls {
        list.next_call(&frame, room);
    }
}
