//! Sequences of gateway calls, the record carried over from call to call; and the frames and messages
//! from outside that go into them.

use crate::captured::kernels;
use crate::cases::MOST_ROOM;
use crate::dhcp_vectors::{CLIENT_MESSAGES, TYPE, bytes_of};
use crate::document_01::Record;
use crate::drawn_frames::{drawn_frame, drawn_room};
use crate::draws::GATEWAY_IP;
use crate::gateway_cases::{FRESH, GatewayList, USUAL_ROOM};
use crate::guest_frames::*;
use crate::lines::ruled_bytes;
use crate::networks::HERE;

pub const SEQUENCES: [(&str, fn(&mut GatewayList)); 4] = [
    (
        "a sequence: a guest starts, from a fresh record",
        guest_starts,
    ),
    (
        "a sequence: through id 65,535, refusals between",
        through_the_wrap,
    ),
    ("a sequence: DHCP, the xid carried over", leases),
    (
        "a sequence: drawn frames and rooms, through id 65,535",
        drawn_sequence,
    ),
];

pub fn messages() -> Vec<Vec<u8>> {
    let lines = CLIENT_MESSAGES.iter().flat_map(|file| file.lines());
    lines
        .filter(|line| !line.is_empty() && !line.starts_with('#'))
        .map(bytes_of)
        .collect()
}

/// From a fresh record: an address, the gateway's MAC, a name, a connection, pings.
fn guest_starts(list: &mut GatewayList) {
    let xid = 0x3903_f326;
    let discover = dhcp(&dhcp_message(xid, &DISCOVER));
    let request = dhcp(&dhcp_message(xid, &REQUEST));
    list.call(FRESH, &discover, USUAL_ROOM);
    for frame in [request, arp(1, GATEWAY_IP), dns_query(), syn(), ping(&[])] {
        list.next_call(&frame, USUAL_ROOM);
    }
    let frames = kernels().into_iter().map(|captured| captured.frame);
    for frame in frames.filter(|frame| frame.len() < 120) {
        list.next_call(&frame, USUAL_ROOM);
        list.next_call(&ping(&frame[34..38]), USUAL_ROOM);
    }
}

/// From id 65,533 on, what spends an id and what does not by turns.
fn through_the_wrap(list: &mut GatewayList) {
    let start = Record {
        mac: [2, 0, 0, 0, 0, 0x0c],
        id: 65_533,
        xid: 0xa1a2_a3a4,
        network: HERE,
    };
    list.call(start, &arp(1, GATEWAY_IP), USUAL_ROOM);
    for turn in 0..7 {
        let xid = 0xb000_0000 + turn;
        let message = |options: &[u8]| dhcp(&dhcp_message(xid, options));
        let calls = [
            (ping(&ruled_bytes(0x30, 5)), 47),
            (of_len(ping(&[]), 41), USUAL_ROOM),
            (ping(&ruled_bytes(0x31, 65_508)), MOST_ROOM),
            (ping(&[1, 2, 3]), 44),
            (message(&[TYPE, 1]), USUAL_ROOM),
            (message(&DISCOVER), 341),
            (arp(1, GATEWAY_IP), 41),
            (dns_query(), 0),
            (
                message(&[[DISCOVER, REQUEST][turn as usize % 2], [0; 4]].concat()),
                342,
            ),
            (udp(5_000, ELSEWHERE, 6_000, &[]), 0),
            (with(syn(), SOURCE_MAC_AT, &[9; 6]), 0),
            (xid_bringer(!xid), 0),
            (arp(1, GATEWAY_IP), 42),
        ];
        for (frame, room) in calls {
            list.next_call(&frame, room);
        }
    }
    assert_eq!(list.record().id, 65_533u16.wrapping_add(14));
}

/// The xid is taken, kept or refused by turns, and the reply's is always that of its request.
fn leases(list: &mut GatewayList) {
    let start = Record {
        mac: [2, 0, 0, 0, 0, 0x0d],
        id: 40_000,
        xid: 0,
        network: HERE,
    };
    let messages = messages();
    list.call(start, &dhcp(&messages[0]), USUAL_ROOM);
    for (turn, message) in messages.iter().enumerate() {
        let xid = list.draws.word();
        let rooms = [342, 341, USUAL_ROOM, 0];
        list.next_call(&dhcp(message), rooms[turn % 4]);
        let options: [&[u8]; 5] = [&[TYPE, 1], &[TYPE, 1, 8], &DISCOVER, &[], &[TYPE, 0]];
        let other = dhcp_message(xid, options[turn % 5]);
        list.next_call(&dhcp(&other), rooms[turn % 3]);
        let first = [1, 2, 1][turn % 3];
        list.next_call(&with(xid_bringer(xid), DATA_AT, &[first]), USUAL_ROOM);
    }
}

fn drawn_sequence(list: &mut GatewayList) {
    let start = Record {
        mac: [2, 0, 0, 0, 0, 0x0e],
        id: 65_532,
        xid: 0xffff_ffff,
        network: HERE,
    };
    list.call(start, &ping(&[]), USUAL_ROOM);
    for _ in 0..100 {
        let frame = drawn_frame(&mut list.draws);
        let room = drawn_room(&mut list.draws);
        list.next_call(&frame, room);
    }
    assert!(list.record().id < 65_532);
}
