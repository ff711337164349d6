//! Lines that are wrong on purpose: a reader that agrees with one of them, or a program that does not
//! compare every field, is found out.

use crate::captured::sent;
use crate::grammar_01::{self, KINDS, Kind, Reading};
use crate::guest_frames::with;
use crate::reading_cases::{Origin, ReadingList};

/// Two captured frames of each kind.
fn good_frames(kind: Kind) -> [Vec<u8>; 2] {
    let names = match kind {
        Kind::Arp => [
            "ARP request for an address that is not in the neighbour table",
            "ARP reply to a request",
        ],
        Kind::Icmp => ["ping, 57 data bytes", "ICMP echo reply, 0 data bytes"],
        Kind::Udp => [
            "UDP to port 7, 0 data bytes",
            "UDP with the IPv4 option a time stamp, header of 32 bytes, 7 data bytes",
        ],
        Kind::Dhcp => [
            "dhcpcd's INFORM: the address is known",
            "ipconfig's DISCOVER: DHCP",
        ],
        Kind::Tcp => [
            "TCP SYN to port 443",
            "TCP data segment, 1 data byte, no options agreed on",
        ],
        Kind::OtherIpv4 => [
            "IGMP report, version 3",
            "a packet of a raw socket, protocol 253, 0 data bytes",
        ],
    };
    names.map(sent)
}

/// What is claimed of a frame: that it has this kind, with the layers that it has, as many as the kind
/// takes, and more that run on to its end.
fn claim(kind: Kind, frame: &[u8], reading: &Reading) -> Reading {
    let count = match kind {
        Kind::Arp => 1,
        Kind::OtherIpv4 => 2,
        Kind::Icmp | Kind::Udp | Kind::Tcp => 3,
        Kind::Dhcp => 4,
    };
    let mut layers = reading.layers.clone();
    layers.truncate(count);
    while layers.len() < count {
        let [_, start, stop] = layers[layers.len() - 1];
        layers.push([start, (start + 8).min(frame.len()), stop]);
    }
    Reading {
        kind,
        layers,
        message_type: (kind == Kind::Dhcp).then(|| reading.message_type.unwrap_or(1)),
    }
}

/// The frame with a byte changed that puts it outside the grammar.
fn damaged(kind: Kind, frame: &[u8]) -> Vec<u8> {
    let at = match kind {
        Kind::Arp => 15,
        _ => 24,
    };
    let damaged = with(frame.to_vec(), at, &[frame[at] ^ 1]);
    assert!(grammar_01::read(&damaged).is_none());
    damaged
}

/// One number of one layer is one more or one less.
fn numbers(list: &mut ReadingList, frame: &[u8], reading: &Reading, first_turn: usize) {
    let mut turn = first_turn;
    for layer in 0..reading.layers.len() {
        for number in 0..3 {
            let mut wrong = reading.clone();
            let place = &mut wrong.layers[layer][number];
            *place = if turn % 2 == 0 || *place == 0 {
                *place + 1
            } else {
                *place - 1
            };
            list.spoiled(Origin::Captured, Some(wrong), frame);
            turn += 1;
        }
    }
}

fn spoiled_frames(list: &mut ReadingList, kind: Kind) {
    for (turn, frame) in good_frames(kind).iter().enumerate() {
        let reading = grammar_01::read(frame).unwrap();
        assert_eq!(reading.kind, kind);
        // DHCP's lines are long: the numbers of one of its frames, all others of both.
        if kind != Kind::Dhcp || turn == 0 {
            numbers(list, frame, &reading, turn);
        }
        for other in KINDS.into_iter().filter(|other| *other != kind) {
            if (other as usize + turn) % 2 == 0 {
                list.spoiled(Origin::Captured, Some(claim(other, frame, &reading)), frame);
            }
        }
        if let Some(message_type) = reading.message_type {
            for wrong in [message_type + 1, message_type - 1, message_type ^ 0x80] {
                let message_type = Some(wrong);
                let wrong = Reading {
                    message_type,
                    ..reading.clone()
                };
                list.spoiled(Origin::Captured, Some(wrong), frame);
            }
        }
        list.spoiled(Origin::Captured, None, frame);
        let damaged = damaged(kind, frame);
        list.spoiled(Origin::Damaged, Some(reading), &damaged);
    }
}

pub fn list(list: &mut ReadingList) {
    list.comment(
        "wrong on purpose: a number of a layer, the kind, the type, taken and refused exchanged",
    );
    for kind in KINDS {
        spoiled_frames(list, kind);
    }
    for (kind, frame) in [
        (Kind::OtherIpv4, vec![]),
        (Kind::Arp, vec![0; 13]),
        (Kind::Udp, vec![0; 64]),
    ] {
        let layers = vec![[0, frame.len(), frame.len()]];
        let nothing = Reading {
            kind,
            layers,
            message_type: None,
        };
        let claim = claim(kind, &frame, &nothing);
        list.spoiled(Origin::Lengths, Some(claim), &frame);
    }
}
