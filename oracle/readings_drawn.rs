//! Drawn frames: good ones, good ones with one byte or bit changed, and short ones of any bytes.

use crate::captured::captured;
use crate::draws::{Draws, GATEWAY_IP};
use crate::guest_frames::*;
use crate::mended::{mended, payload_at, summed_anew, with_header_options, with_lengths};
use crate::reading_cases::{Origin, ReadingList};

/// Longer captured frames are left to the other lists.
const LONGEST: usize = 110;

fn drawn_arp(draws: &mut Draws) -> Vec<u8> {
    let operation = draws.one_of(&[1, 2]);
    let frame = with(arp(operation, GATEWAY_IP), 0, &draws.bytes(12));
    with(frame, 22, &draws.bytes(20))
}

/// A list that is right, its type first, in the middle or last.
fn drawn_list(draws: &mut Draws) -> Vec<u8> {
    let mut options = |count: usize| -> Vec<u8> {
        let mut bytes = vec![];
        for _ in 0..count {
            let len = draws.below(6);
            match draws.one_of(&[PAD, 1, 12, 55, 61, 254]) {
                PAD => bytes.push(PAD),
                code => {
                    bytes.extend([code, len as u8]);
                    bytes.extend(draws.bytes(len));
                }
            }
        }
        bytes
    };
    let (before, behind) = (options(2), options(2));
    let message_type = 1 + draws.below(8) as u8;
    let zeros = draws.below(4);
    let end = [&[TYPE, 1, message_type], &behind[..], &[END]].concat();
    [before, end, vec![0; zeros]].concat()
}

fn drawn_payload(draws: &mut Draws) -> (u8, Vec<u8>) {
    let len = draws.below(30);
    let data = draws.bytes(len);
    match draws.below(7) {
        0 | 1 => (ICMP, [draws.bytes(8), data].concat()),
        2 | 3 => (UDP, datagram(draws.port(), draws.port(), &data)),
        4 | 5 => {
            let offset = 5 + draws.below(1 + data.len() / 4);
            let header = with(draws.bytes(20), 12, &[16 * offset as u8]);
            (TCP, [header, data].concat())
        }
        _ => (draws.proto(), data),
    }
}

/// A packet, its sums right; mostly in the grammar.
fn drawn_packet(draws: &mut Draws) -> Vec<u8> {
    let (protocol, payload) = drawn_payload(draws);
    let words = draws.below(11);
    let options = draws.bytes(4 * draws_few(words));
    let frame = with_header_options(&packet(protocol, GATEWAY_IP, &payload), &options);
    dressed(draws, frame)
}

/// Mostly 0.
fn draws_few(words: usize) -> usize {
    words.saturating_sub(6)
}

/// The frame with other MACs, addresses and whatever else is free in its IPv4 header.
fn dressed(draws: &mut Draws, frame: Vec<u8>) -> Vec<u8> {
    let flags = draws.one_of(&[0x00, 0x40]);
    let [tos, ttl] = [draws.byte(), draws.byte()];
    let addresses = [draws.ip(), draws.ip()].concat();
    let frame = with(frame, 0, &draws.bytes(12));
    let frame = with(frame, BODY_AT + 1, &[tos]);
    let frame = with(frame, BODY_AT + 4, &draws.bytes(2));
    let frame = with(frame, BODY_AT + 6, &[flags, 0, ttl]);
    let frame = with(frame, SOURCE_AT, &addresses);
    match draws.below(4) {
        0 => mended(frame),
        _ => mended(summed_anew(frame)),
    }
}

fn drawn_message(draws: &mut Draws) -> Vec<u8> {
    let message = dhcp_message(draws.word(), &drawn_list(draws));
    let message = with(message, 0, &[draws.one_of(&[1, 2])]);
    let (source, destination) = draws.one_of(&[(67, 68), (68, 67)]);
    let frame = udp(source, draws.ip(), destination, &message);
    dressed(draws, frame)
}

/// One byte changed, or one bit of it, and the sums made right or not.
fn changed_at(draws: &mut Draws, frame: &[u8], at: usize) -> Vec<u8> {
    let (any, bit) = (draws.byte(), 1 << draws.below(8));
    let byte = draws.one_of(&[any, frame[at] ^ bit, frame[at] ^ bit, 0, 255]);
    let changed = with(frame.to_vec(), at, &[byte]);
    match draws.below(3) {
        0 => changed,
        _ => mended(changed),
    }
}

fn good_frames(list: &mut ReadingList) {
    for turn in 0..220 {
        let frame = match turn % 10 {
            0 => list.drawn(drawn_arp),
            _ => list.drawn(drawn_packet),
        };
        list.judged(Origin::Drawn, &frame);
    }
    for _ in 0..20 {
        let frame = list.drawn(drawn_message);
        list.judged(Origin::Drawn, &frame);
    }
}

fn good_frames_changed(list: &mut ReadingList) {
    for turn in 0..270 {
        let frame = match turn % 10 {
            0 => list.drawn(drawn_arp),
            _ => list.drawn(drawn_packet),
        };
        let changed = list.drawn(|draws| {
            let at = draws.below(frame.len());
            changed_at(draws, &frame, at)
        });
        list.judged(Origin::Drawn, &changed);
    }
    for _ in 0..50 {
        let frame = list.drawn(drawn_message);
        let changed = list.drawn(|draws| {
            // In the fixed fields few bytes are looked at.
            let (headers, list) = (12 + draws.below(34), frame.len() - DATA_AT - COOKIE_AT);
            let in_list = DATA_AT + COOKIE_AT + draws.below(list);
            let at = draws.one_of(&[headers, in_list, in_list, in_list]);
            changed_at(draws, &frame, at)
        });
        list.judged(Origin::Drawn, &changed);
    }
}

fn captured_frames_changed(list: &mut ReadingList) {
    for captured in captured() {
        let frame = captured.frame;
        if frame.len() > LONGEST {
            continue;
        }
        for _ in 0..3 {
            let changed = list.drawn(|draws| {
                let at = TYPE_AT + draws.below(frame.len() - TYPE_AT);
                changed_at(draws, &frame, at)
            });
            list.judged(Origin::Drawn, &changed);
        }
    }
}

/// Any bytes, behind a type that is mostly one of the two.
fn any_bytes(list: &mut ReadingList) {
    for turn in 0..260 {
        let len = turn % 87;
        let frame = list.drawn(|draws| {
            let ethertype = draws.one_of(&[ARP, IPV4, IPV4, IPV4, 0x86dd]);
            let mut frame = draws.bytes(len);
            if len >= BODY_AT {
                frame = with(frame, TYPE_AT, &ethertype.to_be_bytes());
            }
            if len > BODY_AT && draws.below(4) > 0 {
                frame = with(frame, BODY_AT, &[draws.one_of(&[0x45, 0x45, 0x46])]);
            }
            match draws.below(4) {
                0 => frame,
                1 => mended(frame),
                _ if payload_at(&frame).is_some() && len >= PAYLOAD_AT => {
                    let flags = draws.one_of(&[0, 0, 0x40, 0x20]);
                    let protocol = draws.proto();
                    let frame = with(frame, BODY_AT + 6, &[flags, 0]);
                    with_lengths(with(frame, PROTOCOL_AT, &[protocol]))
                }
                _ => frame,
            }
        });
        list.judged(Origin::Drawn, &frame);
    }
}

pub fn list(list: &mut ReadingList) {
    let groups: [(&str, fn(&mut ReadingList)); 4] = [
        ("drawn good frames", good_frames),
        ("drawn good frames, one byte changed", good_frames_changed),
        ("captured frames, one byte changed", captured_frames_changed),
        ("any bytes", any_bytes),
    ];
    for (words, add_frames) in groups {
        list.comment(words);
        add_frames(list);
    }
}
