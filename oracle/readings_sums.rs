//! Checksums stored as 0 and as 0xffff. Where the other words add up to a multiple of 65,535 that is
//! not 0, both are right; else neither is.

use crate::captured::sent;
use crate::draws::GATEWAY_IP;
use crate::grammar_01::Kind;
use crate::guest_frames::*;
use crate::mended::{dhcp_frame, mended, with_header_options, with_lengths};
use crate::mended::{message_sum_at, payload_at, to_be_summed, with_header_sum, with_message_sum};
use crate::reading_cases::{Origin, ReadingList};

const HEADER_SUM_AT: usize = BODY_AT + 10;
const ID_AT: usize = BODY_AT + 4;

/// The frame with a word at `at` that makes all the words but the checksum add up to nothing, as far
/// as a checksum can tell: the one that is right is stored at `at`, and 0 in its place.
fn even_out(frame: Vec<u8>, at: usize, sum_at: usize, sum: impl Fn(Vec<u8>) -> Vec<u8>) -> Vec<u8> {
    let unsummed = with(with(frame, at, &[0, 0]), sum_at, &[0, 0]);
    let summed = sum(unsummed.clone());
    with(unsummed, at, &summed[sum_at..sum_at + 2])
}

/// The sum at this place, stored as 0 and as 0xffff, and near both.
const STORED: [[u8; 2]; 6] = [
    [0, 0],
    [0xff, 0xff],
    [0, 1],
    [0xff, 0xfe],
    [1, 0],
    [0xfe, 0xff],
];

fn is_either(stored: [u8; 2]) -> bool {
    stored == [0, 0] || stored == [0xff, 0xff]
}

/// IPv4's header: once with the id that makes both right, once as it is.
fn header_sums(list: &mut ReadingList, kind: Kind, frame: &[u8]) {
    let both = even_out(frame.to_vec(), ID_AT, HEADER_SUM_AT, with_header_sum);
    for stored in STORED {
        let right = with(both.clone(), HEADER_SUM_AT, &stored);
        if is_either(stored) {
            list.taken(Origin::Sums, kind, &right);
        } else {
            list.refused(Origin::Sums, "header sums", &right);
        }
    }
    let odd = with_header_sum(with(both, ID_AT, &[0x12, 0x34]));
    list.taken(Origin::Sums, kind, &odd);
    for stored in [[0, 0], [0xff, 0xff]] {
        let wrong = with(odd.clone(), HEADER_SUM_AT, &stored);
        list.refused(Origin::Sums, "header sums", &wrong);
    }
}

/// The message's sum: `at` is a free word of it, counted from its start.
fn message_sums(list: &mut ReadingList, kind: Kind, frame: &[u8], at: usize) {
    let sum_at = message_sum_at(frame).unwrap();
    let at = payload_at(frame).unwrap() + at;
    // A UDP checksum of 0 would stay.
    let sum = |frame: Vec<u8>| with_message_sum(with(frame, sum_at, &[1, 1]));
    let both = even_out(frame.to_vec(), at, sum_at, sum);
    let is_udp = matches!(kind, Kind::Udp | Kind::Dhcp);
    for stored in STORED {
        let right = with(both.clone(), sum_at, &stored);
        if is_either(stored) {
            list.taken(Origin::Sums, kind, &right);
        } else {
            list.refused(Origin::Sums, "sums right", &right);
        }
    }
    let odd = with(both, at, &[0x12, 0x34]);
    let right = with_message_sum(with(odd.clone(), sum_at, &[1, 1]));
    list.taken(Origin::Sums, kind, &right);
    list.refused(
        Origin::Sums,
        "sums right",
        &with(odd.clone(), sum_at, &[0xff, 0xff]),
    );
    let unsummed = with(odd, sum_at, &[0, 0]);
    if is_udp {
        list.taken(Origin::Sums, kind, &unsummed);
    } else {
        list.refused(Origin::Sums, "sums right", &unsummed);
    }
}

/// Words that are all 0 fold to 0 and not to 65,535, so 0 is not right of them; 0xffff is.
fn all_zeros(list: &mut ReadingList) {
    for len in [8, 9, 10, 64, 1_480] {
        let zeros = packet(ICMP, GATEWAY_IP, &vec![0; len]);
        list.refused(Origin::Sums, "ICMP: sums right", &zeros);
        let ones = with(zeros, PAYLOAD_AT + 2, &[0xff, 0xff]);
        list.taken(Origin::Sums, Kind::Icmp, &ones);
    }
    // Every word but the sum is 0xffff: both are right.
    for len in [8, 9, 10, 11] {
        let ones = with(
            packet(ICMP, GATEWAY_IP, &vec![0xff; len]),
            PAYLOAD_AT + 2,
            &[0, 0],
        );
        let high_half_only = len % 2 == 1;
        for stored in [[0, 0], [0xff, 0xff], [0, 0xff], [0xff, 0]] {
            let frame = with(ones.clone(), PAYLOAD_AT + 2, &stored);
            let is_right = if high_half_only {
                stored == [0, 0xff]
            } else {
                is_either(stored)
            };
            if is_right {
                list.taken(Origin::Sums, Kind::Icmp, &frame);
            } else {
                list.refused(Origin::Sums, "ICMP: sums right", &frame);
            }
        }
    }
}

/// No UDP checksum: whatever the other fields say, 0 is taken.
fn unsummed_datagrams(list: &mut ReadingList) {
    for words in [
        "UDP to port 7, 0 data bytes",
        "UDP to port 123, 3 data bytes",
    ] {
        let frame = sent(words);
        for at in (SOURCE_AT..SOURCE_AT + 8).chain(PAYLOAD_AT..PAYLOAD_AT + 4) {
            let changed = with_header_sum(with(frame.clone(), at, &[frame[at] ^ 0x41]));
            list.refused(Origin::Sums, "UDP: checksum", &changed);
            let unsummed = with(changed, PAYLOAD_AT + 6, &[0, 0]);
            list.taken(Origin::Sums, Kind::Udp, &unsummed);
        }
    }
}

/// An odd last byte is a word's high half, not its low one, and the pseudo-header is part of the sum.
fn odd_ends(list: &mut ReadingList) {
    let frames = [
        ("ping, 1 data byte", Kind::Icmp),
        ("UDP to port 53, 1 data byte", Kind::Udp),
        (
            "TCP data segment, 1 data byte, no options agreed on",
            Kind::Tcp,
        ),
    ];
    for (words, kind) in frames {
        let frame = sent(words);
        let sum_at = message_sum_at(&frame).unwrap();
        for last in [0, 1, 0x80, 0xff] {
            let right = mended(with(frame.clone(), frame.len() - 1, &[last]));
            list.taken(Origin::Sums, kind, &right);
            let as_low_half = summed_with_low_half(&with(right.clone(), sum_at, &[0, 0]));
            if last != 0 {
                let wrong = with(right.clone(), sum_at, &as_low_half);
                list.refused(Origin::Sums, "sums right", &wrong);
            }
            if kind != Kind::Icmp {
                let payload = &with(right.clone(), sum_at, &[0, 0])[PAYLOAD_AT..];
                let wrong = with(right, sum_at, &summed(payload));
                list.refused(Origin::Sums, "sums right", &wrong);
            }
        }
    }
    // A ping is summed without a pseudo-header.
    let echo = with(sent("ping, 8 data bytes"), PAYLOAD_AT + 2, &[0, 0]);
    let length = (echo.len() - PAYLOAD_AT) as u8;
    let pseudo = [
        &echo[SOURCE_AT..PAYLOAD_AT],
        &[0, ICMP, 0, length],
        &echo[PAYLOAD_AT..],
    ];
    let wrong = with(echo.clone(), PAYLOAD_AT + 2, &summed(&pseudo.concat()));
    list.refused(Origin::Sums, "ICMP: sums right", &wrong);
}

fn summed_with_low_half(frame: &[u8]) -> [u8; 2] {
    let mut words = to_be_summed(frame);
    let last = words.pop().unwrap();
    summed(&[&words[..], &[0, last]].concat())
}

pub fn list(list: &mut ReadingList) {
    let igmp = sent("IGMP report, version 2");
    let odd_ping = sent("ping, 7 data bytes");
    let ping = sent("ping, 8 data bytes");
    let odd_datagram = sent("UDP to port 4000, 9 data bytes");
    let datagram = sent("UDP to port 4000, 4 data bytes");
    let segment = sent("TCP data segment, 2 data bytes, no options agreed on");
    let odd_segment = sent("TCP data segment, 1 data byte, no options agreed on");
    let syn = sent("TCP SYN to port 80");
    let message = dhcp_frame(&dhcp_message(0x0102_0304, &DISCOVER));
    let options: Vec<u8> = (1..=40).collect();

    list.comment("the IPv4 header's checksum 0 and 0xffff");
    let frames = [
        (Kind::OtherIpv4, &igmp),
        (Kind::OtherIpv4, &packet(253, GATEWAY_IP, &[])),
        (Kind::Icmp, &odd_ping),
        (Kind::Udp, &datagram),
        (Kind::Tcp, &segment),
        (Kind::Icmp, &with_header_options(&ping, &options)),
        (Kind::Dhcp, &message),
    ];
    for (kind, frame) in frames {
        header_sums(list, kind, frame);
    }
    list.comment("a message's checksum 0 and 0xffff");
    let frames = [
        (Kind::Icmp, &ping, 4),
        (Kind::Icmp, &odd_ping, 6),
        (
            Kind::Icmp,
            &with_header_options(&odd_ping, &options[..8]),
            4,
        ),
        (Kind::Udp, &datagram, 0),
        (Kind::Udp, &odd_datagram, 8),
        (Kind::Udp, &with_header_options(&datagram, &options), 0),
        (Kind::Tcp, &segment, 4),
        (Kind::Tcp, &odd_segment, 14),
        (Kind::Tcp, &syn, 18),
        (Kind::Tcp, &with_header_options(&syn, &options[..4]), 6),
        (
            Kind::Dhcp,
            &with(message.clone(), PAYLOAD_AT + 6, &[1, 1]),
            8 + 4,
        ),
        (
            Kind::Dhcp,
            &with_lengths([message.clone(), vec![0]].concat()),
            8 + 10,
        ),
    ];
    for (kind, frame, at) in frames {
        message_sums(list, kind, frame, at);
    }
    list.comment("both sums at once");
    for (kind, frame, at) in [
        (Kind::Icmp, &ping, 4),
        (Kind::Udp, &datagram, 0),
        (Kind::Tcp, &segment, 4),
    ] {
        let header = even_out(frame.clone(), ID_AT, HEADER_SUM_AT, with_header_sum);
        for stored in [[0, 0], [0xff, 0xff]] {
            message_sums(
                list,
                kind,
                &with(header.clone(), HEADER_SUM_AT, &stored),
                at,
            );
        }
    }
    list.comment("messages of zeros, and of 0xff");
    all_zeros(list);
    list.comment("datagrams without a checksum, changed");
    unsummed_datagrams(list);
    list.comment("odd last bytes, pseudo-headers");
    odd_ends(list);
}
