//! Lengths at each limit and one past it, cuts, and bytes behind a frame's end.

use crate::captured::sent;
use crate::draws::{GATEWAY_IP, GUEST_IP, GUEST_MAC};
use crate::grammar_01::Kind;
use crate::guest_frames::*;
use crate::lines::ruled_bytes;
use crate::mended::{dhcp_frame, longer, mended, shorter, summed_anew};
use crate::mended::{with_header_options, with_lengths};
use crate::reading_cases::{Origin, ReadingList};

/// The longest IPv4 packet.
const LONGEST: usize = 65_535;
const BODY: &str = "total length is the whole body";

/// One captured frame of each kind.
fn one_of_each() -> Vec<(Kind, Vec<u8>)> {
    let names = [
        (Kind::Arp, "ARP reply to a request"),
        (Kind::Icmp, "ping, 57 data bytes"),
        (Kind::Udp, "UDP to port 5353, 100 data bytes"),
        (Kind::Tcp, "TCP SYN to port 443"),
        (Kind::OtherIpv4, "IGMP report, version 3"),
        (Kind::Dhcp, "udhcpc's DISCOVER: no settings"),
    ];
    names.map(|(kind, words)| (kind, sent(words))).to_vec()
}

/// A TCP segment with a header of 20 bytes.
fn segment(data: &[u8]) -> Vec<u8> {
    let header = [
        &[0xa0, 0x28, 0, 80, 0x11, 0x22, 0x33, 0x44, 0, 0, 0, 0][..],
        &[0x50, 0x10, 0xfa, 0xf0, 0, 0, 0, 0],
    ];
    summed_anew(packet(TCP, GATEWAY_IP, &[&header.concat(), data].concat()))
}

fn summed_udp(source: u16, destination: u16, data: &[u8]) -> Vec<u8> {
    summed_anew(udp(source, GATEWAY_IP, destination, data))
}

fn cuts(list: &mut ReadingList) {
    for (kind, frame) in one_of_each() {
        for len in 0..=60.min(frame.len() - 1) {
            list.refused(Origin::Lengths, "", &frame[..len]);
        }
        let sparse = (61..frame.len()).filter(|len| len % 32 == 1);
        for len in sparse.chain([frame.len() - 2, frame.len() - 1]) {
            list.refused(Origin::Lengths, "", &frame[..len]);
        }
        // Cut, and then the lengths and sums made right: what is left may be a frame again.
        if kind != Kind::Dhcp {
            for len in PAYLOAD_AT..frame.len().min(66) {
                list.judged(Origin::Lengths, &shorter(&frame, len));
            }
        }
    }
}

fn trailing_bytes(list: &mut ReadingList) {
    let small = [
        (Kind::Icmp, ping(&[])),
        (Kind::Udp, summed_udp(5_000, 6_000, b"hi")),
        (Kind::Tcp, segment(&[])),
        (Kind::OtherIpv4, packet(253, GATEWAY_IP, &[1, 2, 3])),
        (Kind::Dhcp, dhcp_frame(&dhcp_message(7, &DISCOVER))),
    ];
    for (kind, frame) in one_of_each().into_iter().chain(small) {
        list.taken(Origin::Lengths, kind, &frame);
        let words = if kind == Kind::Arp { "28 bytes" } else { BODY };
        let (fcs, twenty) = (ruled_bytes(0x91, 4), vec![0; 20]);
        for behind in [&[0][..], &[1], &[255], &[0, 0], &fcs, &twenty] {
            let trailed = [&frame[..], behind].concat();
            list.refused(Origin::Lengths, words, &trailed);
        }
        if frame.len() < 60 {
            list.refused(Origin::Lengths, words, &of_len(frame.clone(), 60));
        }
        if kind == Kind::Arp {
            continue;
        }
        // The total length counts the byte too; of UDP's two lengths only one or both.
        for byte in [0, 0x5a] {
            let counted = longer(&frame, &[byte]);
            match kind {
                Kind::Dhcp if byte != 0 => list.refused(Origin::Lengths, "list", &counted),
                _ => {
                    list.taken(Origin::Lengths, kind, &counted);
                }
            }
            if matches!(kind, Kind::Udp | Kind::Dhcp) {
                let field = &frame[UDP_LENGTH_AT..UDP_LENGTH_AT + 2];
                let counted_once = mended(with(counted, UDP_LENGTH_AT, field));
                list.refused(Origin::Lengths, "UDP: length field", &counted_once);
            }
        }
    }
}

fn arp_lengths(list: &mut ReadingList) {
    let request = [&arp(1, GATEWAY_IP)[..], &[0; 32]].concat();
    for len in 0..=40 {
        let frame = &request[..BODY_AT + len];
        if len == 28 {
            list.taken(Origin::Lengths, Kind::Arp, frame);
        } else {
            list.refused(Origin::Lengths, "28 bytes", frame);
        }
    }
    for len in [60, 64, 1_514, 65_549] {
        list.refused(Origin::Lengths, "28 bytes", &of_len(request.clone(), len));
    }
}

/// A packet with a header of 20 to 60 bytes, and a body that ends with it, before it and behind it.
fn header_lengths(list: &mut ReadingList) {
    for words in 0..=10 {
        let options = ruled_bytes(0x21, 4 * words);
        let header = 20 + 4 * words;
        let empty = with_header_options(&packet(253, GATEWAY_IP, &[]), &options);
        list.taken(Origin::Lengths, Kind::OtherIpv4, &empty);
        list.taken(Origin::Lengths, Kind::OtherIpv4, &longer(&empty, &[7]));
        for cut in [1, 2, 4] {
            let short = shorter(&empty, empty.len() - cut);
            // It is still told that its header is as long: the total length is less.
            let total = ((header - cut) as u16).to_be_bytes();
            let short = with(short, TOTAL_LENGTH_AT, &total);
            list.refused(Origin::Lengths, "at least the header", &short);
        }
        let total = ((header - 1) as u16).to_be_bytes();
        let stale = mended(with(empty.clone(), TOTAL_LENGTH_AT, &total));
        list.refused(Origin::Lengths, BODY, &stale);
        for protocol in [ICMP, TCP, UDP] {
            let changed = mended(with(empty.clone(), PROTOCOL_AT, &[protocol]));
            list.refused(Origin::Lengths, " or more", &changed);
        }
    }
    let packet = packet(253, GATEWAY_IP, &[]);
    for len in 0..20 {
        list.refused(Origin::Lengths, "", &packet[..BODY_AT + len]);
    }
    // 16 bytes of header, as its length says, and 20 of body.
    for nibble in 0..5 {
        let short = mended(with(packet.clone(), BODY_AT, &[0x40 + nibble]));
        list.refused(Origin::Lengths, "header length 20 to 60", &short);
        let exact = &with_lengths(short)[..BODY_AT + 4 * usize::from(nibble)];
        list.refused(Origin::Lengths, "", exact);
    }
}

/// Messages of 0 bytes and more, in headers of 20, 24 and 60 bytes.
fn short_messages(list: &mut ReadingList) {
    let messages = [
        (Kind::Icmp, ICMP, 8, ping(&ruled_bytes(3, 8))),
        (
            Kind::Udp,
            UDP,
            8,
            summed_udp(5_000, 6_000, &ruled_bytes(3, 8)),
        ),
        (Kind::Tcp, TCP, 20, segment(&ruled_bytes(3, 8))),
    ];
    for (kind, protocol, least, frame) in messages {
        for options in [0, 4, 40] {
            let frame = with_header_options(&frame, &ruled_bytes(0x31, options));
            let start = PAYLOAD_AT + options;
            for len in 0..=least + 4 {
                let short = shorter(&frame, start + len);
                assert_eq!(short[PROTOCOL_AT], protocol);
                if len < least {
                    list.refused(Origin::Lengths, " or more", &short);
                } else {
                    list.taken(Origin::Lengths, kind, &short);
                }
            }
        }
    }
    // Seven bytes of UDP that say 7, and 8 that say 7 or 9; with a checksum and with none.
    for (len, field) in [(7, 7), (7, 8), (8, 7), (8, 9), (9, 8), (9, 10), (12, 8)] {
        for frame in [
            summed_udp(5_000, 6_000, &[0; 8]),
            udp(5_000, GATEWAY_IP, 6_000, &[0; 8]),
        ] {
            let frame = shorter(&frame, PAYLOAD_AT + len);
            let frame = mended(with(frame, UDP_LENGTH_AT, &[0, field]));
            list.refused(Origin::Lengths, "UDP: ", &frame);
        }
    }
}

/// Each offset with a segment that ends one byte before its header, with it and one behind it.
fn tcp_offsets(list: &mut ReadingList) {
    for offset in 0..=15 {
        let header = 4 * offset;
        for len in [header.max(21) - 1, header.max(20), header.max(20) + 1] {
            let frame = shorter(&segment(&ruled_bytes(1, 50)), PAYLOAD_AT + len);
            let frame = mended(with(frame, PAYLOAD_AT + 12, &[16 * offset as u8]));
            if offset < 5 {
                list.refused(Origin::Lengths, "TCP: offset 5 to 15", &frame);
            } else if len < header {
                list.refused(Origin::Lengths, "inside the payload", &frame);
            } else {
                list.taken(Origin::Lengths, Kind::Tcp, &frame);
            }
        }
    }
}

fn dhcp_lengths(list: &mut ReadingList) {
    let message = dhcp_message(0x0a0b_0c0d, &REQUEST);
    let bounds = "240 to 1,472";
    for len in [0, 1, 7, 8, 43, 44, 108, 235, 236, 239] {
        list.refused(Origin::Lengths, bounds, &dhcp_frame(&message[..len]));
    }
    for len in 240..244 {
        list.refused(Origin::Lengths, "list", &dhcp_frame(&message[..len]));
    }
    for ports in [(68, 67), (67, 68)] {
        let framed = |len: usize| udp(ports.0, GUEST_IP, ports.1, &of_len(message.clone(), len));
        for len in [244, 245, 246, 300, 548, 576, 1_470, 1_471, 1_472] {
            list.taken(Origin::Lengths, Kind::Dhcp, &framed(len));
            if len == 1_472 {
                list.taken(Origin::Lengths, Kind::Dhcp, &summed_anew(framed(len)));
            }
        }
        for len in [1_473, 1_474, 1_480, 1_500, 2_048, 65_507] {
            list.refused(Origin::Lengths, bounds, &framed(len));
        }
    }
    // A list of 1,232 bytes and one of 1,233, END last.
    for (pads, is_taken) in [(1_228, true), (1_229, false)] {
        let list_bytes = [&[TYPE, 1, 3][..], &vec![PAD; pads], &[END]].concat();
        let frame = dhcp_frame(&dhcp_message(5, &list_bytes));
        if is_taken {
            list.taken(Origin::Lengths, Kind::Dhcp, &frame);
        } else {
            list.refused(Origin::Lengths, bounds, &frame);
        }
    }
    // Other ports carry as much as they will, and as little.
    for len in [0, 1, 239, 240, 1_472, 1_473, 65_507] {
        let data = of_len(message.clone(), len);
        for ports in [(67, 67), (68, 68), (68, 6_700)] {
            let frame = udp(ports.0, GATEWAY_IP, ports.1, &data);
            list.taken(Origin::Lengths, Kind::Udp, &frame);
        }
    }
}

/// Total length 65,535, and one byte more, which no total length says.
fn longest_frames(list: &mut ReadingList) {
    let zeros = |len: usize| vec![0; len];
    let longest = [
        (Kind::Icmp, ping(&zeros(LONGEST - 28))),
        (
            Kind::Udp,
            udp(5_000, GATEWAY_IP, 6_000, &zeros(LONGEST - 28)),
        ),
        (Kind::Udp, summed_udp(5_000, 6_000, &zeros(LONGEST - 28))),
        (Kind::Tcp, segment(&zeros(LONGEST - 40))),
        (
            Kind::OtherIpv4,
            packet(253, GATEWAY_IP, &zeros(LONGEST - 20)),
        ),
    ];
    for (kind, frame) in longest {
        assert_eq!(frame.len(), 65_549);
        list.taken(Origin::Lengths, kind, &frame);
        for options in [4, 40] {
            let shortened = &frame[..frame.len() - options];
            let options = ruled_bytes(0x41, options);
            list.taken(
                Origin::Lengths,
                kind,
                &with_header_options(shortened, &options),
            );
        }
        list.taken(Origin::Lengths, kind, &shorter(&frame, 65_548));
        list.refused(Origin::Lengths, BODY, &frame[..65_548]);
        list.refused(Origin::Lengths, BODY, &[&frame[..], &[0]].concat());
        list.refused(Origin::Lengths, BODY, &longer(&frame, &[0]));
        // Its length modulo 65,536 would be right, and all sums are.
        for len in [20, 28, 40, 48, 100] {
            let wrapped = with_lengths(of_len(frame.clone(), BODY_AT + 65_536 + len));
            list.refused(Origin::Lengths, BODY, &wrapped);
        }
    }
    let short_ping = ping(&[]);
    list.refused(Origin::Lengths, BODY, &of_len(short_ping, 14 + 65_536 + 28));
}

/// A guest's frame padded to Ethernet's least length, with a padding that is not zeros.
fn paddings(list: &mut ReadingList) {
    let frames = [
        arp(1, GATEWAY_IP),
        arp(2, GUEST_IP),
        ping(&[]),
        ping(&[1, 2, 3]),
        udp(5_000, GATEWAY_IP, 6_000, &[]),
        segment(&[]),
        packet(2, GATEWAY_IP, &[]),
    ];
    for frame in frames {
        list.judged(Origin::Lengths, &frame);
        for len in [frame.len() + 1, 46, 59, 60, 64] {
            for padding in [0, 0x20, 0xff] {
                let mut padded = frame.clone();
                padded.resize(len.max(frame.len() + 1), padding);
                list.refused(Origin::Lengths, "", &padded);
            }
        }
    }
    let untagged = ping(&[5; 20]);
    let tag = [0x81, 0, 0, 5];
    let tagged = [&untagged[..TYPE_AT], &tag, &untagged[TYPE_AT..]].concat();
    list.refused(Origin::Lengths, "type 0x0806 or 0x0800", &tagged);
    let only_macs = [GUEST_MAC, GUEST_MAC].concat();
    list.refused(Origin::Lengths, "", &only_macs);
}

pub fn list(list: &mut ReadingList) {
    let groups: [(&str, fn(&mut ReadingList)); 9] = [
        ("good frames cut", cuts),
        ("bytes behind the end", trailing_bytes),
        ("ARP packets of 0 to 40 bytes and more", arp_lengths),
        ("IPv4 headers of 20 to 60 bytes", header_lengths),
        ("short messages", short_messages),
        ("TCP offsets around the segment's end", tcp_offsets),
        ("DHCP messages around 240 and 1,472 bytes", dhcp_lengths),
        ("the longest frames", longest_frames),
        ("padded frames", paddings),
    ];
    for (words, add_frames) in groups {
        list.comment(words);
        add_frames(list);
    }
}
