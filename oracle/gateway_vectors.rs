//! Which calls of the gateway are listed.

use crate::captured::{Captured, kernels};
use crate::cases::MOST_ROOM;
use crate::dhcp_vectors::{END, PAD, TYPE};
use crate::document_01::{Record, Verdict};
use crate::drawn_frames::{drawn_frame, drawn_room};
use crate::draws::{Draws, GATEWAY_IP, GATEWAY_MAC, GATEWAY_SEED, GUEST_IP, GUEST_MAC};
use crate::gateway_cases::{FRESH, GatewayList, USUAL_ROOM};
use crate::gateway_dhcp::*;
use crate::gateway_sequences::{self, messages};
use crate::guest_frames::*;
use crate::lines::ruled_bytes;

const PROTOCOLS: [u8; 10] = [0, 1, 2, 5, 6, 7, 16, 17, 18, 255];

const GROUPS: [(&str, fn(&mut GatewayList)); 37] = [
    ("document 01's cases", document_01s_cases),
    ("an ARP request cut at every length", cut_arp),
    ("a ping cut at every length", cut_ping),
    ("a DNS query cut at every length", cut_dns_query),
    ("a TCP SYN cut at every length", cut_syn),
    ("a DHCP discover cut at every length", cut_discover),
    ("another type, at lengths to 64", cut_other_type),
    ("types", types),
    ("ARP: lengths", arp_lengths),
    ("ARP: operations and targets", arp_tests),
    ("ARP: what is not looked at", arp_free_fields),
    ("IPv4: lengths 33 to 35, protocols", short_packets),
    (
        "every header length, the payload around the frame's end",
        header_lengths,
    ),
    ("a payload inside the header", payload_in_header),
    ("versions", versions),
    ("IPv4 fields that are not looked at", ip_free_fields),
    ("ICMP: targets", icmp_targets),
    ("ICMP: payloads around 8, types, codes", icmp_tests),
    (
        "ICMP: lengths, and padding behind the total length",
        icmp_lengths,
    ),
    ("ICMP: sums at their edges", icmp_sums),
    (
        "ICMP: long payloads, around the limit and past it",
        icmp_limit,
    ),
    ("UDP: ports by targets", udp_ports),
    ("UDP: length fields by payloads", udp_lengths),
    ("UDP: long ones", udp_long),
    ("DHCP: data around 240 bytes, first bytes", dhcp_tests),
    ("DHCP: cookies", dhcp_cookies),
    ("DHCP: options of document 01 and message types", dhcp_types),
    (
        "DHCP: cut by the length field and by the frame's end",
        dhcp_cuts,
    ),
    ("DHCP: drawn options", dhcp_drawn),
    ("DHCP: xids, record's MACs, senders", dhcp_records),
    ("rooms", rooms),
    ("ids and record's MACs", ids),
    ("one bit changed", flips),
    ("one byte changed", byte_changes),
    ("drawn frames", drawn_frames),
    ("an operating system's frames", captured_frames),
    (
        "a DHCP client's messages, and composed ones",
        client_messages,
    ),
];

pub fn list() -> String {
    let mut list = GatewayList::new(GATEWAY_SEED);
    let lines = &mut list.lines;
    lines.comment("Calls of the gateway: what vpod's slirp does with a guest's frame.");
    lines.comment("Printed by oracle/vectors; oracle/README.md says what a line holds.");
    lines.comment(&format!(
        "Drawn by xorshift64 from seed {GATEWAY_SEED:#018x}."
    ));
    lines.comment(
        "Each answer is document 01's. A line says whose it is besides: the Rust's, or of",
    );
    lines
        .comment("document 01 alone, where the Rust panics, cuts a length or would need a buffer.");
    for (words, add_cases) in GROUPS {
        list.group(&format!("0d: {words}"), add_cases);
    }
    for (words, add_calls) in gateway_sequences::SEQUENCES {
        list.group(&format!("0d, then 0e: {words}"), add_calls);
    }
    list.finish()
}

fn document_01s_cases(list: &mut GatewayList) {
    let discover = dhcp(&dhcp_message(0x0102_0304, &DISCOVER));
    let strings: [(&[u8], Verdict); 7] = [
        (&[TYPE, 1, 1, END], Verdict::Reply(342)),
        (&[TYPE, 1], Verdict::CutType(240)),
        (&[TYPE], Verdict::Drop),
        (&[TYPE, 0, TYPE, 1, 3], Verdict::Reply(342)),
        (&[PAD, PAD, TYPE, 5, 1], Verdict::Reply(342)),
        (&[TYPE, 0], Verdict::Drop),
        (&[END, TYPE, 1, 1], Verdict::Drop),
    ];
    let mut marked = vec![
        ("A1", arp(1, GATEWAY_IP), USUAL_ROOM, Verdict::Reply(42)),
        ("P1", ping(&[]), USUAL_ROOM, Verdict::Reply(42)),
        ("D0", discover.clone(), 342, Verdict::Reply(342)),
        (
            "41-byte ARP",
            of_len(arp(1, GATEWAY_IP), 41),
            42,
            Verdict::Drop,
        ),
        (
            "header length 60 in a 34-byte UDP frame",
            with(of_len(dns_query(), 34), BODY_AT, &[0x4f]),
            USUAL_ROOM,
            Verdict::Drop,
        ),
        (
            "ping payload 65,515",
            ping(&ruled_bytes(9, 65_507)),
            65_549,
            Verdict::Reply(65_549),
        ),
        (
            "ping payload 65,516",
            ping(&ruled_bytes(9, 65_508)),
            MOST_ROOM,
            Verdict::TooLong(65_516),
        ),
        ("DHCP room 341", discover, 341, Verdict::NoRoom(342)),
    ];
    let names = ["D1", "D2", "D3", "D4", "D5", "D6", "D7"];
    for (name, (options, verdict)) in names.into_iter().zip(strings) {
        let frame = dhcp(&dhcp_message(0x0102_0304, options));
        marked.push((name, frame, USUAL_ROOM, verdict));
    }
    for (name, frame, room, expected) in marked {
        list.lines.comment(name);
        assert_eq!(list.call(FRESH, &frame, room), expected);
    }
}

/// Lists the frame's beginnings, the empty one and the whole frame among them.
fn cut_everywhere(list: &mut GatewayList, frame: &[u8]) {
    for end in 0..=frame.len() {
        list.frame(&frame[..end]);
    }
}

fn cut_arp(list: &mut GatewayList) {
    cut_everywhere(list, &of_len(arp(1, GATEWAY_IP), 64));
}

fn cut_ping(list: &mut GatewayList) {
    let frame = ping(&ruled_bytes(0x61, 56));
    cut_everywhere(list, &with(frame, SOURCE_MAC_AT, &[2, 0, 0, 0, 0, 1]));
}

fn cut_dns_query(list: &mut GatewayList) {
    cut_everywhere(list, &with(dns_query(), SOURCE_MAC_AT, &[2, 0, 0, 0, 0, 2]));
}

fn cut_syn(list: &mut GatewayList) {
    cut_everywhere(list, &with(syn(), SOURCE_MAC_AT, &[2, 0, 0, 0, 0, 3]));
}

/// Pads stand before its type, an option behind it and zeros behind END, as a client fills them in.
fn cut_discover(list: &mut GatewayList) {
    let options = [&[PAD, PAD][..], &DISCOVER[..3], &[55, 4, 1, 3, 6, 15, END]].concat();
    let message = of_len(dhcp_message(0x3903_f326, &options), 300);
    let frame = with(dhcp(&message), 0, &GATEWAY_MAC);
    cut_everywhere(list, &with(frame, DATA_AT + 28, &[0; 6]));
}

fn cut_other_type(list: &mut GatewayList) {
    for end in [0, 1, 12, 13, 14, 15, 33, 34, 35, 41, 42, 43, 60, 64] {
        let frame = with(of_len(arp(1, GATEWAY_IP), 64), TYPE_AT, &[0x86, 0xdd]);
        list.frame(&frame[..end]);
    }
}

fn types(list: &mut GatewayList) {
    let types = [
        0x0806u16, 0x0800, 0x0805, 0x0807, 0x0801, 0x07ff, 0x0906, 0x0900, 0x0008, 0x0608, 0x86dd,
        0x8100, 0x8806, 0x0000, 0xffff, 0x0804,
    ];
    for frame in [arp(1, GATEWAY_IP), ping(&[7]), dns_query(), syn()] {
        for ethertype in types {
            list.frame(&with(frame.clone(), TYPE_AT, &ethertype.to_be_bytes()));
        }
    }
}

fn arp_lengths(list: &mut GatewayList) {
    for len in [41, 42, 43, 59, 60, 61, 64, 342, 1_514] {
        list.frame(&of_len(arp(1, GATEWAY_IP), len));
    }
    for len in [41, 42, 43] {
        list.frame_in(&of_len(arp(1, GATEWAY_IP), len), 42);
        list.frame_in(&of_len(arp(1, GATEWAY_IP), len), 41);
    }
    list.frame(&[arp(1, GATEWAY_IP), ruled_bytes(5, 3_000)].concat());
}

fn arp_tests(list: &mut GatewayList) {
    for operation in [0, 1, 2, 3, 0x0100, 0x0101, 0x0201, 0x8001, 0xff01, 0xffff] {
        list.frame(&arp(operation, GATEWAY_IP));
    }
    for target in near(GATEWAY_IP).into_iter().chain(TARGETS) {
        list.frame(&arp(1, target));
    }
    list.frame(&arp(2, GUEST_IP));
}

fn arp_free_fields(list: &mut GatewayList) {
    let request = arp(1, GATEWAY_IP);
    let written: [(usize, &[u8]); 14] = [
        (0, &[0; 6]),
        (0, &[0xff; 6]),
        (SOURCE_MAC_AT, &[0xff; 6]),
        (14, &[0, 0]),
        (14, &[0xff, 0xff]),
        (16, &[0x86, 0xdd]),
        (18, &[0]),
        (18, &[255]),
        (19, &[0]),
        (19, &[16]),
        (22, &[0; 6]),
        (28, &[0; 4]),
        (28, &GATEWAY_IP),
        (32, &[0xff; 6]),
    ];
    for (at, bytes) in written {
        list.frame(&with(request.clone(), at, bytes));
    }
    for _ in 0..10 {
        let mut frame = request.clone();
        for (at, len) in [(0, 12), (14, 6), (22, 16)] {
            frame = with(frame, at, &list.draws.bytes(len));
        }
        list.frame(&frame);
    }
}

fn short_packets(list: &mut GatewayList) {
    for protocol in PROTOCOLS {
        for payload in [&[][..], &[8], &ruled_bytes(8, 8), &ruled_bytes(8, 20)] {
            list.frame(&packet(protocol, GATEWAY_IP, payload));
        }
        list.frame(&of_len(packet(protocol, GATEWAY_IP, &[]), 33));
        list.frame(&packet(protocol, ELSEWHERE, &ruled_bytes(8, 20)));
    }
}

/// Bytes that read as a ping, or as a datagram to port 53 or from it, at whichever word of the header
/// the payload starts.
fn body_for_any_start(protocol: u8, len: usize) -> Vec<u8> {
    let four = match protocol {
        ICMP => [8, 0, 0, 0],
        _ => [0, 53, 0, 53],
    };
    four.into_iter().cycle().take(len).collect()
}

fn header_lengths(list: &mut GatewayList) {
    for nibble in 0..16 {
        let start = BODY_AT + 4 * nibble;
        for protocol in [ICMP, UDP] {
            let mut lengths = [start - 1, start, start + 7, start + 8, start + 30]
                .map(|len| len.max(PAYLOAD_AT))
                .to_vec();
            lengths.dedup();
            for len in lengths {
                let payload = body_for_any_start(protocol, 91);
                let frame = packet(protocol, GATEWAY_IP, &payload);
                let byte = 0x40 + nibble as u8;
                list.frame(&with(frame, BODY_AT, &[byte])[..len]);
            }
        }
        for protocol in [TCP, 2] {
            let frame = packet(protocol, GATEWAY_IP, &[8; 6]);
            list.frame(&with(frame, BODY_AT, &[0x40 + nibble as u8]));
        }
    }
}

/// A header length of 0 to 16: what is read as the payload is also read as header.
fn payload_in_header(list: &mut GatewayList) {
    let echo = ping(&ruled_bytes(3, 20));
    for (nibble, at) in [(1, 18), (2, 22), (3, 26), (4, 30)] {
        for (version, first) in [(0x40, 8), (0, 8), (0xf0, 8), (0x40, 0)] {
            let frame = with(echo.clone(), BODY_AT, &[version + nibble]);
            // The target's first byte has to stay 10.
            let first = if at == TARGET_AT { 10 } else { first };
            list.frame(&with(frame, at, &[first]));
        }
    }
    // No byte 14 reads as type 8 and as header length 0 at once.
    list.frame(&with(echo.clone(), BODY_AT, &[0x40]));
    list.frame(&with(echo.clone(), BODY_AT, &[8]));

    // The ports stand in the version and the total length, the length field in the id.
    let message = dhcp_message(0x0a0b_0c0d, &DISCOVER);
    for (ports, length) in [
        ([0, 68, 0, 67], 0x0200),
        ([0, 68, 0, 67], 0x0100),
        ([0, 68, 0, 67], 7),
        ([0x50, 68, 0, 53], 0x0020),
        ([0x40, 0, 0, 53], 8),
        ([0x40, 0, 0, 80], 9),
        ([0xf0, 68, 0, 67], 0xffff),
    ] {
        for target in [GATEWAY_IP, ELSEWHERE] {
            let frame = packet(UDP, target, &message);
            let frame = with(frame, BODY_AT, &ports);
            list.frame(&with(frame, 18, &(length as u16).to_be_bytes()));
        }
    }
    // The DHCP data starts at 22 + 4 n: for n of 0 in the TTL's place, where a 1 can stand.
    for (nibble, options) in [(0u8, &DISCOVER[..]), (0, &REQUEST), (0, &[TYPE, 1])] {
        let mut data = dhcp_message(0x0e0f_1011, options);
        data[1] = UDP;
        let head = [&[nibble, 68, 0, 67][..], &[2, 0, 0, 0], &data].concat();
        list.frame(&with(ethernet(IPV4, &head), TARGET_AT, &ELSEWHERE));
    }
    for nibble in 1..5 {
        for target in [GATEWAY_IP, ELSEWHERE] {
            for drawn in 0..3 {
                let payload = list.draws.bytes(12 + drawn);
                let frame = packet(UDP, target, &payload);
                let frame = with(frame, BODY_AT, &[0x40 + nibble]);
                let small = [0, list.draws.below(40) as u8];
                let (at, bytes): (usize, &[u8]) = match (nibble, drawn) {
                    (1, 0) => (18, &[0, 68, 0, 67]),
                    (1, 1) => (20, &[0, 53]),
                    (2, 0 | 1) => (24, &[0, 53, small[0], small[1]]),
                    (3, 0) => (26, &[0, 68, 0, 67]),
                    (3, 1) => (28, &[0, 53]),
                    (4, _) => (34, &small),
                    _ => (24, &small),
                };
                list.frame(&with(frame, at, bytes));
            }
        }
    }
}

fn versions(list: &mut GatewayList) {
    let discover = dhcp(&dhcp_message(7, &DISCOVER));
    for (turn, version) in (0..16u8).enumerate() {
        let byte = [16 * version + 5];
        list.frame(&with(ping(&[]), BODY_AT, &byte));
        list.frame(&with(dns_query(), BODY_AT, &byte));
        if turn % 5 == 0 {
            list.frame(&with(syn(), BODY_AT, &byte));
            list.frame(&with(discover.clone(), BODY_AT, &byte));
        }
    }
}

fn ip_free_fields(list: &mut GatewayList) {
    let relayed = udp(5_000, ELSEWHERE, 6_000, b"relay");
    let discover = dhcp(&dhcp_message(8, &DISCOVER));
    let written: [(usize, &[u8]); 19] = [
        (15, &[0xff]),
        (TOTAL_LENGTH_AT, &[0, 0]),
        (TOTAL_LENGTH_AT, &[0, 19]),
        (TOTAL_LENGTH_AT, &[0, 20]),
        (TOTAL_LENGTH_AT, &[0, 27]),
        (TOTAL_LENGTH_AT, &[0, 29]),
        (TOTAL_LENGTH_AT, &[0xff, 0xff]),
        (18, &[0, 0]),
        (20, &[0x20, 0x00]),
        (20, &[0x00, 0x01]),
        (20, &[0x1f, 0xff]),
        (20, &[0x80, 0x00]),
        (20, &[0x00, 0x00]),
        (22, &[0]),
        (24, &[0, 0]),
        (24, &[0xff, 0xff]),
        (SOURCE_AT, &GATEWAY_IP),
        (SOURCE_AT, &[0xff; 4]),
        (36, &[0xde, 0xad]),
    ];
    for (at, bytes) in written {
        for frame in [ping(&[1, 2]), dns_query(), relayed.clone()] {
            list.frame(&with(frame, at, bytes));
        }
        if at < 24 {
            list.frame(&with(discover.clone(), at, bytes));
        }
    }
    list.frame(&with(relayed, 40, &[0xde, 0xad]));
    list.frame(&with(dns_query(), 40, &[0xde, 0xad]));
}

fn icmp_targets(list: &mut GatewayList) {
    let message = icmp(8, 0, &[0, 2, 0, 3, 4]);
    for target in near(GATEWAY_IP).into_iter().chain(TARGETS) {
        list.frame(&packet(ICMP, target, &message));
    }
    // Another target is dropped before the payload is looked at.
    for target in [GUEST_IP, ELSEWHERE, GATEWAY_IP] {
        list.frame(&with(packet(ICMP, target, &message), BODY_AT, &[0x4f]));
    }
}

fn icmp_tests(list: &mut GatewayList) {
    for kind in [0, 8, 13] {
        for len in [0, 1, 6, 7, 8, 9] {
            let message = of_len(icmp(kind, 0, &[0, 1, 0, 2, 3]), len);
            list.frame(&packet(ICMP, GATEWAY_IP, &message));
        }
    }
    for kind in [
        0, 1, 3, 5, 7, 8, 9, 10, 11, 12, 13, 16, 17, 72, 128, 136, 255,
    ] {
        list.frame(&packet(ICMP, GATEWAY_IP, &icmp(kind, 0, &[0, 1, 0, 2])));
    }
    for code in [1, 2, 8, 127, 128, 255] {
        for kind in [8, 0] {
            let message = icmp(kind, code, &[0, 1, 0, 2, 3]);
            list.frame(&packet(ICMP, GATEWAY_IP, &message));
        }
    }
}

fn icmp_lengths(list: &mut GatewayList) {
    for len in 0..=40 {
        let data = list.draws.bytes(len);
        let (mac, ip) = (list.draws.mac(), list.draws.ip());
        let frame = with(ping(&data), SOURCE_MAC_AT, &mac);
        list.frame(&with(frame, SOURCE_AT, &ip));
    }
    for len in [255, 256, 257, 1_471, 1_472, 1_473, 4_096] {
        let seed = list.draws.rule_seed();
        list.frame_in(&ping(&ruled_bytes(seed, len)), MOST_ROOM);
    }
    for (padding, byte) in [
        (1, 0),
        (2, 0),
        (17, 0),
        (18, 0),
        (18, 0xff),
        (18, 7),
        (400, 0xaa),
    ] {
        for data in [&[][..], &[9]] {
            let frame = [ping(data), vec![byte; padding]].concat();
            list.frame(&frame);
        }
    }
    // The header has options, and the payload stands behind them.
    for words in [1, 2, 10] {
        let message = icmp(8, 0, &[0, 9, 0, 8, 7]);
        let payload = [vec![1; 4 * words], message].concat();
        let frame = packet(ICMP, GATEWAY_IP, &payload);
        list.frame(&with(frame, BODY_AT, &[0x45 + words as u8]));
    }
}

/// The sum of what is echoed at 0, at 65,535 and around them; the checksum field is not echoed.
fn icmp_sums(list: &mut GatewayList) {
    let echoed: [&[u8]; 12] = [
        &[0, 0, 0, 0],
        &[0, 1, 0, 0],
        &[0xff, 0xff, 0, 0],
        &[0xff, 0xfe, 0, 0],
        &[0xff, 0xff, 0xff, 0xff],
        &[0xff, 0xff, 0, 1],
        &[0x80, 0, 0x80, 0],
        &[0x7f, 0xff, 0x80, 0],
        &[0, 0, 0, 0, 0xff],
        &[0, 0xff, 0, 0, 0xff],
        &[1, 0, 0, 0, 0xff],
        &[0xff, 0, 0, 0xff, 0, 0, 0],
    ];
    for rest in echoed {
        for sum in [[0, 0], [0xff, 0xff], [8, 0]] {
            let message = with(icmp(8, 0, rest), 2, &sum);
            list.frame(&packet(ICMP, GATEWAY_IP, &message));
        }
    }
}

fn icmp_limit(list: &mut GatewayList) {
    for len in [65_513, 65_514, 65_515] {
        for seed in [0xff, 1 + (len % 200) as u8] {
            let frame = ping(&ruled_bytes(seed, len - 8));
            let n = PAYLOAD_AT + len;
            for room in [n - 1, n, n + 1, 0, USUAL_ROOM, MOST_ROOM] {
                list.frame_in(&frame, room);
            }
        }
    }
    for len in [65_516, 65_517, 65_535, 65_536, 65_537, 66_000, 70_000] {
        let seed = list.draws.rule_seed();
        let frame = ping(&ruled_bytes(seed, len - 8));
        for room in [0, len + 33, len + 34, MOST_ROOM] {
            list.frame_in(&frame, room);
        }
    }
    // The same lengths of frame, with header lengths of 24 and 60, and what is not echoed at all.
    for words in [1, 10] {
        for len in [65_515, 65_516] {
            let message = icmp(8, 0, &ruled_bytes(4, len - 4));
            let payload = [vec![1; 4 * words], message].concat();
            let frame = packet(ICMP, GATEWAY_IP, &payload);
            list.frame_in(&with(frame, BODY_AT, &[0x45 + words as u8]), MOST_ROOM);
        }
    }
    for (kind, target) in [(8, ELSEWHERE), (0, GATEWAY_IP)] {
        let message = icmp(kind, 0, &ruled_bytes(4, 65_600));
        list.frame(&packet(ICMP, target, &message));
    }
}

fn udp_ports(list: &mut GatewayList) {
    let ports = [
        (68, 67),
        (67, 68),
        (68, 68),
        (67, 67),
        (68, 53),
        (53, 53),
        (40_000, 53),
        (40_000, 52),
        (40_000, 54),
        (40_000, 67),
        (69, 67),
        (68, 66),
        (0, 0),
        (65_535, 65_535),
        (0x4400, 0x4300),
        (0x0144, 0x0143),
        (40_000, 0x3500),
        (40_000, 0x0135),
    ];
    for (turn, (source, destination)) in ports.into_iter().enumerate() {
        let targets = if turn < 8 {
            &TARGETS[..]
        } else {
            &TARGETS[..3]
        };
        for target in targets {
            let data = list.draws.bytes(3);
            list.frame(&udp(source, *target, destination, &data));
        }
    }
    for target in near(GATEWAY_IP) {
        list.frame(&udp(40_000, target, 53, &[1]));
    }
    let message = dhcp_message(0x5152_5354, &DISCOVER);
    for (source, destination) in [(68, 67), (67, 68), (68, 68), (67, 67), (69, 67), (68, 66)] {
        for target in TARGETS {
            list.frame(&udp(source, target, destination, &message));
        }
    }
}

fn udp_lengths(list: &mut GatewayList) {
    for payload_len in [7usize, 8, 9, 20, 40] {
        let len = payload_len as u16;
        let mut lengths = vec![
            0,
            1,
            7,
            8,
            9,
            10,
            len - 1,
            len,
            len + 1,
            0x0100,
            0x0700,
            65_535,
        ];
        lengths.sort();
        lengths.dedup();
        for length in lengths {
            for destination in [53, 4_000] {
                let data = list.draws.bytes(40);
                let whole = udp(40_000, GATEWAY_IP, destination, &data);
                let frame = with(whole, UDP_LENGTH_AT, &length.to_be_bytes());
                list.frame(&frame[..PAYLOAD_AT + payload_len]);
            }
        }
    }
    // No data at all.
    for target in TARGETS {
        list.frame(&udp(40_000, target, 53, &[]));
        list.frame(&udp(68, target, 67, &[]));
    }
}

fn udp_long(list: &mut GatewayList) {
    for len in [1_472, 65_507, 65_526, 65_527, 65_528, 65_529, 70_000] {
        for (target, destination) in [(GATEWAY_IP, 53), (ELSEWHERE, 4_000)] {
            let seed = list.draws.rule_seed();
            let frame = udp(40_000, target, destination, &ruled_bytes(seed, len));
            list.frame_in(&frame, 0);
            list.frame(&with(frame, UDP_LENGTH_AT, &[0xff, 0xff]));
        }
    }
}

fn rooms(list: &mut GatewayList) {
    list.rooms(&arp(1, GATEWAY_IP));
    list.rooms(&of_len(arp(1, GATEWAY_IP), 60));
    for len in [0, 1, 56, 1_000, 1_472] {
        list.rooms(&ping(&ruled_bytes(6, len)));
    }
    list.rooms(&ping(&ruled_bytes(7, USUAL_ROOM - 42)));
    list.rooms(&dhcp(&dhcp_message(0x9192_9394, &DISCOVER)));
    list.rooms(&dhcp(&dhcp_message(0x9596_9798, &REQUEST)));
    // Where nothing is built the room counts for nothing.
    let cut = dhcp(&dhcp_message(6, &[TYPE, 1]));
    let bad_arp = arp(2, GATEWAY_IP);
    let too_long = ping(&ruled_bytes(8, 65_508));
    let relayed = udp(5_000, ELSEWHERE, 6_000, b"relay");
    for frame in [dns_query(), relayed, syn(), cut, bad_arp, too_long, vec![]] {
        for room in [0, 41, 342] {
            list.frame_in(&frame, room);
        }
    }
}

fn ids(list: &mut GatewayList) {
    let macs = [[0; 6], [0xff; 6], GUEST_MAC, [2, 0, 0, 0, 0, 10]];
    let ids = [
        0, 1, 2, 255, 256, 257, 0x7fff, 0x8000, 65_533, 65_534, 65_535,
    ];
    for (turn, id) in ids.into_iter().enumerate() {
        let xid = list.draws.word();
        let mac = macs[turn % 4];
        let record = Record {
            mac,
            id,
            xid,
            ..FRESH
        };
        let ping = ping(&[turn as u8]);
        let discover = dhcp(&dhcp_message(xid.wrapping_add(1), &DISCOVER));
        for (frame, room) in [
            (&ping, USUAL_ROOM),
            (&ping, 42),
            (&discover, USUAL_ROOM),
            (&discover, 341),
            (&arp(1, GATEWAY_IP), USUAL_ROOM),
            (&dns_query(), USUAL_ROOM),
        ] {
            list.call(record, frame, room);
        }
    }
}

/// Frames that are answered or handed on, each to be changed a little.
fn whole_frames() -> Vec<Vec<u8>> {
    vec![
        arp(1, GATEWAY_IP),
        ping(&ruled_bytes(0x41, 6)),
        dns_query(),
        udp(5_000, ELSEWHERE, 6_000, b"relay"),
        syn(),
        dhcp(&dhcp_message(0x0b0b_0b0b, &DISCOVER)),
    ]
}

/// In DHCP's fixed fields few bytes are looked at, so a change is drawn from the others.
fn drawn_place(draws: &mut Draws, frame: &[u8]) -> usize {
    let len = frame.len();
    if len < 282 {
        return draws.below(len);
    }
    let (headers, fixed, options) = (
        draws.below(50),
        draws.below(len),
        276 + draws.below(len - 276),
    );
    draws.one_of(&[headers, headers, fixed, options, options])
}

fn flips(list: &mut GatewayList) {
    let request = arp(1, GATEWAY_IP);
    for bit in 8 * 20..8 * 22 {
        list.frame(&flipped(&request, bit));
    }
    for bit in 8 * 38..8 * 42 {
        list.frame(&flipped(&request, bit));
    }
    for (turn, frame) in whole_frames().into_iter().enumerate() {
        let tests_first = 8 * TYPE_AT..8 * BODY_AT + 8;
        for bit in tests_first.filter(|_| turn < 3) {
            list.frame(&flipped(&frame, bit));
        }
        for _ in 0..16 {
            let bit = 8 * drawn_place(&mut list.draws, &frame) + list.draws.below(8);
            list.frame(&flipped(&frame, bit));
        }
    }
    let protocol = 8 * PROTOCOL_AT..8 * PROTOCOL_AT + 8;
    for bit in protocol.chain(8 * TARGET_AT..8 * PAYLOAD_AT + 16) {
        list.frame(&flipped(&ping(&[]), bit));
    }
}

fn flipped(frame: &[u8], bit: usize) -> Vec<u8> {
    let mut frame = frame.to_vec();
    frame[bit / 8] ^= 0x80 >> (bit % 8);
    frame
}

fn byte_changes(list: &mut GatewayList) {
    for frame in whole_frames() {
        for _ in 0..14 {
            let at = drawn_place(&mut list.draws, &frame);
            let any = list.draws.byte();
            let byte = list.draws.one_of(&[0, 1, 8, 17, 53, 255, any, any]);
            let changed = with(frame.clone(), at, &[byte]);
            let len = match list.draws.below(4) {
                0 => frame.len() + list.draws.below(20),
                1 => list.draws.below(frame.len()),
                _ => frame.len(),
            };
            list.frame(&of_len(changed, len));
        }
    }
}

fn drawn_frames(list: &mut GatewayList) {
    for _ in 0..220 {
        let frame = drawn_frame(&mut list.draws);
        let room = drawn_room(&mut list.draws);
        list.frame_in(&frame, room);
    }
}

fn captured_frames(list: &mut GatewayList) {
    for Captured { frame, .. } in kernels() {
        list.frame(&frame);
    }
}

fn client_messages(list: &mut GatewayList) {
    for (turn, message) in messages().iter().enumerate() {
        list.frame(&dhcp(message));
        if turn % 3 == 0 {
            list.frame(&with(dhcp(message), TARGET_AT, &GATEWAY_IP));
        }
    }
}
