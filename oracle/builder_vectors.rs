//! Which calls of the builders are listed.

use crate::cases::{Call, End, List, Payload, Room, SYN, aimed, word_that_turns};
use crate::draws::{ADDRESSES_SEED, BROADCAST_IP, BUILDERS_SEED, GATEWAY_IP, GUEST_IP, GUEST_MAC};
use crate::lines::{ALL_ONES, bytes_of, ruled_bytes};
use Room::{Empty, Full, Larger, Most, OneMore, OneShort, Shorter};

/// Small ones both odd and even, around a byte's reach, around what one Ethernet frame carries, and
/// around a page.
const LENGTHS: [usize; 21] = [
    0, 1, 2, 3, 7, 8, 9, 19, 20, 21, 255, 256, 257, 1459, 1460, 1461, 1480, 1500, 4095, 4096, 4097,
];
/// Each length has a room that fits, and most have one that does not.
const ROOMS_IN_TURN: [&[Room]; 3] = [&[Full, OneShort], &[Larger, Empty], &[Full]];
const UNIFORM_LENGTHS: [usize; 4] = [1, 2, 3, 64];
/// The Rust's 32-bit sum is certain to hold up to 131,074 bytes and no further (document 01).
const LONG_SUMS: [usize; 14] = [
    65_514, 65_515, 65_534, 65_535, 65_536, 65_537, 65_538, 98_304, 100_001, 131_070, 131_071,
    131_072, 131_073, 131_074,
];
/// 0xffff is not among them: no header is all zeros, so none has that checksum.
const CHECKSUMS_AIMED_AT: [u16; 7] = [0, 1, 0x00ff, 0x7fff, 0x8000, 0xff00, 0xfffe];

pub fn list() -> String {
    let mut list = List::new();
    list.comment("Calls of the builders of vpod's slirp, answered by its published Rust.");
    list.comment("Printed by oracle/vectors; oracle/README.md says what a line holds.");
    list.comment(&format!(
        "Drawn by xorshift64 from seed {BUILDERS_SEED:#018x}, a datagram's addresses from {ADDRESSES_SEED:#018x}."
    ));

    checksums(&mut list);
    ip_frames(&mut list);
    udp_payloads(&mut list);
    tcp_frames(&mut list);
    udp_checksums(&mut list);
    list.finish()
}

fn checksums(list: &mut List) {
    list.comment("01: document 01's cases C1 to C5");
    for bytes in [&[][..], &[1], &[0, 1], &[0xff; 2], &[0xff, 0xff, 0, 1]] {
        list.checksum(bytes);
    }
    list.comment("01: all zeros, all ff");
    for len in UNIFORM_LENGTHS {
        list.checksum(&vec![0; len]);
        list.checksum(&vec![0xff; len]);
    }
    list.comment("01: drawn bytes");
    for len in 0..=64 {
        let bytes = list.draws.bytes(len);
        list.checksum(&bytes);
    }
    list.comment("01: bytes that carry their own checksum");
    for len in [2, 8, 20, 40] {
        let mut bytes = list.draws.bytes(len);
        let sum = list.checksum(&bytes);
        bytes.extend(sum.to_be_bytes());
        assert_eq!(list.checksum(&bytes), 0);
    }
    list.comment("07: bytes by rule");
    for len in LENGTHS {
        list.checksum_by_rule(len);
    }
    for len in LONG_SUMS {
        list.checksum_by_rule(len);
        list.checksum_of_ones(len);
    }
}

fn drawn_ip(list: &mut List) -> Call {
    Call::Ip {
        dst_mac: list.draws.mac(),
        src_ip: list.draws.ip(),
        dst_ip: list.draws.ip(),
        proto: list.draws.proto(),
    }
}

fn drawn_ends(list: &mut List) -> [End; 2] {
    [(); 2].map(|()| (list.addresses.ip(), list.draws.port()))
}

fn drawn_udp(list: &mut List) -> Call {
    let [src, dst] = drawn_ends(list);
    Call::Udp { src, dst }
}

fn drawn_tcp(list: &mut List, flags: u8) -> Call {
    Call::Tcp {
        dst_mac: list.draws.mac(),
        src: (list.draws.ip(), list.draws.port()),
        dst: (list.draws.ip(), list.draws.port()),
        seq: list.draws.word(),
        ack: list.draws.word(),
        flags,
    }
}

fn each_length(list: &mut List, draw: impl Fn(&mut List) -> Call) {
    for (turn, len) in LENGTHS.into_iter().enumerate() {
        list.burn_some();
        let call = draw(list);
        // Short ones are also given by rule, now and then, so that a reader's rule meets length 0.
        let payload = if turn % 5 == 0 {
            Payload::by_rule(&mut list.draws, len)
        } else {
            Payload::drawn(&mut list.draws, len)
        };
        list.case(&call, &payload, ROOMS_IN_TURN[turn % 3]);
    }
}

/// The last two lengths that fit, with each answer that they can get, and lengths past them.
fn at_the_limit(list: &mut List, past: &[usize], draw: impl Fn(&mut List) -> Call) {
    let limit = draw(list).limit();
    for len in [limit - 1, limit] {
        list.burn_some();
        let call = draw(list);
        let payload = Payload::by_rule(&mut list.draws, len);
        list.case(&call, &payload, &[Full, OneShort, Empty, Larger]);
    }
    for len in [&[limit + 1][..], past].concat() {
        list.burn_some();
        let call = draw(list);
        let payload = Payload::by_rule(&mut list.draws, len);
        list.case(&call, &payload, &[Full, OneShort, Empty, Most]);
    }
}

fn drawn_payloads(list: &mut List, draw: impl Fn(&mut List) -> Call) {
    for len in 0..=64 {
        list.burn_some();
        let call = draw(list);
        let payload = Payload::drawn(&mut list.draws, len);
        let rooms: &[Room] = match len % 8 {
            0 => &[Full, OneShort],
            4 => &[Larger, Shorter],
            even if even % 2 == 0 => &[Full],
            _ => &[Larger],
        };
        list.case(&call, &payload, rooms);
    }
}

fn uniform_payloads(list: &mut List, calls: &[Call]) {
    for call in calls {
        for byte in [0, 0xff] {
            for len in UNIFORM_LENGTHS {
                list.case(call, &Payload::WrittenOut(vec![byte; len]), &[Full]);
            }
        }
    }
}

fn ip_frames(list: &mut List) {
    list.comment("03: the first two ids; the first is document 01's ping P1");
    let ping = Call::Ip {
        dst_mac: GUEST_MAC,
        src_ip: GATEWAY_IP,
        dst_ip: GUEST_IP,
        proto: 1,
    };
    let echo = Payload::WrittenOut(vec![0, 0, 0xff, 0xfd, 0, 1, 0, 1]);
    list.case(&ping, &echo, &[Full, OneShort, Empty]);
    list.case(&ping, &echo, &[Larger]);

    list.comment("03: lengths");
    each_length(list, drawn_ip);
    list.comment("03: at the limit and past it");
    at_the_limit(list, &[65_536, 70_000], drawn_ip);
    list.comment("03: drawn payloads");
    drawn_payloads(list, drawn_ip);

    list.comment("03: protocols, and addresses of one byte");
    for proto in [0, 1, 6, 17, 255] {
        for (mac, ip) in [(0, 0), (0xff, 0xff), (0, 0xff), (0xff, 0)] {
            let call = Call::Ip {
                dst_mac: [mac; 6],
                src_ip: [ip; 4],
                dst_ip: [ip; 4],
                proto,
            };
            list.burn_some();
            let payload = Payload::drawn(&mut list.draws, proto as usize % 4);
            list.case(&call, &payload, &[Full]);
        }
    }
    list.comment("03: payloads all zeros, all ff");
    let uniform = [0, 0xff].map(|byte| Call::Ip {
        dst_mac: [byte; 6],
        src_ip: [byte; 4],
        dst_ip: [byte; 4],
        proto: byte,
    });
    uniform_payloads(list, &uniform);

    list.comment("03: header checksums aimed at");
    for wanted in CHECKSUMS_AIMED_AT {
        ip_with_checksum(list, wanted);
    }

    list.comment("03: ids around the wrap; id 1 has the header of document 01's DHCP reply D0");
    list.burn_to(65_533);
    for len in [0, 3] {
        let call = drawn_ip(list);
        let payload = Payload::drawn(&mut list.draws, len);
        list.case(&call, &payload, &[Full]);
    }
    let last_id = drawn_ip(list);
    let past = Payload::by_rule(&mut list.draws, 65_516);
    list.case(&last_id, &past, &[Full, Empty]);
    list.case(&last_id, &echo, &[Full, OneShort]);
    let first_again = drawn_ip(list);
    list.case(&first_again, &past, &[Full, Empty]);
    list.case(&first_again, &echo, &[Larger, OneShort]);
    let dhcp = Call::Ip {
        dst_mac: GUEST_MAC,
        src_ip: GATEWAY_IP,
        dst_ip: BROADCAST_IP,
        proto: 17,
    };
    let reply = Payload::by_rule(&mut list.draws, 308);
    list.case(&dhcp, &reply, &[Full, OneShort]);
}

fn ip_with_checksum(list: &mut List, wanted: u16) {
    let (dst_mac, dst_ip, proto) = (list.draws.mac(), list.draws.ip(), list.draws.proto());
    let [high, low, ..] = list.draws.ip();
    let call_with = |word: u16| {
        let [third, fourth] = word.to_be_bytes();
        Call::Ip {
            dst_mac,
            src_ip: [high, low, third, fourth],
            dst_ip,
            proto,
        }
    };
    let payload = list.draws.bytes(5);
    let trial = list.build(&call_with(0), &payload);
    // The listed frame has the id after the trial's: its words sum to one more.
    let one_more = word_that_turns(u16::from_be_bytes([trial[24], trial[25]]), 1);
    let call = call_with(word_that_turns(one_more, wanted));
    let built = list.case(&call, &Payload::WrittenOut(payload), &[Full]);
    assert_eq!(built.unwrap()[24..26], wanted.to_be_bytes());
}

fn udp_payloads(list: &mut List) {
    list.comment("05: lengths");
    each_length(list, drawn_udp);
    list.comment("05: at the limit and past it");
    at_the_limit(list, &[65_536, 70_000], drawn_udp);
    list.comment("05: drawn data");
    drawn_payloads(list, drawn_udp);
    list.comment("05: data all zeros, all ff");
    let (zeros, ones) = (([0; 4], 0), ([0xff; 4], 65_535));
    let ends = [(zeros, ones), (ones, zeros)];
    uniform_payloads(list, &ends.map(|(src, dst)| Call::Udp { src, dst }));
}

/// Datagrams whose checksum others made: a kernel and scapy. `replay` replays them; here they are held
/// against the judge of ours.
const OF_OTHERS: [&str; 2] = [
    include_str!("udp_captured.txt"),
    include_str!("udp_scapy.txt"),
];

fn check_datagrams_of_others(list: &mut List) {
    let lines = OF_OTHERS.iter().flat_map(|file| file.lines());
    let cases: Vec<_> = lines
        .filter(|line| line.starts_with("05 "))
        .map(bytes_of)
        .collect();
    assert!(!cases.is_empty());
    for case in cases {
        let number = |at: usize| u16::from_be_bytes([case[at], case[at + 1]]);
        let address = |at: usize| [case[at], case[at + 1], case[at + 2], case[at + 3]];
        let (src, dst) = ((address(1), number(5)), (address(7), number(11)));
        let (seed, head, data) = (case[22], &case[28..36], &case[36..]);
        let len = u32::from_be_bytes(address(23)) as usize;
        let data = match seed {
            0 => data.to_vec(),
            seed => ruled_bytes(seed, len),
        };
        assert_eq!(data.len(), len);
        assert!(list.build(&Call::Udp { src, dst }, &data)[..8] == *head);
    }
}

/// Source port 7, and for this data the target port with which the checksum is computed as 0.
const COMPUTED_AS_0: (Call, &[u8]) = (
    Call::Udp {
        src: (GATEWAY_IP, 7),
        dst: (GUEST_IP, 64_233),
    },
    b"zero",
);

fn udp_checksums(list: &mut List) {
    check_datagrams_of_others(list);
    list.comment("05: a checksum that is computed as 0 and sent as 0xffff");
    let (call, data) = COMPUTED_AS_0;
    let payload = Payload::WrittenOut(data.to_vec());
    let built = list.case(&call, &payload, &[Full, OneMore, OneShort]);
    assert_eq!(built.unwrap()[6..8], [0xff; 2]);

    list.comment(
        "05: checksums aimed at, by the data's first word and, with no data or one byte, by a port",
    );
    for wanted in CHECKSUMS_AIMED_AT {
        for len in [2, 5, 40] {
            let [src, dst] = drawn_ends(list);
            let data = aimed(src, dst, list.draws.bytes(len), wanted);
            list.case(&Call::Udp { src, dst }, &Payload::WrittenOut(data), &[Full]);
        }
        for len in [0, 1] {
            udp_with_checksum(list, len, wanted);
        }
    }

    list.comment("05: all ones, up to the longest data");
    for len in [1_471, 1_472, 65_526, 65_527] {
        let (src, dst) = (([0xff; 4], 65_535), ([0xff; 4], 65_535));
        let payload = Payload::ByRule {
            seed: ALL_ONES,
            len,
        };
        list.case(&Call::Udp { src, dst }, &payload, &[Full]);
    }

    list.comment("05 and 03: a datagram, and the IPv4 frame around it between the same addresses");
    around_a_datagram(list, &call, data);
    for len in [0, 1, 2, 3, 8, 9, 63, 64] {
        let call = drawn_udp(list);
        let data = list.draws.bytes(len);
        around_a_datagram(list, &call, &data);
    }

    list.comment("05: one byte of an address or a port, all others 0");
    for place in 0..12 {
        for byte in [1, 0x80, 0xff] {
            let mut ends = [0; 12];
            ends[place] = byte;
            let [a, b, c, d, sp, sq, e, f, g, h, tp, tq] = ends;
            let src = ([a, b, c, d], u16::from_be_bytes([sp, sq]));
            let dst = ([e, f, g, h], u16::from_be_bytes([tp, tq]));
            list.case(
                &Call::Udp { src, dst },
                &Payload::WrittenOut(vec![]),
                &[Full],
            );
        }
    }
}

fn around_a_datagram(list: &mut List, call: &Call, data: &[u8]) {
    let Call::Udp { src, dst } = call else {
        panic!("no datagram");
    };
    let payload = Payload::WrittenOut(data.to_vec());
    let datagram = list.case(call, &payload, &[Full]).unwrap();
    let around = Call::Ip {
        dst_mac: GUEST_MAC,
        src_ip: src.0,
        dst_ip: dst.0,
        proto: 17,
    };
    list.case(&around, &Payload::WrittenOut(datagram), &[Full]);
}

/// By the target port.
fn udp_with_checksum(list: &mut List, len: usize, wanted: u16) {
    let [src, (address, _)] = drawn_ends(list);
    let call_to = |port: u16| Call::Udp {
        src,
        dst: (address, port),
    };
    let data = list.draws.bytes(len);
    let trial = list.build(&call_to(0), &data);
    let port = word_that_turns(u16::from_be_bytes([trial[6], trial[7]]), wanted);
    let built = list.case(&call_to(port), &Payload::WrittenOut(data), &[Full]);
    let stored = if wanted == 0 { 0xffff } else { wanted };
    assert_eq!(built.unwrap()[6..8], stored.to_be_bytes());
}

fn tcp_frames(list: &mut List) {
    list.comment("06: every byte of flags");
    for flags in 0..=255 {
        list.burn_some();
        let call = drawn_tcp(list, flags);
        let len = list.draws.below(4);
        let payload = Payload::drawn(&mut list.draws, len);
        let room = if flags % 3 == 0 { Larger } else { Full };
        list.case(&call, &payload, &[room]);
    }

    let without_syn = |list: &mut List| {
        let flags = list.draws.byte() & !SYN;
        drawn_tcp(list, flags)
    };
    let with_syn = |list: &mut List| {
        let flags = list.draws.byte() | SYN;
        drawn_tcp(list, flags)
    };
    let any = |list: &mut List| {
        let flags = list.draws.byte();
        drawn_tcp(list, flags)
    };
    list.comment("06: lengths without SYN");
    each_length(list, without_syn);
    list.comment("06: lengths with SYN");
    each_length(list, with_syn);
    list.comment("06: at the limit without SYN and past it");
    at_the_limit(list, &[65_536, 70_000], without_syn);
    list.comment("06: at the limit with SYN and past it, up to the limit without");
    at_the_limit(list, &[65_495, 65_496, 65_536, 70_000], with_syn);
    list.comment("06: without SYN, the limit with SYN means nothing");
    for len in [65_487, 65_488] {
        let call = without_syn(list);
        let payload = Payload::by_rule(&mut list.draws, len);
        list.case(&call, &payload, &[Full]);
    }
    list.comment("06: drawn data");
    drawn_payloads(list, any);

    list.comment("06: sequence and acknowledgement at their edges");
    let edges = [0, 1, 0x7fff_ffff, 0x8000_0000, 0xffff_ffff];
    for (turn, edge) in edges.into_iter().enumerate() {
        let mut call = any(list);
        if let Call::Tcp { seq, ack, .. } = &mut call {
            (*seq, *ack) = (edge, edges[(turn + 2) % 5]);
        }
        let payload = Payload::drawn(&mut list.draws, turn);
        list.case(&call, &payload, &[Full]);
    }
    list.comment("06: data all zeros, all ff");
    let uniform = [0, 0xff].map(|byte| Call::Tcp {
        dst_mac: [byte; 6],
        src: ([byte; 4], u16::from_be_bytes([byte; 2])),
        dst: ([byte; 4], u16::from_be_bytes([byte; 2])),
        seq: u32::from_be_bytes([byte; 4]),
        ack: u32::from_be_bytes([byte; 4]),
        flags: byte,
    });
    uniform_payloads(list, &uniform);

    list.comment("06: checksums aimed at, without SYN and with it");
    for wanted in CHECKSUMS_AIMED_AT {
        let call = without_syn(list);
        tcp_with_checksum(list, &call, wanted);
        let call = with_syn(list);
        tcp_with_checksum(list, &call, wanted);
    }

    list.comment("06: ids around the wrap");
    list.burn_to(65_534);
    for _ in 0..4 {
        let call = any(list);
        let past = Payload::by_rule(&mut list.draws, 65_496);
        list.case(&call, &past, &[Empty]);
        let payload = Payload::drawn(&mut list.draws, 6);
        list.case(&call, &payload, &[Full, OneShort]);
    }
}

fn tcp_with_checksum(list: &mut List, call: &Call, wanted: u16) {
    let with_source_port = |port: u16| {
        let mut call = call.clone();
        if let Call::Tcp { src, .. } = &mut call {
            src.1 = port;
        }
        call
    };
    let data = list.draws.bytes(5);
    let trial = list.build(&with_source_port(0), &data);
    let port = word_that_turns(u16::from_be_bytes([trial[50], trial[51]]), wanted);
    let built = list.case(&with_source_port(port), &Payload::WrittenOut(data), &[Full]);
    assert_eq!(built.unwrap()[50..52], wanted.to_be_bytes());
}
