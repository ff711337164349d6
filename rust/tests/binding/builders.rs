//! The builders answer a length, no room or too long, and every byte of what they build is said here.

use std::error::Error;

use yavoledu::{Endpoints, Guest, Refusal, make_udp_payload};

use crate::frames::*;

const MAC: [u8; 6] = [0xa1, 0xa2, 0xa3, 0xa4, 0xa5, 0xa6];
const TO: [u8; 4] = [0xb1, 0xb2, 0xb3, 0xb4];
const FROM: [u8; 4] = [0xc1, 0xc2, 0xc3, 0xc4];

/// The options that a segment with SYN has.
const SYN_OPTIONS: [u8; 8] = [0x02, 0x04, 0x05, 0xb4, 0x01, 0x03, 0x03, 0x07];
const SYN: u8 = 0x02;

const FIELDS: TcpFields = TcpFields {
    src_port: 0x1112,
    dst_port: 0x2122,
    seq: 0x3132_3334,
    ack: 0x4142_4344,
    flags: 0,
};

const ENDS: Endpoints = Endpoints {
    dst_mac: MAC,
    src_ip: FROM,
    src_port: FIELDS.src_port,
    dst_ip: TO,
    dst_port: FIELDS.dst_port,
};

/// A builder: what it is lent to write into, and what it answers.
type Build<'a> = dyn Fn(&mut Guest, &mut [u8]) -> Result<usize, Refusal> + 'a;

fn guest(id: u16) -> Guest {
    Guest {
        id,
        xid: 0xe1e2_e3e4,
        ..new_guest([0xd1; 6])
    }
}

/// It builds exactly these bytes where there is room for them, and takes as many ids.
fn assert_builds(build: &Build, id: u16, ids_taken: u16, expected: &[u8]) {
    for spare in [0, 1, 100] {
        let room = pattern(expected.len() + spare);
        let mut out = room.clone();
        let mut guest_after = guest(id);
        assert_eq!(build(&mut guest_after, &mut out), Ok(expected.len()));
        assert_eq!(out[..expected.len()], *expected);
        assert_eq!(out[expected.len()..], room[expected.len()..]);
        assert_eq!(guest_after, guest(id.wrapping_add(ids_taken)));
    }
    for room in [0, 1, expected.len() - 1] {
        assert_refuses(build, room, Refusal::NoRoom(expected.len()));
    }
}

fn assert_refuses(build: &Build, room: usize, expected: Refusal) {
    let mut out = pattern(room);
    let mut guest_after = guest(7);
    assert_eq!(build(&mut guest_after, &mut out), Err(expected));
    assert_eq!(out, pattern(room));
    assert_eq!(guest_after, guest(7));
}

fn assert_too_long(build: &Build, len: usize) {
    for room in [0, 65_549, 65_550, 200_000] {
        assert_refuses(build, room, Refusal::TooLong(len));
    }
}

#[test]
fn an_ipv4_frame() {
    for payload in [&b""[..], b"1", b"payload", &pattern(65_515)] {
        for id in [1, 0xfefd, 65_535] {
            let packet = ipv4(id, 0x99, FROM, TO, &[], payload);
            assert_builds(
                &|guest, out| guest.make_ip_frame(MAC, FROM, TO, 0x99, payload, out),
                id,
                1,
                &ethernet(MAC, GATEWAY_MAC, 0x0800, &packet),
            );
        }
    }
}

#[test]
fn an_ipv4_payload_past_65515_bytes_is_too_long() {
    for len in [65_516, 65_535, 65_536, 131_072] {
        let payload = pattern(len);
        assert_too_long(
            &|guest, out| guest.make_ip_frame(MAC, FROM, TO, 0x99, &payload, out),
            len,
        );
    }
}

fn assert_builds_udp(from: ([u8; 4], u16), to: ([u8; 4], u16), data: &[u8]) {
    let expected = summed_udp(from, to, data);
    assert_eq!(sum_of_udp(from.0, to.0, &expected), 0xffff);
    assert_ne!(expected[6..8], [0, 0]);
    assert_builds(
        &|_, out| make_udp_payload(from.0, from.1, to.0, to.1, data, out),
        1,
        0,
        &expected,
    );
}

#[test]
fn a_udp_datagram() {
    let contents = [
        &b""[..],
        b"1",
        b"12",
        b"odd",
        b"data",
        &pattern(65_526),
        &pattern(65_527),
    ];
    for data in contents {
        assert_builds_udp((FROM, 0x1112), (TO, 0x2122), data);
    }
}

#[test]
fn a_udp_datagram_of_every_short_length() {
    for len in 0..300 {
        assert_builds_udp((FROM, 0x1112), (TO, 0x2122), &pattern(len));
    }
}

#[test]
fn a_udp_datagram_between_the_lowest_and_the_highest_ends() {
    for from in [([0; 4], 0), ([255; 4], 65_535)] {
        for to in [([0; 4], 0), ([255; 4], 65_535)] {
            for data in [&[][..], &[0; 100], &[255; 101], &[255; 65_527]] {
                assert_builds_udp(from, to, data);
            }
        }
    }
}

#[test]
fn each_byte_of_both_ends_is_in_the_checksum() {
    // In words: the addresses' four, and the two ports.
    for place in 0..12 {
        let mut ends = [0; 12];
        ends[place] = 0x5a;
        let [a, b, c, d, e, f, g, h, i, j, k, l] = ends;
        let (from, to) = ([a, b, c, d], [e, f, g, h]);
        let ports = (u16::from_be_bytes([i, j]), u16::from_be_bytes([k, l]));
        let mut out = [0; 8];
        let built = make_udp_payload(from, ports.0, to, ports.1, &[], &mut out);
        assert_eq!(built, Ok(8));
        // Besides, there are 17 and twice the length.
        let alone = 0xffff - 17 - 2 * 8;
        let word = if place % 2 == 0 { 0x5a00 } else { 0x5a };
        assert_eq!(u16::from_be_bytes([out[6], out[7]]), alone - word);
    }
}

#[test]
fn a_udp_checksum_that_comes_to_0_is_sent_as_ffff() {
    let port = 64_233; // 0xfae9
    // The words by hand: 0a00 0202, 0a00 020f, 0011, 000c; 0007 fae9 000c; "ze" is 7a65 and "ro" 726f.
    let words = [
        0x0a00, 0x0202, 0x0a00, 0x020f, 0x0011, 0x000c, 0x0007, 0xfae9, 0x000c, 0x7a65, 0x726f,
    ];
    assert_eq!(words.iter().sum::<u32>(), 0x1_fffe); // which folds to ffff, whose complement is 0
    let mut out = [0; 12];
    let built = make_udp_payload(GATEWAY_IP, 7, GUEST_IP, port, b"zero", &mut out);
    assert_eq!(built, Ok(12));
    assert_eq!(&out, b"\x00\x07\xfa\xe9\x00\x0c\xff\xffzero");
    assert_builds_udp((GATEWAY_IP, 7), (GUEST_IP, port), b"zero");
    // Beside it there is no such thing: with the next ports the checksum comes to 1 and to fffe.
    for (port, sum) in [(port - 1, [0x00, 0x01]), (port + 1, [0xff, 0xfe])] {
        let built = make_udp_payload(GATEWAY_IP, 7, GUEST_IP, port, b"zero", &mut out);
        assert_eq!((built, &out[6..8]), (Ok(12), &sum[..]));
    }
}

#[test]
fn every_checksum_is_written_and_0_is_not_among_them() {
    // By the port each from 1 to 0xffff comes once, 0xffff in 0's place, and that of 0 and 65,535 twice.
    let mut seen = vec![0; 65_536];
    for port in 0..=u16::MAX {
        let mut out = [0; 8];
        let built = make_udp_payload(FROM, 7, TO, port, &[], &mut out);
        assert_eq!(built, Ok(8));
        assert_eq!(sum_of_udp(FROM, TO, &out), 0xffff);
        seen[usize::from(u16::from_be_bytes([out[6], out[7]]))] += 1;
    }
    assert_eq!(seen[0], 0);
    assert_eq!(
        seen[1..].iter().filter(|times| **times == 1).count(),
        65_534
    );
    assert_eq!(seen[1..].iter().filter(|times| **times == 2).count(), 1);
}

#[test]
fn udp_data_past_65527_bytes_is_too_long() {
    for len in [65_528, 65_535, 65_536, 131_072] {
        let data = pattern(len);
        assert_too_long(&|_, out| make_udp_payload(FROM, 1, TO, 2, &data, out), len);
    }
}

fn tcp_frame(id: u16, flags: u8, options: &[u8], data: &[u8]) -> Vec<u8> {
    let segment = tcp(&TcpFields { flags, ..FIELDS }, FROM, TO, options, data);
    let packet = ipv4(id, TCP, FROM, TO, &[], &segment);
    ethernet(MAC, GATEWAY_MAC, 0x0800, &packet)
}

fn build_tcp(flags: u8, data: &[u8]) -> Box<Build<'_>> {
    Box::new(move |guest, out| {
        guest.make_tcp_frame(&ENDS, FIELDS.seq, FIELDS.ack, flags, data, out)
    })
}

#[test]
fn a_tcp_frame() {
    for data in [&b""[..], b"1", b"data", &pattern(65_495)] {
        for (id, flags) in [(1, 0x10), (65_535, 0xfd)] {
            let expected = tcp_frame(id, flags, &[], data);
            assert_eq!(expected.len(), 54 + data.len());
            assert_builds(&build_tcp(flags, data), id, 1, &expected);
        }
    }
}

#[test]
fn a_tcp_frame_with_syn_has_options() {
    for data in [&b""[..], b"1", b"data", &pattern(65_487)] {
        for (id, flags) in [(1, SYN), (65_535, 0xff)] {
            let expected = tcp_frame(id, flags, &SYN_OPTIONS, data);
            assert_eq!(expected.len(), 62 + data.len());
            assert_builds(&build_tcp(flags, data), id, 1, &expected);
        }
    }
}

#[test]
fn tcp_data_past_65495_bytes_or_65487_with_syn_is_too_long() {
    for (flags, len) in [
        (0x10, 65_496),
        (0x10, 131_072),
        (SYN, 65_488),
        (SYN, 65_495),
        (SYN, 131_072),
    ] {
        assert_too_long(&build_tcp(flags, &pattern(len)), len);
    }
}

#[test]
fn a_refusal_is_an_error_that_says_its_number() {
    let refusals: [Box<dyn Error>; 2] = [
        Box::new(Refusal::NoRoom(123)),
        Box::new(Refusal::TooLong(456)),
    ];
    let said = refusals.map(|refusal| refusal.to_string());
    assert!(said[0].contains("123"), "{}", said[0]);
    assert!(said[1].contains("456"), "{}", said[1]);
}
