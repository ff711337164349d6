//! The strict reader on each kind, its places counted by hand from how the frame is put together, and on frames with one thing
//! wrong.

use std::thread;

use yavoledu::{Layer, Reading, Verdict, make_udp_payload, read};

use crate::frames::*;

const fn layer(header: usize, payload: usize, stop: usize) -> Layer {
    Layer {
        header,
        payload,
        stop,
    }
}

fn frame(packet: &[u8]) -> Vec<u8> {
    ethernet(GATEWAY_MAC, GUEST_MAC, 0x0800, packet)
}

fn datagram_frame(options: &[u8], datagram: &[u8]) -> Vec<u8> {
    frame(&ipv4(1, UDP, GUEST_IP, GATEWAY_IP, options, datagram))
}

/// It is read so, and with a byte more or less it is outside the grammar.
fn assert_read(frame: &[u8], expected: Reading) {
    assert_eq!(read(frame), Some(expected));
    assert_eq!(read(&[frame, &[0]].concat()), None);
    assert_eq!(read(&frame[..frame.len() - 1]), None);
}

#[test]
fn nothing_at_all() {
    assert_eq!(read(&[]), None);
}

#[test]
fn arp_requests_and_replies() {
    let whole = layer(0, 14, 42);
    assert_read(&arp_request(), Reading::Arp { ethernet: whole });
    assert_read(&arp_reply(GATEWAY_IP), Reading::Arp { ethernet: whole });

    let neither = arp(3, (GATEWAY_MAC, GATEWAY_IP), (GUEST_MAC, GUEST_IP));
    assert_eq!(
        read(&ethernet(GUEST_MAC, GATEWAY_MAC, 0x0806, &neither)),
        None
    );
}

#[test]
fn icmp() {
    // 14, 20, 8 and 5 bytes
    let message = echo(8, b"\x00\x01\x00\x01hello");
    let read_so = Reading::Icmp {
        ethernet: layer(0, 14, 47),
        ip: layer(14, 34, 47),
        message: layer(34, 42, 47),
    };
    assert_read(&ping(b"\x00\x01\x00\x01hello"), read_so);

    let mut wrong = message.clone();
    wrong[12] ^= 1;
    assert_eq!(read(&from_guest(ICMP, GATEWAY_IP, &wrong)), None);
}

#[test]
fn udp_with_options_in_its_ipv4_header() {
    // 14, 20 and 12, 8 and 4 bytes
    let frame = datagram_frame(&[1; 12], &udp(1024, 7, b"data"));
    let read_so = Reading::Udp {
        ethernet: layer(0, 14, 58),
        ip: layer(14, 46, 58),
        datagram: layer(46, 54, 58),
    };
    assert_read(&frame, read_so);
    let Some(Reading::Udp {
        ethernet,
        ip,
        datagram,
    }) = read(&frame)
    else {
        unreachable!();
    };
    assert_eq!(frame[ethernet.header_range()], frame[..14]);
    assert_eq!(frame[ethernet.payload_range()], frame[14..]);
    assert_eq!(frame[ip.header_range()][20..], [1; 12]);
    assert_eq!(frame[datagram.header_range()], udp(1024, 7, b"data")[..8]);
    assert_eq!(&frame[datagram.payload_range()], b"data");
}

#[test]
fn udp_with_a_checksum() {
    let mut datagram = summed_udp((GUEST_IP, 1024), (GATEWAY_IP, 7), b"data");
    let read_so = Reading::Udp {
        ethernet: layer(0, 14, 46),
        ip: layer(14, 34, 46),
        datagram: layer(34, 42, 46),
    };
    assert_read(&datagram_frame(&[], &datagram), read_so);

    datagram[7] ^= 1;
    assert_eq!(read(&datagram_frame(&[], &datagram)), None);
}

/// The frame that both builders make for the guest.
fn built(from: ([u8; 4], u16), to: ([u8; 4], u16), data: &[u8]) -> Vec<u8> {
    let mut datagram = vec![0; 8 + data.len()];
    let n = make_udp_payload(from.0, from.1, to.0, to.1, data, &mut datagram);
    assert_eq!(n, Ok(datagram.len()));
    let mut frame = vec![0; 34 + datagram.len()];
    let n = new_guest(GUEST_MAC).make_ip_frame(GUEST_MAC, from.0, to.0, UDP, &datagram, &mut frame);
    assert_eq!(n, Ok(frame.len()));
    frame
}

#[test]
fn udp_of_the_builders() {
    let ends = [
        ((OUTSIDE_IP, 7), (GUEST_IP, 40_000)),
        ((GATEWAY_IP, 7), (GUEST_IP, 64_233)), // "zero" has ffff
        (([255; 4], 65_535), ([255; 4], 65_535)),
        (([0; 4], 0), ([0; 4], 0)),
    ];
    for (from, to) in ends {
        for data in [
            &b""[..],
            b"1",
            b"odd",
            b"zero",
            &pattern(1_472),
            &pattern(65_507),
        ] {
            let frame = built(from, to, data);
            let read_so = Reading::Udp {
                ethernet: layer(0, 14, 42 + data.len()),
                ip: layer(14, 34, 42 + data.len()),
                datagram: layer(34, 42, 42 + data.len()),
            };
            assert_read(&frame, read_so);

            // With each other checksum it is refused, but with 0, which says that there is none.
            for bit in 0..16 {
                let mut wrong = frame.clone();
                wrong[40 + bit / 8] ^= 0x80 >> (bit % 8);
                assert_eq!(read(&wrong).is_some(), wrong[40..42] == [0, 0], "{bit}");
            }
        }
    }
}

#[test]
fn udp_of_the_builders_for_other_addresses() {
    // The datagram's checksum is for one pair of addresses, and the IPv4 header has another.
    let mut datagram = [0; 12];
    let n = make_udp_payload(OUTSIDE_IP, 7, GUEST_IP, 1024, b"data", &mut datagram);
    assert_eq!(n, Ok(12));
    for (from, to, is_read) in [
        (OUTSIDE_IP, GUEST_IP, true),
        (GUEST_IP, OUTSIDE_IP, true), // a sum takes its words in any order
        (OUTSIDE_IP, GATEWAY_IP, false),
        (GATEWAY_IP, GUEST_IP, false),
    ] {
        let frame = frame(&ipv4(1, UDP, from, to, &[], &datagram));
        assert_eq!(read(&frame).is_some(), is_read, "{from:?} to {to:?}");
    }
}

#[test]
fn dhcp_of_a_client() {
    // 14, 20, 8, 240 and 9 bytes: two pads, the message type, a host name, END
    let options = [0, 0, 53, 1, 3, 12, 1, b'h', 255];
    let read_so = Reading::Dhcp {
        ethernet: layer(0, 14, 291),
        ip: layer(14, 34, 291),
        datagram: layer(34, 42, 291),
        message: layer(42, 282, 291),
        message_type: 3,
    };
    assert_read(&from_dhcp_client(&dhcp_message(&options)), read_so);

    for wrong in [
        &[53, 1, 3][..],            // no END
        &[53, 1, 9, 255],           // no such type
        &[53, 2, 3, 3, 255],        // of two bytes
        &[53, 1, 3, 53, 1, 3, 255], // twice
        &[255],                     // never
        &[53, 1, 3, 255, 0, 1],     // more than zeros behind END
        &[53, 1, 3, 12, 2, b'h'],   // past the end
    ] {
        assert_eq!(
            read(&from_dhcp_client(&dhcp_message(wrong))),
            None,
            "{wrong:?}"
        );
    }
}

#[test]
fn dhcp_of_the_gateway() {
    let mut reply = [0; 342];
    let request = from_dhcp_client(&dhcp_message(&[53, 1, 3, 255]));
    let verdict = new_guest(GUEST_MAC).send(&request, &mut reply);
    assert_eq!(verdict, Verdict::Reply(342));
    let read_so = Reading::Dhcp {
        ethernet: layer(0, 14, 342),
        ip: layer(14, 34, 342),
        datagram: layer(34, 42, 342),
        message: layer(42, 282, 342),
        message_type: 5,
    };
    assert_read(&reply, read_so);
}

#[test]
fn tcp_with_options() {
    let fields = TcpFields {
        src_port: 1024,
        dst_port: 80,
        seq: 1,
        ack: 2,
        flags: 0x18,
    };
    // 14, 20, 20 and 12, and 5 bytes
    let segment = tcp(&fields, GUEST_IP, OUTSIDE_IP, &[1; 12], b"hello");
    let read_so = Reading::Tcp {
        ethernet: layer(0, 14, 71),
        ip: layer(14, 34, 71),
        segment: layer(34, 66, 71),
    };
    assert_read(&from_guest(TCP, OUTSIDE_IP, &segment), read_so);

    let mut wrong = segment;
    wrong[4] ^= 1;
    assert_eq!(read(&from_guest(TCP, OUTSIDE_IP, &wrong)), None);
}

#[test]
fn other_ipv4() {
    let read_so = Reading::OtherIpv4 {
        ethernet: layer(0, 14, 38),
        ip: layer(14, 34, 38),
    };
    assert_read(&from_guest(253, OUTSIDE_IP, b"free"), read_so);

    let mut fragment = ipv4(1, 253, GUEST_IP, OUTSIDE_IP, &[], b"free");
    fragment[6] = 0x20;
    fragment[10..12].fill(0);
    let sum = checksum(&fragment[..20]);
    fragment[10..12].copy_from_slice(&sum.to_be_bytes());
    assert_eq!(read(&frame(&fragment)), None);
}

#[test]
fn a_padded_ping_is_answered_and_is_outside_the_grammar() {
    let padded = [ping(&PING), vec![0; 18]].concat();
    assert_eq!(read(&padded), None);
    let verdict = new_guest(GUEST_MAC).send(&padded, &mut [0; 100]);
    assert_eq!(verdict, Verdict::Reply(60));
}

/// What is read of a message with these options, 1,232 bytes, in a frame whose IPv4 header has 20 bytes.
fn longest_message(message_type: u8) -> Reading {
    Reading::Dhcp {
        ethernet: layer(0, 14, 1514),
        ip: layer(14, 34, 1514),
        datagram: layer(34, 42, 1514),
        message: layer(42, 282, 1514),
        message_type,
    }
}

/// The answer on a thread with 64 KiB of stack, which is what `read` wants.
fn read_on_64_kib(options: &[u8]) -> Option<Reading> {
    let frame = from_dhcp_client(&dhcp_message(options));
    let reader = thread::Builder::new().stack_size(64 * 1024);
    reader.spawn(move || read(&frame)).unwrap().join().unwrap()
}

#[test]
fn the_deepest_lists_fit_into_64_kib_of_stack() {
    // The reader nests calls for each item, and there are most with pads: 1,232 bytes of options are all that a message may have.
    for message_type in 1..=8 {
        let option = [53, 1, message_type];
        let before = [&option[..], &[0; 1228], &[255]].concat();
        let behind = [&[0; 1228][..], &option, &[255]].concat();
        let between = [&[0; 614][..], &option, &[0; 614], &[255]].concat();
        let empty_options = [&[12, 0].repeat(614)[..], &option, &[255]].concat();
        for options in [before, behind, between, empty_options] {
            assert_eq!(
                read_on_64_kib(&options),
                Some(longest_message(message_type))
            );
        }
    }
}

#[test]
fn the_deepest_lists_that_are_refused_fit_into_64_kib_of_stack() {
    let no_end = vec![0; 1232];
    let no_type = [&[0; 1231][..], &[255]].concat();
    let no_end_behind_a_type = [&[0; 1229][..], &[53, 1, 1]].concat();
    let empty_options_with_no_end = [12, 0].repeat(616);
    for options in [
        no_end,
        no_type,
        no_end_behind_a_type,
        empty_options_with_no_end,
    ] {
        assert_eq!(options.len(), 1232);
        assert_eq!(read_on_64_kib(&options), None);
    }
    // A longer list is in no message, so no frame nests deeper.
    let too_long = [&[0; 1229][..], &[53, 1, 1, 255]].concat();
    assert_eq!(read_on_64_kib(&too_long), None);
    assert_eq!(read_on_64_kib(&[0; 60_000]), None);
}
