//! Every byte of a reply, and the record behind it.

use yavoledu::{Guest, Verdict};

use crate::frames::*;

/// A new guest's reply, all of it. Behind it the buffer is as it was.
pub fn reply_to(guest: &mut Guest, frame: &[u8]) -> Vec<u8> {
    let mut buffer = pattern(frame.len() + 342);
    let Verdict::Reply(n) = guest.send(frame, &mut buffer) else {
        panic!("no reply to {frame:02x?}");
    };
    assert_eq!(buffer[n..], pattern(frame.len() + 342)[n..]);
    buffer.truncate(n);
    buffer
}

fn bytes(hex: &str) -> Vec<u8> {
    (0..hex.len() / 2)
        .map(|n| u8::from_str_radix(&hex[2 * n..2 * n + 2], 16).unwrap())
        .collect()
}

#[test]
fn a1() {
    let mut guest = new_guest(GUEST_MAC);
    assert_eq!(
        reply_to(&mut guest, &arp_request()),
        bytes(
            "525400123456525400000001080600010800060400025254000000010a0002025254001234560a00020f"
        )
    );
    assert_eq!(guest, new_guest(GUEST_MAC));
}

#[test]
fn an_arp_reply_goes_to_the_sender_in_the_request() {
    let (mac, ip) = ([0xa1, 0xa2, 0xa3, 0xa4, 0xa5, 0xa6], [172, 16, 1, 2]);
    let request = arp(1, (mac, ip), ([0xee; 6], GATEWAY_IP));
    let frame = ethernet(
        [0xff; 6],
        [0xbb; 6],
        0x0806,
        &[request, vec![0; 18]].concat(),
    );
    let reply = arp(2, (GATEWAY_MAC, GATEWAY_IP), (mac, ip));
    assert_eq!(
        reply_to(&mut new_guest(GUEST_MAC), &frame),
        ethernet(mac, GATEWAY_MAC, 0x0806, &reply)
    );
}

#[test]
fn p1() {
    let mut guest = new_guest(GUEST_MAC);
    let reply = reply_to(&mut guest, &ping(&PING));
    assert_eq!(reply, ping_reply(1, &PING));
    assert_eq!(reply[34..], bytes("0000fffd00010001"));
    assert_eq!(reply[24..26], [0x22, 0xd0]);
    assert_eq!(
        guest,
        Guest {
            id: 2,
            ..new_guest(GUEST_MAC)
        }
    );
}

#[test]
fn each_ipv4_reply_carries_the_next_id_and_65535_is_followed_by_0() {
    let mut guest = Guest {
        id: 65_534,
        ..new_guest(GUEST_MAC)
    };
    for id in [65_534, 65_535, 0, 1] {
        assert_eq!(guest.id, id);
        assert_eq!(reply_to(&mut guest, &ping(&PING)), ping_reply(id, &PING));
        // ARP takes none
        assert_eq!(reply_to(&mut guest, &arp_request()).len(), 42);
    }
    assert_eq!(guest.id, 2);
}

#[test]
fn a_ping_is_echoed_to_the_end_of_the_frame() {
    let mut frame = ping(&PING);
    frame.extend_from_slice(b"padding");
    let rest = [&PING[..], b"padding"].concat();
    assert_eq!(
        reply_to(&mut new_guest(GUEST_MAC), &frame),
        ping_reply(1, &rest)
    );
}

#[test]
fn a_ping_of_every_short_length() {
    let mut guest = new_guest(GUEST_MAC);
    for (id, len) in (1..).zip(4..=300) {
        let rest = pattern(len);
        assert_eq!(reply_to(&mut guest, &ping(&rest)), ping_reply(id, &rest));
    }
}

#[test]
fn a_header_of_4_bytes_makes_the_longest_reply_for_its_frame() {
    // The payload starts at byte 18, in the header's id, and has 16 bytes.
    let mut frame = from_guest(ICMP, GATEWAY_IP, &[]);
    frame[14] = 0x41;
    frame[18] = 8;
    assert_eq!(frame.len(), 34);
    let reply = reply_to(&mut new_guest(GUEST_MAC), &frame);
    assert_eq!(reply, ping_reply(1, &frame[22..]));
    assert_eq!(reply.len(), frame.len() + 16);
}

#[test]
fn the_longest_ping_is_echoed_whole() {
    let rest = pattern(65_515 - 4);
    let frame = ping(&rest);
    let mut guest = Guest {
        id: 0xfffe,
        ..new_guest(GUEST_MAC)
    };
    let reply = reply_to(&mut guest, &frame);
    assert_eq!(reply.len(), 65_549);
    assert_eq!(reply, ping_reply(0xfffe, &rest));
    assert_eq!(guest.id, 0xffff);
}

#[test]
fn d0_d1_an_offer() {
    let mut guest = new_guest(GUEST_MAC);
    let reply = reply_to(&mut guest, &from_dhcp_client(&dhcp_message(&DISCOVER)));
    assert_eq!(reply[24..26], [0x20, 0xa4]);
    // D0 as document 02 amends it: 2/13 its ports, 6/13 its last two bytes, which are this reply's checksum
    assert_eq!(reply[34..40], bytes("004300440134"));
    assert_eq!(reply, dhcp_reply(&new_guest(GUEST_MAC), XID, 2));
    assert_eq!(
        guest,
        Guest {
            id: 2,
            xid: u32::from_be_bytes(XID),
            ..new_guest(GUEST_MAC)
        }
    );
}

#[test]
fn d4_an_acknowledgement() {
    let frame = from_dhcp_client(&dhcp_message(&[0x35, 0x00, 0x35, 0x01, 0x03]));
    let record_mac = [0xa1, 0xa2, 0xa3, 0xa4, 0xa5, 0xa6];
    let guest = Guest {
        id: 0xb1b2,
        ..new_guest(record_mac)
    };
    assert_eq!(
        reply_to(&mut guest.clone(), &frame),
        dhcp_reply(&guest, XID, 5)
    );
}

#[test]
fn d5_an_offer_though_the_option_overruns() {
    let frame = from_dhcp_client(&dhcp_message(&[0x00, 0x00, 0x35, 0x05, 0x01]));
    assert_eq!(
        reply_to(&mut new_guest(GUEST_MAC), &frame),
        dhcp_reply(&new_guest(GUEST_MAC), XID, 2)
    );
}

#[test]
fn a_dhcp_reply_has_the_checksum_of_its_own_datagram() {
    // By the xid's low half each checksum comes, so that one comes to 0, and is sent as ffff.
    let mut all_ones = 0;
    for low in 0..=u16::MAX {
        let mut message = dhcp_message(&DISCOVER);
        message[6..8].copy_from_slice(&low.to_be_bytes());
        let mut reply = [0; 342];
        let verdict = new_guest(GUEST_MAC).send(&from_dhcp_client(&message), &mut reply);
        assert_eq!(verdict, Verdict::Reply(342));
        let datagram = &reply[34..];
        assert_eq!(sum_of_udp(GATEWAY_IP, BROADCAST_IP, datagram), 0xffff);
        assert_ne!(datagram[6..8], [0, 0]);
        all_ones += usize::from(datagram[6..8] == [0xff, 0xff]);
    }
    assert!((1..=2).contains(&all_ones), "{all_ones}");
}

/// The ports of a datagram, from and to, in an IPv4 frame without options.
fn ports(frame: &[u8]) -> (u16, u16) {
    let number = |at| u16::from_be_bytes([frame[at], frame[at + 1]]);
    (number(34), number(36))
}

#[test]
fn a_dhcp_reply_goes_from_the_servers_port_to_the_clients() {
    // RFC 2131, section 4.1: a server's is 67, a client's 68. A renewal is asked for at the server's own address.
    for (asked, answered) in [(1, 2), (3, 5)] {
        for target in [[255; 4], GATEWAY_IP, OUTSIDE_IP] {
            let message = dhcp_message(&[53, 1, asked, 255]);
            let frame = from_guest(UDP, target, &udp(68, 67, &message));
            let reply = reply_to(&mut new_guest(GUEST_MAC), &frame);
            assert_eq!(ports(&reply), (67, 68));
            assert_eq!(reply, dhcp_reply(&new_guest(GUEST_MAC), XID, answered));
        }
    }
}

#[test]
fn a_dhcp_reply_that_comes_back_is_no_clients_message() {
    let mut guest = new_guest(GUEST_MAC);
    let offer = reply_to(&mut guest, &from_dhcp_client(&dhcp_message(&DISCOVER)));
    let after = guest.clone();
    assert_eq!(
        guest.send(&offer, &mut [0; 400]),
        Verdict::Relay {
            start: 42,
            len: 300
        }
    );
    assert_eq!(guest, after);
}

#[test]
fn two_guests_have_ids_of_their_own() {
    let mut first = new_guest(GUEST_MAC);
    let mut second = new_guest([0xa1, 0xa2, 0xa3, 0xa4, 0xa5, 0xa6]);
    reply_to(&mut first, &ping(&PING));
    reply_to(&mut first, &ping(&PING));
    assert_eq!(reply_to(&mut second, &ping(&PING)), ping_reply(1, &PING));
    assert_eq!(reply_to(&mut first, &ping(&PING)), ping_reply(3, &PING));
}
