//! Every verdict, with its values: document 01's "Order of tests on a guest frame" from its top to its end.

use yavoledu::{Guest, Verdict};

use crate::frames::*;

/// The verdict on a frame, with room for every reply. What isn't a reply leaves the buffer as it was.
fn verdict(guest: &mut Guest, frame: &[u8]) -> Verdict {
    let mut reply = pattern(frame.len() + 342);
    let verdict = guest.send(frame, &mut reply);
    if !matches!(verdict, Verdict::Reply(_)) {
        assert_eq!(reply, pattern(frame.len() + 342));
    }
    verdict
}

/// The verdict on a new guest's frame that leaves the record as it was.
fn verdict_alone(frame: &[u8]) -> Verdict {
    let mut guest = new_guest(GUEST_MAC);
    let verdict = verdict(&mut guest, frame);
    assert_eq!(guest, new_guest(GUEST_MAC));
    verdict
}

fn assert_dropped(frame: &[u8]) {
    assert_eq!(verdict_alone(frame), Verdict::Drop, "{frame:02x?}");
}

/// The frame with one byte set.
fn with_byte(mut frame: Vec<u8>, place: usize, byte: u8) -> Vec<u8> {
    frame[place] = byte;
    frame
}

#[test]
fn a_frame_without_a_known_type_is_dropped() {
    assert_dropped(&[]);
    assert_dropped(&arp_request()[..13]);
    assert_dropped(&arp_request()[..14]);
    assert_dropped(&ethernet(GATEWAY_MAC, GUEST_MAC, 0x86dd, &[0; 100]));
}

#[test]
fn an_arp_packet_that_asks_the_gateway_nothing_is_dropped() {
    assert_dropped(&arp_request()[..41]);
    assert_dropped(&with_byte(arp_request(), 21, 2));
    assert_dropped(&with_byte(arp_request(), 41, 3));
}

#[test]
fn an_ipv4_packet_of_no_use_is_dropped() {
    assert_dropped(&ping(&PING)[..33]);
    assert_dropped(&from_guest(2, GATEWAY_IP, &echo(8, &PING)));
}

#[test]
fn a_message_that_is_no_ping_to_the_gateway_is_dropped() {
    assert_dropped(&from_guest(ICMP, OUTSIDE_IP, &echo(8, &PING)));
    assert_dropped(&from_guest(ICMP, GATEWAY_IP, &echo(0, &PING)));
    assert_dropped(&ping(&PING)[..41]);
    // a header of 60 bytes in a frame of 34
    assert_dropped(&with_byte(ping(&PING), 14, 0x4f)[..34]);
}

#[test]
fn a_datagram_that_is_cut_is_dropped() {
    let datagram = from_guest(UDP, OUTSIDE_IP, &udp(1024, 7, b"data"));
    assert_dropped(&datagram[..41]);
    assert_dropped(&with_byte(datagram.clone(), 39, 7));
    // a header of 60 bytes in a frame of 34
    assert_dropped(&with_byte(datagram, 14, 0x4f)[..34]);
}

#[test]
fn a_dhcp_message_that_is_no_request_is_dropped_and_its_xid_not_noted() {
    let message = dhcp_message(&DISCOVER);
    assert_dropped(&from_dhcp_client(&message[..239]));
    assert_dropped(&from_dhcp_client(&with_byte(message, 0, 2)));
}

#[test]
fn a_dhcp_request_without_an_answer_is_dropped_and_its_xid_noted() {
    let noted = Guest {
        xid: u32::from_be_bytes(XID),
        ..new_guest(GUEST_MAC)
    };
    let d3: &[u8] = &[0x35];
    let d6: &[u8] = &[0x35, 0x00];
    let d7: &[u8] = &[0xff, 0x35, 0x01, 0x01];
    let a_decline: &[u8] = &[0x35, 0x01, 0x04, 0xff];
    let mut messages = [&[], d3, d6, d7, a_decline].map(dhcp_message).to_vec();
    messages.push(with_byte(dhcp_message(&DISCOVER), 239, 0x64)); // no cookie
    for message in messages {
        let mut guest = new_guest(GUEST_MAC);
        assert_eq!(
            verdict(&mut guest, &from_dhcp_client(&message)),
            Verdict::Drop
        );
        assert_eq!(guest, noted, "{message:02x?}");
    }
}

#[test]
fn an_arp_request_gets_a_reply_of_42_bytes() {
    assert_eq!(verdict_alone(&arp_request()), Verdict::Reply(42));
}

#[test]
fn a_query_to_the_gateway_is_for_dns() {
    let query = from_guest(UDP, GATEWAY_IP, &udp(1024, 53, b"query"));
    assert_eq!(verdict_alone(&query), Verdict::Dns { start: 42, len: 5 });
    assert_eq!(&query[42..47], b"query");

    // behind a header with eight bytes of options
    let packet = ipv4(
        1,
        UDP,
        GUEST_IP,
        GATEWAY_IP,
        &[1; 8],
        &udp(1024, 53, b"query"),
    );
    let query = ethernet(GATEWAY_MAC, GUEST_MAC, 0x0800, &packet);
    assert_eq!(verdict_alone(&query), Verdict::Dns { start: 50, len: 5 });
    assert_eq!(&query[50..55], b"query");
}

#[test]
fn any_other_datagram_is_to_be_relayed() {
    let relay = |to, datagram: &[u8]| verdict_alone(&from_guest(UDP, to, datagram));
    let seven = Verdict::Relay { start: 42, len: 7 };
    assert_eq!(relay(OUTSIDE_IP, &udp(1024, 7, b"outside")), seven);
    assert_eq!(relay(OUTSIDE_IP, &udp(1024, 53, b"outside")), seven);
    assert_eq!(relay(GATEWAY_IP, &udp(1024, 54, b"gateway")), seven);
    assert_eq!(relay(GATEWAY_IP, &udp(67, 68, b"no DHCP")), seven);
    assert_eq!(
        relay(OUTSIDE_IP, &udp(1024, 7, &[])),
        Verdict::Relay { start: 42, len: 0 }
    );
}

#[test]
fn a_datagrams_data_ends_at_the_smaller_of_its_length_and_the_frame() {
    let frame = from_guest(UDP, OUTSIDE_IP, &udp(1024, 7, b"outside"));
    let shorter = with_byte(frame.clone(), 39, 8 + 3);
    assert_eq!(
        verdict_alone(&shorter),
        Verdict::Relay { start: 42, len: 3 }
    );
    let longer = with_byte(frame, 39, 8 + 9);
    assert_eq!(verdict_alone(&longer), Verdict::Relay { start: 42, len: 7 });
}

#[test]
fn tcp_is_handed_on_with_the_frames_length_and_nothing_else_looked_at() {
    for len in [34, 54, 1514, 70_000] {
        let mut frame = vec![0xff; len];
        frame[12..14].copy_from_slice(&[8, 0]);
        frame[23] = TCP;
        assert_eq!(verdict_alone(&frame), Verdict::Tcp(len));
    }
}

#[test]
fn a_message_type_that_is_cut_is_told_by_its_place() {
    let d2: &[u8] = &[0x35, 0x01];
    let behind_pads: &[u8] = &[0, 0, 0, 0x35, 0x04];
    assert_eq!(
        verdict_alone(&from_dhcp_client(&dhcp_message(d2))),
        Verdict::CutType(240)
    );
    assert_eq!(
        verdict_alone(&from_dhcp_client(&dhcp_message(behind_pads))),
        Verdict::CutType(243)
    );
}
