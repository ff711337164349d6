//! What is refused changes no byte of the reply and nothing of the record; and with one byte more of room, 5 is a reply.

use yavoledu::{Guest, Verdict};

use crate::frames::*;

fn guest() -> Guest {
    Guest {
        id: 0xb1b2,
        xid: 0xc1c2_c3c4,
        ..new_guest(GUEST_MAC)
    }
}

fn assert_refused(frame: &[u8], room: usize, expected: Verdict) {
    let mut guest_after = guest();
    let mut reply = pattern(room);
    assert_eq!(guest_after.send(frame, &mut reply), expected);
    assert_eq!(reply, pattern(room));
    assert_eq!(guest_after, guest());
}

fn assert_needs(frame: &[u8], needed: usize) {
    for room in [0, 1, 34, needed - 1] {
        assert_refused(frame, room, Verdict::NoRoom(needed));
    }
    let verdict = guest().send(frame, &mut vec![0; needed]);
    assert_eq!(verdict, Verdict::Reply(needed));
}

#[test]
fn an_arp_reply_needs_42_bytes() {
    assert_needs(&arp_request(), 42);
}

#[test]
fn a_ping_needs_34_bytes_and_its_payload() {
    assert_needs(&ping(&PING), 42);
    assert_needs(&ping(&pattern(65_515 - 4)), 65_549);
}

#[test]
fn a_dhcp_reply_needs_342_bytes() {
    assert_needs(&from_dhcp_client(&dhcp_message(&DISCOVER)), 342);
}

#[test]
fn a_ping_past_65515_bytes_is_too_long_whatever_the_room() {
    for len in [65_516, 65_517, 131_076, 200_000] {
        let mut frame = ping(&PING);
        frame.resize(34 + len, 0xff);
        for room in [0, 65_549, 65_550, 200_034] {
            assert_refused(&frame, room, Verdict::TooLong(len));
        }
    }
}

#[test]
fn a_cut_message_type_is_refused_whatever_the_room() {
    let frame = from_dhcp_client(&dhcp_message(&[0x35, 0x01]));
    for room in [0, 341, 342, 2048] {
        assert_refused(&frame, room, Verdict::CutType(240));
    }
}

#[test]
fn after_a_refusal_the_same_frame_gets_its_reply() {
    let mut guest = new_guest(GUEST_MAC);
    let frame = from_dhcp_client(&dhcp_message(&DISCOVER));
    let mut reply = [0; 342];
    assert_eq!(guest.send(&frame, &mut reply[..341]), Verdict::NoRoom(342));
    assert_eq!(guest.send(&frame, &mut reply), Verdict::Reply(342));
    assert_eq!(reply[..], dhcp_reply(&new_guest(GUEST_MAC), XID, 2));
}
