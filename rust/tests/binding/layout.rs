//! `Guest` is laid out as the record of the library: each field has bytes of its own, and what a call reads and writes shows
//! which it took.

use yavoledu::{Guest, Network, NetworkPlan, Verdict};

use crate::frames::*;

const MAC: [u8; 6] = [0xa1, 0xa2, 0xa3, 0xa4, 0xa5, 0xa6];
const TOLD_APART: Network = Network {
    gateway: [0xe1, 0xe2, 0xe3, 0xe4],
    guest: [0xe1, 0xe2, 0xe5, 0xe6],
    mask: [0xff, 0xff, 0xf0, 0x00],
    lease: 0xf1f2_f3f4,
};
const GUARD: [u8; 64] = [0x5a; 64];

/// A record with bytes around it that no call may touch.
#[repr(C)]
#[derive(Debug, PartialEq)]
struct Guarded {
    before: [u8; 64],
    guest: Guest,
    after: [u8; 64],
}

fn guarded(id: u16, xid: u32) -> Guarded {
    Guarded {
        before: GUARD,
        guest: Guest {
            mac: MAC,
            id,
            xid,
            network: TOLD_APART,
        },
        after: GUARD,
    }
}

// Nothing lies between a record and its guards.
const _: () = assert!(size_of::<Guarded>() == 64 + 28 + 64);

#[test]
fn a_new_record_is_written_field_by_field() {
    let plan = NetworkPlan {
        gateway: TOLD_APART.gateway,
        guest: TOLD_APART.guest,
        mask: TOLD_APART.mask,
        lease: Some(TOLD_APART.lease),
    };
    assert_eq!(Guest::new(MAC, &plan), Ok(guarded(1, 0).guest));
}

#[test]
fn an_arp_reply_takes_the_gateway_and_changes_nothing() {
    let mut record = guarded(0xb1b2, 0xc1c2_c3c4);
    let mut reply = [0; 42];
    let frame = arp_request_for(TOLD_APART.gateway);
    assert_eq!(record.guest.send(&frame, &mut reply), Verdict::Reply(42));
    assert_eq!(reply[28..32], TOLD_APART.gateway);
    assert_eq!(record, guarded(0xb1b2, 0xc1c2_c3c4));
}

#[test]
fn a_ping_takes_the_id_and_changes_the_id_alone() {
    let mut record = guarded(0xb1b2, 0xc1c2_c3c4);
    let mut reply = [0; 100];
    let frame = ping_to(TOLD_APART.gateway, &PING);
    assert_eq!(record.guest.send(&frame, &mut reply), Verdict::Reply(42));
    assert_eq!(reply[18..20], [0xb1, 0xb2]);
    assert_eq!(record, guarded(0xb1b3, 0xc1c2_c3c4));
}

#[test]
fn a_dhcp_reply_takes_all_but_the_xid_and_changes_the_id_and_the_xid() {
    let mut record = guarded(0xb1b2, 0xc1c2_c3c4);
    let mut reply = [0; 342];
    let frame = from_dhcp_client(&dhcp_message(&DISCOVER));
    assert_eq!(record.guest.send(&frame, &mut reply), Verdict::Reply(342));
    let message = &reply[42..];
    assert_eq!(reply[18..20], [0xb1, 0xb2]);
    assert_eq!(message[4..8], XID);
    assert_eq!(message[16..20], TOLD_APART.guest);
    assert_eq!(message[20..24], TOLD_APART.gateway);
    assert_eq!(message[28..34], MAC);
    assert_eq!(message[251..255], [0xf1, 0xf2, 0xf3, 0xf4]);
    assert_eq!(message[257..261], TOLD_APART.mask);
    assert_eq!(record, guarded(0xb1b3, u32::from_be_bytes(XID)));
}

#[test]
fn a_builder_takes_the_id_and_changes_the_id_alone() {
    let mut record = guarded(0xb1b2, 0xc1c2_c3c4);
    let mut out = [0; 34];
    let built = record
        .guest
        .make_ip_frame([0xff; 6], GATEWAY_IP, GUEST_IP, 253, &[], &mut out);
    assert_eq!(built, Ok(34));
    assert_eq!(out[18..20], [0xb1, 0xb2]);
    assert_eq!(record, guarded(0xb1b3, 0xc1c2_c3c4));
}
