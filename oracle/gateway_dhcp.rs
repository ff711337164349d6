//! Which calls of the gateway with a DHCP message are listed.

use crate::ask_dhcp::{COOKIE, COOKIE_AT, OPTIONS_AT};
use crate::dhcp_vectors::{END, PAD, TYPE, option_bytes, passed_options};
use crate::draws::GUEST_MAC;
use crate::gateway_cases::{GatewayList, USUAL_ROOM};
use crate::guest_frames::*;

pub fn dhcp_tests(list: &mut GatewayList) {
    for len in [0, 1, 8, 236, 239, 240, 241, 242, 243, 244, 300] {
        for first in [1, 2, 0, 255] {
            let xid = list.draws.word();
            let message = of_len(dhcp_message(xid, &REQUEST), len);
            let message = match len {
                0 => message,
                _ => with(message, 0, &[first]),
            };
            list.frame(&dhcp(&message));
        }
    }
    for first in [3, 128, 129] {
        let message = with(dhcp_message(9, &REQUEST), 0, &[first]);
        list.frame(&dhcp(&message));
    }
}

pub fn dhcp_cookies(list: &mut GatewayList) {
    let message = dhcp_message(0x6162_6364, &DISCOVER);
    let others = [[0; 4], [0xff; 4], [0x63, 0x53, 0x82, 0x63]];
    for cookie in near(COOKIE).into_iter().chain(others) {
        list.frame(&dhcp(&with(message.clone(), COOKIE_AT, &cookie)));
        let cut = [&message[..OPTIONS_AT], &[TYPE, 1]].concat();
        list.frame(&dhcp(&with(cut, COOKIE_AT, &cookie)));
    }
}

pub fn dhcp_types(list: &mut GatewayList) {
    for message_type in (0..=9).chain([53, 127, 128, 129, 131, 254, 255]) {
        let xid = list.draws.word();
        list.frame(&dhcp(&dhcp_message(xid, &[TYPE, 1, message_type, END])));
        list.frame(&dhcp(&dhcp_message(xid, &[TYPE, 2, message_type])));
    }
    let strings: [&[u8]; 30] = [
        &[TYPE, 255, 1],
        &[TYPE, 255, 3],
        &[TYPE, 255],
        &[PAD, TYPE, 1],
        &[PAD, PAD, PAD, TYPE, 2],
        &[12, 0, TYPE, 1],
        &[12, 3, 1, 2, 3, TYPE, 7],
        &[TYPE, 0, TYPE, 1],
        &[TYPE, 0, TYPE, 0, TYPE, 1, 1],
        &[TYPE, 0, END, TYPE, 1, 1],
        &[12, 3, TYPE, 1, 1],
        &[12, 3, TYPE, 1, 1, TYPE, 1, 3],
        &[12, 2, TYPE, 1, 1],
        &[12, 255, TYPE, 1, 1],
        &[12, 1],
        &[12],
        &[12, 0],
        &[PAD],
        &[END],
        &[TYPE, 1, 1, TYPE, 1, 3],
        &[TYPE, 1, 3, TYPE, 1, 1],
        &[TYPE, 1, 1, TYPE, 1],
        &[END, TYPE, 1],
        &[PAD, END, TYPE, 1],
        &[52, 1, TYPE, TYPE, 1, 3],
        &[54, 4, 10, 0, 2, 2, TYPE, 1, 3, END],
        &[254, 1, 0, TYPE, 1, 1, END],
        &[1, 4, 255, 255, 255, 0, TYPE, 1],
        &[1, 4, 255, 255, 255, TYPE],
        &[61, 7, 1, TYPE, 1, 1, TYPE, 1, 1, TYPE, 1, 3],
    ];
    for options in strings {
        let xid = list.draws.word();
        list.frame(&dhcp(&dhcp_message(xid, options)));
    }
    // A cut type far from the start, and one behind a long option.
    for pads in [60, 255, 1_230] {
        let options = [vec![PAD; pads], vec![TYPE, 1]].concat();
        list.frame(&dhcp(&dhcp_message(3, &options)));
    }
    let behind_long = [&[12, 255][..], &[9; 255], &[TYPE, 1]].concat();
    list.frame(&dhcp(&dhcp_message(4, &behind_long)));
}

/// The walk ends where the length field says, or before that where the frame ends.
pub fn dhcp_cuts(list: &mut GatewayList) {
    let options = [12, 1, 9, TYPE, 1, 3, END, TYPE, 1, 1];
    let frame = dhcp(&dhcp_message(0x7172_7374, &options));
    let whole = 8 + OPTIONS_AT + options.len();
    for len in (whole - 12..=whole + 2).chain([0, 7, 8, 247, 248, 249, 65_535]) {
        let length = (len as u16).to_be_bytes();
        list.frame(&with(frame.clone(), UDP_LENGTH_AT, &length));
    }
    for cut in 1..=11 {
        list.frame(&frame[..frame.len() - cut]);
    }
    // The length field says one byte less than the frame holds, and one more than it holds.
    for (cut, short) in [
        (4, 5),
        (5, 4),
        (4, 4),
        (5, 6),
        (6, 5),
        (3, 4),
        (7, 8),
        (8, 7),
    ] {
        let length = ((whole - short) as u16).to_be_bytes();
        let shorter = with(frame.clone(), UDP_LENGTH_AT, &length);
        list.frame(&shorter[..frame.len() - cut]);
    }
}

pub fn dhcp_drawn(list: &mut GatewayList) {
    for turn in 0..60 {
        let len = turn % 30;
        let options = match turn % 2 {
            0 => option_bytes(&mut list.draws, len),
            _ => {
                let passed = passed_options(&mut list.draws, len);
                let kind = list.draws.one_of(&[1, 3, 3, 8]);
                let end = [
                    &[TYPE, 1, kind, END][..],
                    &[TYPE, 1],
                    &[TYPE],
                    &[TYPE, 9, kind],
                ];
                [&passed[..], list.draws.one_of(&end)].concat()
            }
        };
        let xid = list.draws.word();
        list.frame(&dhcp(&dhcp_message(xid, &options)));
    }
}

pub fn dhcp_records(list: &mut GatewayList) {
    let xids = [
        0,
        1,
        0x0000_00ff,
        0x0100_0000,
        0x8000_0000,
        0xffff_ffff,
        0x0102_0304,
    ];
    for (turn, xid) in xids.into_iter().enumerate() {
        let options = [DISCOVER, REQUEST][turn % 2];
        let frame = dhcp(&dhcp_message(xid, &options));
        let mut record = list.drawn_record();
        record.xid = xids[(turn + 3) % 7];
        list.call(record, &frame, USUAL_ROOM);
        // No cookie: the xid is taken all the same. With a first byte of 2 it is not.
        let mut record = list.drawn_record();
        record.xid = !xid;
        list.call(record, &xid_bringer(xid), 0);
        record = list.drawn_record();
        list.call(record, &with(frame, DATA_AT, &[2]), 0);
    }
    for mac in [
        [0; 6],
        [0xff; 6],
        GUEST_MAC,
        [1, 2, 3, 4, 5, 6],
        [0xfe, 0, 0, 0, 0, 0],
    ] {
        for sender in [GUEST_MAC, [0; 6], [0xff; 6]] {
            let mut record = list.drawn_record();
            record.mac = mac;
            // The client's MAC in the message is a third one.
            let message = with(dhcp_message(5, &DISCOVER), 28, &[7; 6]);
            let frame = with(dhcp(&message), SOURCE_MAC_AT, &sender);
            list.call(record, &frame, USUAL_ROOM);
        }
    }
    // Refused for want of room, a call keeps the xid; and one that is dropped takes it.
    for options in [&DISCOVER[..], &REQUEST, &[TYPE, 1, 8], &[TYPE, 1]] {
        for room in [0, 341, 342, 343] {
            list.frame_in(&dhcp(&dhcp_message(0x8182_8384, options)), room);
        }
    }
}
