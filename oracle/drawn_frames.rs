//! Frames drawn by the form that a guest's have, with their fields now and then at an edge or wrong.

use crate::ask_dhcp::COOKIE_AT;
use crate::cases::MOST_ROOM;
use crate::dhcp_vectors::{TYPE, option_bytes, passed_options};
use crate::draws::{BROADCAST_IP, Draws, GATEWAY_IP};
use crate::gateway_cases::USUAL_ROOM;
use crate::guest_frames::*;

fn drawn_arp(draws: &mut Draws) -> Vec<u8> {
    let any = draws.below(65_536) as u16;
    let operation = draws.one_of(&[1, 1, 1, 1, 2, any]);
    let target = drawn_target(draws);
    let mut frame = arp(operation, target);
    for (at, len) in [(SOURCE_MAC_AT, 6), (22, 10)] {
        if draws.below(2) == 0 {
            frame = with(frame, at, &draws.bytes(len));
        }
    }
    frame
}

fn drawn_target(draws: &mut Draws) -> [u8; 4] {
    let (any, near) = (draws.ip(), draws.one_of(&near(GATEWAY_IP)));
    draws.one_of(&[GATEWAY_IP, GATEWAY_IP, GATEWAY_IP, BROADCAST_IP, any, near])
}

fn drawn_ping(draws: &mut Draws) -> Vec<u8> {
    let any = draws.byte();
    let (kind, code) = (
        draws.one_of(&[8, 8, 8, 8, 0, any]),
        draws.one_of(&[0, 0, any]),
    );
    let len = draws.below(30);
    icmp(kind, code, &draws.bytes(len))
}

fn drawn_datagram(draws: &mut Draws) -> Vec<u8> {
    let len = draws.below(30);
    let datagram = datagram(draws.port(), draws.port(), &draws.bytes(len));
    with_drawn_length(draws, datagram)
}

fn drawn_dhcp(draws: &mut Draws) -> Vec<u8> {
    let len = draws.below(20);
    let kind = draws.one_of(&[1, 3]);
    let options = match draws.below(3) {
        0 => option_bytes(draws, len),
        1 => [passed_options(draws, len), vec![TYPE, 1]].concat(),
        _ => [passed_options(draws, len), vec![TYPE, 1, kind]].concat(),
    };
    let mut message = dhcp_message(draws.word(), &options);
    match draws.below(10) {
        0 => message[0] = draws.byte(),
        1 => message[COOKIE_AT + 1] = draws.byte(),
        2 => message.truncate(236 + draws.below(8)),
        _ => {}
    }
    let datagram = datagram(68, 67, &message);
    with_drawn_length(draws, datagram)
}

/// The datagram, its length field mostly right.
fn with_drawn_length(draws: &mut Draws, datagram: Vec<u8>) -> Vec<u8> {
    let right = datagram.len() as u16;
    let (any, near) = (
        draws.below(65_536) as u16,
        right - 1 + draws.below(3) as u16,
    );
    let length = draws.one_of(&[right, right, right, right, right, near, near, 7, 8, any]);
    with(datagram, 4, &length.to_be_bytes())
}

pub fn drawn_frame(draws: &mut Draws) -> Vec<u8> {
    let any_len = draws.below(30);
    let frame = match draws.below(12) {
        0 => drawn_arp(draws),
        1 => ethernet(
            draws.one_of(&[0x86dd, 0x0800, 0x0806]),
            &draws.bytes(any_len),
        ),
        turn => {
            let any = draws.byte();
            let (protocol, payload) = match turn {
                2..5 => (ICMP, drawn_ping(draws)),
                5..8 => (UDP, drawn_datagram(draws)),
                8..11 => (UDP, drawn_dhcp(draws)),
                _ => (draws.one_of(&[TCP, TCP, any]), draws.bytes(any_len)),
            };
            let (nibble, any_nibble) = (5, draws.below(16));
            let nibble = draws.one_of(&[nibble, nibble, nibble, nibble, 6, 15, any_nibble]);
            let options = draws.bytes((4 * nibble).saturating_sub(20));
            let target = drawn_target(draws);
            let frame = packet(protocol, target, &[options, payload].concat());
            let frame = with(frame, BODY_AT, &[0x40 + nibble as u8]);
            match draws.below(3) {
                0 => with(frame, SOURCE_MAC_AT, &draws.mac()),
                1 => with(frame, SOURCE_AT, &draws.ip()),
                _ => frame,
            }
        }
    };
    match draws.below(12) {
        0 => frame[..draws.below(frame.len() + 1)].to_vec(),
        1 => [frame, draws.bytes(any_len)].concat(),
        _ => frame,
    }
}

pub fn drawn_room(draws: &mut Draws) -> usize {
    let any = draws.below(400);
    draws.one_of(&[
        USUAL_ROOM, USUAL_ROOM, USUAL_ROOM, USUAL_ROOM, 342, 341, any, any, 42, 41, 0, MOST_ROOM,
    ])
}
