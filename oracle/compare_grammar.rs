//! Frames that document 01's grammar derives, of each of its kinds, their lengths and sums right; and
//! such frames with one field changed and the sums made right again. Most are the gateway's to answer
//! or to hand on.

use crate::draws::{Draws, GATEWAY_IP};
use crate::grammar_01::{self, KINDS, Kind};
use crate::guest_frames::*;
use crate::mended::{longer, mended, payload_at, shorter, summed_anew, with_header_options};

/// The judge takes about as long as a comparison, so it is asked for one frame in so many.
const FRAMES_TO_A_JUDGEMENT: usize = 4;
/// A list of options and the zeros behind it: with them a message has at most 1,472 bytes.
const LONGEST_LIST: usize = 1_472 - OPTIONS_AT;

/// A frame of the grammar.
pub fn derived(draws: &mut Draws) -> Vec<u8> {
    let kind = draws.one_of(&KINDS);
    let frame = derived_of(draws, kind);
    if draws.below(FRAMES_TO_A_JUDGEMENT) == 0 {
        let read = grammar_01::read(&frame).map(|reading| reading.kind);
        assert_eq!(read, Some(kind), "{:?}", grammar_01::broken(&frame));
    }
    frame
}

fn derived_of(draws: &mut Draws, kind: Kind) -> Vec<u8> {
    let (short, long) = (draws.below(40), draws.below(300));
    let len = draws.one_of(&[short, short, short, long]);
    let target = to_the_gateway_mostly(draws);
    let any = draws.byte();
    match kind {
        Kind::Arp => {
            let frame = arp(draws.one_of(&[1, 1, 1, 2]), target);
            let frame = with(frame, 0, &draws.bytes(12));
            with(frame, 22, &draws.bytes(16))
        }
        Kind::Icmp => {
            let message_type = draws.one_of(&[8, 8, 8, 8, 0, any]);
            let message = icmp(message_type, any, &draws.bytes(4 + len));
            dressed(draws, ICMP, target, &message)
        }
        Kind::Udp => {
            let (source, drawn) = (draws.port(), draws.port());
            let destination = match (source, draws.one_of(&[53, drawn, drawn])) {
                // These ports carry DHCP.
                (67, 68) | (68, 67) => 69,
                (_, port) => port,
            };
            let data = draws.bytes(len);
            dressed(draws, UDP, target, &datagram(source, destination, &data))
        }
        Kind::Dhcp => {
            let message = message(draws);
            let (source, destination) = draws.one_of(&[(68, 67), (68, 67), (68, 67), (67, 68)]);
            let target = draws.one_of(&[EVERYONE, EVERYONE, target]);
            dressed(draws, UDP, target, &datagram(source, destination, &message))
        }
        Kind::Tcp => {
            let options = 4 * draws.below(11);
            let offset = 16 * (5 + options / 4) as u8 + any % 16;
            let segment = with(draws.bytes(20 + options + len), 12, &[offset]);
            dressed(draws, TCP, target, &segment)
        }
        Kind::OtherIpv4 => {
            let protocol = match draws.proto() {
                ICMP | TCP | UDP => 2,
                protocol => protocol,
            };
            let payload = draws.bytes(len);
            dressed(draws, protocol, target, &payload)
        }
    }
}

fn to_the_gateway_mostly(draws: &mut Draws) -> [u8; 4] {
    let any = draws.ip();
    draws.one_of(&[GATEWAY_IP, GATEWAY_IP, GATEWAY_IP, any])
}

/// A message: every field that is free is drawn or zero.
fn message(draws: &mut Draws) -> Vec<u8> {
    let list = list(draws);
    let mut message = dhcp_message(draws.word(), &list);
    message[0] = draws.one_of(&[1, 1, 1, 1, 1, 2]);
    if draws.below(3) == 0 {
        // Hops, seconds, flags, addresses, the client's address and the two names.
        message[3] = draws.byte();
        message[8..COOKIE_AT].copy_from_slice(&draws.bytes(COOKIE_AT - 8));
    }
    message
}

/// Pads and options, one of them the type, END, and zeros up to the most that there can be.
fn list(draws: &mut Draws) -> Vec<u8> {
    let (before, behind) = (draws.below(5), draws.below(5));
    let mut list = items(draws, before);
    let any = 1 + draws.below(8) as u8;
    list.extend([TYPE, 1, draws.one_of(&[1, 1, 3, 3, any])]);
    list.extend(items(draws, behind));
    list.push(END);
    let (few, most) = (draws.below(20), LONGEST_LIST - list.len());
    let many = draws.below(most + 1);
    let zeros = match draws.below(32) {
        0 => most,
        1 => many,
        2..12 => 0,
        _ => few,
    };
    list.resize(list.len() + zeros, 0);
    list
}

/// So many pads or options, none of them the type; a value may look like anything.
fn items(draws: &mut Draws, count: usize) -> Vec<u8> {
    let mut items = vec![];
    for _ in 0..count {
        let (short, long, any) = (draws.below(6), draws.below(100), draws.byte());
        let code = match draws.one_of(&[PAD, PAD, 12, 50, 55, 61, any]) {
            TYPE | END => 54,
            code => code,
        };
        items.push(code);
        if code != PAD {
            let len = draws.one_of(&[short, short, short, short, long]);
            items.push(len as u8);
            items.extend(match draws.below(4) {
                0 => vec![TYPE; len],
                1 => vec![END; len],
                _ => draws.bytes(len),
            });
        }
    }
    items
}

/// The payload behind an IPv4 header in which what is free is drawn; half of the datagrams have a
/// checksum, and none of it is 0.
fn dressed(draws: &mut Draws, protocol: u8, target: [u8; 4], payload: &[u8]) -> Vec<u8> {
    let words = draws.below(11);
    let words = draws.one_of(&[0, 0, 0, words]);
    let mut frame = packet(protocol, target, payload);
    frame[..12].copy_from_slice(&draws.bytes(12));
    frame[BODY_AT + 1] = draws.byte();
    frame[BODY_AT + 4..BODY_AT + 6].copy_from_slice(&draws.bytes(2));
    frame[BODY_AT + 6] = draws.one_of(&[0x00, 0x40]);
    frame[BODY_AT + 8] = draws.byte();
    frame[SOURCE_AT..TARGET_AT].copy_from_slice(&draws.ip());
    let options = draws.bytes(4 * words);
    let frame = with_header_options(&frame, &options);
    match draws.below(2) {
        0 => frame,
        _ => summed_anew(frame),
    }
}

/// A frame of the grammar with one field changed, in most of them one that is looked at, or with a few
/// bytes more or less; then the sums are right again, where there are any.
pub fn near_miss(draws: &mut Draws) -> Vec<u8> {
    let frame = derived(draws);
    let few = 1 + draws.below(12);
    match draws.below(12) {
        0 => return longer(&frame, &draws.bytes(few)),
        1 => return shorter(&frame, frame.len() - few),
        _ => {}
    }
    let (at, len) = field(draws, &frame);
    let any = draws.bytes(len);
    let mut changed = frame[at..at + len].to_vec();
    let (place, bit) = (draws.below(len), 1 << draws.below(8));
    match draws.below(6) {
        0 => changed.fill(0),
        1 => changed.fill(0xff),
        2 => changed[place] ^= bit,
        3 => changed[len - 1] = changed[len - 1].wrapping_add(1),
        4 => changed[len - 1] = changed[len - 1].wrapping_sub(1),
        _ => changed = any,
    }
    mended(with(frame, at, &changed))
}

/// Where a field of the frame starts, and its length.
fn field(draws: &mut Draws, frame: &[u8]) -> (usize, usize) {
    let Some(start) = payload_at(frame) else {
        // ARP: the type, what kind of addresses, their lengths, the operation, the target.
        return draws.one_of(&[
            (TYPE_AT, 2),
            (14, 2),
            (16, 2),
            (18, 1),
            (19, 1),
            (20, 2),
            (20, 2),
            (38, 4),
            (38, 4),
        ]);
    };
    // The type, version and header length, total length, fragment, protocol, addresses.
    let of_header = draws.one_of(&[
        (TYPE_AT, 2),
        (BODY_AT, 1),
        (BODY_AT, 1),
        (TOTAL_LENGTH_AT, 2),
        (BODY_AT + 6, 2),
        (PROTOCOL_AT, 1),
        (PROTOCOL_AT, 1),
        (SOURCE_AT, 4),
        (TARGET_AT, 4),
        (TARGET_AT, 4),
    ]);
    let of_payload = match frame[PROTOCOL_AT] {
        ICMP => draws.one_of(&[(0, 1), (0, 1), (1, 1), (4, 2), (6, 2)]),
        TCP => draws.one_of(&[(0, 2), (2, 2), (12, 1), (13, 1)]),
        UDP if frame.len() >= start + 8 + OPTIONS_AT => {
            let list = frame.len() - start - 8 - OPTIONS_AT;
            let in_list = (8 + OPTIONS_AT + draws.below(list.max(1)), 1);
            let in_list = if list == 0 { (4, 2) } else { in_list };
            let fields = [(0, 2), (2, 2), (4, 2), (8, 1), (9, 1), (10, 1), (12, 4)];
            let of_header = draws.one_of(&fields);
            draws.one_of(&[of_header, (8 + COOKIE_AT, 4), in_list, in_list])
        }
        UDP => draws.one_of(&[(0, 2), (2, 2), (4, 2), (4, 2), (6, 2)]),
        _ => return of_header,
    };
    let (at, len) = of_payload;
    draws.one_of(&[of_header, (start + at, len), (start + at, len)])
}
