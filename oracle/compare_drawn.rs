//! Frames that are drawn: by the form that a guest's have, around each boundary, and as damaged copies
//! of frames that real software sent.

use crate::captured::captured;
use crate::compare_grammar::{derived, near_miss};
use crate::dhcp_vectors::{option_bytes, passed_options};
use crate::drawn_frames::drawn_frame;
use crate::draws::{Draws, GATEWAY_IP};
use crate::gateway_sequences::messages;
use crate::guest_frames::*;
use crate::lines::ruled_bytes;
use crate::mended::{payload_at, with_header_options};

/// A class that never ends. The weight is how many turns of a round it has.
pub struct Drawn {
    pub name: &'static str,
    pub weight: usize,
    pub frame: fn(&mut Draws, &Captured) -> Vec<u8>,
}

pub const DRAWN: [Drawn; 12] = [
    Drawn {
        name: "frames that the grammar derives",
        weight: 6,
        frame: |draws, _| derived(draws),
    },
    Drawn {
        name: "such frames, one field changed, the sums right",
        weight: 4,
        frame: |draws, _| near_miss(draws),
    },
    Drawn {
        name: "drawn by a guest's forms",
        weight: 8,
        frame: |draws, _| drawn_frame(draws),
    },
    Drawn {
        name: "random bytes around each boundary",
        weight: 4,
        frame: |draws, _| random_bytes(draws),
    },
    Drawn {
        name: "well-formed, cut or longer around a boundary",
        weight: 4,
        frame: |draws, _| around_a_boundary(draws),
    },
    Drawn {
        name: "captured frames, damaged",
        weight: 5,
        frame: damaged_capture,
    },
    Drawn {
        name: "captured frames to the gateway, damaged",
        weight: 4,
        frame: damaged_to_the_gateway,
    },
    Drawn {
        name: "DHCP messages of clients, damaged",
        weight: 4,
        frame: damaged_message,
    },
    Drawn {
        name: "DHCP option lists",
        weight: 6,
        frame: |draws, _| option_list(draws),
    },
    Drawn {
        name: "pings, with IPv4 options and padding",
        weight: 4,
        frame: |draws, _| any_ping(draws),
    },
    Drawn {
        name: "datagrams: DNS, relay, near DHCP",
        weight: 3,
        frame: |draws, _| any_datagram(draws),
    },
    Drawn {
        name: "TCP and other protocols",
        weight: 1,
        frame: |draws, _| other_protocol(draws),
    },
];

/// Frames of tens of thousands of bytes take as long as a hundred others, so they come seldom.
pub const ANY_LENGTH: &str = "frames of any length to 70,000 bytes";
pub const LONG_FRAMES: &str = "frames of 65,400 to 70,000 bytes, most of them pings";

/// The frames and messages that are damaged.
pub struct Captured {
    frames: Vec<Vec<u8>>,
    messages: Vec<Vec<u8>>,
}

impl Captured {
    pub fn new() -> Self {
        let frames = captured().into_iter().map(|captured| captured.frame);
        Captured {
            frames: frames.filter(|frame| frame.len() <= 2_048).collect(),
            messages: messages(),
        }
    }
}

fn pick<'a>(draws: &mut Draws, of: &'a [Vec<u8>]) -> &'a [u8] {
    &of[draws.below(of.len())]
}

/// The ends of Ethernet's header, IPv4's, and 8 bytes or an ARP message behind; of DHCP's 240 bytes, and
/// of a code and a length behind them; the same where IPv4's header has 60 bytes; and the least length
/// that a frame has on a wire.
const BOUNDARIES: [usize; 11] = [0, 14, 34, 42, 282, 284, 74, 82, 322, 324, 60];

/// A length near a boundary of document 01's, or any up to 400.
fn near_a_boundary(draws: &mut Draws) -> usize {
    let any = draws.below(400);
    let near = (draws.one_of(&BOUNDARIES) + draws.below(7)).saturating_sub(3);
    draws.one_of(&[near, near, near, any])
}

fn random_bytes(draws: &mut Draws) -> Vec<u8> {
    let len = near_a_boundary(draws);
    let mut frame = draws.bytes(len);
    let mut put = |at: usize, bytes: &[u8]| {
        if let Some(place) = frame.get_mut(at..at + bytes.len()) {
            place.copy_from_slice(bytes);
        }
    };
    let kind = draws.one_of(&[[8, 0], [8, 0], [8, 0], [8, 6], [8, 6], [0x86, 0xdd]]);
    put(TYPE_AT, &kind);
    if draws.below(3) > 0 {
        match kind {
            [8, 6] => {
                put(20, &[0, draws.below(3) as u8]);
                put(38, &GATEWAY_IP);
            }
            _ => {
                put(PROTOCOL_AT, &[draws.one_of(&[ICMP, UDP, UDP, TCP])]);
                put(TARGET_AT, &GATEWAY_IP);
                let any = draws.below(16);
                let nibble = draws.one_of(&[5, any, 15]);
                put(BODY_AT, &[0x40 + nibble as u8]);
                let start = BODY_AT + 4 * nibble;
                put(
                    start,
                    &draws.one_of(&[[8, 0, 0, 0], [0, 68, 0, 67], [9, 9, 0, 53]]),
                );
                put(start + 4, &[0, draws.one_of(&[7, 8, 9, 20, 255])]);
            }
        }
    }
    frame
}

/// A good frame of each kind.
fn well_formed(draws: &mut Draws) -> Vec<u8> {
    let options = draws.one_of(&[DISCOVER, REQUEST]);
    let len = draws.below(60);
    match draws.below(7) {
        0 => arp(1, GATEWAY_IP),
        1 => ping(&draws.bytes(len)),
        2 => dns_query(),
        3 => syn(),
        4 => udp(draws.port(), draws.ip(), draws.port(), &draws.bytes(len)),
        _ => dhcp(&dhcp_message(draws.word(), &options)),
    }
}

/// A frame that gets a reply where there is room.
pub fn replied_to(draws: &mut Draws) -> Vec<u8> {
    let (len, options) = (draws.below(40), draws.one_of(&[DISCOVER, REQUEST]));
    match draws.below(4) {
        0 => arp(1, GATEWAY_IP),
        1 => dhcp(&dhcp_message(draws.word(), &options)),
        _ => ping(&draws.bytes(len)),
    }
}

fn around_a_boundary(draws: &mut Draws) -> Vec<u8> {
    let mut frame = well_formed(draws);
    if payload_at(&frame).is_some() && draws.below(4) == 0 {
        frame = with_header_options(&frame, &draws.bytes(40));
    }
    let len = near_a_boundary(draws);
    let (whole, near_its_own) = (
        frame.len(),
        (frame.len() + draws.below(5)).saturating_sub(2),
    );
    let len = draws.one_of(&[len, near_its_own, whole]);
    let nibble = draws.below(16) as u8;
    let frame = of_len(frame, len);
    if len > BODY_AT && draws.below(4) == 0 {
        return with(frame, BODY_AT, &[0x40 + nibble]);
    }
    frame
}

const EDGES: [u8; 12] = [0, 1, 2, 3, 7, 8, 53, 67, 68, 127, 128, 255];

/// One to four damages: bits, bytes and words changed, parts cut out, doubled or taken from another.
fn damaged(draws: &mut Draws, frame: &[u8], other: &[u8]) -> Vec<u8> {
    let mut frame = frame.to_vec();
    for _ in 0..1 + draws.below(4) {
        if frame.is_empty() {
            break;
        }
        // The headers decide most, so most damage is done there.
        let anywhere = draws.below(frame.len());
        let in_headers = draws.below(frame.len().min(50));
        let at = draws.one_of(&[in_headers, in_headers, anywhere]);
        let (bit, any) = (draws.below(8), draws.byte());
        let run = (1 + draws.below(12)).min(frame.len() - at);
        match draws.below(11) {
            0 | 1 => frame[at] ^= 1 << bit,
            2 | 3 => frame[at] = draws.one_of(&EDGES),
            4 => frame[at] = any,
            5 => frame.truncate(at),
            6 => frame.extend(draws.bytes(run)),
            7 => drop(frame.drain(at..at + run)),
            8 => {
                let part = frame[at..at + run].to_vec();
                frame.splice(at..at, part);
            }
            9 if at + run <= other.len() => {
                frame[at..at + run].copy_from_slice(&other[at..at + run]);
            }
            _ => {
                let near = [frame.len() + 2, frame.len() - 1, 8, 65_535, 0];
                let word = draws.one_of(&near) as u16;
                let at = at.min(frame.len().saturating_sub(2));
                let len = frame.len().min(2);
                frame[at..at + len].copy_from_slice(&word.to_be_bytes()[..len]);
            }
        }
    }
    frame
}

fn damaged_capture(draws: &mut Draws, captured: &Captured) -> Vec<u8> {
    let frame = pick(draws, &captured.frames);
    let other = pick(draws, &captured.frames);
    damaged(draws, frame, other)
}

fn damaged_to_the_gateway(draws: &mut Draws, captured: &Captured) -> Vec<u8> {
    let mut frame = pick(draws, &captured.frames).to_vec();
    let target = if frame[TYPE_AT..BODY_AT] == [8, 6] {
        38
    } else {
        TARGET_AT
    };
    frame[target..target + 4].copy_from_slice(&GATEWAY_IP);
    let other = well_formed(draws);
    damaged(draws, &frame, &other)
}

/// The damage is done to the message, so the headers around it mostly carry it.
fn damaged_message(draws: &mut Draws, captured: &Captured) -> Vec<u8> {
    let message = pick(draws, &captured.messages);
    let other = pick(draws, &captured.messages);
    let at = draws.one_of(&[0, COOKIE_AT - 2, OPTIONS_AT - 1]);
    let tail = damaged(draws, &message[at..], &other[at..]);
    let frame = dhcp(&[&message[..at], &tail].concat());
    with_length_near(draws, frame)
}

/// The frame, its UDP length field now and then a few bytes off.
fn with_length_near(draws: &mut Draws, frame: Vec<u8>) -> Vec<u8> {
    let right = (frame.len() - PAYLOAD_AT) as u16;
    let near = right.wrapping_sub(3).wrapping_add(draws.below(7) as u16);
    let length = draws.one_of(&[right, right, right, near]);
    with(frame, UDP_LENGTH_AT, &length.to_be_bytes())
}

fn option_list(draws: &mut Draws) -> Vec<u8> {
    let (short, long) = (draws.below(24), draws.below(300));
    let mut options = match draws.below(4) {
        0 => option_bytes(draws, short),
        1 => passed_options(draws, long),
        _ => passed_options(draws, short),
    };
    let (kind, len, value) = (
        draws.one_of(&[1, 1, 3, 3, 0, 8, 255]),
        draws.byte(),
        draws.below(256),
    );
    match draws.below(8) {
        0 => options.extend([TYPE, 1]),
        1 => options.extend([TYPE, len, kind]),
        2 => options.push(draws.one_of(&[TYPE, 12, END])),
        3 => {
            // A long option to step over, whole or one byte off, and a type behind it.
            options.extend([draws.one_of(&[12, 43, 252]), value as u8]);
            options.extend(vec![TYPE; (value + draws.below(3)).saturating_sub(1)]);
            options.extend([TYPE, 1, kind]);
        }
        4 => {}
        _ => options.extend([TYPE, 1, kind, END]),
    }
    let frame = dhcp(&dhcp_message(draws.word(), &options));
    let frame = with(frame, SOURCE_MAC_AT, &draws.mac());
    let frame = match draws.below(3) {
        0 => with(frame, TARGET_AT, &draws.ip()),
        _ => frame,
    };
    with_length_near(draws, frame)
}

/// An IPv4 header with this many bytes of options, and the payload behind them.
fn with_ip_options(draws: &mut Draws, protocol: u8, target: [u8; 4], payload: &[u8]) -> Vec<u8> {
    let words = draws.one_of(&[0, 0, 0, 1, 5, 10]);
    let options = draws.bytes(4 * words);
    let frame = packet(protocol, target, &[&options, payload].concat());
    with(frame, BODY_AT, &[0x45 + words as u8])
}

fn any_ping(draws: &mut Draws) -> Vec<u8> {
    let (short, long, edge) = (draws.below(64), draws.below(1_500), draws.one_of(&EDGES));
    let len = draws.one_of(&[short, short, short, long]);
    let mut rest = draws.bytes(4 + len);
    if draws.below(8) == 0 {
        rest.fill(edge);
    }
    let (code, any_target) = (draws.one_of(&[0, 0, 1, 255]), draws.ip());
    let target = draws.one_of(&[GATEWAY_IP, GATEWAY_IP, GATEWAY_IP, GATEWAY_IP, any_target]);
    let frame = with_ip_options(draws, ICMP, target, &icmp(8, code, &rest));
    let frame = with(frame, SOURCE_MAC_AT, &draws.mac());
    let frame = with(frame, SOURCE_AT, &draws.ip());
    let padding = draws.below(20);
    let padding = draws.one_of(&[0, 0, padding]);
    [frame, draws.bytes(padding)].concat()
}

fn any_datagram(draws: &mut Draws) -> Vec<u8> {
    let (short, long) = (draws.below(64), draws.below(1_500));
    let len = draws.one_of(&[short, short, short, long]);
    let data = draws.bytes(len);
    let (source, destination) = (draws.port(), draws.port());
    let destination = draws.one_of(&[53, destination, destination]);
    let any_target = draws.ip();
    let target = draws.one_of(&[GATEWAY_IP, any_target, ELSEWHERE]);
    let mut datagram = datagram(source, destination, &data);
    let (near, any) = (
        (6 + len + draws.below(5)) as u16,
        draws.below(65_536) as u16,
    );
    let length = draws.one_of(&[8 + len as u16, 8 + len as u16, near, any]);
    datagram = with(datagram, 4, &length.to_be_bytes());
    with_ip_options(draws, UDP, target, &datagram)
}

fn other_protocol(draws: &mut Draws) -> Vec<u8> {
    let len = draws.below(80);
    let any = draws.byte();
    let protocol = draws.one_of(&[TCP, TCP, any]);
    let payload = draws.bytes(len);
    let target = draws.ip();
    with_ip_options(draws, protocol, target, &payload)
}

const POWERS_OF_TWO: [usize; 6] = [2_048, 4_096, 8_192, 16_384, 32_768, 65_536];

/// A frame of any length up to 70,000 bytes, or one near a power of two: of these its own length, or
/// that of its payload, so that a length kept in too few bits shows.
pub fn frame_of_any_length(draws: &mut Draws) -> Vec<u8> {
    let any = draws.below(70_001);
    let near = draws.one_of(&POWERS_OF_TWO) + draws.below(7) - 3;
    let behind = draws.one_of(&[0, BODY_AT, PAYLOAD_AT, DATA_AT]);
    let len = draws.one_of(&[any, any, near + behind]);
    if len < DATA_AT + OPTIONS_AT + 300 {
        return of_len(well_formed(draws), len);
    }
    let seed = draws.rule_seed();
    match draws.below(8) {
        0 => long_options(draws, len - DATA_AT - OPTIONS_AT),
        1 => of_len(well_formed(draws), len),
        2 => long_datagram(draws, &ruled_bytes(seed, len - DATA_AT)),
        3 => udp(
            draws.port(),
            GATEWAY_IP,
            53,
            &ruled_bytes(seed, len - DATA_AT),
        ),
        4 => packet(TCP, draws.ip(), &ruled_bytes(seed, len - PAYLOAD_AT)),
        _ => ping(&ruled_bytes(seed, len - DATA_AT)),
    }
}

/// The lengths at the limit come up most: a payload of 65,515 is the longest that is answered.
pub fn long_frame(draws: &mut Draws) -> Vec<u8> {
    // A frame whose payload starts in its header is 8 bytes shorter.
    let any = 65_408 + draws.below(4_593);
    let near = 65_544 + draws.below(12);
    let len = draws.one_of(&[65_549, 65_550, near, near, any]);
    let bytes = ruled_bytes(draws.rule_seed(), len - DATA_AT);
    match draws.below(12) {
        0 => long_datagram(draws, &bytes),
        1 => long_options(draws, len - DATA_AT - OPTIONS_AT),
        2..5 => {
            // The payload starts at the source address, whose first byte is an echo's.
            let frame = ping(&bytes[..bytes.len() - (PAYLOAD_AT - SOURCE_AT)]);
            with(with(frame, BODY_AT, &[0x43]), SOURCE_AT, &[8])
        }
        _ => ping(&bytes),
    }
}

/// Data of many bytes; the field says any number, or the most, or the right one modulo 65,536.
fn long_datagram(draws: &mut Draws, data: &[u8]) -> Vec<u8> {
    let (target, port, any) = (draws.ip(), draws.port(), draws.below(65_536) as u16);
    let right = (8 + data.len()) as u16;
    let field = draws.one_of(&[65_535, 65_534, right, any]);
    let frame = udp(40_000, target, port, data);
    with(frame, UDP_LENGTH_AT, &field.to_be_bytes())
}

/// Options stepped over, of all lengths, up to a type far behind the header or cut off there; all of
/// it has `len` bytes.
fn long_options(draws: &mut Draws, len: usize) -> Vec<u8> {
    let mut options = vec![];
    while options.len() + 300 < len {
        let value_len = 255 - draws.one_of(&[0, 0, 0, 1, 100]);
        options.extend([12, value_len]);
        options.extend(vec![TYPE; usize::from(value_len)]);
    }
    let end: &[u8] = draws.one_of(&[&[TYPE, 1, 1], &[TYPE, 1, 3, END], &[TYPE, 1], &[TYPE]]);
    options.resize(len - end.len(), PAD);
    options.extend(end);
    dhcp(&dhcp_message(draws.word(), &options))
}
