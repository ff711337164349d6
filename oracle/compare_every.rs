//! Frames that are compared exhaustively: each class is a product of small choices, and every element
//! of it is visited once, in an order that jumps about.

use crate::draws::{GATEWAY_IP, GUEST_MAC};
use crate::guest_frames::*;
use crate::networks::STRANGER;

/// All that a class has, and the frame that each of its numbers stands for.
pub struct Every {
    pub name: &'static str,
    pub size: usize,
    pub frame: fn(usize) -> Vec<u8>,
}

pub const EVERY: [Every; 11] = [
    Every {
        name: "every frame of 0 to 13 bytes of 00 06 08",
        size: strings(3, 13),
        frame: |n| string(&[0x00, 0x06, 0x08], n),
    },
    Every {
        name: "every 0 to 6 bytes of 00 01 06 08 45 ff behind MACs",
        size: strings(6, 6),
        frame: |n| {
            [
                &[0; 12],
                &string(&[0x00, 0x01, 0x06, 0x08, 0x45, 0xff], n)[..],
            ]
            .concat()
        },
    },
    Every {
        name: "every type",
        size: 65_536,
        frame: |n| with(of_len(ping(&[]), 60), TYPE_AT, &(n as u16).to_be_bytes()),
    },
    Every {
        name: "every 0 to 8 option bytes of 0 1 2 3 53 255",
        size: strings(OPTION_BYTES.len(), 8),
        frame: |n| dhcp(&dhcp_message(0x3903_f326, &string(&OPTION_BYTES, n))),
    },
    Every {
        name: "option bytes past the datagram's end",
        size: strings(4, 5) * 7,
        frame: options_past_the_end,
    },
    Every {
        name: "header lengths by payloads around the end",
        size: 16 * 3 * 6 * 27,
        frame: header_length,
    },
    Every {
        name: "UDP length fields by data, ports, targets",
        size: 13 * 28 * 4 * 4 * 3,
        frame: udp_length,
    },
    Every {
        name: "ARP lengths, operations, targets, senders",
        size: 5 * 3 * 4 * 81 * 3,
        frame: arp_fields,
    },
    Every {
        name: "DHCP lengths, first bytes, cookies, ports, types",
        size: 11 * 3 * 16 * 4 * 3 * 3,
        frame: dhcp_fields,
    },
    Every {
        name: "protocols by targets, lengths 33 to 44",
        size: 256 * 9 * 12,
        frame: protocol,
    },
    Every {
        name: "ICMP types and DHCP message types",
        size: 256 * 5 * 3 + 256 * 5,
        frame: types,
    },
];

const OPTION_BYTES: [u8; 6] = [0, 1, 2, 3, 53, 255];

/// How many strings there are of up to `longest` letters.
const fn strings(letters: usize, longest: usize) -> usize {
    let (mut all, mut of_len, mut len) = (1, 1, 0);
    while len < longest {
        of_len *= letters;
        all += of_len;
        len += 1;
    }
    all
}

/// The strings in order: the empty one, those of one letter, and so on.
fn string(alphabet: &[u8], mut n: usize) -> Vec<u8> {
    let mut string = vec![];
    while n > 0 {
        string.push(alphabet[(n - 1) % alphabet.len()]);
        n = (n - 1) / alphabet.len();
    }
    string
}

/// A number's digits, the first one taken with the first base.
struct Digits(usize);

impl Digits {
    fn next(&mut self, base: usize) -> usize {
        let digit = self.0 % base;
        self.0 /= base;
        digit
    }

    fn one_of<T: Copy>(&mut self, values: &[T]) -> T {
        values[self.next(values.len())]
    }
}

/// The datagram ends inside the options or behind them; the frame has all of them, and a type behind.
fn options_past_the_end(n: usize) -> Vec<u8> {
    let mut digits = Digits(n);
    let end = digits.next(7);
    let options = string(&[0, 1, 53, 255], digits.next(strings(4, 5)));
    let frame = dhcp(&dhcp_message(9, &[&options, &[53, 1, 3][..]].concat()));
    with(
        frame,
        UDP_LENGTH_AT,
        &((8 + OPTIONS_AT + end) as u16).to_be_bytes(),
    )
}

/// A payload that looks like a ping, a datagram or a segment where the header length says it starts.
fn header_length(n: usize) -> Vec<u8> {
    let mut digits = Digits(n);
    let nibble = digits.next(16);
    let version = digits.one_of(&[0x40, 0x00, 0xf0]);
    // Of these only UDP's ports are looked at.
    let (protocol, first) = digits.one_of(&[
        (ICMP, [8, 0, 0, 0]),
        (UDP, [0, 68, 0, 67]),
        (UDP, [0x9c, 0x40, 0, 53]),
        (UDP, [0, 67, 0, 68]),
        (UDP, [8, 0, 8, 0]),
        (TCP, [8, 0, 8, 0]),
    ]);
    let len = (BODY_AT + 4 * nibble + digits.next(27)).saturating_sub(2);
    let start = BODY_AT + 4 * nibble;
    let mut frame = of_len(packet(protocol, GATEWAY_IP, &[]), 110);
    let payload = match protocol {
        ICMP => [&first[..], &[0, 7, 0, 9, 1, 2, 3]].concat(),
        _ => [&first[..], &[0, 12, 0, 0, 1, 2, 3, 4]].concat(),
    };
    frame[start..start + payload.len()].copy_from_slice(&payload);
    // What the payload wrote over in the header and is looked at before it.
    frame[BODY_AT] = version + nibble as u8;
    frame[PROTOCOL_AT] = protocol;
    frame[TARGET_AT..PAYLOAD_AT].copy_from_slice(&GATEWAY_IP);
    of_len(frame, len)
}

fn udp_length(n: usize) -> Vec<u8> {
    let mut digits = Digits(n);
    let data = vec![7; digits.next(13)];
    let field = match digits.next(28) {
        25 => 256,
        26 => 0x0800,
        27 => 65_535,
        small => small as u16,
    };
    let source = digits.one_of(&[68, 67, 53, 40_000]);
    let destination = digits.one_of(&[67, 68, 53, 80]);
    let target = digits.one_of(&[GATEWAY_IP, STRANGER, EVERYONE]);
    let frame = udp(source, target, destination, &data);
    with(frame, UDP_LENGTH_AT, &field.to_be_bytes())
}

fn arp_fields(n: usize) -> Vec<u8> {
    let mut digits = Digits(n);
    let len = 40 + digits.next(5);
    let operation = 256 * digits.next(3) + digits.next(4);
    let target = GATEWAY_IP.map(|byte| byte.wrapping_add(digits.one_of(&[0, 1, 255])));
    let frame = arp(operation as u16, target);
    let sender = digits.one_of(&[[0; 6], [2, 4, 6, 8, 10, 12], GUEST_MAC]);
    of_len(with(frame, 22, &sender), len)
}

fn dhcp_fields(n: usize) -> Vec<u8> {
    let mut digits = Digits(n);
    let len = 236 + digits.next(11);
    let first = digits.next(3) as u8;
    let cookie = COOKIE.map(|byte| byte ^ digits.next(2) as u8);
    let (source, destination) = digits.one_of(&[(68, 67), (67, 68), (68, 68), (68, 53)]);
    let length_off = digits.next(3) as u16;
    let kind = digits.one_of(&[1, 3, 2]);
    let message = dhcp_message(0x5a5b_5c5d, &[TYPE, 1, kind, END, 0, 0]);
    let message = of_len(with(with(message, COOKIE_AT, &cookie), 0, &[first]), len);
    let frame = udp(source, GATEWAY_IP, destination, &message);
    with(
        frame,
        UDP_LENGTH_AT,
        &(7 + len as u16 + length_off).to_be_bytes(),
    )
}

fn protocol(n: usize) -> Vec<u8> {
    let mut digits = Digits(n);
    let protocol = digits.next(256) as u8;
    let target = match digits.next(9) {
        0 => GATEWAY_IP,
        near_by => near(GATEWAY_IP)[near_by - 1],
    };
    of_len(
        packet(protocol, target, &icmp(8, 0, &[1, 2, 3, 4, 5, 6])),
        33 + digits.next(12),
    )
}

/// ICMP types by payloads of 7 to 11 bytes and codes; DHCP message types by the option's length.
fn types(n: usize) -> Vec<u8> {
    let (pings, mut digits) = (256 * 5 * 3, Digits(n));
    if n < pings {
        let kind = digits.next(256) as u8;
        let message = of_len(icmp(kind, 0, &[1; 7]), 7 + digits.next(5));
        return packet(
            ICMP,
            GATEWAY_IP,
            &with(message, 1, &[digits.one_of(&[0, 1, 255])]),
        );
    }
    let mut digits = Digits(n - pings);
    let kind = digits.next(256) as u8;
    let len = digits.one_of(&[0, 1, 2, 4, 255]);
    dhcp(&dhcp_message(7, &[TYPE, len, kind, END]))
}
