//! Frames as a guest sends them, put together byte by byte and not by the Rust's builders: those
//! spend ids.

use crate::draws::{BROADCAST_IP, GATEWAY_IP, GATEWAY_MAC, GUEST_IP, GUEST_MAC};
use crate::networks::STRANGER;

pub const ARP: u16 = 0x0806;
pub const IPV4: u16 = 0x0800;
pub const ICMP: u8 = 1;
pub const TCP: u8 = 6;
pub const UDP: u8 = 17;

/// Where things stand in a guest's frame.
pub const SOURCE_MAC_AT: usize = 6;
pub const TYPE_AT: usize = 12;
pub const BODY_AT: usize = 14;
pub const TOTAL_LENGTH_AT: usize = 16;
pub const PROTOCOL_AT: usize = 23;
pub const SOURCE_AT: usize = 26;
pub const TARGET_AT: usize = 30;
pub const PAYLOAD_AT: usize = 34;
pub const UDP_LENGTH_AT: usize = 38;
pub const DATA_AT: usize = 42;

/// Where the options start in a DHCP message. A shorter one is dropped.
pub const OPTIONS_AT: usize = 240;
pub const COOKIE: [u8; 4] = [0x63, 0x82, 0x53, 0x63];
pub const COOKIE_AT: usize = 236;

pub const PAD: u8 = 0;
pub const TYPE: u8 = 53;
pub const END: u8 = 255;

pub const EVERYONE: [u8; 4] = [255; 4];
pub const ELSEWHERE: [u8; 4] = [93, 184, 216, 34];
pub const TARGETS: [[u8; 4]; 7] = [
    GATEWAY_IP,
    EVERYONE,
    BROADCAST_IP,
    GUEST_IP,
    ELSEWHERE,
    STRANGER,
    [0; 4],
];

pub const DISCOVER: [u8; 4] = [TYPE, 1, 1, END];
pub const REQUEST: [u8; 4] = [TYPE, 1, 3, END];

pub fn ethernet(ethertype: u16, body: &[u8]) -> Vec<u8> {
    [&GATEWAY_MAC[..], &GUEST_MAC, &ethertype.to_be_bytes(), body].concat()
}

/// The frame with these bytes written over it.
pub fn with(mut frame: Vec<u8>, at: usize, bytes: &[u8]) -> Vec<u8> {
    frame[at..at + bytes.len()].copy_from_slice(bytes);
    frame
}

/// The frame cut to `len` bytes, or padded to them with zeros.
pub fn of_len(mut frame: Vec<u8>, len: usize) -> Vec<u8> {
    frame.resize(len, 0);
    frame
}

/// Each byte of the address one more and one less.
pub fn near(address: [u8; 4]) -> Vec<[u8; 4]> {
    let changed = |at: usize, change: u8| {
        let mut near = address;
        near[at] = near[at].wrapping_add(change);
        near
    };
    (0..4)
        .flat_map(|at| [changed(at, 1), changed(at, 255)])
        .collect()
}

/// A request from the guest for the address of `target`.
pub fn arp(operation: u16, target: [u8; 4]) -> Vec<u8> {
    let body = [
        &[0, 1, 8, 0, 6, 4][..],
        &operation.to_be_bytes(),
        &GUEST_MAC,
        &GUEST_IP,
        &[0; 6],
        &target,
    ];
    ethernet(ARP, &body.concat())
}

/// An IPv4 packet from the guest, its header 20 bytes long and right.
pub fn packet(protocol: u8, target: [u8; 4], payload: &[u8]) -> Vec<u8> {
    let total_length = ((20 + payload.len()) % 65_536) as u16;
    let header = [
        &[0x45, 0][..],
        &total_length.to_be_bytes(),
        &[0x12, 0x34, 0x40, 0, 64, protocol, 0, 0],
        &GUEST_IP,
        &target,
    ]
    .concat();
    let sum = summed(&header);
    ethernet(IPV4, &[&with(header, 10, &sum), payload].concat())
}

/// An ICMP message, its checksum right.
pub fn icmp(kind: u8, code: u8, rest: &[u8]) -> Vec<u8> {
    let message = [&[kind, code, 0, 0], rest].concat();
    let sum = summed(&message);
    with(message, 2, &sum)
}

/// A ping of the gateway: `data` stands behind ICMP id and sequence.
pub fn ping(data: &[u8]) -> Vec<u8> {
    let message = icmp(8, 0, &[&[0, 1, 0, 1], data].concat());
    packet(ICMP, GATEWAY_IP, &message)
}

/// A UDP datagram without a checksum.
pub fn datagram(source: u16, destination: u16, data: &[u8]) -> Vec<u8> {
    let length = ((8 + data.len()) % 65_536) as u16;
    [
        &source.to_be_bytes()[..],
        &destination.to_be_bytes(),
        &length.to_be_bytes(),
        &[0, 0],
        data,
    ]
    .concat()
}

pub fn udp(source: u16, target: [u8; 4], destination: u16, data: &[u8]) -> Vec<u8> {
    packet(UDP, target, &datagram(source, destination, data))
}

/// A query for the address of a name, as a resolver asks it.
pub fn dns_query() -> Vec<u8> {
    let query = [
        &[0x1b, 0x2c, 1, 0, 0, 1, 0, 0, 0, 0, 0, 0][..],
        b"\x07example\x03com\x00",
        &[0, 1, 0, 1],
    ];
    udp(40_000, GATEWAY_IP, 53, &query.concat())
}

/// A TCP segment that opens a connection, with options; its checksum is left at 0.
pub fn syn() -> Vec<u8> {
    let segment = [
        &[0xa0, 0x28, 0, 80, 0x11, 0x22, 0x33, 0x44, 0, 0, 0, 0][..],
        &[0xa0, 0x02, 0xfa, 0xf0, 0, 0, 0, 0],
        &[
            2, 4, 5, 0xb4, 4, 2, 8, 10, 1, 2, 3, 4, 0, 0, 0, 0, 1, 3, 3, 7,
        ],
    ];
    packet(TCP, ELSEWHERE, &segment.concat())
}

/// A client's request with these options.
pub fn dhcp_message(xid: u32, options: &[u8]) -> Vec<u8> {
    let header = [&[1, 1, 6, 0], &xid.to_be_bytes(), &[0; 20][..], &GUEST_MAC].concat();
    let mut message = of_len(header, COOKIE_AT);
    message.extend(COOKIE);
    assert_eq!(message.len(), OPTIONS_AT);
    message.extend(options);
    message
}

/// The message in a frame, from 0.0.0.0 to everyone.
pub fn dhcp(message: &[u8]) -> Vec<u8> {
    let frame = with(udp(68, EVERYONE, 67, message), SOURCE_AT, &[0; 4]);
    with(frame, 0, &[0xff; 6])
}

/// A message that is taken and then dropped, since it has no cookie: it only brings its xid.
pub fn xid_bringer(xid: u32) -> Vec<u8> {
    let message = dhcp_message(xid, &[]);
    dhcp(&with(message, COOKIE_AT, &[0; 4]))
}

/// The checksum of a header or message whose checksum field is 0.
pub fn summed(words: &[u8]) -> [u8; 2] {
    let mut sum = 0u64;
    for word in words.chunks(2) {
        sum += 256 * word[0] as u64 + *word.get(1).unwrap_or(&0) as u64;
    }
    while sum > 0xffff {
        sum = sum % 65_536 + sum / 65_536;
    }
    (0xffff - sum as u16).to_be_bytes()
}
