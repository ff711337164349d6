//! What the table's inputs are made of, and its names. The fields that the Rust does not look at are
//! filled with bytes that are all different, so that one read in another's place shows.

use crate::antt_text::Name;
pub use crate::draws::{GATEWAY_IP, GUEST_IP};
use crate::draws::{GATEWAY_MAC, GUEST_MAC};
use crate::guest_frames::{COOKIE, of_len, with};

pub const RECORD_MAC: [u8; 6] = GUEST_MAC;
pub const SENDER_MAC: [u8; 6] = [0x02, 0x0a, 0x0b, 0x0c, 0x0d, 0x0e];
pub const OTHER_MAC: [u8; 6] = [0xa2, 0xb1, 0xb2, 0xb3, 0xb4, 0xb5];
const ARP_MAC: [u8; 6] = [0x02, 0x1a, 0x1b, 0x1c, 0x1d, 0x1e];
pub const OTHER_IP: [u8; 4] = [198, 51, 100, 7];

/// An ICMP message of type 8, without data.
pub const ECHO: [u8; 8] = [8, 0, 0xc1, 0xc2, 0xc3, 0xc4, 0xc5, 0xc6];

const XID: [u8; 4] = [0x11, 0x22, 0x33, 0x44];

/// The bytes of an input or an answer that have a name in the table.
pub fn names() -> Vec<Name> {
    let name = |what, name, bytes: &[u8]| Name {
        what,
        name,
        bytes: bytes.to_vec(),
        arguments: vec![],
    };
    let reply_start = [&[2, 1, 6, 0][..], &XID, &[0; 8], &GUEST_IP, &GATEWAY_IP].concat();
    let reply_head = [&reply_start[..], &[0; 4], &RECORD_MAC, &[0; 202], &COOKIE].concat();
    vec![
        name(
            "the record's MAC, another record's",
            "record_mac",
            &RECORD_MAC,
        ),
        name("", "other_mac", &OTHER_MAC),
        name(
            "the gateway's, and the source of the frames",
            "host_mac",
            &GATEWAY_MAC,
        ),
        name("", "sender_mac_lem", &SENDER_MAC),
        name("the sender in an ARP request", "arp_mac", &ARP_MAC),
        name(
            "10.0.2.2 and 10.0.2.15, and an address elsewhere",
            "gateway",
            &GATEWAY_IP,
        ),
        name("", "guest", &GUEST_IP),
        name("", "other", &OTHER_IP),
        name(
            "the Ethernet head of an IPv4 frame from the guest, and of one to it",
            "from_guest",
            &ethernet(0x0800),
        ),
        name(
            "",
            "to_guest",
            &[&SENDER_MAC[..], &GATEWAY_MAC, &[0x08, 0x00]].concat(),
        ),
        Name {
            arguments: vec![(0, "first"), (9, "protocol")],
            ..name(
                "12 bytes of an IPv4 header, up to its addresses: the others are not looked at",
                "ip_head",
                &packet_head(0x45, 1),
            )
        },
        name("type 8, and what comes back of a ping", "echo", &ECHO),
        Name {
            arguments: vec![(6, "high"), (7, "low")],
            ..name(
                "8 bytes of an ARP message, with its operation",
                "arp_head",
                &[0, 1, 8, 0, 6, 4, 0xff, 0xfe],
            )
        },
        name(
            "240 bytes of a DHCP message, up to its options, and of a reply to it",
            "message",
            &dhcp_message(&[]),
        ),
        name("", "reply", &reply_head),
        name(
            "a reply's options behind its type",
            "lease",
            &[
                54, 4, 10, 0, 2, 2, 51, 4, 0, 1, 81, 128, 1, 4, 255, 255, 255, 0, 3, 4, 10, 0, 2,
                2, 6, 4, 10, 0, 2, 2, 255,
            ],
        ),
    ]
}

fn ethernet(ethertype: u16) -> Vec<u8> {
    [&GATEWAY_MAC[..], &SENDER_MAC, &ethertype.to_be_bytes()].concat()
}

/// A request for the gateway's address, the sender's MAC another than the frame's.
pub fn arp_request() -> Vec<u8> {
    let body = [
        &[0, 1, 8, 0, 6, 4, 0, 1][..],
        &ARP_MAC,
        &GUEST_IP,
        &[0xe1, 0xe2, 0xe3, 0xe4, 0xe5, 0xe6],
        &GATEWAY_IP,
    ];
    [ethernet(0x0806), body.concat()].concat()
}

fn packet_head(first: u8, proto: u8) -> Vec<u8> {
    vec![
        first, 0xa1, 0xa2, 0xa3, 0xa4, 0xa5, 0xa6, 0xa7, 0xa8, proto, 0xaa, 0xab,
    ]
}

/// An IPv4 packet of the guest's whose header starts with this byte.
pub fn packet(first: u8, proto: u8, target: [u8; 4], payload: &[u8]) -> Vec<u8> {
    let header = [&packet_head(first, proto)[..], &GUEST_IP, &target].concat();
    [&ethernet(0x0800)[..], &header, payload].concat()
}

pub fn ping(data: &[u8]) -> Vec<u8> {
    let message = [&ECHO[..], data].concat();
    packet(0x45, 1, GATEWAY_IP, &message)
}

pub fn udp(src_port: u16, dst_port: u16, length: u16, data: &[u8]) -> Vec<u8> {
    let [source, target, length] = [src_port, dst_port, length].map(u16::to_be_bytes);
    [&source[..], &target, &length, &[0xca, 0xcb], data].concat()
}

/// A DHCP message with these options. The client's MAC is neither the record's nor the frame's.
pub fn dhcp_message(options: &[u8]) -> Vec<u8> {
    let start = [&[1, 1, 6, 0][..], &XID, &[0; 20], &ARP_MAC].concat();
    [&of_len(start, 236)[..], &COOKIE, options].concat()
}

/// The message to 198.51.100.7: whom it is for is not looked at.
pub fn dhcp_frame(message: &[u8]) -> Vec<u8> {
    let datagram = udp(68, 67, 8 + message.len() as u16, message);
    packet(0x45, 17, OTHER_IP, &datagram)
}

/// The bytes with these written over them.
pub fn over(bytes: &[u8], at: usize, new: &[u8]) -> Vec<u8> {
    with(bytes.to_vec(), at, new)
}

pub fn typed(frame: &[u8], ethertype: u16) -> Vec<u8> {
    over(frame, 12, &ethertype.to_be_bytes())
}

pub fn padded(frame: &[u8], len: usize) -> Vec<u8> {
    of_len(frame.to_vec(), len)
}

/// The gateway's address with one byte changed, each byte once.
pub fn near_gateway() -> [([u8; 4], &'static str); 4] {
    [
        ([11, 0, 2, 2], "the target's first byte is another"),
        ([10, 1, 2, 2], "its second byte"),
        ([10, 0, 3, 2], "its third byte"),
        ([10, 0, 2, 3], "its fourth byte"),
    ]
}
