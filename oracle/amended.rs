//! What the published Rust built becomes with us: the one place where our bytes are meant to differ from the
//! Rust's. Every comparison of calls of the whole gateway reads the Rust's frames here, by `pushed`, and
//! every one of `make_udp_payload`, called directly, by `amended_datagram`. The other builders have no
//! exception and are compared as they are; nor has `oracle/runs`, whose table says what the Rust does.
//!
//! Document 02, 2/13: "RFC 2131 has the server send from 67 to 68, while the Rust and document 01 have it
//! the other way round. The reply's UDP header becomes 00 43 00 44. The Rust stays the oracle for all
//! other bytes of the frame". 6/13: "The UDP builder now takes both addresses and writes the checksum of
//! RFC 768: over the pseudo-header, with a computed 0 sent as 0xffff. DHCP replies change with it [..]
//! Demand 2 compares with the Rust everywhere but those two bytes and the ports of 2/13; the RFCs decide
//! them."

use published::{NetworkBackend, SlirpBackend};

const IPV4: [u8; 2] = [0x08, 0x00];
const UDP: u8 = 17;
/// From 67 to 68.
const PORTS: [u8; 4] = [0x00, 0x43, 0x00, 0x44];
/// Where the datagram of a frame that the Rust builds starts, and in the datagram its checksum.
const DATAGRAM_AT: usize = 34;
const CHECKSUM_AT: usize = 6;

/// A UDP frame has these ports in bytes 34 to 37 (of what `send` pushes only DHCP replies are UDP), and in
/// bytes 40 and 41 the checksum of the datagram that this makes; every other byte of it, and every other
/// frame, is the Rust's. Ports and checksum are put there and not masked: ours have to be these.
pub fn amended(mut frame: Vec<u8>) -> Vec<u8> {
    if frame[12..14] == IPV4 && frame[23] == UDP {
        let address_at = |at: usize| [frame[at], frame[at + 1], frame[at + 2], frame[at + 3]];
        let (source, target) = (address_at(26), address_at(30));
        let mut datagram = frame.split_off(DATAGRAM_AT);
        datagram[..4].copy_from_slice(&PORTS);
        frame.extend(amended_datagram(source, target, datagram));
    }
    frame
}

/// What the Rust's `make_udp_payload` built, as ours has to be between these addresses: bytes 6 and 7, which
/// the Rust leaves 0, are the checksum, and every other byte is the Rust's.
pub fn amended_datagram(source: [u8; 4], target: [u8; 4], mut datagram: Vec<u8>) -> Vec<u8> {
    let checksum = checksum_field(source, target, &datagram).to_be_bytes();
    datagram[CHECKSUM_AT..CHECKSUM_AT + 2].copy_from_slice(&checksum);
    datagram
}

/// RFC 768: "Checksum is the 16-bit one's complement of the one's complement sum of a pseudo header of
/// information from the IP header, the UDP header, and the data, padded with zero octets at the end (if
/// necessary) to make a multiple of two octets. [..] If the computed checksum is zero, it is transmitted as
/// all ones". The field itself counts as 0.
fn checksum_field(source: [u8; 4], target: [u8; 4], datagram: &[u8]) -> u16 {
    let mut sum = datagram.len() as u64 + u64::from(UDP);
    let (before, behind) = (&datagram[..CHECKSUM_AT], &datagram[CHECKSUM_AT + 2..]);
    for part in [&source, &target, before, behind] {
        for word in part.chunks(2) {
            let low = word.get(1).unwrap_or(&0);
            sum += 256 * u64::from(word[0]) + u64::from(*low);
        }
    }
    while sum > 0xffff {
        sum = sum % 0x1_0000 + sum / 0x1_0000;
    }
    match 0xffff - sum as u16 {
        0 => 0xffff,
        computed => computed,
    }
}

/// The next frame that the Rust's gateway pushed, as ours has to be.
pub fn pushed(backend: &mut SlirpBackend) -> Option<Vec<u8>> {
    backend.recv().map(amended)
}
