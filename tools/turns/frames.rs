//! Frames, put together field by field.

use crate::calls::{GATEWAY, GUEST, MAC};

pub const ETHERNET: usize = 14;
pub const TYPE_AT: usize = 12;
pub const PROTOCOL_AT: usize = 23;
pub const TARGET_AT: usize = 30;
pub const ICMP: u8 = 1;
pub const TCP: u8 = 6;
pub const UDP: u8 = 17;

pub const FIXED: usize = 240;
pub const COOKIE_AT: usize = 236;
pub const COOKIE: [u8; 4] = [0x63, 0x82, 0x53, 0x63];
pub const MESSAGE_TYPE: u8 = 53;
pub const END: u8 = 255;

pub fn put(frame: &mut [u8], at: usize, bytes: &[u8]) {
    frame[at..at + bytes.len()].copy_from_slice(bytes);
}

pub fn u16_at(frame: &[u8], at: usize) -> usize {
    usize::from(frame[at]) * 256 + usize::from(frame[at + 1])
}

/// The sum of RFC 1071 over the pieces, all but the last of an even length; 0xffff where they sum right.
pub fn folded(pieces: &[&[u8]]) -> u16 {
    let mut sum: u64 = 0;
    for piece in pieces {
        for word in piece.chunks(2) {
            sum += u64::from(word[0]) * 256 + word.get(1).map_or(0, |low| u64::from(*low));
        }
    }
    while sum > 0xffff {
        sum = (sum >> 16) + (sum & 0xffff);
    }
    sum as u16
}

/// The start of a frame of `len` bytes of this type.
fn ethernet(kind: [u8; 2], len: usize) -> Vec<u8> {
    let mut frame = vec![0; len];
    put(&mut frame, 0, &[0x52, 0x54, 0, 0, 0, 1]);
    put(&mut frame, 6, &MAC);
    put(&mut frame, TYPE_AT, &kind);
    frame
}

/// An ARP request for the gateway's address, with zeros behind it.
pub fn arp(len: usize) -> Vec<u8> {
    let mut frame = ethernet([8, 6], len);
    put(&mut frame, ETHERNET, &[0, 1, 8, 0, 6, 4, 0, 1]);
    put(&mut frame, 22, &MAC);
    put(&mut frame, 28, &GUEST);
    put(&mut frame, 38, &GATEWAY);
    frame
}

/// An IPv4 frame of `len` bytes to the gateway whose header length is so many words of four bytes, which may be too few for a header.
pub fn ipv4(len: usize, header_words: usize, protocol: u8) -> Vec<u8> {
    let mut frame = ethernet([8, 0], len);
    frame[ETHERNET] = 0x40 + header_words as u8;
    put(
        &mut frame,
        16,
        &((len - ETHERNET).min(65_535) as u16).to_be_bytes(),
    );
    frame[22] = 64;
    frame[PROTOCOL_AT] = protocol;
    put(&mut frame, 26, &GUEST);
    put(&mut frame, TARGET_AT, &GATEWAY);
    frame
}

/// Where the payload starts by the header length.
pub fn payload_at(frame: &[u8]) -> usize {
    ETHERNET + 4 * usize::from(frame[ETHERNET] & 15)
}

/// An echo request whose payload starts behind so many words; with four or fewer, fields of the header lie in it.
pub fn ping(len: usize, header_words: usize) -> Vec<u8> {
    let mut frame = ipv4(len, header_words, ICMP);
    let start = payload_at(&frame);
    frame[start] = 8;
    frame
}

/// A datagram from port to port which runs to the frame's end, or as far as its length field reaches.
pub fn datagram(len: usize, header_words: usize, ports: [u16; 2]) -> Vec<u8> {
    let mut frame = ipv4(len, header_words, UDP);
    let start = payload_at(&frame);
    put(&mut frame, start, &ports[0].to_be_bytes());
    put(&mut frame, start + 2, &ports[1].to_be_bytes());
    put(
        &mut frame,
        start + 4,
        &((len - start).min(65_535) as u16).to_be_bytes(),
    );
    frame
}

/// Where the data of a datagram stands, by its header length and its length field, as far as there is one.
pub fn data_of(frame: &[u8]) -> Option<(usize, usize)> {
    let start = payload_at(frame);
    if frame.len() < start + 8 {
        return None;
    }
    let stated = u16_at(frame, start + 4);
    (8 <= stated).then(|| (start + 8, frame.len().min(start + stated)))
}

/// A DHCP message from port to port whose list of options is all pads.
pub fn dhcp(len: usize, header_words: usize, ports: [u16; 2]) -> Vec<u8> {
    let mut frame = datagram(len, header_words, ports);
    let (start, _) = data_of(&frame).unwrap();
    put(&mut frame, start, &[1]);
    put(&mut frame, start + COOKIE_AT, &COOKIE);
    if 5 <= header_words {
        put(&mut frame, start + 1, &[1, 6]);
    }
    frame
}

/// The frame with these bytes at the end of its DHCP data.
pub fn with_last(mut frame: Vec<u8>, bytes: &[u8]) -> Vec<u8> {
    let (_, stop) = data_of(&frame).unwrap();
    put(&mut frame, stop - bytes.len(), bytes);
    frame
}

/// The frame with the IPv4 header's checksum right, where there is a header.
pub fn with_header_sum(mut frame: Vec<u8>) -> Vec<u8> {
    let stop = payload_at(&frame);
    if 34 <= stop && stop <= frame.len() {
        put(&mut frame, 24, &[0, 0]);
        let sum = 65_535 - folded(&[&frame[ETHERNET..stop]]);
        put(&mut frame, 24, &sum.to_be_bytes());
    }
    frame
}

/// The frame with both checksums right: the header's, and behind it that of ICMP, UDP or TCP.
pub fn with_sums(frame: Vec<u8>) -> Vec<u8> {
    let mut frame = with_header_sum(frame);
    let start = payload_at(&frame);
    let protocol = frame[PROTOCOL_AT];
    let at = start
        + match protocol {
            ICMP => 2,
            UDP => 6,
            TCP => 16,
            _ => return frame,
        };
    if frame.len() < at + 2 {
        return frame;
    }
    put(&mut frame, at, &[0, 0]);
    let size = ((frame.len() - start) as u16).to_be_bytes();
    let pseudo = [&frame[26..34], &[0, protocol], &size].concat();
    let before: &[u8] = if protocol == ICMP { &[] } else { &pseudo };
    let sum = 65_535 - folded(&[before, &frame[start..]]);
    let sum = if sum == 0 && protocol == UDP {
        65_535
    } else {
        sum
    };
    put(&mut frame, at, &sum.to_be_bytes());
    frame
}

/// A TCP segment with a header of 20 bytes, right in every sum.
pub fn segment(len: usize, header_words: usize) -> Vec<u8> {
    let mut frame = ipv4(len, header_words, TCP);
    let start = payload_at(&frame);
    frame[start + 12] = 0x50;
    with_sums(frame)
}

/// A fragment whose packet fills the frame, or is as long as a packet can be: its first block, and whether more follow.
pub fn fragment(len: usize, header_words: usize, first_block: usize, more: bool) -> Vec<u8> {
    fragment_of(
        len,
        header_words,
        first_block,
        more,
        (len - ETHERNET).min(65_535),
    )
}

/// The same with this total length.
pub fn fragment_of(
    len: usize,
    header_words: usize,
    first_block: usize,
    more: bool,
    total: usize,
) -> Vec<u8> {
    let mut frame = ipv4(len, header_words, ICMP);
    put(&mut frame, 16, &(total as u16).to_be_bytes());
    let field = first_block as u16 + if more { 0x2000 } else { 0 };
    put(&mut frame, 20, &field.to_be_bytes());
    with_header_sum(frame)
}
