//! The frames that are timed, and those that the stack is measured on.

use crate::draws::{GATEWAY_IP, GUEST_MAC};
use crate::guest_frames::*;
use crate::mended::{mended, summed_anew};

/// Bytes that are not all the same: byte i is (7 + 17 i) mod 251.
pub fn filling(len: usize) -> Vec<u8> {
    (0..len).map(|i| ((7 + 17 * i) % 251) as u8).collect()
}

pub fn arp_request() -> Vec<u8> {
    arp(1, GATEWAY_IP)
}

pub fn ping_of(len: usize) -> Vec<u8> {
    ping(&filling(len))
}

/// As a client sends it: five options and the end, and zeros up to 300 bytes.
pub fn discover() -> Vec<u8> {
    let client = [&[61, 7, 1][..], &GUEST_MAC].concat();
    let options = [
        &[TYPE, 1, 1][..],
        &client,
        &[57, 2, 0x05, 0xc0],
        &[12, 5, b'g', b'u', b'e', b's', b't'],
        &[55, 6, 1, 3, 6, 51, 58, 59],
        &[END],
    ];
    mended(dhcp(&of_len(
        dhcp_message(0x1234_5678, &options.concat()),
        300,
    )))
}

pub fn datagram_for_outside(len: usize) -> Vec<u8> {
    udp(40_000, ELSEWHERE, 9_000, &filling(len))
}

pub fn opening_segment() -> Vec<u8> {
    mended(syn())
}

/// A neighbour solicitation's size; the gateway knows no IPv6.
pub fn ipv6() -> Vec<u8> {
    ethernet(0x86dd, &filling(72))
}

/// A message with these options, whole and in the grammar if they are.
pub fn with_options(options: &[u8]) -> Vec<u8> {
    mended(dhcp(&dhcp_message(1, options)))
}

/// The bytes that a message of 1,472, the longest that the grammar derives, has for its list.
const LIST: usize = 1_472 - OPTIONS_AT;

/// The most items that a derived list can have: a message type, pads and the end.
pub fn most_items() -> Vec<u8> {
    let pads = vec![PAD; LIST - 4];
    with_options(&[&[TYPE, 1, 1][..], &pads, &[END]].concat())
}

/// Pads alone: every byte is an item, and the list has no end, so it is outside the grammar.
pub fn nothing_but_pads() -> Vec<u8> {
    with_options(&[PAD; LIST])
}

/// Items of two bytes, an option of length 0 each.
pub fn empty_options() -> Vec<u8> {
    let options = [12, 0].repeat((LIST - 4) / 2);
    with_options(&[&[TYPE, 1, 1][..], &options, &[END]].concat())
}

/// A datagram with a checksum, which the reader sums behind a pseudo-header.
pub fn summed_datagram() -> Vec<u8> {
    summed_anew(datagram_for_outside(512))
}

/// The message ends inside its type.
pub fn cut_type() -> Vec<u8> {
    with_options(&[TYPE, 1])
}
