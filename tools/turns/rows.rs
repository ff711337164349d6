//! What comes of a call, in the words of docs/LOOPS.md under "Formulas", and the numbers that the formula there speaks of. The formulas
//! themselves stand on the page alone.

use crate::calls::{Call, Outcome, PAYLOAD_LIMIT};
use crate::frames::*;

const REPLY: u32 = 1;
const PASSED: u32 = 20;
const STORED: u32 = 21;
const COMPLETE: u32 = 22;
const RELEASED: u32 = 23;
const UNFIT: u32 = 10;
const HELD: u32 = 11;
const OVERLAP: u32 = 12;

const END_KNOWN: u32 = 2;
const DHCP_PORTS: [usize; 2] = [68, 67];
const LONGEST_MESSAGE: usize = 1_472;
const SYN: u8 = 2;

/// A row of the page by its words, and the value of each letter of its formula.
pub struct Row {
    pub title: &'static str,
    pub letters: Vec<(char, usize)>,
}

fn row(title: &'static str, letters: &[(char, usize)]) -> Row {
    Row {
        title,
        letters: letters.to_vec(),
    }
}

pub fn row_of(call: &Call, outcome: &Outcome) -> Row {
    let is_reply = outcome.number == REPLY;
    match call {
        Call::Send { frame, .. } => of_send(frame, is_reply),
        Call::Read { frame } => of_read(frame),
        Call::Take { store, frame } => of_take(store.state, frame, outcome.number),
        Call::Release { .. } if outcome.number == RELEASED => row("released", &[]),
        Call::Release { .. } => row("refused", &[]),
        Call::Checksum { data } => row("n bytes", &[('n', data.len())]),
        Call::MakeTcpFrame { flags, data, .. } if is_reply && flags & SYN != 0 => {
            row("built, with the SYN flag", &[('n', data.len())])
        }
        Call::MakeIpFrame { payload: data, .. }
        | Call::MakeUdpPayload { data, .. }
        | Call::MakeTcpFrame { data, .. }
            if is_reply =>
        {
            row("built", &[('n', data.len())])
        }
        Call::MakeIpFrame { .. } | Call::MakeUdpPayload { .. } | Call::MakeTcpFrame { .. } => {
            row("refused", &[])
        }
        Call::MakeGuest { .. } => row("made or refused", &[]),
    }
}

fn of_send(frame: &[u8], is_reply: bool) -> Row {
    let is_ipv4 = 34 <= frame.len() && frame[TYPE_AT..ETHERNET] == [8, 0];
    if !is_ipv4 && is_reply {
        return row("ARP that is answered", &[]);
    }
    if is_ipv4 && is_reply && frame[PROTOCOL_AT] == ICMP {
        let n = frame.len() - payload_at(frame);
        return row("a ping that is answered", &[('n', n)]);
    }
    let data = if is_ipv4 && frame[PROTOCOL_AT] == UDP {
        data_of(frame)
    } else {
        None
    };
    match data {
        Some((start, stop)) if ports_of(frame) == DHCP_PORTS && start + FIXED <= stop => {
            let title = if is_reply {
                "DHCP that is answered"
            } else {
                "DHCP that is not answered"
            };
            row(title, &[('m', stop - start - FIXED)])
        }
        _ => row("anything else", &[]),
    }
}

fn ports_of(frame: &[u8]) -> [usize; 2] {
    let start = payload_at(frame);
    [u16_at(frame, start), u16_at(frame, start + 2)]
}

fn of_read(frame: &[u8]) -> Row {
    let longest = ETHERNET + usize::from(u16::MAX);
    if !(34..=longest).contains(&frame.len()) || frame[TYPE_AT..ETHERNET] != [8, 0] {
        return row("anything else", &[]);
    }
    let (b, h) = (frame.len() - ETHERNET, header_of(frame));
    if frame[PROTOCOL_AT] == UDP && payload_at(frame) + 8 <= frame.len() {
        let (ports, data) = (ports_of(frame), frame.len() - payload_at(frame) - 8);
        let is_dhcp = ports == [67, 68] || ports == [68, 67];
        if is_dhcp && (FIXED..=LONGEST_MESSAGE).contains(&data) {
            return row("a DHCP message", &[('b', b), ('h', h), ('m', data - FIXED)]);
        }
    }
    row("another IPv4 frame", &[('b', b), ('h', h)])
}

fn of_take(state: [u32; 6], frame: &[u8], answer: u32) -> Row {
    if answer == UNFIT {
        let is_summed = 34 <= frame.len();
        let h = if is_summed { header_of(frame) } else { 0 };
        return row("refused with 10", &[('h', h)]);
    }
    let h = header_of(frame);
    if answer == PASSED || answer == HELD {
        return row("passed, or refused with 11", &[('h', h)]);
    }
    let n = u16_at(frame, 16) - h;
    let (f, is_last) = (u16_at(frame, 20) % 8_192, frame[20] & 0x20 == 0);
    let s = (8 * f + n).div_ceil(8);
    assert!(8 * f + n <= PAYLOAD_LIMIT);
    let w = s.div_ceil(64) - f / 64;
    let is_end_known = state[0] == END_KNOWN;
    if answer == OVERLAP {
        return row("refused with 12", &[('h', h), ('w', w)]);
    }
    if answer != STORED && answer != COMPLETE {
        return if is_end_known {
            row("refused with 13, the end known", &[('h', h), ('w', w)])
        } else {
            row(
                "refused with 13, the end not known",
                &[('h', h), ('w', w), ('s', s)],
            )
        };
    }
    let stored = [('h', h), ('n', n), ('w', w)];
    if is_last {
        return row(
            "a last fragment that is stored",
            &[&stored[..], &[('s', s)]].concat(),
        );
    }
    if is_end_known {
        let e = ((state[5] % 65_536) as usize).div_ceil(8);
        return row(
            "another that is stored, the end known",
            &[&stored[..], &[('e', e)]].concat(),
        );
    }
    row("another that is stored, the end not known", &stored)
}

fn header_of(frame: &[u8]) -> usize {
    4 * usize::from(frame[ETHERNET] & 15)
}
