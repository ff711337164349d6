//! A case of the DHCP list: a message walked, a message cut at every place or a reply built, and its
//! line.

use crate::ask_dhcp::{self, COOKIE, OPTIONS_AT, Walk};
use crate::cases::{BUILT, NO_ROOM, Room};
use crate::draws::{DHCP_SEED, Draws};
use crate::lines::{Lines, hex, ruled_bytes};

const FOUND: u8 = 0;
const CUT: u8 = 7;

/// By these byte 239 is a pad, an END, a 53 and another code, so that a walk which starts there is
/// seen.
pub const SEEDS_IN_TURN: [u8; 4] = [0x00, 0xff, 0x06, 0x01];
/// By this seed the first byte is 1, as a request's.
const REQUEST_SEED: u8 = 1;

pub struct DhcpList {
    pub draws: Draws,
    pub lines: Lines,
    turn: usize,
    answers: usize,
    panics: usize,
}

impl DhcpList {
    pub fn new() -> Self {
        DhcpList {
            draws: Draws::new(DHCP_SEED),
            lines: Lines::new(),
            turn: 0,
            answers: 0,
            panics: 0,
        }
    }

    /// Lists a group of walks, and behind it whose answers those are.
    pub fn group(&mut self, words: &str, add_cases: impl FnOnce(&mut Self)) {
        (self.answers, self.panics) = (0, 0);
        self.lines.comment(words);
        add_cases(self);
        let (answers, panics) = (self.answers, self.panics);
        self.lines.comment(&format!(
            "answers of the Rust: {answers}; it panics: {panics}"
        ));
    }

    /// The Rust's walk over a message, counted.
    fn ask(&mut self, message: &[u8]) -> Walk {
        let walk = ask_dhcp::walk(message);
        match walk {
            Walk::Type(_) => self.answers += 1,
            Walk::Cut(_) => self.panics += 1,
        }
        walk
    }

    /// Lists a walk over `ruled` bytes by rule and the written ones behind them.
    pub fn walk(&mut self, seed: u8, ruled: usize, written: &[u8]) -> Walk {
        let mut message = filled(seed, ruled);
        message.extend(written);
        let walk = self.ask(&message);
        let (verdict, value) = numbers(walk);
        let line = format!(
            "09 {verdict:02x} {value:08x} {seed:02x} {ruled:08x} {}",
            hex(written)
        );
        self.lines.add(9, Some(verdict), &line);
        walk
    }

    /// Lists a walk over these options, behind 240 bytes by one rule after the other.
    pub fn options(&mut self, options: &[u8]) -> Walk {
        let seed = SEEDS_IN_TURN[self.turn % SEEDS_IN_TURN.len()];
        self.turn += 1;
        self.walk(seed, OPTIONS_AT, options)
    }

    /// Lists a walk over these options in a request that has its first byte and its cookie.
    pub fn request(&mut self, options: &[u8]) -> Walk {
        let written = [&COOKIE, options].concat();
        self.walk(REQUEST_SEED, OPTIONS_AT - COOKIE.len(), &written)
    }

    /// Lists the message with the answer to each of its beginnings.
    pub fn cut_at_every_place(&mut self, message: &[u8]) {
        let mut line = format!("0a {:04x} {} ", message.len(), hex(message));
        for end in 0..=message.len() {
            let (verdict, value) = numbers(self.ask(&message[..end]));
            line += &format!("{verdict:02x}{value:04x}");
        }
        self.lines.add(10, None, &line);
    }

    /// Lists the type of the reply to each message type.
    pub fn reply_types(&mut self) {
        let types: Vec<u8> = (0..=255).map(ask_dhcp::reply_type).collect();
        self.lines.add(12, None, &format!("0c {}", hex(&types)));
    }

    /// Lists a reply once for each room.
    pub fn reply(&mut self, xid: u32, mac: &[u8; 6], message_type: u8, rooms: &[Room]) {
        let built = ask_dhcp::reply(xid, mac, message_type);
        for room in rooms {
            let room = room.bytes(built.len(), &mut self.draws);
            let (verdict, bytes) = if room < built.len() {
                (NO_ROOM, &[][..])
            } else {
                (BUILT, &built[..])
            };
            let line = format!(
                "0b {xid:08x} {} {message_type:02x} {room:08x} {verdict:02x} {:08x} {}",
                hex(mac),
                built.len(),
                hex(bytes)
            );
            self.lines.add(11, Some(verdict), &line);
        }
    }
}

/// The bytes by rule before those written out; here seed 0 makes zeros.
pub fn filled(seed: u8, len: usize) -> Vec<u8> {
    match seed {
        0 => vec![0; len],
        _ => ruled_bytes(seed, len),
    }
}

/// The verdict and the value of a walk's line.
fn numbers(walk: Walk) -> (u8, usize) {
    match walk {
        Walk::Type(message_type) => (FOUND, message_type as usize),
        Walk::Cut(place) => (CUT, place),
    }
}
