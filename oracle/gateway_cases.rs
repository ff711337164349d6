//! A case of the gateway's list: a call with its record, room and frame, the answer to it, and its
//! line.

use std::collections::BTreeMap;

use crate::ask_gateway::{Gateway, Whose};
use crate::cases::MOST_ROOM;
use crate::document_01::{Answer, Record, Verdict};
use crate::draws::{Draws, GUEST_MAC};
use crate::lines::{Lines, hex};
use crate::networks::{HERE, NUMBER, Network};
use crate::pieces::{laid, pieces};

const WITH_RECORD: u8 = if NUMBER == 0 { 0x0d } else { 0x0f };
const GOES_ON: u8 = 0x0e;

/// The room that `gwone` lends, and more than most replies take.
pub const USUAL_ROOM: usize = 2_048;

/// A record as a guest has it from the start.
pub const FRESH: Record = Record {
    mac: GUEST_MAC,
    id: 1,
    xid: 0,
    network: HERE,
};

pub struct GatewayList {
    pub draws: Draws,
    pub lines: Lines,
    rust: Gateway,
    /// The record that the last call left, and what was sent back.
    record: Record,
    reply: Vec<u8>,
    counts: BTreeMap<(Whose, u8), usize>,
    in_group: BTreeMap<Whose, usize>,
}

impl GatewayList {
    pub fn new(seed: u64) -> Self {
        GatewayList {
            draws: Draws::new(seed),
            lines: Lines::new(),
            rust: Gateway::new(),
            record: FRESH,
            reply: vec![],
            counts: BTreeMap::new(),
            in_group: BTreeMap::new(),
        }
    }

    /// Lists a group of calls, and behind it whose answers those are.
    pub fn group(&mut self, words: &str, add_cases: impl FnOnce(&mut Self)) {
        self.in_group.clear();
        self.lines.comment(words);
        add_cases(self);
        self.lines.comment(&of_whom(&self.in_group));
    }

    /// Any record, its id not far from where the Rust's counter stands: to bring it there takes a
    /// frame for each id.
    pub fn drawn_record(&mut self) -> Record {
        let step = self.draws.below(60) as u16;
        Record {
            mac: self.draws.mac(),
            id: self.rust.next_id().wrapping_add(step),
            xid: self.draws.word(),
            network: HERE,
        }
    }

    /// Lists a call with a drawn record and the usual room.
    pub fn frame(&mut self, frame: &[u8]) -> Verdict {
        let record = self.drawn_record();
        self.call(record, frame, USUAL_ROOM)
    }

    pub fn frame_in(&mut self, frame: &[u8], room: usize) -> Verdict {
        let record = self.drawn_record();
        self.call(record, frame, room)
    }

    /// Lists a call with each room around the bytes that the reply takes.
    pub fn rooms(&mut self, frame: &[u8]) {
        let Verdict::Reply(n) = self.frame_in(frame, MOST_ROOM) else {
            panic!("the frame gets no reply");
        };
        for room in [0, 1, n - 1, n, n + 1] {
            self.frame_in(frame, room);
        }
        let (shorter, larger) = (self.draws.below(n), self.draws.below(MOST_ROOM - n));
        self.frame_in(frame, shorter);
        self.frame_in(frame, n + larger);
        if n != USUAL_ROOM {
            self.frame(frame);
        }
    }

    /// Lists a call with its record.
    pub fn call(&mut self, record: Record, frame: &[u8], room: usize) -> Verdict {
        let (answer, whose) = self.rust.ask(record, frame, room);
        self.add(
            WITH_RECORD,
            &before_call(record),
            frame,
            room,
            &answer,
            whose,
        )
    }

    /// Lists a call that goes on with the record of the one before.
    pub fn next_call(&mut self, frame: &[u8], room: usize) -> Verdict {
        let (answer, whose) = self.rust.ask_on(self.record, frame, room);
        self.add(GOES_ON, "", frame, room, &answer, whose)
    }

    pub fn record(&self) -> Record {
        self.record
    }

    #[allow(dead_code)] // by oracle/lease-vectors alone
    pub fn reply(&self) -> &[u8] {
        &self.reply
    }

    fn add(
        &mut self,
        kind: u8,
        before: &str,
        frame: &[u8],
        room: usize,
        answer: &Answer,
        whose: Whose,
    ) -> Verdict {
        let (number, ..) = numbers(answer.verdict);
        let line = call_line(kind, before, frame, room, answer, whose);
        self.lines.add(kind, Some(number), &line);
        self.record = answer.after;
        self.reply.clone_from(&answer.reply);
        *self.counts.entry((whose, number)).or_default() += 1;
        *self.in_group.entry(whose).or_default() += 1;
        answer.verdict
    }

    /// Ends the list with its counts.
    pub fn finish(mut self) -> String {
        for ((whose, number), calls) in std::mem::take(&mut self.counts) {
            self.lines
                .comment(&format!("verdict {number:02x}, {whose:?}: {calls} calls"));
        }
        self.lines.finish()
    }
}

/// On document 01's network the line does not name it.
fn before_call(record: Record) -> String {
    let id_and_xid = format!(" {:04x}{:08x}", record.id, record.xid);
    if NUMBER == 0 {
        return id_and_xid;
    }
    let Network {
        gateway,
        guest,
        mask,
        lease,
    } = record.network;
    let network = [gateway, guest, mask, lease.to_be_bytes()].concat();
    format!(" {}{id_and_xid}", hex(&network))
}

/// The line of a call with its record.
#[allow(dead_code)] // by oracle/vectors
pub fn line_with_record(
    record: Record,
    frame: &[u8],
    room: usize,
    answer: &Answer,
    whose: Whose,
) -> String {
    let before = before_call(record);
    call_line(WITH_RECORD, &before, frame, room, answer, whose)
}

fn call_line(
    kind: u8,
    before: &str,
    frame: &[u8],
    room: usize,
    answer: &Answer,
    whose: Whose,
) -> String {
    let Answer {
        verdict,
        reply,
        after,
    } = answer;
    let (number, value, len) = numbers(*verdict);
    let frame_pieces = pieces(frame, &[]);
    let reply_pieces = pieces(reply, frame);
    assert!(laid(&frame_pieces, &[]) == *frame);
    assert!(laid(&reply_pieces, frame) == *reply);
    format!(
        "{kind:02x}{before} {}{:04x}{:08x} {:02x}{room:08x}{number:02x}{value:08x}{len:04x} {:04x}{} {}",
        hex(&after.mac),
        after.id,
        after.xid,
        whose as u8,
        frame_pieces.len(),
        hex(&frame_pieces),
        hex(&reply_pieces),
    )
}

fn of_whom(counts: &BTreeMap<Whose, usize>) -> String {
    let count = |whose| counts.get(&whose).copied().unwrap_or(0);
    format!(
        "answers of the Rust: {}; it panics: {}; cuts: {}; has no buffer: {}",
        count(Whose::TheRust),
        count(Whose::WherePanics),
        count(Whose::WhereCuts),
        count(Whose::WhereNoRoom),
    )
}

/// The verdict's number, its value, and the length of data where it has one.
pub fn numbers(verdict: Verdict) -> (u8, usize, usize) {
    match verdict {
        Verdict::Drop => (0, 0, 0),
        Verdict::Reply(n) => (1, n, 0),
        Verdict::Dns { start, len } => (2, start, len),
        Verdict::Relay { start, len } => (3, start, len),
        Verdict::Tcp(len) => (4, len, 0),
        Verdict::NoRoom(needed) => (5, needed, 0),
        Verdict::TooLong(len) => (6, len, 0),
        Verdict::CutType(place) => (7, place, 0),
    }
}
