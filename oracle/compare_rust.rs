//! The Rust's side of the comparison: what it does with one frame, and what that says of our answer. Of
//! what it sends back, `amended.rs` says what it has to be with us.

use published::handed::{self, To};
use published::{NetworkBackend, SlirpBackend};

use crate::amended::pushed;
use crate::ask_gateway::Whose;
use crate::document_01::{Answer, Record, Verdict};
use crate::guest_frames::{DATA_AT, PAYLOAD_AT, xid_bringer};
use crate::the_rust::{IdCounter, index_past_the_end, is_cut, is_ipv4, text_of_panic};

enum Deed {
    Nothing,
    Sent(Vec<u8>),
    /// What it handed on, and where that lies in the frame.
    Handed(To, usize, usize),
    Panicked(String),
}

/// A gateway of the Rust's.
pub struct TheRust {
    backend: SlirpBackend,
    mac: [u8; 6],
    pub ids: IdCounter,
    calls: usize,
    bringer: Vec<u8>,
}

/// The Rust keeps a socket for each datagram's ports and target, so a gateway is not used forever.
const MOST_CALLS: usize = 500;

impl TheRust {
    pub fn new() -> Self {
        TheRust {
            backend: SlirpBackend::new([0; 6]),
            mac: [0; 6],
            ids: IdCounter::new(),
            calls: 0,
            bringer: xid_bringer(0),
        }
    }

    fn stand_at(&mut self, mac: [u8; 6], xid: u32) {
        self.calls += 1;
        if self.mac != mac || self.calls > MOST_CALLS {
            self.backend = SlirpBackend::new(mac);
            (self.mac, self.calls) = (mac, 0);
        }
        if self.backend.dhcp_xid() != xid {
            self.bringer[DATA_AT + 4..DATA_AT + 8].copy_from_slice(&xid.to_be_bytes());
            self.backend.send(&self.bringer);
        }
        assert_eq!(self.backend.dhcp_xid(), xid);
    }

    /// What our side has to answer to this call, and whose answer that is. The record's id is the
    /// counter's. An error is a deed that document 01 does not know of.
    pub fn answer(
        &mut self,
        record: Record,
        frame: &[u8],
        room: usize,
    ) -> Result<(Answer, Whose), String> {
        self.stand_at(record.mac, record.xid);
        let unchanged = |verdict, whose| {
            let reply = vec![];
            let after = record;
            let answer = Answer {
                verdict,
                reply,
                after,
            };
            Ok((answer, whose))
        };
        let deed = self.deed(frame)?;
        let after = Record {
            id: self.ids.next(),
            xid: self.backend.dhcp_xid(),
            ..record
        };
        let (verdict, reply) = match deed {
            Deed::Panicked(text) => {
                let verdict = verdict_of_panic(&text)?;
                return unchanged(verdict, Whose::WherePanics);
            }
            Deed::Sent(sent) if is_cut(&sent) => {
                let verdict = Verdict::TooLong(sent.len() - PAYLOAD_AT);
                return unchanged(verdict, Whose::WhereCuts);
            }
            Deed::Sent(sent) if room < sent.len() => {
                return unchanged(Verdict::NoRoom(sent.len()), Whose::WhereNoRoom);
            }
            Deed::Sent(sent) => (Verdict::Reply(sent.len()), sent),
            Deed::Nothing => (Verdict::Drop, vec![]),
            Deed::Handed(To::Dns, start, len) => (Verdict::Dns { start, len }, vec![]),
            Deed::Handed(To::Relay, start, len) => (Verdict::Relay { start, len }, vec![]),
            Deed::Handed(To::Tcp, 0, len) => (Verdict::Tcp(len), vec![]),
            Deed::Handed(To::Tcp, ..) => return Err("TCP is not handed the frame".to_string()),
        };
        let answer = Answer {
            verdict,
            reply,
            after,
        };
        Ok((answer, Whose::TheRust))
    }

    fn deed(&mut self, frame: &[u8]) -> Result<Deed, String> {
        let backend = &mut self.backend;
        let sent = text_of_panic(|| backend.send(frame));
        let handed = handed::take();
        // Our verdict does not say who asked.
        handed::take_askers();
        let received = pushed(&mut self.backend);
        if self.backend.recv().is_some() {
            return Err("the Rust sent two frames".to_string());
        }
        match (sent, &handed[..], received) {
            (Ok(()), [], None) => Ok(Deed::Nothing),
            (Ok(()), [], Some(reply)) => {
                if is_ipv4(&reply) {
                    self.ids.follow(&reply)?;
                }
                Ok(Deed::Sent(reply))
            }
            (Ok(()), [(to, place, len)], None) => {
                let start = place.wrapping_sub(frame.as_ptr() as usize);
                if start > frame.len() || *len > frame.len() - start {
                    return Err("the Rust handed on what is not in the frame".to_string());
                }
                Ok(Deed::Handed(*to, start, *len))
            }
            (Err(text), [], None) => Ok(Deed::Panicked(text)),
            _ => Err("the Rust did more than one thing".to_string()),
        }
    }
}

/// Document 01 knows two panics: a payload that starts past the frame is a drop, and a 53 whose value
/// is not there is 7, its place two bytes before the index.
pub fn verdict_of_panic(text: &str) -> Result<Verdict, String> {
    if text.starts_with("range start index ") && text.contains(" out of range for slice of length ")
    {
        return Ok(Verdict::Drop);
    }
    match index_past_the_end(text) {
        Some((len, index)) if index == len => Ok(Verdict::CutType(index - 2)),
        _ => Err(format!("the Rust panics: {text}")),
    }
}
