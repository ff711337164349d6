//! The Rust's gateway, asked: what it does with one frame, and whose answer a line about it holds. What it
//! sends back is read as it has to be with us (`amended.rs`).

use published::handed::{self, To};
use published::{NetworkBackend, SlirpBackend};

use crate::amended::pushed;
use crate::ask_dhcp::place_of_cut;
use crate::document_01::{self, Answer, Record, Verdict};
use crate::guest_frames::{BODY_AT, DATA_AT, PAYLOAD_AT, TOTAL_LENGTH_AT, xid_bringer};
use crate::networks::HERE;
use crate::the_rust::{IdCounter, half_word, is_ipv4, text_of_panic};

/// Whose answer a line holds.
#[derive(Clone, Copy, Debug, PartialEq, Eq, PartialOrd, Ord)]
pub enum Whose {
    /// The Rust's own, as `amended.rs` reads it, and document 01's too.
    TheRust = 0,
    /// Document 01's, and the Rust panics.
    WherePanics = 1,
    /// Document 01's, and the Rust cuts a length to 16 bits.
    WhereCuts = 2,
    /// Document 01's, since the Rust knows no buffer and the room is less than what it built.
    WhereNoRoom = 3,
}

/// What the Rust did with a frame.
#[derive(Debug)]
enum Deed {
    Nothing,
    Sent(Vec<u8>),
    /// What it handed on, and where that lies in the frame.
    Handed(To, usize, usize),
    Panicked(String),
}

/// A gateway of the Rust's.
pub struct Gateway {
    backend: SlirpBackend,
    ids: IdCounter,
}

impl Gateway {
    pub fn new() -> Self {
        Gateway {
            backend: SlirpBackend::new([0; 6]),
            ids: IdCounter::new(),
        }
    }

    pub fn next_id(&self) -> u16 {
        self.ids.next()
    }

    /// A new gateway with this record, whose network is the one that the Rust was compiled for.
    fn start_with(&mut self, record: Record) {
        assert_eq!(record.network, HERE);
        self.backend = SlirpBackend::new(record.mac);
        self.bring_to(record);
    }

    /// Brings xid and id to the record's, where they are not that already.
    fn bring_to(&mut self, record: Record) {
        if self.backend.dhcp_xid() != record.xid {
            self.backend.send(&xid_bringer(record.xid));
        }
        self.ids.bring_to(record.id);
        assert_eq!(self.backend.dhcp_xid(), record.xid);
        assert_eq!(self.backend.recv(), None);
    }

    /// The answer to a call with this record, by a gateway that has served nothing before. Behind it
    /// the counter is looked at.
    pub fn ask(&mut self, record: Record, frame: &[u8], room: usize) -> (Answer, Whose) {
        self.start_with(record);
        let answer = self.answer(record, frame, room);
        assert!(self.ids.is_followed());
        answer
    }

    /// The answer of the gateway that answered last. Where that was document 01's answer and not the
    /// Rust's, the Rust is first brought to the record that document 01 says.
    pub fn ask_on(&mut self, record: Record, frame: &[u8], room: usize) -> (Answer, Whose) {
        self.bring_to(record);
        self.answer(record, frame, room)
    }

    fn answer(&mut self, record: Record, frame: &[u8], room: usize) -> (Answer, Whose) {
        let said = document_01::answer(record, frame, room);
        let deed = self.deed(frame);
        let whose = match &deed {
            Deed::Panicked(text) => {
                check_panic(text, frame, said.verdict);
                Whose::WherePanics
            }
            Deed::Sent(sent) if sent.len() - PAYLOAD_AT > 65_515 => {
                check_cut(sent, said.verdict);
                Whose::WhereCuts
            }
            Deed::Sent(sent) if room < sent.len() => {
                assert_eq!(said.verdict, Verdict::NoRoom(sent.len()));
                Whose::WhereNoRoom
            }
            _ => Whose::TheRust,
        };
        let after = Record {
            id: self.ids.next(),
            xid: self.backend.dhcp_xid(),
            ..record
        };
        match whose {
            Whose::TheRust => assert_eq!(said, answer_of(deed, after)),
            Whose::WhereNoRoom => {
                let with_room = document_01::answer(record, frame, usize::MAX);
                assert_eq!(with_room, answer_of(deed, after));
            }
            Whose::WherePanics | Whose::WhereCuts => {}
        }
        if whose != Whose::TheRust {
            assert!(said.after == record && said.reply.is_empty());
        }
        (said, whose)
    }

    /// Sends the frame. Each IPv4 frame that comes back took the next id.
    fn deed(&mut self, frame: &[u8]) -> Deed {
        assert_eq!(handed::take(), []);
        let sent = text_of_panic(|| self.backend.send(frame));
        let handed = handed::take();
        let received = pushed(&mut self.backend);
        assert_eq!(self.backend.recv(), None);
        match (sent, &handed[..], received) {
            (Ok(()), [], None) => Deed::Nothing,
            (Ok(()), [], Some(reply)) => {
                if is_ipv4(&reply) {
                    self.ids.follow(&reply).unwrap();
                }
                Deed::Sent(reply)
            }
            (Ok(()), [(to, place, len)], None) => {
                let start = place - frame.as_ptr() as usize;
                assert!(start + len <= frame.len());
                Deed::Handed(*to, start, *len)
            }
            (Err(text), [], None) => Deed::Panicked(text),
            deeds => panic!("more than one deed: {deeds:?}"),
        }
    }
}

fn answer_of(deed: Deed, after: Record) -> Answer {
    let (verdict, reply) = match deed {
        Deed::Nothing => (Verdict::Drop, vec![]),
        Deed::Sent(reply) => (Verdict::Reply(reply.len()), reply),
        Deed::Handed(To::Dns, start, len) => (Verdict::Dns { start, len }, vec![]),
        Deed::Handed(To::Relay, start, len) => (Verdict::Relay { start, len }, vec![]),
        Deed::Handed(To::Tcp, start, len) => {
            assert_eq!(start, 0);
            (Verdict::Tcp(len), vec![])
        }
        Deed::Panicked(text) => panic!("{text}"),
    };
    Answer {
        verdict,
        reply,
        after,
    }
}

/// The panic is that of a payload past the frame, or of a 53 whose value is not there.
fn check_panic(text: &str, frame: &[u8], verdict: Verdict) {
    let payload_at = BODY_AT + 4 * (frame[BODY_AT] % 16) as usize;
    match verdict {
        Verdict::Drop => {
            let len = frame.len();
            let past =
                format!("range start index {payload_at} out of range for slice of length {len}");
            assert_eq!(text, past);
        }
        Verdict::CutType(place) => {
            let data_at = payload_at + DATA_AT - PAYLOAD_AT;
            let length = u16::from_be_bytes([frame[data_at - 4], frame[data_at - 3]]) as usize;
            let data_end = frame.len().min(data_at - 8 + length);
            assert_eq!(place_of_cut(text, &frame[data_at..data_end]), place);
        }
        _ => panic!("{text}, and document 01 says {verdict:?}"),
    }
}

/// What the Rust sent says a total length that is not its own.
fn check_cut(sent: &[u8], verdict: Verdict) {
    let payload_len = sent.len() - PAYLOAD_AT;
    assert_eq!(
        half_word(sent, TOTAL_LENGTH_AT),
        (20 + payload_len) % 65_536
    );
    assert_eq!(verdict, Verdict::TooLong(payload_len));
}
