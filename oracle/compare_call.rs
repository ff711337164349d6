//! One comparison: the same call of the Rust and of ours, and whether the answers are the same.

use std::sync::atomic::{AtomicPtr, Ordering};

use crate::ask_gateway::Whose;
use crate::compare_builders::Builder;
use crate::compare_ours::{self, Buffer, Lent, Told};
use crate::compare_rust::TheRust;
use crate::document_01::{self, Answer, Record};
use crate::draws::Draws;
use crate::gateway_cases::numbers;
use crate::lines::hex;
use crate::networks::HERE;

/// A call but for the record's id, which is where the Rust's counter stands.
#[derive(Clone)]
pub struct Input {
    pub mac: [u8; 6],
    pub xid: u32,
    pub room: usize,
    /// The guest's frame, or the builder's payload.
    pub bytes: Vec<u8>,
    pub builder: Option<Builder>,
}

pub struct Difference {
    pub what: String,
    pub expected: String,
    /// Whose answer is expected.
    pub whose: &'static str,
    pub ours: String,
    /// The record's id in this call.
    pub id: u16,
}

/// The call that is being made, for where our side crashes in it.
pub static NOW: AtomicPtr<Input> = AtomicPtr::new(std::ptr::null_mut());

pub struct Sides {
    pub rust: TheRust,
    buffer: Buffer,
    lent: Lent,
}

/// Longer replies are shown by their start and by where they differ.
const SHOWN: usize = 360;

impl Sides {
    pub fn new(most_room: usize, draws: &mut Draws) -> Self {
        Sides {
            rust: TheRust::new(),
            buffer: Buffer::new(most_room, draws),
            lent: Lent::new(),
        }
    }

    pub fn record(&self, input: &Input) -> Record {
        Record {
            mac: input.mac,
            id: self.rust.ids.next(),
            xid: input.xid,
            network: HERE,
        }
    }

    /// The answer that both give and whose it is, or how they differ.
    pub fn compare(&mut self, input: &Input) -> Result<(Answer, Whose), Difference> {
        NOW.store((&raw const *input).cast_mut(), Ordering::Relaxed);
        let (record, room) = (self.record(input), input.room);
        self.lent.set(&input.bytes);
        let bytes = self.lent.frame();
        let rusts = match &input.builder {
            None => self.rust.answer(record, bytes, room),
            Some(builder) => builder.expected(&mut self.rust, record, bytes, room),
        };
        let out = self.buffer.lend(room);
        let told = match &input.builder {
            None => compare_ours::handle(record, bytes, out),
            Some(builder) => builder.ours(record, bytes, out),
        };
        let whose_words = match (&rusts, &input.builder) {
            (_, Some(Builder::LongChecksum { .. })) => "document 01's rule; the Rust is not asked",
            (_, Some(Builder::Checksum { .. })) => {
                "the Rust's checksum, and document 01's rule for what `sum` and `plain` make of the start"
            }
            (Ok((_, whose)), _) => words_for(*whose),
            (Err(_), _) => "what document 01 does not know of",
        };
        let difference = |what: String, expected: String| Difference {
            what,
            expected,
            whose: whose_words,
            ours: shown_ours(&told, self.buffer.lent(room)),
            id: record.id,
        };
        let (answer, whose) = match rusts {
            Ok(answered) => answered,
            Err(deed) => return Err(difference("the Rust's deed".to_string(), deed)),
        };
        if input.builder.is_none() {
            let said = document_01::answer(record, bytes, room);
            if said != answer {
                let what = "the Rust, and document 01 read a second time".to_string();
                let both = format!("{}\n{}", shown(&answer), shown(&said));
                return Err(difference(what, both));
            }
        }
        match self.wrong(&told, &answer, room) {
            _ if bytes != input.bytes => {
                let what = "the bytes handed in were written to".to_string();
                Err(difference(what, shown(&answer)))
            }
            Some(what) => Err(difference(what, shown(&answer))),
            None => Ok((answer, whose)),
        }
    }

    fn wrong(&self, told: &Told, answer: &Answer, room: usize) -> Option<String> {
        let (number, value, len) = numbers(answer.verdict);
        if told.number != u32::from(number) {
            return Some("verdict".to_string());
        }
        if told.values != [value as u64, len as u64] {
            return Some("values".to_string());
        }
        if told.after != answer.after {
            return Some("the record after the call".to_string());
        }
        let place = self.buffer.first_wrong(room, &answer.reply)?;
        let reply_len = answer.reply.len() as isize;
        if (0..reply_len).contains(&place) {
            Some(format!("byte {place} of the reply"))
        } else {
            Some(format!(
                "byte {place} of the buffer, which was not to be touched"
            ))
        }
    }
}

fn words_for(whose: Whose) -> &'static str {
    match whose {
        Whose::TheRust => "the Rust's own answer, with document 02's ports and RFC 768's checksum",
        Whose::WherePanics => "document 01's answer, where the Rust panics",
        Whose::WhereCuts => "document 01's answer, where the Rust cuts a length",
        Whose::WhereNoRoom => "document 01's answer, where the Rust's is longer than the room",
    }
}

fn shown(answer: &Answer) -> String {
    let (number, value, len) = numbers(answer.verdict);
    words(
        number.into(),
        [value as u64, len as u64],
        answer.after,
        &answer.reply,
    )
}

fn shown_ours(told: &Told, lent: &[u8]) -> String {
    let written = if told.number == 1 {
        &lent[..lent.len().min(told.values[0] as usize)]
    } else {
        &[]
    };
    words(told.number, told.values, told.after, written)
}

fn words(number: u32, values: [u64; 2], after: Record, reply: &[u8]) -> String {
    let [value, len] = values;
    let (mac, id, xid) = (hex(&after.mac), after.id, after.xid);
    let network = match after.network {
        HERE => String::new(),
        other => format!(", on {other:?}"),
    };
    let start = &reply[..reply.len().min(SHOWN)];
    let dots = if reply.len() > SHOWN { ".." } else { "" };
    let reply = hex(start) + dots;
    format!(
        "verdict {number}, values {value} {len}; record after: mac {mac}, id {id}, xid {xid:#010x}{network}; reply: {reply}"
    )
}
