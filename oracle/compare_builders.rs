//! Calls of the builders, the option walk and the checksum, compared with the Rust's; and sums from a
//! start, with document 01's rule.

use published::SlirpBackend;

use crate::ask_gateway::Whose;
use crate::cases::{Call, aimed};
use crate::compare_ours::{self, Told};
use crate::compare_rust::{TheRust, verdict_of_panic};
use crate::dhcp_vectors::option_bytes;
use crate::document_01::{self, Answer, Record, Verdict};
use crate::draws::Draws;
use crate::guest_frames::OPTIONS_AT;
use crate::the_rust::{half_word, is_cut, text_of_panic};

pub const NAMES: [&str; 7] = [
    "make_ip_frame",
    "make_udp_payload",
    "make_tcp_frame",
    "checksum, and sum and plain from a start",
    "these past 131,074 bytes, by document 01's rule",
    "build_reply of DHCP",
    "message_type of DHCP",
];

#[derive(Clone, Debug)]
pub enum Builder {
    Made(Call),
    /// The Rust's checksum; and sums of the same bytes from a start, for which the Rust has no function.
    Checksum {
        start: u16,
    },
    /// The Rust's 32-bit sum is not certain here, so it is not asked.
    LongChecksum {
        start: u16,
    },
    /// The payload is not looked at; MAC and xid are the record's.
    DhcpReply {
        kind: u8,
    },
    /// The payload is the message.
    MessageType,
}

/// A checksum is compared as if it had been written into a buffer, and behind it what `sum` and `plain`
/// make of the start.
const CHECKSUM_AND_SUMS_LEN: usize = 6;
const DHCP_REPLY_LEN: usize = 300;
/// What `message_type` tells is compared as if it had been written: the number and the value.
const TOLD_LEN: usize = 9;
const TURNS_TO_A_LONG_CHECKSUM: usize = 200;
const LONGEST_OF_THE_RUST: usize = 131_074;

/// The bytes before the payload, and where a length is cut to 16 bits: the longest payload.
fn head_and_limit(builder: &Builder) -> (usize, usize) {
    match builder {
        Builder::Made(call) => (call.head_len(), call.limit()),
        Builder::Checksum { .. } | Builder::LongChecksum { .. } => (0, LONGEST_OF_THE_RUST),
        Builder::DhcpReply { .. } => (DHCP_REPLY_LEN, 0),
        Builder::MessageType => (0, 0),
    }
}

impl Builder {
    pub fn index(&self) -> usize {
        match self {
            Builder::Made(Call::Ip { .. }) => 0,
            Builder::Made(Call::Udp { .. }) => 1,
            Builder::Made(Call::Tcp { .. }) => 2,
            Builder::Checksum { .. } => 3,
            Builder::LongChecksum { .. } => 4,
            Builder::DhcpReply { .. } => 5,
            Builder::MessageType => 6,
        }
    }

    /// The `turn`th call: the builders and flags go round, the rest is drawn.
    pub fn drawn(draws: &mut Draws, turn: usize) -> Self {
        match turn % 10 {
            0 | 1 => Builder::Made(Call::Ip {
                dst_mac: draws.mac(),
                src_ip: draws.ip(),
                dst_ip: draws.ip(),
                proto: draws.proto(),
            }),
            2 | 3 => {
                let ports = [draws.port(), draws.port()];
                let decided_by = [
                    &turn.to_be_bytes()[..],
                    &ports.map(u16::to_be_bytes).concat(),
                ];
                let mut own = Draws::of(&decided_by.concat());
                Builder::Made(Call::Udp {
                    src: (own.ip(), ports[0]),
                    dst: (own.ip(), ports[1]),
                })
            }
            4..7 => Builder::Made(Call::Tcp {
                dst_mac: draws.mac(),
                src: (draws.ip(), draws.port()),
                dst: (draws.ip(), draws.port()),
                seq: draws.word(),
                ack: draws.word(),
                flags: (turn / 10 * 3 + turn % 10 - 4) as u8,
            }),
            7 => {
                let start = Draws::of(&turn.to_be_bytes()).start_of_a_sum();
                match turn / 10 % TURNS_TO_A_LONG_CHECKSUM {
                    0 => Builder::LongChecksum { start },
                    _ => Builder::Checksum { start },
                }
            }
            8 => Builder::DhcpReply { kind: draws.byte() },
            _ => Builder::MessageType,
        }
    }

    /// A payload: mostly short, now and then long; seldom of any length up to the limit, around a power of
    /// two or around the limit. Of the data of a datagram one in four has its checksum aimed at.
    pub fn payload(&self, draws: &mut Draws) -> Vec<u8> {
        let payload = self.any_payload(draws);
        let Builder::Made(call @ Call::Udp { src, dst }) = self else {
            return payload;
        };
        let head = payload.get(..8).unwrap_or(&payload);
        let decided_by = [&src.0[..], &dst.0, &payload.len().to_be_bytes(), head];
        let mut own = Draws::of(&decided_by.concat());
        let wanted = own.one_of(&[0, 0, 0, 0, 1, 0x00ff, 0x7fff, 0x8000, 0xff00, 0xfffe]);
        match payload.len() {
            2.. if payload.len() <= call.limit() && own.below(4) == 0 => {
                aimed(*src, *dst, payload, wanted)
            }
            _ => payload,
        }
    }

    fn any_payload(&self, draws: &mut Draws) -> Vec<u8> {
        let (_, limit) = head_and_limit(self);
        match self {
            Builder::LongChecksum { .. } => {
                let (len, any) = (limit + 1 + draws.below(170_000), draws.byte());
                return vec![draws.one_of(&[0xff, 0xff, 0xff, any]); len];
            }
            Builder::DhcpReply { .. } => return vec![],
            Builder::MessageType => return message(draws),
            _ => {}
        }
        let len = match draws.below(400) {
            0 if self.is_checksum() => limit - draws.below(4),
            0 => limit - 2 + draws.below(6),
            1 if !self.is_checksum() => limit + draws.below(4_000),
            2 => draws.below(limit + 1),
            3 => draws.one_of(&[4_096, 8_192, 16_384, 32_768]) - 3 + draws.below(7),
            4..40 => draws.below(1_600),
            _ => draws.below(80),
        };
        match draws.below(8) {
            0 => vec![0xff; len],
            1 => vec![draws.byte(); len],
            _ if len > 2_000 => crate::lines::ruled_bytes(draws.rule_seed(), len),
            _ => draws.bytes(len),
        }
    }

    pub fn is_datagram(&self) -> bool {
        matches!(self, Builder::Made(Call::Udp { .. }))
    }

    fn is_checksum(&self) -> bool {
        matches!(
            self,
            Builder::Checksum { .. } | Builder::LongChecksum { .. }
        )
    }

    /// The buffer lent: what is needed, around it, none, or ample.
    pub fn room(&self, draws: &mut Draws, payload_len: usize) -> usize {
        if self.is_checksum() {
            return CHECKSUM_AND_SUMS_LEN;
        }
        if matches!(self, Builder::MessageType) {
            return TOLD_LEN;
        }
        let needed = head_and_limit(self).0 + payload_len;
        let (shorter, more) = (draws.below(needed + 1), needed + draws.below(100));
        let one_short = needed.saturating_sub(1);
        draws.one_of(&[
            needed,
            needed,
            needed,
            needed + 1,
            more,
            one_short,
            shorter,
            0,
        ])
    }

    /// What our side has to answer. The Rust builds frames that say a length cut to 16 bits, and it
    /// knows no buffer.
    pub fn expected(
        &self,
        rust: &mut TheRust,
        record: Record,
        payload: &[u8],
        room: usize,
    ) -> Result<(Answer, Whose), String> {
        let built = match self {
            Builder::Made(call) => call.ask_the_rust(payload),
            Builder::Checksum { start } => {
                let checksum = SlirpBackend::checksum(payload).to_be_bytes();
                checksum_and_sums(checksum, *start, payload)
            }
            Builder::LongChecksum { start } => {
                checksum_and_sums(document_01::checksum(payload), *start, payload)
            }
            Builder::DhcpReply { kind } => {
                SlirpBackend::build_reply(record.xid, &record.mac, *kind)
            }
            Builder::MessageType => {
                let walked = text_of_panic(|| SlirpBackend::message_type(payload));
                return answer_of_walk(record, walked);
            }
        };
        let mut after = record;
        let says_another_length = match self {
            Builder::Made(call) if call.takes_id() => {
                rust.ids.follow(&built)?;
                after.id = rust.ids.next();
                is_cut(&built)
            }
            Builder::Made(_) => half_word(&built, 4) != built.len(),
            _ => false,
        };
        if let Builder::Made(Call::Udp { src, dst }) = self
            && !says_another_length
            && built != document_01::datagram(*src, *dst, payload)
        {
            return Err("RFC 768, read a second time, has another datagram".to_string());
        }
        let (verdict, reply, after, whose) = if says_another_length {
            let verdict = Verdict::TooLong(payload.len());
            (verdict, vec![], record, Whose::WhereCuts)
        } else if room < built.len() {
            let verdict = Verdict::NoRoom(built.len());
            (verdict, vec![], record, Whose::WhereNoRoom)
        } else {
            (Verdict::Reply(built.len()), built, after, Whose::TheRust)
        };
        let answer = Answer {
            verdict,
            reply,
            after,
        };
        Ok((answer, whose))
    }

    /// Our answer.
    pub fn ours(&self, record: Record, payload: &[u8], out: &mut [u8]) -> Told {
        match self {
            Builder::Made(call) => compare_ours::built(record, call, payload, out),
            Builder::DhcpReply { kind } => compare_ours::dhcp_reply(record, *kind, out),
            Builder::MessageType => {
                let (number, values) = compare_ours::message_type(payload);
                out[..TOLD_LEN].copy_from_slice(&told_bytes(number as u8, values[0]));
                Told {
                    number: 1,
                    values: [TOLD_LEN as u64, values[1]],
                    after: record,
                }
            }
            Builder::Checksum { start } | Builder::LongChecksum { start } => {
                let told = [
                    compare_ours::checksum(payload),
                    compare_ours::sum(*start, payload),
                    compare_ours::plain(*start, payload),
                ];
                let told = told.map(u16::to_be_bytes).concat();
                out[..CHECKSUM_AND_SUMS_LEN].copy_from_slice(&told);
                Told {
                    number: 1,
                    values: [CHECKSUM_AND_SUMS_LEN as u64, 0],
                    after: record,
                }
            }
        }
    }
}

/// What the checksum, `sum` and `plain` have to be: each of both sums is document 01's.
fn checksum_and_sums(checksum: [u8; 2], start: u16, payload: &[u8]) -> Vec<u8> {
    let sum = document_01::sum(start, payload).to_be_bytes();
    [checksum, sum, sum].concat()
}

fn told_bytes(number: u8, value: u64) -> [u8; TOLD_LEN] {
    let mut bytes = [number; TOLD_LEN];
    bytes[1..].copy_from_slice(&value.to_be_bytes());
    bytes
}

/// What `message_type` has to tell: 0 and the type, or where the Rust panics 7 and the place.
fn answer_of_walk(record: Record, walked: Result<u8, String>) -> Result<(Answer, Whose), String> {
    let (number, value, whose) = match walked {
        Ok(kind) => (0, u64::from(kind), Whose::TheRust),
        Err(text) => match verdict_of_panic(&text)? {
            Verdict::CutType(place) => (7, place as u64, Whose::WherePanics),
            _ => return Err(text),
        },
    };
    let answer = Answer {
        verdict: Verdict::Reply(TOLD_LEN),
        reply: told_bytes(number, value).to_vec(),
        after: record,
    };
    Ok((answer, whose))
}

/// A message of any length: where it is shorter than 240 bytes it has no options.
fn message(draws: &mut Draws) -> Vec<u8> {
    let (any, few) = (draws.below(300), draws.below(20));
    let mut message = draws.bytes(any);
    let near = 236 + draws.below(8);
    match draws.below(4) {
        0 => message.truncate(near),
        1 => {}
        _ => {
            message.resize(OPTIONS_AT, 53);
            message.extend(option_bytes(draws, few));
            message.extend(draws.one_of(&[&[][..], &[], &[53, 1], &[53, 1, 1]]));
        }
    }
    message
}
