//! One call of each function, with what demand 1 says of it checked: what a call that answers so may have changed.

use std::sync::atomic::{AtomicPtr, Ordering};

use crate::cases::Call;
use crate::document_01;
use crate::grammar_01;
use crate::lending::{Lender, Slot};
use crate::library::*;
use crate::making_02;

/// The call that is being made, for where it faults.
pub static NOW: AtomicPtr<Now> = AtomicPtr::new(std::ptr::null_mut());

pub struct Now {
    pub function: &'static str,
    pub bytes: *const [u8],
    pub room: usize,
}

fn now<T>(function: &'static str, bytes: &[u8], room: usize, call: impl FnOnce() -> T) -> T {
    let mut now = Now {
        function,
        bytes,
        room,
    };
    NOW.store(&mut now, Ordering::Relaxed);
    let told = call();
    NOW.store(std::ptr::null_mut(), Ordering::Relaxed);
    told
}

/// What a call answers: all that may differ from one answer to another.
#[derive(Clone, Debug, PartialEq)]
pub struct Answer {
    pub number: u32,
    pub values: Values,
    /// The first bytes of the reply, where there is one.
    pub reply: Vec<u8>,
    pub after: Guest,
}

const IPV4: [u8; 2] = [0x08, 0x00];
const ARP: [u8; 2] = [0x08, 0x06];
const UDP: u8 = 17;

fn bytes_of<T>(value: &T) -> &[u8] {
    unsafe { std::slice::from_raw_parts((&raw const *value).cast(), size_of::<T>()) }
}

/// What the call left behind a pointer. Under valgrind nothing is looked at before it is known to be written.
unsafe fn told_at<T: Copy>(lender: &impl Lender, slot: Slot, at: *const T) -> Result<T, String> {
    match lender.wrongly_written(slot, size_of::<T>()) {
        Some(wrong) => Err(wrong),
        None => Ok(unsafe { *at }),
    }
}

/// The reply's first `n` bytes, and that no other byte was written.
unsafe fn written(lender: &impl Lender, at: *const u8, n: usize) -> Result<Vec<u8>, String> {
    match lender.wrongly_written(Slot::Reply, n) {
        Some(wrong) => Err(wrong),
        None => Ok(unsafe { std::slice::from_raw_parts(at, n) }.to_vec()),
    }
}

fn asserted(holds: bool, words: &str) -> Result<(), String> {
    if holds {
        Ok(())
    } else {
        Err(words.to_string())
    }
}

pub fn send(
    lender: &mut impl Lender,
    library: &Library,
    before: Guest,
    frame: &[u8],
    room: usize,
) -> Result<Answer, String> {
    let guest: *mut Guest = lender.to_change(Slot::Record, bytes_of(&before)).cast();
    let seen = lender.to_read(Slot::Frame, frame);
    let reply = lender.to_write(Slot::Reply, room);
    let values: *mut Values = lender.to_write(Slot::Values, size_of::<Values>()).cast();
    let number = now("yavoledu_send", frame, room, || unsafe {
        (library.send)(guest, seen, frame.len(), reply, room, values)
    });
    let values = unsafe { told_at(lender, Slot::Values, values)? };
    let after = unsafe { *guest };
    let n = if number == REPLY { values[0] } else { 0 };
    asserted(n <= room, "a reply of more bytes than there is room")?;
    let reply = unsafe { written(lender, reply, n)? };
    asserted(lender.is_kept(Slot::Frame, frame), "the frame was written")?;
    lender.take_back();
    let answer = Answer {
        number,
        values,
        reply,
        after,
    };
    keeps_to_demand_1(&answer, before, frame.len(), room)?;
    asserted(
        number != REPLY || is_of_network(&answer.reply, &before.network),
        "an address of the reply is not the record's",
    )?;
    Ok(answer)
}

/// Whether the addresses of a reply, the mask and the lease time are those of this network.
fn is_of_network(reply: &[u8], network: &Network) -> bool {
    let Network {
        gateway,
        guest,
        mask,
        lease,
    } = *network;
    let holds = |place: usize, value: [u8; 4]| reply.get(place..place + 4) == Some(&value);
    if reply.get(12..14) == Some(&ARP) {
        return holds(28, gateway);
    }
    if reply.get(23) != Some(&UDP) {
        return holds(26, gateway);
    }
    let [address, ones] = [guest, mask].map(u32::from_be_bytes);
    let broadcast = (address | !ones).to_be_bytes();
    // Behind the headers, 42 bytes, lies the message.
    let in_message = [
        (16, guest),
        (20, gateway),
        (245, gateway),
        (251, lease.to_be_bytes()),
        (257, mask),
        (263, gateway),
        (269, gateway),
    ];
    holds(26, gateway)
        && holds(30, broadcast)
        && in_message
            .iter()
            .all(|(place, value)| holds(42 + place, *value))
}

/// What a record is to be made of.
#[derive(Clone, Copy, Debug, PartialEq)]
pub struct Plan {
    pub mac: [u8; 6],
    pub gateway: [u8; 4],
    pub guest: [u8; 4],
    pub mask: [u8; 4],
    pub lease_named: u32,
    pub lease: u32,
}

impl Plan {
    /// The record that document 02 has made of it, if any.
    fn record(&self) -> Option<Guest> {
        let network = making_02::made(making_02::Asked {
            gateway: self.gateway,
            guest: self.guest,
            mask: self.mask,
            lease: (self.lease_named != 0).then_some(self.lease),
        })?;
        Some(Guest {
            mac: self.mac,
            id: 1,
            xid: 0,
            network: Network::of_oracle(network),
        })
    }
}

/// A record made over what stands there: the answer's number.
pub fn make_guest(
    lender: &mut impl Lender,
    library: &Library,
    before: Guest,
    plan: &Plan,
) -> Result<u32, String> {
    let guest: *mut Guest = lender.to_change(Slot::Record, bytes_of(&before)).cast();
    let read = [
        (Slot::Mac, &plan.mac[..]),
        (Slot::Source, &plan.gateway),
        (Slot::Target, &plan.guest),
        (Slot::Mask, &plan.mask),
    ];
    let [mac, gateway, guest_ip, mask] = read.map(|(slot, bytes)| lender.to_read(slot, bytes));
    let number = now("yavoledu_make_guest", &[], 0, || unsafe {
        let make = library.make_guest;
        make(
            guest,
            mac,
            gateway,
            guest_ip,
            mask,
            plan.lease_named,
            plan.lease,
        )
    });
    let after = unsafe { *guest };
    let kept = read
        .iter()
        .all(|(slot, bytes)| lender.is_kept(*slot, bytes));
    asserted(kept, "an address or the mask was written")?;
    lender.take_back();
    let expected = match plan.record() {
        Some(made) => (MADE, made),
        None => (BAD_RECORD, before),
    };
    asserted(
        (number, after) == expected,
        "another answer or record than document 02's",
    )?;
    Ok(number)
}

/// What the answer's number says of its values and of the record.
fn keeps_to_demand_1(
    answer: &Answer,
    before: Guest,
    frame_len: usize,
    room: usize,
) -> Result<(), String> {
    let (after, [first, second]) = (answer.after, answer.values);
    let spent = Guest {
        id: before.id.wrapping_add(1),
        ..before
    };
    let with_xid = |guest: Guest| Guest {
        xid: after.xid,
        ..guest
    };
    let (values_hold, record_holds) = match answer.number {
        DROP => ([first, second] == [0, 0], after == with_xid(before)),
        REPLY => {
            let reply = &answer.reply;
            let kind = reply.get(12..14).unwrap_or(&[]);
            let record = if kind == ARP {
                before
            } else if kind == IPV4 && reply.get(23) == Some(&UDP) {
                with_xid(spent)
            } else {
                spent
            };
            (second == 0, after == record)
        }
        DNS | RELAY => {
            let inside = first <= frame_len && second <= frame_len - first;
            (inside, after == before)
        }
        TCP => ([first, second] == [frame_len, 0], after == before),
        NO_ROOM => (first > room && second == 0, after == before),
        TOO_LONG => {
            let too_long = 65_515 < first && first <= frame_len && second == 0;
            (too_long, after == before)
        }
        CUT_TYPE => {
            let cut = 240 <= first && first + 2 <= frame_len && second == 0;
            (cut, after == before)
        }
        _ => return Err(format!("the answer is {}", answer.number)),
    };
    asserted(values_hold, "the values are none that its number has")?;
    asserted(record_holds, "the record has changed in what it keeps")
}

/// A builder's call; the record's id is the one it takes, if it takes one.
pub fn make(
    lender: &mut impl Lender,
    library: &Library,
    before: Guest,
    call: &Call,
    payload: &[u8],
    room: usize,
) -> Result<Answer, String> {
    let id: *mut u16 = lender.to_change(Slot::Record, bytes_of(&before.id)).cast();
    let bytes = lender.to_read(Slot::Frame, payload);
    let out = lender.to_write(Slot::Reply, room);
    let values: *mut Values = lender.to_write(Slot::Values, size_of::<Values>()).cast();
    let len = payload.len();
    let number = match call {
        Call::Ip {
            dst_mac,
            src_ip,
            dst_ip,
            proto,
        } => {
            let mac = lender.to_read(Slot::Mac, dst_mac);
            let source = lender.to_read(Slot::Source, src_ip);
            let target = lender.to_read(Slot::Target, dst_ip);
            now("yavoledu_make_ip_frame", payload, room, || unsafe {
                let make = library.make_ip_frame;
                make(
                    id, mac, source, target, *proto, bytes, len, out, room, values,
                )
            })
        }
        Call::Udp { src, dst } => {
            let source = lender.to_read(Slot::Source, &src.0);
            let target = lender.to_read(Slot::Target, &dst.0);
            now("yavoledu_make_udp_payload", payload, room, || unsafe {
                let make = library.make_udp_payload;
                make(source, src.1, target, dst.1, bytes, len, out, room, values)
            })
        }
        Call::Tcp {
            dst_mac,
            src,
            dst,
            seq,
            ack,
            flags,
        } => {
            let mac = lender.to_read(Slot::Mac, dst_mac);
            let source = lender.to_read(Slot::Source, &src.0);
            let target = lender.to_read(Slot::Target, &dst.0);
            now("yavoledu_make_tcp_frame", payload, room, || unsafe {
                let make = library.make_tcp_frame;
                let (from, to) = (src.1, dst.1);
                make(
                    id, mac, source, from, target, to, *seq, *ack, *flags, bytes, len, out, room,
                    values,
                )
            })
        }
    };
    let values = unsafe { told_at(lender, Slot::Values, values)? };
    let after = Guest {
        id: unsafe { *id },
        ..before
    };
    let n = if number == REPLY { values[0] } else { 0 };
    asserted(n <= room, "more bytes built than there is room")?;
    let reply = unsafe { written(lender, out, n)? };
    asserted(
        lender.is_kept(Slot::Frame, payload),
        "the payload was written",
    )?;
    lender.take_back();
    let needed = call.head_len() + len;
    let expected = if len > call.limit() {
        (TOO_LONG, [len, 0])
    } else if room < needed {
        (NO_ROOM, [needed, 0])
    } else {
        (REPLY, [needed, 0])
    };
    asserted(
        (number, values) == expected,
        "another answer than 1, 5 or 6 has to be",
    )?;
    if let (Call::Udp { src, dst }, REPLY) = (call, number) {
        asserted(
            reply == document_01::datagram(*src, *dst, payload),
            "another datagram than RFC 768's",
        )?;
    }
    let spends = number == REPLY && call.takes_id();
    let id = before.id.wrapping_add(u16::from(spends));
    asserted(
        after.id == id,
        "the id is not the next one, or was not kept",
    )?;
    Ok(Answer {
        number,
        values,
        reply,
        after,
    })
}

pub fn checksum(lender: &mut impl Lender, library: &Library, data: &[u8]) -> Result<u16, String> {
    let seen = lender.to_read(Slot::Frame, data);
    let sum = now("yavoledu_checksum", data, 0, || unsafe {
        (library.checksum)(seen, data.len())
    });
    asserted(lender.is_kept(Slot::Frame, data), "the data was written")?;
    lender.take_back();
    Ok(sum)
}

/// The kind, and the parts where the frame has one.
pub fn read(
    lender: &mut impl Lender,
    library: &Library,
    frame: &[u8],
) -> Result<(u32, Parts), String> {
    let seen = lender.to_read(Slot::Frame, frame);
    let parts: *mut Parts = lender.to_write(Slot::Parts, size_of::<Parts>()).cast();
    let kind = now("yavoledu_read", frame, 0, || unsafe {
        (library.read)(seen, frame.len(), parts)
    });
    let parts = match kind {
        1..=6 => unsafe { told_at(lender, Slot::Parts, parts)? },
        OUTSIDE => match lender.wrongly_written(Slot::Parts, 0) {
            Some(wrong) => return Err(wrong),
            None => [0; 13],
        },
        _ => return Err(format!("the kind is {kind}")),
    };
    asserted(lender.is_kept(Slot::Frame, frame), "the frame was written")?;
    lender.take_back();
    let layers = parts[..12].chunks(3);
    let inside = |layer: &[usize]| layer.is_sorted() && layer[2] <= frame.len();
    asserted(
        layers.into_iter().all(inside),
        "a part that is not in the frame",
    )?;
    Ok((kind, parts))
}

/// What the reader has to answer by document 01's grammar, read a second time: the kind, and the parts where there is one.
pub fn said_by_the_grammar(frame: &[u8]) -> (u32, Parts) {
    let mut parts = [0; 13];
    let Some(reading) = grammar_01::read(frame) else {
        return (OUTSIDE, parts);
    };
    let places = reading.layers.iter().flatten();
    for (part, place) in parts.iter_mut().zip(places) {
        *part = *place;
    }
    parts[12] = usize::from(reading.message_type.unwrap_or(0));
    (reading.kind as u32, parts)
}
