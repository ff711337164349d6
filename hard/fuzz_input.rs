//! What a fuzzer's bytes stand for: a guest, and calls that are made for it in a row. Any bytes are some calls.

use crate::calls::Plan;
use crate::captured::captured;
use crate::cases::{Call, MOST_ROOM, aimed};
use crate::compare_builders::Builder;
use crate::dhcp_vectors::option_bytes;
use crate::document_01::Record;
use crate::draws::{Draws, GATEWAY_IP, GUEST_IP, GUEST_MAC};
use crate::gateway_cases::USUAL_ROOM;
use crate::gateway_sequences::messages;
use crate::guest_frames::*;
use crate::lines::ruled_bytes;
use crate::mended::{dhcp_frame, with_lengths};
use crate::networks::{HERE, Network};

/// Calls behind these are not made.
const MOST_CALLS: usize = 8;
/// A frame or payload is no longer than this, what is summed no longer than that.
const LONGEST: usize = 70_000;
const LONGEST_SUMMED: usize = 300_000;
/// The most that a datagram holds.
const LONGEST_DATA: usize = 65_527;
/// The longest frame of a DHCP message in the grammar; the most that a segment with options, one without, a packet and a
/// datagram hold; the longest length field, the longest frame built, and the longest data that the Rust's sum is certain of.
const LIMITS: [usize; 8] = [
    1_514,
    65_487,
    65_495,
    65_515,
    LONGEST_DATA,
    65_535,
    65_549,
    131_074,
];

/// What the guest's record starts with but for its id: MAC, xid, a byte that is odd where its network is not the Rust's, and
/// that network.
const GUEST: usize = 27;
/// A builder's fields, all of them for each, or what a record is to be made of.
const FIELDS: usize = 28;

/// A call as it is written: how it is made, the fields of one that gets no frame, two bytes of length and the frame or
/// payload, and behind these what makes it long.
#[derive(Clone, Default)]
struct Item {
    how: u8,
    fields: Option<[u8; FIELDS]>,
    bytes: Vec<u8>,
    long: Option<[u8; 4]>,
}

// What `how` says.
const ROOM_BITS: u8 = 0x07;
const LENGTHS_MADE_RIGHT: u8 = 0x08;
const LONG: u8 = 0x10;
/// It has fields from this number on: a builder's call, or one that makes a record.
const WITH_FIELDS: u8 = 0xc0;

pub struct Input {
    guest: [u8; GUEST],
    items: Vec<Item>,
}

pub enum Asked {
    Frame(Vec<u8>),
    Built(Builder, Vec<u8>),
    Record(Plan),
}

/// The next bytes; those that are not there are 0.
fn array<const N: usize>(rest: &mut &[u8]) -> [u8; N] {
    let (part, behind) = rest.split_at(N.min(rest.len()));
    *rest = behind;
    let mut array = [0; N];
    array[..part.len()].copy_from_slice(part);
    array
}

impl Item {
    fn written(rest: &mut &[u8]) -> Self {
        let [how] = array(rest);
        let fields = (how >= WITH_FIELDS).then(|| array(rest));
        let len = usize::from(u16::from_be_bytes(array(rest)));
        let (bytes, behind) = rest.split_at(len.min(rest.len()));
        *rest = behind;
        Item {
            how,
            fields,
            bytes: bytes.to_vec(),
            long: (how & LONG != 0).then(|| array(rest)),
        }
    }

    fn write(&self, to: &mut Vec<u8>) {
        to.push(self.how);
        to.extend(self.fields.iter().flatten());
        to.extend((self.bytes.len() as u16).to_be_bytes());
        to.extend(&self.bytes);
        to.extend(self.long.iter().flatten());
    }

    /// The call and its room.
    fn asked(&self) -> (Asked, usize) {
        if let Some(plan) = self.fields.as_ref().and_then(plan) {
            return (Asked::Record(plan), 0);
        }
        let (mut bytes, builder) = (self.bytes.clone(), self.fields.as_ref().map(builder));
        if let Some(long) = self.long {
            // So that a short input can be a long frame: bytes by rule behind it, or zeros.
            let more = length(long)
                .min(longest(&builder))
                .saturating_sub(bytes.len());
            bytes.extend(match long[3] {
                seed if seed % 4 == 0 => vec![0; more],
                seed => ruled_bytes(seed, more),
            });
        }
        if self.how & LENGTHS_MADE_RIGHT != 0 && builder.is_none() {
            bytes = with_lengths(bytes);
        }
        if let (Some(Builder::Made(Call::Udp { src, dst })), Some(fields)) =
            (&builder, &self.fields)
            && fields[1] % 2 == 1
            && (2..=LONGEST_DATA).contains(&bytes.len())
        {
            // A checksum that is computed as 0, which chance would take long to.
            bytes = aimed(*src, *dst, bytes, 0);
        }
        let room = match self.how & ROOM_BITS {
            0 => USUAL_ROOM,
            1 => 0,
            2 => 41,
            3 => 42,
            4 => 341,
            5 => 342,
            6 => bytes.len(),
            _ => MOST_ROOM,
        };
        let asked = match builder {
            Some(builder) => Asked::Built(builder, bytes),
            None => Asked::Frame(bytes),
        };
        (asked, room)
    }
}

/// Three bytes of length, or one that names a limit and one that says how far from it, by at most 4.
fn length([high, middle, low, _]: [u8; 4]) -> usize {
    match high {
        0..8 => u32::from_be_bytes([0, high, middle, low]) as usize,
        _ => LIMITS[usize::from(high) % LIMITS.len()] + usize::from(low % 8) - 4,
    }
}

fn longest(builder: &Option<Builder>) -> usize {
    match builder {
        Some(Builder::Checksum { .. }) => LONGEST_SUMMED,
        _ => LONGEST,
    }
}

/// What a record is to be made of, where the first of the fields says so.
fn plan(fields: &[u8; FIELDS]) -> Option<Plan> {
    let rest = &mut &fields[..];
    let [which, lease_named] = array(rest);
    let plan = Plan {
        mac: array(rest),
        gateway: array(rest),
        guest: array(rest),
        mask: array(rest),
        lease_named: lease_named.into(),
        lease: u32::from_be_bytes(array(rest)),
    };
    (which % 5 == 4).then_some(plan)
}

/// The fields of a record to be made, changed so that chance would take long to: one address is the other, or at an edge of
/// its network, or the mask is a prefix's.
fn at_an_edge(mut fields: [u8; FIELDS], draws: &mut Draws) -> [u8; FIELDS] {
    let number = |at: usize| u32::from_be_bytes(array(&mut &fields[at..]));
    let (gateway_at, guest_at, mask_at) = (8, 12, 16);
    let (gateway, guest, mask) = (number(gateway_at), number(guest_at), number(mask_at));
    let prefix = (u64::MAX << draws.below(33)) as u32;
    let (at, changed) = draws.one_of(&[
        (guest_at, gateway),
        (guest_at, guest & mask),
        (guest_at, guest | !mask),
        (gateway_at, gateway & mask),
        (gateway_at, gateway | !mask),
        (mask_at, prefix),
    ]);
    fields[at..at + 4].copy_from_slice(&changed.to_be_bytes());
    fields
}

fn builder(fields: &[u8; FIELDS]) -> Builder {
    let rest = &mut &fields[..];
    let [which, proto_or_flags] = array(rest);
    let (dst_mac, src_ip, dst_ip) = (array(rest), array(rest), array(rest));
    let [src_port, dst_port] = [array(rest), array(rest)].map(u16::from_be_bytes);
    let [seq, ack] = [array(rest), array(rest)].map(u32::from_be_bytes);
    match which % 5 {
        0 => Builder::Made(Call::Ip {
            dst_mac,
            src_ip,
            dst_ip,
            proto: proto_or_flags,
        }),
        1 => Builder::Made(Call::Udp {
            src: (src_ip, src_port),
            dst: (dst_ip, dst_port),
        }),
        2 => Builder::Made(Call::Tcp {
            dst_mac,
            src: (src_ip, src_port),
            dst: (dst_ip, dst_port),
            seq,
            ack,
            flags: proto_or_flags,
        }),
        _ => Builder::Checksum { start: 0 },
    }
}

impl Input {
    pub fn written(mut bytes: &[u8]) -> Self {
        let (guest, mut items) = (array(&mut bytes), vec![]);
        while !bytes.is_empty() && items.len() < MOST_CALLS {
            items.push(Item::written(&mut bytes));
        }
        Input { guest, items }
    }

    fn bytes(&self) -> Vec<u8> {
        let mut bytes = self.guest.to_vec();
        self.items.iter().for_each(|item| item.write(&mut bytes));
        bytes
    }

    /// The guest's record, with this id.
    pub fn record(&self, id: u16) -> Record {
        let rest = &mut &self.guest[..];
        let (mac, xid, [which]) = (array(rest), u32::from_be_bytes(array(rest)), array(rest));
        let own = Network {
            gateway: array(rest),
            guest: array(rest),
            mask: array(rest),
            lease: u32::from_be_bytes(array(rest)),
        };
        let network = if which % 2 == 1 { own } else { HERE };
        Record {
            mac,
            id,
            xid,
            network,
        }
    }

    pub fn calls(&self) -> impl Iterator<Item = (Asked, usize)> {
        self.items.iter().map(Item::asked)
    }

    /// Another input near this one: one of its parts is changed by `mutate`, which gets a part and how long it may
    /// become. The lengths around a part stay right, so that what is behind it means the same.
    pub fn mutated(
        mut self,
        draws: &mut Draws,
        mutate: impl Fn(&[u8], usize) -> Vec<u8>,
    ) -> Vec<u8> {
        let Some(last) = self.items.len().checked_sub(1) else {
            return mutate(&self.bytes(), GUEST + 400);
        };
        let (at, other) = (draws.below(last + 1), draws.below(last + 1));
        let item = &mut self.items[at];
        match draws.below(16) {
            0 => self.guest = array(&mut &mutate(&self.guest, GUEST)[..]),
            1 => {
                item.how = draws.byte() & !LONG;
                item.fields = (item.how >= WITH_FIELDS).then(|| item.fields.unwrap_or_default());
                item.long = None;
            }
            2 => {
                let mut long: [u8; 4] = array(&mut &draws.bytes(4)[..]);
                if draws.below(4) > 0 {
                    // Near the first of the limits: a longer frame takes as long as a hundred others.
                    long[0] = LIMITS.len() as u8;
                }
                item.how |= LONG | draws.one_of(&[0, LENGTHS_MADE_RIGHT]);
                item.long = Some(long);
            }
            3 if item.fields.as_ref().and_then(plan).is_some() => {
                item.fields = item.fields.map(|fields| at_an_edge(fields, draws));
            }
            3 | 4 => {
                let mutated = |fields: [u8; FIELDS]| array(&mut &mutate(&fields, FIELDS)[..]);
                item.fields = item.fields.map(mutated);
            }
            5 => self.items.swap(at, other),
            6 if last > 0 => drop(self.items.remove(at)),
            7 if last + 1 < MOST_CALLS => self.items.insert(at, self.items[other].clone()),
            8 | 9 if item.fields.is_none() && item.bytes.len() >= DATA_AT + OPTIONS_AT => {
                // Bytes that would mostly be taken for an option, a type or the end, somewhere among the options.
                let list = DATA_AT + OPTIONS_AT;
                let place = list + draws.below(item.bytes.len() - list + 1);
                let few = 1 + draws.below(6);
                item.bytes.splice(place..place, option_bytes(draws, few));
                item.bytes = with_lengths(std::mem::take(&mut item.bytes));
            }
            _ => {
                // From where a header, a DHCP message or its options start.
                let starts = [0, 0, BODY_AT, PAYLOAD_AT, DATA_AT, DATA_AT + OPTIONS_AT];
                let start = draws.one_of(&starts).min(item.bytes.len());
                let part = item.bytes.split_off(start);
                item.bytes.extend(mutate(&part, part.len() + 64));
                if item.fields.is_none() && draws.below(2) == 0 {
                    item.bytes = with_lengths(std::mem::take(&mut item.bytes));
                }
            }
        }
        self.bytes()
    }
}

/// Inputs to start from, with names: the frames that real software sent, each alone; and simple ones, which are a frame of
/// each kind in a row, on two networks, long pings, a call of each builder, and records made.
pub fn seeds() -> Vec<(String, Vec<u8>)> {
    let frame = |bytes: Vec<u8>| Item {
        bytes,
        ..Item::default()
    };
    let captured = captured().into_iter().map(|captured| captured.frame);
    let short = captured.filter(|bytes| bytes.len() <= 2_048);
    let messages = messages().into_iter().map(|message| dhcp_frame(&message));
    let sent = short.chain(messages).map(|bytes| vec![frame(bytes)]);
    let of_each_kind = [
        dhcp(&dhcp_message(1, &DISCOVER)),
        dhcp(&dhcp_message(2, &REQUEST)),
        arp(1, GATEWAY_IP),
        dns_query(),
        syn(),
        ping(&[1, 2, 3]),
        udp(40_000, ELSEWHERE, 123, &[7; 48]),
    ];
    let in_a_row = of_each_kind.map(frame).to_vec();
    let long_pings = [[1, 0, 13, 9], [1, 0, 14, 9]].map(|long| Item {
        how: LONG | ROOM_BITS,
        bytes: ping(&[]),
        long: Some(long),
        ..Item::default()
    });
    let builders = [0, 1, 2, 3].map(|which| {
        let ports_and_more = [0, 80, 0x9c, 0x40, 1, 2, 3, 4, 5, 6, 7, 8];
        let start = [&[which, 0x12], &GUEST_MAC[..], &GATEWAY_IP, &GUEST_IP].concat();
        let fields = [start, ports_and_more.to_vec()].concat();
        Item {
            how: WITH_FIELDS,
            fields: Some(array(&mut &fields[..])),
            bytes: b"some data".to_vec(),
            long: None,
        }
    });
    let records = [0, 1].map(|lease_named| {
        let mask_and_lease = [255, 255, 255, 0, 0, 0, 7, 8];
        let start = [&[4, lease_named], &GUEST_MAC[..], &GATEWAY_IP, &GUEST_IP].concat();
        let fields = [start, mask_and_lease.to_vec()].concat();
        Item {
            how: WITH_FIELDS,
            fields: Some(array(&mut &fields[..])),
            ..Item::default()
        }
    });
    let alone = long_pings
        .into_iter()
        .chain(builders)
        .chain(records)
        .map(|item| vec![item]);
    let simple: Vec<_> = [in_a_row].into_iter().chain(alone).collect();
    // The Rust's network, or one with its gateway and nothing else of it.
    let of_the_rust = [0; 17];
    let another = [
        &[1][..],
        &GATEWAY_IP,
        &[10, 0, 200, 9],
        &[255, 255, 0, 0],
        &[0, 0, 7, 8],
    ]
    .concat();
    let named = |kind: &'static str, number: usize, own: &[u8], items: Vec<Item>| {
        let start = [&GUEST_MAC[..], &[0x39, 0x03, 0xf3, 0x26]].concat();
        let guest = [start, own.to_vec()].concat();
        let input = Input {
            guest: array(&mut &guest[..]),
            items,
        };
        (format!("{kind}-{number:03}"), input.bytes())
    };
    let sent = sent
        .enumerate()
        .map(|(at, items)| named("sent", at, &of_the_rust, items));
    let elsewhere = named("simple", simple.len(), &another, simple[0].clone());
    let simple = simple
        .into_iter()
        .enumerate()
        .map(|(at, items)| named("simple", at, &of_the_rust, items));
    sent.chain(simple).chain([elsewhere]).collect()
}
