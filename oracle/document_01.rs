//! Document 01's answer to one call, read from its text a second time and not from the Rust: the
//! order of tests on a guest's frame, the frames built, and the record. Addresses, mask and lease time
//! are the record's, as document 02's request 1/13 has it, a DHCP reply goes from 67 to 68, as 2/13 has it
//! ("The reply's UDP header becomes 00 43 00 44"), and a datagram has the checksum of RFC 768, as 6/13 has it.

use crate::draws::GATEWAY_MAC;
use crate::networks::Network;

#[derive(Clone, Copy, Debug, PartialEq)]
pub struct Record {
    pub mac: [u8; 6],
    pub id: u16,
    pub xid: u32,
    pub network: Network,
}

#[derive(Clone, Copy, Debug, PartialEq)]
pub enum Verdict {
    Drop,
    Reply(usize),
    Dns { start: usize, len: usize },
    Relay { start: usize, len: usize },
    Tcp(usize),
    NoRoom(usize),
    TooLong(usize),
    CutType(usize),
}

#[derive(Debug, PartialEq)]
pub struct Answer {
    pub verdict: Verdict,
    /// The bytes at the start of the buffer; none where the verdict is not a reply.
    pub reply: Vec<u8>,
    pub after: Record,
}

const LONGEST_IP_PAYLOAD: usize = 65_515;

pub fn answer(record: Record, frame: &[u8], room: usize) -> Answer {
    if frame.len() < 14 {
        return without_reply(record, Verdict::Drop);
    }
    match number(&frame[12..14]) {
        0x0806 => arp(record, frame, room),
        0x0800 => ipv4(record, frame, room),
        _ => without_reply(record, Verdict::Drop),
    }
}

fn without_reply(after: Record, verdict: Verdict) -> Answer {
    let reply = vec![];
    Answer {
        verdict,
        reply,
        after,
    }
}

/// A frame is to be built: it is the reply where the buffer holds it. `refused` is the record as it
/// came, `after` as it is once the frame is built.
fn built(refused: Record, after: Record, reply: Vec<u8>, room: usize) -> Answer {
    if room < reply.len() {
        return without_reply(refused, Verdict::NoRoom(reply.len()));
    }
    let verdict = Verdict::Reply(reply.len());
    Answer {
        verdict,
        reply,
        after,
    }
}

fn number(bytes: &[u8]) -> u64 {
    bytes
        .iter()
        .fold(0, |number, byte| 256 * number + u64::from(*byte))
}

fn arp(record: Record, frame: &[u8], room: usize) -> Answer {
    if frame.len() < 42 || number(&frame[20..22]) != 1 || frame[38..42] != record.network.gateway {
        return without_reply(record, Verdict::Drop);
    }
    let (sender_mac, sender) = (&frame[22..28], &frame[28..32]);
    let reply = [
        sender_mac,
        &GATEWAY_MAC,
        &[0x08, 0x06, 0, 1, 0x08, 0x00, 6, 4, 0, 2],
        &GATEWAY_MAC,
        &record.network.gateway,
        sender_mac,
        sender,
    ];
    built(record, record, reply.concat(), room)
}

fn ipv4(record: Record, frame: &[u8], room: usize) -> Answer {
    if frame.len() < 34 {
        return without_reply(record, Verdict::Drop);
    }
    let payload_at = 14 + 4 * usize::from(frame[14] % 16);
    let to_gateway = frame[30..34] == record.network.gateway;
    match frame[23] {
        1 if to_gateway && payload_at <= frame.len() => icmp(record, frame, payload_at, room),
        6 => without_reply(record, Verdict::Tcp(frame.len())),
        17 if payload_at <= frame.len() => udp(record, frame, payload_at, room),
        _ => without_reply(record, Verdict::Drop),
    }
}

fn icmp(record: Record, frame: &[u8], payload_at: usize, room: usize) -> Answer {
    let payload = &frame[payload_at..];
    if payload.len() < 8 || payload[0] != 8 {
        return without_reply(record, Verdict::Drop);
    }
    if payload.len() > LONGEST_IP_PAYLOAD {
        return without_reply(record, Verdict::TooLong(payload.len()));
    }
    let unsummed = [&[0; 4], &payload[4..]].concat();
    let echo = [&[0, 0], &checksum(&unsummed)[..], &payload[4..]].concat();
    let reply = ip_frame(record, &frame[6..12], &frame[26..30], 1, &echo);
    built(record, with_id_spent(record), reply, room)
}

fn udp(record: Record, frame: &[u8], payload_at: usize, room: usize) -> Answer {
    let payload = &frame[payload_at..];
    if payload.len() < 8 || number(&payload[4..6]) < 8 {
        return without_reply(record, Verdict::Drop);
    }
    let end = payload.len().min(number(&payload[4..6]) as usize);
    let (source, destination) = (number(&payload[..2]), number(&payload[2..4]));
    let (start, len) = (payload_at + 8, end - 8);
    if source == 68 && destination == 67 {
        return dhcp(record, frame, &payload[8..end], room);
    }
    if frame[30..34] == record.network.gateway && destination == 53 {
        return without_reply(record, Verdict::Dns { start, len });
    }
    without_reply(record, Verdict::Relay { start, len })
}

fn dhcp(record: Record, frame: &[u8], data: &[u8], room: usize) -> Answer {
    if data.len() < 240 || data[0] != 1 {
        return without_reply(record, Verdict::Drop);
    }
    let xid = number(&data[4..8]) as u32;
    let taken = Record { xid, ..record };
    if number(&data[236..240]) != 0x6382_5363 {
        return without_reply(taken, Verdict::Drop);
    }
    let reply_type = match message_type(data) {
        Ok(1) => 2,
        Ok(3) => 5,
        Ok(_) => return without_reply(taken, Verdict::Drop),
        Err(place) => return without_reply(record, Verdict::CutType(place)),
    };
    let message = dhcp_reply(taken, reply_type);
    let (gateway, target) = (record.network.gateway, broadcast(record.network));
    let udp = datagram((gateway, 67), (target, 68), &message);
    let reply = ip_frame(record, &frame[6..12], &target, 17, &udp);
    built(record, with_id_spent(taken), reply, room)
}

/// The message type, 0 where the walk ends without one, or the place of a 53 whose value is not
/// there.
fn message_type(data: &[u8]) -> Result<u8, usize> {
    let mut place = 240;
    loop {
        match (data.get(place), data.get(place + 1)) {
            (Some(0), _) => place += 1,
            (None | Some(255), _) | (_, None) => return Ok(0),
            (Some(53), Some(1..)) => return data.get(place + 2).copied().ok_or(place),
            (_, Some(len)) => place += 2 + usize::from(*len),
        }
    }
}

/// The guest's address with every host bit set, bit by bit: the host's are those that the mask has not.
fn broadcast(network: Network) -> [u8; 4] {
    let mut address = network.guest;
    for place in 0..32 {
        let (byte, bit) = (place / 8, 0x80 >> (place % 8));
        if network.mask[byte] & bit == 0 {
            address[byte] |= bit;
        }
    }
    address
}

fn dhcp_reply(record: Record, message_type: u8) -> Vec<u8> {
    let Network {
        gateway,
        guest,
        mask,
        lease,
    } = record.network;
    let mut reply = vec![0; 300];
    let mut put = |at: usize, bytes: &[u8]| reply[at..at + bytes.len()].copy_from_slice(bytes);
    put(0, &[2, 1, 6, 0]);
    put(4, &record.xid.to_be_bytes());
    put(16, &guest);
    put(20, &gateway);
    put(28, &record.mac);
    put(236, &[0x63, 0x82, 0x53, 0x63]);
    put(240, &[53, 1, message_type]);
    let rows = [
        (54, gateway),
        (51, lease.to_be_bytes()),
        (1, mask),
        (3, gateway),
        (6, gateway),
    ];
    for (row, (code, value)) in rows.into_iter().enumerate() {
        put(243 + 6 * row, &[code, 4]);
        put(245 + 6 * row, &value);
    }
    put(273, &[255]);
    reply
}

fn with_id_spent(record: Record) -> Record {
    let id = if record.id == 65_535 {
        0
    } else {
        record.id + 1
    };
    Record { id, ..record }
}

/// A frame from the gateway around the payload.
pub fn ip_frame(
    record: Record,
    mac: &[u8],
    target: &[u8],
    protocol: u8,
    payload: &[u8],
) -> Vec<u8> {
    let total_length = (20 + payload.len()) as u16;
    let header_around = |sum: [u8; 2]| {
        [
            &[0x45, 0][..],
            &total_length.to_be_bytes(),
            &record.id.to_be_bytes(),
            &[0x40, 0x00, 64, protocol],
            &sum,
            &record.network.gateway,
            target,
        ]
        .concat()
    };
    let header = header_around(checksum(&header_around([0, 0])));
    [mac, &GATEWAY_MAC, &[0x08, 0x00], &header, payload].concat()
}

/// A datagram between these addresses and ports, as RFC 768 has it. Its checksum is document 01's of the
/// pseudo-header and the datagram with 0 in the checksum's place, and all ones where that is 0.
pub fn datagram(source: ([u8; 4], u16), target: ([u8; 4], u16), data: &[u8]) -> Vec<u8> {
    let length = ((8 + data.len()) as u16).to_be_bytes();
    let pseudo_header = [&source.0[..], &target.0, &[0, 17], &length].concat();
    let ports = [source.1.to_be_bytes(), target.1.to_be_bytes()].concat();
    let with_checksum = |field: [u8; 2]| [&ports[..], &length, &field, data].concat();
    let field = match checksum(&[pseudo_header, with_checksum([0, 0])].concat()) {
        [0, 0] => [0xff, 0xff],
        computed => computed,
    };
    with_checksum(field)
}

pub fn checksum(bytes: &[u8]) -> [u8; 2] {
    (65_535 - sum(0, bytes)).to_be_bytes()
}

/// The fold of a start and the words of the bytes.
pub fn sum(start: u16, bytes: &[u8]) -> u16 {
    let words = bytes
        .chunks(2)
        .map(|word| number(&[word[0], *word.get(1).unwrap_or(&0)]));
    match u64::from(start) + words.sum::<u64>() {
        0 => 0,
        total => ((total - 1) % 65_535 + 1) as u16,
    }
}
