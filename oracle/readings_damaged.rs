//! Captured frames, damaged in one field at a time; once with the sums made right again, where it is
//! not a sum that was damaged, and once without.

use crate::captured::{captured, sent};
use crate::grammar_01::{self, Kind, Layer, Reading};
use crate::guest_frames::*;
use crate::mended::{mended, shorter, with_header_options, with_lengths};
use crate::reading_cases::{Origin, ReadingList};

/// What the document says of a frame whose field has another value, its sums right.
#[derive(Clone, Copy, PartialEq)]
enum Says {
    /// The field is free: the frame stays in the grammar, and of its kind.
    Free,
    /// A sentence with these words is broken.
    Breaks(&'static str),
    /// It hangs on the rest of the frame.
    Judge,
    /// The field is a sum, so none is made right.
    Sum,
}
use Says::{Breaks, Free, Judge, Sum};

struct Field {
    at: usize,
    values: Vec<Vec<u8>>,
    says: Says,
}

fn field(at: usize, values: &[&[u8]], says: Says) -> Field {
    let values = values.iter().map(|value| value.to_vec()).collect();
    Field { at, values, says }
}

/// The field with each of these numbers, `len` bytes long.
fn numbers(at: usize, len: usize, values: &[u32], says: Says) -> Field {
    let values = values
        .iter()
        .map(|value| value.to_be_bytes()[4 - len..].to_vec());
    Field {
        at,
        values: values.collect(),
        says,
    }
}

/// A free field: every bit turned, all zeros and all ones.
fn free(frame: &[u8], at: usize, len: usize) -> Field {
    let turned: Vec<u8> = frame[at..at + len].iter().map(|byte| !byte).collect();
    field(at, &[&turned, &vec![0; len], &vec![0xff; len]], Free)
}

/// A checksum: every bit turned, one more, one less, its bytes exchanged, 0 and 0xffff.
fn checksum(frame: &[u8], at: usize) -> Field {
    let stored = u16::from_be_bytes([frame[at], frame[at + 1]]);
    let values = [
        !stored,
        stored.wrapping_add(1),
        stored.wrapping_sub(1),
        stored.swap_bytes(),
        0,
        0xffff,
    ];
    numbers(at, 2, &values.map(u32::from), Sum)
}

fn ethernet_fields(frame: &[u8]) -> Vec<Field> {
    let types = [
        0x86dd, 0x8100, 0x0801, 0x0805, 0x0807, 0x0802, 0x0008, 0x0608, 0x0000, 0xffff,
    ];
    let other = u32::from(frame[13] ^ 6) + 0x0800;
    vec![
        free(frame, 0, 6),
        free(frame, SOURCE_MAC_AT, 6),
        numbers(TYPE_AT, 2, &types, Breaks("type 0x0806 or 0x0800")),
        numbers(TYPE_AT, 2, &[other], Judge),
    ]
}

fn arp_fields(frame: &[u8]) -> Vec<Field> {
    let operations = [
        0, 3, 4, 8, 9, 0x0100, 0x0101, 0x0102, 0x0200, 0x0201, 0x8001, 0xffff,
    ];
    vec![
        numbers(14, 2, &[0, 2, 6, 0x0100, 0x0101, 0xffff], Breaks("ARP: 1")),
        numbers(
            16,
            2,
            &[0x0806, 0x86dd, 0x0801, 0x0008, 0x0900, 0],
            Breaks("ARP: 0x0800"),
        ),
        numbers(18, 1, &[5, 7, 0, 4, 255], Breaks("ARP: 6")),
        numbers(19, 1, &[3, 5, 0, 6, 16], Breaks("ARP: 4")),
        numbers(18, 2, &[0x0406], Breaks("ARP: 4")),
        numbers(20, 2, &operations, Breaks("ARP: operation")),
        numbers(20, 2, &[1, 2], Free),
        free(frame, 22, 6),
        free(frame, 28, 4),
        free(frame, 32, 6),
        free(frame, 38, 4),
        free(frame, 22, 20),
    ]
}

fn ipv4_fields(frame: &[u8], layer: Layer) -> Vec<Field> {
    let [at, payload_at, _] = layer;
    let length = u32::from(frame[at] % 16);
    let total = u32::from(frame[at + 2]) * 256 + u32::from(frame[at + 3]);
    let swapped = [&frame[TARGET_AT..PAYLOAD_AT], &frame[SOURCE_AT..TARGET_AT]].concat();
    let versions = [5, 6, 0, 3, 7, 12, 15].map(|version| 16 * version + length);
    let lengths: Vec<u32> = (5..=15).map(|length| 0x40 + length).collect();
    let totals = [
        total - 1,
        total + 1,
        0,
        19,
        20,
        4 * length - 1,
        total + 2,
        total ^ 0x0100,
        total ^ 0x8000,
        (total % 256) * 256 + total / 256,
        0xffff,
    ];
    let totals: Vec<u32> = totals.into_iter().filter(|other| *other != total).collect();
    let offsets: Vec<u32> = (0..13).map(|bit| 0x4000 + (1 << bit)).collect();
    let is_free = |protocol: &u32| ![1, 6, 17].contains(protocol);
    let protocols = [
        253, 0, 2, 4, 5, 7, 16, 18, 41, 47, 50, 89, 132, 255, 0x81, 0x86, 0x91,
    ];
    let free_protocols: Vec<u32> = protocols.into_iter().filter(is_free).collect();
    let mut fields = vec![
        numbers(at, 1, &versions, Breaks("version 4")),
        numbers(
            at,
            1,
            &[0x44, 0x43, 0x40, 0x41, 0x42],
            Breaks("header length 20 to 60"),
        ),
        numbers(at, 1, &lengths, Judge),
        free(frame, at + 1, 1),
        numbers(at + 2, 2, &totals, Breaks("total length is the whole body")),
        free(frame, at + 4, 2),
        numbers(at + 6, 2, &[0x8000, 0xc000], Breaks("reserved bit")),
        numbers(at + 6, 2, &[0x2000, 0x6000], Breaks("more-fragments")),
        numbers(at + 6, 2, &offsets, Breaks("offset zero")),
        numbers(at + 6, 2, &[1, 0x1fff], Breaks("offset zero")),
        numbers(at + 6, 2, &[0x0000, 0x4000], Free),
        numbers(at + 8, 1, &[0, 1, 255], Free),
        numbers(PROTOCOL_AT, 1, &free_protocols, Judge),
        numbers(PROTOCOL_AT, 1, &[1, 6, 17], Judge),
        checksum(frame, at + 10),
        free(frame, SOURCE_AT, 4),
        free(frame, TARGET_AT, 4),
        field(SOURCE_AT, &[&swapped], Free),
    ];
    if payload_at > PAYLOAD_AT {
        fields.push(free(frame, PAYLOAD_AT, payload_at - PAYLOAD_AT));
        fields.push(field(PAYLOAD_AT, &[&[1, 0x83]], Free));
    }
    fields
}

fn icmp_fields(frame: &[u8], layer: Layer) -> Vec<Field> {
    let [at, data, stop] = layer;
    let swapped = [&frame[at + 6..at + 8], &frame[at + 4..at + 6]].concat();
    let mut fields = vec![
        numbers(at, 1, &[0, 8, 3, 5, 13, 255], Free),
        numbers(at + 1, 1, &[1, 255], Free),
        checksum(frame, at + 2),
        free(frame, at + 4, 2),
        free(frame, at + 6, 2),
        field(at + 4, &[&swapped], Free),
    ];
    fields.extend((stop > data).then(|| free(frame, stop - 1, 1)));
    fields
}

/// Of ports, values that carry no DHCP beside any other port.
const PLAIN_PORTS: [u32; 4] = [53, 0, 69, 65_535];

fn udp_fields(frame: &[u8], layer: Layer, is_dhcp: bool) -> Vec<Field> {
    let [at, data, stop] = layer;
    let length = (stop - at) as u32;
    let lengths = [length - 1, length + 1, 0, 7, 8, length + 256, 0xffff];
    let lengths: Vec<u32> = lengths
        .into_iter()
        .filter(|other| *other != length)
        .collect();
    let dhcp_ports: [&[u8]; 2] = [&[0, 67, 0, 68], &[0, 68, 0, 67]];
    let others: [&[u8]; 6] = [
        &[0, 67, 0, 67],
        &[0, 68, 0, 68],
        &[0, 66, 0, 68],
        &[0, 68, 0, 69],
        &[1, 67, 0, 68],
        &[67, 0, 68, 0],
    ];
    let mut fields = vec![
        numbers(at, 2, &PLAIN_PORTS, Judge),
        numbers(at + 2, 2, &PLAIN_PORTS, Judge),
        field(
            at,
            &dhcp_ports,
            if is_dhcp { Free } else { Breaks("DHCP: ") },
        ),
        field(at, &others, Judge),
        numbers(at + 4, 2, &lengths, Breaks("UDP: length field")),
        checksum(frame, at + 6),
    ];
    if !is_dhcp && stop > data {
        fields.push(free(frame, stop - 1, 1));
    }
    fields
}

fn tcp_fields(frame: &[u8], layer: Layer) -> Vec<Field> {
    let [at, data, stop] = layer;
    let low = frame[at + 12] % 16;
    let offset = |offset: usize| 16 * offset as u32 + u32::from(low);
    let longest = ((stop - at) / 4).min(15);
    let short: Vec<u32> = (0..5).map(offset).collect();
    let inside: Vec<u32> = (5..=longest).map(offset).collect();
    let past: Vec<u32> = (longest + 1..=15).map(offset).collect();
    let mut fields = vec![
        free(frame, at, 2),
        numbers(at, 4, &[0x0043_0044, 0x0044_0043], Free),
        free(frame, at + 2, 2),
        free(frame, at + 4, 4),
        free(frame, at + 8, 4),
        numbers(at + 12, 1, &short, Breaks("TCP: offset 5 to 15")),
        numbers(at + 12, 1, &inside, Free),
        numbers(at + 12, 1, &past, Breaks("inside the payload")),
        numbers(at + 12, 1, &[u32::from(frame[at + 12]) ^ 0x0f], Free),
        free(frame, at + 13, 1),
        free(frame, at + 14, 2),
        checksum(frame, at + 16),
        free(frame, at + 18, 2),
    ];
    if data > at + 20 {
        fields.push(free(frame, at + 20, data - at - 20));
    }
    if stop > data {
        fields.push(free(frame, stop - 1, 1));
    }
    fields
}

fn dhcp_fields(frame: &[u8], layer: Layer) -> Vec<Field> {
    let [at, list_at, stop] = layer;
    let mut fields = vec![
        numbers(at, 1, &[1, 2], Free),
        numbers(at, 1, &[0, 3, 129, 255], Breaks("first byte 1 or 2")),
        numbers(at + 1, 1, &[0, 2, 6, 255], Breaks("then 1")),
        numbers(at + 2, 1, &[5, 7, 0, 16], Breaks("then 6")),
    ];
    let fixed = [
        (3, 1),
        (4, 4),
        (8, 2),
        (10, 2),
        (12, 4),
        (16, 4),
        (20, 4),
        (24, 4),
        (28, 6),
    ];
    for (place, len) in fixed {
        fields.push(free(frame, at + place, len));
    }
    for (place, len) in [(34, 10), (44, 64), (108, 128)] {
        fields.push(field(at + place, &[&vec![0xa5; len]], Free));
    }
    let cookie = near(COOKIE);
    let cookies: Vec<&[u8]> = cookie.iter().map(|bytes| &bytes[..]).collect();
    fields.push(field(at + COOKIE_AT, &cookies, Breaks("cookie")));
    fields.push(field(
        at + COOKIE_AT,
        &[&[0; 4], &[0x63, 0x53, 0x63, 0x82]],
        Breaks("cookie"),
    ));
    fields.extend(list_fields(&frame[list_at..stop], list_at));
    fields
}

/// Codes, lengths and values of the options; END and what stands behind it.
fn list_fields(list: &[u8], list_at: usize) -> Vec<Field> {
    let items = grammar_01::items(list).unwrap();
    let mut fields = vec![];
    for item in &items {
        let at = list_at + item.place;
        let Some(value) = item.value else {
            continue;
        };
        let length = value.len() as u32;
        let near = [length + 1, length.saturating_sub(1), 0, 255];
        fields.push(numbers(at + 1, 1, &near, Judge));
        if item.code == TYPE {
            let types: Vec<u32> = (1..=8).collect();
            fields.push(numbers(at + 2, 1, &types, Free));
            fields.push(numbers(at + 2, 1, &[0, 9, 53, 255], Breaks("option 53")));
            fields.push(numbers(at, 1, &[52, 54, 181, 254], Breaks("option 53")));
            fields.push(numbers(at, 1, &[255], Breaks("list")));
            fields.push(numbers(at, 1, &[0], Judge));
        } else {
            fields.push(numbers(at, 1, &[200, 254], Free));
            fields.push(numbers(at, 1, &[53], Breaks("option 53")));
            fields.push(numbers(at, 1, &[255], Breaks("list")));
            fields.push(numbers(at, 1, &[0], Judge));
            if length > 0 {
                fields.push(field(
                    at + 2,
                    &[&vec![0x35; value.len()], &vec![0xff; value.len()]],
                    Free,
                ));
            }
        }
    }
    let last = items.last().unwrap();
    let end = list_at + last.place + 1 + last.value.map_or(0, |value| 1 + value.len());
    let stop = list_at + list.len();
    fields.push(numbers(end, 1, &[0, 1, 53, 254], Breaks("list")));
    for place in [end + 1, (end + 1 + stop) / 2, stop - 1] {
        if (end + 1..stop).contains(&place) {
            fields.push(numbers(place, 1, &[1, 255, 53], Breaks("list")));
        }
    }
    fields
}

/// How much of a frame is damaged.
#[derive(Clone, Copy, PartialEq)]
enum Damage {
    /// Every field to every value.
    Every,
    /// The same, but DHCP's outer headers to their fields' first values.
    Whole,
    /// Every field to its first value.
    Once,
    /// The same, but fields that are free are left alone in the outer headers; in the message they
    /// are changed only with sums made right, and so are the options.
    Named,
}

fn own_fields(frame: &[u8]) -> Vec<Field> {
    let Reading { kind, layers, .. } = grammar_01::read(frame).unwrap();
    match kind {
        Kind::Arp => arp_fields(frame),
        Kind::Icmp => icmp_fields(frame, layers[2]),
        Kind::Udp => udp_fields(frame, layers[2], false),
        Kind::Tcp => tcp_fields(frame, layers[2]),
        Kind::Dhcp => {
            let mut fields = udp_fields(frame, layers[2], true);
            fields.extend(dhcp_fields(frame, layers[3]));
            fields
        }
        Kind::OtherIpv4 => vec![],
    }
}

fn outer_fields(frame: &[u8]) -> Vec<Field> {
    let layers = grammar_01::read(frame).unwrap().layers;
    let mut fields = ethernet_fields(frame);
    fields.extend(layers.get(1).map_or(vec![], |ip| ipv4_fields(frame, *ip)));
    fields
}

fn damaged(list: &mut ReadingList, frame: &[u8], damage: Damage) {
    let is_dhcp = grammar_01::read(frame).unwrap().kind == Kind::Dhcp;
    let is_named = |field: &Field| damage != Damage::Named || field.says != Free;
    for field in outer_fields(frame).into_iter().filter(is_named) {
        // DHCP's lines are long, and its outer headers are like any other's.
        let is_whole = damage == Damage::Every || damage == Damage::Whole && !is_dhcp;
        damaged_in(list, frame, &field, is_whole, true);
    }
    let list_at = DATA_AT + OPTIONS_AT;
    for field in own_fields(frame) {
        let is_fixed = matches!(field.says, Breaks(_)) && field.at < list_at;
        let unmended = damage != Damage::Named || is_fixed;
        let is_whole = matches!(damage, Damage::Every | Damage::Whole);
        damaged_in(list, frame, &field, is_whole, unmended);
    }
}

/// The frame with the field's values, or the first that it has not: with sums made right, and the
/// first besides as it is.
fn damaged_in(list: &mut ReadingList, frame: &[u8], field: &Field, all: bool, unmended: bool) {
    let kind = grammar_01::read(frame).unwrap().kind;
    let others = field
        .values
        .iter()
        .filter(|value| !frame[field.at..].starts_with(value));
    for (turn, value) in others.take(if all { usize::MAX } else { 1 }).enumerate() {
        let changed = with(frame.to_vec(), field.at, value);
        let right = if field.says == Sum {
            changed.clone()
        } else {
            mended(changed.clone())
        };
        match field.says {
            Free => {
                list.taken(Origin::Damaged, kind, &right);
            }
            Breaks(words) => list.refused(Origin::Damaged, words, &right),
            Judge | Sum => {
                list.judged(Origin::Damaged, &right);
            }
        }
        if unmended && turn == 0 {
            list.judged(Origin::Damaged, &changed);
        }
    }
}

/// Options in the IPv4 header, from none to 40 bytes; and the header's length alone.
fn header_options(list: &mut ReadingList, frame: &[u8], lengths: &[usize]) {
    let kind = grammar_01::read(frame).unwrap().kind;
    for len in lengths {
        let options = vec![1; *len];
        list.taken(Origin::Damaged, kind, &with_header_options(frame, &options));
    }
    let options: Vec<u8> = (0..40).map(|i| 0xf7 - 5 * i).collect();
    let longest = with_header_options(frame, &options);
    list.taken(Origin::Damaged, kind, &longest);
    let body = "total length is the whole body";
    // The header grows, and the total length does not.
    let total_length = &frame[TOTAL_LENGTH_AT..TOTAL_LENGTH_AT + 2];
    let stale = mended(with(longest.clone(), TOTAL_LENGTH_AT, total_length));
    list.refused(Origin::Damaged, body, &stale);
    // A header of 64 bytes would have the length 0.
    let too_long = [&longest[..BODY_AT + 60], &[1; 4], &longest[BODY_AT + 60..]].concat();
    let too_long = with_lengths(with(too_long, BODY_AT, &[0x40]));
    list.refused(Origin::Damaged, "header length 20 to 60", &too_long);
}

/// Only protocols 1, 6 and 17 say what the payload is.
fn protocols(list: &mut ReadingList) {
    let frame = sent("a packet of a raw socket, protocol 253, 0 data bytes");
    let one_bit_off = [ICMP, TCP, UDP]
        .into_iter()
        .flat_map(|number| (0..8).map(move |bit| number ^ 1 << bit));
    for protocol in (0..=20)
        .chain(one_bit_off)
        .chain([41, 47, 50, 51, 58, 89, 103, 132, 136, 254, 255])
    {
        let changed = mended(with(frame.clone(), PROTOCOL_AT, &[protocol]));
        if [ICMP, TCP, UDP].contains(&protocol) {
            list.refused(Origin::Damaged, " or more", &changed);
        } else {
            list.taken(Origin::Damaged, Kind::OtherIpv4, &changed);
        }
    }
}

/// Option 53 is left out, or stands twice; END is left out.
fn lists_changed(list: &mut ReadingList, frame: &[u8]) {
    let [_, list_at, stop] = grammar_01::read(frame).unwrap().layers[3];
    let options = &frame[list_at..stop];
    let items = grammar_01::items(options).unwrap();
    let place = list_at + items.iter().find(|item| item.code == TYPE).unwrap().place;
    let (before, behind) = (&frame[..place], &frame[place + 3..]);
    let option = &frame[place..place + 3];
    let mut changed = |words: &str, pieces: &[&[u8]]| {
        list.refused(Origin::Damaged, words, &with_lengths(pieces.concat()));
    };
    changed("option 53", &[before, behind]);
    changed("option 53", &[before, option, option, behind]);
    let last = items.last().unwrap();
    let end = list_at + last.place + 1 + last.value.map_or(0, |value| 1 + value.len());
    changed("list", &[&frame[..end]]);
    changed("list", &[&frame[..end], &frame[end + 1..]]);
    changed("list", &[&frame[..end], option, &frame[end + 1..]]);
    changed("list", &[&frame[..=end], option, &frame[end + 1..]]);
    changed("list", &[&frame[..=end], &frame[end..]]);
    changed("list", &[&frame[..list_at]]);
    let mut kept = |pieces: &[&[u8]]| {
        list.taken(Origin::Damaged, Kind::Dhcp, &with_lengths(pieces.concat()));
    };
    kept(&[&frame[..=end]]);
    kept(&[&frame[..=end], &[0]]);
    kept(&[&frame[..list_at], &[0], &frame[list_at..]]);
    kept(&[&frame[..end], &[0, 0], &frame[end..]]);
    kept(&[&frame[..end], &[224, 0], &frame[end..]]);
    kept(&[&frame[..end], &[224, 3, TYPE, 1, 1], &frame[end..]]);
    // The type moved to the list's end.
    kept(&[before, &frame[place + 3..end], option, &frame[end..]]);
    let [_, udp_at, _] = grammar_01::read(frame).unwrap().layers[1];
    for cut in [1, 2] {
        let short = shorter(frame, frame.len() - cut);
        let field = &frame[udp_at + 4..udp_at + 6];
        let stale = mended(with(short, udp_at + 4, field));
        list.refused(Origin::Damaged, "UDP: length field", &stale);
    }
}

/// Every captured frame that is in the grammar, every value of every field.
pub fn list_all(list: &mut ReadingList) {
    for frame in captured().into_iter().map(|captured| captured.frame) {
        if grammar_01::read(&frame).is_some() {
            damaged(list, &frame, Damage::Every);
        }
    }
}

pub fn list(list: &mut ReadingList) {
    let whole = [
        "ARP request for an address that is not in the neighbour table",
        "ping, 1 data byte",
        "UDP to port 53, 1 data byte",
        "TCP SYN, no options agreed on",
        "IGMP report, version 2",
        "systemd-networkd's DISCOVER: no settings",
    ];
    let once = [
        "ARP reply to a request",
        "dhcpcd's ARP probe: the address is taken, so it is declined",
        "ping, 8 data bytes",
        "ICMP port unreachable, for a datagram with 5 data bytes",
        "UDP to port 69, 5 data bytes, checksum switched off: field 0",
        "UDP with the IPv4 option record route, header of 60 bytes, 7 data bytes",
        "TCP ACK of a SYN with ACK, no options agreed on",
        "TCP data segment, 63 data bytes, time stamps agreed on",
        "a packet of a raw socket, protocol 253, 0 data bytes",
        "a packet of a raw socket, protocol 89, 1 data byte",
    ];
    let message = [
        "dhclient's DISCOVER: no settings",
        "udhcpc's REQUEST: no settings",
        "dhcpcd's REQUEST: no ARP",
        "ipconfig's DISCOVER: DHCP",
        "dnsmasq's OFFER: no settings",
    ];
    let groups: [(&[&str], Damage); 3] = [
        (&whole, Damage::Whole),
        (&once, Damage::Once),
        (&message, Damage::Named),
    ];
    for (names, damage) in groups {
        for words in names {
            list.comment(&format!("damaged: {words}"));
            damaged(list, &sent(words), damage);
        }
    }
    list.comment("a TCP data segment with every offset");
    let segment = sent("TCP data segment, 101 data bytes, no options agreed on");
    for offset in 0..=15 {
        let changed = mended(with(segment.clone(), PAYLOAD_AT + 12, &[16 * offset]));
        if offset < 5 {
            list.refused(Origin::Damaged, "TCP: offset 5 to 15", &changed);
        } else {
            list.taken(Origin::Damaged, Kind::Tcp, &changed);
        }
    }
    list.comment("options in the IPv4 header");
    let every_length: Vec<usize> = (1..=10).map(|words| 4 * words).collect();
    for words in &whole[1..5] {
        header_options(list, &sent(words), &every_length);
    }
    header_options(list, &sent(whole[5]), &[4, 40]);
    list.comment("protocols");
    protocols(list);
    for words in [&whole[5..], &message].concat() {
        list.comment(&format!("lists changed: {words}"));
        lists_changed(list, &sent(words));
    }
}
