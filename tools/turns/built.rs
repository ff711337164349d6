//! Inputs built on purpose to take as many turns as can be, and those around them.

use crate::calls::*;
use crate::frames::*;
use std::borrow::Cow;
use std::ops::RangeInclusive;
use turns::PIECE;

/// The two lengths that docs/LOOPS.md has columns for, and longer ones.
pub const LENGTHS: [usize; 4] = [1_514, 65_549, 70_000, 200_000];
const ROOM: usize = 65_549;
const FROM_GUEST: [u16; 2] = [68, 67];
const FROM_SERVER: [u16; 2] = [67, 68];

/// A length and those before it: a byte less may take the sum turns more, since eight bytes are one turn and seven are three.
fn up_to(longest: usize) -> RangeInclusive<usize> {
    longest - 9..=longest
}

/// Runs a call, told so, and hands back its outcome and its turns; nothing where it ended in a panic.
pub type Run<'a> = &'a mut dyn FnMut(String, Call) -> Option<(Outcome, u64)>;

pub fn each(run: Run) {
    pings(run);
    dhcp_sent(run);
    other_frames(run);
    readings(run);
    lists_read(run);
    fragments_of_a_small_frame(run);
    fragments_of_a_large_frame(run);
    builders(run);
    checksums(run);
    every_length(run);
    releases(run);
    makings(run);
}

fn send(run: Run, told: String, frame: Vec<u8>) {
    run(told, Call::Send { frame, room: ROOM });
}

/// Echo requests behind every header length, in frames of each length and in frames that hold the longest payload.
fn pings(run: Run) {
    for header_words in 1..16 {
        let start = 14 + 4 * header_words;
        let longest = start + PAYLOAD_LIMIT;
        for len in LENGTHS.into_iter().chain([60]).chain(up_to(longest + 1)) {
            if len < start + 8 {
                continue;
            }
            let told = format!(
                "a ping of {} bytes in a frame of {len}, header length {}",
                len - start,
                4 * header_words
            );
            send(run, told, ping(len, header_words));
        }
    }
    let frame = ping(1_514, 5);
    run(
        "a ping with no room".to_string(),
        Call::Send { frame, room: 1_513 },
    );
}

/// DHCP messages behind every header length that leaves them in the frame, their lists as long as can be.
fn dhcp_sent(run: Run) {
    let ends: [(&str, &[u8]); 7] = [
        ("all pads", &[]),
        ("pads, then a discover", &[53, 1, 1]),
        ("pads, then a request", &[53, 1, 3]),
        ("pads, then a type that gets no reply", &[53, 1, 2]),
        ("pads, then a type that is cut off", &[53, 1]),
        ("pads, then a code alone", &[53]),
        ("pads, then the end", &[END]),
    ];
    for header_words in (0..16).filter(|header_words| *header_words != 2) {
        for len in LENGTHS {
            for (told, last) in ends {
                let frame = with_last(dhcp_of_guest(len, header_words), last);
                let told = format!(
                    "DHCP, {told}, in a frame of {len}, header length {}",
                    4 * header_words
                );
                send(run, told, frame);
            }
        }
    }
    for len in LENGTHS {
        let mut frame = dhcp_of_guest(len, 0);
        let (start, stop) = data_of(&frame).unwrap();
        for at in (start + FIXED..stop - 1).step_by(2) {
            put(&mut frame, at, &[1, 0]);
        }
        send(
            run,
            format!("DHCP, options of no length, in a frame of {len}"),
            frame,
        );
    }
    let frame = with_last(dhcp_of_guest(1_514, 0), &[53, 1, 1]);
    run(
        "DHCP with no room".to_string(),
        Call::Send { frame, room: 341 },
    );
}

/// With a header length of 0 the datagram starts where the IPv4 header does: port 68 is the bytes 00 44, and the protocol lies in the message.
/// With 4 the protocol is the low byte of the datagram's length, and with 8 it would be the low byte of its port.
fn dhcp_of_guest(len: usize, header_words: usize) -> Vec<u8> {
    let mut frame = dhcp(len, header_words, FROM_GUEST);
    frame[PROTOCOL_AT] = UDP;
    if header_words == 1 {
        frame[PROTOCOL_AT - 1] = 255;
    }
    frame
}

fn other_frames(run: Run) {
    for len in LENGTHS.into_iter().chain([42, 60]) {
        send(run, format!("an ARP request in a frame of {len}"), arp(len));
    }
    for len in LENGTHS {
        send(
            run,
            format!("a TCP segment in a frame of {len}"),
            segment(len, 5),
        );
        send(
            run,
            format!("a question to DNS in a frame of {len}"),
            datagram(len, 5, [4_000, 53]),
        );
        send(
            run,
            format!("a datagram in a frame of {len}"),
            datagram(len, 5, [4_000, 4_001]),
        );
        send(run, format!("zeros in a frame of {len}"), vec![0; len]);
    }
}

fn read(run: Run, told: String, frame: Vec<u8>) {
    run(told, Call::Read { frame });
}

/// Frames that the grammar takes, with every length of header.
fn readings(run: Run) {
    for len in LENGTHS.into_iter().chain(up_to(65_548)) {
        for header_words in 5..16 {
            let told = |what: &str| {
                format!(
                    "{what} in a frame of {len}, header length {}",
                    4 * header_words
                )
            };
            read(run, told("ICMP"), with_sums(ping(len, header_words)));
            read(
                run,
                told("UDP"),
                with_sums(datagram(len, header_words, [4_000, 4_001])),
            );
            read(run, told("TCP"), segment(len, header_words));
            read(
                run,
                told("another protocol"),
                with_sums(ipv4(len, header_words, 99)),
            );
            read(
                run,
                told("DHCP"),
                with_sums(dhcp(len, header_words, FROM_SERVER)),
            );
        }
        read(run, format!("ARP in a frame of {len}"), arp(len));
    }
    read(run, "ARP in a frame of 42".to_string(), arp(42));
}

/// DHCP messages of the longest list that the grammar takes, 1,232 bytes, and of shorter ones, behind every length of header.
fn lists_read(run: Run) {
    let ends: [(&str, &[u8]); 4] = [
        ("all pads", &[]),
        ("pads, then a type and the end", &[53, 1, 1, END]),
        ("pads, then a type", &[53, 1, 1]),
        ("pads, then the end", &[END]),
    ];
    for header_words in 5..16 {
        let front = 14 + 4 * header_words + 8 + FIXED;
        for list in [0, 4, 5, 60, 1_192, 1_231, 1_232, 1_233] {
            let len = front + list;
            for ports in [FROM_GUEST, FROM_SERVER] {
                for (told, last) in ends {
                    if last.len() <= list {
                        let frame = with_sums(with_last(dhcp(len, header_words, ports), last));
                        read(
                            run,
                            format!(
                                "DHCP with a list of {list} bytes, {told}, header length {}",
                                4 * header_words
                            ),
                            frame,
                        );
                    }
                }
                if 0 < list {
                    let mut frame = dhcp(len, header_words, ports);
                    frame[front] = END;
                    read(
                        run,
                        format!(
                            "DHCP with a list of {list} bytes, the end and its zeros, header length {}",
                            4 * header_words
                        ),
                        with_sums(frame),
                    );
                }
                let mut frame = dhcp(len, header_words, ports);
                for at in (front..len.saturating_sub(1)).step_by(2) {
                    put(&mut frame, at, &[1, 0]);
                }
                read(
                    run,
                    format!(
                        "DHCP with a list of {list} bytes, options of no length, header length {}",
                        4 * header_words
                    ),
                    with_sums(frame),
                );
            }
        }
    }
}

/// A store into which fragments of the same datagram as `frame`'s come.
fn filling(frame: &[u8], end: Option<u32>) -> Store {
    let number = |at: usize| u32::from_be_bytes(frame[at..at + 4].try_into().unwrap());
    let phase = if end.is_some() { 2 } else { 1 };
    Store {
        state: [
            phase,
            number(26),
            number(30),
            frame[PROTOCOL_AT].into(),
            u16_at(frame, 18) as u32,
            end.unwrap_or(0),
        ],
        ..Store::empty()
    }
}

fn take(run: Run, told: &str, store: Store, frame: Vec<u8>) {
    run(told.to_string(), Call::Take { store, frame });
}

/// In the last word of a bitmap, the bit of the last block that a payload can have.
const LAST_BLOCK: u64 = 1 << (8_189 % 64);

/// A frame of 1,514 bytes at each place in a datagram, as its last fragment and as another, into an empty store, one in which the last
/// block has come, and beside known ends.
fn fragments_of_a_small_frame(run: Run) {
    for first in 0..8_005 {
        for more in [true, false] {
            let frame = fragment(1_514, 5, first, more);
            let told = format!(
                "a fragment in a frame of 1514 from block {first} on, {}",
                if more { "more follow" } else { "the last" }
            );
            take(run, &told, Store::empty(), frame.clone());
            let mut beside = filling(&frame, None);
            *beside.bits.last_mut().unwrap() = LAST_BLOCK;
            take(
                run,
                &format!("{told}, the last block there"),
                beside,
                frame.clone(),
            );
            for end in [65_512, 65_515, 65_535] {
                take(
                    run,
                    &format!("{told}, the end known at {end}"),
                    filling(&frame, Some(end)),
                    frame.clone(),
                );
            }
        }
    }
    for header_words in 5..16 {
        for first in [0, 1, 7, 8, 62, 63, 64] {
            let frame = fragment(1_514, header_words, first, false);
            let told = format!(
                "the last fragment in a frame of 1514 from block {first} on, header length {}",
                4 * header_words
            );
            take(run, &told, Store::empty(), frame.clone());
            take(
                run,
                &format!("{told}, all there already"),
                full(&frame),
                frame.clone(),
            );
            let whole = with_header_sum(ipv4(1_514, header_words, ICMP));
            take(
                run,
                &format!(
                    "a whole datagram in a frame of 1514, header length {}",
                    4 * header_words
                ),
                Store::empty(),
                whole,
            );
        }
    }
}

fn full(frame: &[u8]) -> Store {
    Store {
        bits: vec![u64::MAX; BITMAP],
        ..filling(frame, None)
    }
}

/// Fragments that are as long as can be, and a whole train of two.
fn fragments_of_a_large_frame(run: Run) {
    for len in [65_549, 70_000, 200_000] {
        for header_words in 5..16 {
            let most = PAYLOAD_LIMIT.min(65_535 - 4 * header_words);
            for first in [0, 1, 2, 63, 64, 65, 4_000] {
                let length = most.min(PAYLOAD_LIMIT - 8 * first);
                for (more, length) in [(true, length / 8 * 8), (false, length)] {
                    let frame =
                        fragment_of(len, header_words, first, more, 4 * header_words + length);
                    let told = format!(
                        "a fragment of {length} bytes in a frame of {len} from block {first} on, header length {}",
                        4 * header_words
                    );
                    let told = told + if more { ", more follow" } else { ", the last" };
                    take(run, &told, Store::empty(), frame.clone());
                    for end in [65_512, 65_515, 65_535] {
                        take(
                            run,
                            &format!("{told}, the end known at {end}"),
                            filling(&frame, Some(end)),
                            frame.clone(),
                        );
                    }
                    take(
                        run,
                        &format!("{told}, beside others"),
                        filling(&frame, None),
                        frame.clone(),
                    );
                    take(
                        run,
                        &format!("{told}, all there already"),
                        full(&frame),
                        frame.clone(),
                    );
                }
            }
            let whole = with_header_sum(ipv4(len, header_words, ICMP));
            take(
                run,
                &format!(
                    "a whole datagram in a frame of {len}, header length {}",
                    4 * header_words
                ),
                Store::empty(),
                whole,
            );
        }
    }
    // The last three bytes of the longest datagram first, and then all others in one frame of 65,549 bytes.
    let last = fragment_of(60, 5, 8_189, false, 23);
    let mut store = filling(&last, Some(PAYLOAD_LIMIT as u32));
    store.bits[BITMAP - 1] = 1 << 61;
    take(
        run,
        "all but the last three bytes of the longest datagram, which came first",
        store,
        fragment_of(65_549, 5, 0, true, 65_532),
    );
}

/// The payload or data of frames of the two lengths, the longest that is taken and those before it, and one byte more.
fn builders(run: Run) {
    let byte = |len: usize| (0..len).map(|at| (at * 7) as u8).collect::<Vec<u8>>();
    for n in [0, 1, 3, 4, 5, 1_480]
        .into_iter()
        .chain(up_to(PAYLOAD_LIMIT + 1))
    {
        let told = format!("a payload of {n} bytes");
        run(
            told,
            Call::MakeIpFrame {
                payload: byte(n),
                room: ROOM,
            },
        );
    }
    for n in [0, 1, 3, 4, 5, 1_472, 65_507]
        .into_iter()
        .chain(up_to(65_528))
    {
        run(
            format!("data of {n} bytes"),
            Call::MakeUdpPayload {
                data: byte(n),
                room: 65_535,
            },
        );
    }
    for flags in [0x10, 0x12, 0x02, 0xff] {
        let options = if flags & 2 != 0 { 8 } else { 0 };
        for n in [0, 1, 3, 4, 5, 1_460 - options]
            .into_iter()
            .chain(up_to(65_496 - options))
        {
            let told = format!(
                "data of {n} bytes{}",
                if options == 8 { " with SYN" } else { "" }
            );
            run(
                told,
                Call::MakeTcpFrame {
                    flags,
                    data: byte(n),
                    room: ROOM,
                },
            );
        }
    }
    run(
        "no room".to_string(),
        Call::MakeIpFrame {
            payload: byte(1_480),
            room: 1_513,
        },
    );
    run(
        "no room".to_string(),
        Call::MakeUdpPayload {
            data: byte(1_472),
            room: 1_479,
        },
    );
    run(
        "no room".to_string(),
        Call::MakeTcpFrame {
            flags: 0,
            data: byte(1_460),
            room: 1_513,
        },
    );
}

/// Lengths around each step of the sum, for bytes that sum to the most and to nothing; around a whole piece for the most alone, but for
/// those of its start and its end.
fn checksums(run: Run) {
    let lengths = (0..70).chain(65_527..=65_549);
    for n in lengths.chain([1_514, 70_000, 200_000, 1_000_003]) {
        for byte in [0, 255] {
            checksum(run, vec![byte; n]);
        }
    }
    let mut bytes = vec![255; PIECE + 37];
    for at in (0..100).chain(PIECE - 100..PIECE + 37) {
        bytes[at] = (at * 7) as u8;
    }
    for n in [PIECE, PIECE + 1, PIECE + 37] {
        checksum(run, &bytes[..n]);
    }
}

fn checksum<'a>(run: Run, data: impl Into<Cow<'a, [u8]>>) {
    let data = data.into();
    run(format!("{} bytes", data.len()), Call::Checksum { data });
}

/// Each kind of call at every length up to somewhat past 1,514 bytes.
fn every_length(run: Run) {
    for len in 0..1_700 {
        let bytes = vec![0x5a; len];
        checksum(run, &bytes);
        run(
            format!("a payload of {len} bytes"),
            Call::MakeIpFrame {
                payload: bytes.clone(),
                room: ROOM,
            },
        );
        run(
            format!("data of {len} bytes"),
            Call::MakeUdpPayload {
                data: bytes.clone(),
                room: ROOM,
            },
        );
        for flags in [0x10, 0x12] {
            run(
                format!("data of {len} bytes, flags {flags}"),
                Call::MakeTcpFrame {
                    flags,
                    data: bytes.clone(),
                    room: ROOM,
                },
            );
        }
        send(run, format!("{len} bytes"), bytes);
        if len < 42 {
            continue;
        }
        for header_words in [1, 3, 5, 6] {
            send(
                run,
                format!(
                    "a ping in a frame of {len}, header length {}",
                    4 * header_words
                ),
                ping(len, header_words),
            );
        }
        for header_words in [5, 6] {
            read(
                run,
                format!("ICMP in a frame of {len}"),
                with_sums(ping(len, header_words)),
            );
            take_every_length(run, len, header_words);
        }
        if len < 54 {
            continue;
        }
        read(
            run,
            format!("UDP in a frame of {len}"),
            with_sums(datagram(len, 5, [4_000, 4_001])),
        );
        read(run, format!("TCP in a frame of {len}"), segment(len, 5));
        if len < 22 + FIXED + 3 + 20 {
            continue;
        }
        for header_words in [0, 5] {
            send(
                run,
                format!("DHCP, all pads, in a frame of {len}"),
                dhcp_of_guest(len, header_words),
            );
            send(
                run,
                format!("DHCP, a discover, in a frame of {len}"),
                with_last(dhcp_of_guest(len, header_words), &[53, 1, 1]),
            );
        }
        read(
            run,
            format!("DHCP, all pads, in a frame of {len}"),
            with_sums(dhcp(len, 5, FROM_GUEST)),
        );
    }
}

fn take_every_length(run: Run, len: usize, header_words: usize) {
    for (first, more) in [(0, true), (63, true), (63, false), (8_000, false)] {
        let told = format!(
            "a fragment in a frame of {len} from block {first} on, {}",
            if more { "more follow" } else { "the last" }
        );
        take(
            run,
            &told,
            Store::empty(),
            fragment(len, header_words, first, more),
        );
    }
}

fn releases(run: Run) {
    for bits in [0, u64::MAX] {
        let store = Store {
            bits: vec![bits; BITMAP],
            state: [3, 1, 2, 3, 4, 5],
            ..Store::empty()
        };
        run("a store at its size".to_string(), Call::Release { store });
    }
    for (bytes, bits) in [
        (PAYLOAD_LIMIT, 0),
        (PAYLOAD_LIMIT, 127),
        (PAYLOAD_LIMIT, 129),
        (PAYLOAD_LIMIT, 4_096),
        (0, 128),
        (65_516, 128),
    ] {
        let store = Store {
            bytes: vec![0; bytes],
            bits: vec![1; bits],
            ..Store::empty()
        };
        run(
            format!("a store of {bytes} bytes and {bits} words of bits"),
            Call::Release {
                store: store.clone(),
            },
        );
        let frame = fragment(1_514, 5, 0, true);
        run(
            format!("a store of {bytes} bytes and {bits} words of bits"),
            Call::Take { store, frame },
        );
    }
}

fn makings(run: Run) {
    for mask in [[255, 255, 255, 0], [255, 0, 255, 0], [0; 4]] {
        let call = Call::MakeGuest {
            gateway: GATEWAY,
            guest: GUEST,
            mask,
        };
        run(format!("the mask {mask:?}"), call);
    }
}
