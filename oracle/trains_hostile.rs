//! Trains that mean harm: each is made for an answer, and the judge has to give it.

use crate::train_frames::{
    DONT, HEADER_AT, MORE, Made, RESERVED, SUM_AT, mended, padded, ruled, with,
};
use crate::train_list::{LENT, Origin, Replay, TrainList};

const TYPE_AT: usize = 12;
const TOTAL_AT: usize = HEADER_AT + 2;
const ID_AT: usize = HEADER_AT + 4;
const TTL_AT: usize = HEADER_AT + 8;
const PROTOCOL_AT: usize = HEADER_AT + 9;
const SOURCE_AT: usize = HEADER_AT + 12;
const TARGET_AT: usize = HEADER_AT + 16;

const LARGEST: usize = 65_515;

fn part(payload: &[u8], start: usize, stop: usize) -> Vec<u8> {
    Made::part(payload, start, stop).frame()
}

fn last(payload: &[u8], start: usize) -> Vec<u8> {
    Made::last(payload, start).frame()
}

/// A fragment with bytes that are nobody else's.
fn strange(flags: u16, start: usize, len: usize) -> Vec<u8> {
    assert_eq!(start % 8, 0);
    Made::new(flags, start / 8, ruled(200, len)).frame()
}

fn hostile(list: &mut TrainList, words: &str, replay: &Replay) {
    list.train(Origin::Hostile, words);
    list.replay(replay);
}

fn overlaps(list: &mut TrainList) {
    let payload = ruled(1, 77);
    let mut replay = Replay::new();
    replay.stored(&part(&payload, 16, 40));
    for (start, len) in [
        (32, 16),
        (8, 16),
        (24, 8),
        (16, 8),
        (32, 8),
        (16, 24),
        (0, 64),
        (8, 40),
        (0, 24),
        (32, 1024),
    ] {
        replay.refused(12, "already there", &strange(MORE, start, len));
    }
    for (start, len) in [
        (32, 1),
        (32, 8),
        (24, 4),
        (16, 24),
        (16, 25),
        (8, 9),
        (24, 16),
    ] {
        replay.refused(12, "already there", &strange(0, start, len));
    }
    replay
        .stored(&part(&payload, 0, 16))
        .stored(&part(&payload, 56, 64));
    replay.refused(12, "already there", &strange(MORE, 40, 24));
    replay.refused(12, "already there", &strange(MORE, 48, 16));
    replay
        .stored(&last(&payload, 64))
        .completes(&part(&payload, 40, 56), &payload);
    hostile(
        list,
        "overlaps by one block and more, in front, behind, inside and around",
        &replay,
    );

    // Overlaps of one block where the words of the bits meet.
    let payload = ruled(2, 1601);
    for edge in [63, 64, 65, 127, 128, 129].map(|block| block * 8) {
        let mut replay = Replay::new();
        replay.stored(&part(&payload, edge, edge + 16));
        replay.refused(12, "already there", &strange(MORE, 0, edge + 8));
        replay.refused(12, "already there", &strange(MORE, edge + 8, 512));
        replay.refused(12, "already there", &strange(0, edge + 8, 600));
        replay
            .stored(&part(&payload, 0, edge))
            .stored(&last(&payload, edge + 520));
        replay.refused(12, "already there", &strange(MORE, edge + 512, 16));
        replay.refused(12, "already there", &strange(MORE, edge + 16, 512));
        replay.completes(&part(&payload, edge + 16, edge + 520), &payload);
        hostile(list, "overlaps where the words of the bits meet", &replay);
    }
}

/// Fragments that lie inside ones before them: what older stacks died of.
fn teardrops(list: &mut TrainList) {
    let payload = ruled(3, 40);
    let end = [payload.clone(), ruled(4, 9)].concat();
    let mut replay = Replay::new();
    replay.refused(10, "bad length", &strange(MORE, 0, 36));
    replay.stored(&part(&payload, 0, 40));
    replay.refused(12, "already there", &strange(0, 24, 4));
    replay.refused(12, "already there", &strange(0, 24, 16));
    replay.refused(12, "already there", &strange(0, 32, 20));
    replay.completes(&last(&end, 40), &end);
    hostile(list, "teardrop: a last inside the first", &replay);

    // The first of another size after it, as nestea has it.
    let mut replay = Replay::new();
    replay.refused(10, "bad length", &strange(MORE, 0, 18));
    replay.stored(&strange(0, 48 * 8, 116));
    replay.stored(&part(&payload, 0, 40));
    replay.refused(12, "already there", &strange(MORE, 0, 232));
    replay.refused(12, "already there", &strange(MORE, 0, 400));
    hostile(list, "nestea: a far last, and two firsts", &replay);

    let mut replay = Replay::new();
    replay.stored(&strange(0, 8, 8));
    replay.refused(12, "already there", &strange(MORE, 0, 16));
    replay.refused(13, "past the known end", &strange(MORE, 16, 8));
    replay
        .releases()
        .stored(&part(&payload, 0, 16))
        .completes(&last(&payload, 16), &payload);
    hostile(list, "a last first, and a first over it", &replay);
}

fn tiny(list: &mut TrainList) {
    let payload = ruled(5, 8 * 65 + 1);
    let parts = (0..65).map(|block| part(&payload, block * 8, block * 8 + 8));
    let mut frames: Vec<Vec<u8>> = parts.collect();
    frames.push(last(&payload, 65 * 8));
    for turn in [1, 5, 17, 65] {
        let mut replay = Replay::new();
        let order: Vec<&[u8]> = (0..66).map(|at| &frames[at * turn % 66][..]).collect();
        // 5, 17 and 65 have no divisor in common with 66, so every frame comes once.
        for (at, frame) in order[..65].iter().enumerate() {
            replay.stored(frame);
            if at % 8 == 7 {
                replay.refused(12, "already there", order[at / 2]);
            }
        }
        replay.completes(order[65], &payload);
        if turn == 1 {
            list.train(
                Origin::Hostile,
                "tiny fragments of one block, and a last of one byte",
            );
        }
        list.replay(&replay);
    }
}

fn ends(list: &mut TrainList) {
    let payload = ruled(6, 48);
    let mut replay = Replay::new();
    replay.stored(&last(&payload, 40));
    replay.refused(13, "a second last", &strange(0, 48, 2));
    replay.refused(13, "a second last", &strange(0, 8, 8));
    replay.refused(13, "a second last", &strange(0, 32, 8));
    replay.refused(13, "a second last", &strange(0, 65_512, 3));
    replay.refused(12, "already there", &strange(0, 40, 8));
    replay.refused(12, "already there", &strange(0, 40, 1));
    replay.refused(12, "already there", &strange(0, 32, 9));
    replay
        .stored(&part(&payload, 0, 24))
        .completes(&part(&payload, 24, 40), &payload);
    replay.refused(11, "complete", &strange(0, 48, 2));
    hostile(
        list,
        "two lasts; where one overlaps too it is 12 and not 13",
        &replay,
    );

    let payload = ruled(7, 33);
    let mut replay = Replay::new();
    replay
        .stored(&part(&payload, 0, 8))
        .stored(&part(&payload, 24, 32));
    for (start, len) in [
        (8, 8),
        (8, 16),
        (8, 15),
        (8, 9),
        (8, 1),
        (16, 8),
        (16, 7),
        (16, 1),
    ] {
        replay.refused(
            13,
            "at or before a stored block's start",
            &strange(0, start, len),
        );
    }
    replay.refused(12, "already there", &strange(0, 8, 17));
    replay.refused(12, "already there", &strange(0, 24, 8));
    replay
        .stored(&last(&payload, 32))
        .completes(&part(&payload, 8, 24), &payload);
    hostile(
        list,
        "a last in the middle: before a stored block, up to it, into it",
        &replay,
    );

    let payload = ruled(8, 20);
    let mut replay = Replay::new();
    replay.stored(&last(&payload, 16));
    for (start, len) in [(24, 8), (32, 8), (65_504, 8), (24, 800)] {
        replay.refused(13, "past the known end", &strange(MORE, start, len));
    }
    replay.refused(12, "already there", &strange(MORE, 8, 16));
    replay.refused(12, "already there", &strange(MORE, 16, 8));
    replay.refused(12, "already there", &strange(MORE, 0, 64));
    replay.completes(&part(&payload, 0, 16), &payload);
    hostile(
        list,
        "past the known end, which lies inside a block",
        &replay,
    );

    let payload = ruled(9, 24);
    let mut replay = Replay::new();
    replay.stored(&last(&payload, 16));
    replay.refused(13, "past the known end", &strange(MORE, 24, 8));
    replay
        .stored(&part(&payload, 8, 16))
        .completes(&part(&payload, 0, 8), &payload);
    hostile(list, "past the known end, which is a block's", &replay);

    list.train(Origin::Hostile, "lasts of 1 to 17 bytes");
    for len in 1..=17 {
        let payload = ruled(10, 16 + len);
        let mut replay = Replay::new();
        replay
            .stored(&last(&payload, 16))
            .completes(&part(&payload, 0, 16), &payload)
            .releases();
        replay
            .stored(&part(&payload, 0, 16))
            .completes(&last(&payload, 16), &payload);
        list.replay(&replay);
    }
}

fn lengths(list: &mut TrainList) {
    let payload = ruled(11, 31);
    let mut replay = Replay::new();
    replay.stored(&part(&payload, 8, 16));
    for len in [0, 1, 2, 3, 4, 5, 6, 7, 9, 12, 15, 17, 23, 1479, 1481] {
        replay.refused(10, "bad length", &strange(MORE, 0, len));
        replay.refused(10, "bad length", &strange(MORE, 24, len));
    }
    replay.refused(10, "bad length", &strange(0, 24, 0));
    replay.refused(10, "bad length", &strange(0, 65_528, 0));
    replay.refused(10, "bad length", &strange(MORE, 65_528, 0));
    replay
        .stored(&part(&payload, 0, 8))
        .completes(&last(&payload, 16), &payload);
    // 10 stands before 11.
    replay
        .refused(10, "bad length", &strange(MORE, 0, 7))
        .refused(10, "bad length", &strange(0, 24, 0));
    hostile(
        list,
        "a length that is no multiple of 8, and none at all",
        &replay,
    );
}

fn limits(list: &mut TrainList) {
    let payload = ruled(12, LARGEST);
    list.train(Origin::Hostile, "at 65,515 bytes and past them");
    let mut replay = Replay::new();
    for (flags, start, len) in [
        (0, 65_512, 4),
        (0, 65_512, 8),
        (0, 65_504, 12),
        (0, 65_520, 1),
        (0, 65_528, 1),
        (MORE, 65_512, 8),
        (MORE, 65_520, 8),
        (MORE, 65_528, 8),
        (MORE, 65_504, 16),
        (0, 64_120, 1480),
        (MORE, 8, 65_512),
        (0, 8, 65_508),
        (0, 65_528, 1480),
    ] {
        replay.refused(10, "past 65,515", &strange(flags, start, len));
    }
    let first = part(&payload, 0, 32_768);
    let second = part(&payload, 32_768, 65_504);
    let third = part(&payload, 65_504, 65_512);
    let end = last(&payload, 65_512);
    replay.stored(&end).stored(&second).stored(&third).refused(
        10,
        "past 65,515",
        &strange(0, 65_512, 4),
    );
    replay.completes(&first, &payload);
    // A full store.
    for frame in [&first, &third, &end] {
        replay.refused(11, "complete", frame);
    }
    replay
        .refused(10, "past 65,515", &strange(0, 65_512, 4))
        .refused(10, "bad length", &strange(MORE, 0, 9));
    replay
        .refused(11, "complete", &strange(MORE, 0, 8))
        .refused(11, "complete", &strange(0, 65_512, 3));
    let whole = Made::whole(0, ruled(13, 40));
    replay.passes(&whole.frame(), &whole.data).releases();
    replay
        .stored(&first)
        .stored(&second)
        .stored(&third)
        .completes(&end, &payload);
    list.replay(&replay);

    list.train(Origin::Hostile, "lasts that end at each of the last bytes");
    for end in 65_505..=LARGEST {
        let shorter = &payload[..end];
        let start = (end - 1) / 8 * 8;
        let mut replay = Replay::new();
        replay.stored(&first).stored(&last(shorter, start));
        if start == 65_512 {
            replay.stored(&third);
        }
        replay.completes(&second, shorter);
        list.replay(&replay);
    }
    list.train(
        Origin::Hostile,
        "the longest frame there is, and with bytes behind it",
    );
    let longest = part(&payload, 0, 65_512);
    let whole = Made::whole(DONT, payload.clone());
    for more in [0, 1, 500] {
        let mut replay = Replay::new();
        replay.passes(&padded(whole.frame(), 65_549 + more), &payload);
        replay
            .stored(&padded(longest.clone(), longest.len() + more))
            .completes(&end, &payload);
        list.replay(&replay);
    }
}

/// The datagram's name is source, target, protocol and id, and nothing else.
fn names(list: &mut TrainList) {
    let payload = ruled(14, 50);
    let frames = [
        part(&payload, 0, 16),
        part(&payload, 16, 48),
        last(&payload, 48),
    ];
    list.train(
        Origin::Hostile,
        "another datagram between, which differs in one byte of its name",
    );
    let places = (ID_AT..ID_AT + 2)
        .chain([PROTOCOL_AT])
        .chain(SOURCE_AT..TARGET_AT + 4);
    for at in places {
        for bit in [0x01, 0x80] {
            let other = |frame: &[u8]| mended(with(frame.to_vec(), at, &[frame[at] ^ bit]));
            let mut replay = Replay::new();
            replay.stored(&frames[0]);
            for frame in &frames {
                replay.refused(11, "another one", &other(frame));
            }
            replay
                .stored(&frames[2])
                .refused(11, "another one", &other(&frames[1]));
            replay
                .completes(&frames[1], &payload)
                .refused(11, "complete", &other(&frames[1]));
            replay.releases();
            let others = frames.each_ref().map(|frame| other(frame));
            replay
                .stored(&others[1])
                .refused(11, "another one", &frames[0])
                .stored(&others[2]);
            replay.completes(&others[0], &payload);
            list.replay(&replay);
        }
    }
    list.train(
        Origin::Hostile,
        "fields that are no part of the name differ",
    );
    let with_options = Made {
        options: vec![1, 1, 1, 0],
        ..Made::part(&payload, 16, 48)
    };
    let mut replay = Replay::new();
    let mac = with(frames[0].clone(), 0, &[0xff; 12]);
    let life = mended(with(frames[2].clone(), TTL_AT, &[1]));
    let service = mended(with(life, HEADER_AT + 1, &[0xff]));
    replay
        .stored(&mac)
        .stored(&service)
        .completes(&with_options.frame(), &payload);
    list.replay(&replay);
    let mut replay = Replay::new();
    for (at, flags) in [(0, RESERVED), (1, DONT), (2, DONT | RESERVED)] {
        let field = u16::from_be_bytes([frames[at][20], frames[at][21]]) | flags;
        let frame = mended(with(frames[at].clone(), 20, &field.to_be_bytes()));
        match at {
            2 => replay.completes(&frame, &payload),
            _ => replay.stored(&frame),
        };
    }
    list.replay(&replay);
}

/// A frame is cut at every length.
fn cuts(list: &mut TrainList) {
    let payload = ruled(15, 24);
    let [first, end] = [part(&payload, 0, 16), last(&payload, 16)];
    list.train(
        Origin::Hostile,
        "a frame cut in its header and in its payload",
    );
    let mut replay = Replay::new();
    for len in 0..first.len() {
        let why = if len < 34 {
            "34 bytes"
        } else {
            "within the frame"
        };
        replay.refused(10, why, &first[..len]);
    }
    replay.stored(&first);
    for len in 0..end.len() {
        let why = if len < 34 {
            "34 bytes"
        } else {
            "within the frame"
        };
        replay.refused(10, why, &end[..len]);
    }
    replay.completes(&end, &payload);
    replay
        .refused(10, "34 bytes", &end[..33])
        .refused(10, "within the frame", &end[..34]);
    list.replay(&replay);
    // The header's options are cut.
    let mut replay = Replay::new();
    let options = Made {
        options: vec![1; 40],
        ..Made::part(&payload, 0, 16)
    };
    let frame = options.frame();
    for len in [33, 34, 35, 53, 54, 73, 74, 75, 89] {
        replay.refused(
            10,
            if len < 34 {
                "34 bytes"
            } else {
                "within the frame"
            },
            &frame[..len],
        );
    }
    replay.stored(&frame).completes(&end, &payload);
    list.replay(&replay);
}

/// Headers of 4, 8, 12 and 16 bytes that have nothing else wrong: what stands in that many bytes sums
/// right, and there is a payload behind it of a good length.
fn short_headers() -> Vec<Vec<u8>> {
    let mut frames = Vec::new();
    for flags in [0, MORE] {
        for words in 1..5u16 {
            let made = Made {
                flags,
                ..Made::whole(flags, ruled(29, 56))
            };
            let total = if words == 1 {
                0xffff - 0x4100 - 7
            } else {
                words * 4 + 56
            };
            let mut frame = with(made.frame(), HEADER_AT, &[0x40 | words as u8, 7]);
            frame[TOTAL_AT..TOTAL_AT + 2].copy_from_slice(&total.to_be_bytes());
            match words {
                1 => frame.resize(HEADER_AT + usize::from(total), 0),
                2 => {
                    let first: u32 = 0x4207 + u32::from(total) + u32::from(flags);
                    frame = with(frame, ID_AT, &(0xffff - first as u16).to_be_bytes());
                }
                _ => frame = mended(frame),
            }
            let header = &frame[HEADER_AT..HEADER_AT + usize::from(words) * 4];
            let sum: u32 = header
                .chunks(2)
                .map(|word| u32::from(word[0]) << 8 | u32::from(word[1]))
                .sum();
            assert_eq!(sum % 0xffff, 0);
            frames.push(frame);
        }
    }
    frames
}

fn headers(list: &mut TrainList) {
    let payload = ruled(16, 64);
    let [first, end] = [part(&payload, 0, 56), last(&payload, 56)];
    let mut replay = Replay::new();
    for words in 0..5 {
        let frame = with(first.clone(), HEADER_AT, &[0x40 | words]);
        replay.refused(10, "header of 20 or more", &frame);
        replay.refused(10, "header of 20 or more", &mended(frame));
    }
    for frame in short_headers() {
        replay.refused(10, "header of 20 or more", &frame);
    }
    for version in (0..16).filter(|version| *version != 4) {
        let frame = with(first.clone(), HEADER_AT, &[version << 4 | 5]);
        replay
            .refused(10, "version", &frame)
            .refused(10, "version", &mended(frame));
    }
    for kind in [
        0x0000u16, 0x0008, 0x0600, 0x0700, 0x0801, 0x0806, 0x0900, 0x8035, 0x8100, 0x86dd, 0xffff,
    ] {
        replay.refused(
            10,
            "type",
            &with(first.clone(), TYPE_AT, &kind.to_be_bytes()),
        );
    }
    replay.stored(&first).completes(&end, &payload);
    hostile(
        list,
        "header under 20 bytes, another version, another type",
        &replay,
    );

    let mut replay = Replay::new();
    let whole = Made::whole(0, ruled(30, 56)).frame();
    for frame in [&first, &end, &whole] {
        for total in [0u16, 1, 4, 12, 16, 19] {
            let frame = with(frame.clone(), TOTAL_AT, &total.to_be_bytes());
            replay.refused(10, "header within", &mended(frame));
        }
        let total = frame.len() as u16 - 14;
        for more in [1u16, 2, 8, 0x8000] {
            let frame = with(frame.clone(), TOTAL_AT, &(total + more).to_be_bytes());
            replay.refused(10, "within the frame", &mended(frame));
        }
        replay.refused(
            10,
            "within the frame",
            &mended(with(frame.clone(), TOTAL_AT, &[0xff, 0xff])),
        );
    }
    for words in 6..=15u8 {
        let header = u16::from(words) * 4;
        for frame in [&first, &whole, &end] {
            let longer = with(padded(frame.clone(), 90), HEADER_AT, &[0x40 | words]);
            for total in [20, header - 8, header - 4, header - 1] {
                let frame = with(longer.clone(), TOTAL_AT, &total.to_be_bytes());
                replay.refused(
                    10,
                    if total > 19 {
                        "header within"
                    } else {
                        "header"
                    },
                    &mended(frame),
                );
            }
            let empty = mended(with(longer, TOTAL_AT, &header.to_be_bytes()));
            if frame == &whole {
                replay.passes(&empty, &[]);
            } else {
                replay.refused(10, "bad length", &empty);
            }
        }
    }
    replay.stored(&first).completes(&end, &payload);
    hostile(
        list,
        "header past the total length, and that past the frame",
        &replay,
    );

    list.train(Origin::Hostile, "headers with options, 6 to 15 words");
    for words in 1..=10 {
        let options: Vec<u8> = (0..words * 4).map(|at| 1 + (at % 3) as u8).collect();
        let [first, end] = [Made::part(&payload, 0, 56), Made::last(&payload, 56)].map(|made| {
            Made {
                options: options.clone(),
                ..made
            }
            .frame()
        });
        let mut replay = Replay::new();
        // A sum over the first 20 bytes alone is not the header's.
        let mut short = mended(with(first.clone(), HEADER_AT, &[0x45]));
        short[HEADER_AT] = first[HEADER_AT];
        replay.refused(10, "header sums", &short);
        let at = first.len() - 57;
        replay.refused(
            10,
            "header sums",
            &with(first.clone(), at, &[first[at] ^ 4]),
        );
        replay.stored(&end).completes(&first, &payload);
        let whole = Made {
            options,
            ..Made::whole(0, ruled(17, 20))
        };
        replay.passes(&whole.frame(), &whole.data);
        list.replay(&replay);
    }
}

fn sums(list: &mut TrainList) {
    let payload = ruled(18, 64);
    let [first, end] = [part(&payload, 0, 56), last(&payload, 56)];
    let mut replay = Replay::new();
    for bit in 0..16u16 {
        let sum = u16::from_be_bytes([first[SUM_AT], first[SUM_AT + 1]]);
        let frame = with(first.clone(), SUM_AT, &(sum ^ 1 << bit).to_be_bytes());
        replay.refused(10, "header sums", &frame);
    }
    for sum in [0u16, 0xffff] {
        replay.refused(
            10,
            "header sums",
            &with(first.clone(), SUM_AT, &sum.to_be_bytes()),
        );
    }
    // One bit of any other field, where no other refusal stands before it.
    for at in (HEADER_AT + 1..HEADER_AT + 20).filter(|at| !(SUM_AT..SUM_AT + 2).contains(at)) {
        let (bit, why) = if at == TOTAL_AT {
            (0x80, "within the frame")
        } else {
            (0x08, "header sums")
        };
        replay.refused(10, why, &with(first.clone(), at, &[first[at] ^ bit]));
    }
    // Two words exchanged sum to the same.
    let exchanged = [&first[..30], &first[32..34], &first[30..32], &first[34..]].concat();
    replay
        .stored(&exchanged)
        .refused(11, "another one", &end)
        .releases();
    replay.stored(&first).completes(&end, &payload);
    hostile(list, "wrong header sums", &replay);

    // A header that sums to 0xffff without its checksum: 0 and 0xffff are both right.
    let mut header = Made::part(&payload, 0, 56);
    header.id = 0;
    let frame = header.frame();
    header.id = u16::from_be_bytes([frame[SUM_AT], frame[SUM_AT + 1]]);
    let mut ending = Made::last(&payload, 56);
    ending.id = header.id;
    let zero = header.frame();
    assert_eq!(zero[SUM_AT..SUM_AT + 2], [0, 0]);
    let ones = with(zero.clone(), SUM_AT, &[0xff, 0xff]);
    list.train(Origin::Hostile, "a sum of 0, which is right as 0xffff too");
    for frame in [zero, ones] {
        let mut replay = Replay::new();
        replay.refused(10, "header sums", &with(frame.clone(), SUM_AT, &[0, 1]));
        replay.refused(
            10,
            "header sums",
            &with(frame.clone(), SUM_AT, &[0xff, 0xfe]),
        );
        replay.stored(&frame).completes(&ending.frame(), &payload);
        list.replay(&replay);
    }
}

fn padding(list: &mut TrainList) {
    let payload = ruled(19, 25);
    let frames = [
        part(&payload, 0, 8),
        part(&payload, 8, 24),
        last(&payload, 24),
    ];
    list.train(Origin::Hostile, "bytes behind the total length");
    for len in [60, 61, 64, 1514] {
        let frames = frames.each_ref().map(|frame| padded(frame.clone(), len));
        for order in [[0, 1, 2], [2, 1, 0], [1, 2, 0]] {
            let mut replay = Replay::new();
            replay.train(&order.map(|at| &frames[at][..]), &payload);
            let whole = Made::whole(0, ruled(20, 3));
            replay.passes(&padded(whole.frame(), len), &whole.data);
            list.replay(&replay);
        }
    }
}

fn unfragmented(list: &mut TrainList) {
    let payload = ruled(21, 40);
    let [first, end] = [part(&payload, 0, 32), last(&payload, 32)];
    let wholes: Vec<Made> = [0, DONT, RESERVED, DONT | RESERVED]
        .into_iter()
        .flat_map(|flags| [0, 1, 8, 13, 64].map(|len| Made::whole(flags, ruled(22, len))))
        .collect();
    let mut replay = Replay::new();
    let pass_all = |replay: &mut Replay| {
        for whole in &wholes {
            replay.passes(&whole.frame(), &whole.data);
        }
        // An unsound one does not pass.
        let frame = wholes[3].frame();
        replay.refused(10, "header sums", &with(frame.clone(), SUM_AT, &[0, 0]));
        replay.refused(10, "within the frame", &frame[..frame.len() - 1]);
        replay.refused(10, "34 bytes", &wholes[0].frame()[..33]);
    };
    pass_all(&mut replay);
    replay.stored(&first);
    pass_all(&mut replay);
    replay.completes(&end, &payload);
    pass_all(&mut replay);
    hostile(
        list,
        "frames with no fragmentation between, of the same name",
        &replay,
    );
}

/// 10 before 11 before 12 before 13.
fn order_of_refusals(list: &mut TrainList) {
    let payload = ruled(23, 60);
    let mut replay = Replay::new();
    replay
        .stored(&part(&payload, 16, 32))
        .stored(&last(&payload, 56));
    let other = |flags, start: usize, len| {
        let made = Made {
            id: 0x4321,
            ..Made::new(flags, start / 8, ruled(24, len))
        };
        made.frame()
    };
    // Of another datagram, and bad besides.
    replay.refused(10, "bad length", &other(MORE, 16, 9));
    replay.refused(10, "past 65,515", &other(0, 65_512, 4));
    replay.refused(11, "another one", &other(MORE, 16, 16));
    replay.refused(11, "another one", &other(0, 64, 5));
    replay.refused(11, "another one", &other(MORE, 64, 8));
    // Overlapping, and with a wrong end besides.
    replay.refused(12, "already there", &strange(0, 24, 3));
    replay.refused(12, "already there", &strange(0, 56, 4));
    replay.refused(12, "already there", &strange(MORE, 56, 16));
    replay.refused(13, "a second last", &strange(0, 8, 8));
    replay.refused(13, "past the known end", &strange(MORE, 64, 8));
    replay
        .stored(&part(&payload, 0, 16))
        .completes(&part(&payload, 32, 56), &payload);
    replay.refused(11, "complete", &strange(0, 24, 3)).refused(
        11,
        "complete",
        &strange(MORE, 64, 8),
    );
    hostile(list, "refusals in their order", &replay);
}

fn other_sizes(list: &mut TrainList) {
    let payload = ruled(25, 40);
    let [first, middle, end] = [
        part(&payload, 0, 16),
        part(&payload, 16, 32),
        last(&payload, 32),
    ];
    let whole = Made::whole(DONT, ruled(26, 24));
    let unfit = with(first.clone(), SUM_AT, &[0, 0]);
    list.train(Origin::Hostile, "a store lent at another size");
    for lent in 1..LENT.len() {
        let mut replay = Replay::new();
        let try_all = |replay: &mut Replay| {
            for frame in [
                Some(&first),
                Some(&middle),
                Some(&end),
                Some(&whole.frame()),
                Some(&unfit),
                None,
            ] {
                let said = replay.lent(lent, frame.map(|frame| &frame[..]));
                assert_eq!(
                    (said.answer, said.why),
                    (10, "a store lent at another size")
                );
            }
        };
        try_all(&mut replay);
        replay.stored(&middle);
        try_all(&mut replay);
        replay.stored(&end);
        try_all(&mut replay);
        replay.completes(&first, &payload);
        try_all(&mut replay);
        replay.refused(11, "complete", &first).releases();
        try_all(&mut replay);
        replay.train(&[&first, &middle, &end], &payload);
        list.replay(&replay);
    }
}

fn releases(list: &mut TrainList) {
    let payload = ruled(27, 40);
    let shorter = ruled(28, 19);
    let [first, middle, end] = [
        part(&payload, 0, 16),
        part(&payload, 16, 32),
        last(&payload, 32),
    ];
    let mut replay = Replay::new();
    replay.releases().releases().stored(&middle).releases();
    // What was stored before is gone: neither its blocks nor its end nor its name count.
    replay
        .stored(&strange(MORE, 16, 8))
        .stored(&strange(0, 24, 3))
        .releases();
    replay.stored(&first).stored(&end).releases();
    replay
        .stored(&last(&shorter, 16))
        .completes(&part(&shorter, 0, 16), &shorter)
        .releases();
    replay
        .train(&[&end, &first, &middle], &payload)
        .releases()
        .releases();
    // A shorter datagram where a longer one was, and none of its bytes.
    replay.train(&[&part(&shorter, 0, 16), &last(&shorter, 16)], &shorter);
    hostile(
        list,
        "releases of an empty store, one that fills and a complete one",
        &replay,
    );

    let mut replay = Replay::new();
    replay
        .stored(&last(&shorter, 16))
        .releases()
        .stored(&first)
        .stored(&middle);
    replay.completes(&end, &payload);
    hostile(
        list,
        "a first and no last, and a last that was released",
        &replay,
    );
}

pub fn list(list: &mut TrainList) {
    overlaps(list);
    teardrops(list);
    tiny(list);
    ends(list);
    lengths(list);
    limits(list);
    names(list);
    cuts(list);
    headers(list);
    sums(list);
    padding(list);
    unfragmented(list);
    order_of_refusals(list);
    other_sizes(list);
    releases(list);
}
