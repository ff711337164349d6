//! Trains drawn at random, each list from a seed of its own: whole ones, of which the document's theorem
//! says what comes, damaged ones, and calls that are drawn from a few fragments of a few blocks, so that
//! nearly all of them meet. What the judge says is listed.

use crate::draws::Draws;
use crate::reassembly_02::COMPLETE;
use crate::train_frames::{DONT, HEADER_AT, MORE, Made, mended, padded, ruled};
use crate::train_list::{LENT, Origin, Replay, TrainList};
use crate::train_pieces::run;

const WHOLE: usize = 120;
const DAMAGED: usize = 200;
const CROWDED: usize = 20;
const REPLAYS_OF_A_CROWD: usize = 8;

const LARGEST: usize = 65_515;

fn payload(draws: &mut Draws) -> Vec<u8> {
    let len = match draws.below(20) {
        0..11 => 9 + draws.below(200),
        11..16 => 200 + draws.below(2_000),
        16..18 => 2_200 + draws.below(20_000),
        18 => 512 * (1 + draws.below(100)) + draws.below(2),
        _ => LARGEST - draws.below(24),
    };
    // Bytes of no order where there are few, and runs where there are many.
    if len < 40 {
        return draws.bytes(len);
    }
    let mut bytes = Vec::new();
    while bytes.len() < len {
        let [first, step, bend] = [(); 3].map(|()| draws.byte());
        bytes.extend(run(first, step, bend, 100 + draws.below(2_000)));
    }
    bytes.truncate(len);
    bytes
}

fn name(draws: &mut Draws) -> Made {
    Made {
        source: draws.ip(),
        target: draws.ip(),
        protocol: draws.proto(),
        id: draws.below(65_536) as u16,
        ..Made::whole(0, Vec::new())
    }
}

/// The payload from `start` up to `stop` as a frame, whose other fields are drawn.
fn fragment(draws: &mut Draws, name: &Made, payload: &[u8], start: usize, stop: usize) -> Vec<u8> {
    let more = if stop == payload.len() { 0 } else { MORE };
    let words = if draws.below(8) == 0 {
        draws.below(11)
    } else {
        0
    };
    let made = Made {
        flags: more | if draws.below(16) == 0 { DONT } else { 0 },
        offset: (start / 8) as u16,
        options: vec![1; words * 4],
        data: payload[start..stop].to_vec(),
        ..name.clone()
    };
    let frame = made.frame();
    if draws.below(4) == 0 {
        let len = 40 + draws.below(40);
        return padded(frame, len);
    }
    frame
}

/// The payload cut at drawn blocks.
fn cut(draws: &mut Draws, name: &Made, payload: &[u8]) -> Vec<Vec<u8>> {
    let blocks = (payload.len() - 1) / 8;
    let most = draws.one_of(&[1, 2, 4, 8, 12]);
    let mut cuts: Vec<usize> = (0..most).map(|_| (1 + draws.below(blocks)) * 8).collect();
    cuts.extend([0, payload.len()]);
    cuts.sort();
    cuts.dedup();
    let pairs = cuts.windows(2);
    pairs
        .map(|pair| fragment(draws, name, payload, pair[0], pair[1]))
        .collect()
}

fn shuffle(draws: &mut Draws, frames: &mut [Vec<u8>]) {
    for at in (1..frames.len()).rev() {
        frames.swap(at, draws.below(at + 1));
    }
}

fn whole_train(list: &mut TrainList) {
    list.train(Origin::Drawn, "drawn, whole");
    let draws = &mut list.draws;
    let (name, payload) = (name(draws), payload(draws));
    let mut frames = cut(draws, &name, &payload);
    let mut replay = Replay::new();
    for _ in 0..2 {
        shuffle(draws, &mut frames);
        let order: Vec<&[u8]> = frames.iter().map(Vec::as_slice).collect();
        replay.train(&order, &payload).releases();
    }
    list.replay(&replay);
}

/// A frame that does not belong where it comes.
fn intruder(draws: &mut Draws, name: &Made, payload: &[u8], frames: &[Vec<u8>]) -> Vec<u8> {
    let any = &frames[draws.below(frames.len())];
    let blocks = payload.len() / 8 + 3;
    let place = |draws: &mut Draws| draws.below(blocks).min(8_191);
    let drawn = |made: Made| Made {
        source: name.source,
        target: name.target,
        protocol: name.protocol,
        id: name.id,
        ..made
    };
    match draws.below(12) {
        0 => any.clone(),
        1 => {
            let (at, len) = (place(draws), 8 * (1 + draws.below(4)));
            drawn(Made::new(MORE, at, ruled(draws.byte(), len))).frame()
        }
        2 => {
            let (at, len) = (place(draws), 1 + draws.below(24));
            drawn(Made::new(0, at, ruled(draws.byte(), len))).frame()
        }
        3 => {
            let (at, len) = (place(draws), draws.below(20));
            drawn(Made::new(MORE, at, ruled(draws.byte(), len))).frame()
        }
        4 => {
            let (flags, at, len) = (
                draws.one_of(&[0, MORE]),
                8_180 + draws.below(12),
                draws.below(70),
            );
            drawn(Made::new(flags, at, ruled(draws.byte(), len))).frame()
        }
        5 => any[..draws.below(any.len())].to_vec(),
        6 => {
            let len = draws.below(30);
            drawn(Made::whole(
                draws.one_of(&[0, DONT]),
                ruled(draws.byte(), len),
            ))
            .frame()
        }
        // A byte of the header changed, and its sum made right or not.
        kind => {
            let mut frame = any.clone();
            frame[HEADER_AT - 2 + draws.below(22)] ^= 1 << draws.below(8);
            if kind % 2 == 0 { mended(frame) } else { frame }
        }
    }
}

fn damaged_train(list: &mut TrainList) {
    list.train(Origin::Drawn, "drawn, with frames between");
    let draws = &mut list.draws;
    let (name, payload) = (name(draws), payload(draws));
    let mut frames = cut(draws, &name, &payload);
    shuffle(draws, &mut frames);
    let rate = draws.one_of(&[2, 3, 5]);
    let mut replay = Replay::new();
    for frame in &frames {
        if draws.below(rate) == 0 {
            let between = intruder(draws, &name, &payload, &frames);
            let lent = if draws.below(12) == 0 {
                1 + draws.below(LENT.len() - 1)
            } else {
                0
            };
            replay.lent(lent, Some(&between));
        }
        if draws.below(40) == 0 {
            let lent = draws.below(LENT.len());
            replay.lent(lent, None);
        }
        replay.judged(frame);
    }
    // All once more: what is missing comes, what is there is refused.
    for frame in &frames {
        replay.judged(frame);
    }
    list.replay(&replay);
}

/// Fragments of the first few blocks, of two datagrams, and calls drawn from them.
fn crowd(list: &mut TrainList) {
    list.train(Origin::Drawn, "drawn from fragments of a few blocks");
    let draws = &mut list.draws;
    let name = name(draws);
    let mut frames = Vec::new();
    let seed = draws.byte();
    for place in 0..6 {
        for len in [8, 16, 24] {
            frames.push(Made::new(
                MORE,
                place,
                ruled(seed.wrapping_add(frames.len() as u8), len),
            ));
        }
        let len = 1 + draws.below(16);
        if place > 0 {
            frames.push(Made::new(0, place, ruled(draws.byte(), len)));
        }
    }
    frames.push(Made::whole(0, ruled(draws.byte(), 5)));
    let named = |made: &Made| Made {
        flags: made.flags,
        offset: made.offset,
        data: made.data.clone(),
        ..name.clone()
    };
    let frames: Vec<Vec<u8>> = frames.iter().map(|made| named(made).frame()).collect();
    let other = Made {
        id: name.id ^ 1,
        ..Made::new(MORE, 0, ruled(7, 8))
    }
    .frame();
    for _ in 0..REPLAYS_OF_A_CROWD {
        let draws = &mut list.draws;
        let mut replay = Replay::new();
        for _ in 0..30 {
            let said = match draws.below(24) {
                0 => replay.lent(0, None),
                1 => replay.judged(&other),
                _ => replay.judged(&frames[draws.below(frames.len())]),
            };
            if said.answer == COMPLETE && draws.below(4) > 0 {
                replay.releases();
            }
        }
        list.replay(&replay);
    }
}

pub fn list(list: &mut TrainList) {
    for _ in 0..WHOLE {
        whole_train(list);
    }
    for _ in 0..DAMAGED {
        damaged_train(list);
    }
    for _ in 0..CROWDED {
        crowd(list);
    }
}
