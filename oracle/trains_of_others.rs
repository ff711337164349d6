//! Trains that others made, as oracle/capture-trains and oracle/scapy-trains wrote them down: what is to
//! be handed out is the sender's payload, and by the document's theorem every order of arrival ends with
//! it. Our judge is held to both.

use crate::draws::Draws;
use crate::train_frames::{DONT, Made, mended, ruled, with};
use crate::train_list::{Origin, Replay, TrainList};
use crate::train_pieces::read;

const CAPTURED: &str = include_str!("trains_captured.txt");
const SCAPY: &str = include_str!("trains_scapy.txt");

pub struct Train {
    pub words: String,
    pub payload: Vec<u8>,
    pub frames: Vec<Vec<u8>>,
}

fn trains(text: &str) -> Vec<Train> {
    let mut trains = Vec::new();
    let mut words = "";
    for line in text.lines() {
        let last: Option<&mut Train> = trains.last_mut();
        match line.split_at_checked(2) {
            Some(("# ", comment)) => words = comment,
            Some(("00", _)) => trains.push(Train {
                words: words.to_string(),
                payload: Vec::new(),
                frames: Vec::new(),
            }),
            Some(("02", pieces)) => last.unwrap().payload = read(pieces),
            Some(("01", pieces)) => last.unwrap().frames.push(read(pieces)),
            _ => assert!(line.is_empty() || line == "#", "{line}"),
        }
    }
    trains
}

pub fn captured() -> Vec<Train> {
    trains(CAPTURED)
}

fn shuffled<T: Copy>(draws: &mut Draws, items: &[T]) -> Vec<T> {
    let mut left = items.to_vec();
    let mut order = Vec::new();
    while !left.is_empty() {
        order.push(left.swap_remove(draws.below(left.len())));
    }
    order
}

/// The numbers below `n` in every order.
fn orders(n: usize) -> Vec<Vec<usize>> {
    if n == 0 {
        return vec![Vec::new()];
    }
    let mut all = Vec::new();
    for order in orders(n - 1) {
        for at in 0..n {
            let mut longer = order.clone();
            longer.insert(at, n - 1);
            all.push(longer);
        }
    }
    all
}

/// In order, reversed, and shuffled; of up to four frames every order.
fn arrivals<'a>(draws: &mut Draws, frames: &[&'a [u8]]) -> Vec<Vec<&'a [u8]>> {
    if frames.len() <= 4 {
        let all = orders(frames.len()).into_iter();
        return all
            .map(|order| order.into_iter().map(|at| frames[at]).collect())
            .collect();
    }
    let mut arrivals = vec![frames.to_vec(), frames.iter().rev().copied().collect()];
    // Those with an even number first, as two links that are used in turn might bring them.
    let mut turns: Vec<&[u8]> = frames.iter().step_by(2).copied().collect();
    turns.extend(frames.iter().skip(1).step_by(2));
    arrivals.push(turns);
    // The last first, and the others in order.
    let mut turned = frames.to_vec();
    turned.rotate_right(1);
    arrivals.push(turned);
    arrivals.extend((0..6).map(|_| shuffled(draws, frames)));
    arrivals
}

/// Frames that come a second time: some right behind the first, some later.
fn with_repeats(draws: &mut Draws, order: &[&[u8]], payload: &[u8]) -> Replay {
    let mut replay = Replay::new();
    let (last, others) = order.split_last().unwrap();
    for (at, frame) in others.iter().enumerate() {
        replay.stored(frame);
        if at % 4 == 0 {
            replay.refused(12, "already there", frame);
        }
        if at % 8 == 3 {
            replay.refused(12, "already there", others[draws.below(at + 1)]);
        }
    }
    replay.completes(last, payload);
    replay
}

/// The datagram stands until it is released: its own fragments and others' are refused, a frame with no
/// fragmentation passes; then the next datagram.
fn then_the_next(draws: &mut Draws, order: &[&[u8]], payload: &[u8], next: &Train) -> Replay {
    let mut replay = Replay::new();
    replay.train(order, payload);
    let other: Vec<&[u8]> = next.frames.iter().map(Vec::as_slice).collect();
    for frame in [
        order[0],
        order[order.len() - 1],
        order[draws.below(order.len())],
        other[0],
    ] {
        replay.refused(11, "complete", frame);
    }
    let whole = Made::whole(DONT, ruled(77, 33));
    replay.passes(&whole.frame(), &whole.data).releases();
    replay
        .train(&shuffled(draws, &other), &next.payload)
        .releases();
    replay.train(&other, &next.payload);
    replay
}

/// Half of a datagram is released, and it comes once more; another's fragments are refused between.
fn once_more(draws: &mut Draws, order: &[&[u8]], payload: &[u8], next: &Train) -> Replay {
    let mut replay = Replay::new();
    for frame in &order[..order.len() / 2] {
        replay.stored(frame);
    }
    replay.refused(11, "another one", &next.frames[0]);
    replay.releases();
    let again = shuffled(draws, order);
    let (last, others) = again.split_last().unwrap();
    for (at, frame) in others.iter().enumerate() {
        replay.stored(frame);
        if at % 8 == 0 {
            replay.refused(11, "another one", &next.frames[at / 8 % next.frames.len()]);
        }
    }
    replay.completes(last, payload);
    replay
}

fn list_train(list: &mut TrainList, origin: Origin, train: &Train, next: &Train) {
    list.train(origin, &train.words);
    let frames: Vec<&[u8]> = train.frames.iter().map(Vec::as_slice).collect();
    let payload = &train.payload;
    for order in arrivals(&mut list.draws, &frames) {
        let mut replay = Replay::new();
        replay.train(&order, payload);
        list.replay(&replay);
    }
    let reversed: Vec<&[u8]> = frames.iter().rev().copied().collect();
    for order in [&frames, &reversed] {
        let replay = with_repeats(&mut list.draws, order, payload);
        list.replay(&replay);
    }
    let order = shuffled(&mut list.draws, &frames);
    let replay = then_the_next(&mut list.draws, &order, payload, next);
    list.replay(&replay);
    let replay = once_more(&mut list.draws, &order, payload, next);
    list.replay(&replay);
    damaged(list, &frames, payload);
}

/// A fragment that was changed on the way is refused, and the right one is taken when it comes again.
fn damaged(list: &mut TrainList, frames: &[&[u8]], payload: &[u8]) {
    let mut replay = Replay::new();
    let (last, others) = frames.split_last().unwrap();
    for (at, frame) in others.iter().enumerate() {
        if at % 16 == 0 {
            let good = frame.to_vec();
            let sum = with(good.clone(), 24, &[good[24] ^ 1]);
            replay.refused(10, "header sums", &sum);
            let version = mended(with(good.clone(), 14, &[good[14] ^ 0x20]));
            replay.refused(10, "version", &version);
            let kind = with(good.clone(), 12, &[0x86, 0xdd]);
            replay.refused(10, "type", &kind);
            replay.refused(10, "within the frame", &good[..good.len() - 1]);
            replay.refused(10, "34 bytes", &good[..33]);
        }
        replay.stored(frame);
    }
    replay.completes(last, payload);
    list.replay(&replay);
}

pub fn list(list: &mut TrainList) {
    for (origin, trains) in [(Origin::Ping, captured()), (Origin::Scapy, trains(SCAPY))] {
        // The next datagram is a short one of the same origin: of ping 3,000 bytes in 6 fragments, of
        // scapy 9,000 bytes in 7.
        let words = ["-p", "id 0"][origin as usize - 1];
        let next = trains
            .iter()
            .position(|train| train.words.contains(words))
            .unwrap();
        for (at, train) in trains.iter().enumerate() {
            let next = if at == next { 0 } else { next };
            list_train(list, origin, train, &trains[next]);
        }
    }
}
