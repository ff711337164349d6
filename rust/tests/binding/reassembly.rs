//! Trains of fragments through a store: document 02, request 4/13. The frames are put together here.

use std::collections::{BTreeMap, BTreeSet};

use yavoledu::{Datagram, STORE_BYTES, STORE_WORDS, Store, Taken, Unstored};

use crate::frames::*;

const ID: u16 = 0xb1b2;

const NAME: Datagram = Datagram {
    source: GUEST_IP,
    target: OUTSIDE_IP,
    protocol: UDP,
    id: ID,
};

/// A store's memory, in which anything stands.
struct Memory {
    bytes: Box<[u8; STORE_BYTES]>,
    bits: [u64; STORE_WORDS],
}

fn memory() -> Memory {
    Memory {
        bytes: Box::new([0xee; STORE_BYTES]),
        bits: [0xeeee_eeee_eeee_eeee; STORE_WORDS],
    }
}

impl Memory {
    fn store(&mut self) -> Store<'_> {
        Store::new(&mut self.bytes, &mut self.bits)
    }
}

/// A packet's flags and offset set, and its header's checksum made right again.
fn refit(mut packet: Vec<u8>, flags_and_offset: u16) -> Vec<u8> {
    let header = usize::from(packet[0] & 15) * 4;
    packet[6..8].copy_from_slice(&flags_and_offset.to_be_bytes());
    packet[10..12].copy_from_slice(&[0, 0]);
    let sum = checksum(&packet[..header]);
    packet[10..12].copy_from_slice(&sum.to_be_bytes());
    packet
}

/// The fragment of `name` that belongs at `offset`; the Ethernet frame goes on behind it.
fn fragment_of(name: Datagram, offset: usize, more: bool, payload: &[u8]) -> Vec<u8> {
    let packet = ipv4(
        name.id,
        name.protocol,
        name.source,
        name.target,
        &[],
        payload,
    );
    let more = if more { 0x2000 } else { 0 };
    let packet = refit(packet, more + (offset / 8) as u16);
    let padded = [&packet[..], &[0xaa; 3]].concat();
    ethernet(GATEWAY_MAC, GUEST_MAC, 0x0800, &padded)
}

fn fragment(offset: usize, more: bool, payload: &[u8]) -> Vec<u8> {
    fragment_of(NAME, offset, more, payload)
}

/// The datagram with this payload, cut in pieces of so many bytes.
fn train(payload: &[u8], piece: usize) -> Vec<Vec<u8>> {
    (0..payload.len())
        .step_by(piece)
        .map(|offset| {
            let stop = payload.len().min(offset + piece);
            fragment(offset, stop < payload.len(), &payload[offset..stop])
        })
        .collect()
}

/// A number below `bound`, from a generator that is the same in every run.
fn draw(seed: &mut u64, bound: usize) -> usize {
    *seed = seed.wrapping_mul(6_364_136_223_846_793_005).wrapping_add(1);
    (*seed >> 33) as usize % bound
}

fn shuffled(mut frames: Vec<Vec<u8>>, seed: &mut u64) -> Vec<Vec<u8>> {
    for last in (1..frames.len()).rev() {
        frames.swap(last, draw(seed, last + 1));
    }
    frames
}

/// All but the last frame are stored, and the last completes the payload.
fn assert_completes(store: &mut Store, frames: &[Vec<u8>], payload: &[u8]) {
    let (last, earlier) = frames.split_last().unwrap();
    for frame in earlier {
        assert_eq!(store.take(frame), Taken::Stored);
        assert_eq!(store.payload(), None);
    }
    assert_eq!(store.take(last), Taken::Complete(payload));
    assert_eq!(store.datagram(), Some(NAME));
    assert_eq!(store.payload(), Some(payload));
}

#[test]
fn a_train_completes_in_order_reversed_and_shuffled() {
    let mut memory = memory();
    let mut store = memory.store();
    let mut seed = 1;
    for (len, piece) in [
        (9, 8),
        (24, 8),
        (1_500, 1_480),
        (5_000, 552),
        (30_001, 1_480),
    ] {
        let payload = pattern(len);
        let frames = train(&payload, piece);
        assert_completes(&mut store, &frames, &payload);
        store.release();
        let reversed: Vec<_> = frames.iter().rev().cloned().collect();
        assert_completes(&mut store, &reversed, &payload);
        for _ in 0..20 {
            store.release();
            let frames = shuffled(frames.clone(), &mut seed);
            assert_completes(&mut store, &frames, &payload);
        }
        store.release();
    }
}

#[test]
fn the_longest_payload_fills_the_store() {
    let mut memory = memory();
    let payload = pattern(STORE_BYTES);
    let mut seed = 2;
    let frames = shuffled(train(&payload, 8), &mut seed);
    assert_eq!(frames.len(), 8_190);
    assert_completes(&mut memory.store(), &frames, &payload);
}

#[test]
fn pieces_of_every_size_complete() {
    let mut memory = memory();
    let mut store = memory.store();
    let mut seed = 3;
    for _ in 0..200 {
        let payload = pattern(1 + draw(&mut seed, 4_000));
        let (mut frames, mut offset) = (vec![], 0);
        while offset < payload.len() {
            let stop = payload.len().min(offset + 8 * (1 + draw(&mut seed, 100)));
            frames.push(fragment(
                offset,
                stop < payload.len(),
                &payload[offset..stop],
            ));
            offset = stop;
        }
        if frames.len() > 1 {
            assert_completes(&mut store, &shuffled(frames, &mut seed), &payload);
            store.release();
        }
    }
}

#[test]
fn a_whole_datagram_passes_by() {
    let mut memory = memory();
    let mut store = memory.store();
    for options in [&[][..], &[1; 4], &[1; 40]] {
        for len in [0, 1, 8, 1_480] {
            let payload = pattern(len);
            let packet = ipv4(ID, UDP, GUEST_IP, OUTSIDE_IP, options, &payload);
            let padded = [packet, vec![0xaa; 30]].concat();
            let frame = ethernet(GATEWAY_MAC, GUEST_MAC, 0x0800, &padded);
            assert_eq!(store.take(&frame), Taken::Passed(&payload));
            assert_eq!(store.datagram(), None);
        }
    }
    // and by a datagram that is being put together, or is complete
    let whole = from_guest(ICMP, GATEWAY_IP, b"whole");
    let frames = train(&pattern(20), 8);
    for frame in &frames {
        let _ = store.take(frame);
        assert_eq!(store.take(&whole), Taken::Passed(b"whole"));
        assert_eq!(store.datagram(), Some(NAME));
    }
    assert_eq!(store.payload(), Some(&pattern(20)[..]));
}

/// A refused frame leaves the store: what it holds afterwards is completed by the rest of its train.
fn assert_refused(store: &mut Store, frame: &[u8], reason: Unstored) {
    let before = (store.datagram(), store.payload().map(<[u8]>::to_vec));
    assert_eq!(store.take(frame), Taken::Refused(reason));
    let after = (store.datagram(), store.payload().map(<[u8]>::to_vec));
    assert_eq!(before, after);
}

#[test]
fn what_is_no_sound_packet_or_fit_fragment_is_10() {
    let mut memory = memory();
    let mut store = memory.store();
    let sound = fragment(8, true, &pattern(16));
    let changed = |at: usize, byte: u8| {
        let mut frame = sound.clone();
        frame[at] = byte;
        frame
    };
    let refitted = |at: usize, byte: u8| {
        let packet = refit(changed(at, byte)[14..].to_vec(), 0x2001);
        ethernet(GATEWAY_MAC, GUEST_MAC, 0x0800, &packet)
    };
    for frame in [
        vec![],
        sound[..33].to_vec(),
        sound[..49].to_vec(),       // shorter than its total length
        changed(13, 6),             // another type
        changed(24, sound[24] ^ 1), // a wrong sum
        changed(15, 1),
        refitted(14, 0x55),     // version 5
        refitted(14, 0x44),     // a header of 16 bytes
        refitted(17, 19),       // a total length below the header's
        fragment(8, true, &[]), // no byte
        fragment(8, false, &[]),
        fragment(8, true, &pattern(15)),
        fragment(65_512, true, &pattern(8)),
        fragment(65_512, false, &pattern(4)),
        fragment(65_528, false, &pattern(1)),
    ] {
        assert_refused(&mut store, &frame, Unstored::Unfit);
    }
    assert_eq!(
        store.take(&fragment(65_512, false, &pattern(3))),
        Taken::Stored
    );
    store.release();
    assert_eq!(store.take(&sound), Taken::Stored);
}

#[test]
fn another_datagram_is_11_and_so_is_all_on_a_complete_one() {
    let mut memory = memory();
    let mut store = memory.store();
    let payload = pattern(24);
    let frames = train(&payload, 8);
    assert_eq!(store.take(&frames[1]), Taken::Stored);
    let others = [
        Datagram {
            source: BROADCAST_IP,
            ..NAME
        },
        Datagram {
            target: BROADCAST_IP,
            ..NAME
        },
        Datagram {
            protocol: ICMP,
            ..NAME
        },
        Datagram { id: ID + 1, ..NAME },
    ];
    for other in others {
        let frame = fragment_of(other, 0, true, &pattern(8));
        assert_refused(&mut store, &frame, Unstored::Held);
    }
    assert_completes(
        &mut store,
        &[frames[0].clone(), frames[2].clone()],
        &payload,
    );
    for frame in &frames {
        assert_refused(&mut store, frame, Unstored::Held);
    }
    assert_refused(&mut store, &fragment(24, true, &pattern(8)), Unstored::Held);
    store.release();
    assert_eq!((store.datagram(), store.payload()), (None, None));
    let other = fragment_of(others[3], 0, true, &pattern(8));
    assert_eq!(store.take(&other), Taken::Stored);
    assert_eq!(store.datagram(), Some(others[3]));
}

#[test]
fn a_block_that_is_there_is_12() {
    let mut memory = memory();
    let mut store = memory.store();
    let payload = pattern(48);
    assert_eq!(
        store.take(&fragment(16, true, &payload[16..32])),
        Taken::Stored
    );
    for (offset, len) in [(16, 16), (16, 8), (24, 8), (8, 16), (24, 16), (0, 48)] {
        let frame = fragment(offset, true, &[0; 48][..len]);
        assert_refused(&mut store, &frame, Unstored::Overlap);
    }
    // a last one that touches a block there, before 13 is looked at
    assert_refused(&mut store, &fragment(24, false, &[0; 1]), Unstored::Overlap);
    let rest = [
        fragment(0, true, &payload[..16]),
        fragment(32, false, &payload[32..]),
    ];
    assert_completes(&mut store, &rest, &payload);
}

#[test]
fn a_wrong_end_is_13() {
    let mut memory = memory();
    let mut store = memory.store();
    let payload = pattern(29);
    // a last before a stored block
    assert_eq!(
        store.take(&fragment(16, true, &payload[16..24])),
        Taken::Stored
    );
    for last in [fragment(8, false, &[0; 8]), fragment(8, false, &[0; 1])] {
        assert_refused(&mut store, &last, Unstored::WrongEnd);
    }
    assert_eq!(
        store.take(&fragment(24, false, &payload[24..])),
        Taken::Stored
    );
    // a second last, and past the known end
    assert_refused(&mut store, &fragment(8, false, &[0; 8]), Unstored::WrongEnd);
    assert_refused(
        &mut store,
        &fragment(32, false, &[0; 8]),
        Unstored::WrongEnd,
    );
    assert_refused(&mut store, &fragment(32, true, &[0; 8]), Unstored::WrongEnd);
    assert_completes(&mut store, &[fragment(0, true, &payload[..16])], &payload);
}

#[test]
fn a_release_empties_the_store_at_any_time() {
    let mut memory = memory();
    let mut store = memory.store();
    let payload = pattern(100);
    let frames = train(&payload, 16);
    for come in 0..=frames.len() {
        for frame in &frames[..come] {
            let _ = store.take(frame);
        }
        store.release();
        assert_eq!((store.datagram(), store.payload()), (None, None));
        assert_completes(&mut store, &frames, &payload);
        store.release();
    }
}

#[test]
fn a_new_store_is_empty_whatever_its_memory_holds() {
    let mut memory = memory();
    let payload = pattern(40);
    assert_completes(&mut memory.store(), &train(&payload, 8), &payload);
    let store = memory.store();
    assert_eq!((store.datagram(), store.payload()), (None, None));
}

/// The document's rules on a set of blocks, one sentence a line.
#[derive(Default)]
struct Model {
    held: Option<Datagram>,
    blocks: BTreeSet<usize>,
    end: Option<usize>,
    complete: bool,
    payload: BTreeMap<usize, u8>,
}

impl Model {
    fn take(&mut self, name: Datagram, offset: usize, more: bool, payload: &[u8]) -> Answer {
        let stop = offset + payload.len();
        let blocks = offset / 8..stop.div_ceil(8);
        if offset == 0 && !more {
            return Answer::Passed(payload.to_vec());
        }
        if payload.is_empty() || more && payload.len() % 8 != 0 || stop > STORE_BYTES {
            return Answer::Refused(Unstored::Unfit);
        }
        if self.complete || self.held.is_some_and(|held| held != name) {
            return Answer::Refused(Unstored::Held);
        }
        if blocks.clone().any(|block| self.blocks.contains(&block)) {
            return Answer::Refused(Unstored::Overlap);
        }
        let wrong = match self.end {
            Some(end) => !more || stop > end,
            None => !more && self.blocks.iter().any(|block| stop <= block * 8),
        };
        if wrong {
            return Answer::Refused(Unstored::WrongEnd);
        }
        self.held = Some(name);
        self.blocks.extend(blocks);
        self.payload.extend((offset..).zip(payload.iter().copied()));
        if !more {
            self.end = Some(stop);
        }
        let whole = |end: usize| (0..end.div_ceil(8)).all(|block| self.blocks.contains(&block));
        self.complete = self.end.is_some_and(whole);
        if !self.complete {
            return Answer::Stored;
        }
        Answer::Complete(self.payload.values().copied().collect())
    }
}

#[derive(Debug, PartialEq)]
enum Answer {
    Passed(Vec<u8>),
    Stored,
    Complete(Vec<u8>),
    Refused(Unstored),
}

impl From<Taken<'_>> for Answer {
    fn from(taken: Taken) -> Answer {
        match taken {
            Taken::Passed(payload) => Answer::Passed(payload.to_vec()),
            Taken::Stored => Answer::Stored,
            Taken::Complete(payload) => Answer::Complete(payload.to_vec()),
            Taken::Refused(reason) => Answer::Refused(reason),
        }
    }
}

/// Fragments that are drawn, of few blocks so that they meet, at the front of the store and around the places where words and
/// the store end.
#[test]
fn drawn_fragments_get_what_the_document_says() {
    let mut memory = memory();
    let mut store = memory.store();
    let (mut model, mut seed) = (Model::default(), 4);
    let mut seen = [0; 7];
    for round in 0..60_000 {
        let places = [400, 480, 65_440, 65_512];
        let place = *places.get(draw(&mut seed, 40)).unwrap_or(&0);
        // The field counts blocks up to 8,191.
        let offset = (place + 8 * draw(&mut seed, 6)).min(65_528);
        let more = draw(&mut seed, 4) > 0;
        let len = match draw(&mut seed, 8) {
            0 => draw(&mut seed, 40),
            1 => 8 * (40 + draw(&mut seed, 80)),
            _ => 8 * (1 + draw(&mut seed, 3)),
        };
        let payload: Vec<u8> = (0..len).map(|_| draw(&mut seed, 256) as u8).collect();
        let id = if draw(&mut seed, 12) == 0 { ID + 1 } else { ID };
        let name = Datagram { id, ..NAME };
        let expected = model.take(name, offset, more, &payload);
        let frame = fragment_of(name, offset, more, &payload);
        assert_eq!(Answer::from(store.take(&frame)), expected, "round {round}");
        assert_eq!(store.datagram(), model.held, "round {round}");
        seen[match expected {
            Answer::Passed(_) => 0,
            Answer::Stored => 1,
            Answer::Complete(_) => 2,
            Answer::Refused(reason) => 3 + reason as usize,
        }] += 1;
        if draw(&mut seed, if model.complete { 3 } else { 40 }) == 0 {
            store.release();
            model = Model::default();
        }
    }
    assert!(seen.iter().all(|times| *times > 100), "{seen:?}");
}
