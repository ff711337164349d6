//! The rows of reassembly: calls on a store, beside memcpy of the same bytes. There is no published Rust for it.

use std::hint::black_box;
use std::ops::Range;

use crate::calls::calls;
use crate::draws::GUEST_IP;
use crate::guest_frames::{BODY_AT, ELSEWHERE, UDP, packet, with};
use crate::inputs;
use crate::mended::with_header_sum;
use crate::numbers::grouped;
use crate::ours::{self, State};
use crate::rows::{Row, copying};

pub const BYTES: usize = 65_515;
pub const WORDS: usize = 128;
/// The datagram that is put together has so many bytes, all of them in whole blocks.
const LENGTH: usize = 65_512;
const BLOCKS: usize = LENGTH / 8;
const MIDDLE: usize = BLOCKS / 2 * 8;

/// What `packet` writes.
const ID: u32 = 0x1234;

pub fn all() -> Vec<Row> {
    let mut rows = vec![];
    for len in [8, 552, 1_480] {
        let last = LENGTH - len;
        let middle = MIDDLE / 8..(MIDDLE + len) / 8;
        let half = |block: usize| block < middle.start;
        let nearly = |block: usize| block < BLOCKS - 1 && !middle.contains(&block);
        let but_middle = |block: usize| !middle.contains(&block);
        let half_and_last = |block: usize| half(block) || block == BLOCKS - 1;
        let row = |how: &str, store, offset, answer| {
            let name = format!("{} bytes, {how}", grouped(len as u64));
            taking(name.leak(), store, offset, len, answer)
        };
        rows.extend([
            row("empty store", empty(), 0, ours::STORED),
            row("empty store, the last one", empty(), last, ours::STORED),
            row("half full", filling(half, None), MIDDLE, ours::STORED),
            row(
                "half full, end known",
                filling(half_and_last, Some(LENGTH)),
                MIDDLE,
                ours::STORED,
            ),
            row("nearly full", filling(nearly, None), MIDDLE, ours::STORED),
            row(
                "nearly full, end known: complete",
                filling(but_middle, Some(LENGTH)),
                MIDDLE,
                ours::COMPLETE,
            ),
        ]);
    }
    rows.extend([
        passing("whole frame of 1,480 bytes, half full"),
        refusing("1,480 bytes refused with 12, half full"),
        releasing("release"),
        train_of_45("45 fragments in order, 65,515 bytes, and a release"),
        putting_back("what is put back before each of the first 18"),
    ]);
    rows
}

/// What a host lends.
#[derive(Clone)]
pub struct Store {
    pub state: State,
    pub bytes: Vec<u8>,
    pub bits: [u64; WORDS],
}

pub fn empty() -> Store {
    let state = State {
        phase: 0,
        source: 0,
        target: 0,
        protocol: 0,
        id: 0,
        end: 0,
    };
    Store {
        state,
        bytes: vec![0; BYTES],
        bits: [0; WORDS],
    }
}

/// A store with these of the datagram's blocks.
fn filling(there: impl Fn(usize) -> bool, end: Option<usize>) -> Store {
    let mut store = empty();
    store.state = State {
        phase: if end.is_some() { 2 } else { 1 },
        source: u32::from_be_bytes(GUEST_IP),
        target: u32::from_be_bytes(ELSEWHERE),
        protocol: UDP.into(),
        id: ID,
        end: end.unwrap_or(0) as u32,
    };
    for block in (0..BLOCKS).filter(|block| there(*block)) {
        store.bits[block / 64] |= 1 << (block % 64);
    }
    store
}

pub fn half_full() -> Store {
    filling(|block| block < BLOCKS / 2, None)
}

/// A frame around this part of the datagram, its header's checksum right.
pub fn fragment(offset: usize, more: bool, payload: &[u8]) -> Vec<u8> {
    const FLAGS_AND_OFFSET_AT: usize = BODY_AT + 6;
    let more = if more { 0x2000 } else { 0 };
    let field = (more + (offset / 8) as u16).to_be_bytes();
    let whole = packet(UDP, ELSEWHERE, payload);
    with_header_sum(with(whole, FLAGS_AND_OFFSET_AT, &field))
}

#[inline(always)]
pub fn take(store: &mut Store, frame: &[u8], place: &mut [usize; 2]) -> u32 {
    let (bytes, bits) = (store.bytes.as_mut_ptr(), store.bits.as_mut_ptr());
    let (at, len) = (frame.as_ptr(), frame.len());
    unsafe { ours::yavoledu_take(&mut store.state, at, len, bytes, BYTES, bits, WORDS, place) }
}

#[inline(always)]
pub fn release(store: &mut Store) -> u32 {
    let (bytes, bits) = (store.bytes.as_ptr(), store.bits.as_mut_ptr());
    unsafe { ours::yavoledu_release(&mut store.state, bytes, BYTES, bits, WORDS) }
}

/// The words that have the bits of these bytes.
fn words_of(bytes: Range<usize>) -> Range<usize> {
    bytes.start / 512..(bytes.end - 1) / 512 + 1
}

/// The state and the words that a call changes, as they were: so each call finds the store as the first did.
#[inline(always)]
fn put_back(store: &mut Store, state: &State, words: &Range<usize>, bits: &[u64; WORDS]) {
    store.state = *state;
    for word in words.clone() {
        store.bits[word] = bits[word];
    }
}

fn taking(name: &'static str, mut store: Store, offset: usize, len: usize, answer: u32) -> Row {
    let payload: &'static [u8] = inputs::filling(len).leak();
    let frame: &'static [u8] = fragment(offset, offset + len < LENGTH, payload).leak();
    let (state, bits, words) = (store.state, store.bits, words_of(offset..offset + len));
    let mut place = [1; 2];
    assert_eq!(take(&mut store, frame, &mut place), answer, "{name}");
    let length = if answer == ours::COMPLETE { LENGTH } else { 0 };
    assert_eq!(place, [0, length], "{name}");
    assert_eq!(store.bytes[offset..offset + len], *payload, "{name}");
    let ours = calls(move || {
        put_back(&mut store, &state, &words, &bits);
        black_box(take(&mut store, black_box(frame), &mut place));
    });
    Row::of_ours(name, ours).beside_memcpy(copying(payload, offset))
}

fn passing(name: &'static str) -> Row {
    let frame: &'static [u8] = fragment(0, false, &inputs::filling(1_480)).leak();
    unchanging(name, frame, ours::PASSED, [34, 1_480])
}

fn refusing(name: &'static str) -> Row {
    let frame: &'static [u8] = fragment(1_480, true, &inputs::filling(1_480)).leak();
    unchanging(name, frame, ours::OVERLAP, [0, 0])
}

fn unchanging(name: &'static str, frame: &'static [u8], answer: u32, expected: [usize; 2]) -> Row {
    let (mut store, mut place) = (half_full(), [1; 2]);
    assert_eq!(take(&mut store, frame, &mut place), answer, "{name}");
    assert_eq!(place, expected, "{name}");
    let ours = calls(move || {
        black_box(take(&mut store, black_box(frame), &mut place));
    });
    Row::of_ours(name, ours)
}

/// Its 128 words are all that it writes, beside the state.
fn releasing(name: &'static str) -> Row {
    let mut store = half_full();
    assert_eq!(release(&mut store), ours::RELEASED, "{name}");
    assert_eq!(
        (store.state, store.bits),
        (empty().state, [0; WORDS]),
        "{name}"
    );
    let ours = calls(move || {
        black_box(release(black_box(&mut store)));
    });
    Row::of_ours(name, ours).beside_memcpy(copying(inputs::filling(WORDS * 8).leak(), 0))
}

fn train_of_45(name: &'static str) -> Row {
    let payload: &'static [u8] = inputs::filling(BYTES).leak();
    let frames: Vec<Vec<u8>> = (0..BYTES)
        .step_by(1_480)
        .map(|offset| {
            let stop = BYTES.min(offset + 1_480);
            fragment(offset, stop < BYTES, &payload[offset..stop])
        })
        .collect();
    assert_eq!(frames.len(), 45, "{name}");
    let (mut store, mut place) = (empty(), [0; 2]);
    let mut train = move || {
        release(&mut store);
        for frame in &frames {
            black_box(take(&mut store, black_box(frame), &mut place));
        }
        black_box(&store.bytes[place[0]..place[0] + place[1]] as *const [u8])
    };
    assert_eq!(unsafe { &*train() }, payload, "{name}");
    let ours = calls(move || {
        black_box(train());
    });
    Row::of_ours(name, ours).beside_memcpy(copying(payload, 0))
}

/// It is in the first 18 rows too; here for 1,480 bytes, which have the most words.
fn putting_back(name: &'static str) -> Row {
    let mut store = half_full();
    let (state, bits, words) = (store.state, store.bits, words_of(MIDDLE..MIDDLE + 1_480));
    let ours = calls(move || {
        put_back(&mut store, &state, &words, &bits);
        black_box(&mut store);
    });
    Row::of_ours(name, ours)
}
