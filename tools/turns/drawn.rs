//! Inputs drawn at random, the same in every run, and a search that keeps what takes more turns.

use crate::built::Run;
use crate::calls::*;
use crate::frames::*;

const CALLS: usize = 150_000;
const LARGE_CALLS: usize = 3_000;
const TRAINS: usize = 4_000;
const STEPS: [(usize, usize); 2] = [(1_514, 20_000), (65_549, 1_500)];
const SEARCHES: usize = 3;

pub struct Draws(u64);

impl Default for Draws {
    fn default() -> Draws {
        Draws(0x9e37_79b9_7f4a_7c15)
    }
}

impl Draws {
    pub fn below(&mut self, end: usize) -> usize {
        self.0 ^= self.0 << 13;
        self.0 ^= self.0 >> 7;
        self.0 ^= self.0 << 17;
        ((self.0 >> 16) % end as u64) as usize
    }

    fn one_of<T: Copy>(&mut self, values: &[T]) -> T {
        values[self.below(values.len())]
    }

    fn byte(&mut self) -> u8 {
        self.below(256) as u8
    }

    /// Bytes of no order, all pads, mostly pads, or options that are short.
    fn bytes(&mut self, len: usize) -> Vec<u8> {
        match self.below(4) {
            0 => vec![0; len],
            1 => (0..len).map(|_| self.byte()).collect(),
            2 => (0..len)
                .map(|_| if self.below(40) == 0 { self.byte() } else { 0 })
                .collect(),
            _ => (0..len)
                .map(|_| self.one_of(&[0, 0, 1, 1, 2, 3, MESSAGE_TYPE, 12, END]))
                .collect(),
        }
    }
}

pub fn each(run: Run) {
    let mut draws = Draws::default();
    for number in 0..CALLS {
        let len = match draws.below(6) {
            0 => draws.below(120),
            1 => 1_514,
            2 => 1_400 + draws.below(200),
            _ => 34 + draws.below(1_600),
        };
        run(format!("drawn call {number}"), call(&mut draws, len));
    }
    for number in 0..LARGE_CALLS {
        let len = match draws.below(3) {
            0 => 65_549,
            1 => 65_480 + draws.below(140),
            _ => draws.below(140_000),
        };
        run(format!("drawn large call {number}"), call(&mut draws, len));
    }
    for number in 0..TRAINS {
        train(&mut draws, number, run);
    }
    for (len, steps) in STEPS {
        for number in 0..SEARCHES {
            for search in [send_of, read_of, take_of] {
                climb(&mut draws, len, steps, number, search, run);
            }
        }
    }
}

/// A frame of `len` bytes of a form that a guest's may have, its fields now and then at an edge or wrong.
fn frame(draws: &mut Draws, len: usize) -> Vec<u8> {
    if len < 42 {
        let mut frame = draws.bytes(len);
        if 14 <= len {
            frame[TYPE_AT..ETHERNET].copy_from_slice(&draws.one_of(&[
                [8, 0],
                [8, 6],
                [0x86, 0xdd],
            ]));
        }
        return frame;
    }
    if draws.below(16) == 0 {
        return arp(len);
    }
    let any = draws.byte();
    let protocol = draws.one_of(&[ICMP, TCP, UDP, UDP, UDP, any]);
    let any = draws.below(16);
    let header_words = draws.one_of(&[5, 5, 5, 6, 15, 0, 1, 3, any]);
    let mut frame = ipv4(len, header_words, protocol);
    let start = payload_at(&frame).min(len);
    let rest = draws.bytes(len - start);
    put(&mut frame, start, &rest);
    put(&mut frame, TARGET_AT, &GATEWAY);
    frame[PROTOCOL_AT] = protocol;
    let is_dhcp = draws.below(3) > 0;
    if protocol == ICMP && start < len {
        frame[start] = 8;
    }
    if protocol == TCP && start + 20 <= len {
        frame[start + 12] = draws.one_of(&[0x50, 0x50, 0xf0, 0x40]);
    }
    if protocol == UDP && start + 8 <= len {
        let ports = if is_dhcp {
            draws.one_of(&[[68, 67], [68, 67], [67, 68]])
        } else {
            [4_000, draws.one_of(&[53, 99])]
        };
        let stated = draws
            .one_of(&[
                len - start,
                len - start,
                len - start,
                65_535,
                len - start - 1,
                8,
                7,
            ])
            .min(65_535);
        put(
            &mut frame,
            start,
            &[
                0,
                ports[0] as u8,
                0,
                ports[1] as u8,
                (stated / 256) as u8,
                (stated % 256) as u8,
            ],
        );
        if ports[0] == 4_000 {
            put(&mut frame, start, &4_000u16.to_be_bytes());
        }
        if start + 8 + FIXED <= len {
            let any = draws.byte();
            put(
                &mut frame,
                start + 8,
                &[draws.one_of(&[1, 1, 2, any]), 1, 6],
            );
            put(&mut frame, start + 8 + COOKIE_AT, &COOKIE);
            let rest = len - start - 8 - FIXED;
            if 4 <= rest && draws.below(2) == 0 {
                let at = len - 1 - draws.below(rest.min(40) - 3);
                put(
                    &mut frame,
                    at - 3,
                    &[MESSAGE_TYPE, 1, draws.one_of(&[1, 3, 8, 9]), END],
                );
            }
        }
    }
    // What the payload was written over.
    if header_words < 5 {
        frame[PROTOCOL_AT] = protocol;
        frame[ETHERNET] = frame[ETHERNET] & 0xf0 | header_words as u8;
    }
    match draws.below(4) {
        0 => frame,
        1 => {
            let mut frame = with_sums(frame);
            let at = draws.below(len.min(60));
            frame[at] = draws.byte();
            frame
        }
        _ => with_sums(frame),
    }
}

fn call(draws: &mut Draws, len: usize) -> Call<'static> {
    let any = draws.below(400);
    let room = draws.one_of(&[65_549, 65_549, 65_549, 2_048, 342, 341, 42, 41, 0, any]);
    let n = len.saturating_sub(draws.below(60));
    match draws.below(12) {
        0..5 => Call::Send {
            frame: frame(draws, len),
            room,
        },
        5..8 => Call::Read {
            frame: frame(draws, len),
        },
        8 => Call::Checksum {
            data: draws.bytes(len).into(),
        },
        9 => Call::MakeIpFrame {
            payload: draws.bytes(n),
            room,
        },
        10 => Call::MakeUdpPayload {
            data: draws.bytes(n),
            room,
        },
        _ => Call::MakeTcpFrame {
            flags: draws.byte(),
            data: draws.bytes(n),
            room,
        },
    }
}

/// Fragments of a datagram or two, drawn one after the other into one store, which now and then is released.
fn train(draws: &mut Draws, number: usize, run: Run) {
    let mut store = Store::empty();
    let lens = draws.one_of(&[
        [60, 100],
        [600, 1_514],
        [1_514, 1_514],
        [9_000, 20_000],
        [40_000, 65_549],
    ]);
    for step in 0..12 {
        if draws.below(12) == 0 {
            let call = Call::Release {
                store: store.clone(),
            };
            if let Some((outcome, _)) = run(
                format!("drawn train {number}, released at step {step}"),
                call,
            ) {
                kept(&mut store, outcome);
            }
        }
        let any = draws.below(8_192);
        let first = draws.one_of(&[any, any % 64, any % 1_024, step * 185 % 8_192]);
        let any = draws.below(16);
        let header_words = draws.one_of(&[5, 5, 5, 5, 15, any]);
        let mut frame = fragment(
            lens[draws.below(2)],
            header_words,
            first,
            draws.below(3) > 0,
        );
        frame[19] = if draws.below(20) == 0 { 1 } else { 0 };
        if draws.below(8) == 0 {
            let any = draws.below(65_536) as u16;
            put(&mut frame, 16, &any.to_be_bytes());
        }
        let call = Call::Take {
            store: store.clone(),
            frame: with_header_sum(frame),
        };
        if let Some((outcome, _)) = run(format!("drawn train {number}, step {step}"), call) {
            kept(&mut store, outcome);
        }
    }
}

fn kept(store: &mut Store, outcome: Outcome) {
    store.bytes = outcome.written;
    if let Some((bits, state)) = outcome.store {
        store.bits = bits;
        store.state = state;
    }
}

fn send_of(_: &mut Draws, frame: Vec<u8>) -> Call<'static> {
    Call::Send {
        frame,
        room: 65_549,
    }
}

fn read_of(_: &mut Draws, frame: Vec<u8>) -> Call<'static> {
    Call::Read { frame }
}

fn take_of(draws: &mut Draws, frame: Vec<u8>) -> Call<'static> {
    let mut store = Store::empty();
    let number = |at: usize| u32::from_be_bytes(frame[at..at + 4].try_into().unwrap());
    let any = draws.below(65_536) as u32;
    let phase = draws.one_of(&[0, 1, 2, 2, 3]);
    let end = draws.one_of(&[65_515, 65_535, any]);
    store.state = [
        phase,
        number(26),
        number(30),
        frame[PROTOCOL_AT].into(),
        u16_at(&frame, 18) as u32,
        end,
    ];
    if draws.below(4) == 0 {
        store.bits[draws.below(BITMAP)] = 1 << draws.below(64);
    }
    Call::Take {
        store,
        frame: with_header_sum(frame),
    }
}

/// Starts from a drawn frame, changes a few places at a time, and goes on from what takes no fewer turns.
fn climb(
    draws: &mut Draws,
    len: usize,
    steps: usize,
    number: usize,
    of: fn(&mut Draws, Vec<u8>) -> Call<'static>,
    run: Run,
) {
    let mut best = frame(draws, len);
    let mut most = 0;
    for step in 0..steps {
        let mut next = best.clone();
        for _ in 0..1 + draws.below(4) {
            let near = draws.below(64);
            let far = draws.below(len);
            let at = draws.one_of(&[near, near, 14, 16, 17, 20, 21, 38, 39, far]);
            let any = draws.byte();
            next[at] = draws.one_of(&[
                any,
                any,
                0,
                1,
                8,
                UDP,
                TCP,
                MESSAGE_TYPE,
                END,
                0x44,
                0x43,
                0x45,
                0x4f,
                0x20,
            ]);
        }
        if draws.below(3) > 0 {
            next = with_sums(next);
        }
        let told =
            format!("a search for more turns in frames of {len}, search {number}, step {step}");
        if let Some((_, turns)) = run(told, of(draws, next.clone())) {
            if most <= turns {
                (best, most) = (next, turns);
            }
        }
    }
}
