//! The frames of a hostile guest: oracle's classes in turn, and frames cut at every length.

use std::ops::Range;

use crate::compare_drawn::{Captured, DRAWN, frame_of_any_length, long_frame};
use crate::compare_every::EVERY;
use crate::draws::Draws;
use crate::lines::ruled_bytes;

/// Rounds of all classes to a frame of tens of thousands of bytes, to one of hundreds of thousands, and to one that is
/// cut at every length.
const ROUNDS_TO_A_LONG_FRAME: u64 = 20;
const ROUNDS_TO_A_VERY_LONG_ONE: u64 = 400;
const ROUNDS_TO_A_CUT_ONE: u64 = 8;
const LONGEST: usize = 400_000;
/// A longer frame is not cut at every length.
const LONGEST_CUT: usize = 700;

pub struct Stream {
    pub draws: Draws,
    captured: Captured,
    /// The frames of this round, the next one last.
    waiting: Vec<Vec<u8>>,
    cut: Vec<u8>,
    cuts: Range<usize>,
    rounds: u64,
}

impl Stream {
    pub fn new(seed: u64) -> Self {
        // xorshift stays at 0.
        Stream {
            draws: Draws::new(seed | 1),
            captured: Captured::new(),
            waiting: vec![],
            cut: vec![],
            cuts: 0..0,
            rounds: 0,
        }
    }

    pub fn next(&mut self) -> Vec<u8> {
        if let Some(len) = self.cuts.next() {
            return self.cut[..len].to_vec();
        }
        loop {
            if let Some(frame) = self.waiting.pop() {
                return frame;
            }
            self.draw_a_round();
        }
    }

    fn draw_a_round(&mut self) {
        let draws = &mut self.draws;
        self.rounds += 1;
        for drawn in &DRAWN {
            for _ in 0..drawn.weight {
                self.waiting.push((drawn.frame)(draws, &self.captured));
            }
        }
        for every in &EVERY {
            self.waiting.push((every.frame)(draws.below(every.size)));
        }
        // Bytes of no form at all.
        let (short, any) = (draws.below(64), draws.below(2_048));
        let len = draws.one_of(&[short, any]);
        self.waiting.push(draws.bytes(len));
        if self.rounds % ROUNDS_TO_A_LONG_FRAME == 0 {
            self.waiting.push(frame_of_any_length(draws));
            self.waiting.push(long_frame(draws));
        }
        if self.rounds % ROUNDS_TO_A_VERY_LONG_ONE == 0 {
            let mut frame = frame_of_any_length(draws);
            let more = draws.below(LONGEST - frame.len());
            frame.extend(ruled_bytes(draws.rule_seed(), more));
            self.waiting.push(frame);
        }
        if self.rounds % ROUNDS_TO_A_CUT_ONE == 0 {
            self.cut = self.waiting[draws.below(self.waiting.len())].clone();
            self.cut.truncate(LONGEST_CUT);
            self.cuts = 0..self.cut.len() + 1;
        }
    }
}
