//! A sample of the calls compared, as lines that `replay` replays: of each class, verdict and answerer
//! the same number, each call with the same chance among those whose frame or line is short.

use std::collections::BTreeMap;

use crate::ask_gateway::Whose;
use crate::compare_call::Input;
use crate::document_01::{Answer, Record};
use crate::draws::Draws;
use crate::gateway_cases::line_with_record;

/// The list is stored, so most longer frames are not taken: of those from here on the ones with a
/// short line, since their bytes are by rule.
const LONGEST_FRAME: usize = 320;
const LONG_FRAME: usize = 4_000;
const LONGEST_LINE: usize = 1_000;

pub struct Sample {
    of_each: usize,
    draws: Draws,
    kept: BTreeMap<(usize, u8, Whose), (usize, Vec<String>)>,
}

impl Sample {
    /// The sample has draws of its own, so that it does not change what is compared.
    pub fn new(of_each: usize, seed: u64) -> Self {
        Sample {
            of_each,
            draws: Draws::new(!seed | 1),
            kept: BTreeMap::new(),
        }
    }

    pub fn offer(
        &mut self,
        (row, verdict): (usize, u8),
        before: Record,
        input: &Input,
        answer: &Answer,
        whose: Whose,
    ) {
        let line = || line_with_record(before, &input.bytes, input.room, answer, whose);
        let is_offered = match input.bytes.len() {
            _ if self.of_each == 0 => false,
            0..=LONGEST_FRAME => true,
            LONG_FRAME.. => line().len() <= LONGEST_LINE,
            _ => false,
        };
        if !is_offered {
            return;
        }
        let (seen, kept) = self.kept.entry((row, verdict, whose)).or_default();
        // The nth call takes a place with chance of_each / n, so that at the end each has the same.
        let place = self.draws.below(*seen + 1);
        *seen += 1;
        if kept.len() < self.of_each {
            kept.push(line());
        } else if place < self.of_each {
            kept[place] = line();
        }
    }

    /// The lines of each class behind its name.
    pub fn lines(&self, name: impl Fn(usize) -> String) -> Vec<String> {
        let mut lines = vec![];
        let mut class = None;
        for ((row, ..), (_, kept)) in &self.kept {
            if class != Some(row) {
                lines.push(format!("# {}", name(*row)));
                class = Some(row);
            }
            lines.extend(kept.iter().map(|line| line.trim_end().to_string()));
        }
        lines
    }
}
