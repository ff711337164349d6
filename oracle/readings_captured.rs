//! The captured frames in the list of readings.

use crate::captured::{Captured, captured};
use crate::grammar_01::broken;
use crate::reading_cases::{Origin, ReadingList};

pub fn list(list: &mut ReadingList) {
    for Captured { words, frame } in captured() {
        list.comment(words);
        let broken = broken(&frame);
        if !broken.is_empty() {
            list.comment(&format!("outside the grammar: {}", broken.join("; ")));
        }
        list.judged(Origin::Captured, &frame);
    }
}
