//! The frames of captured exchanges in the list of readings: the guests' as they were sent, and our
//! gateway's, which have to be in the grammar, all of them. Of pings and of their echoes, which an exchange
//! has several times, the first of each length is listed.

use std::collections::HashSet;

use crate::grammar_01::{Kind, broken, read};
use crate::leases::{Sender, exchanges};
use crate::reading_cases::{Origin, ReadingList};
use crate::readings_own::kind_of;

pub fn list(list: &mut ReadingList) {
    for exchange in exchanges() {
        list.comment(exchange.words);
        let mut lengths = HashSet::new();
        for (sender, frame) in &exchange.frames {
            if frame[13] == 0 && frame[23] == 1 && !lengths.insert((*sender, frame.len())) {
                assert!(read(frame).is_some_and(|reading| reading.kind == Kind::Icmp));
                continue;
            }
            if *sender == Sender::Gateway {
                list.taken(Origin::Own, kind_of(frame), frame);
                continue;
            }
            let broken = broken(frame);
            if !broken.is_empty() {
                list.comment(&format!("outside the grammar: {}", broken.join("; ")));
            }
            list.judged(Origin::Captured, frame);
        }
    }
}
