//! The guests' frames of captured exchanges as calls of the gateway, in their order and from a fresh record;
//! and what our gateway sent back in the capture, held to the Rust's answers byte for byte.

use crate::document_01::{Record, Verdict};
use crate::gateway_cases::{FRESH, GatewayList, USUAL_ROOM};
use crate::leases::{Exchange, Sender, exchanges};
use crate::networks::{HERE, NUMBER};

pub fn list() -> String {
    let mut list = GatewayList::new(0);
    list.lines.comment(&format!(
        "Exchanges of real guests, captured, on network {NUMBER}: each call is answered by the Rust."
    ));
    let here = |exchange: &Exchange| exchange.network == HERE;
    for exchange in exchanges().into_iter().filter(here) {
        list.group(exchange.words, |list| calls(list, &exchange));
    }
    list.finish()
}

fn calls(list: &mut GatewayList, exchange: &Exchange) {
    let start = Record {
        mac: exchange.mac,
        ..FRESH
    };
    let mut replies = vec![];
    for (turn, frame) in exchange.sent_by(Sender::Guest).iter().enumerate() {
        let verdict = match turn {
            0 => list.call(start, frame, USUAL_ROOM),
            _ => list.next_call(frame, USUAL_ROOM),
        };
        if let Verdict::Reply(_) = verdict {
            replies.push(list.reply().to_vec());
        }
    }
    assert!(!replies.is_empty(), "{}", exchange.words);
    assert!(
        replies == exchange.sent_by(Sender::Gateway),
        "{}: our gateway sent other frames than the Rust says",
        exchange.words
    );
}
