//! Bytes as pieces, the form of trains_text.py: 00 LENGTH(2) BYTES, or 01 LENGTH(2) FIRST STEP BEND, a
//! run of bytes, each the one before it and a step that starts as STEP and grows by BEND.

use crate::lines::{bytes_of, hex};

/// A shorter run is written out.
const SHORTEST_RUN: usize = 12;

/// `len` bytes of a run.
pub fn run(first: u8, step: u8, bend: u8, len: usize) -> Vec<u8> {
    let (mut value, mut grown) = (first, step);
    let next = |_| {
        let byte = value;
        value = value.wrapping_add(grown);
        grown = grown.wrapping_add(bend);
        byte
    };
    (0..len).map(next).collect()
}

/// The longest run that `bytes` start with: its length, and its first byte, step and bend.
fn first_run(bytes: &[u8]) -> (usize, [u8; 3]) {
    let [first, second, third, ..] = *bytes else {
        return (0, [0; 3]);
    };
    let step = second.wrapping_sub(first);
    let bend = third.wrapping_sub(second).wrapping_sub(step);
    let longest = &bytes[..bytes.len().min(0xffff)];
    let made = run(first, step, bend, longest.len());
    let len = longest
        .iter()
        .zip(&made)
        .take_while(|(a, b)| a == b)
        .count();
    (len, [first, step, bend])
}

fn end_plain(words: &mut Vec<String>, plain: &mut Vec<u8>) {
    if !plain.is_empty() {
        words.push(format!("00{:04x} {}", plain.len(), hex(plain)));
        plain.clear();
    }
}

pub fn written(bytes: &[u8]) -> String {
    let mut words = Vec::new();
    let mut plain = Vec::new();
    let mut at = 0;
    while at < bytes.len() {
        let (len, [first, step, bend]) = first_run(&bytes[at..]);
        if len < SHORTEST_RUN {
            plain.push(bytes[at]);
            at += 1;
        } else {
            end_plain(&mut words, &mut plain);
            words.push(format!("01{len:04x} {first:02x}{step:02x}{bend:02x}"));
            at += len;
        }
    }
    end_plain(&mut words, &mut plain);
    let words = words.join(" ");
    assert_eq!(read(&words), bytes);
    words
}

/// The bytes that pieces stand for.
pub fn read(words: &str) -> Vec<u8> {
    let line = bytes_of(words);
    let mut bytes = Vec::new();
    let mut rest = &line[..];
    while let [kind, high, low, behind @ ..] = rest {
        let len = usize::from(*high) * 256 + usize::from(*low);
        let taken = match kind {
            0 => {
                bytes.extend_from_slice(&behind[..len]);
                len
            }
            1 => {
                bytes.extend(run(behind[0], behind[1], behind[2], len));
                3
            }
            _ => panic!("no piece: {kind:02x}"),
        };
        rest = &behind[taken..];
    }
    assert!(rest.is_empty(), "half a piece");
    bytes
}
