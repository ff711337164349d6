//! A long frame in few bytes: its pieces, as oracle/README.md says.

use crate::draws::{GATEWAY_MAC, GUEST_MAC};
use crate::lines::{ALL_ONES, ruled_bytes};

const WRITTEN: u8 = 1;
const ZEROS: u8 = 2;
const BY_RULE: u8 = 3;
const OF_FRAME: u8 = 4;
const USUAL_MACS: u8 = 5;
const MOST_WRITTEN: usize = 255;
/// Shorter runs are written out, since a piece of its own costs more.
const SHORTEST_ZEROS: usize = 6;
const SHORTEST_RULED: usize = 9;
const SHORTEST_COPY: usize = 12;

/// The bytes as pieces: long runs of zeros, by rule or out of the frame are named, and the rest is
/// written out.
pub fn pieces(bytes: &[u8], frame: &[u8]) -> Vec<u8> {
    let mut pieces = vec![];
    let (mut at, mut written_from) = (0, 0);
    while at < bytes.len() {
        let Some((run, named)) = named_run(bytes, at, frame) else {
            at += 1;
            continue;
        };
        write_out(&mut pieces, &bytes[written_from..at]);
        pieces.extend(named);
        at += run;
        written_from = at;
    }
    write_out(&mut pieces, &bytes[written_from..]);
    pieces
}

fn write_out(pieces: &mut Vec<u8>, bytes: &[u8]) {
    for chunk in bytes.chunks(MOST_WRITTEN) {
        pieces.extend([WRITTEN, chunk.len() as u8]);
        pieces.extend(chunk);
    }
}

/// The longest run from here on that can be named, and the piece that names it.
fn named_run(bytes: &[u8], at: usize, frame: &[u8]) -> Option<(usize, Vec<u8>)> {
    let remaining = &bytes[at..];
    if remaining.starts_with(&usual_macs()) {
        return Some((usual_macs().len(), vec![USUAL_MACS]));
    }
    let zeros = common(remaining.iter().copied(), std::iter::repeat(0)).min(65_535);
    if zeros >= SHORTEST_ZEROS {
        return Some((zeros, [&[ZEROS][..], &be16(zeros)].concat()));
    }
    // What is echoed stands as far from the frame's end as from the reply's.
    let place = (frame.len() + at).checked_sub(bytes.len());
    let copied = place.map_or(0, |place| {
        common(remaining.iter(), frame.get(place..).unwrap_or(&[]).iter())
    });
    if copied >= SHORTEST_COPY {
        let named = [&[OF_FRAME][..], &be32(place?), &be32(copied)];
        return Some((copied, named.concat()));
    }
    let seed = remaining[0];
    let ruled = common(remaining.iter().copied(), by_rule(seed));
    if seed != 0 && (seed < 251 || seed == ALL_ONES) && ruled >= SHORTEST_RULED {
        return Some((ruled, [&[BY_RULE, seed][..], &be32(ruled)].concat()));
    }
    None
}

/// The first bytes of most frames: to the gateway, from the guest.
fn usual_macs() -> Vec<u8> {
    [GATEWAY_MAC, GUEST_MAC].concat()
}

/// How far two run alike.
fn common<T: PartialEq>(one: impl Iterator<Item = T>, other: impl Iterator<Item = T>) -> usize {
    one.zip(other).take_while(|(a, b)| a == b).count()
}

fn by_rule(seed: u8) -> impl Iterator<Item = u8> {
    let step = if seed == ALL_ONES { 0 } else { 17 };
    let modulus = if seed == ALL_ONES { 256 } else { 251 };
    (0..).map(move |i: usize| ((seed as usize + step * i) % modulus) as u8)
}

fn be16(number: usize) -> [u8; 2] {
    (number as u16).to_be_bytes()
}

fn be32(number: usize) -> [u8; 4] {
    (number as u32).to_be_bytes()
}

/// The bytes that pieces stand for, as oracle/README.md says.
pub fn laid(mut pieces: &[u8], frame: &[u8]) -> Vec<u8> {
    let number = |bytes: &[u8]| bytes.iter().fold(0, |n, byte| 256 * n + *byte as usize);
    let mut bytes = vec![];
    while let [kind, fields @ ..] = pieces {
        let behind = match *kind {
            WRITTEN => {
                let end = 1 + fields[0] as usize;
                bytes.extend(&fields[1..end]);
                end
            }
            ZEROS => {
                bytes.extend(vec![0; number(&fields[..2])]);
                2
            }
            BY_RULE => {
                bytes.extend(ruled_bytes(fields[0], number(&fields[1..5])));
                5
            }
            OF_FRAME => {
                let (at, len) = (number(&fields[..4]), number(&fields[4..8]));
                bytes.extend(&frame[at..at + len]);
                8
            }
            USUAL_MACS => {
                bytes.extend(usual_macs());
                0
            }
            other => panic!("no piece has the kind {other}"),
        };
        pieces = &fields[behind..];
    }
    bytes
}
