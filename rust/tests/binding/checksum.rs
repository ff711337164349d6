//! The checksum against document 01's values and the sum written in `frames`.

use crate::frames::{self, pattern};

#[test]
fn c1_to_c5() {
    assert_eq!(yavoledu::checksum(&[]), 0xffff);
    assert_eq!(yavoledu::checksum(&[0x01]), 0xfeff);
    assert_eq!(yavoledu::checksum(&[0x00, 0x01]), 0xfffe);
    assert_eq!(yavoledu::checksum(&[0xff, 0xff]), 0);
    assert_eq!(yavoledu::checksum(&[0xff, 0xff, 0x00, 0x01]), 0xfffe);
}

#[test]
fn every_short_length_from_every_place() {
    let bytes = pattern(400);
    for start in 0..16 {
        for stop in start..bytes.len() {
            let part = &bytes[start..stop];
            assert_eq!(
                yavoledu::checksum(part),
                frames::checksum(part),
                "{start}..{stop}"
            );
        }
    }
}

#[test]
fn lengths_past_what_a_sum_of_32_bits_is_certain_for() {
    for len in [
        65_535, 65_536, 65_537, 131_073, 131_074, 131_075, 131_076, 1_000_001,
    ] {
        for bytes in [vec![0xff; len], pattern(len), vec![0; len]] {
            assert_eq!(
                yavoledu::checksum(&bytes),
                frames::checksum(&bytes),
                "{len}"
            );
        }
    }
}

/// Of a longer input the library folds at each step, until so many bytes are left.
const PIECE: usize = 1_073_741_824;

#[test]
fn lengths_past_a_piece() {
    // Four parts are filled: where the steps with a fold are, in the middle, and on either side of a piece's length. The
    // zeros between them, which were never written to, take up no memory, and add nothing to a sum. Each part starts at an
    // even place, so the sum is that of the parts put together.
    const FILLED: usize = 100_000;
    let mut bytes = vec![0; PIECE + FILLED];
    // A 1 and behind it ones: the second step is folded to 2^32, the most that a step leaves.
    let mut to_the_most = vec![0xff; 4 * FILLED];
    to_the_most[..8].copy_from_slice(&[1, 0, 0, 0, 0, 0, 0, 0]);
    for parts in [vec![0xff; 4 * FILLED], to_the_most, pattern(4 * FILLED)] {
        let places = [0, PIECE / 2, PIECE - FILLED, PIECE];
        for (part, place) in parts.chunks(FILLED).zip(places) {
            bytes[place..place + FILLED].copy_from_slice(part);
        }
        for past in [0, 1, 7, 8, 9, 16, 23, 4_098, FILLED - 1, FILLED] {
            let len = PIECE + past;
            assert_eq!(
                yavoledu::checksum(&bytes[..len]),
                frames::checksum(&parts[..3 * FILLED + past]),
                "{len}"
            );
        }
    }
}
