//! Inputs longer than a piece, past which `sums` folds at each step: `checksum`, and `sum` from two starts,
//! compared with document 01's rule.

use crate::compare_ours;
use crate::compare_tally::grouped;
use crate::document_01;
use crate::draws::Draws;

/// Of a longer input `sum` folds at each step, until so many bytes are left.
const PIECE: usize = 1_073_741_824;
/// An even number, so that each part starts at an even place.
const FILLED: usize = 100_000;
/// The filled parts start where the steps with a fold are, in the middle, and on either side of a
/// piece's length. The zeros between them were never written to, so they take up no memory.
const PLACES: [usize; 4] = [0, PIECE / 2, PIECE - FILLED, PIECE];
const LENGTHS: [usize; 11] = [
    PIECE - 1,
    PIECE,
    PIECE + 1,
    PIECE + 7,
    PIECE + 8,
    PIECE + 9,
    PIECE + 16,
    PIECE + 23,
    PIECE + 4_098,
    PIECE + FILLED - 1,
    PIECE + FILLED,
];

/// Behind this start the first step over eight bytes of ff is folded to 2^32, the most that a step leaves.
const START_OF_THE_MOST: u16 = 0x0100;

/// Compares, prints the count or the first difference, and says whether there was none.
pub fn run(seed: u64) -> bool {
    let mut draws = Draws::new(seed | 1);
    let mut bytes = vec![0; PIECE + FILLED];
    let mut sums = 0;
    for parts in [vec![0xff; 4 * FILLED], draws.bytes(4 * FILLED)] {
        for (part, place) in parts.chunks(FILLED).zip(PLACES) {
            bytes[place..place + FILLED].copy_from_slice(part);
        }
        for len in LENGTHS {
            // The sum of the parts put together, since the zeros add nothing.
            let summed = &parts[..3 * FILLED + len - PIECE];
            let starts = [draws.start_of_a_sum(), START_OF_THE_MOST];
            let checksum = u16::from_be_bytes(document_01::checksum(summed));
            let sums_from = starts.map(|start| document_01::sum(start, summed));
            let expected = [checksum, sums_from[0], sums_from[1]];
            let input = &bytes[..len];
            let ours = [
                compare_ours::checksum(input),
                compare_ours::sum(starts[0], input),
                compare_ours::sum(starts[1], input),
            ];
            if ours != expected {
                eprintln!("a difference behind {sums} long sums");
                println!(
                    "checksum, and sum from {starts:04x?}, of {} bytes: expected {expected:04x?}, ours {ours:04x?}",
                    grouped(len as u64)
                );
                println!(
                    "the bytes: zeros, but for {FILLED} from each of the places {PLACES:?} on; the first are {:02x?}",
                    &parts[..8]
                );
                return false;
            }
            sums += ours.len();
        }
    }
    println!(
        "past a piece of {} bytes, seed {seed:#x}: {sums} long sums, 0 differences",
        grouped(PIECE as u64)
    );
    true
}
