use core::error::Error;
use core::fmt;

use crate::ffi::{self, State, Values};

/// How many payload bytes a store has.
pub const STORE_BYTES: usize = 65_515;
/// How many words of 64 bits a store has: a bit for each eight bytes.
pub const STORE_WORDS: usize = 128;

/// A guest's store, in which the fragments of one IPv4 datagram are put together.
///
/// The host lends its memory, in which anything may stand, and keeps one store for each guest. Frames go through
/// [`Store::take`]: whole datagrams pass by, and fragments are stored, in any order, until their datagram is complete. That stands
/// until [`Store::release`].
///
/// ```
/// use yavoledu::{STORE_BYTES, STORE_WORDS, Store, Taken};
///
/// // A datagram of 12 bytes from 10.0.2.15 to 192.0.2.1, in two fragments; the last comes first.
/// let last = [
///     0x52, 0x54, 0x00, 0x00, 0x00, 0x01, 0x52, 0x54, 0x00, 0x12, 0x34, 0x56, 0x08, 0x00, // Ethernet
///     0x45, 0, 0, 24, 0, 7, 0x00, 0x01, 64, 17, 0xac, 0xbd, 10, 0, 2, 15, 192, 0, 2, 1, // IPv4: from byte 8 on
///     b'e', b'n', b'd', b'.',
/// ];
/// let first = [
///     0x52, 0x54, 0x00, 0x00, 0x00, 0x01, 0x52, 0x54, 0x00, 0x12, 0x34, 0x56, 0x08, 0x00,
///     0x45, 0, 0, 28, 0, 7, 0x20, 0x00, 64, 17, 0x8c, 0xba, 10, 0, 2, 15, 192, 0, 2, 1, // from byte 0 on, and more come
///     b'a', b'l', b'l', b' ', b't', b'h', b'e', b' ',
/// ];
///
/// let mut bytes = [0; STORE_BYTES];
/// let mut bits = [0; STORE_WORDS];
/// let mut store = Store::new(&mut bytes, &mut bits);
/// assert_eq!(store.take(&last), Taken::Stored);
/// assert_eq!(store.take(&first), Taken::Complete(b"all the end."));
/// assert_eq!(store.datagram().map(|datagram| datagram.source), Some([10, 0, 2, 15]));
/// store.release();
/// ```
#[derive(Debug)]
pub struct Store<'a> {
    state: State,
    bytes: &'a mut [u8; STORE_BYTES],
    bits: &'a mut [u64; STORE_WORDS],
}

/// The name of a datagram: fragments that agree in all four belong to one.
#[derive(Clone, Copy, Debug, PartialEq, Eq, Hash)]
pub struct Datagram {
    /// The address that it comes from.
    pub source: [u8; 4],
    /// The address that it is for.
    pub target: [u8; 4],
    /// The protocol of its payload.
    pub protocol: u8,
    /// Its id.
    pub id: u16,
}

impl<'a> Store<'a> {
    /// An empty store in this memory. What stands in it doesn't matter.
    #[must_use]
    pub fn new(bytes: &'a mut [u8; STORE_BYTES], bits: &'a mut [u64; STORE_WORDS]) -> Store<'a> {
        let mut store = Store {
            state: State::default(),
            bytes,
            bits,
        };
        store.release();
        store
    }

    /// Takes a frame of the guest, of any length. A refused frame changes nothing, and neither does one that passes.
    ///
    /// It costs the fragment's own bytes and a pass over the words of bits, wherever the fragment belongs.
    pub fn take<'t>(&'t mut self, frame: &'t [u8]) -> Taken<'t> {
        let (number, place) = ffi::take(&mut self.state, frame, self.bytes, self.bits);
        Taken::of_number(number, place, frame, self.bytes)
    }

    /// Empties the store for the next datagram, at any time.
    pub fn release(&mut self) {
        // It answers 10 at another size, which the types exclude.
        ffi::release(&mut self.state, self.bytes, self.bits);
    }

    /// The datagram that the store holds, whole or in part.
    #[must_use]
    pub fn datagram(&self) -> Option<Datagram> {
        let state = &self.state;
        if state.phase == EMPTY {
            return None;
        }
        Some(Datagram {
            source: state.source.to_be_bytes(),
            target: state.target.to_be_bytes(),
            protocol: state.protocol as u8,
            id: state.id as u16,
        })
    }

    /// The payload of the datagram that stands in the store, where it is complete: what [`Taken::Complete`] has handed out.
    #[must_use]
    pub fn payload(&self) -> Option<&[u8]> {
        if self.state.phase != COMPLETE {
            return None;
        }
        self.bytes.get(..self.state.end as usize)
    }
}

const EMPTY: u32 = 0;
const COMPLETE: u32 = 3;

/// What came of a frame: the answer of [`Store::take`].
#[derive(Clone, Copy, Debug, PartialEq, Eq)]
#[must_use = "a payload is for the host to act on"]
pub enum Taken<'t> {
    /// The frame holds a whole datagram. This is its payload, in the frame; the store is as it was.
    Passed(&'t [u8]),
    /// The fragment is in the store, and others are missing.
    Stored,
    /// With this fragment its datagram is complete. This is its payload, in the store.
    Complete(&'t [u8]),
    /// Nothing was changed.
    Refused(Unstored),
}

impl<'t> Taken<'t> {
    /// The answer with this number in the header.
    // As with a verdict: that the number is one of these, and that the place lies inside, is proved, and nothing here panics.
    fn of_number(number: u32, place: Values, frame: &'t [u8], bytes: &'t [u8]) -> Taken<'t> {
        match number {
            20 => Taken::Passed(part(frame, place)),
            21 => Taken::Stored,
            22 => Taken::Complete(part(bytes, place)),
            11 => Taken::Refused(Unstored::Held),
            12 => Taken::Refused(Unstored::Overlap),
            13 => Taken::Refused(Unstored::WrongEnd),
            _ => Taken::Refused(Unstored::Unfit),
        }
    }
}

fn part(lent: &[u8], [start, len]: Values) -> &[u8] {
    let rest = lent.get(start..).unwrap_or_default();
    rest.get(..len).unwrap_or_default()
}

/// Why a frame was not taken: document 02's refusals, in the order of their tests.
///
/// ```
/// use yavoledu::Unstored;
///
/// assert_eq!(Unstored::Overlap.to_string(), "a block of the fragment is already there");
/// ```
#[derive(Clone, Copy, Debug, PartialEq, Eq, Hash)]
pub enum Unstored {
    /// 10: not an IPv4 packet with a sound header, a fragment of a bad length, or one past 65,515 bytes of payload.
    Unfit,
    /// 11: the store holds a complete datagram, or another one.
    Held,
    /// 12: a block of eight bytes is already there.
    Overlap,
    /// 13: a second last, a fragment past the known end, or a last that ends at or before a stored block's start.
    WrongEnd,
}

impl fmt::Display for Unstored {
    fn fmt(&self, formatter: &mut fmt::Formatter<'_>) -> fmt::Result {
        formatter.write_str(match self {
            Unstored::Unfit => "the frame is no sound IPv4 packet, or no fit fragment",
            Unstored::Held => "the store holds a complete datagram, or another one",
            Unstored::Overlap => "a block of the fragment is already there",
            Unstored::WrongEnd => "the fragment contradicts the datagram's end",
        })
    }
}

impl Error for Unstored {}

#[cfg(test)]
mod tests {
    use super::*;

    #[test]
    fn a_number_or_place_that_cannot_be_is_a_refusal_or_an_empty_part() {
        for number in [0, 9, 14, 23, u32::MAX] {
            let taken = Taken::of_number(number, [0, 1], &[1], &[2]);
            assert_eq!(taken, Taken::Refused(Unstored::Unfit));
        }
        for place in [[0, 2], [1, 1], [2, 0], [usize::MAX, usize::MAX]] {
            assert_eq!(part(&[1], place), &[]);
        }
        assert_eq!(
            Taken::of_number(20, [0, 1], &[1], &[2]),
            Taken::Passed(&[1])
        );
        assert_eq!(
            Taken::of_number(22, [0, 1], &[1], &[2]),
            Taken::Complete(&[2])
        );
    }
}
