use core::error::Error;
use core::fmt;

use crate::ffi::Values;

/// What a guest's frame gets: the answer of [`Guest::send`](crate::Guest::send).
///
/// | verdict | what changed |
/// |---|---|
/// | [`Drop`](Verdict::Drop) | at most the record's `xid` |
/// | [`Reply`](Verdict::Reply) | the reply's first bytes; `id` where the reply is IPv4; `xid` where it is DHCP |
/// | any other | nothing |
///
/// ```
/// use yavoledu::{Guest, NetworkPlan, Verdict};
///
/// fn describe(verdict: Verdict) -> String {
///     match verdict {
///         Verdict::Drop => format!("nothing to do"),
///         Verdict::Reply(n) => format!("{n} bytes for the guest"),
///         Verdict::Dns { start, len } => format!("a DNS query, {len} bytes from {start} on"),
///         Verdict::Relay { start, len } => format!("data for outside, {len} bytes from {start} on"),
///         Verdict::Tcp(len) => format!("a frame of {len} bytes for TCP"),
///         Verdict::NoRoom(needed) => format!("the reply needs {needed} bytes"),
///         Verdict::TooLong(len) => format!("a payload of {len} bytes is too long"),
///         Verdict::CutType(place) => format!("the DHCP message ends inside its option at {place}"),
///     }
/// }
/// let mut guest = Guest::new([0x52, 0x54, 0x00, 0x12, 0x34, 0x56], &NetworkPlan::DOCUMENT_01)?;
/// assert_eq!(describe(guest.send(&[], &mut [])), "nothing to do");
/// # Ok::<(), yavoledu::BadRecord>(())
/// ```
#[derive(Clone, Copy, Debug, PartialEq, Eq, Hash)]
#[must_use = "a reply has to go to the guest, and what is handed on to whom it is for"]
pub enum Verdict {
    /// Nothing is to be done.
    Drop,
    /// So many bytes, the first of the reply buffer, go to the guest: `reply[..n]`, which is always inside it.
    Reply(usize),
    /// A DNS query to the gateway: `frame[start..start + len]`, which is always inside the frame.
    Dns {
        /// The place of the query's first byte in the frame.
        start: usize,
        /// How many bytes it has.
        len: usize,
    },
    /// A UDP datagram for outside: its data is `frame[start..start + len]`, which is always inside the frame.
    Relay {
        /// The place of the data's first byte in the frame.
        start: usize,
        /// How many bytes it has.
        len: usize,
    },
    /// The frame is TCP's. The number is the frame's length.
    Tcp(usize),
    /// The reply needs so many bytes, and the buffer has fewer. The same call with room gives [`Verdict::Reply`] of this number.
    NoRoom(usize),
    /// A ping's payload of so many bytes, over 65,515, can't be sent back.
    TooLong(usize),
    /// The DHCP message ends inside its message type, an option at this place, counted from the message's first byte.
    CutType(usize),
}

impl Verdict {
    /// The verdict with this number in document 01.
    // That the number is one of 0 to 7 is proved. So that this crate has no panic, which would end a host that aborts on panic
    // and with it every guest's network, 0 is not told from a number that can't be: such a frame would be dropped.
    pub(crate) fn of_number(number: u32, [first, second]: Values) -> Verdict {
        match number {
            1 => Verdict::Reply(first),
            2 => Verdict::Dns {
                start: first,
                len: second,
            },
            3 => Verdict::Relay {
                start: first,
                len: second,
            },
            4 => Verdict::Tcp(first),
            5 => Verdict::NoRoom(first),
            6 => Verdict::TooLong(first),
            7 => Verdict::CutType(first),
            _ => Verdict::Drop,
        }
    }
}

/// Why a builder built nothing. Nothing was written then, and no id was spent.
///
/// ```
/// use yavoledu::{Refusal, make_udp_payload};
///
/// fn answer(data: &[u8], out: &mut [u8]) -> Result<usize, Refusal> {
///     make_udp_payload([10, 0, 2, 2], 53, [10, 0, 2, 15], 1024, data, out)
/// }
/// assert_eq!(answer(b"data", &mut [0; 11]), Err(Refusal::NoRoom(12)));
/// assert_eq!(answer(&[0; 65_528], &mut [0; 11]), Err(Refusal::TooLong(65_528)));
/// assert_eq!(Refusal::NoRoom(12).to_string(), "12 bytes are needed, and the buffer has fewer");
/// ```
#[derive(Clone, Copy, Debug, PartialEq, Eq, Hash)]
pub enum Refusal {
    /// So many bytes are needed, and the buffer has fewer.
    NoRoom(usize),
    /// So many bytes of payload or data are more than the length field of a packet can say.
    TooLong(usize),
}

impl Refusal {
    /// A builder's answer: 1, 5 or 6 in document 01, which is proved; as in [`Verdict::of_number`], no number panics.
    pub(crate) fn or_length(number: u32, [first, _]: Values) -> Result<usize, Refusal> {
        match number {
            1 => Ok(first),
            5 => Err(Refusal::NoRoom(first)),
            _ => Err(Refusal::TooLong(first)),
        }
    }
}

impl fmt::Display for Refusal {
    fn fmt(&self, formatter: &mut fmt::Formatter<'_>) -> fmt::Result {
        match self {
            Refusal::NoRoom(needed) => {
                write!(
                    formatter,
                    "{needed} bytes are needed, and the buffer has fewer"
                )
            }
            Refusal::TooLong(len) => write!(formatter, "{len} bytes are too long for one packet"),
        }
    }
}

impl Error for Refusal {}

#[cfg(test)]
mod tests {
    use super::*;

    #[test]
    fn a_number_that_cannot_be_is_a_drop_or_a_refusal() {
        for number in [8, 9, u32::MAX] {
            assert_eq!(Verdict::of_number(number, [1, 2]), Verdict::Drop);
            assert_eq!(Refusal::or_length(number, [1, 2]), Err(Refusal::TooLong(1)));
        }
    }
}
