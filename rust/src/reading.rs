use core::ops::Range;

use crate::ffi::{self, Parts};

/// A header and its payload, as places in the frame, counted from its first byte.
///
/// ```
/// use yavoledu::{Guest, NetworkPlan, Reading, read};
///
/// let mut frame = [0; 41];
/// Guest::new([2, 0, 0, 0, 0, 1], &NetworkPlan::DOCUMENT_01)?
///     .make_ip_frame([0xff; 6], [10, 0, 2, 2], [10, 0, 2, 15], 253, b"payload", &mut frame)?;
/// match read(&frame) {
///     Some(Reading::OtherIpv4 { ip, .. }) => {
///         assert_eq!(frame[ip.header_range()].len(), 20);
///         assert_eq!(&frame[ip.payload_range()], b"payload");
///     }
///     reading => unreachable!("{reading:?}"),
/// }
/// # Ok::<(), Box<dyn std::error::Error>>(())
/// ```
#[repr(C)]
#[derive(Clone, Copy, Debug, PartialEq, Eq, Hash)]
pub struct Layer {
    /// Where the header starts.
    pub header: usize,
    /// Where the header stops and the payload starts.
    pub payload: usize,
    /// Where the payload stops.
    pub stop: usize,
}

impl Layer {
    /// The header's bytes in the frame.
    ///
    /// ```
    /// let layer = yavoledu::Layer { header: 14, payload: 34, stop: 42 };
    /// assert_eq!(layer.header_range(), 14..34);
    /// ```
    #[must_use]
    pub const fn header_range(&self) -> Range<usize> {
        self.header..self.payload
    }

    /// The payload's bytes in the frame.
    ///
    /// ```
    /// let layer = yavoledu::Layer { header: 14, payload: 34, stop: 42 };
    /// assert_eq!(layer.payload_range(), 34..42);
    /// ```
    #[must_use]
    pub const fn payload_range(&self) -> Range<usize> {
        self.payload..self.stop
    }
}

/// What a frame of the grammar is, and where its parts are: the answer of [`read`]. Every place is inside the frame.
///
/// ```
/// use yavoledu::{Reading, read};
///
/// fn sends_from(frame: &[u8]) -> Option<&[u8]> {
///     match read(frame)? {
///         Reading::Arp { .. } => None,
///         Reading::Icmp { ip, .. }
///         | Reading::Udp { ip, .. }
///         | Reading::Dhcp { ip, .. }
///         | Reading::Tcp { ip, .. }
///         | Reading::OtherIpv4 { ip, .. } => Some(&frame[ip.header_range()][12..16]),
///     }
/// }
/// # let mut frame = [0; 34];
/// # yavoledu::Guest::new([0; 6], &yavoledu::NetworkPlan::DOCUMENT_01)?
/// #     .make_ip_frame([0; 6], [10, 0, 2, 2], [10, 0, 2, 15], 253, &[], &mut frame)?;
/// assert_eq!(sends_from(&frame), Some(&[10, 0, 2, 2][..]));
/// # Ok::<(), Box<dyn std::error::Error>>(())
/// ```
#[derive(Clone, Copy, Debug, PartialEq, Eq, Hash)]
pub enum Reading {
    /// An ARP request or reply.
    Arp {
        /// Its payload is the ARP packet.
        ethernet: Layer,
    },
    /// An ICMP message.
    Icmp {
        /// Its payload is the IPv4 packet.
        ethernet: Layer,
        /// Its payload is the message.
        ip: Layer,
        /// Its header has 8 bytes.
        message: Layer,
    },
    /// A UDP datagram that is no DHCP message.
    Udp {
        /// Its payload is the IPv4 packet.
        ethernet: Layer,
        /// Its payload is the datagram.
        ip: Layer,
        /// Its payload is the data.
        datagram: Layer,
    },
    /// A DHCP message: a UDP datagram between the ports 67 and 68.
    Dhcp {
        /// Its payload is the IPv4 packet.
        ethernet: Layer,
        /// Its payload is the datagram.
        ip: Layer,
        /// Its payload is the message.
        datagram: Layer,
        /// Its header has 240 bytes, the last four the cookie; its payload is the options.
        message: Layer,
        /// The message type, 1 to 8: the value of its one option 53.
        message_type: u8,
    },
    /// A TCP segment.
    Tcp {
        /// Its payload is the IPv4 packet.
        ethernet: Layer,
        /// Its payload is the segment.
        ip: Layer,
        /// Its header holds the options; its payload is the data.
        segment: Layer,
    },
    /// An IPv4 packet of another protocol.
    OtherIpv4 {
        /// Its payload is the IPv4 packet.
        ethernet: Layer,
        /// Its payload is free.
        ip: Layer,
    },
}

/// Reads a frame strictly; it wants 64 kB of stack (65,536 bytes).
///
/// Call it on a thread that has them. It reads a DHCP list of options by calls inside calls, at most 2,465 deep, and the guest
/// chooses how deep by what it sends. Measured are 39,512 bytes on x86-64, on the deepest list (docs/BENCHMARKS.md); every
/// other call of this crate takes less than 1 kB.
///
/// The answer is what the frame is and where its parts are, or `None` where document 01's frame grammar doesn't derive it,
/// as with a byte too many, a wrong checksum or a fragment.
///
/// The gateway doesn't use the reader: it answers many a frame that is outside the grammar, such as a padded ARP request.
///
/// ```
/// use yavoledu::{Guest, NetworkPlan, Reading, make_udp_payload, read};
///
/// let (from, to) = ([192, 0, 2, 1], [10, 0, 2, 15]);
/// let mut datagram = [0; 12];
/// make_udp_payload(from, 7, to, 1024, b"data", &mut datagram)?;
/// let mut frame = [0; 47];
/// let n = Guest::new([2, 0, 0, 0, 0, 1], &NetworkPlan::DOCUMENT_01)?
///     .make_ip_frame([0xff; 6], from, to, 17, &datagram, &mut frame)?;
///
/// match read(&frame[..n]) {
///     Some(Reading::Udp { datagram, .. }) => assert_eq!(&frame[datagram.payload_range()], b"data"),
///     reading => unreachable!("{reading:?}"),
/// }
/// assert_eq!(read(&frame[..n + 1]), None);
/// # Ok::<(), Box<dyn std::error::Error>>(())
/// ```
#[must_use]
pub fn read(frame: &[u8]) -> Option<Reading> {
    let (kind, parts) = ffi::read(frame);
    Reading::of_kind(kind, parts)
}

impl Reading {
    // That the kind is 1 to 6 or 8 is proved. As with a verdict's number, 8 is not told from a kind that can't be, so that no kind
    // panics: such a frame would count as outside the grammar.
    fn of_kind(kind: u32, parts: Parts) -> Option<Reading> {
        let Parts {
            ethernet,
            ip,
            inner,
            dhcp,
            message_type,
        } = parts;
        let reading = match kind {
            1 => Reading::Arp { ethernet },
            2 => Reading::Icmp {
                ethernet,
                ip,
                message: inner,
            },
            3 => Reading::Udp {
                ethernet,
                ip,
                datagram: inner,
            },
            4 => Reading::Dhcp {
                ethernet,
                ip,
                datagram: inner,
                message: dhcp,
                message_type: message_type as u8, // 1 to 8, which is proved
            },
            5 => Reading::Tcp {
                ethernet,
                ip,
                segment: inner,
            },
            6 => Reading::OtherIpv4 { ethernet, ip },
            _ => return None,
        };
        Some(reading)
    }
}

#[cfg(test)]
mod tests {
    use super::*;

    #[test]
    fn a_kind_that_cannot_be_is_outside_the_grammar() {
        let (_, parts) = ffi::read(&[]);
        for kind in [0, 7, 9, u32::MAX] {
            assert_eq!(Reading::of_kind(kind, parts), None);
        }
    }
}
