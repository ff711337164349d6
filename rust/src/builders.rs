use crate::Refusal;
use crate::ffi;

/// Between whom a TCP segment goes, for [`Guest::make_tcp_frame`](crate::Guest::make_tcp_frame).
///
/// ```
/// let from_outside_to_the_guest = yavoledu::Endpoints {
///     dst_mac: [0x52, 0x54, 0x00, 0x12, 0x34, 0x56],
///     src_ip: [192, 0, 2, 1],
///     src_port: 443,
///     dst_ip: [10, 0, 2, 15],
///     dst_port: 49_152,
/// };
/// # let _ = from_outside_to_the_guest;
/// ```
#[derive(Clone, Copy, Debug, PartialEq, Eq, Hash)]
pub struct Endpoints {
    /// The MAC that the frame goes to. It comes from the gateway's.
    pub dst_mac: [u8; 6],
    /// The address that it comes from.
    pub src_ip: [u8; 4],
    /// The port that it comes from.
    pub src_port: u16,
    /// The address that it goes to.
    pub dst_ip: [u8; 4],
    /// The port that it goes to.
    pub dst_port: u16,
}

/// Builds a UDP datagram around at most 65,527 bytes of data, and answers its length: 8 bytes and the data.
///
/// Its checksum is that of RFC 768, over the pseudo-header, in which both addresses stand, the header and the
/// data. Where it comes to 0, 0xffff is written: a checksum of 0, which says that there is none, is never
/// sent. The addresses are no part of the datagram. They have to be those of the IPv4 header around it
/// ([`Guest::make_ip_frame`](crate::Guest::make_ip_frame)), or else its receiver finds the checksum wrong.
///
/// # Errors
///
/// [`Refusal::TooLong`] with more data; else [`Refusal::NoRoom`] where `out` is shorter than the datagram.
///
/// ```
/// use yavoledu::make_udp_payload;
///
/// let (outside, guest) = ([192, 0, 2, 1], [10, 0, 2, 15]);
/// let mut out = [0; 1480];
/// let n = make_udp_payload(outside, 53, guest, 1024, b"data", &mut out)?;
/// assert_eq!(&out[..n], b"\x00\x35\x04\x00\x00\x0c\x54\xcedata");
///
/// // The checksum of this one comes to 0.
/// make_udp_payload([10, 0, 2, 2], 7, guest, 64_233, b"zero", &mut out)?;
/// assert_eq!(out[6..8], [0xff, 0xff]);
/// # Ok::<(), yavoledu::Refusal>(())
/// ```
pub fn make_udp_payload(
    src_ip: [u8; 4],
    src_port: u16,
    dst_ip: [u8; 4],
    dst_port: u16,
    data: &[u8],
    out: &mut [u8],
) -> Result<usize, Refusal> {
    let (number, values) = ffi::make_udp_payload(&src_ip, src_port, &dst_ip, dst_port, data, out);
    Refusal::or_length(number, values)
}

/// The Internet checksum of RFC 1071, of any number of bytes. An odd last byte is the high half of a word.
///
/// ```
/// assert_eq!(yavoledu::checksum(&[]), 0xffff);
/// assert_eq!(yavoledu::checksum(&[0x01]), 0xfeff);
/// assert_eq!(yavoledu::checksum(&[0xff, 0xff, 0x00, 0x01]), 0xfffe);
/// ```
#[must_use]
pub fn checksum(data: &[u8]) -> u16 {
    ffi::checksum(data)
}
