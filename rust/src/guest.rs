use core::error::Error;
use core::fmt;
use core::mem::offset_of;

use crate::ffi;
use crate::{Endpoints, Refusal, Verdict};

/// The record that the host keeps for one guest: [`Guest::new`] makes one, and every call updates it.
///
/// It can be cloned, but not by accident (it isn't `Copy`): a copy builds frames with ids that the first has used too.
///
/// A host may also put one together, as to go on with a record that it saved. Every call answers for every record, with any
/// addresses and any mask, and none changes its MAC or its network.
///
/// ```
/// use yavoledu::{Guest, Network, NetworkPlan};
///
/// let guest = Guest::new([0x52, 0x54, 0x00, 0x12, 0x34, 0x56], &NetworkPlan::DOCUMENT_01)?;
/// let network = Network {
///     gateway: [10, 0, 2, 2],
///     guest: [10, 0, 2, 15],
///     mask: [255, 255, 255, 0],
///     lease: 86_400,
/// };
/// assert_eq!(guest, Guest { mac: [0x52, 0x54, 0x00, 0x12, 0x34, 0x56], id: 1, xid: 0, network });
/// # Ok::<(), yavoledu::BadRecord>(())
/// ```
#[repr(C)]
#[derive(Clone, Debug, PartialEq, Eq)]
pub struct Guest {
    /// The guest's MAC, which its DHCP replies carry.
    pub mac: [u8; 6],
    /// The id of the next IPv4 frame that is built for the guest. It goes from 65,535 to 0.
    ///
    /// The IPv4 frames that [`Guest::send`], [`Guest::make_ip_frame`] and [`Guest::make_tcp_frame`] build, one after the other,
    /// carry it at the start, then that plus 1, plus 2 and so on, modulo 65,536, in their bytes 18 and 19. Nothing else takes an
    /// id, neither an ARP reply nor a refusal; so two of them with the same id are a multiple of 65,536 of them apart. From a
    /// record that the host puts in this one's place, an older or a new one, the count starts anew.
    pub id: u16,
    /// The xid of the last DHCP message that was looked into: 240 bytes or more, its first byte 1, and not refused. Its first
    /// byte in the message is the highest.
    pub xid: u32,
    /// The network that the guest is on.
    pub network: Network,
}

/// The network of a record. Its broadcast address is the guest's address with every bit set that the mask leaves to the host.
///
/// ```
/// use yavoledu::{Guest, NetworkPlan};
///
/// let plan = NetworkPlan { lease: Some(3_600), ..NetworkPlan::DOCUMENT_01 };
/// let guest = Guest::new([2, 0, 0, 0, 0, 1], &plan)?;
/// assert_eq!(guest.network.gateway, plan.gateway);
/// assert_eq!(guest.network.lease, 3_600);
/// # Ok::<(), yavoledu::BadRecord>(())
/// ```
#[repr(C)]
#[derive(Clone, Copy, Debug, PartialEq, Eq, Hash)]
pub struct Network {
    /// The gateway's address: it answers ARP and pings, and takes DNS queries.
    pub gateway: [u8; 4],
    /// The guest's address, which DHCP gives it.
    pub guest: [u8; 4],
    /// The mask, which DHCP tells.
    pub mask: [u8; 4],
    /// The lease time that DHCP tells, in seconds.
    pub lease: u32,
}

// As in include/yavoledu.h.
const _: () = {
    assert!(size_of::<Network>() == 16 && align_of::<Network>() == 4);
    assert!(offset_of!(Network, gateway) == 0);
    assert!(offset_of!(Network, guest) == 4);
    assert!(offset_of!(Network, mask) == 8);
    assert!(offset_of!(Network, lease) == 12);
    assert!(size_of::<Guest>() == 28 && align_of::<Guest>() == 4);
    assert!(offset_of!(Guest, mac) == 0);
    assert!(offset_of!(Guest, id) == 6);
    assert!(offset_of!(Guest, xid) == 8);
    assert!(offset_of!(Guest, network) == 12);
};

/// What a new record's network is to be, for [`Guest::new`].
///
/// ```
/// use yavoledu::{Guest, NetworkPlan};
///
/// let plan = NetworkPlan {
///     gateway: [192, 168, 77, 1],
///     guest: [192, 168, 77, 9],
///     mask: [255, 255, 255, 192],
///     lease: None,
/// };
/// let guest = Guest::new([2, 0, 0, 0, 0, 1], &plan)?;
/// assert_eq!(guest.network.guest, [192, 168, 77, 9]);
/// # Ok::<(), yavoledu::BadRecord>(())
/// ```
#[derive(Clone, Copy, Debug, PartialEq, Eq, Hash)]
pub struct NetworkPlan {
    /// The gateway's address.
    pub gateway: [u8; 4],
    /// The guest's address.
    pub guest: [u8; 4],
    /// The mask: ones followed by zeros, at least 8 ones and at most 30.
    pub mask: [u8; 4],
    /// The lease time in seconds. Without one the record gets the library's default, 86,400.
    pub lease: Option<u32>,
}

impl NetworkPlan {
    /// The network of document 01, which is the only one that the published Rust knows: the gateway is 10.0.2.2, the guest
    /// 10.0.2.15, the mask 255.255.255.0, and a lease lasts a day.
    ///
    /// ```
    /// use yavoledu::NetworkPlan;
    ///
    /// assert_eq!(NetworkPlan::DOCUMENT_01.guest, [10, 0, 2, 15]);
    /// ```
    pub const DOCUMENT_01: NetworkPlan = NetworkPlan {
        gateway: [10, 0, 2, 2],
        guest: [10, 0, 2, 15],
        mask: [255, 255, 255, 0],
        lease: Some(86_400),
    };
}

/// No record was made, since the plan is of no good network: document 02's refusal 9. [`Guest::new`] says when.
///
/// ```
/// use yavoledu::{BadRecord, Guest, NetworkPlan};
///
/// let plan = NetworkPlan { guest: [10, 0, 3, 15], ..NetworkPlan::DOCUMENT_01 };
/// assert_eq!(Guest::new([2, 0, 0, 0, 0, 1], &plan), Err(BadRecord));
/// assert!(BadRecord.to_string().starts_with("no network has this mask and these addresses"));
/// ```
#[derive(Clone, Copy, Debug, PartialEq, Eq, Hash)]
pub struct BadRecord;

impl fmt::Display for BadRecord {
    fn fmt(&self, formatter: &mut fmt::Formatter<'_>) -> fmt::Result {
        formatter.write_str(
            "no network has this mask and these addresses: the mask has to be 8 to 30 ones and zeros behind them, and the \
             addresses two of its network, neither of them its lowest or its highest",
        )
    }
}

impl Error for BadRecord {}

/// What the library answers where it has made a record.
const MADE: u32 = 24;

impl Guest {
    /// A new guest: the first id is 1, and no DHCP message has come. Every MAC and every lease time will do.
    ///
    /// # Errors
    ///
    /// [`BadRecord`] exactly where the mask is not ones followed by zeros, with 8 to 30 ones; or the two addresses are equal or
    /// not of one network; or one of them is its lowest or its highest address.
    ///
    /// ```
    /// use yavoledu::{BadRecord, Guest, NetworkPlan};
    ///
    /// let guest = Guest::new([2, 0, 0, 0, 0, 1], &NetworkPlan::DOCUMENT_01)?;
    /// assert_eq!((guest.id, guest.xid), (1, 0));
    ///
    /// let mask_with_a_hole = NetworkPlan { mask: [255, 0, 255, 0], ..NetworkPlan::DOCUMENT_01 };
    /// assert_eq!(Guest::new(guest.mac, &mask_with_a_hole), Err(BadRecord));
    /// # Ok::<(), BadRecord>(())
    /// ```
    pub fn new(mac: [u8; 6], plan: &NetworkPlan) -> Result<Guest, BadRecord> {
        let mut guest = Guest {
            mac: [0; 6],
            id: 0,
            xid: 0,
            network: Network {
                gateway: [0; 4],
                guest: [0; 4],
                mask: [0; 4],
                lease: 0,
            },
        };
        // That the number is this one or 9 is proved; no number panics.
        if ffi::make_guest(&mut guest, &mac, plan) == MADE {
            Ok(guest)
        } else {
            Err(BadRecord)
        }
    }

    /// What a frame of this guest gets. A reply is written into `reply`; what is handed on stays in the frame.
    ///
    /// A DHCP reply goes from port 67 to port 68 (RFC 2131), to the MAC that the frame came from and the broadcast address of the
    /// record's network. It has a UDP checksum, as [`make_udp_payload`](crate::make_udp_payload) writes it.
    ///
    /// The frame may have any length and the buffer any size. A buffer of 65,549 bytes has room for every reply, and so has one
    /// of `frame.len() + 16` bytes, and 342 at least: that is proved.
    ///
    /// ```
    /// use yavoledu::{Guest, NetworkPlan, Verdict, make_udp_payload};
    ///
    /// let mut guest = Guest::new([0x52, 0x54, 0x00, 0x12, 0x34, 0x56], &NetworkPlan::DOCUMENT_01)?;
    ///
    /// // A datagram of the guest for 192.0.2.1, port 7.
    /// let (from, to) = (guest.network.guest, [192, 0, 2, 1]);
    /// let mut datagram = [0; 12];
    /// make_udp_payload(from, 1024, to, 7, b"data", &mut datagram)?;
    /// let mut frame = [0; 46];
    /// let gateway_mac = [0x52, 0x54, 0x00, 0x00, 0x00, 0x01];
    /// guest.clone().make_ip_frame(gateway_mac, from, to, 17, &datagram, &mut frame)?;
    ///
    /// let mut reply = [0; 2048];
    /// match guest.send(&frame, &mut reply) {
    ///     Verdict::Relay { start, len } => assert_eq!(&frame[start..start + len], b"data"),
    ///     verdict => unreachable!("{verdict:?}"),
    /// }
    /// # Ok::<(), Box<dyn std::error::Error>>(())
    /// ```
    pub fn send(&mut self, frame: &[u8], reply: &mut [u8]) -> Verdict {
        let (number, values) = ffi::send(self, frame, reply);
        Verdict::of_number(number, values)
    }

    /// Builds an IPv4 frame from the gateway's MAC around a payload of at most 65,515 bytes, and answers its length: 34 bytes
    /// and the payload. It takes the record's id, which then grows by 1.
    ///
    /// # Errors
    ///
    /// [`Refusal::TooLong`] with a longer payload; else [`Refusal::NoRoom`] where `out` is shorter than the frame.
    ///
    /// ```
    /// use yavoledu::{Guest, NetworkPlan};
    ///
    /// let mut guest = Guest::new([0x52, 0x54, 0x00, 0x12, 0x34, 0x56], &NetworkPlan::DOCUMENT_01)?;
    /// let mut out = [0; 1514];
    /// let n = guest.make_ip_frame(guest.mac, [192, 0, 2, 1], guest.network.guest, 17, b"payload", &mut out)?;
    /// assert_eq!(n, 34 + 7);
    /// assert_eq!(&out[34..n], b"payload");
    /// assert_eq!(out[18..20], [0, 1]);
    /// assert_eq!(guest.id, 2);
    /// # Ok::<(), Box<dyn std::error::Error>>(())
    /// ```
    pub fn make_ip_frame(
        &mut self,
        dst_mac: [u8; 6],
        src_ip: [u8; 4],
        dst_ip: [u8; 4],
        proto: u8,
        payload: &[u8],
        out: &mut [u8],
    ) -> Result<usize, Refusal> {
        let (number, values) = ffi::make_ip_frame(
            &mut self.id,
            &dst_mac,
            &src_ip,
            &dst_ip,
            proto,
            payload,
            out,
        );
        Refusal::or_length(number, values)
    }

    /// Builds a TCP segment in an IPv4 frame from the gateway's MAC, and answers the frame's length: 54 bytes and the data, of
    /// which there may be 65,495 bytes. With the flag SYN (0x02) eight bytes of options stand before the data, and there may be
    /// 65,487. It takes the record's id, which then grows by 1.
    ///
    /// # Errors
    ///
    /// [`Refusal::TooLong`] with more data; else [`Refusal::NoRoom`] where `out` is shorter than the frame.
    ///
    /// ```
    /// use yavoledu::{Endpoints, Guest, NetworkPlan};
    ///
    /// let mut guest = Guest::new([0x52, 0x54, 0x00, 0x12, 0x34, 0x56], &NetworkPlan::DOCUMENT_01)?;
    /// let ends = Endpoints {
    ///     dst_mac: guest.mac,
    ///     src_ip: [192, 0, 2, 1],
    ///     src_port: 80,
    ///     dst_ip: guest.network.guest,
    ///     dst_port: 49_152,
    /// };
    /// let mut out = [0; 1514];
    /// let (syn, ack) = (0x02, 0x10);
    /// assert_eq!(guest.make_tcp_frame(&ends, 1000, 2001, syn | ack, b"", &mut out)?, 62);
    /// assert_eq!(guest.make_tcp_frame(&ends, 1001, 2001, ack, b"hello", &mut out)?, 59);
    /// assert_eq!(&out[54..59], b"hello");
    /// # Ok::<(), Box<dyn std::error::Error>>(())
    /// ```
    pub fn make_tcp_frame(
        &mut self,
        ends: &Endpoints,
        seq: u32,
        ack: u32,
        flags: u8,
        data: &[u8],
        out: &mut [u8],
    ) -> Result<usize, Refusal> {
        let (number, values) = ffi::make_tcp_frame(&mut self.id, ends, seq, ack, flags, data, out);
        Refusal::or_length(number, values)
    }
}
