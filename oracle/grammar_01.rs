//! Document 01's frame grammar as a judge, written from its text and not from a reader. Each sentence
//! of the grammar is a predicate over the whole frame: which frames it speaks of, and what it says of
//! them. A frame is in the grammar when every sentence that speaks of it holds. Kind, layers and
//! message type are computed beside that, from the fields and not from the frame's end.

#[derive(Clone, Copy, Debug, PartialEq, Eq, PartialOrd, Ord)]
pub enum Kind {
    Arp = 1,
    Icmp = 2,
    Udp = 3,
    Dhcp = 4,
    Tcp = 5,
    OtherIpv4 = 6,
}

pub const KINDS: [Kind; 6] = [
    Kind::Arp,
    Kind::Icmp,
    Kind::Udp,
    Kind::Dhcp,
    Kind::Tcp,
    Kind::OtherIpv4,
];

/// Where a header starts, where it stops and its payload starts, where the payload stops.
pub type Layer = [usize; 3];

#[derive(Clone, Debug, PartialEq)]
pub struct Reading {
    pub kind: Kind,
    /// The outermost first.
    pub layers: Vec<Layer>,
    /// DHCP's alone.
    pub message_type: Option<u8>,
}

/// An item of a DHCP list: a pad has no value.
#[derive(Clone, Debug, PartialEq)]
pub struct Item<'a> {
    pub place: usize,
    pub code: u8,
    pub value: Option<&'a [u8]>,
}

struct Sentence {
    words: &'static str,
    speaks_of: fn(Frame) -> bool,
    holds: fn(Frame) -> bool,
}

const fn sentence(
    words: &'static str,
    speaks_of: fn(Frame) -> bool,
    holds: fn(Frame) -> bool,
) -> Sentence {
    Sentence {
        words,
        speaks_of,
        holds,
    }
}

const SENTENCES: [Sentence; 32] = [
    sentence("frame: two MACs, then a type", any, |f| f.0.len() >= 14),
    sentence("frame: type 0x0806 or 0x0800", any, |f| {
        is_arp(f) || is_ipv4(f)
    }),
    sentence("ARP: 28 bytes", is_arp, |f| f.0.len() == 14 + 28),
    sentence("ARP: 1", is_arp, |f| f.number(14, 2) == Some(1)),
    sentence("ARP: 0x0800", is_arp, |f| f.number(16, 2) == Some(0x0800)),
    sentence("ARP: 6", is_arp, |f| f.number(18, 1) == Some(6)),
    sentence("ARP: 4", is_arp, |f| f.number(19, 1) == Some(4)),
    sentence("ARP: operation 1 or 2", is_arp, |f| {
        f.number(20, 2) == Some(1) || f.number(20, 2) == Some(2)
    }),
    sentence("IPv4: version 4", is_ipv4, |f| {
        f.number(14, 1).is_some_and(|byte| byte / 16 == 4)
    }),
    sentence("IPv4: header length 20 to 60", is_ipv4, |f| {
        f.header_length()
            .is_some_and(|length| (20..=60).contains(&length))
    }),
    sentence("IPv4: total length is the whole body", is_ipv4, |f| {
        f.total_length()
            .is_some_and(|length| 14 + length == f.0.len())
    }),
    sentence("IPv4: total length at least the header", is_ipv4, |f| {
        f.total_length() >= f.header_length()
    }),
    sentence("IPv4: reserved bit zero", is_ipv4, |f| {
        f.number(20, 2).is_some_and(|word| word / 0x8000 == 0)
    }),
    sentence("IPv4: more-fragments zero", is_ipv4, |f| {
        f.number(20, 2).is_some_and(|word| word / 0x2000 % 2 == 0)
    }),
    sentence("IPv4: offset zero", is_ipv4, |f| {
        f.number(20, 2).is_some_and(|word| word % 0x2000 == 0)
    }),
    sentence("IPv4: header sums right", is_ipv4, |f| {
        let header = f.header_length().and_then(|length| f.part(14, length));
        header.is_some_and(|header| sums_right(&[header]))
    }),
    sentence("ICMP: 8 bytes or more", is_icmp, |f| {
        f.payload().is_some_and(|payload| payload.len() >= 8)
    }),
    sentence("ICMP: sums right", is_icmp, |f| {
        f.payload().is_some_and(|payload| sums_right(&[payload]))
    }),
    sentence("UDP: 8 or more", is_udp, |f| {
        f.payload().is_some_and(|payload| payload.len() >= 8)
    }),
    sentence("UDP: length field is the payload's length", is_udp, |f| {
        f.udp_length().is_some() && f.udp_length() == f.payload().map(<[u8]>::len)
    }),
    sentence("UDP: checksum zero or sums right", is_udp, |f| {
        f.in_payload(6, 2) == Some(0) || f.sums_right_with_pseudo_header()
    }),
    sentence("TCP: 20 or more", is_tcp, |f| {
        f.payload().is_some_and(|payload| payload.len() >= 20)
    }),
    sentence("TCP: offset 5 to 15", is_tcp, |f| {
        f.tcp_offset()
            .is_some_and(|offset| (5..=15).contains(&offset))
    }),
    sentence("TCP: offset inside the payload", is_tcp, |f| {
        let payload = f.payload().unwrap_or(&[]);
        f.tcp_offset()
            .is_some_and(|offset| 4 * offset <= payload.len())
    }),
    sentence("TCP: sums right", is_tcp, |f| {
        f.sums_right_with_pseudo_header()
    }),
    sentence("DHCP: 240 to 1,472 bytes", is_dhcp, |f| {
        (240..=1_472).contains(&f.dhcp_data().len())
    }),
    sentence("DHCP: first byte 1 or 2", is_dhcp, |f| {
        matches!(f.dhcp_data().first(), Some(1 | 2))
    }),
    sentence("DHCP: then 1", is_dhcp, |f| {
        f.dhcp_data().get(1) == Some(&1)
    }),
    sentence("DHCP: then 6", is_dhcp, |f| {
        f.dhcp_data().get(2) == Some(&6)
    }),
    sentence("DHCP: cookie at 236", is_dhcp, |f| {
        f.dhcp_data().get(236..240) == Some(&[0x63, 0x82, 0x53, 0x63])
    }),
    sentence("DHCP: a list that fills the data", is_dhcp, |f| {
        items(f.dhcp_list()).is_some()
    }),
    sentence(
        "DHCP: option 53 once, length 1, value 1 to 8",
        is_dhcp,
        |f| {
            // Where there is no list there is no option either, and the sentence before says so.
            let Some(items) = items(f.dhcp_list()) else {
                return true;
            };
            let mut types = items.iter().filter(|item| item.code == 53);
            matches!(
                types.next(),
                Some(Item {
                    value: Some([1..=8]),
                    ..
                })
            ) && types.next().is_none()
        },
    ),
];

/// What the grammar says of the frame; none where it does not derive it.
pub fn read(frame: &[u8]) -> Option<Reading> {
    broken(frame).is_empty().then(|| reading(Frame(frame)))
}

/// The sentences of the grammar that the frame breaks.
pub fn broken(frame: &[u8]) -> Vec<&'static str> {
    SENTENCES
        .iter()
        .filter(|sentence| (sentence.speaks_of)(Frame(frame)) && !(sentence.holds)(Frame(frame)))
        .map(|sentence| sentence.words)
        .collect()
}

/// A frame of any length: what is not there is none.
#[derive(Clone, Copy)]
struct Frame<'a>(&'a [u8]);

impl<'a> Frame<'a> {
    fn part(self, at: usize, len: usize) -> Option<&'a [u8]> {
        self.0.get(at..at + len)
    }

    fn number(self, at: usize, len: usize) -> Option<usize> {
        let bytes = self.part(at, len)?;
        Some(bytes.iter().fold(0, |n, byte| 256 * n + *byte as usize))
    }

    fn header_length(self) -> Option<usize> {
        Some(4 * (self.number(14, 1)? % 16))
    }

    fn total_length(self) -> Option<usize> {
        self.number(16, 2)
    }

    fn payload_at(self) -> Option<usize> {
        Some(14 + self.header_length()?)
    }

    fn payload(self) -> Option<&'a [u8]> {
        self.0.get(self.payload_at()?..)
    }

    fn in_payload(self, at: usize, len: usize) -> Option<usize> {
        self.number(self.payload_at()? + at, len)
    }

    fn udp_length(self) -> Option<usize> {
        self.in_payload(4, 2)
    }

    fn tcp_offset(self) -> Option<usize> {
        Some(self.in_payload(12, 1)? / 16)
    }

    /// Both addresses, a zero, the protocol and the payload's length stand before the payload.
    fn sums_right_with_pseudo_header(self) -> bool {
        let parts = (self.part(26, 8), self.part(23, 1), self.payload());
        let (Some(addresses), Some(protocol), Some(payload)) = parts else {
            return false;
        };
        // A longer payload has no total length, and so no pseudo-header.
        let Ok(length) = u16::try_from(payload.len()) else {
            return false;
        };
        sums_right(&[addresses, &[0], protocol, &length.to_be_bytes(), payload])
    }

    fn dhcp_data(self) -> &'a [u8] {
        let payload = self.payload().unwrap_or(&[]);
        payload.get(8..).unwrap_or(&[])
    }

    fn dhcp_list(self) -> &'a [u8] {
        self.dhcp_data().get(240..).unwrap_or(&[])
    }
}

fn any(_: Frame) -> bool {
    true
}

fn is_arp(frame: Frame) -> bool {
    frame.number(12, 2) == Some(0x0806)
}

fn is_ipv4(frame: Frame) -> bool {
    frame.number(12, 2) == Some(0x0800)
}

fn has_protocol(frame: Frame, protocol: usize) -> bool {
    is_ipv4(frame) && frame.number(23, 1) == Some(protocol)
}

fn is_icmp(frame: Frame) -> bool {
    has_protocol(frame, 1)
}

fn is_tcp(frame: Frame) -> bool {
    has_protocol(frame, 6)
}

fn is_udp(frame: Frame) -> bool {
    has_protocol(frame, 17)
}

/// Ports 67 and 68, in either order.
fn is_dhcp(frame: Frame) -> bool {
    let ports = (frame.in_payload(0, 2), frame.in_payload(2, 2));
    let carries = [(Some(67), Some(68)), (Some(68), Some(67))];
    is_udp(frame) && carries.contains(&ports)
}

/// The 16-bit words of the parts, one behind the other, fold to 65,535: their sum is a multiple of it
/// and not 0. An odd last byte is the high half of a word.
fn sums_right(parts: &[&[u8]]) -> bool {
    let bytes = parts.iter().flat_map(|part| part.iter());
    let halves = bytes.zip([256u64, 1].into_iter().cycle());
    let sum: u64 = halves.map(|(byte, weight)| weight * u64::from(*byte)).sum();
    sum > 0 && sum.is_multiple_of(65_535)
}

/// For each place in the bytes, and the one behind them, in how many ways the grammar derives a list
/// that starts there and ends with them. It is filled in from the back: a list is END and its zeros,
/// or one item and then a list.
fn derivations(bytes: &[u8]) -> Vec<usize> {
    let mut ways = vec![0; bytes.len() + 1];
    let mut only_zeros_behind = true;
    for place in (0..bytes.len()).rev() {
        let list_at = |start: usize| ways.get(start).copied().unwrap_or(0);
        ways[place] = match (bytes[place], bytes.get(place + 1)) {
            (255, _) => usize::from(only_zeros_behind),
            (0, _) => list_at(place + 1),
            (_, Some(length)) => list_at(place + 2 + usize::from(*length)),
            (_, None) => 0,
        };
        only_zeros_behind &= bytes[place] == 0;
    }
    ways
}

/// The items of the list that the bytes are; none where they are no list.
pub fn items(bytes: &[u8]) -> Option<Vec<Item<'_>>> {
    let ways = derivations(bytes);
    assert!(ways.iter().all(|ways| *ways <= 1), "two derivations");
    let mut items = vec![];
    let mut place = 0;
    while ways[place] == 1 && bytes[place] != 255 {
        let code = bytes[place];
        let value = (code != 0).then(|| {
            let length = usize::from(bytes[place + 1]);
            &bytes[place + 2..place + 2 + length]
        });
        items.push(Item { place, code, value });
        place += 1 + value.map_or(0, |value| 1 + value.len());
    }
    (ways[0] == 1).then_some(items)
}

fn kind(frame: Frame) -> Kind {
    match () {
        _ if is_arp(frame) => Kind::Arp,
        _ if is_icmp(frame) => Kind::Icmp,
        _ if is_dhcp(frame) => Kind::Dhcp,
        _ if is_udp(frame) => Kind::Udp,
        _ if is_tcp(frame) => Kind::Tcp,
        _ => Kind::OtherIpv4,
    }
}

/// The parts of a frame that the grammar derives.
fn reading(frame: Frame) -> Reading {
    let kind = kind(frame);
    let mut layers = vec![[0, 14, 14 + 28]];
    if kind != Kind::Arp {
        let (Some(start), Some(total_length)) = (frame.payload_at(), frame.total_length()) else {
            unreachable!("a frame in the grammar has both");
        };
        let stop = 14 + total_length;
        layers = vec![[0, 14, stop], [14, start, stop]];
        layers.extend(match kind {
            Kind::Icmp => vec![[start, start + 8, stop]],
            Kind::Tcp => {
                let header = 4 * frame.tcp_offset().unwrap_or(0);
                vec![[start, start + header, stop]]
            }
            Kind::Udp | Kind::Dhcp => {
                let stop = start + frame.udp_length().unwrap_or(0);
                let data = start + 8;
                let message = [data, data + 240, stop];
                [
                    vec![[start, data, stop]],
                    vec![message; usize::from(kind == Kind::Dhcp)],
                ]
                .concat()
            }
            Kind::Arp | Kind::OtherIpv4 => vec![],
        });
    }
    let items = items(frame.dhcp_list()).unwrap_or(vec![]);
    let types = items.iter().filter(|item| item.code == 53);
    let message_type = types.filter_map(|item| item.value?.first().copied()).next();
    Reading {
        kind,
        layers,
        message_type: message_type.filter(|_| kind == Kind::Dhcp),
    }
}
