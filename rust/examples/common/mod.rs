//! What the hosts `tap` and `guest` have in common: the network that they are asked for, what they do with
//! the gateway's verdict on a frame, the one service that they have themselves, and the tally.

use std::fmt;
use std::io;
use std::net::{Ipv4Addr, SocketAddrV4};

use yavoledu::{Guest, NetworkPlan, Refusal, Verdict, make_udp_payload};

/// The gateway's longest reply: with this room it has never too little.
pub const REPLY_ROOM: usize = 65_549;
pub const ETHERNET_HEADER: usize = 14;
const UDP_HEADER: usize = 8;
const UDP: u8 = 17;
/// What is relayed to this port, of any address, the host echoes: RFC 862.
const ECHO_PORT: u16 = 7;

/// A new guest's record on the network of the words GATEWAY GUEST MASK [LEASE]. Without any it is document
/// 01's.
pub fn new_guest(mac: [u8; 6], words: &[&str]) -> Result<Guest, String> {
    let plan = match *words {
        [] => NetworkPlan::DOCUMENT_01,
        [gateway, guest, mask, ref lease @ ..] if lease.len() < 2 => NetworkPlan {
            gateway: address(gateway)?,
            guest: address(guest)?,
            mask: mask_of(mask)?,
            lease: lease.first().map(|word| seconds(word)).transpose()?,
        },
        _ => return Err(format!("a network takes 3 or 4 words, not {}", words.len())),
    };
    Guest::new(mac, &plan).map_err(|bad| bad.to_string())
}

fn address(word: &str) -> Result<[u8; 4], String> {
    let address: Ipv4Addr = word
        .parse()
        .map_err(|_| format!("'{word}' is no IPv4 address"))?;
    Ok(address.octets())
}

fn mask_of(word: &str) -> Result<[u8; 4], String> {
    match word.parse::<u32>() {
        // In 64 bits, since 32 zeros would be too many to shift by.
        Ok(ones @ 0..=32) => Ok(((u64::MAX << (32 - ones)) as u32).to_be_bytes()),
        _ => address(word).map_err(|_| format!("'{word}' is no mask and no number from 0 to 32")),
    }
}

fn seconds(word: &str) -> Result<u32, String> {
    word.parse()
        .map_err(|_| format!("'{word}' is no lease time: a number from 0 to {}", u32::MAX))
}

/// What became of the frames. Each that the gateway got is in exactly one of the others.
#[derive(Default)]
pub struct Tally {
    pub frames: u64,
    replies: u64,
    unsent: u64,
    pub drops: u64,
    dns: u64,
    relay: u64,
    tcp: u64,
    refused: u64,
}

impl Tally {
    /// Hands a frame to the gateway and answers the length of the reply, which the host then has to write and
    /// to count by `written`. It is the gateway's, or an echo. What isn't replied to is counted. All that the
    /// gateway neither replies to nor drops is printed.
    pub fn take(&mut self, guest: &mut Guest, frame: &[u8], reply: &mut [u8]) -> Option<usize> {
        let mac = Mac(guest.mac);
        match guest.send(frame, reply) {
            Verdict::Reply(n) => return Some(n),
            Verdict::Drop => self.drops += 1,
            Verdict::Dns { start, len } => {
                self.dns += 1;
                let [from, to] = udp_ends(frame, start);
                println!("dns {mac} {from} to {to}, start {start}, length {len}");
            }
            Verdict::Relay { start, len } => {
                let [from, to] = udp_ends(frame, start);
                if to.port() == ECHO_PORT {
                    println!("echo {mac} {from} to {to}, start {start}, length {len}");
                    let data = &frame[start..start + len];
                    match make_datagram(guest, to, from, data, reply) {
                        Ok(n) => return Some(n),
                        Err(refusal) => self.refused(mac, format_args!("no echo: {refusal}")),
                    }
                } else {
                    self.relay += 1;
                    println!("relay {mac} {from} to {to}, start {start}, length {len}");
                }
            }
            Verdict::Tcp(n) => {
                self.tcp += 1;
                let segment = ETHERNET_HEADER + 4 * usize::from(frame[ETHERNET_HEADER] & 0x0f);
                // At TCP the gateway looks no further: the frame may end before its ports.
                match frame.get(segment..segment + 4) {
                    Some(_) => {
                        let [from, to] = ends(frame, segment);
                        println!("tcp {mac} {from} to {to}, length {n}");
                    }
                    None => {
                        let [from, to] = addresses(frame);
                        println!("tcp {mac} {from} to {to}, no ports, length {n}");
                    }
                }
            }
            Verdict::NoRoom(n) => self.refused(mac, format_args!("the reply needs {n} bytes")),
            Verdict::TooLong(n) => self.refused(mac, format_args!("{n} bytes are too long")),
            Verdict::CutType(at) => {
                self.refused(mac, format_args!("the DHCP message type at {at} is cut"));
            }
        }
        None
    }

    fn refused(&mut self, mac: Mac, why: fmt::Arguments) {
        self.refused += 1;
        println!("refused {mac} {why}");
    }

    /// A reply that can't be written is told, and costs nobody else anything: so it is where the guest has
    /// taken its link down in the meantime.
    pub fn written(&mut self, mac: [u8; 6], length: usize, written: io::Result<()>) {
        match written {
            Ok(()) => self.replies += 1,
            Err(error) => {
                self.unsent += 1;
                println!("unsent {} {length} bytes: {error}", Mac(mac));
            }
        }
    }
}

impl fmt::Display for Tally {
    fn fmt(&self, f: &mut fmt::Formatter) -> fmt::Result {
        let Tally {
            frames,
            replies,
            unsent,
            drops,
            dns,
            relay,
            tcp,
            refused,
        } = self;
        write!(f, "frames {frames}, replies {replies}, unsent {unsent}, ")?;
        write!(f, "drops {drops}, dns {dns}, relay {relay}, tcp {tcp}, ")?;
        write!(f, "refused {refused}")
    }
}

/// A frame for the guest with this datagram in it, and its length.
fn make_datagram(
    guest: &mut Guest,
    from: SocketAddrV4,
    to: SocketAddrV4,
    data: &[u8],
    frame: &mut [u8],
) -> Result<usize, Refusal> {
    let mut datagram = vec![0; UDP_HEADER + data.len()];
    // The checksum covers the addresses, and the IPv4 header has to have the same.
    let (src_ip, dst_ip) = (from.ip().octets(), to.ip().octets());
    make_udp_payload(src_ip, from.port(), dst_ip, to.port(), data, &mut datagram)?;
    guest.make_ip_frame(guest.mac, src_ip, dst_ip, UDP, &datagram, frame)
}

/// From whom to whom an IPv4 frame goes that the gateway has handed on.
fn addresses(frame: &[u8]) -> [Ipv4Addr; 2] {
    [26, 30].map(|at| Ipv4Addr::new(frame[at], frame[at + 1], frame[at + 2], frame[at + 3]))
}

/// The same with the ports, the first of which is at this place.
fn ends(frame: &[u8], ports: usize) -> [SocketAddrV4; 2] {
    let port = |at: usize| u16::from_be_bytes([frame[at], frame[at + 1]]);
    let [from, to] = addresses(frame);
    [
        SocketAddrV4::new(from, port(ports)),
        SocketAddrV4::new(to, port(ports + 2)),
    ]
}

/// The same of a datagram, whose data starts at this place.
fn udp_ends(frame: &[u8], data: usize) -> [SocketAddrV4; 2] {
    ends(frame, data - UDP_HEADER)
}

#[derive(Clone, Copy)]
pub struct Mac(pub [u8; 6]);

impl fmt::Display for Mac {
    fn fmt(&self, f: &mut fmt::Formatter) -> fmt::Result {
        let [a, b, c, d, e, g] = self.0;
        write!(f, "{a:02x}:{b:02x}:{c:02x}:{d:02x}:{e:02x}:{g:02x}")
    }
}
