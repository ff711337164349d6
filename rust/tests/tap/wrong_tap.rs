//! The example `tap` with a fault around the gateway: a wrong one, under which the checks of
//! `rust/tap-namespace` have to fail. `rust/tap-namespace --self-test` runs it.
//!
//!     FAULT=name wrong_tap NAME [GATEWAY GUEST MASK [LEASE]]
//!
//! The source of the example stands as it is. It takes `yavoledu` for this file, and so serves the
//! [`Guest`] below, which asks the proved one and then spoils what comes of it. The datagrams of the echo are
//! spoiled in the same way.

extern crate self as yavoledu;
extern crate yavoledu as proved;

#[path = "../../examples/tap.rs"]
mod tap;

use std::env;
use std::process::{Command, ExitCode};

pub use proved::{BadRecord, NetworkPlan, Refusal, Verdict};

// Where things are in a DHCP reply: behind 14 bytes of Ethernet, 20 of IPv4 and 8 of UDP.
const IP: usize = 14;
const UDP: usize = IP + 20;
const DHCP: usize = UDP + 8;
const YOUR_ADDRESS: usize = DHCP + 16;
const CLIENT_MAC: usize = DHCP + 28;
const MESSAGE_TYPE: usize = DHCP + 242;
const SERVER: usize = DHCP + 245;
const LEASE: usize = DHCP + 251;
const MASK: usize = DHCP + 257;
const ROUTER: usize = DHCP + 263;
const NAME_SERVER: usize = DHCP + 269;
const DHCP_REPLY: usize = DHCP + 300;

fn main() -> ExitCode {
    let fault = fault();
    match fault.as_str() {
        "no gateway" => return ExitCode::FAILURE,
        "another link" => {
            let words = ["tuntap", "add", "dev", "tap1", "mode", "tap"];
            Command::new("ip").args(words).status().expect("a link");
        }
        _ => {}
    }
    let ended = tap::main();
    match fault.as_str() {
        "tally" => println!("tally: none"),
        "status" => return ExitCode::FAILURE,
        _ => {}
    }
    ended
}

fn fault() -> String {
    env::var("FAULT").expect("FAULT names the fault")
}

#[derive(Clone)]
pub struct Guest {
    pub mac: [u8; 6],
    proved: proved::Guest,
    fault: String,
}

impl Guest {
    pub fn new(mac: [u8; 6], plan: &NetworkPlan) -> Result<Guest, BadRecord> {
        let proved = proved::Guest::new(mac, plan)?;
        let fault = fault();
        Ok(Guest { mac, proved, fault })
    }

    pub fn send(&mut self, frame: &[u8], reply: &mut [u8]) -> Verdict {
        self.proved.mac = self.mac;
        let verdict = self.proved.send(frame, reply);
        match verdict {
            Verdict::Relay { .. } if self.fault == "no echo" => Verdict::Drop,
            Verdict::Relay { start, len } if self.fault == "echo's length" => Verdict::Relay {
                start,
                len: len.saturating_sub(1),
            },
            Verdict::Reply(n) if self.is_unsent(frame, &reply[..n]) => Verdict::Drop,
            Verdict::Reply(n) => {
                self.spoil(frame, &mut reply[..n]);
                verdict
            }
            _ => verdict,
        }
    }

    /// The frame of an echo.
    pub fn make_ip_frame(
        &mut self,
        dst_mac: [u8; 6],
        src_ip: [u8; 4],
        dst_ip: [u8; 4],
        proto: u8,
        payload: &[u8],
        out: &mut [u8],
    ) -> Result<usize, Refusal> {
        let proved = &mut self.proved;
        let n = proved.make_ip_frame(dst_mac, src_ip, dst_ip, proto, payload, out)?;
        match self.fault.as_str() {
            "id" => proved.id = proved.id.wrapping_sub(1),
            "header sum" => out[IP + 10] ^= 1,
            _ => {}
        }
        Ok(n)
    }

    /// Whether the fault is that this reply is not sent.
    fn is_unsent(&self, frame: &[u8], reply: &[u8]) -> bool {
        match self.fault.as_str() {
            "no ARP" => is_arp(reply),
            "no ping" => is_ping(reply),
            "no offer" => is_dhcp(reply) && reply[MESSAGE_TYPE] == 2,
            "no acknowledgement" => is_dhcp(reply) && reply[MESSAGE_TYPE] == 5,
            "no acknowledgement of a renewal" => is_dhcp(reply) && is_renewal(frame),
            _ => false,
        }
    }

    fn spoil(&mut self, frame: &[u8], reply: &mut [u8]) {
        if is_ping(reply) {
            match self.fault.as_str() {
                "ping's data" => reply[UDP + 8] ^= 1,
                "ping's source" => {
                    reply[IP + 15] ^= 1;
                    set_header_sum(reply);
                }
                _ => {}
            }
        }
        if !is_dhcp(reply) {
            return;
        }
        match self.fault.as_str() {
            "ports 68 to 67" => reply[UDP..UDP + 4].copy_from_slice(&[0, 68, 0, 67]),
            "ports 67 to 67" => reply[UDP + 3] = 67,
            "ports 68 to 68" => reply[UDP + 1] = 68,
            "target" => set_target(reply, [255; 4]),
            "a renewal's target" if is_renewal(frame) => {
                set_target(reply, self.proved.network.guest);
            }
            "id" => self.proved.id = self.proved.id.wrapping_sub(1),
            "header sum" => reply[IP + 10] ^= 1,
            "xid" => reply[DHCP + 4] ^= 1,
            "client's MAC" => reply[CLIENT_MAC + 5] ^= 1,
            "message type" => reply[MESSAGE_TYPE] = 6,
            "server" => reply[SERVER + 3] ^= 1,
            "address" => reply[YOUR_ADDRESS + 3] ^= 1,
            "mask" => reply[MASK + 3] ^= 0x80,
            "router" => reply[ROUTER + 3] ^= 1,
            "name server" => reply[NAME_SERVER + 3] ^= 1,
            "lease" => reply[LEASE + 3] ^= 1,
            "a renewal's lease" if is_renewal(frame) => reply[LEASE + 3] ^= 1,
            "a renewal's address" if is_renewal(frame) => reply[YOUR_ADDRESS + 3] ^= 1,
            "a renewal's mask" if is_renewal(frame) => reply[MASK + 3] ^= 0x80,
            "a renewal's router" if is_renewal(frame) => reply[ROUTER + 3] ^= 1,
            _ => {}
        }
        // What was spoiled has a right checksum again, or the client would not look at it.
        let address = |at| <[u8; 4]>::try_from(&reply[at..at + 4]).expect("four bytes");
        let (from, to) = (address(IP + 12), address(IP + 16));
        let fault = match self.fault.as_str() {
            "a renewal's UDP sum" if is_renewal(frame) => "UDP sum",
            fault => fault,
        };
        set_udp_sum(fault, from, to, &mut reply[UDP..]);
    }
}

/// The datagram of an echo.
pub fn make_udp_payload(
    src_ip: [u8; 4],
    src_port: u16,
    dst_ip: [u8; 4],
    dst_port: u16,
    data: &[u8],
    out: &mut [u8],
) -> Result<usize, Refusal> {
    let n = proved::make_udp_payload(src_ip, src_port, dst_ip, dst_port, data, out)?;
    let fault = fault();
    match fault.as_str() {
        "echo's port" => out[1] ^= 1,
        "echo's data" => out[8..n].reverse(),
        _ => {}
    }
    set_udp_sum(&fault, src_ip, dst_ip, &mut out[..n]);
    Ok(n)
}

/// The checksum of a datagram, with this fault: RFC 768's, where it is none of these.
fn set_udp_sum(fault: &str, from: [u8; 4], to: [u8; 4], datagram: &mut [u8]) {
    datagram[6..8].fill(0);
    let length = (datagram.len() as u16).to_be_bytes();
    let (mut target, mut pseudo_header) = (to, Vec::new());
    if fault == "UDP sum for another address" {
        target[3] ^= 1;
    }
    if fault != "UDP sum without the pseudo-header" {
        pseudo_header = [&from[..], &target, &[0, 17], &length].concat();
    }
    let sum = match proved::checksum(&[&pseudo_header, &*datagram].concat()) {
        0 if fault != "UDP sum that comes to 0" => 0xffff,
        sum => sum,
    };
    let sum = match fault {
        "UDP sum 0" => 0,
        "UDP sum" if sum == 1 => 3, // 0 would say that there is none
        "UDP sum" => sum ^ 1,
        _ => sum,
    };
    datagram[6..8].copy_from_slice(&sum.to_be_bytes());
}

fn is_arp(reply: &[u8]) -> bool {
    reply[12..14] == [8, 6]
}

fn is_ping(reply: &[u8]) -> bool {
    reply[12..14] == [8, 0] && reply[IP + 9] == 1
}

fn is_dhcp(reply: &[u8]) -> bool {
    reply.len() == DHCP_REPLY && reply[12..14] == [8, 0] && reply[IP + 9] == 17
}

/// Whether a guest's DHCP message names an address that the guest has.
fn is_renewal(frame: &[u8]) -> bool {
    frame[DHCP + 12..DHCP + 16] != [0; 4]
}

fn set_target(reply: &mut [u8], target: [u8; 4]) {
    reply[IP + 16..IP + 20].copy_from_slice(&target);
    set_header_sum(reply);
}

fn set_header_sum(reply: &mut [u8]) {
    reply[IP + 10..IP + 12].fill(0);
    let sum = proved::checksum(&reply[IP..UDP]);
    reply[IP + 10..IP + 12].copy_from_slice(&sum.to_be_bytes());
}
