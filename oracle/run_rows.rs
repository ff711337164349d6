//! A row of the table: the Rust is asked, and what it did is written down as antt's `Run`.

use published::handed::{self, To};
use published::{NetworkBackend, SlirpBackend};

use crate::antt_text::{Writer, hex, hex32};
use crate::guest_frames::{DISCOVER, xid_bringer};
use crate::run_inputs::{RECORD_MAC, dhcp_frame, dhcp_message};
use crate::the_rust::{IdCounter, half_word, is_cut, is_ipv4, text_of_panic};

const ETHERNET: usize = 14;
/// Where an IPv4 frame's headers end, and a UDP header behind them.
const LAYERS: [usize; 3] = [ETHERNET, 34, 42];

/// The backend with which most rows start.
pub const STARTED: Before = Before {
    mac: RECORD_MAC,
    xid: 0x0102_0304,
    counter: 7,
};
pub const STARTED_TEXT: &str = "backend record_mac 0x01020304 7";

#[derive(PartialEq)]
pub struct Before {
    pub mac: [u8; 6],
    pub xid: u32,
    pub counter: u16,
}

/// Asks the Rust.
pub struct Oracle {
    first: Before,
    ids: IdCounter,
    writer: Writer,
}

impl Oracle {
    /// Asks first how a backend starts, since the counter starts once: what it has for a MAC and for
    /// an id is read from its first reply.
    pub fn new(writer: Writer) -> Self {
        let mut backend = SlirpBackend::new(RECORD_MAC);
        let xid = backend.dhcp_xid();
        assert!(backend.recv().is_none() && handed::take().is_empty());
        backend.send(&dhcp_frame(&dhcp_message(&DISCOVER)));
        let reply = backend.recv().expect("an offer was due");
        let first = Before {
            mac: reply[70..76].try_into().unwrap(),
            xid,
            counter: u16::from_be_bytes([reply[18], reply[19]]),
        };
        Oracle {
            ids: IdCounter::behind(first.counter),
            first,
            writer,
        }
    }

    pub fn starts(&self) -> String {
        let (mac, state) = (self.bytes(&RECORD_MAC), self.state(&self.first));
        format!("starts {mac} {state}")
    }

    pub fn sends(&mut self, before: &Before, frame: &[u8]) -> String {
        let mut backend = SlirpBackend::new(before.mac);
        if before.xid != 0 {
            backend.send(&xid_bringer(before.xid));
        }
        assert_eq!(backend.dhcp_xid(), before.xid);
        assert_eq!(backend.recv(), None);
        self.ids.bring_to(before.counter);
        assert!(handed::take().is_empty() && handed::take_askers().is_empty());

        let sent = text_of_panic(|| backend.send(frame));
        let calls = self.calls(&backend, frame);
        let pending: Vec<_> = std::iter::from_fn(|| backend.recv()).collect();
        let counter = self.ids.spent();
        let ends = match sent {
            Err(_) => {
                assert!(calls.is_empty() && pending.is_empty());
                "panics".to_string()
            }
            Ok(()) if pending.iter().any(|frame| is_cut(frame)) => "cuts".to_string(),
            Ok(()) => {
                let state = self.state(&Before {
                    mac: before.mac,
                    xid: backend.dhcp_xid(),
                    counter,
                });
                match (&pending[..], &calls[..]) {
                    ([], []) => format!("(gives {state})"),
                    ([frame], []) => {
                        format!("(gives (sent {} {state}))", self.frame(frame))
                    }
                    ([], [call]) => format!("(gives (called ({call}) {state}))"),
                    deeds => panic!("more than one deed: {deeds:?}"),
                }
            }
        };
        let state = self.state(before);
        format!("sends {state} {} {ends}", self.frame(frame))
    }

    fn state(&self, state: &Before) -> String {
        if *state == STARTED {
            return "started".to_string();
        }
        let mac = self.bytes(&state.mac);
        format!("(backend {mac} {} {})", hex32(state.xid), state.counter)
    }

    fn frame(&self, frame: &[u8]) -> String {
        let is_ipv4 = frame.len() > ETHERNET && is_ipv4(frame);
        let parts_at = if is_ipv4 { &LAYERS } else { &LAYERS[..1] };
        self.writer.argument(frame, parts_at)
    }

    fn bytes(&self, bytes: &[u8]) -> String {
        self.writer.argument(bytes, &[])
    }

    /// What the Rust handed on, with all that it handed on beside the bytes.
    fn calls(&self, backend: &SlirpBackend, frame: &[u8]) -> Vec<String> {
        let askers = handed::take_askers();
        let relayed = backend.relayed();
        let call = |(to, place, len): (To, usize, usize)| {
            let start = place - frame.as_ptr() as usize;
            let data = &frame[start..start + len];
            let bytes = match to {
                To::Tcp => self.frame(data),
                To::Dns | To::Relay => self.bytes(data),
            };
            let slice = format!("(slice {start} {bytes})");
            match (to, &askers[..], &relayed[..]) {
                (To::Tcp, [], []) => format!("handle_tcp {slice}"),
                (To::Dns, [asker], []) => format!(
                    "handle_dns {slice} {} {} {}",
                    self.bytes(&asker.guest_mac),
                    self.bytes(&asker.src_ip),
                    asker.src_port
                ),
                (To::Relay, [], [relayed]) => format!(
                    "relay_datagram {} {} {} {} {} {slice}",
                    self.bytes(&relayed.guest_mac),
                    self.bytes(&relayed.src_ip),
                    relayed.src_port,
                    self.bytes(&relayed.dst_ip),
                    relayed.dst_port
                ),
                notes => panic!("{notes:?}"),
            }
        };
        handed::take().into_iter().map(call).collect()
    }

    pub fn sums(&self, data: &[u8]) -> String {
        let sum = SlirpBackend::checksum(data);
        format!("sums {} 0x{sum:04x}", self.bytes(data))
    }

    pub fn types(&self, message: &[u8]) -> String {
        let ends = match text_of_panic(|| SlirpBackend::message_type(message)) {
            Ok(found) => format!("(gives {found})"),
            Err(_) => "panics".to_string(),
        };
        format!("types {} {ends}", self.writer.argument(message, &[240]))
    }

    pub fn frames(
        &mut self,
        counter: u16,
        macs_and_addresses: ([u8; 6], [u8; 4], [u8; 4]),
        proto: u8,
        payload: &[u8],
    ) -> String {
        let (mac, src, dst) = macs_and_addresses;
        self.ids.bring_to(counter);
        let built = SlirpBackend::make_ip_frame(&mac, &src, &dst, proto, payload);
        let ends = self.counted(&built);
        format!(
            "frames {counter} {} {} {} {proto} {} {ends}",
            self.bytes(&mac),
            self.bytes(&src),
            self.bytes(&dst),
            self.bytes(payload)
        )
    }

    /// A frame built, and the counter behind it.
    fn counted(&mut self, built: &[u8]) -> String {
        let counter = self.ids.spent();
        match is_cut(built) {
            true => "cuts".to_string(),
            false => format!("(gives (counted {} {counter}))", self.frame(built)),
        }
    }

    pub fn datagrams(&self, src_port: u16, dst_port: u16, data: &[u8]) -> String {
        let built = SlirpBackend::make_udp_payload(src_port, dst_port, data);
        let ends = match half_word(&built, 4) == built.len() {
            true => format!("(gives {})", self.writer.argument(&built, &[8])),
            false => "cuts".to_string(),
        };
        format!(
            "datagrams {src_port} {dst_port} {} {ends}",
            self.bytes(data)
        )
    }

    pub fn segments(
        &mut self,
        counter: u16,
        mac: [u8; 6],
        src: ([u8; 4], u16),
        dst: ([u8; 4], u16),
        numbers: (u32, u32),
        flags: u8,
        data: &[u8],
    ) -> String {
        self.ids.bring_to(counter);
        let (seq, ack) = numbers;
        let built = SlirpBackend::make_tcp_frame(mac, src, dst, seq, ack, flags, data);
        let ends = self.counted(&built);
        format!(
            "segments {counter} (endpoints {} {} {} {} {}) {} {} {} {} {ends}",
            self.bytes(&mac),
            self.bytes(&src.0),
            src.1,
            self.bytes(&dst.0),
            dst.1,
            hex32(seq),
            hex32(ack),
            hex(flags),
            self.bytes(data)
        )
    }

    pub fn replies(&self, xid: u32, mac: [u8; 6], message_type: u8) -> String {
        let built = SlirpBackend::build_reply(xid, &mac, message_type);
        format!(
            "replies {} {} {message_type} (gives {})",
            hex32(xid),
            self.bytes(&mac),
            self.writer.argument(&built, &[240])
        )
    }
}
