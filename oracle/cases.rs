//! A case of the list: a builder's call with its payload and room, the answer to it, and its line.

use published::SlirpBackend;

use crate::amended::amended_datagram;
use crate::document_01;
use crate::draws::{ADDRESSES_SEED, BUILDERS_SEED, Draws};
use crate::lines::{ALL_ONES, Lines, hex, ruled_bytes};

pub const SYN: u8 = 0x02;
pub const MOST_ROOM: usize = 70_144;
const MOST_WRITTEN_OUT: usize = 64;

pub const BUILT: u8 = 1;
pub const NO_ROOM: u8 = 5;
const TOO_LONG: u8 = 6;

/// An address and a port.
pub type End = ([u8; 4], u16);

#[derive(Clone, Debug)]
pub enum Call {
    Ip {
        dst_mac: [u8; 6],
        src_ip: [u8; 4],
        dst_ip: [u8; 4],
        proto: u8,
    },
    Udp {
        src: End,
        dst: End,
    },
    Tcp {
        dst_mac: [u8; 6],
        src: End,
        dst: End,
        seq: u32,
        ack: u32,
        flags: u8,
    },
}

/// The payload as a line gives it: byte by byte, or by a rule where that would be long.
pub enum Payload {
    WrittenOut(Vec<u8>),
    ByRule { seed: u8, len: usize },
}

/// The buffer lent, measured by the bytes that the answer takes.
#[derive(Clone, Copy)]
pub enum Room {
    Full,
    OneShort,
    Empty,
    OneMore,
    /// Drawn from what does not fit.
    Shorter,
    /// Drawn from one byte more up to the most.
    Larger,
    Most,
}

impl Call {
    fn kind(&self) -> u8 {
        match self {
            Call::Ip { .. } => 3,
            Call::Udp { .. } => 5,
            Call::Tcp { .. } => 6,
        }
    }

    /// Document 01's longest payload: past it a length no longer fits in its 16 bits.
    pub fn limit(&self) -> usize {
        match self {
            Call::Ip { .. } => 65_515,
            Call::Udp { .. } => 65_527,
            Call::Tcp { flags, .. } if flags & SYN == 0 => 65_495,
            Call::Tcp { .. } => 65_487,
        }
    }

    /// How many bytes stand before the payload.
    pub fn head_len(&self) -> usize {
        match self {
            Call::Ip { .. } => 34,
            Call::Udp { .. } => 8,
            Call::Tcp { flags, .. } if flags & SYN == 0 => 54,
            Call::Tcp { .. } => 62,
        }
    }

    pub fn takes_id(&self) -> bool {
        !matches!(self, Call::Udp { .. })
    }

    /// What the Rust builds; of a datagram, what `amended.rs` has become of it.
    pub fn ask_the_rust(&self, payload: &[u8]) -> Vec<u8> {
        match self {
            Call::Ip {
                dst_mac,
                src_ip,
                dst_ip,
                proto,
            } => SlirpBackend::make_ip_frame(dst_mac, src_ip, dst_ip, *proto, payload),
            Call::Udp { src, dst } => {
                let built = SlirpBackend::make_udp_payload(src.1, dst.1, payload);
                amended_datagram(src.0, dst.0, built)
            }
            Call::Tcp {
                dst_mac,
                src,
                dst,
                seq,
                ack,
                flags,
            } => SlirpBackend::make_tcp_frame(*dst_mac, *src, *dst, *seq, *ack, *flags, payload),
        }
    }

    /// The line's fields before the room.
    fn fields(&self, id: u16) -> String {
        match self {
            Call::Ip {
                dst_mac,
                src_ip,
                dst_ip,
                proto,
            } => format!(
                "03 {id:04x} {} {} {} {proto:02x}",
                hex(dst_mac),
                hex(src_ip),
                hex(dst_ip)
            ),
            Call::Udp { src, dst } => format!(
                "05 {} {:04x} {} {:04x}",
                hex(&src.0),
                src.1,
                hex(&dst.0),
                dst.1
            ),
            Call::Tcp {
                dst_mac,
                src,
                dst,
                seq,
                ack,
                flags,
            } => format!(
                "06 {id:04x} {} {} {:04x} {} {:04x} {seq:08x} {ack:08x} {flags:02x}",
                hex(dst_mac),
                hex(&src.0),
                src.1,
                hex(&dst.0),
                dst.1
            ),
        }
    }
}

/// What a 16-bit word that was 0 has to become to turn a checksum into another one.
pub fn word_that_turns(checksum: u16, wanted: u16) -> u16 {
    ((checksum as u32 + 65_535 - wanted as u32) % 65_535) as u16
}

/// The data with its first word turned so that the checksum of the datagram around it is computed as this
/// one; what is computed as 0 is sent as 0xffff. No datagram's is computed as 0xffff, since its protocol is
/// summed, which is not 0.
pub fn aimed(src: End, dst: End, mut data: Vec<u8>, wanted: u16) -> Vec<u8> {
    data[..2].fill(0);
    let stored = |data: &[u8]| {
        let built = Call::Udp { src, dst }.ask_the_rust(data);
        u16::from_be_bytes([built[6], built[7]])
    };
    let word = word_that_turns(stored(&data), wanted);
    data[..2].copy_from_slice(&word.to_be_bytes());
    assert_eq!(stored(&data), if wanted == 0 { 0xffff } else { wanted });
    data
}

impl Payload {
    /// Written out where that is short, else by rule.
    pub fn drawn(draws: &mut Draws, len: usize) -> Self {
        if len <= MOST_WRITTEN_OUT {
            Payload::WrittenOut(draws.bytes(len))
        } else {
            Payload::by_rule(draws, len)
        }
    }

    pub fn by_rule(draws: &mut Draws, len: usize) -> Self {
        Payload::ByRule {
            seed: draws.rule_seed(),
            len,
        }
    }

    fn bytes(&self) -> Vec<u8> {
        match self {
            Payload::WrittenOut(bytes) => bytes.clone(),
            Payload::ByRule { seed, len } => ruled_bytes(*seed, *len),
        }
    }
}

impl Room {
    pub fn bytes(self, needed: usize, draws: &mut Draws) -> usize {
        match self {
            Room::Full => needed,
            Room::OneShort => needed - 1,
            Room::Empty => 0,
            Room::OneMore => needed + 1,
            Room::Shorter => draws.below(needed),
            Room::Larger => needed + 1 + draws.below(MOST_ROOM - needed),
            Room::Most => MOST_ROOM,
        }
    }
}

/// The list as it grows. It follows the Rust's id counter, which belongs to the process.
pub struct List {
    pub draws: Draws,
    /// What a datagram's addresses are drawn from.
    pub addresses: Draws,
    lines: Lines,
    next_id: u16,
}

impl List {
    pub fn new() -> Self {
        List {
            draws: Draws::new(BUILDERS_SEED),
            addresses: Draws::new(ADDRESSES_SEED),
            lines: Lines::new(),
            next_id: 1,
        }
    }

    pub fn comment(&mut self, words: &str) {
        self.lines.comment(words);
    }

    pub fn finish(self) -> String {
        self.lines.finish()
    }

    /// Has the Rust build it, and checks all that a line leaves out: which id it took, and that the
    /// payload follows the head and ends the frame. A datagram has to be RFC 768's, read a second time.
    pub fn build(&mut self, call: &Call, payload: &[u8]) -> Vec<u8> {
        let built = call.ask_the_rust(payload);
        assert_eq!(built.len(), call.head_len() + payload.len());
        assert!(built[call.head_len()..] == *payload);
        if let Call::Udp { src, dst } = call {
            assert!(built == document_01::datagram(*src, *dst, payload));
        }
        if call.takes_id() {
            assert_eq!(built[18..20], self.next_id.to_be_bytes());
            self.next_id = self.next_id.wrapping_add(1);
        }
        built
    }

    /// Builds frames that are not listed until `id` is next.
    pub fn burn_to(&mut self, id: u16) {
        let unlisted = Call::Ip {
            dst_mac: [0; 6],
            src_ip: [0; 4],
            dst_ip: [0; 4],
            proto: 0,
        };
        while self.next_id != id {
            self.build(&unlisted, &[]);
        }
    }

    /// Moves the next id on by a little, so that the listed ids spread over their range.
    pub fn burn_some(&mut self) {
        let step = self.draws.below(500) as u16;
        self.burn_to(self.next_id.wrapping_add(step));
    }

    /// Lists one call once for each room. The Rust is asked once: the lines hold the same record.
    /// Gives back what it built, if it was asked.
    pub fn case(&mut self, call: &Call, payload: &Payload, rooms: &[Room]) -> Option<Vec<u8>> {
        let bytes = payload.bytes();
        let id = self.next_id;
        let built = (bytes.len() <= call.limit()).then(|| self.build(call, &bytes));
        let needed = match &built {
            Some(built) => built.len(),
            None => call.head_len() + bytes.len(),
        };

        for room in rooms {
            let room = room.bytes(needed, &mut self.draws);
            let (verdict, value, head) = match &built {
                None => (TOO_LONG, bytes.len(), &[][..]),
                Some(built) if room < built.len() => (NO_ROOM, built.len(), &[][..]),
                Some(built) => (BUILT, built.len(), &built[..call.head_len()]),
            };
            let (seed, written_out) = match payload {
                Payload::WrittenOut(bytes) => (0, &bytes[..]),
                Payload::ByRule { seed, .. } => (*seed, &[][..]),
            };
            let mut line = format!(
                "{} {room:08x} {verdict:02x} {value:08x} {seed:02x} {:08x} {:02x}",
                call.fields(id),
                bytes.len(),
                head.len(),
            );
            for part in [head, written_out] {
                if !part.is_empty() {
                    line = format!("{line} {}", hex(part));
                }
            }
            self.lines.add(call.kind(), Some(verdict), &line);
        }
        built
    }

    pub fn checksum(&mut self, bytes: &[u8]) -> u16 {
        let sum = SlirpBackend::checksum(bytes);
        self.lines
            .add(1, None, &format!("01 {sum:04x} {}", hex(bytes)));
        sum
    }

    pub fn checksum_by_rule(&mut self, len: usize) {
        let seed = self.draws.rule_seed();
        self.checksum_from_seed(seed, len);
    }

    pub fn checksum_of_ones(&mut self, len: usize) {
        self.checksum_from_seed(ALL_ONES, len);
    }

    fn checksum_from_seed(&mut self, seed: u8, len: usize) {
        let sum = SlirpBackend::checksum(&ruled_bytes(seed, len));
        self.lines
            .add(7, None, &format!("07 {sum:04x} {seed:02x} {len:08x}"));
    }
}
