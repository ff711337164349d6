//! Document 02's request 4/13, read a second time: what a call on a store of fragments answers. It is
//! written from the document's sentences, which stand beside what they became, and from nothing else.
//! It keeps no bytes in place and no bits: a store is the list of fragments that it has taken, with the
//! set of their blocks, and every question is asked of these.

use std::collections::BTreeSet;

pub const PASSED: u8 = 0;
pub const STORED: u8 = 1;
pub const COMPLETE: u8 = 2;
pub const RELEASED: u8 = 3;

/// "65,515 payload bytes, and 128 words of 64 bits"
const SIZE: (usize, usize) = (65_515, 128);
/// "one bit for each block of eight bytes"
const BLOCK: usize = 8;

/// What a call says: its answer, the payload that it hands out, and, of a refusal, why.
#[derive(Clone, Debug, PartialEq, Eq)]
pub struct Said {
    pub answer: u8,
    pub payload: Vec<u8>,
    pub why: &'static str,
}

/// "one datagram, named by source, target, protocol and id"
#[derive(Clone, Debug, PartialEq, Eq)]
struct Name {
    source: [u8; 4],
    target: [u8; 4],
    protocol: u8,
    id: u16,
}

#[derive(Clone, Debug)]
struct Fragment {
    name: Name,
    place: usize,
    data: Vec<u8>,
    is_last: bool,
}

impl Fragment {
    fn end(&self) -> usize {
        self.place + self.data.len()
    }

    /// The blocks that hold a byte of it.
    fn blocks(&self) -> impl Iterator<Item = usize> {
        self.place / BLOCK..=(self.end() - 1) / BLOCK
    }
}

#[derive(Clone, Debug, Default)]
pub struct Store {
    taken: Vec<Fragment>,
    blocks: BTreeSet<usize>,
}

/// A frame's IPv4 packet, once "the IPv4 header has to be sound" holds.
struct Packet<'a> {
    header: &'a [u8],
    payload: &'a [u8],
}

impl Packet<'_> {
    fn number(&self, at: usize) -> usize {
        usize::from(self.header[at]) * 256 + usize::from(self.header[at + 1])
    }

    /// RFC 791: the flags are three bits, the last of them "more fragments".
    fn more(&self) -> bool {
        self.header[6] & 0b0010_0000 != 0
    }

    /// RFC 791: thirteen bits, "measured in units of 8 octets".
    fn place(&self) -> usize {
        self.number(6) % 8_192 * BLOCK
    }

    fn name(&self) -> Name {
        Name {
            source: self.header[12..16].try_into().unwrap(),
            target: self.header[16..20].try_into().unwrap(),
            protocol: self.header[9],
            id: self.number(4) as u16,
        }
    }
}

/// "header sums right": the sum of all words, carries added in, is all ones.
fn sums_right(header: &[u8]) -> bool {
    let words = header
        .chunks(2)
        .map(|word| u64::from(word[0]) << 8 | u64::from(word[1]));
    let sum: u64 = words.sum();
    // A sum in ones' complement is the number modulo 0xffff; all zeros it is only of all zeros.
    sum != 0 && sum % 0xffff == 0
}

/// "a frame under 34 bytes or not of type 0x0800, unsound header"; and "version 4, header of 20 or more
/// and within the total length, that within the frame, header sums right. The payload ends at the total
/// length."
fn packet(frame: &[u8]) -> Result<Packet<'_>, &'static str> {
    if frame.len() < 34 {
        return Err("a frame under 34 bytes");
    }
    let (ethernet, rest) = frame.split_at(14);
    if ethernet[12..] != [0x08, 0x00] {
        return Err("not of type 0x0800");
    }
    if rest[0] / 16 != 4 {
        return Err("version");
    }
    let header = usize::from(rest[0] % 16) * 4;
    if header < 20 {
        return Err("header of 20 or more");
    }
    let total = usize::from(rest[2]) * 256 + usize::from(rest[3]);
    if header > total {
        return Err("header within the total length");
    }
    if total > rest.len() {
        return Err("total length within the frame");
    }
    let (header, payload) = rest[..total].split_at(header);
    if !sums_right(header) {
        return Err("header sums");
    }
    Ok(Packet { header, payload })
}

fn refused(answer: u8, why: &'static str) -> Said {
    Said {
        answer,
        payload: Vec::new(),
        why,
    }
}

fn said(answer: u8, payload: Vec<u8>) -> Said {
    Said {
        answer,
        payload,
        why: "",
    }
}

impl Store {
    /// The call with a frame, where the store is lent at so many bytes and words.
    pub fn take(&mut self, lent: (usize, usize), frame: &[u8]) -> Said {
        // "Refusals, in this order .. 10 a store lent at another size, .."
        if lent != SIZE {
            return refused(10, "a store lent at another size");
        }
        let packet = match packet(frame) {
            Ok(packet) => packet,
            Err(why) => return refused(10, why),
        };
        // "A frame with no fragmentation passes by without touching the store"
        if !packet.more() && packet.place() == 0 {
            return said(PASSED, packet.payload.to_vec());
        }
        let fragment = Fragment {
            name: packet.name(),
            place: packet.place(),
            data: packet.payload.to_vec(),
            is_last: !packet.more(),
        };
        if let Some((answer, why)) = self.refusal(&fragment) {
            return refused(answer, why);
        }
        self.blocks.extend(fragment.blocks());
        self.taken.push(fragment);
        match self.whole() {
            Some(payload) => said(COMPLETE, payload),
            None => said(STORED, Vec::new()),
        }
    }

    /// "a release at any time empties the store for the next, or gets 10 where it is lent at another size"
    pub fn release(&mut self, lent: (usize, usize)) -> Said {
        if lent != SIZE {
            return refused(10, "a store lent at another size");
        }
        *self = Store::default();
        said(RELEASED, Vec::new())
    }

    fn refusal(&self, fragment: &Fragment) -> Option<(u8, &'static str)> {
        let length = fragment.data.len();
        // "A fragment that isn't the last has a length that is a non-zero multiple of 8; the last may have
        // any non-zero length."
        if length == 0 || (!fragment.is_last && length % 8 != 0) {
            return Some((10, "bad length"));
        }
        // "or payload past 65,515"
        if fragment.end() > SIZE.0 {
            return Some((10, "payload past 65,515"));
        }
        // "11 store holds a complete datagram or another one"
        if self.whole().is_some() {
            return Some((11, "a complete datagram"));
        }
        if self.taken.iter().any(|held| held.name != fragment.name) {
            return Some((11, "another one"));
        }
        // "12 a block is already there"
        if fragment.blocks().any(|block| self.blocks.contains(&block)) {
            return Some((12, "a block is already there"));
        }
        // "13 a second last, a fragment past the known end, or a last that ends at or before a stored
        // block's start"
        if let Some(end) = self.known_end() {
            if fragment.is_last {
                return Some((13, "a second last"));
            }
            if fragment.end() > end {
                return Some((13, "past the known end"));
            }
        }
        let mut starts = self.blocks.iter().map(|block| block * BLOCK);
        if fragment.is_last && starts.any(|start| fragment.end() <= start) {
            return Some((13, "a last that ends at or before a stored block's start"));
        }
        None
    }

    fn known_end(&self) -> Option<usize> {
        self.taken
            .iter()
            .find(|held| held.is_last)
            .map(Fragment::end)
    }

    /// "The datagram is complete when the end is known and no block before it is missing": its payload, in
    /// which "each byte of the payload is the byte of the fragment that covers its place".
    fn whole(&self) -> Option<Vec<u8>> {
        let end = self.known_end()?;
        let mut before = (0..).take_while(|block| block * BLOCK < end);
        if before.any(|block| !self.blocks.contains(&block)) {
            return None;
        }
        let mut in_place: Vec<&Fragment> = self.taken.iter().collect();
        in_place.sort_by_key(|fragment| fragment.place);
        let payload: Vec<u8> = in_place
            .iter()
            .flat_map(|fragment| fragment.data.clone())
            .collect();
        assert_eq!(
            payload.len(),
            end,
            "a complete datagram's fragments lie side by side"
        );
        Some(payload)
    }
}
