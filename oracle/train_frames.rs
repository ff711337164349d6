//! Frames made for the list: an IPv4 packet with any field as it is wanted.

use crate::draws::{GATEWAY_IP, GATEWAY_MAC, GUEST_IP, GUEST_MAC};
use crate::train_pieces::run;

pub const MORE: u16 = 0x2000;
pub const DONT: u16 = 0x4000;
pub const RESERVED: u16 = 0x8000;

pub const HEADER_AT: usize = 14;
pub const SUM_AT: usize = HEADER_AT + 10;

#[derive(Clone, Debug)]
pub struct Made {
    pub source: [u8; 4],
    pub target: [u8; 4],
    pub protocol: u8,
    pub id: u16,
    pub flags: u16,
    /// In blocks of eight bytes.
    pub offset: u16,
    pub options: Vec<u8>,
    pub data: Vec<u8>,
}

/// Bytes that are a run, which is short to write down: another one for each seed.
pub fn ruled(seed: u8, len: usize) -> Vec<u8> {
    run(seed, seed.wrapping_mul(5).wrapping_add(3), seed | 1, len)
}

impl Made {
    /// Part of the datagram that all hostile trains are about.
    pub fn new(flags: u16, offset: usize, data: Vec<u8>) -> Self {
        Made {
            source: GUEST_IP,
            target: GATEWAY_IP,
            protocol: 17,
            id: 0x1234,
            flags,
            offset: offset as u16,
            options: Vec::new(),
            data,
        }
    }

    /// The bytes from `start` up to `stop` of a payload, as a fragment that isn't the last.
    pub fn part(payload: &[u8], start: usize, stop: usize) -> Self {
        assert_eq!(start % 8, 0);
        Made::new(MORE, start / 8, payload[start..stop].to_vec())
    }

    /// The same from `start` on, as the last fragment.
    pub fn last(payload: &[u8], start: usize) -> Self {
        assert_eq!(start % 8, 0);
        Made::new(0, start / 8, payload[start..].to_vec())
    }

    /// A frame with no fragmentation.
    pub fn whole(flags: u16, data: Vec<u8>) -> Self {
        Made::new(flags, 0, data)
    }

    pub fn frame(&self) -> Vec<u8> {
        assert_eq!(self.options.len() % 4, 0);
        let header = 20 + self.options.len();
        let total = (header + self.data.len()) as u16;
        let mut frame = [GATEWAY_MAC, GUEST_MAC].concat();
        frame.extend([0x08, 0x00, 0x40 | (header / 4) as u8, 0]);
        frame.extend(total.to_be_bytes());
        frame.extend(self.id.to_be_bytes());
        frame.extend((self.flags | self.offset).to_be_bytes());
        frame.extend([64, self.protocol, 0, 0]);
        frame.extend(self.source);
        frame.extend(self.target);
        frame.extend(&self.options);
        frame.extend(&self.data);
        mended(frame)
    }
}

/// The frame with the sum of its header made right, which is as long as it says, or ends with the frame.
pub fn mended(mut frame: Vec<u8>) -> Vec<u8> {
    frame[SUM_AT..SUM_AT + 2].fill(0);
    let stop = (HEADER_AT + usize::from(frame[HEADER_AT] % 16) * 4).min(frame.len());
    let mut sum = 0u32;
    for word in frame[HEADER_AT..stop].chunks(2) {
        sum += u32::from(word[0]) << 8 | u32::from(*word.get(1).unwrap_or(&0));
        sum = (sum & 0xffff) + (sum >> 16);
    }
    frame[SUM_AT..SUM_AT + 2].copy_from_slice(&(!(sum as u16)).to_be_bytes());
    frame
}

/// The frame with other bytes at `at`, and its sum as it was.
pub fn with(mut frame: Vec<u8>, at: usize, bytes: &[u8]) -> Vec<u8> {
    frame[at..at + bytes.len()].copy_from_slice(bytes);
    frame
}

/// The frame with more bytes behind it.
pub fn padded(mut frame: Vec<u8>, len: usize) -> Vec<u8> {
    frame.resize(len.max(frame.len()), 0xee);
    frame
}
