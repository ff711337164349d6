//! Our side of the comparison: the proved code, linked as an object, and the memory lent to it.

use crate::cases::Call;
use crate::document_01::Record;
use crate::draws::Draws;
use crate::networks::Network;

// The functions that compared.rt.txt exports; a slice is a pointer and a length.
unsafe extern "C" {
    fn compared_handle(
        mac: *mut u8,
        id: *mut u16,
        xid: *mut u32,
        network: *mut u32,
        frame: *const u8,
        frame_len: usize,
        reply: *mut u8,
        room: usize,
        values: *mut u64,
    ) -> u32;

    fn compared_ip_frame(
        mac: *mut u8,
        id: *mut u16,
        xid: *mut u32,
        network: *mut u32,
        dst_mac: *const u8,
        src_ip: *const u8,
        dst_ip: *const u8,
        proto: u8,
        payload: *const u8,
        payload_len: usize,
        out: *mut u8,
        room: usize,
        values: *mut u64,
    ) -> u32;

    fn compared_udp_payload(
        src_ip: *const u8,
        src_port: u16,
        dst_ip: *const u8,
        dst_port: u16,
        data: *const u8,
        data_len: usize,
        out: *mut u8,
        room: usize,
        values: *mut u64,
    ) -> u32;

    fn compared_tcp_frame(
        mac: *mut u8,
        id: *mut u16,
        xid: *mut u32,
        network: *mut u32,
        dst_mac: *const u8,
        src_ip: *const u8,
        src_port: u16,
        dst_ip: *const u8,
        dst_port: u16,
        seq: u32,
        ack: u32,
        flags: u8,
        data: *const u8,
        data_len: usize,
        out: *mut u8,
        room: usize,
        values: *mut u64,
    ) -> u32;

    fn compared_dhcp_reply(
        mac: *const u8,
        xid: u32,
        network: *const u32,
        kind: u8,
        out: *mut u8,
        room: usize,
        values: *mut u64,
    ) -> u32;

    fn compared_message_type(data: *const u8, data_len: usize, values: *mut u64) -> u32;

    fn compared_checksum(input: *const u8, len: usize) -> u16;

    fn compared_sum(start: u16, input: *const u8, len: usize) -> u16;

    fn compared_plain(start: u16, input: *const u8, len: usize) -> u16;

    fn compared_make(
        mac: *mut u8,
        id: *mut u16,
        xid: *mut u32,
        network: *mut u32,
        lease_named: u32,
    ) -> u32;

    fn compared_make_over(
        mac: *mut u8,
        id: *mut u16,
        xid: *mut u32,
        network: *mut u32,
        new_mac: *const u8,
        asked: *const u32,
        lease_named: u32,
    ) -> u32;
}

/// What a call of ours answers, beside what it wrote.
#[derive(Clone, Copy, Debug, PartialEq)]
pub struct Told {
    pub number: u32,
    pub values: [u64; 2],
    pub after: Record,
}

/// No call leaves these: each writes both values.
const UNWRITTEN: [u64; 2] = [u64::MAX; 2];

/// The network as it is lent.
fn four_numbers(network: Network) -> [u32; 4] {
    let [gateway, guest, mask] =
        [network.gateway, network.guest, network.mask].map(u32::from_be_bytes);
    [gateway, guest, mask, network.lease]
}

fn network_of(numbers: [u32; 4]) -> Network {
    let [gateway, guest, mask] = [numbers[0], numbers[1], numbers[2]].map(u32::to_be_bytes);
    Network {
        gateway,
        guest,
        mask,
        lease: numbers[3],
    }
}

pub fn handle(record: Record, frame: &[u8], reply: &mut [u8]) -> Told {
    let (mut after, mut values) = (record, UNWRITTEN);
    let mut network = four_numbers(record.network);
    let number = unsafe {
        compared_handle(
            after.mac.as_mut_ptr(),
            &mut after.id,
            &mut after.xid,
            network.as_mut_ptr(),
            frame.as_ptr(),
            frame.len(),
            reply.as_mut_ptr(),
            reply.len(),
            values.as_mut_ptr(),
        )
    };
    after.network = network_of(network);
    Told {
        number,
        values,
        after,
    }
}

/// A call of a builder. A datagram takes no id, so there the record is handed back as it is.
pub fn built(record: Record, call: &Call, payload: &[u8], out: &mut [u8]) -> Told {
    let (mut after, mut values) = (record, UNWRITTEN);
    let mut numbers = four_numbers(record.network);
    let (mac, id, xid) = (after.mac.as_mut_ptr(), &mut after.id, &mut after.xid);
    let network = numbers.as_mut_ptr();
    let (bytes, len) = (payload.as_ptr(), payload.len());
    let (at, room, told) = (out.as_mut_ptr(), out.len(), values.as_mut_ptr());
    let number = unsafe {
        match call {
            Call::Ip {
                dst_mac,
                src_ip,
                dst_ip,
                proto,
            } => compared_ip_frame(
                mac,
                id,
                xid,
                network,
                dst_mac.as_ptr(),
                src_ip.as_ptr(),
                dst_ip.as_ptr(),
                *proto,
                bytes,
                len,
                at,
                room,
                told,
            ),
            Call::Udp { src, dst } => {
                let (from, to) = (src.0.as_ptr(), dst.0.as_ptr());
                compared_udp_payload(from, src.1, to, dst.1, bytes, len, at, room, told)
            }
            Call::Tcp {
                dst_mac,
                src,
                dst,
                seq,
                ack,
                flags,
            } => compared_tcp_frame(
                mac,
                id,
                xid,
                network,
                dst_mac.as_ptr(),
                src.0.as_ptr(),
                src.1,
                dst.0.as_ptr(),
                dst.1,
                *seq,
                *ack,
                *flags,
                bytes,
                len,
                at,
                room,
                told,
            ),
        }
    };
    after.network = network_of(numbers);
    Told {
        number,
        values,
        after,
    }
}

/// The reply takes MAC, xid and network from the record, and changes none of them.
pub fn dhcp_reply(record: Record, kind: u8, out: &mut [u8]) -> Told {
    let mut values = UNWRITTEN;
    let number = unsafe {
        compared_dhcp_reply(
            record.mac.as_ptr(),
            record.xid,
            four_numbers(record.network).as_ptr(),
            kind,
            out.as_mut_ptr(),
            out.len(),
            values.as_mut_ptr(),
        )
    };
    Told {
        number,
        values,
        after: record,
    }
}

/// 0 and the message type, or 7 and the place of a type that is cut off.
pub fn message_type(data: &[u8]) -> (u32, [u64; 2]) {
    let mut values = UNWRITTEN;
    let number = unsafe { compared_message_type(data.as_ptr(), data.len(), values.as_mut_ptr()) };
    (number, values)
}

pub fn checksum(input: &[u8]) -> u16 {
    unsafe { compared_checksum(input.as_ptr(), input.len()) }
}

pub fn sum(start: u16, input: &[u8]) -> u16 {
    unsafe { compared_sum(start, input.as_ptr(), input.len()) }
}

pub fn plain(start: u16, input: &[u8]) -> u16 {
    unsafe { compared_plain(start, input.as_ptr(), input.len()) }
}

/// What a record made is told as.
pub const MADE: u32 = 24;

/// A record made with this MAC and network, if one is, and the number told. The network's lease time is named
/// where `lease_named` is not 0.
pub fn make(mac: [u8; 6], network: Network, lease_named: u32) -> (u32, Option<Record>) {
    let (id, xid) = (!0, !0);
    let mut record = Record {
        mac,
        id,
        xid,
        network,
    };
    let mut lent = four_numbers(network);
    let (mac, at) = (record.mac.as_mut_ptr(), lent.as_mut_ptr());
    let number = unsafe { compared_make(mac, &mut record.id, &mut record.xid, at, lease_named) };
    record.network = network_of(lent);
    (number, (number == MADE).then_some(record))
}

/// The same over an old record.
pub fn make_over(old: Record, mac: [u8; 6], network: Network, lease_named: u32) -> (u32, Record) {
    let mut record = old;
    let mut lent = four_numbers(old.network);
    let number = unsafe {
        compared_make_over(
            record.mac.as_mut_ptr(),
            &mut record.id,
            &mut record.xid,
            lent.as_mut_ptr(),
            mac.as_ptr(),
            four_numbers(network).as_ptr(),
            lease_named,
        )
    };
    record.network = network_of(lent);
    (number, record)
}

/// Bytes around what is lent, which no call may touch.
const MARGIN: usize = 64;
const PERIOD: usize = 251;

/// The buffer that is lent for replies: drawn bytes, others in each call, so that a byte written by
/// mistake is not by chance the one that stood there every time.
pub struct Buffer {
    bytes: Vec<u8>,
    drawn: Vec<u8>,
    shift: usize,
}

impl Buffer {
    pub fn new(most: usize, draws: &mut Draws) -> Self {
        Buffer {
            bytes: vec![0; most + 2 * MARGIN],
            drawn: draws.bytes(most + 2 * MARGIN + PERIOD),
            shift: 0,
        }
    }

    pub fn lend(&mut self, room: usize) -> &mut [u8] {
        self.shift = (self.shift + 1) % PERIOD;
        let around = room + 2 * MARGIN;
        self.bytes[..around].copy_from_slice(&self.drawn[self.shift..self.shift + around]);
        &mut self.bytes[MARGIN..MARGIN + room]
    }

    pub fn lent(&self, room: usize) -> &[u8] {
        &self.bytes[MARGIN..MARGIN + room]
    }

    /// Where the buffer is not these bytes and, around them, what it was when it was lent: the first
    /// such place, counted from the buffer's first byte.
    pub fn first_wrong(&self, room: usize, written: &[u8]) -> Option<isize> {
        let (written_to, around) = (MARGIN + written.len(), room + 2 * MARGIN);
        let was = &self.drawn[self.shift..self.shift + around];
        let is = &self.bytes[..around];
        if is[..MARGIN] == was[..MARGIN]
            && is[MARGIN..written_to] == *written
            && is[written_to..] == was[written_to..]
        {
            return None;
        }
        let right = |at: usize| match at.checked_sub(MARGIN) {
            Some(place) if place < written.len() => written[place],
            _ => was[at],
        };
        (0..around)
            .find(|at| is[*at] != right(*at))
            .map(|at| at as isize - MARGIN as isize)
    }
}

/// The frame as both sides are handed it. By turns it ends where memory does, so that reading past its
/// end crashes, and stands before bytes that say other things each time, so that it shows.
pub struct Lent {
    memory: &'static mut [u8],
    start: usize,
    len: usize,
    turn: usize,
}

const BEHIND: [[u8; 8]; 4] = [
    [1, 1, 1, 1, 1, 1, 1, 1],
    [53, 1, 3, 53, 1, 3, 53, 1],
    [3, 3, 3, 3, 3, 3, 3, 3],
    [0xff; 8],
];

const MEMORY: usize = 512 * 1024;
/// A multiple of every machine's page.
const OUT_OF_REACH: usize = 64 * 1024;

unsafe extern "C" {
    fn mmap(at: *mut u8, len: usize, access: i32, kind: i32, file: i32, offset: i64) -> *mut u8;
    fn mprotect(at: *mut u8, len: usize, access: i32) -> i32;
}

/// Memory that can be read and written, and that ends where nothing can.
fn memory_with_an_end() -> &'static mut [u8] {
    const READ_AND_WRITE: i32 = 1 | 2;
    const PRIVATE_AND_FROM_NO_FILE: i32 = 0x02 | 0x20;
    unsafe {
        let null = std::ptr::null_mut();
        let whole = MEMORY + OUT_OF_REACH;
        let at = mmap(null, whole, READ_AND_WRITE, PRIVATE_AND_FROM_NO_FILE, -1, 0);
        assert!(at as isize != -1, "no memory");
        assert_eq!(mprotect(at.add(MEMORY), OUT_OF_REACH, 0), 0);
        std::slice::from_raw_parts_mut(at, MEMORY)
    }
}

impl Lent {
    pub fn new() -> Self {
        Lent {
            memory: memory_with_an_end(),
            start: 0,
            len: 0,
            turn: 0,
        }
    }

    pub fn set(&mut self, frame: &[u8]) {
        self.turn += 1;
        self.len = frame.len();
        let behind = if self.turn % 2 == 0 { MARGIN } else { 0 };
        self.start = MEMORY - behind - self.len;
        self.memory[self.start..MEMORY - behind].copy_from_slice(frame);
        let said = BEHIND[self.turn / 2 % BEHIND.len()];
        for eight in self.memory[MEMORY - behind..].chunks_mut(8) {
            eight.copy_from_slice(&said);
        }
    }

    pub fn frame(&self) -> &[u8] {
        &self.memory[self.start..self.start + self.len]
    }
}
