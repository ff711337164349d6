//! The proved library as include/yavoledu.h declares it.

pub const DROP: u32 = 0;
pub const REPLY: u32 = 1;
pub const DNS: u32 = 2;
pub const RELAY: u32 = 3;
pub const TCP: u32 = 4;
pub const NO_ROOM: u32 = 5;
pub const TOO_LONG: u32 = 6;
pub const CUT_TYPE: u32 = 7;
pub const OUTSIDE: u32 = 8;

/// What the call that makes a record answers.
pub const BAD_RECORD: u32 = 9;
pub const MADE: u32 = 24;

/// Kinds that the reader tells.
pub const KIND_ARP: u32 = 1;
pub const KIND_ICMP: u32 = 2;
pub const KIND_UDP: u32 = 3;
pub const KIND_DHCP: u32 = 4;
pub const KIND_TCP: u32 = 5;

/// What the calls on a store answer.
pub const UNFIT: u32 = 10;
pub const OVERLAP: u32 = 12;
pub const PASSED: u32 = 20;
pub const STORED: u32 = 21;
pub const COMPLETE: u32 = 22;
pub const RELEASED: u32 = 23;

#[derive(Clone, Copy, Debug, PartialEq)]
#[repr(C)]
pub struct State {
    pub phase: u32,
    pub source: u32,
    pub target: u32,
    pub protocol: u32,
    pub id: u32,
    pub end: u32,
}

#[derive(Clone, Copy, Debug, PartialEq)]
#[repr(C)]
pub struct Network {
    pub gateway: [u8; 4],
    pub guest: [u8; 4],
    pub mask: [u8; 4],
    pub lease: u32,
}

#[derive(Clone, Copy, Debug, PartialEq)]
#[repr(C)]
pub struct Guest {
    pub mac: [u8; 6],
    pub id: u16,
    pub xid: u32,
    pub network: Network,
}

unsafe extern "C" {
    pub fn yavoledu_make_guest(
        guest: *mut Guest,
        mac: *const [u8; 6],
        gateway: *const [u8; 4],
        guest_ip: *const [u8; 4],
        mask: *const [u8; 4],
        lease_named: u32,
        lease: u32,
    ) -> u32;

    pub fn yavoledu_send(
        guest: *mut Guest,
        frame: *const u8,
        frame_len: usize,
        reply: *mut u8,
        reply_len: usize,
        values: *mut [usize; 2],
    ) -> u32;

    pub fn yavoledu_make_ip_frame(
        id: *mut u16,
        dst_mac: *const [u8; 6],
        src_ip: *const [u8; 4],
        dst_ip: *const [u8; 4],
        proto: u8,
        payload: *const u8,
        payload_len: usize,
        out: *mut u8,
        out_len: usize,
        values: *mut [usize; 2],
    ) -> u32;

    pub fn yavoledu_make_udp_payload(
        src_ip: *const [u8; 4],
        src_port: u16,
        dst_ip: *const [u8; 4],
        dst_port: u16,
        data: *const u8,
        data_len: usize,
        out: *mut u8,
        out_len: usize,
        values: *mut [usize; 2],
    ) -> u32;

    pub fn yavoledu_make_tcp_frame(
        id: *mut u16,
        dst_mac: *const [u8; 6],
        src_ip: *const [u8; 4],
        src_port: u16,
        dst_ip: *const [u8; 4],
        dst_port: u16,
        seq: u32,
        ack: u32,
        flags: u8,
        data: *const u8,
        data_len: usize,
        out: *mut u8,
        out_len: usize,
        values: *mut [usize; 2],
    ) -> u32;

    pub fn yavoledu_checksum(data: *const u8, data_len: usize) -> u16;

    pub fn yavoledu_read(frame: *const u8, frame_len: usize, parts: *mut [usize; 13]) -> u32;

    pub fn yavoledu_take(
        state: *mut State,
        frame: *const u8,
        frame_len: usize,
        bytes: *mut u8,
        bytes_len: usize,
        bits: *mut u64,
        bits_len: usize,
        payload: *mut [usize; 2],
    ) -> u32;

    pub fn yavoledu_release(
        state: *mut State,
        bytes: *const u8,
        bytes_len: usize,
        bits: *mut u64,
        bits_len: usize,
    ) -> u32;
}
