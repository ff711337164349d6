//! include/yavoledu.h for Rust. The library is a table of functions, so that another can take its place.

use crate::networks;

/// A guest's network.
#[repr(C)]
#[derive(Clone, Copy, Debug, PartialEq)]
pub struct Network {
    pub gateway: [u8; 4],
    pub guest: [u8; 4],
    pub mask: [u8; 4],
    pub lease: u32,
}

impl Network {
    /// As `oracle/` has it.
    pub const fn of_oracle(network: networks::Network) -> Network {
        let networks::Network {
            gateway,
            guest,
            mask,
            lease,
        } = network;
        Network {
            gateway,
            guest,
            mask,
            lease,
        }
    }
}

/// The record that the host keeps for each guest.
#[repr(C)]
#[derive(Clone, Copy, Debug, PartialEq)]
pub struct Guest {
    pub mac: [u8; 6],
    pub id: u16,
    pub xid: u32,
    pub network: Network,
}

/// The network of the published Rust and of document 01.
pub const DOCUMENT_01: Network = Network::of_oracle(networks::HERE);

pub const DROP: u32 = 0;
pub const REPLY: u32 = 1;
pub const DNS: u32 = 2;
pub const RELAY: u32 = 3;
pub const TCP: u32 = 4;
pub const NO_ROOM: u32 = 5;
pub const TOO_LONG: u32 = 6;
pub const CUT_TYPE: u32 = 7;
pub const OUTSIDE: u32 = 8;
pub const BAD_RECORD: u32 = 9;
pub const MADE: u32 = 24;

pub type Values = [usize; 2];
pub type Parts = [usize; 13];

pub struct Library {
    pub make_guest: unsafe extern "C" fn(
        *mut Guest,
        *const u8,
        *const u8,
        *const u8,
        *const u8,
        u32,
        u32,
    ) -> u32,
    pub send:
        unsafe extern "C" fn(*mut Guest, *const u8, usize, *mut u8, usize, *mut Values) -> u32,
    pub make_ip_frame: unsafe extern "C" fn(
        *mut u16,
        *const u8,
        *const u8,
        *const u8,
        u8,
        *const u8,
        usize,
        *mut u8,
        usize,
        *mut Values,
    ) -> u32,
    pub make_udp_payload: unsafe extern "C" fn(
        *const u8,
        u16,
        *const u8,
        u16,
        *const u8,
        usize,
        *mut u8,
        usize,
        *mut Values,
    ) -> u32,
    pub make_tcp_frame: unsafe extern "C" fn(
        *mut u16,
        *const u8,
        *const u8,
        u16,
        *const u8,
        u16,
        u32,
        u32,
        u8,
        *const u8,
        usize,
        *mut u8,
        usize,
        *mut Values,
    ) -> u32,
    pub checksum: unsafe extern "C" fn(*const u8, usize) -> u16,
    pub read: unsafe extern "C" fn(*const u8, usize, *mut Parts) -> u32,
}

/// The table of the functions whose names start with this.
#[macro_export]
macro_rules! library {
    ($prefix:literal) => {{
        unsafe extern "C" {
            #[link_name = concat!($prefix, "yavoledu_make_guest")]
            fn make_guest(
                guest: *mut Guest,
                mac: *const u8,
                gateway: *const u8,
                guest_ip: *const u8,
                mask: *const u8,
                lease_named: u32,
                lease: u32,
            ) -> u32;
            #[link_name = concat!($prefix, "yavoledu_send")]
            fn send(
                guest: *mut Guest,
                frame: *const u8,
                frame_len: usize,
                reply: *mut u8,
                reply_len: usize,
                values: *mut Values,
            ) -> u32;
            #[link_name = concat!($prefix, "yavoledu_make_ip_frame")]
            fn make_ip_frame(
                id: *mut u16,
                dst_mac: *const u8,
                src_ip: *const u8,
                dst_ip: *const u8,
                proto: u8,
                payload: *const u8,
                payload_len: usize,
                out: *mut u8,
                out_len: usize,
                values: *mut Values,
            ) -> u32;
            #[link_name = concat!($prefix, "yavoledu_make_udp_payload")]
            fn make_udp_payload(
                src_ip: *const u8,
                src_port: u16,
                dst_ip: *const u8,
                dst_port: u16,
                data: *const u8,
                data_len: usize,
                out: *mut u8,
                out_len: usize,
                values: *mut Values,
            ) -> u32;
            #[link_name = concat!($prefix, "yavoledu_make_tcp_frame")]
            fn make_tcp_frame(
                id: *mut u16,
                dst_mac: *const u8,
                src_ip: *const u8,
                src_port: u16,
                dst_ip: *const u8,
                dst_port: u16,
                seq: u32,
                ack: u32,
                flags: u8,
                data: *const u8,
                data_len: usize,
                out: *mut u8,
                out_len: usize,
                values: *mut Values,
            ) -> u32;
            #[link_name = concat!($prefix, "yavoledu_checksum")]
            fn checksum(data: *const u8, data_len: usize) -> u16;
            #[link_name = concat!($prefix, "yavoledu_read")]
            fn read(frame: *const u8, frame_len: usize, parts: *mut Parts) -> u32;
        }
        Library {
            make_guest,
            send,
            make_ip_frame,
            make_udp_payload,
            make_tcp_frame,
            checksum,
            read,
        }
    }};
}

/// As it ships.
pub const SHIPPED: Library = library!("");

/// The calls on a store, as they ship: no fault is put around them, so `Library` has none of them.
#[allow(dead_code)] // by hard/fuzz
pub mod store {
    use super::Values;

    /// A store's state: include/yavoledu.h.
    #[repr(C)]
    #[derive(Default)]
    pub struct State(pub [u32; 6]);

    pub const STORE_BYTES: usize = 65_515;
    pub const STORE_WORDS: usize = 128;
    pub const UNFIT: u32 = 10;
    pub const HELD: u32 = 11;
    pub const OVERLAP: u32 = 12;
    pub const WRONG_END: u32 = 13;
    pub const PASSED: u32 = 20;
    pub const STORED: u32 = 21;
    pub const COMPLETE: u32 = 22;
    pub const RELEASED: u32 = 23;

    unsafe extern "C" {
        pub fn yavoledu_take(
            state: *mut State,
            frame: *const u8,
            frame_len: usize,
            bytes: *mut u8,
            bytes_len: usize,
            bits: *mut u64,
            bits_len: usize,
            payload: *mut Values,
        ) -> u32;
        pub fn yavoledu_release(
            state: *mut State,
            bytes: *const u8,
            bytes_len: usize,
            bits: *mut u64,
            bits_len: usize,
        ) -> u32;
    }
}
