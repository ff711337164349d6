//! The builders are `pub(super)` in `slirp` and its modules are private, so they are handed out as
//! functions of the one type that is public.

use super::super::{SlirpBackend, frames};

impl SlirpBackend {
    pub fn checksum(data: &[u8]) -> u16 {
        frames::checksum(data)
    }

    pub fn make_ip_frame(
        dst_mac: &[u8; 6],
        src_ip: &[u8; 4],
        dst_ip: &[u8; 4],
        proto: u8,
        payload: &[u8],
    ) -> Vec<u8> {
        frames::make_ip_frame(dst_mac, src_ip, dst_ip, proto, payload)
    }

    pub fn make_udp_payload(src_port: u16, dst_port: u16, data: &[u8]) -> Vec<u8> {
        frames::make_udp_payload(src_port, dst_port, data)
    }

    /// `src` and `dst` are an address and a port each: `Endpoints` itself cannot leave `slirp`.
    pub fn make_tcp_frame(
        dst_mac: [u8; 6],
        src: ([u8; 4], u16),
        dst: ([u8; 4], u16),
        seq: u32,
        ack: u32,
        flags: u8,
        data: &[u8],
    ) -> Vec<u8> {
        let ends = frames::Endpoints {
            dst_mac,
            src_ip: src.0,
            src_port: src.1,
            dst_ip: dst.0,
            dst_port: dst.1,
        };
        frames::make_tcp_frame(&ends, seq, ack, flags, data)
    }
}
