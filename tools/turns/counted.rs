//! The library with counters, as Rust has it: what is lent are slices.

use crate::calls::{GATEWAY, GUEST, Library, MAC, PORTS, PROTOCOL, SEQUENCE};
use record::Guest;

pub struct CountedLibrary;

mod with_counters {
    use record::Guest;

    extern crate host_c;

    unsafe extern "C-unwind" {
        pub safe fn yavoledu_send(
            guest: &mut Guest,
            frame: &[u8],
            reply: &mut [u8],
            values: &mut [usize; 2],
        ) -> u32;
        pub safe fn yavoledu_read(frame: &[u8], parts: &mut [usize; 13]) -> u32;
        pub safe fn yavoledu_take(
            state: &mut [u32; 6],
            frame: &[u8],
            bytes: &mut [u8],
            bits: &mut [u64],
            payload: &mut [usize; 2],
        ) -> u32;
        pub safe fn yavoledu_release(state: &mut [u32; 6], bytes: &[u8], bits: &mut [u64]) -> u32;
        pub safe fn yavoledu_checksum(data: &[u8]) -> u16;
        pub safe fn yavoledu_make_ip_frame(
            id: &mut u16,
            dst_mac: &[u8; 6],
            src_ip: &[u8; 4],
            dst_ip: &[u8; 4],
            proto: u8,
            payload: &[u8],
            out: &mut [u8],
            values: &mut [usize; 2],
        ) -> u32;
        pub safe fn yavoledu_make_udp_payload(
            src_ip: &[u8; 4],
            src_port: u16,
            dst_ip: &[u8; 4],
            dst_port: u16,
            data: &[u8],
            out: &mut [u8],
            values: &mut [usize; 2],
        ) -> u32;
        pub safe fn yavoledu_make_tcp_frame(
            id: &mut u16,
            dst_mac: &[u8; 6],
            src_ip: &[u8; 4],
            src_port: u16,
            dst_ip: &[u8; 4],
            dst_port: u16,
            seq: u32,
            ack: u32,
            flags: u8,
            data: &[u8],
            out: &mut [u8],
            values: &mut [usize; 2],
        ) -> u32;
        pub safe fn yavoledu_make_guest(
            guest: &mut Guest,
            mac: &[u8; 6],
            gateway: &[u8; 4],
            guest_ip: &[u8; 4],
            mask: &[u8; 4],
            lease_named: u32,
            lease: u32,
        ) -> u32;
    }
}

impl Library for CountedLibrary {
    fn send(
        &self,
        guest: &mut Guest,
        frame: &[u8],
        reply: &mut [u8],
        values: &mut [usize; 2],
    ) -> u32 {
        with_counters::yavoledu_send(guest, frame, reply, values)
    }

    fn read(&self, frame: &[u8], parts: &mut [usize; 13]) -> u32 {
        with_counters::yavoledu_read(frame, parts)
    }

    fn take(
        &self,
        state: &mut [u32; 6],
        frame: &[u8],
        bytes: &mut [u8],
        bits: &mut [u64],
        payload: &mut [usize; 2],
    ) -> u32 {
        with_counters::yavoledu_take(state, frame, bytes, bits, payload)
    }

    fn release(&self, state: &mut [u32; 6], bytes: &[u8], bits: &mut [u64]) -> u32 {
        with_counters::yavoledu_release(state, bytes, bits)
    }

    fn checksum(&self, data: &[u8]) -> u16 {
        with_counters::yavoledu_checksum(data)
    }

    fn make_ip_frame(
        &self,
        id: &mut u16,
        payload: &[u8],
        out: &mut [u8],
        values: &mut [usize; 2],
    ) -> u32 {
        with_counters::yavoledu_make_ip_frame(
            id, &MAC, &GATEWAY, &GUEST, PROTOCOL, payload, out, values,
        )
    }

    fn make_udp_payload(&self, data: &[u8], out: &mut [u8], values: &mut [usize; 2]) -> u32 {
        with_counters::yavoledu_make_udp_payload(
            &GATEWAY, PORTS[0], &GUEST, PORTS[1], data, out, values,
        )
    }

    fn make_tcp_frame(
        &self,
        id: &mut u16,
        flags: u8,
        data: &[u8],
        out: &mut [u8],
        values: &mut [usize; 2],
    ) -> u32 {
        let ([from, to], [seq, ack]) = (PORTS, SEQUENCE);
        with_counters::yavoledu_make_tcp_frame(
            id, &MAC, &GATEWAY, from, &GUEST, to, seq, ack, flags, data, out, values,
        )
    }

    fn make_guest(
        &self,
        record: &mut Guest,
        gateway: &[u8; 4],
        guest: &[u8; 4],
        mask: &[u8; 4],
    ) -> u32 {
        with_counters::yavoledu_make_guest(record, &MAC, gateway, guest, mask, 1, 3_600)
    }
}
