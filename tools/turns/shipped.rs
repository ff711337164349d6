//! The library as it ships, whose functions have names that start with shipped_ here: its answers are compared with those of the counted one.

use crate::calls::{GATEWAY, GUEST, Library, MAC, PORTS, PROTOCOL, SEQUENCE};
use record::Guest;

pub struct ShippedLibrary;

mod within {
    use record::Guest;

    type Bytes = *const u8;
    type Room = *mut u8;

    unsafe extern "C" {
        pub fn shipped_yavoledu_send(
            guest: *mut Guest,
            frame: Bytes,
            len: usize,
            reply: Room,
            room: usize,
            values: *mut usize,
        ) -> u32;
        pub fn shipped_yavoledu_read(frame: Bytes, len: usize, parts: *mut usize) -> u32;
        pub fn shipped_yavoledu_take(
            state: *mut u32,
            frame: Bytes,
            len: usize,
            bytes: Room,
            bytes_len: usize,
            bits: *mut u64,
            bits_len: usize,
            payload: *mut usize,
        ) -> u32;
        pub fn shipped_yavoledu_release(
            state: *mut u32,
            bytes: Bytes,
            bytes_len: usize,
            bits: *mut u64,
            bits_len: usize,
        ) -> u32;
        pub fn shipped_yavoledu_checksum(data: Bytes, len: usize) -> u16;
        pub fn shipped_yavoledu_make_ip_frame(
            id: *mut u16,
            dst_mac: Bytes,
            src_ip: Bytes,
            dst_ip: Bytes,
            proto: u8,
            payload: Bytes,
            len: usize,
            out: Room,
            room: usize,
            values: *mut usize,
        ) -> u32;
        pub fn shipped_yavoledu_make_udp_payload(
            src_ip: Bytes,
            src_port: u16,
            dst_ip: Bytes,
            dst_port: u16,
            data: Bytes,
            len: usize,
            out: Room,
            room: usize,
            values: *mut usize,
        ) -> u32;
        pub fn shipped_yavoledu_make_tcp_frame(
            id: *mut u16,
            dst_mac: Bytes,
            src_ip: Bytes,
            src_port: u16,
            dst_ip: Bytes,
            dst_port: u16,
            seq: u32,
            ack: u32,
            flags: u8,
            data: Bytes,
            len: usize,
            out: Room,
            room: usize,
            values: *mut usize,
        ) -> u32;
        pub fn shipped_yavoledu_make_guest(
            guest: *mut Guest,
            mac: Bytes,
            gateway: Bytes,
            guest_ip: Bytes,
            mask: Bytes,
            lease_named: u32,
            lease: u32,
        ) -> u32;
    }
}

impl Library for ShippedLibrary {
    fn send(
        &self,
        guest: &mut Guest,
        frame: &[u8],
        reply: &mut [u8],
        values: &mut [usize; 2],
    ) -> u32 {
        let (room, at) = (reply.len(), reply.as_mut_ptr());
        unsafe {
            within::shipped_yavoledu_send(
                guest,
                frame.as_ptr(),
                frame.len(),
                at,
                room,
                values.as_mut_ptr(),
            )
        }
    }

    fn read(&self, frame: &[u8], parts: &mut [usize; 13]) -> u32 {
        unsafe { within::shipped_yavoledu_read(frame.as_ptr(), frame.len(), parts.as_mut_ptr()) }
    }

    fn take(
        &self,
        state: &mut [u32; 6],
        frame: &[u8],
        bytes: &mut [u8],
        bits: &mut [u64],
        payload: &mut [usize; 2],
    ) -> u32 {
        let (bytes_len, bits_len) = (bytes.len(), bits.len());
        let (state, payload) = (state.as_mut_ptr(), payload.as_mut_ptr());
        let (bytes, bits) = (bytes.as_mut_ptr(), bits.as_mut_ptr());
        unsafe {
            within::shipped_yavoledu_take(
                state,
                frame.as_ptr(),
                frame.len(),
                bytes,
                bytes_len,
                bits,
                bits_len,
                payload,
            )
        }
    }

    fn release(&self, state: &mut [u32; 6], bytes: &[u8], bits: &mut [u64]) -> u32 {
        let (bits_len, words) = (bits.len(), bits.as_mut_ptr());
        unsafe {
            within::shipped_yavoledu_release(
                state.as_mut_ptr(),
                bytes.as_ptr(),
                bytes.len(),
                words,
                bits_len,
            )
        }
    }

    fn checksum(&self, data: &[u8]) -> u16 {
        unsafe { within::shipped_yavoledu_checksum(data.as_ptr(), data.len()) }
    }

    fn make_ip_frame(
        &self,
        id: &mut u16,
        payload: &[u8],
        out: &mut [u8],
        values: &mut [usize; 2],
    ) -> u32 {
        let (room, at, len) = (out.len(), out.as_mut_ptr(), payload.len());
        let [mac, source, target] = [MAC.as_ptr(), GATEWAY.as_ptr(), GUEST.as_ptr()];
        let values = values.as_mut_ptr();
        unsafe {
            within::shipped_yavoledu_make_ip_frame(
                id,
                mac,
                source,
                target,
                PROTOCOL,
                payload.as_ptr(),
                len,
                at,
                room,
                values,
            )
        }
    }

    fn make_udp_payload(&self, data: &[u8], out: &mut [u8], values: &mut [usize; 2]) -> u32 {
        let (room, at, len, [from, to]) = (out.len(), out.as_mut_ptr(), data.len(), PORTS);
        let [source, target] = [GATEWAY.as_ptr(), GUEST.as_ptr()];
        let values = values.as_mut_ptr();
        unsafe {
            within::shipped_yavoledu_make_udp_payload(
                source,
                from,
                target,
                to,
                data.as_ptr(),
                len,
                at,
                room,
                values,
            )
        }
    }

    fn make_tcp_frame(
        &self,
        id: &mut u16,
        flags: u8,
        data: &[u8],
        out: &mut [u8],
        values: &mut [usize; 2],
    ) -> u32 {
        let (room, at, len) = (out.len(), out.as_mut_ptr(), data.len());
        let ([from, to], [seq, ack]) = (PORTS, SEQUENCE);
        let [mac, source, target] = [MAC.as_ptr(), GATEWAY.as_ptr(), GUEST.as_ptr()];
        let (data, values) = (data.as_ptr(), values.as_mut_ptr());
        unsafe {
            within::shipped_yavoledu_make_tcp_frame(
                id, mac, source, from, target, to, seq, ack, flags, data, len, at, room, values,
            )
        }
    }

    fn make_guest(
        &self,
        record: &mut Guest,
        gateway: &[u8; 4],
        guest: &[u8; 4],
        mask: &[u8; 4],
    ) -> u32 {
        let [gateway, guest, mask] = [gateway.as_ptr(), guest.as_ptr(), mask.as_ptr()];
        unsafe {
            within::shipped_yavoledu_make_guest(
                record,
                MAC.as_ptr(),
                gateway,
                guest,
                mask,
                1,
                3_600,
            )
        }
    }
}
