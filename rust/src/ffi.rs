//! The functions of `include/yavoledu.h`, and a safe function around each. All `unsafe` of the crate is here.
//!
//! What the header asks of its arguments is what a Rust reference is: it isn't null, also where a slice is empty; it leads to
//! as many bytes as it says; and what is lent by `&mut` is no part of anything else that is lent. The functions keep nothing
//! and don't unwind.

use crate::{Endpoints, Guest, Layer, NetworkPlan};

/// The values that come with a call's number.
pub(crate) type Values = [usize; 2];

/// The reader's `size_t parts[13]`, by name. What a kind doesn't have is 0.
#[repr(C)]
#[derive(Clone, Copy, Debug, PartialEq, Eq)]
pub(crate) struct Parts {
    pub(crate) ethernet: Layer,
    pub(crate) ip: Layer,
    /// ICMP, UDP or TCP
    pub(crate) inner: Layer,
    pub(crate) dhcp: Layer,
    pub(crate) message_type: usize,
}

const _: () = assert!(size_of::<Parts>() == 13 * size_of::<usize>());

/// The state of a store, as the header's six words.
#[repr(C)]
#[derive(Clone, Copy, Debug, Default, PartialEq, Eq)]
pub(crate) struct State {
    pub(crate) phase: u32,
    pub(crate) source: u32,
    pub(crate) target: u32,
    pub(crate) protocol: u32,
    pub(crate) id: u32,
    pub(crate) end: u32,
}

const _: () = assert!(size_of::<State>() == 6 * size_of::<u32>());

const ABSENT: Layer = Layer {
    header: 0,
    payload: 0,
    stop: 0,
};

unsafe extern "C" {
    fn yavoledu_make_guest(
        guest: *mut Guest,
        mac: *const [u8; 6],
        gateway: *const [u8; 4],
        guest_ip: *const [u8; 4],
        mask: *const [u8; 4],
        lease_named: u32,
        lease: u32,
    ) -> u32;

    fn yavoledu_send(
        guest: *mut Guest,
        frame: *const u8,
        frame_len: usize,
        reply: *mut u8,
        reply_len: usize,
        values: *mut Values,
    ) -> u32;

    fn yavoledu_make_ip_frame(
        id: *mut u16,
        dst_mac: *const [u8; 6],
        src_ip: *const [u8; 4],
        dst_ip: *const [u8; 4],
        proto: u8,
        payload: *const u8,
        payload_len: usize,
        out: *mut u8,
        out_len: usize,
        values: *mut Values,
    ) -> u32;

    fn yavoledu_make_udp_payload(
        src_ip: *const [u8; 4],
        src_port: u16,
        dst_ip: *const [u8; 4],
        dst_port: u16,
        data: *const u8,
        data_len: usize,
        out: *mut u8,
        out_len: usize,
        values: *mut Values,
    ) -> u32;

    fn yavoledu_make_tcp_frame(
        id: *mut u16,
        dst_mac: *const [u8; 6],
        src_ip: *const [u8; 4],
        src_port: u16,
        dst_ip: *const [u8; 4],
        dst_port: u16,
        seq: u32,
        ack: u32,
        flags: u8,
        data: *const u8,
        data_len: usize,
        out: *mut u8,
        out_len: usize,
        values: *mut Values,
    ) -> u32;

    fn yavoledu_checksum(data: *const u8, data_len: usize) -> u16;

    fn yavoledu_read(frame: *const u8, frame_len: usize, parts: *mut Parts) -> u32;

    fn yavoledu_take(
        state: *mut State,
        frame: *const u8,
        frame_len: usize,
        bytes: *mut u8,
        bytes_len: usize,
        bits: *mut u64,
        bits_len: usize,
        payload: *mut Values,
    ) -> u32;

    fn yavoledu_release(
        state: *mut State,
        bytes: *const u8,
        bytes_len: usize,
        bits: *mut u64,
        bits_len: usize,
    ) -> u32;
}

pub(crate) fn make_guest(guest: &mut Guest, mac: &[u8; 6], plan: &NetworkPlan) -> u32 {
    let (lease_named, lease) = match plan.lease {
        Some(seconds) => (1, seconds),
        None => (0, 0),
    };
    // SAFETY: each pointer comes from a reference to as much as the header asks, and `Guest` is laid out as its record.
    unsafe {
        yavoledu_make_guest(
            guest,
            mac,
            &plan.gateway,
            &plan.guest,
            &plan.mask,
            lease_named,
            lease,
        )
    }
}

pub(crate) fn send(guest: &mut Guest, frame: &[u8], reply: &mut [u8]) -> (u32, Values) {
    let mut values = [0; 2];
    // SAFETY: as in `make_guest`.
    let number = unsafe {
        yavoledu_send(
            guest,
            frame.as_ptr(),
            frame.len(),
            reply.as_mut_ptr(),
            reply.len(),
            &mut values,
        )
    };
    (number, values)
}

pub(crate) fn make_ip_frame(
    id: &mut u16,
    dst_mac: &[u8; 6],
    src_ip: &[u8; 4],
    dst_ip: &[u8; 4],
    proto: u8,
    payload: &[u8],
    out: &mut [u8],
) -> (u32, Values) {
    let mut values = [0; 2];
    // SAFETY: each pointer comes from a reference to as much as the header asks.
    let number = unsafe {
        yavoledu_make_ip_frame(
            id,
            dst_mac,
            src_ip,
            dst_ip,
            proto,
            payload.as_ptr(),
            payload.len(),
            out.as_mut_ptr(),
            out.len(),
            &mut values,
        )
    };
    (number, values)
}

pub(crate) fn make_udp_payload(
    src_ip: &[u8; 4],
    src_port: u16,
    dst_ip: &[u8; 4],
    dst_port: u16,
    data: &[u8],
    out: &mut [u8],
) -> (u32, Values) {
    let mut values = [0; 2];
    // SAFETY: each pointer comes from a reference to as much as the header asks.
    let number = unsafe {
        yavoledu_make_udp_payload(
            src_ip,
            src_port,
            dst_ip,
            dst_port,
            data.as_ptr(),
            data.len(),
            out.as_mut_ptr(),
            out.len(),
            &mut values,
        )
    };
    (number, values)
}

pub(crate) fn make_tcp_frame(
    id: &mut u16,
    ends: &Endpoints,
    seq: u32,
    ack: u32,
    flags: u8,
    data: &[u8],
    out: &mut [u8],
) -> (u32, Values) {
    let mut values = [0; 2];
    // SAFETY: each pointer comes from a reference to as much as the header asks.
    let number = unsafe {
        yavoledu_make_tcp_frame(
            id,
            &ends.dst_mac,
            &ends.src_ip,
            ends.src_port,
            &ends.dst_ip,
            ends.dst_port,
            seq,
            ack,
            flags,
            data.as_ptr(),
            data.len(),
            out.as_mut_ptr(),
            out.len(),
            &mut values,
        )
    };
    (number, values)
}

pub(crate) fn checksum(data: &[u8]) -> u16 {
    // SAFETY: the pointer and the length are those of one slice.
    unsafe { yavoledu_checksum(data.as_ptr(), data.len()) }
}

pub(crate) fn read(frame: &[u8]) -> (u32, Parts) {
    let mut parts = Parts {
        ethernet: ABSENT,
        ip: ABSENT,
        inner: ABSENT,
        dhcp: ABSENT,
        message_type: 0,
    };
    // SAFETY: the pointer and the length are those of one slice, and `Parts` is laid out as 13 times `size_t`.
    let kind = unsafe { yavoledu_read(frame.as_ptr(), frame.len(), &mut parts) };
    (kind, parts)
}

pub(crate) fn take(
    state: &mut State,
    frame: &[u8],
    bytes: &mut [u8],
    bits: &mut [u64],
) -> (u32, Values) {
    let mut payload = [0; 2];
    // SAFETY: each pointer comes from a reference to as much as the header asks, and `State` is laid out as its six words.
    let number = unsafe {
        yavoledu_take(
            state,
            frame.as_ptr(),
            frame.len(),
            bytes.as_mut_ptr(),
            bytes.len(),
            bits.as_mut_ptr(),
            bits.len(),
            &mut payload,
        )
    };
    (number, payload)
}

pub(crate) fn release(state: &mut State, bytes: &[u8], bits: &mut [u64]) -> u32 {
    // SAFETY: as in `take`.
    unsafe {
        yavoledu_release(
            state,
            bytes.as_ptr(),
            bytes.len(),
            bits.as_mut_ptr(),
            bits.len(),
        )
    }
}

#[cfg(test)]
mod tests {
    use super::*;

    /// A value with words around it that no call may touch.
    #[repr(C)]
    #[derive(Debug, PartialEq)]
    struct Guarded<T> {
        before: [usize; 8],
        value: T,
        after: [usize; 8],
    }

    const GUARD: usize = 0x5a5a_a5a5;

    fn guarded<T>(value: T) -> Guarded<T> {
        Guarded {
            before: [GUARD; 8],
            value,
            after: [GUARD; 8],
        }
    }

    fn distinct_parts() -> Parts {
        let layer = |first| Layer {
            header: first,
            payload: first + 1,
            stop: first + 2,
        };
        Parts {
            ethernet: layer(100),
            ip: layer(103),
            inner: layer(106),
            dhcp: layer(109),
            message_type: 112,
        }
    }

    /// An ARP request, the shortest frame of the grammar.
    fn arp_request() -> [u8; 42] {
        let mut frame = [0; 42];
        frame[12..22].copy_from_slice(&[8, 6, 0, 1, 8, 0, 6, 4, 0, 1]);
        frame
    }

    #[test]
    fn the_reader_writes_all_of_parts_and_nothing_else() {
        let frame = arp_request();
        let mut parts = guarded(distinct_parts());
        // SAFETY: as in `read`.
        let kind = unsafe { yavoledu_read(frame.as_ptr(), frame.len(), &mut parts.value) };
        assert_eq!(kind, 1);
        let ethernet = Layer {
            header: 0,
            payload: 14,
            stop: 42,
        };
        assert_eq!(
            parts,
            guarded(Parts {
                ethernet,
                ip: ABSENT,
                inner: ABSENT,
                dhcp: ABSENT,
                message_type: 0
            })
        );
    }

    #[test]
    fn outside_the_grammar_parts_is_left_as_it_was() {
        let frame = arp_request();
        for frame in [&frame[..41], &[]] {
            let mut parts = guarded(distinct_parts());
            // SAFETY: as in `read`.
            let kind = unsafe { yavoledu_read(frame.as_ptr(), frame.len(), &mut parts.value) };
            assert_eq!(kind, 8);
            assert_eq!(parts, guarded(distinct_parts()));
        }
    }

    #[test]
    fn a_call_writes_both_values_and_nothing_else() {
        // No room for a datagram around two bytes: 5, and ten bytes are needed.
        let mut values = guarded([GUARD; 2]);
        // SAFETY: as in `make_udp_payload`.
        let number = unsafe {
            yavoledu_make_udp_payload(
                &[10, 0, 2, 2],
                1,
                &[10, 0, 2, 15],
                2,
                [3, 4].as_ptr(),
                2,
                [].as_mut_ptr(),
                0,
                &mut values.value,
            )
        };
        assert_eq!(number, 5);
        assert_eq!(values, guarded([10, 0]));
    }

    #[test]
    fn of_each_address_four_bytes_are_taken_at_any_place() {
        for around in [0x00, 0xff] {
            for before in 0..4 {
                let place = |address: [u8; 4]| {
                    let mut memory = [around; 12];
                    memory[before..before + 4].copy_from_slice(&address);
                    memory
                };
                let (from, to) = (place([10, 0, 2, 2]), place([10, 0, 2, 15]));
                let mut out = guarded([0x77; 12]);
                let mut values = [0; 2];
                // SAFETY: as in `make_udp_payload`; four bytes lie behind each address's first.
                let number = unsafe {
                    yavoledu_make_udp_payload(
                        from.as_ptr().add(before).cast(),
                        7,
                        to.as_ptr().add(before).cast(),
                        64_232,
                        b"zero".as_ptr(),
                        4,
                        out.value.as_mut_ptr(),
                        out.value.len(),
                        &mut values,
                    )
                };
                assert_eq!((number, values), (1, [12, 0]));
                // 17, 12 and 12, 7, 64,232, and the words of the addresses and the data come to 0x1fffd.
                assert_eq!(out, guarded(*b"\x00\x07\xfa\xe8\x00\x0c\x00\x01zero"));
            }
        }
    }

    const SIZED: (usize, usize) = (65_515, 128);

    /// A state whose six words are told apart, the phase in its range.
    const FILLING: State = State {
        phase: 1,
        source: 0x0a00_020f,
        target: 0xc000_0201,
        protocol: 17,
        id: 7,
        end: 0,
    };

    /// Eight bytes of the datagram of `FILLING` at this offset, and more come.
    fn fragment(offset: u16) -> [u8; 42] {
        let mut frame = [0xd1; 42];
        frame[12..14].copy_from_slice(&[8, 0]);
        let [high, low] = (0x2000 | (offset / 8)).to_be_bytes();
        let header = [0x45, 0, 0, 28, 0, 7, high, low, 64, 17, 0, 0];
        frame[14..26].copy_from_slice(&header);
        frame[26..34].copy_from_slice(&[10, 0, 2, 15, 192, 0, 2, 1]);
        let sum: u32 = frame[14..34]
            .chunks(2)
            .map(|word| u32::from(word[0]) * 256 + u32::from(word[1]))
            .sum();
        let checksum = 65_535 - (sum - 1) % 65_535 - 1;
        frame[24..26].copy_from_slice(&(checksum as u16).to_be_bytes());
        frame
    }

    #[test]
    fn a_state_is_read_and_written_word_by_word() {
        let mut state = guarded(FILLING);
        let (mut bytes, mut bits) = ([0x77; 65_515], [0; 128]);
        let taken = take(&mut state.value, &fragment(0), &mut bytes, &mut bits);
        assert_eq!(taken, (21, [0, 0]));
        assert_eq!(state, guarded(FILLING));
        assert_eq!((&bytes[..8], bytes[8]), (&[0xd1; 8][..], 0x77));
        assert_eq!((bits[0], bits[1]), (1, 0));
        for another in [
            State {
                source: 1,
                ..FILLING
            },
            State {
                target: 1,
                ..FILLING
            },
            State {
                protocol: 1,
                ..FILLING
            },
            State { id: 1, ..FILLING },
            State {
                phase: 3,
                ..FILLING
            },
            State {
                phase: 4,
                ..FILLING
            },
            State {
                phase: u32::MAX,
                ..FILLING
            },
        ] {
            let mut state = guarded(another);
            let taken = take(&mut state.value, &fragment(8), &mut bytes, &mut bits);
            assert_eq!(taken, (11, [0, 0]));
            assert_eq!(state, guarded(another));
        }
        // The end is read in phase 2 alone, and protocol, id and end by their low bits.
        let ends = |phase, end| State {
            phase,
            end,
            ..FILLING
        };
        let high = State {
            protocol: 0xabcd_ef11,
            id: 0xabcd_0007,
            ..FILLING
        };
        for (state, answer) in [
            (ends(1, 8), 21),
            (ends(2, 15), 13),
            (ends(2, 0xffff_000f), 13),
            (ends(2, 0xffff_0011), 21),
            (high, 21),
        ] {
            let mut state = guarded(state);
            let mut bits = [0; 128];
            let taken = take(&mut state.value, &fragment(8), &mut bytes, &mut bits);
            assert_eq!(taken, (answer, [0, 0]));
            assert_eq!((state.before, state.after), ([GUARD; 8], [GUARD; 8]));
        }
    }

    #[test]
    fn at_another_size_both_calls_answer_10_and_change_nothing() {
        let mut bytes = [0x77; SIZED.0 + 1];
        let mut bits = [0x5555; SIZED.1 + 1];
        let sizes = [
            (SIZED.0 - 1, SIZED.1),
            (SIZED.0 + 1, SIZED.1),
            (SIZED.0, SIZED.1 - 1),
            (SIZED.0, SIZED.1 + 1),
            (0, 0),
        ];
        for (many, words) in sizes {
            let mut state = guarded(FILLING);
            let (bytes, bits) = (&mut bytes[..many], &mut bits[..words]);
            assert_eq!(
                take(&mut state.value, &fragment(0), bytes, bits),
                (10, [0, 0])
            );
            assert_eq!(release(&mut state.value, bytes, bits), 10);
            assert_eq!(state, guarded(FILLING));
        }
        assert!(bytes.iter().all(|byte| *byte == 0x77));
        assert!(bits.iter().all(|word| *word == 0x5555));
    }

    #[test]
    fn a_release_writes_the_six_words_and_the_bits_and_nothing_else() {
        let mut state = guarded(State {
            phase: 9,
            end: 1,
            ..FILLING
        });
        let bytes = [0x77; SIZED.0];
        let mut bits = guarded([u64::MAX; SIZED.1]);
        assert_eq!(release(&mut state.value, &bytes, &mut bits.value), 23);
        assert_eq!(state, guarded(State::default()));
        assert_eq!(bits, guarded([0; SIZED.1]));
    }

    #[test]
    fn an_end_past_the_store_hands_out_nothing() {
        // No call leaves such a state: every block but the first is there, and the end is 65,535.
        let mut state = State {
            phase: 2,
            end: 65_535,
            ..FILLING
        };
        let (mut bytes, mut bits) = ([0; SIZED.0], [u64::MAX; SIZED.1]);
        bits[0] = u64::MAX - 1;
        let taken = take(&mut state, &fragment(0), &mut bytes, &mut bits);
        assert_eq!(taken, (22, [0, 0]));
        assert_eq!(
            state,
            State {
                phase: 3,
                end: 65_535,
                ..FILLING
            }
        );
    }
}
