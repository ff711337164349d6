//! Frames with their sums, and where it is asked for their lengths, made right again after a change.

use crate::guest_frames::*;

const CHECKSUM_AT: usize = BODY_AT + 10;

/// Where the payload starts that the header's length leaves, if it is in the frame.
pub fn payload_at(frame: &[u8]) -> Option<usize> {
    let is_ipv4 = frame.get(TYPE_AT..BODY_AT)? == IPV4.to_be_bytes();
    let start = BODY_AT + 4 * usize::from(frame.get(BODY_AT)? % 16);
    (is_ipv4 && start <= frame.len()).then_some(start)
}

/// The frame with the IPv4 header's sum and its message's made right. A UDP checksum of 0 stays.
pub fn mended(frame: Vec<u8>) -> Vec<u8> {
    with_message_sum(with_header_sum(frame))
}

/// The header's sum made right, if the header has that field.
pub fn with_header_sum(frame: Vec<u8>) -> Vec<u8> {
    let Some(start) = payload_at(&frame) else {
        return frame;
    };
    if start < CHECKSUM_AT + 2 {
        return frame;
    }
    let frame = with(frame, CHECKSUM_AT, &[0, 0]);
    let sum = summed(&frame[BODY_AT..start]);
    with(frame, CHECKSUM_AT, &sum)
}

/// The sum of the ICMP, UDP or TCP message made right, if it has that field.
pub fn with_message_sum(frame: Vec<u8>) -> Vec<u8> {
    let Some(at) = message_sum_at(&frame) else {
        return frame;
    };
    if frame[PROTOCOL_AT] == UDP && frame[at..at + 2] == [0, 0] {
        return frame;
    }
    summed_anew(frame)
}

/// The same, but a UDP checksum of 0 does not stay.
pub fn summed_anew(frame: Vec<u8>) -> Vec<u8> {
    let Some(at) = message_sum_at(&frame) else {
        return frame;
    };
    let frame = with(frame, at, &[0, 0]);
    let sum = match summed(&to_be_summed(&frame)) {
        [0, 0] if frame[PROTOCOL_AT] == UDP => [0xff, 0xff],
        sum => sum,
    };
    with(frame, at, &sum)
}

/// Where the message's checksum stands.
pub fn message_sum_at(frame: &[u8]) -> Option<usize> {
    let at = payload_at(frame)?
        + match *frame.get(PROTOCOL_AT)? {
            ICMP => 2,
            UDP => 6,
            TCP => 16,
            _ => return None,
        };
    (frame.len() >= at + 2).then_some(at)
}

/// The message, behind its pseudo-header where it has one.
pub fn to_be_summed(frame: &[u8]) -> Vec<u8> {
    let payload = &frame[payload_at(frame).unwrap()..];
    let protocol = frame[PROTOCOL_AT];
    let length = (payload.len() as u16).to_be_bytes();
    let pseudo_header = [&frame[SOURCE_AT..PAYLOAD_AT], &[0, protocol], &length].concat();
    match protocol {
        ICMP => payload.to_vec(),
        _ => [&pseudo_header[..], payload].concat(),
    }
}

/// The total length and UDP's length made right, modulo 65,536, and then the sums.
pub fn with_lengths(frame: Vec<u8>) -> Vec<u8> {
    if payload_at(&frame).is_none() || frame.len() < PAYLOAD_AT {
        return frame;
    }
    let total_length = (frame.len() - BODY_AT) as u16;
    let frame = with(frame, TOTAL_LENGTH_AT, &total_length.to_be_bytes());
    mended(with_udp_length(frame))
}

fn with_udp_length(frame: Vec<u8>) -> Vec<u8> {
    let start = payload_at(&frame).unwrap();
    if frame[PROTOCOL_AT] != UDP || frame.len() < start + 6 {
        return frame;
    }
    let length = (frame.len() - start) as u16;
    with(frame, start + 4, &length.to_be_bytes())
}

/// The frame with these bytes as its IPv4 header's options, all lengths and sums made right.
pub fn with_header_options(frame: &[u8], options: &[u8]) -> Vec<u8> {
    assert!(options.len() % 4 == 0 && options.len() <= 40);
    let version_and_length = 0x45 + (options.len() / 4) as u8;
    let start = payload_at(frame).unwrap();
    let header = [&[version_and_length], &frame[BODY_AT + 1..PAYLOAD_AT]].concat();
    with_lengths([&frame[..BODY_AT], &header, options, &frame[start..]].concat())
}

/// The frame with this behind its end, all lengths and sums made right.
pub fn longer(frame: &[u8], behind: &[u8]) -> Vec<u8> {
    with_lengths([frame, behind].concat())
}

/// The frame's first `len` bytes, all lengths and sums made right.
pub fn shorter(frame: &[u8], len: usize) -> Vec<u8> {
    with_lengths(frame[..len].to_vec())
}

/// A client's message in a frame, its header's sum right and no checksum over the message.
pub fn dhcp_frame(message: &[u8]) -> Vec<u8> {
    mended(dhcp(message))
}
