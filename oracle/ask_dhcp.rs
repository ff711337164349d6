//! The Rust's DHCP, asked: the option walk and the reply by themselves, and through a guest's whole
//! frame. Each answer is checked against document 01.

use published::{NetworkBackend, SlirpBackend};

use crate::draws::{BROADCAST_IP, GATEWAY_IP, GATEWAY_MAC, GUEST_IP};
pub use crate::guest_frames::{COOKIE, COOKIE_AT, OPTIONS_AT};
use crate::the_rust::{index_past_the_end, text_of_panic};

/// In a frame the reply stands behind 42 bytes of headers, and its type's value behind 53 and 1.
const REPLY_TYPE_AT: usize = 42 + OPTIONS_AT + 2;

/// The record's MAC and the frame's are different, since a reply holds each in its own place.
const RECORD_MAC: [u8; 6] = [2, 0, 0, 0, 0, 0x0a];
const SENDER_MAC: [u8; 6] = [2, 0, 0, 0, 0, 0x0b];

#[derive(Clone, Copy, Debug, PartialEq)]
pub enum Walk {
    /// The message type, 0 where the walk ends without one.
    Type(u8),
    /// The place of an option 53 whose value is not there. The Rust panics.
    Cut(usize),
}

/// Has the Rust walk the message, and sends the message to it in a frame.
pub fn walk(message: &[u8]) -> Walk {
    let walk = match text_of_panic(|| SlirpBackend::message_type(message)) {
        Ok(message_type) => Walk::Type(message_type),
        Err(text) => Walk::Cut(place_of_cut(&text, message)),
    };
    assert_eq!(walk, as_document_01_says(message));
    send(message, walk);
    if message.len() >= OPTIONS_AT {
        send(&made_a_request(message), walk);
    }
    walk
}

/// The same options behind a header that gets them read.
fn made_a_request(message: &[u8]) -> Vec<u8> {
    let mut request = message.to_vec();
    request[0] = 1;
    request[COOKIE_AT..OPTIONS_AT].copy_from_slice(&COOKIE);
    request
}

/// The Rust panics on the value, two bytes behind the option's code.
pub fn place_of_cut(text: &str, message: &[u8]) -> usize {
    let (len, index) = index_past_the_end(text).expect("the panic is that of an index");
    let place = index - 2;
    assert_eq!(len, message.len());
    assert!(place < message.len());
    place
}

/// Document 01's paragraph on the option walk, read a second time.
fn as_document_01_says(message: &[u8]) -> Walk {
    from_place(OPTIONS_AT, message.get(OPTIONS_AT..).unwrap_or(&[]))
}

/// The same from any place on, where these bytes remain.
fn from_place(place: usize, remaining: &[u8]) -> Walk {
    match remaining {
        [0, behind_pad @ ..] => from_place(place + 1, behind_pad),
        [] | [_] | [255, ..] => Walk::Type(0),
        [53, 1..=255] => Walk::Cut(place),
        [53, 1..=255, message_type, ..] => Walk::Type(*message_type),
        [_, len, value_on @ ..] => {
            let len = *len as usize;
            from_place(place + 2 + len, value_on.get(len..).unwrap_or(&[]))
        }
    }
}

/// Sends the message in a frame, and checks what comes of it: the frames sent back, the xid, the
/// panic.
fn send(message: &[u8], walk: Walk) {
    let xid_before = 0xa5a5_a5a5;
    let mut gateway = gateway_with_xid(xid_before);
    let taken = message.len() >= OPTIONS_AT && message[0] == 1;
    let walked = taken && message[COOKIE_AT..OPTIONS_AT] == COOKIE;

    let sent = text_of_panic(|| gateway.send(&guest_frame(message)));
    match (sent, walk) {
        (Err(text), Walk::Cut(place)) if walked => assert_eq!(place_of_cut(&text, message), place),
        (Err(text), _) => panic!("{text}"),
        (Ok(()), Walk::Cut(_)) => assert!(!walked),
        (Ok(()), Walk::Type(_)) => {}
    }

    let xid = if taken { xid_of(message) } else { xid_before };
    assert_eq!(gateway.dhcp_xid(), xid);
    let reply_type = match walk {
        Walk::Type(1) if walked => Some(2),
        Walk::Type(3) if walked => Some(5),
        _ => None,
    };
    if let Some(reply_type) = reply_type {
        let frame = gateway.recv().expect("a reply was due");
        check_frame(&frame, &reply(xid, &RECORD_MAC, reply_type));
    }
    assert_eq!(gateway.recv(), None);
}

/// The type of the reply that the Rust sends to a request of this type; 0 where it sends none.
pub fn reply_type(received: u8) -> u8 {
    let mut request = made_a_request(&[0; OPTIONS_AT]);
    request.extend([53, 1, received]);
    let mut gateway = SlirpBackend::new(RECORD_MAC);
    gateway.send(&guest_frame(&request));
    gateway.recv().map_or(0, |frame| frame[REPLY_TYPE_AT])
}

fn xid_of(message: &[u8]) -> u32 {
    u32::from_be_bytes(message[4..8].try_into().unwrap())
}

/// A gateway that has taken this xid from a message with no cookie, which it dropped.
fn gateway_with_xid(xid: u32) -> SlirpBackend {
    let mut gateway = SlirpBackend::new(RECORD_MAC);
    let mut message = [0; OPTIONS_AT];
    message[0] = 1;
    message[4..8].copy_from_slice(&xid.to_be_bytes());
    gateway.send(&guest_frame(&message));
    assert_eq!(gateway.dhcp_xid(), xid);
    gateway
}

fn guest_frame(message: &[u8]) -> Vec<u8> {
    let datagram = SlirpBackend::make_udp_payload(68, 67, message);
    let mut frame = SlirpBackend::make_ip_frame(&[0xff; 6], &[0; 4], &[0xff; 4], 17, &datagram);
    frame[6..12].copy_from_slice(&SENDER_MAC);
    frame
}

/// The frame that document 01 says carries a reply, whatever id it took.
fn check_frame(frame: &[u8], reply: &[u8]) {
    assert_eq!(frame.len(), 342);
    assert_eq!(frame[..6], SENDER_MAC);
    assert_eq!(frame[6..12], GATEWAY_MAC);
    assert_eq!(frame[12..18], [0x08, 0x00, 0x45, 0, 0x01, 0x48]);
    assert_eq!(frame[20..24], [0x40, 0x00, 64, 17]);
    assert_eq!(SlirpBackend::checksum(&frame[14..34]), 0);
    assert_eq!(frame[26..34], [GATEWAY_IP, BROADCAST_IP].concat());
    // Ports and checksum are the Rust's own: what has to stand there with us, `amended.rs` says.
    assert_eq!(frame[34..42], [0x00, 0x44, 0x00, 0x43, 0x01, 0x34, 0, 0]);
    assert_eq!(frame[42..], *reply);
}

/// Has the Rust build the reply.
pub fn reply(xid: u32, mac: &[u8; 6], message_type: u8) -> Vec<u8> {
    let built = SlirpBackend::build_reply(xid, mac, message_type);
    assert_eq!(built, reply_as_document_01_says(xid, mac, message_type));
    built
}

fn reply_as_document_01_says(xid: u32, mac: &[u8; 6], message_type: u8) -> Vec<u8> {
    let lease_time = 86_400u32.to_be_bytes();
    let header = [&[2, 1, 6, 0], &xid.to_be_bytes(), &[0; 8][..]].concat();
    let addresses = [GUEST_IP, GATEWAY_IP, [0; 4]].concat();
    let rows = [
        [54, 4].as_slice(),
        &GATEWAY_IP,
        &[51, 4],
        &lease_time,
        &[1, 4, 255, 255, 255, 0, 3, 4],
        &GATEWAY_IP,
        &[6, 4],
        &GATEWAY_IP,
    ];
    let mut reply = [header, addresses, mac.to_vec()].concat();
    reply.resize(COOKIE_AT, 0);
    reply.extend(COOKIE);
    reply.extend([53, 1, message_type]);
    reply.extend(rows.concat());
    reply.push(255);
    reply.resize(300, 0);
    reply
}
