//! Frames put together byte by byte.

use yavoledu::{Guest, Network};

pub const GUEST_MAC: [u8; 6] = [0x52, 0x54, 0x00, 0x12, 0x34, 0x56];
pub const GATEWAY_MAC: [u8; 6] = [0x52, 0x54, 0x00, 0x00, 0x00, 0x01];
pub const GUEST_IP: [u8; 4] = [10, 0, 2, 15];
pub const GATEWAY_IP: [u8; 4] = [10, 0, 2, 2];
pub const BROADCAST_IP: [u8; 4] = [10, 0, 2, 255];
pub const OUTSIDE_IP: [u8; 4] = [192, 0, 2, 1];

/// Document 01's.
pub const NETWORK: Network = Network {
    gateway: GATEWAY_IP,
    guest: GUEST_IP,
    mask: [255, 255, 255, 0],
    lease: 86_400,
};

/// A new guest's record on document 01's network.
pub const fn new_guest(mac: [u8; 6]) -> Guest {
    Guest {
        mac,
        id: 1,
        xid: 0,
        network: NETWORK,
    }
}

/// "the guest address with every host bit set", bit by bit: the host's are those that the mask has not.
pub fn broadcast(network: &Network) -> [u8; 4] {
    let mut address = network.guest;
    for place in 0..32 {
        let (byte, bit) = (place / 8, 0x80 >> (place % 8));
        if network.mask[byte] & bit == 0 {
            address[byte] |= bit;
        }
    }
    address
}

pub const ICMP: u8 = 1;
pub const TCP: u8 = 6;
pub const UDP: u8 = 17;

pub const DISCOVER: [u8; 4] = [53, 1, 1, 255];

/// Document 01: "S is the sum of 16-bit words, an odd last byte counting as the high half. The fold is 0 if S is 0, else
/// (S - 1) mod 65,535 + 1. The checksum is 65,535 less the fold."
pub fn checksum(data: &[u8]) -> u16 {
    let mut sum = 0_u64;
    for word in data.chunks(2) {
        let low = word.get(1).copied().unwrap_or(0);
        sum += u64::from(word[0]) * 256 + u64::from(low);
    }
    let fold = if sum == 0 { 0 } else { (sum - 1) % 65_535 + 1 };
    65_535 - fold as u16
}

pub fn ethernet(to: [u8; 6], from: [u8; 6], kind: u16, body: &[u8]) -> Vec<u8> {
    [&to[..], &from, &kind.to_be_bytes(), body].concat()
}

pub fn arp(operation: u16, sender: ([u8; 6], [u8; 4]), target: ([u8; 6], [u8; 4])) -> Vec<u8> {
    [
        &[0, 1, 8, 0, 6, 4][..],
        &operation.to_be_bytes(),
        &sender.0,
        &sender.1,
        &target.0,
        &target.1,
    ]
    .concat()
}

/// A1's request: who has 10.0.2.2?
pub fn arp_request() -> Vec<u8> {
    arp_request_for(GATEWAY_IP)
}

pub fn arp_request_for(target: [u8; 4]) -> Vec<u8> {
    let request = arp(1, (GUEST_MAC, GUEST_IP), ([0; 6], target));
    ethernet([0xff; 6], GUEST_MAC, 0x0806, &request)
}

/// The frame of the reply to `arp_request_for` the gateway.
pub fn arp_reply(gateway: [u8; 4]) -> Vec<u8> {
    let reply = arp(2, (GATEWAY_MAC, gateway), (GUEST_MAC, GUEST_IP));
    ethernet(GUEST_MAC, GATEWAY_MAC, 0x0806, &reply)
}

/// An IPv4 packet, its header's checksum right. The options are a multiple of four bytes.
pub fn ipv4(
    id: u16,
    protocol: u8,
    from: [u8; 4],
    to: [u8; 4],
    options: &[u8],
    payload: &[u8],
) -> Vec<u8> {
    let header_len = 20 + options.len();
    let total = (header_len + payload.len()) as u16;
    let mut header = [
        &[0x40 + (header_len / 4) as u8, 0][..],
        &total.to_be_bytes(),
        &id.to_be_bytes(),
        &[0x40, 0, 64, protocol, 0, 0],
        &from,
        &to,
        options,
    ]
    .concat();
    let sum = checksum(&header);
    header[10..12].copy_from_slice(&sum.to_be_bytes());
    [header, payload.to_vec()].concat()
}

/// A frame of the guest to the gateway's MAC.
pub fn from_guest(protocol: u8, to: [u8; 4], payload: &[u8]) -> Vec<u8> {
    let packet = ipv4(0x1234, protocol, GUEST_IP, to, &[], payload);
    ethernet(GATEWAY_MAC, GUEST_MAC, 0x0800, &packet)
}

/// An ICMP message of type 8 or 0 with code 0, its checksum right.
pub fn echo(kind: u8, rest: &[u8]) -> Vec<u8> {
    let mut message = [&[kind, 0, 0, 0], rest].concat();
    let sum = checksum(&message);
    message[2..4].copy_from_slice(&sum.to_be_bytes());
    message
}

/// P1's rest of a ping: ICMP id and sequence are 1, and there is no data.
pub const PING: [u8; 4] = [0, 1, 0, 1];

pub fn ping(rest: &[u8]) -> Vec<u8> {
    ping_to(GATEWAY_IP, rest)
}

pub fn ping_to(target: [u8; 4], rest: &[u8]) -> Vec<u8> {
    from_guest(ICMP, target, &echo(8, rest))
}

/// A UDP datagram with the checksum 0, which says that there is none.
pub fn udp(from: u16, to: u16, data: &[u8]) -> Vec<u8> {
    let len = (8 + data.len()) as u16;
    [
        &from.to_be_bytes()[..],
        &to.to_be_bytes(),
        &len.to_be_bytes(),
        &[0, 0],
        data,
    ]
    .concat()
}

/// A UDP datagram with its checksum. RFC 768: "the 16-bit one's complement of the one's complement sum of a
/// pseudo header of information from the IP header, the UDP header, and the data"; "If the computed checksum
/// is zero, it is transmitted as all ones".
pub fn summed_udp(from: ([u8; 4], u16), to: ([u8; 4], u16), data: &[u8]) -> Vec<u8> {
    let mut datagram = udp(from.1, to.1, data);
    let sum = match checksum(&with_pseudo_header(UDP, from.0, to.0, &datagram)) {
        0 => 0xffff,
        sum => sum,
    };
    datagram[6..8].copy_from_slice(&sum.to_be_bytes());
    datagram
}

/// The words of a datagram and its pseudo-header, the checksum among them, added up one by one, and the
/// carries added to them. Where the checksum is right, this is 0xffff.
pub fn sum_of_udp(from: [u8; 4], to: [u8; 4], datagram: &[u8]) -> u64 {
    let pseudo_header = [&from[..], &to, &[0, 17], &datagram[4..6]].concat();
    let mut sum = 0_u64;
    for (place, byte) in pseudo_header.iter().chain(datagram).enumerate() {
        sum += u64::from(*byte) << (8 * ((place + 1) % 2));
    }
    while sum > 0xffff {
        sum = (sum & 0xffff) + (sum >> 16);
    }
    sum
}

/// The pseudo-header of RFC 768 and 9293 before a payload.
pub fn with_pseudo_header(protocol: u8, from: [u8; 4], to: [u8; 4], payload: &[u8]) -> Vec<u8> {
    let len = (payload.len() as u16).to_be_bytes();
    [&from[..], &to, &[0, protocol], &len, payload].concat()
}

/// The fields of a TCP header that a test chooses.
pub struct TcpFields {
    pub src_port: u16,
    pub dst_port: u16,
    pub seq: u32,
    pub ack: u32,
    pub flags: u8,
}

/// A TCP segment with window 65,535, its checksum right. The options are a multiple of four bytes.
pub fn tcp(fields: &TcpFields, from: [u8; 4], to: [u8; 4], options: &[u8], data: &[u8]) -> Vec<u8> {
    let words = (5 + options.len() / 4) as u8;
    let mut segment = [
        &fields.src_port.to_be_bytes()[..],
        &fields.dst_port.to_be_bytes(),
        &fields.seq.to_be_bytes(),
        &fields.ack.to_be_bytes(),
        &[words * 16, fields.flags, 0xff, 0xff, 0, 0, 0, 0],
        options,
        data,
    ]
    .concat();
    let sum = checksum(&with_pseudo_header(TCP, from, to, &segment));
    segment[16..18].copy_from_slice(&sum.to_be_bytes());
    segment
}

/// The xid of the guest's DHCP messages.
pub const XID: [u8; 4] = [0xd1, 0xd2, 0xd3, 0xd4];
/// The client's MAC in the guest's DHCP messages, which is not the record's.
pub const CLIENT_MAC: [u8; 6] = [0xe1, 0xe2, 0xe3, 0xe4, 0xe5, 0xe6];

/// A DHCP message of the guest: 240 bytes, the last four the cookie, and the options.
pub fn dhcp_message(options: &[u8]) -> Vec<u8> {
    let mut message = vec![0; 240];
    message[..4].copy_from_slice(&[1, 1, 6, 0]);
    message[4..8].copy_from_slice(&XID);
    message[28..34].copy_from_slice(&CLIENT_MAC);
    message[236..].copy_from_slice(&[0x63, 0x82, 0x53, 0x63]);
    message.extend_from_slice(options);
    message
}

/// A frame of the guest with this DHCP message.
pub fn from_dhcp_client(message: &[u8]) -> Vec<u8> {
    from_guest(UDP, [255; 4], &udp(68, 67, message))
}

/// The frame of a DHCP reply to a guest frame from `GUEST_MAC`, row by row as document 01 has it, for this
/// record. It goes from port 67 to port 68, and has a UDP checksum: document 02, 2/13 and 6/13.
pub fn dhcp_reply(record: &Guest, xid: [u8; 4], message_type: u8) -> Vec<u8> {
    let Network {
        gateway,
        guest,
        mask,
        lease,
    } = record.network;
    let mut message = vec![0; 300];
    message[..4].copy_from_slice(&[2, 1, 6, 0]);
    message[4..8].copy_from_slice(&xid);
    message[16..20].copy_from_slice(&guest);
    message[20..24].copy_from_slice(&gateway);
    message[28..34].copy_from_slice(&record.mac);
    message[236..240].copy_from_slice(&[0x63, 0x82, 0x53, 0x63]);
    message[240..243].copy_from_slice(&[53, 1, message_type]);
    let rows = [
        (54, gateway),
        (51, lease.to_be_bytes()),
        (1, mask),
        (3, gateway),
        (6, gateway),
    ];
    for (place, (code, value)) in (243..).step_by(6).zip(rows) {
        message[place..place + 2].copy_from_slice(&[code, 4]);
        message[place + 2..place + 6].copy_from_slice(&value);
    }
    message[273] = 255;
    let target = broadcast(&record.network);
    let datagram = summed_udp((gateway, 67), (target, 68), &message);
    let packet = ipv4(record.id, UDP, gateway, target, &[], &datagram);
    ethernet(GUEST_MAC, GATEWAY_MAC, 0x0800, &packet)
}

/// The frame of a ping's reply to a guest frame from `GUEST_MAC` and `GUEST_IP`.
pub fn ping_reply(id: u16, rest: &[u8]) -> Vec<u8> {
    ping_reply_from(GATEWAY_IP, id, rest)
}

pub fn ping_reply_from(gateway: [u8; 4], id: u16, rest: &[u8]) -> Vec<u8> {
    let packet = ipv4(id, ICMP, gateway, GUEST_IP, &[], &echo(0, rest));
    ethernet(GUEST_MAC, GATEWAY_MAC, 0x0800, &packet)
}

/// Bytes that a test can tell from what a call writes: no two neighbours are equal, and none is 0.
pub fn pattern(len: usize) -> Vec<u8> {
    (0..len).map(|place| (place % 251) as u8 + 1).collect()
}
