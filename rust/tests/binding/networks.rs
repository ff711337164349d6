//! Every rule that names an address, the mask or the lease time reads it from the record (document 02, request 1/13), and
//! guests on networks of their own don't meet.

use yavoledu::{Guest, Network, NetworkPlan, Verdict};

use crate::frames::*;
use crate::making::{DEFAULT_LEASE, draw};
use crate::replies::reply_to;

/// Networks of many prefixes, document 01's among them.
const PLANS: [([u8; 4], [u8; 4], [u8; 4]); 7] = [
    (GATEWAY_IP, GUEST_IP, [255, 255, 255, 0]),
    ([192, 168, 77, 1], [192, 168, 77, 9], [255, 255, 255, 192]),
    ([10, 1, 2, 3], [10, 200, 0, 0], [255, 0, 0, 0]),
    ([172, 16, 255, 254], [172, 16, 0, 1], [255, 255, 0, 0]),
    ([10, 0, 3, 254], [10, 0, 2, 15], [255, 255, 254, 0]),
    ([192, 168, 77, 14], [192, 168, 77, 9], [255, 255, 255, 248]),
    ([192, 168, 77, 10], [192, 168, 77, 9], [255, 255, 255, 252]),
];

fn guests() -> impl Iterator<Item = Guest> {
    PLANS.into_iter().map(|(gateway, guest, mask)| {
        let plan = NetworkPlan {
            gateway,
            guest,
            mask,
            lease: Some(0xf1f2_f3f4),
        };
        Guest::new(GUEST_MAC, &plan).expect("a good network")
    })
}

/// The address with one bit flipped, for each bit.
fn neighbours(address: [u8; 4]) -> impl Iterator<Item = [u8; 4]> {
    (0..32).map(move |bit| (u32::from_be_bytes(address) ^ 1 << bit).to_be_bytes())
}

/// The verdict on a frame that changes nothing of the record.
fn verdict(guest: &Guest, frame: &[u8]) -> Verdict {
    let mut after = guest.clone();
    let verdict = after.send(frame, &mut [0; 2048]);
    assert_eq!(after, *guest);
    verdict
}

#[test]
fn arp_is_answered_for_the_records_gateway_and_by_it() {
    for guest in guests() {
        let gateway = guest.network.gateway;
        assert_eq!(
            reply_to(&mut guest.clone(), &arp_request_for(gateway)),
            arp_reply(gateway)
        );
        for target in neighbours(gateway).chain([guest.network.guest]) {
            assert_eq!(verdict(&guest, &arp_request_for(target)), Verdict::Drop);
        }
    }
}

#[test]
fn a_ping_is_answered_where_it_is_for_the_records_gateway_and_by_it() {
    for guest in guests() {
        let gateway = guest.network.gateway;
        assert_eq!(
            reply_to(&mut guest.clone(), &ping_to(gateway, &PING)),
            ping_reply_from(gateway, 1, &PING)
        );
        for target in neighbours(gateway).chain([guest.network.guest]) {
            assert_eq!(verdict(&guest, &ping_to(target, &PING)), Verdict::Drop);
        }
    }
}

#[test]
fn a_query_is_for_dns_where_it_is_for_the_records_gateway() {
    let query = |target| from_guest(UDP, target, &udp(1024, 53, b"query"));
    for guest in guests() {
        let gateway = guest.network.gateway;
        let dns = Verdict::Dns { start: 42, len: 5 };
        assert_eq!(verdict(&guest, &query(gateway)), dns);
        for target in neighbours(gateway).chain([guest.network.guest]) {
            let relay = Verdict::Relay { start: 42, len: 5 };
            assert_eq!(verdict(&guest, &query(target)), relay);
        }
    }
}

fn discover() -> Vec<u8> {
    from_dhcp_client(&dhcp_message(&DISCOVER))
}

#[test]
fn a_dhcp_reply_is_the_records_byte_for_byte() {
    for guest in guests() {
        let reply = reply_to(&mut guest.clone(), &discover());
        assert_eq!(reply, dhcp_reply(&guest, XID, 2));
    }
}

/// Where a DHCP reply has its fields: the frame's, and from byte 42 on the message's.
const SUMS: [usize; 4] = [24, 25, 40, 41];
const IP_SOURCE: [usize; 2] = [26, 30];
const IP_TARGET: [usize; 2] = [30, 34];
const YIADDR: [usize; 2] = [42 + 16, 42 + 20];
const SIADDR: [usize; 2] = [42 + 20, 42 + 24];
const OPTION_54: [usize; 2] = [42 + 245, 42 + 249];
const OPTION_51: [usize; 2] = [42 + 251, 42 + 255];
const OPTION_1: [usize; 2] = [42 + 257, 42 + 261];
const OPTION_3: [usize; 2] = [42 + 263, 42 + 267];
const OPTION_6: [usize; 2] = [42 + 269, 42 + 273];

/// A part of the network is another in each byte: then each byte of these fields of the reply is another, and
/// no other byte. The checksums of the IPv4 header and of the datagram are left out.
fn assert_moves(before: Network, after: Network, fields: &[[usize; 2]]) {
    let reply = |network| {
        let guest = Guest {
            network,
            ..new_guest(GUEST_MAC)
        };
        reply_to(&mut guest.clone(), &discover())
    };
    let (before, after) = (reply(before), reply(after));
    for place in (0..342).filter(|place| !SUMS.contains(place)) {
        let moves = fields
            .iter()
            .any(|[from, to]| (*from..*to).contains(&place));
        assert_eq!(before[place] != after[place], moves, "byte {place}");
    }
}

#[test]
fn each_part_of_the_network_stands_in_its_fields_of_a_dhcp_reply() {
    let network = Network {
        gateway: [0x11, 0x12, 0x13, 0x14],
        guest: [0x20, 0x20, 0x20, 0x20],
        mask: [0xff; 4],
        lease: 0x3132_3334,
    };
    let gateway = [0x41, 0x42, 0x43, 0x44];
    assert_moves(
        network,
        Network { gateway, ..network },
        &[IP_SOURCE, SIADDR, OPTION_54, OPTION_3, OPTION_6],
    );
    // The mask leaves no bit to the host, so that the broadcast address is the guest's.
    let guest = [0x51, 0x52, 0x53, 0x54];
    assert_moves(network, Network { guest, ..network }, &[IP_TARGET, YIADDR]);
    let mask = [0xfe, 0xfd, 0xfb, 0x7f];
    assert_moves(network, Network { mask, ..network }, &[IP_TARGET, OPTION_1]);
    let lease = 0x6162_6364;
    assert_moves(network, Network { lease, ..network }, &[OPTION_51]);
}

#[test]
fn a_dhcp_reply_goes_to_the_guests_address_with_every_host_bit_set() {
    for (guest_ip, mask, target) in [
        ([10, 1, 2, 3], [255, 0, 0, 0], [10, 255, 255, 255]),
        ([172, 16, 5, 6], [255, 255, 0, 0], [172, 16, 255, 255]),
        ([10, 0, 2, 15], [255, 255, 254, 0], [10, 0, 3, 255]),
        ([10, 0, 2, 15], [255, 255, 255, 0], [10, 0, 2, 255]),
        ([192, 168, 77, 9], [255, 255, 255, 248], [192, 168, 77, 15]),
        ([192, 168, 77, 9], [255, 255, 255, 252], [192, 168, 77, 11]),
        // masks that no call makes a record with
        ([192, 168, 77, 9], [255, 255, 255, 255], [192, 168, 77, 9]),
        ([192, 168, 77, 9], [0, 0, 0, 0], [255, 255, 255, 255]),
        ([192, 168, 77, 9], [255, 0, 255, 0x0f], [192, 255, 77, 0xf9]),
    ] {
        let network = Network {
            guest: guest_ip,
            mask,
            ..NETWORK
        };
        let mut guest = Guest {
            network,
            ..new_guest(GUEST_MAC)
        };
        let reply = reply_to(&mut guest, &discover());
        assert_eq!(reply[IP_TARGET[0]..IP_TARGET[1]], target, "{network:?}");
    }
}

#[test]
fn a_dhcp_reply_tells_the_lease_time_of_the_record() {
    for (lease, seconds) in [
        (None, DEFAULT_LEASE),
        (Some(0), 0),
        (Some(1), 1),
        (Some(86_400), 86_400),
        (Some(u32::MAX), u32::MAX),
    ] {
        let plan = NetworkPlan {
            lease,
            ..NetworkPlan::DOCUMENT_01
        };
        let mut guest = Guest::new(GUEST_MAC, &plan).expect("a good network");
        let reply = reply_to(&mut guest, &discover());
        assert_eq!(reply[OPTION_51[0]..OPTION_51[1]], seconds.to_be_bytes());
    }
}

/// Records that no call has made: any addresses, any mask.
#[test]
fn every_record_is_served() {
    let mut seed = 2;
    for _ in 0..3_000 {
        let mut address = || draw(&mut seed).to_be_bytes();
        let network = Network {
            gateway: address(),
            guest: address(),
            mask: address(),
            lease: u32::from_be_bytes(address()),
        };
        let guest = Guest {
            network,
            ..new_guest(GUEST_MAC)
        };
        let gateway = network.gateway;
        let replies = [
            (arp_request_for(gateway), arp_reply(gateway)),
            (ping_to(gateway, &PING), ping_reply_from(gateway, 1, &PING)),
            (discover(), dhcp_reply(&guest, XID, 2)),
        ];
        for (frame, reply) in replies {
            let mut after = guest.clone();
            assert_eq!(reply_to(&mut after, &frame), reply, "{network:?}");
            assert_eq!(after.network, network);
        }
    }
}

/// What a guest on this network sends, from its own MAC and address: a frame for each verdict that isn't a refusal, and some
/// for each reply.
fn frames_of(guest: &Guest, xid: [u8; 4]) -> Vec<Vec<u8>> {
    let Network {
        gateway,
        guest: source,
        ..
    } = guest.network;
    let mac = guest.mac;
    let packet = |protocol, target, payload: &[u8]| {
        let packet = ipv4(7, protocol, source, target, &[], payload);
        ethernet(GATEWAY_MAC, mac, 0x0800, &packet)
    };
    let dhcp = |message_type| {
        let mut message = dhcp_message(&[53, 1, message_type, 255]);
        message[4..8].copy_from_slice(&xid);
        message[7] += message_type;
        packet(UDP, [255; 4], &udp(68, 67, &message))
    };
    let who_has = |target| {
        let request = arp(1, (mac, source), ([0; 6], target));
        ethernet([0xff; 6], mac, 0x0806, &request)
    };
    let echo = echo(8, &[&PING[..], &mac].concat());
    vec![
        dhcp(1),
        who_has(gateway),
        dhcp(3),
        packet(ICMP, gateway, &echo),
        packet(UDP, gateway, &udp(1024, 53, b"query")),
        packet(ICMP, source, &echo),
        packet(UDP, OUTSIDE_IP, &udp(1024, 7, b"outside")),
        packet(TCP, OUTSIDE_IP, &[0; 20]),
        dhcp(4),
        who_has(source),
        packet(ICMP, gateway, &echo),
    ]
}

/// What a frame gets: the verdict, the buffer behind it, and the record.
fn served(guest: &mut Guest, frame: &[u8]) -> (Verdict, Vec<u8>, Guest) {
    let mut reply = pattern(400);
    let verdict = guest.send(frame, &mut reply);
    (verdict, reply, guest.clone())
}

/// Both are served in turns, and each gets what it gets alone; the other's record stays as it is.
fn assert_apart(first: &Guest, second: &Guest) {
    let guests = [first, second];
    let xids = [[0xd1, 0xd2, 0xd3, 0x10], [0xe1, 0xe2, 0xe3, 0x20]];
    let frames = [0, 1].map(|whose| frames_of(guests[whose], xids[whose]));
    let alone = [0, 1].map(|whose| {
        let mut guest = guests[whose].clone();
        let served = |frame: &Vec<u8>| served(&mut guest, frame);
        frames[whose].iter().map(served).collect::<Vec<_>>()
    });
    assert_ne!(alone[0], alone[1]);
    let replies = |served: &&(Verdict, Vec<u8>, Guest)| matches!(served.0, Verdict::Reply(_));
    assert_eq!(
        alone
            .each_ref()
            .map(|all| all.iter().filter(replies).count()),
        [5, 5]
    );

    // By one, by two, and the one behind the other.
    for turns in [
        [0, 1].repeat(11),
        [0, 0, 1, 1].repeat(6),
        [[0; 11], [1; 11]].concat(),
        [1, 0, 0, 1, 1, 0].repeat(4),
    ] {
        let mut records = guests.map(Guest::clone);
        let mut next = [0, 0];
        for whose in turns {
            let Some(frame) = frames[whose].get(next[whose]) else {
                continue;
            };
            let other = records[1 - whose].clone();
            let got = served(&mut records[whose], frame);
            assert_eq!(got, alone[whose][next[whose]]);
            assert_eq!(records[1 - whose], other);
            next[whose] += 1;
        }
        assert_eq!(next, [11, 11]);
    }
}

#[test]
fn two_guests_on_different_networks_are_served_as_if_each_were_alone() {
    let all: Vec<Guest> = guests().collect();
    for (place, guest) in all.iter().enumerate() {
        let first = Guest {
            mac: [2, 0, 0, 0, 0, 1],
            ..guest.clone()
        };
        for second in &all[place + 1..] {
            assert_apart(&first, second);
        }
    }
}

#[test]
fn two_guests_with_the_same_addresses_are_served_as_if_each_were_alone() {
    for guest in guests() {
        let second = Guest {
            mac: [2, 0, 0, 0, 0, 1],
            ..guest.clone()
        };
        assert_apart(&guest, &second);
    }
}
