//! Lines that have a record made, each with the answer that document 02 gives: which are listed. Our code
//! is not asked.

#[allow(dead_code)]
mod draws;
#[allow(dead_code)]
mod lines;
mod making_02;
#[allow(dead_code)]
mod networks;

use draws::Draws;
use lines::{Lines, hex};
use making_02::{Asked, made};
use networks::{COMPARED, NETWORKS};

const SEED: u64 = 0x2127_599b_f432_5c37;

const KIND: u8 = 0x10;
const MADE: u8 = 24;
const BAD_RECORD: u8 = 9;

const LEASES: [Option<u32>; 6] = [
    None,
    Some(0),
    Some(1),
    Some(3_600),
    Some(86_400),
    Some(4_294_967_295),
];

struct List {
    draws: Draws,
    lines: Lines,
}

impl List {
    fn add(&mut self, asked: Asked) {
        let mac = self.draws.mac();
        // Where no lease time is named, what stands in its place counts for nothing.
        let lease = asked.lease.unwrap_or_else(|| self.draws.word());
        let (answer, lease_of_record) = match made(asked) {
            Some(network) => (MADE, network.lease),
            None => (BAD_RECORD, 0),
        };
        let line = format!(
            "{KIND:02x} {} {} {} {} {:02x}{lease:08x} {answer:02x}{lease_of_record:08x}",
            hex(&mac),
            hex(&asked.gateway),
            hex(&asked.guest),
            hex(&asked.mask),
            u8::from(asked.lease.is_some()),
        );
        self.lines.add(KIND, Some(answer), &line);
    }

    /// A record on this mask; the lease time is drawn.
    fn masked(&mut self, mask: u32, gateway: u32, guest: u32) {
        let lease = self.draws.one_of(&LEASES);
        self.add(Asked {
            gateway: gateway.to_be_bytes(),
            guest: guest.to_be_bytes(),
            mask: mask.to_be_bytes(),
            lease,
        });
    }

    /// The lowest and the highest address of a drawn network with so many ones in its mask.
    fn drawn_network(&mut self, ones: u32) -> (u32, u32) {
        let any = u32::from_be_bytes(self.draws.bytes(4).try_into().unwrap());
        let mask = contiguous(ones);
        (any & mask, any | !mask)
    }
}

fn contiguous(ones: u32) -> u32 {
    u32::MAX.checked_shl(32 - ones).unwrap_or(0)
}

fn main() {
    let mut list = List {
        draws: Draws::new(SEED),
        lines: Lines::new(),
    };
    list.lines
        .comment("Records made and refused: what document 02's request 1/13 says.");
    list.lines
        .comment(&format!("Drawn by xorshift64 from seed {SEED:#018x}."));
    let groups: [(&str, fn(&mut List)); 5] = [
        (
            "the networks of the gateway's lines, by lease times",
            networks,
        ),
        ("every mask of ones followed by zeros", masks),
        ("such masks with one bit changed", flipped_masks),
        ("drawn masks", drawn_masks),
        (
            "addresses at the edges of networks, outside them, and equal",
            edges,
        ),
    ];
    for (words, add_cases) in groups {
        list.lines.comment(&format!("10: {words}"));
        add_cases(&mut list);
    }
    print!("{}", list.lines.finish());
}

/// All of them are good.
fn networks(list: &mut List) {
    let compared = &NETWORKS[..COMPARED];
    for network in compared.iter().map(|constants| constants.network) {
        for lease in LEASES.into_iter().chain([Some(network.lease)]) {
            let asked = Asked {
                gateway: network.gateway,
                guest: network.guest,
                mask: network.mask,
                lease,
            };
            assert!(made(asked).is_some());
            list.add(asked);
        }
    }
}

/// The addresses next to the edges, either one the gateway's.
fn masks(list: &mut List) {
    for ones in 0..=32 {
        let (lowest, highest) = list.drawn_network(ones);
        let ends = [lowest.wrapping_add(1), highest.wrapping_sub(1)];
        list.masked(contiguous(ones), ends[0], ends[1]);
        list.masked(contiguous(ones), ends[1], ends[0]);
    }
}

/// The first bit, the last, those around where the zeros start, and a drawn one. The addresses are next
/// to the edges of the network before the change.
fn flipped_masks(list: &mut List) {
    for ones in 0..=32u32 {
        let (lowest, highest) = list.drawn_network(ones);
        let drawn = list.draws.below(32) as u32;
        let mut bits = vec![
            0,
            ones.saturating_sub(2),
            ones.saturating_sub(1),
            ones,
            ones + 1,
        ];
        bits.extend([31, drawn]);
        bits.retain(|bit| *bit < 32);
        bits.sort();
        bits.dedup();
        for bit in bits {
            let mask = contiguous(ones) ^ (1 << 31 >> bit);
            list.masked(mask, lowest.wrapping_add(1), highest.wrapping_sub(1));
        }
    }
}

/// The addresses differ in their last bits alone, so that they share most networks.
fn drawn_masks(list: &mut List) {
    for _ in 0..40 {
        let any = u32::from_be_bytes(list.draws.bytes(4).try_into().unwrap());
        let mask = list.draws.word();
        list.masked(mask, any & !3 | 1, any & !3 | 2);
    }
}

fn edges(list: &mut List) {
    for ones in [7, 8, 9, 15, 16, 17, 23, 24, 25, 29, 30, 31] {
        let mask = contiguous(ones);
        let (lowest, highest) = list.drawn_network(ones);
        let beside = [
            lowest.wrapping_sub(1),
            lowest,
            lowest.wrapping_add(1),
            highest.wrapping_sub(1),
            highest,
            highest.wrapping_add(1),
        ];
        let inside = lowest + (highest - lowest) / 2;
        for address in beside {
            list.masked(mask, address, inside);
            list.masked(mask, inside, address);
            list.masked(mask, address, address);
        }
    }
}
