//! The call that makes a record, as C makes it (document 02, request 1/13): the memory lent is looked at byte by byte, and the
//! judge is the document's text, read once more.

use std::error::Error;

use yavoledu::{BadRecord, Guest, Network, NetworkPlan};

unsafe extern "C" {
    // As include/yavoledu.h has it, but for the record, which is bytes here.
    fn yavoledu_make_guest(
        guest: *mut [u8; 28],
        mac: *const [u8; 6],
        gateway: *const [u8; 4],
        guest_ip: *const [u8; 4],
        mask: *const [u8; 4],
        lease_named: u32,
        lease: u32,
    ) -> u32;
}

const MADE: u32 = 24;
const BAD_RECORD: u32 = 9;
/// "if that names no lease time, it is 86,400 seconds"
pub const DEFAULT_LEASE: u32 = 86_400;

const MAC: [u8; 6] = [0xa1, 0xa2, 0xa3, 0xa4, 0xa5, 0xa6];

/// What a call is asked, the addresses as numbers.
#[derive(Clone, Copy, Debug)]
struct Asked {
    mac: [u8; 6],
    gateway: u32,
    guest: u32,
    mask: u32,
    lease_named: u32,
    lease: u32,
}

fn asked(gateway: u32, guest: u32, mask: u32) -> Asked {
    Asked {
        mac: MAC,
        gateway,
        guest,
        mask,
        lease_named: 1,
        lease: 0xf1f2_f3f4,
    }
}

/// Document 02's words, one by one.
fn is_good(gateway: u32, guest: u32, mask: u32) -> bool {
    // "the mask is ones followed by zeros"
    let signs = format!("{mask:032b}");
    let zeros = signs.trim_start_matches('1');
    if zeros.contains('1') {
        return false;
    }
    // "its prefix length is the number of ones, and that must .. lie from 8 to 30"
    let prefix = signs.len() - zeros.len();
    if !(8..=30).contains(&prefix) {
        return false;
    }
    // "The two addresses must differ, share the network, and be neither its lowest nor its highest address."
    let size = 2_u64.pow(zeros.len() as u32);
    let [gateway, guest] = [gateway, guest].map(u64::from);
    let (lowest, highest) = (gateway / size * size, gateway / size * size + size - 1);
    gateway != guest
        && guest / size == gateway / size
        && ![lowest, highest].contains(&gateway)
        && ![lowest, highest].contains(&guest)
}

/// The bytes of a new record.
fn record(asked: &Asked) -> [u8; 28] {
    let lease = match asked.lease_named {
        0 => DEFAULT_LEASE,
        _ => asked.lease,
    };
    let fields = [
        &asked.mac[..],
        &1_u16.to_ne_bytes(),
        &0_u32.to_ne_bytes(),
        &asked.gateway.to_be_bytes(),
        &asked.guest.to_be_bytes(),
        &asked.mask.to_be_bytes(),
        &lease.to_ne_bytes(),
    ];
    fields.concat().try_into().unwrap()
}

/// Memory for a record, with bytes around it that no call may touch.
#[repr(C, align(4))]
#[derive(Clone, Debug, PartialEq)]
struct Memory {
    before: [u8; 64],
    record: [u8; 28],
    after: [u8; 64],
}

fn memory(record: [u8; 28]) -> Memory {
    Memory {
        before: [0x5a; 64],
        record,
        after: [0xa5; 64],
    }
}

/// What the memory may hold before: all zeros, all ones, and bytes that are told apart.
const FILLINGS: [[u8; 28]; 3] = {
    let mut told_apart = [0; 28];
    let mut place = 0;
    while place < 28 {
        told_apart[place] = 0x31 + 7 * place as u8;
        place += 1;
    }
    [[0; 28], [0xff; 28], told_apart]
};

/// Makes the call over each filling: the answer is the judge's, and so is every byte afterwards. Whether one was made.
fn judged(asked: &Asked) -> bool {
    let good = is_good(asked.gateway, asked.guest, asked.mask);
    let [gateway, guest, mask] = [asked.gateway, asked.guest, asked.mask].map(u32::to_be_bytes);
    for filling in FILLINGS {
        let mut lent = memory(filling);
        let Asked {
            mac,
            lease_named,
            lease,
            ..
        } = asked;
        // SAFETY: the memory is 28 bytes at a multiple of four, and all that is lent is there.
        let number = unsafe {
            yavoledu_make_guest(
                &mut lent.record,
                mac,
                &gateway,
                &guest,
                &mask,
                *lease_named,
                *lease,
            )
        };
        let (expected, left) = if good {
            (MADE, record(asked))
        } else {
            (BAD_RECORD, filling)
        };
        assert_eq!(number, expected, "{asked:x?}");
        assert_eq!(lent, memory(left), "{asked:x?}");
    }
    good
}

/// The mask with so many ones in front.
fn contiguous(ones: usize) -> u32 {
    let signs = "1".repeat(ones) + &"0".repeat(32 - ones);
    u32::from_str_radix(&signs, 2).unwrap()
}

/// Addresses whose networks are looked at: of both product lines' kind, and at both ends of all addresses.
const ADDRESSES: [u32; 6] = [
    0x0a00_020f,
    0xc0a8_4d09,
    0xac10_8001,
    0x0000_0000,
    0xffff_ffff,
    0x7fff_ffff,
];

/// The edges of the network that this address is of, where its mask has so many ones: two outside each way, the two lowest,
/// the two highest; and one in its middle.
fn edges(address: u32, ones: usize) -> [u32; 9] {
    let size = 2_i64.pow(32 - ones as u32);
    let lowest = i64::from(address) / size * size;
    let highest = lowest + size - 1;
    [
        lowest - 2,
        lowest - 1,
        lowest,
        lowest + 1,
        lowest + size / 2,
        highest - 1,
        highest,
        highest + 1,
        highest + 2,
    ]
    // Past either end of all addresses comes the other.
    .map(|number| number as u32)
}

/// How many of the pairs make a record, each a gateway and a guest.
fn made_of_pairs(addresses: &[u32], mask: u32) -> usize {
    let pairs = addresses
        .iter()
        .flat_map(|gateway| addresses.iter().map(move |guest| (*gateway, *guest)));
    pairs
        .filter(|(gateway, guest)| judged(&asked(*gateway, *guest, mask)))
        .count()
}

#[test]
fn every_contiguous_mask_with_addresses_at_the_edges_of_its_network() {
    for ones in 0..=32 {
        for address in ADDRESSES {
            let made = made_of_pairs(&edges(address, ones), contiguous(ones));
            // Three addresses are between the edges; of a network of four, one of them comes twice.
            let expected = match ones {
                8..=29 => 6,
                30 => 4,
                _ => 0,
            };
            assert_eq!(made, expected, "{ones} ones, {address:x}");
        }
    }
}

#[test]
fn every_contiguous_mask_with_one_bit_flipped() {
    for ones in 0..=32 {
        for bit in 0..32 {
            let mask = contiguous(ones) ^ 1 << bit;
            // The last one or the first zero: the prefix is another. Any other bit: a hole.
            let is_contiguous = bit == 32 - ones || bit + 1 == 32 - ones;
            for address in ADDRESSES {
                let made = made_of_pairs(&edges(address, ones), mask);
                assert!(is_contiguous || made == 0, "{mask:x}, {address:x}");
            }
        }
    }
}

/// A number from a generator that is the same in every run.
pub fn draw(seed: &mut u64) -> u32 {
    *seed = seed.wrapping_mul(6_364_136_223_846_793_005).wrapping_add(1);
    (*seed >> 32) as u32
}

/// Drawn masks, one in two of them contiguous, and addresses that share a drawn number of bits.
#[test]
fn drawn_masks_and_addresses() {
    let (mut seed, mut made) = (1, 0);
    let rounds = 100_000;
    for _ in 0..rounds {
        let mask = match draw(&mut seed) % 4 {
            0 => draw(&mut seed),
            1 => draw(&mut seed) | draw(&mut seed) | draw(&mut seed) << 16,
            _ => contiguous(draw(&mut seed) as usize % 33),
        };
        let gateway = draw(&mut seed);
        let differing = (u64::from(draw(&mut seed)) >> (draw(&mut seed) % 33)) as u32;
        let asked = Asked {
            mac: std::array::from_fn(|_| draw(&mut seed) as u8),
            lease_named: draw(&mut seed) % 2 * draw(&mut seed),
            lease: draw(&mut seed),
            ..asked(gateway, gateway ^ differing, mask)
        };
        made += usize::from(judged(&asked));
    }
    // Neither answer is rare.
    assert!((rounds / 10..rounds / 2).contains(&made), "{made}");
}

#[test]
fn every_lease_time_is_taken_and_where_none_is_named_it_is_the_default() {
    for lease in [0, 1, DEFAULT_LEASE, u32::MAX] {
        for lease_named in [0, 1, 2, 0x8000_0000, u32::MAX] {
            let asked = Asked {
                lease_named,
                lease,
                ..asked(0xc0a8_4d01, 0xc0a8_4d09, 0xffff_ffc0)
            };
            assert!(judged(&asked));
        }
    }
}

#[test]
fn every_mac_is_taken() {
    for mac in [[0; 6], [0xff; 6], [0x52, 0x54, 0, 0, 0, 1], MAC] {
        let asked = Asked {
            mac,
            ..asked(0xc0a8_4d01, 0xc0a8_4d09, 0xffff_ffc0)
        };
        assert!(judged(&asked));
    }
}

// And through the crate.

const PLAN: NetworkPlan = NetworkPlan {
    gateway: [192, 168, 77, 1],
    guest: [192, 168, 77, 9],
    mask: [255, 255, 255, 192],
    lease: Some(1_800),
};

const MADE_OF_PLAN: Guest = Guest {
    mac: MAC,
    id: 1,
    xid: 0,
    network: Network {
        gateway: [192, 168, 77, 1],
        guest: [192, 168, 77, 9],
        mask: [255, 255, 255, 192],
        lease: 1_800,
    },
};

#[test]
fn a_plan_becomes_a_record() {
    for (lease, seconds) in [
        (Some(1_800), 1_800),
        (Some(0), 0),
        (Some(u32::MAX), u32::MAX),
        (None, DEFAULT_LEASE),
    ] {
        let network = Network {
            lease: seconds,
            ..MADE_OF_PLAN.network
        };
        assert_eq!(
            Guest::new(MAC, &NetworkPlan { lease, ..PLAN }),
            Ok(Guest {
                network,
                ..MADE_OF_PLAN
            })
        );
    }
}

#[test]
fn a_bad_plan_is_an_error() {
    let with_guest = |guest| NetworkPlan { guest, ..PLAN };
    let with_gateway = |gateway| NetworkPlan { gateway, ..PLAN };
    let with_mask = |mask| NetworkPlan { mask, ..PLAN };
    for plan in [
        with_guest(PLAN.gateway),
        with_guest([192, 168, 77, 0]),
        with_guest([192, 168, 77, 63]),
        with_guest([192, 168, 77, 64]),
        with_gateway([192, 168, 77, 0]),
        with_gateway([192, 168, 77, 63]),
        with_gateway([192, 168, 76, 1]),
        with_mask([255, 255, 255, 160]),
        with_mask([255, 255, 255, 254]),
        with_mask([254, 0, 0, 0]),
        with_mask([0, 0, 0, 0]),
    ] {
        assert_eq!(Guest::new(MAC, &plan), Err(BadRecord), "{plan:?}");
    }
    let error: Box<dyn Error> = Box::new(BadRecord);
    assert!(error.to_string().contains("mask"));
}
