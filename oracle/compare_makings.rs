//! The call that makes a record, compared with document 02's words: every mask of ones followed by zeros
//! and each with one bit changed, by addresses around the edges of networks and by lease times; then
//! drawn ones.

use crate::compare_ours::{self, MADE};
use crate::compare_tally::grouped;
use crate::document_01::Record;
use crate::draws::Draws;
use crate::making_02::{self, Asked};
use crate::networks::Network;

const BAD_RECORD: u32 = 9;

const LEASES: [Option<u32>; 6] = [
    None,
    Some(0),
    Some(1),
    Some(3_600),
    Some(86_400),
    Some(u32::MAX),
];
/// Addresses of the networks whose edges are looked at.
const WITHIN: [u32; 5] = [0, 0x0a00_020f, 0x7fff_ffff, 0x8000_0000, u32::MAX];
const DRAWN: usize = 4_000_000;

struct Makings {
    draws: Draws,
    made: u64,
    refused: u64,
}

/// Compares, prints the counts or the first difference, and says whether there was none.
pub fn run(seed: u64) -> bool {
    let mut makings = Makings {
        draws: Draws::new(seed | 1),
        made: 0,
        refused: 0,
    };
    let outcome = makings.every().and_then(|every| {
        makings.drawn()?;
        Ok(every)
    });
    let (made, refused) = (grouped(makings.made), grouped(makings.refused));
    match &outcome {
        Ok(every) => println!(
            "records, seed {seed:#x}: {made} made and {refused} refused, {} of them the products of small choices; 0 differences",
            grouped(*every)
        ),
        Err(difference) => {
            eprintln!("a difference behind {made} records made and {refused} refused");
            println!("{difference}");
        }
    }
    outcome.is_ok() && makings.made > 0 && makings.refused > 0
}

fn asked(gateway: u32, guest: u32, mask: u32, lease: Option<u32>) -> Asked {
    let [gateway, guest, mask] = [gateway, guest, mask].map(u32::to_be_bytes);
    Asked {
        gateway,
        guest,
        mask,
        lease,
    }
}

fn fresh(mac: [u8; 6], network: Network) -> Record {
    let (id, xid) = (1, 0);
    Record {
        mac,
        id,
        xid,
        network,
    }
}

fn contiguous(ones: u32) -> u32 {
    u32::MAX.checked_shl(32 - ones).unwrap_or(0)
}

/// Around both ends of the network that the address is in, and in its middle.
fn around_the_edges(address: u32, mask: u32) -> [u32; 9] {
    let (lowest, highest) = (address & mask, address | !mask);
    let beside = |end: u32, step: i32| end.wrapping_add_signed(step);
    [
        beside(lowest, -1),
        lowest,
        beside(lowest, 1),
        beside(lowest, 2),
        lowest + (highest - lowest) / 2,
        beside(highest, -2),
        beside(highest, -1),
        highest,
        beside(highest, 1),
    ]
}

impl Makings {
    /// How many calls that were.
    fn every(&mut self) -> Result<u64, String> {
        for ones in 0..=32 {
            let mask = contiguous(ones);
            let flipped = (0..32).map(|bit| mask ^ (1 << bit));
            for asked_mask in [mask].into_iter().chain(flipped) {
                for address in WITHIN {
                    self.by_addresses(asked_mask, around_the_edges(address, mask))?;
                }
            }
        }
        Ok(self.made + self.refused)
    }

    fn by_addresses(&mut self, mask: u32, addresses: [u32; 9]) -> Result<(), String> {
        for gateway in addresses {
            for guest in addresses {
                for lease in LEASES {
                    self.compare(asked(gateway, guest, mask, lease))?;
                }
            }
        }
        Ok(())
    }

    /// Half of the masks are good, and the addresses are mostly near each other.
    fn drawn(&mut self) -> Result<(), String> {
        for _ in 0..DRAWN {
            let any = self.draws.word();
            let ones = self.draws.below(33) as u32;
            let good = contiguous(8 + ones % 23);
            let mask = self.draws.one_of(&[good, good, contiguous(ones), any]);
            let guest = self.draws.word();
            let (away, far) = (self.draws.below(600) as u32, self.draws.word());
            let near = guest.wrapping_add(away).wrapping_sub(300);
            let shared = guest & mask | far & !mask;
            let gateway = self.draws.one_of(&[near, shared, shared, far]);
            let seconds = self.draws.word();
            let lease = self.draws.one_of(&[None, Some(seconds)]);
            self.compare(asked(gateway, guest, mask, lease))?;
        }
        Ok(())
    }

    /// What may stand in memory that is lent.
    fn any_record(&mut self) -> Record {
        let [gateway, guest, mask] = [(); 3].map(|()| self.draws.ip());
        Record {
            mac: self.draws.mac(),
            id: self.draws.port(),
            xid: self.draws.word(),
            network: Network {
                gateway,
                guest,
                mask,
                lease: self.draws.word(),
            },
        }
    }

    /// With no record lent, and over one that is.
    fn compare(&mut self, asked: Asked) -> Result<(), String> {
        let mac = self.draws.mac();
        let (number, made) = match making_02::made(asked) {
            Some(network) => (MADE, Some(fresh(mac, network))),
            None => (BAD_RECORD, None),
        };
        // Any number but 0 names a lease time, and without one what stands in its place counts for nothing.
        let (other, any) = (self.draws.word(), self.draws.word());
        let named = asked.lease.map_or(0, |_| any.max(1));
        let lent = Network {
            gateway: asked.gateway,
            guest: asked.guest,
            mask: asked.mask,
            lease: asked.lease.unwrap_or(other),
        };
        let old = self.any_record();
        let (number_over, over) = compare_ours::make_over(old, mac, lent, named);
        let answers = [
            ((number, made), compare_ours::make(mac, lent, named)),
            (
                (number, Some(made.unwrap_or(old))),
                (number_over, Some(over)),
            ),
        ];
        for (expected, ours) in answers {
            if ours != expected {
                return Err(format!(
                    "The record made differs: {asked:?}, mac {mac:?}, over {old:?}\nexpected: {expected:?}\nours:     {ours:?}"
                ));
            }
        }
        match made {
            Some(_) => self.made += 1,
            None => self.refused += 1,
        }
        Ok(())
    }
}
