//! Document 02's request 1/13 on the call that makes a record, read from its sentences: the mask as a
//! string of bits, the network by division.

use crate::networks::Network;

/// What the call is asked. A lease time that is not named is `None`.
#[derive(Clone, Copy, Debug, PartialEq)]
pub struct Asked {
    pub gateway: [u8; 4],
    pub guest: [u8; 4],
    pub mask: [u8; 4],
    pub lease: Option<u32>,
}

/// The network of the record that is made, or `None` for 9, bad record: "none is made".
pub fn made(asked: Asked) -> Option<Network> {
    let Asked {
        gateway,
        guest,
        mask,
        lease,
    } = asked;
    let network = Network {
        gateway,
        guest,
        mask,
        lease: lease.unwrap_or(86_400),
    };
    is_good(gateway, guest, prefix(mask)?).then_some(network)
}

/// "It checks that the mask is ones followed by zeros: its prefix length is the number of ones, and that
/// must equal the leading ones and lie from 8 to 30."
fn prefix(mask: [u8; 4]) -> Option<usize> {
    let bits = mask.map(|byte| format!("{byte:08b}")).concat();
    let behind_the_ones = bits.trim_start_matches('1');
    let leading_ones = bits.len() - behind_the_ones.len();
    let ones = bits.matches('1').count();
    (ones == leading_ones && (8..=30).contains(&ones)).then_some(ones)
}

/// "The two addresses must differ, share the network, and be neither its lowest nor its highest address."
fn is_good(gateway: [u8; 4], guest: [u8; 4], prefix: usize) -> bool {
    let addresses = 2u64.pow(32 - prefix as u32);
    let [gateway, guest] = [gateway, guest].map(|address| u64::from(u32::from_be_bytes(address)));
    let lowest = guest / addresses * addresses;
    let highest = lowest + addresses - 1;
    let is_within = |address| lowest < address && address < highest;
    gateway != guest && is_within(gateway) && is_within(guest)
}
