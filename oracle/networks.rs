//! The networks that the Rust is compiled for: document 01's, whose constants its text has, and others,
//! whose constants `oracle/build` writes into a copy of it. A program is about one of them: NETWORK has
//! its number when the program is compiled, and is not set for document 01's.

/// What a record holds of its network.
#[derive(Clone, Copy, Debug, PartialEq)]
pub struct Network {
    pub gateway: [u8; 4],
    pub guest: [u8; 4],
    pub mask: [u8; 4],
    pub lease: u32,
}

/// The constants of the Rust: the broadcast address is one of them, and is written down here and not
/// reckoned, so that it is another's word on what `document_01.rs` reckons.
pub struct Constants {
    pub network: Network,
    pub broadcast: [u8; 4],
}

const fn constants(
    gateway: [u8; 4],
    guest: [u8; 4],
    mask: [u8; 4],
    broadcast: [u8; 4],
    lease: u32,
) -> Constants {
    let network = Network {
        gateway,
        guest,
        mask,
        lease,
    };
    Constants { network, broadcast }
}

#[rustfmt::skip]
pub const NETWORKS: [Constants; 11] = [
    constants([10, 0, 2, 2], [10, 0, 2, 15], [255, 255, 255, 0], [10, 0, 2, 255], 86_400),
    constants([10, 0, 0, 1], [10, 255, 255, 254], [255, 0, 0, 0], [10, 255, 255, 255], 0),
    constants([172, 16, 255, 254], [172, 16, 0, 1], [255, 255, 0, 0], [172, 16, 255, 255], 4_294_967_295),
    constants([192, 168, 7, 0], [192, 168, 6, 255], [255, 255, 254, 0], [192, 168, 7, 255], 3_600),
    constants([10, 0, 2, 15], [10, 0, 2, 2], [255, 255, 255, 0], [10, 0, 2, 255], 1),
    constants([203, 0, 113, 14], [203, 0, 113, 9], [255, 255, 255, 248], [203, 0, 113, 15], 60),
    constants([198, 51, 100, 5], [198, 51, 100, 6], [255, 255, 255, 252], [198, 51, 100, 7], 86_401),
    constants([10, 0, 2, 129], [10, 0, 2, 254], [255, 255, 255, 128], [10, 0, 2, 255], 65_536),
    constants([240, 0, 0, 2], [240, 15, 255, 253], [255, 240, 0, 0], [240, 15, 255, 255], 2_147_483_648),
    constants([192, 168, 77, 1], [192, 168, 77, 9], [255, 255, 255, 192], [192, 168, 77, 63], 1_800),
    constants([10, 0, 2, 2], [10, 0, 2, 15], [255, 255, 255, 0], [10, 0, 2, 255], 20),
];

/// Every list and every comparison is about the first ones. On the last two, the others of
/// rust/tap-namespace and rust/real-guest, real guests were captured, and only their exchanges are there.
#[allow(dead_code)] // by most programs
pub const COMPARED: usize = 9;

pub const NUMBER: usize = match option_env!("NETWORK") {
    None => 0,
    Some(digits) => number(digits.as_bytes()),
};

const fn number(digits: &[u8]) -> usize {
    match digits {
        [before @ .., last] => 10 * number(before) + (*last - b'0') as usize,
        [] => 0,
    }
}

/// The network of this program.
pub const HERE: Network = NETWORKS[NUMBER].network;
pub const BROADCAST: [u8; 4] = NETWORKS[NUMBER].broadcast;

/// On other networks document 01's gateway, which is nobody's there but for network 4, where it is the
/// guest's; on document 01's an address that is nobody's.
pub const STRANGER: [u8; 4] = match NUMBER {
    0 => [10, 0, 2, 3],
    _ => NETWORKS[0].network.gateway,
};
