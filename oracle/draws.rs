//! Draws that are the same in every run: xorshift64 from a fixed seed.

use crate::networks::{BROADCAST, HERE};

/// Each list has a seed of its own, so that none moves another's draws.
pub const BUILDERS_SEED: u64 = 0x9e37_79b9_7f4a_7c15;
pub const ADDRESSES_SEED: u64 = 0x6a09_e667_f3bc_c909;
pub const DHCP_SEED: u64 = 0x2545_f491_4f6c_dd1d;
pub const GATEWAY_SEED: u64 = 0xd1b5_4a32_d192_ed03;
#[allow(dead_code)] // by oracle/vectors
pub const READINGS_SEED: u64 = 0xbf58_476d_1ce4_e5b9;
pub const NETWORKS_SEED: u64 = 0x94d0_49bb_1331_11eb;

pub const GATEWAY_IP: [u8; 4] = HERE.gateway;
pub const GUEST_IP: [u8; 4] = HERE.guest;
pub const BROADCAST_IP: [u8; 4] = BROADCAST;
pub const GATEWAY_MAC: [u8; 6] = [0x52, 0x54, 0x00, 0x00, 0x00, 0x01];
pub const GUEST_MAC: [u8; 6] = [0x52, 0x54, 0x00, 0x12, 0x34, 0x56];

pub struct Draws(u64);

impl Draws {
    pub fn new(seed: u64) -> Self {
        Draws(seed)
    }

    /// Draws that these bytes decide, and nothing else: they move none of the others.
    #[allow(dead_code)] // by oracle/vectors
    pub fn of(bytes: &[u8]) -> Self {
        let mixed = bytes.iter().fold(0, |mixed: u64, byte| {
            (mixed ^ u64::from(*byte))
                .wrapping_mul(0x9e37_79b9_7f4a_7c15)
                .rotate_left(29)
        });
        Draws(mixed | 1)
    }

    fn next(&mut self) -> u64 {
        self.0 ^= self.0 << 13;
        self.0 ^= self.0 >> 7;
        self.0 ^= self.0 << 17;
        self.0
    }

    /// A number from 0 to `end` - 1.
    pub fn below(&mut self, end: usize) -> usize {
        ((self.next() >> 16) % end as u64) as usize
    }

    pub fn byte(&mut self) -> u8 {
        self.below(256) as u8
    }

    pub fn bytes(&mut self, len: usize) -> Vec<u8> {
        (0..len).map(|_| self.byte()).collect()
    }

    fn array<const N: usize>(&mut self) -> [u8; N] {
        std::array::from_fn(|_| self.byte())
    }

    pub fn one_of<T: Copy>(&mut self, values: &[T]) -> T {
        values[self.below(values.len())]
    }

    /// The seed of a payload given by rule; 0 would say that its bytes are written out.
    pub fn rule_seed(&mut self) -> u8 {
        1 + self.below(255) as u8
    }

    // The values at the edges come up often, and between them any value at all.

    pub fn mac(&mut self) -> [u8; 6] {
        let any = self.array();
        self.one_of(&[[0; 6], [0xff; 6], GUEST_MAC, any, any, any])
    }

    pub fn ip(&mut self) -> [u8; 4] {
        let any = self.array();
        self.one_of(&[[0; 4], [0xff; 4], GATEWAY_IP, GUEST_IP, any, any, any, any])
    }

    pub fn port(&mut self) -> u16 {
        let any = self.below(65_536) as u16;
        self.one_of(&[0, 1, 53, 67, 68, 65_535, any, any, any, any, any, any])
    }

    pub fn word(&mut self) -> u32 {
        let any = u32::from_be_bytes(self.array());
        self.one_of(&[0, 1, 0x7fff_ffff, 0x8000_0000, 0xffff_ffff, any, any, any])
    }

    #[allow(dead_code)] // by oracle/vectors
    pub fn start_of_a_sum(&mut self) -> u16 {
        let any = self.below(65_536) as u16;
        self.one_of(&[0, 1, 0x00ff, 0xff00, 0xffff, any, any, any])
    }

    pub fn proto(&mut self) -> u8 {
        let any = self.byte();
        self.one_of(&[0, 1, 6, 17, 255, any])
    }
}
