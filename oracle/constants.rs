//! Prints the lines of the Rust that hold its network, as its text has them and as they are on this
//! program's network: file, old line and new line, with a tab between.

#[allow(dead_code)]
mod networks;

use networks::{Constants, NETWORKS, NUMBER};

/// The lines of `frames.rs` and `dhcp.rs` on a network.
fn lines(constants: &Constants) -> Vec<(&'static str, String)> {
    let network = constants.network;
    let address = |name: &str, value: [u8; 4]| {
        let line = format!("pub(super) const {name}: [u8; 4] = {value:?};");
        ("frames.rs", line)
    };
    let lease = network.lease;
    vec![
        address("GW_IP", network.gateway),
        address("GUEST_IP", network.guest),
        address("SUBNET", network.mask),
        address("BCAST_IP", constants.broadcast),
        (
            "dhcp.rs",
            format!("    option(51, &{lease}u32.to_be_bytes(), &mut i); // lease time"),
        ),
    ]
}

fn main() {
    let (old, new) = (lines(&NETWORKS[0]), lines(&NETWORKS[NUMBER]));
    for ((file, old), (_, new)) in old.into_iter().zip(new) {
        println!("{file}\t{old}\t{new}");
    }
}
