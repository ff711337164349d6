//! The driver: calls the published Rust and prints what it answers, on document 01's network or on the
//! other one that it was compiled for. A DHCP reply has the ports of document 02, and a datagram the checksum
//! of RFC 768 (`amended.rs`).

mod amended;
mod ask_dhcp;
mod ask_gateway;
mod builder_vectors;
#[allow(dead_code)]
mod captured;
mod cases;
mod dhcp_cases;
mod dhcp_vectors;
mod document_01;
mod drawn_frames;
mod draws;
mod gateway_cases;
mod gateway_dhcp;
mod gateway_sequences;
mod gateway_vectors;
mod guest_frames;
mod lease_vectors;
mod leases;
mod lines;
mod network_vectors;
mod networks;
mod pieces;
#[allow(dead_code)]
mod the_rust;

/// `oracle`: the vectors. `oracle leases`: instead the calls of captured exchanges on this network.
fn main() {
    if std::env::args().nth(1).as_deref() == Some("leases") {
        print!("{}", lease_vectors::list());
        return;
    }
    if networks::NUMBER != 0 {
        print!("{}", network_vectors::list());
        return;
    }
    print!("{}", builder_vectors::list());
    print!("{}", dhcp_vectors::list());
    print!("{}", gateway_vectors::list());
}
