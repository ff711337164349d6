//! The module `udp` of `slirp`: its published text, whole but for the import that `oracle/build`
//! turns, and beside it a function that hands out what is private in it.

include!("published/udp.rs");

/// What `relay_datagram` was handed beside the data, as the connection that it made keeps it.
#[derive(Clone, Copy, Debug, PartialEq)]
pub struct Relayed {
    pub guest_mac: [u8; 6],
    pub src_ip: [u8; 4],
    pub src_port: u16,
    pub dst_ip: [u8; 4],
    pub dst_port: u16,
}

impl SlirpBackend {
    pub fn relayed(&self) -> Vec<Relayed> {
        let relayed = self.udp_conns.iter().map(|(key, conn)| Relayed {
            guest_mac: conn.guest_mac,
            src_ip: conn.src_ip,
            src_port: key.src_port,
            dst_ip: key.dst_ip,
            dst_port: key.dst_port,
        });
        relayed.collect()
    }
}
