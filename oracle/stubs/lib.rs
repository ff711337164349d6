//! The crate `published`: vpod's `slirp` as published, and stubs for what its text calls on but
//! does not hold. Only `slirp` is foreign, so only there are warnings off.

pub mod handed;
mod trace;
mod udp_socket;

mod virtio {
    pub mod net;
    pub mod secrets;
    #[allow(warnings)]
    pub mod slirp;
    pub mod tls_proxy;
}

pub use virtio::net::NetworkBackend;
pub use virtio::slirp::SlirpBackend;
