//! The module `dns` of `slirp` is not in the text: where a query lay and who sent it is noted, and it
//! is left at that.

use super::SlirpBackend;
use crate::handed::{self, Asker, To};

pub(super) enum DnsPending {}

impl SlirpBackend {
    pub(super) fn handle_dns(
        &mut self,
        query: &[u8],
        guest_mac: [u8; 6],
        src_ip: [u8; 4],
        src_port: u16,
    ) {
        handed::note(To::Dns, query);
        handed::note_asker(Asker {
            guest_mac,
            src_ip,
            src_port,
        });
    }

    pub(super) fn poll_dns(&mut self) {}
}
