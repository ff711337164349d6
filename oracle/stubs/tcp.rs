//! The module `tcp` of `slirp` is not in the text: the frame handed over is noted and left at
//! that, and no connection is ever made.

// Here because a module inside `slirp` sees the builders, and `slirp` itself declares no other.
#[path = "builders.rs"]
mod builders;

use super::SlirpBackend;
use crate::handed::{self, To};

#[derive(PartialEq, Eq, Hash)]
pub(super) enum TcpKey {}

pub(super) struct TcpConn {
    pub(super) state: TcpState,
    pub(super) transport: Transport,
}

pub(super) enum TcpState {
    Established,
    FinWait,
    Closed,
}

pub(super) enum Transport {}

impl TcpConn {
    pub(super) fn has_queued_output(&self) -> bool {
        match self.transport {}
    }
}

impl Transport {
    pub(super) fn has_pending(&self) -> bool {
        match *self {}
    }
}

impl SlirpBackend {
    pub(super) fn handle_tcp(&mut self, frame: &[u8]) {
        handed::note(To::Tcp, frame);
    }

    pub(super) fn poll_tcp(&mut self) {}
}
