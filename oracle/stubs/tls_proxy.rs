//! `slirp` only makes a context and keeps it.

pub struct TlsContext;

impl TlsContext {
    pub fn new() -> Result<Self, String> {
        Ok(TlsContext)
    }
}
