//! Takes the place of oracle/stubs/handed.rs: only the last slice handed on is kept, so that as little
//! as possible of what is timed as the Rust's is the stub's.

use std::cell::Cell;

#[derive(Clone, Copy, Debug, PartialEq)]
pub enum To {
    Dns,
    Relay,
    Tcp,
}

pub struct Asker {
    pub guest_mac: [u8; 6],
    pub src_ip: [u8; 4],
    pub src_port: u16,
}

thread_local! {
    /// Address and length of the slice.
    static LAST: Cell<Option<(To, usize, usize)>> = const { Cell::new(None) };
}

pub fn note(to: To, slice: &[u8]) {
    LAST.set(Some((to, slice.as_ptr() as usize, slice.len())));
}

pub fn note_asker(_asker: Asker) {}

pub fn take() -> Option<(To, usize, usize)> {
    LAST.take()
}
