//! What `slirp` handed on, in order: to the modules that are not in its text, and to its UDP sockets.

use std::cell::RefCell;

#[derive(Clone, Copy, Debug, PartialEq)]
pub enum To {
    Dns,
    Relay,
    Tcp,
}

/// Who sent a query: the MAC, the address and the port that `handle_dns` is handed beside it.
#[derive(Clone, Copy, Debug, PartialEq)]
pub struct Asker {
    pub guest_mac: [u8; 6],
    pub src_ip: [u8; 4],
    pub src_port: u16,
}

thread_local! {
    /// Address and length of each slice handed on since they were last taken.
    static HANDED: RefCell<Vec<(To, usize, usize)>> = const { RefCell::new(Vec::new()) };
    /// The askers of the queries among them.
    static ASKERS: RefCell<Vec<Asker>> = const { RefCell::new(Vec::new()) };
}

pub fn note(to: To, slice: &[u8]) {
    let place = slice.as_ptr() as usize;
    HANDED.with_borrow_mut(|handed| handed.push((to, place, slice.len())));
}

pub fn note_asker(asker: Asker) {
    ASKERS.with_borrow_mut(|askers| askers.push(asker));
}

pub fn take() -> Vec<(To, usize, usize)> {
    HANDED.take()
}

pub fn take_askers() -> Vec<Asker> {
    ASKERS.take()
}
