//! The gateway of a guest network, as far as a guest can reach it with one frame: a safe interface to the proved library of
//! this repository.
//!
//! A host keeps one [`Guest`] for each guest, with the [`Network`] that the guest is on. It hands [`Guest::send`] each frame
//! that the guest sends, and the [`Verdict`] says what to do with it.
//!
//! ```
//! use yavoledu::{Guest, NetworkPlan, Verdict};
//!
//! let mut guest = Guest::new([0x52, 0x54, 0x00, 0x12, 0x34, 0x56], &NetworkPlan::DOCUMENT_01)?;
//! // The guest asks by ARP who has 10.0.2.2.
//! let frame = [
//!     0xff, 0xff, 0xff, 0xff, 0xff, 0xff, 0x52, 0x54, 0x00, 0x12, 0x34, 0x56, 0x08, 0x06, // Ethernet
//!     0x00, 0x01, 0x08, 0x00, 6, 4, 0x00, 0x01, // a request
//!     0x52, 0x54, 0x00, 0x12, 0x34, 0x56, 10, 0, 2, 15, // from
//!     0, 0, 0, 0, 0, 0, 10, 0, 2, 2, // for
//! ];
//! let mut reply = [0; 2048];
//! assert_eq!(guest.send(&frame, &mut reply), Verdict::Reply(42));
//! // 10.0.2.2 is at 52:54:00:00:00:01.
//! assert_eq!(reply[22..32], [0x52, 0x54, 0x00, 0x00, 0x00, 0x01, 10, 0, 2, 2]);
//! # Ok::<(), yavoledu::BadRecord>(())
//! ```
//!
//! Each record has addresses, mask and lease time of its own, and two guests may have the same. The gateway's MAC is
//! 52:54:00:00:00:01 on every network. The rules are those of documents 01 and 02, the customer's.
//!
//! Beside the gateway stand the builders of frames ([`Guest::make_ip_frame`], [`Guest::make_tcp_frame`], [`make_udp_payload`]),
//! the [`checksum`], a strict reader ([`read`], which wants 64 kB of stack), and a store in which fragments are put together
//! ([`Store`]).
//!
//! # What is proved
//!
//! Every function behind this interface is proved, for every frame, every record and every buffer: it ends, touches no byte out of
//! range, and answers what its contract says. Nothing here allocates, keeps what it is lent, or panics, and threads may call with
//! different records at once. This crate itself, the compiler's back end and the linker are not proved; `rust/README.md` says more.

#![no_std]
#![deny(missing_docs)]
#![deny(unsafe_code)]

mod builders;
#[allow(unsafe_code)]
mod ffi;
mod guest;
mod reading;
mod store;
mod verdict;

// The README's example is compiled and run with the others.
#[cfg(doctest)]
#[doc = include_str!("../README.md")]
struct Readme;

pub use builders::{Endpoints, checksum, make_udp_payload};
pub use guest::{BadRecord, Guest, Network, NetworkPlan};
pub use reading::{Layer, Reading, read};
pub use store::{Datagram, STORE_BYTES, STORE_WORDS, Store, Taken, Unstored};
pub use verdict::{Refusal, Verdict};
