//! Serves a TAP device with the proved gateway: a small host around the crate, for Linux.
//!
//!     tap NAME [GATEWAY GUEST MASK [LEASE]]
//!
//! It attaches to the TAP device NAME, and creates one where there is none. Each frame sent into the
//! device goes to the gateway, with the record of the MAC that it came from; a reply is written back.
//! The network has these addresses of gateway and guest, this mask (255.255.255.0, or the number of its
//! ones, 24), and this lease time in seconds, or the library's default. Behind NAME alone it is document
//! 01's.
//! What the gateway hands to its host (DNS, relay, TCP) is printed, a line each, and served by nobody;
//! so are refusals. But a datagram that is relayed to port 7, of any address, gets its own data back from
//! there (echo, RFC 862). Nothing but the device is opened. SIGTERM and SIGINT end it, with a tally, in
//! which an echo counts as a reply.
//!
//!     guest 52:54:00:12:34:56
//!     dns 52:54:00:12:34:56 10.0.2.15:40000 to 10.0.2.2:53, start 42, length 29
//!     echo 52:54:00:12:34:56 10.0.2.15:40001 to 192.0.2.1:7, start 42, length 5
//!     tcp 52:54:00:12:34:56 10.0.2.15:40001 to 10.0.2.2:80, length 74
//!
//! The first line is for a new record. Start and length of `dns`, `relay` and `echo` are those of the data
//! in the frame, the length of `tcp` is the frame's. `rust/tap-namespace` shows it at work.

use std::collections::HashMap;
use std::env;
use std::ffi::{c_int, c_short, c_ulong};
use std::fs::{File, OpenOptions};
use std::io::{self, ErrorKind, Read, Write};
use std::os::fd::AsRawFd;
use std::process::ExitCode;
use std::sync::atomic::{AtomicBool, Ordering};

use yavoledu::Guest;

mod common;
use common::{ETHERNET_HEADER, Mac, REPLY_ROOM, Tally, new_guest};

/// The most MACs that get a record. A frame from any further one gets no answer and is counted. No
/// record makes room for another, since a guest that lost its own would see its ids start again.
/// Who makes up MACs can so shut out those that come later on the same device: a host that serves
/// many guests knows each by its link, not by what its frames say.
const MOST_GUESTS: usize = 64;

/// More than a TAP device can send: its MTU is at most 65,521, with a header of 14 bytes and tags.
const FRAME_ROOM: usize = 65_600;

const USAGE: &str = "usage: tap NAME [GATEWAY GUEST MASK [LEASE]]
  MASK   as an address, or the number of its ones
  LEASE  in seconds";

// Not private, since tests/tap/wrong_tap.rs runs it around a wrong gateway.
pub fn main() -> ExitCode {
    let words: Vec<String> = env::args().skip(1).collect();
    let words: Vec<&str> = words.iter().map(String::as_str).collect();
    let (name, new_guest) = match asked(&words) {
        Ok(asked) => asked,
        Err(why) => {
            eprintln!("tap: {why}\n{USAGE}");
            return ExitCode::from(2);
        }
    };
    let device = match linux::attach(name) {
        Ok(device) => device,
        Err(error) => {
            eprintln!("tap: can't attach to {name}: {error}");
            return ExitCode::FAILURE;
        }
    };
    linux::end_on_signals();
    let mut host = Host {
        device,
        new_guest,
        guests: HashMap::new(),
        tally: Tally::default(),
        without_record: 0,
    };
    let served = host.serve(name);
    let (without, guests) = (host.without_record, host.guests.len());
    println!(
        "tally: {}, without a record {without}, guests {guests}",
        host.tally
    );
    match served {
        Ok(()) => ExitCode::SUCCESS,
        Err(error) => {
            eprintln!("tap: {name}: {error}");
            ExitCode::FAILURE
        }
    }
}

/// The device's name, and a new guest's record on the network that the words ask for, but for its MAC.
fn asked<'a>(words: &[&'a str]) -> Result<(&'a str, Guest), String> {
    let [name, network @ ..] = words else {
        return Err("a device has to be named".into());
    };
    Ok((name, new_guest([0; 6], network)?))
}

struct Host {
    device: File,
    /// What every guest starts with, but for its MAC.
    new_guest: Guest,
    guests: HashMap<[u8; 6], Guest>,
    tally: Tally,
    without_record: u64,
}

impl Host {
    /// Serves until a signal says to end, or until there is nothing left to read from: the device
    /// was deleted.
    fn serve(&mut self, name: &str) -> io::Result<()> {
        println!("serving {name}");
        let mut frame = vec![0; FRAME_ROOM];
        let mut reply = vec![0; REPLY_ROOM];
        while linux::wait_for_a_frame(&self.device)? {
            let n = self.device.read(&mut frame)?;
            self.take(&frame[..n], &mut reply);
        }
        Ok(())
    }

    fn take(&mut self, frame: &[u8], reply: &mut [u8]) {
        self.tally.frames += 1;
        // A shorter frame has no MAC to look up, and the gateway drops it.
        let Some(&[_, _, _, _, _, _, mac @ .., _, _]) = frame.first_chunk::<ETHERNET_HEADER>()
        else {
            self.tally.drops += 1;
            return;
        };
        if !self.guests.contains_key(&mac) && self.guests.len() == MOST_GUESTS {
            self.without_record += 1;
            return;
        }
        let guest = self.guests.entry(mac).or_insert_with(|| {
            println!("guest {}", Mac(mac));
            Guest {
                mac,
                ..self.new_guest.clone()
            }
        });
        if let Some(n) = self.tally.take(guest, frame, reply) {
            let written = self.device.write_all(&reply[..n]);
            self.tally.written(mac, n, written);
        }
    }
}

/// What std has no name for: the device's ioctl, waiting with an end to it, and signals. The C
/// library is linked by std.
mod linux {
    use super::*;

    const TUNSETIFF: c_ulong = 0x4004_54ca;
    const IFF_TAP: c_short = 0x0002;
    const IFF_NO_PI: c_short = 0x1000; // a read is the frame alone, with no header before it
    const POLLIN: c_short = 1;
    const SIGINT: c_int = 2;
    const SIGTERM: c_int = 15;

    /// Linux's `struct ifreq`, as TUNSETIFF uses it.
    #[repr(C)]
    struct InterfaceRequest {
        name: [u8; 16],
        flags: c_short,
        unused: [u8; 22],
    }

    /// `struct pollfd`.
    #[repr(C)]
    struct Wanted {
        descriptor: c_int,
        events: c_short,
        found: c_short,
    }

    unsafe extern "C" {
        fn ioctl(descriptor: c_int, request: c_ulong, ...) -> c_int;
        fn poll(wanted: *mut Wanted, count: c_ulong, milliseconds: c_int) -> c_int;
        fn signal(number: c_int, handler: extern "C" fn(c_int)) -> usize;
    }

    static TOLD_TO_END: AtomicBool = AtomicBool::new(false);

    extern "C" fn tell_to_end(_number: c_int) {
        TOLD_TO_END.store(true, Ordering::Relaxed);
    }

    pub fn end_on_signals() {
        for number in [SIGINT, SIGTERM] {
            // SAFETY: the handler stores into an atomic and does nothing else, which is allowed in
            // a signal handler.
            unsafe { signal(number, tell_to_end) };
        }
    }

    pub fn attach(name: &str) -> io::Result<File> {
        let mut request = InterfaceRequest {
            name: [0; 16],
            flags: IFF_TAP | IFF_NO_PI,
            unused: [0; 22],
        };
        if name.is_empty() || name.len() >= request.name.len() {
            let why = "a device's name has 1 to 15 bytes";
            return Err(io::Error::new(ErrorKind::InvalidInput, why));
        }
        request.name[..name.len()].copy_from_slice(name.as_bytes());
        let device = OpenOptions::new()
            .read(true)
            .write(true)
            .open("/dev/net/tun")?;
        // SAFETY: the descriptor is open, and what TUNSETIFF reads and writes is one `struct
        // ifreq`, 40 bytes, which is lent for the call.
        if unsafe { ioctl(device.as_raw_fd(), TUNSETIFF, &raw mut request) } < 0 {
            return Err(io::Error::last_os_error());
        }
        Ok(device)
    }

    /// True when there is a frame to read, or an error that reading will tell; false when a signal
    /// has said to end. A signal that comes right before `poll` doesn't end that: so it ends by
    /// itself ten times a second.
    pub fn wait_for_a_frame(device: &File) -> io::Result<bool> {
        while !TOLD_TO_END.load(Ordering::Relaxed) {
            let mut wanted = Wanted {
                descriptor: device.as_raw_fd(),
                events: POLLIN,
                found: 0,
            };
            // SAFETY: one `struct pollfd` is lent for the call, and its descriptor is open.
            match unsafe { poll(&raw mut wanted, 1, 100) } {
                0 => {}
                1.. => return Ok(true),
                _ => {
                    let error = io::Error::last_os_error();
                    if error.kind() != ErrorKind::Interrupted {
                        return Err(error);
                    }
                }
            }
        }
        Ok(false)
    }
}
