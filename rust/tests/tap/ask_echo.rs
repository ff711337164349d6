//! A UDP socket of the operating system, for `rust/tap-namespace` and for the guests of `rust/real-guest`: it
//! sends its standard input as one datagram and prints what comes back.
//!
//!     ask_echo FROM TO
//!
//! Each is an address and a port, as 10.0.2.15:0, where any port will do, and 192.0.2.1:7. It prints a line:
//!
//!     5 bytes come back        the data that was sent, from TO
//!     5 other bytes come back
//!     nothing comes back       within two seconds
//!
//! or why it can't be asked.

use std::env;
use std::error::Error;
use std::io::{self, ErrorKind, Read};
use std::net::{SocketAddr, UdpSocket};
use std::time::Duration;

const PATIENCE: Duration = Duration::from_secs(2);

fn main() {
    match ask() {
        Ok(line) => println!("{line}"),
        Err(error) => println!("it can't be asked: {error}"),
    }
}

fn ask() -> Result<String, Box<dyn Error>> {
    let words: Vec<String> = env::args().skip(1).collect();
    let [from, to] = &words[..] else {
        return Err("usage: ask_echo FROM TO".into());
    };
    let (from, to): (SocketAddr, SocketAddr) = (from.parse()?, to.parse()?);
    let mut sent = Vec::new();
    io::stdin().read_to_end(&mut sent)?;
    let socket = UdpSocket::bind(from)?;
    socket.connect(to)?; // what comes from elsewhere is not taken
    socket.set_read_timeout(Some(PATIENCE))?;
    socket.send(&sent)?;
    let mut room = vec![0; 65_536];
    match socket.recv(&mut room) {
        Ok(n) if room[..n] == sent => Ok(format!("{n} bytes come back")),
        Ok(n) => Ok(format!("{n} other bytes come back")),
        Err(error) if [ErrorKind::WouldBlock, ErrorKind::TimedOut].contains(&error.kind()) => {
            Ok("nothing comes back".into())
        }
        Err(error) => Err(error.into()),
    }
}
