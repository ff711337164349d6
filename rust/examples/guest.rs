//! Serves one guest under QEMU with the proved gateway: a small host around the crate.
//!
//!     guest SOCKET CAPTURE MAC [GATEWAY GUEST MASK [LEASE]]
//!
//! It makes the Unix socket SOCKET and waits there for QEMU, which carries the frames of one network device:
//!
//!     qemu-system-x86_64 .. -netdev stream,id=link,addr.type=unix,addr.path=SOCKET
//!         -device virtio-net-pci,netdev=link,mac=MAC
//!
//! Each frame of the guest goes to the gateway, with the one record that the guest has: it is known by its
//! socket, whatever its frames say. A reply is written back. The words behind MAC ask for a network, as those
//! of the example `tap` do; without them it is document 01's. What the gateway hands to its host is printed
//! in the words of `tap`, and served by nobody but for the echo at port 7, as there. The frames of both
//! directions are written into the file CAPTURE, which tcpdump reads. Nothing else is opened. It ends with
//! QEMU, and then prints a tally.
//!
//! A stream that ends inside a frame, or names a length that no frame has, ends it too, with a message and
//! status 1. `rust/real-guest` shows it at work.

use std::env;
use std::fs::{self, File};
use std::io::{self, ErrorKind, Read, Write};
use std::os::unix::net::{UnixListener, UnixStream};
use std::process::ExitCode;
use std::time::{SystemTime, UNIX_EPOCH};

use yavoledu::Guest;

mod common;
use common::{REPLY_ROOM, Tally, new_guest};

/// QEMU's own bound on a frame, 4,096 and 65,536 bytes. A longer one is no frame of QEMU.
const FRAME_ROOM: usize = 69_632;

const USAGE: &str = "usage: guest SOCKET CAPTURE MAC [GATEWAY GUEST MASK [LEASE]]
  SOCKET   a Unix socket, made here, for QEMU's -netdev stream
  CAPTURE  a file for the frames of both directions, as tcpdump reads it
  MAC      the guest's, as 52:54:00:12:34:56
  MASK     as an address, or the number of its ones
  LEASE    in seconds";

fn main() -> ExitCode {
    let words: Vec<String> = env::args().skip(1).collect();
    let words: Vec<&str> = words.iter().map(String::as_str).collect();
    let (socket, capture, guest) = match asked(&words) {
        Ok(asked) => asked,
        Err(why) => {
            eprintln!("guest: {why}\n{USAGE}");
            return ExitCode::from(2);
        }
    };
    match open(socket, capture, guest).and_then(|mut host| host.serve()) {
        Ok(()) => ExitCode::SUCCESS,
        Err(error) => {
            eprintln!("guest: {error}");
            ExitCode::FAILURE
        }
    }
}

/// The socket, the capture file, and the guest's record.
fn asked<'a>(words: &[&'a str]) -> Result<(&'a str, &'a str, Guest), String> {
    let [socket, capture, mac, network @ ..] = words else {
        return Err("a socket, a capture file and a MAC have to be named".into());
    };
    Ok((socket, capture, new_guest(mac_of(mac)?, network)?))
}

fn mac_of(word: &str) -> Result<[u8; 6], String> {
    let byte = |digits: &str| match digits.as_bytes() {
        // a sign would be taken too
        [b'+', _] => None,
        [_, _] => u8::from_str_radix(digits, 16).ok(),
        _ => None,
    };
    let bytes: Option<Vec<u8>> = word.split(':').map(byte).collect();
    bytes
        .and_then(|bytes| bytes.try_into().ok())
        .ok_or(format!("'{word}' is no MAC"))
}

/// Waits for QEMU. It is the only one that gets in.
fn open(socket: &str, capture: &str, guest: Guest) -> io::Result<Host<UnixStream, File>> {
    let because = |what: &str, error: io::Error| io::Error::other(format!("{what}: {error}"));
    let capture = File::create(capture)
        .and_then(Capture::start)
        .map_err(|error| because(capture, error))?;
    let listener = UnixListener::bind(socket).map_err(|error| because(socket, error))?;
    println!("serving {socket}");
    let connected = listener.accept();
    fs::remove_file(socket).map_err(|error| because(socket, error))?;
    let (stream, _) = connected.map_err(|error| because(socket, error))?;
    Ok(Host {
        stream,
        capture,
        guest,
    })
}

struct Host<S, C> {
    stream: S,
    capture: Capture<C>,
    guest: Guest,
}

impl<S: Read + Write, C: Write> Host<S, C> {
    fn serve(&mut self) -> io::Result<()> {
        let mut tally = Tally::default();
        let served = self.serve_counting(&mut tally);
        println!("tally: {tally}");
        served
    }

    fn serve_counting(&mut self, tally: &mut Tally) -> io::Result<()> {
        let mut room = vec![0; FRAME_ROOM];
        let mut reply = vec![0; REPLY_ROOM];
        while let Some(frame) = read_frame(&mut self.stream, &mut room)? {
            tally.frames += 1;
            self.capture.add(frame)?;
            if let Some(n) = tally.take(&mut self.guest, frame, &mut reply) {
                let written = write_frame(&mut self.stream, &reply[..n]);
                if written.is_ok() {
                    self.capture.add(&reply[..n])?;
                }
                tally.written(self.guest.mac, n, written);
            }
        }
        Ok(())
    }
}

// --- frames on the stream, each with its length before it: 4 bytes, the highest first

/// The next frame, or `None` where the stream ends before it.
fn read_frame<'a>(stream: &mut impl Read, room: &'a mut [u8]) -> io::Result<Option<&'a [u8]>> {
    let mut length = [0; 4];
    match fill(stream, &mut length)? {
        0 => return Ok(None),
        4 => {}
        got => return Err(cut(got, "bytes of a length, which has 4")),
    }
    let length = u32::from_be_bytes(length) as usize;
    let most = room.len();
    let Some(frame) = room.get_mut(..length) else {
        let why = format!("a frame of {length} bytes is announced, and {most} is the most");
        return Err(io::Error::new(ErrorKind::InvalidData, why));
    };
    match fill(stream, frame)? {
        got if got < length => Err(cut(got, &format!("bytes of a frame, which has {length}"))),
        _ => Ok(Some(frame)),
    }
}

fn cut(got: usize, of_what: &str) -> io::Error {
    let why = format!("the stream ends behind {got} {of_what}");
    io::Error::new(ErrorKind::UnexpectedEof, why)
}

/// Reads until the buffer is full or the stream ends, and answers how many bytes it has read.
fn fill(stream: &mut impl Read, buffer: &mut [u8]) -> io::Result<usize> {
    let mut filled = 0;
    while filled < buffer.len() {
        match stream.read(&mut buffer[filled..]) {
            Ok(0) => break,
            Ok(n) => filled += n,
            Err(error) if error.kind() == ErrorKind::Interrupted => {}
            // QEMU has ended, and has left a reply unread.
            Err(error) if error.kind() == ErrorKind::ConnectionReset => break,
            Err(error) => return Err(error),
        }
    }
    Ok(filled)
}

fn write_frame(stream: &mut impl Write, frame: &[u8]) -> io::Result<()> {
    let length = (frame.len() as u32).to_be_bytes();
    stream.write_all(&[&length, frame].concat())
}

// --- the capture

/// A file of frames in libpcap's format, its numbers with the highest byte first.
struct Capture<C>(C);

impl<C: Write> Capture<C> {
    fn start(mut file: C) -> io::Result<Capture<C>> {
        let (magic, version, longest, ethernet) = (0xa1b2_c3d4, 0x0002_0004, FRAME_ROOM as u32, 1);
        file.write_all(&numbers([magic, version, 0, 0, longest, ethernet]))?;
        Ok(Capture(file))
    }

    /// It is in the file when this returns, in one piece.
    fn add(&mut self, frame: &[u8]) -> io::Result<()> {
        let now = SystemTime::now()
            .duration_since(UNIX_EPOCH)
            .unwrap_or_default();
        let length = frame.len() as u32;
        let head = numbers([now.as_secs() as u32, now.subsec_micros(), length, length]);
        self.0
            .write_all(&[&head, frame].concat())
            .map_err(|error| io::Error::other(format!("the capture: {error}")))
    }
}

fn numbers<const COUNT: usize>(numbers: [u32; COUNT]) -> Vec<u8> {
    numbers.map(u32::to_be_bytes).concat()
}

#[cfg(test)]
mod tests {
    use super::*;

    /// A stream that hands out one byte a time, and keeps what is written.
    struct Trickle<'a> {
        bytes: &'a [u8],
        written: Vec<u8>,
    }

    impl Read for Trickle<'_> {
        fn read(&mut self, buffer: &mut [u8]) -> io::Result<usize> {
            let most = buffer.len().min(1);
            self.bytes.read(&mut buffer[..most])
        }
    }

    impl Write for Trickle<'_> {
        fn write(&mut self, bytes: &[u8]) -> io::Result<usize> {
            self.written.write(&bytes[..bytes.len().min(7)])
        }

        fn flush(&mut self) -> io::Result<()> {
            Ok(())
        }
    }

    const MAC: [u8; 6] = [0x52, 0x54, 0x00, 0x12, 0x34, 0x56];

    fn trickle(bytes: &[u8]) -> Trickle<'_> {
        Trickle {
            bytes,
            written: Vec::new(),
        }
    }

    /// What serving this stream comes to: the end, what was written back, and the capture.
    fn serve(bytes: &[u8]) -> (Result<(), String>, Vec<u8>, Vec<u8>) {
        let mut host = Host {
            stream: trickle(bytes),
            capture: Capture::start(Vec::new()).unwrap(),
            guest: new_guest(MAC, &[]).unwrap(),
        };
        let served = host.serve().map_err(|error| error.to_string());
        (served, host.stream.written, host.capture.0)
    }

    /// Who has 10.0.2.2?
    fn arp_request() -> Vec<u8> {
        let who = [&MAC[..], &[10, 0, 2, 15], &[0; 6], &[10, 0, 2, 2]].concat();
        [&[0xff; 6], &MAC[..], &[8, 6, 0, 1, 8, 0, 6, 4, 0, 1], &who].concat()
    }

    #[test]
    fn frames_are_told_apart_by_their_lengths() {
        let mut stream = trickle(b"\0\0\0\x03abc\0\0\0\0\0\0\0\x01d");
        let mut room = [0; 3];
        for frame in [&b"abc"[..], b"", b"d"] {
            let read = read_frame(&mut stream, &mut room).unwrap();
            assert_eq!(read, Some(frame));
        }
        assert_eq!(read_frame(&mut stream, &mut room).unwrap(), None);
    }

    #[test]
    fn a_length_past_the_bound_is_told() {
        for length in [FRAME_ROOM + 1, 1 << 31, u32::MAX as usize] {
            let bytes = [&(length as u32).to_be_bytes()[..], &[0; 9]].concat();
            let why = format!("a frame of {length} bytes is announced, and 69632 is the most");
            assert_eq!(serve(&bytes).0, Err(why));
        }
        let longest = [&(FRAME_ROOM as u32).to_be_bytes()[..], &[0; FRAME_ROOM]].concat();
        assert_eq!(serve(&longest).0, Ok(()));
    }

    #[test]
    fn a_stream_that_is_cut_is_told_wherever_it_is() {
        let request = arp_request();
        let bytes = [&[0, 0, 0, 42], &request[..]].concat();
        for cut in 1..46 {
            let why = match cut {
                ..4 => format!("the stream ends behind {cut} bytes of a length, which has 4"),
                _ => format!(
                    "the stream ends behind {} bytes of a frame, which has 42",
                    cut - 4
                ),
            };
            // before any frame, and behind one that is answered
            assert_eq!(serve(&bytes[..cut]).0, Err(why.clone()));
            let (served, written, _) = serve(&[&bytes, &bytes[..cut]].concat());
            assert_eq!((served, written.len()), (Err(why), 46));
        }
        assert_eq!(serve(&[]).0, Ok(()));
        assert_eq!(serve(&bytes).0, Ok(()));
    }

    #[test]
    fn a_reply_is_written_with_its_length_and_both_frames_are_in_the_capture() {
        let request = arp_request();
        let (served, written, capture) = serve(&[&[0, 0, 0, 42], &request[..]].concat());
        assert_eq!(served, Ok(()));
        assert_eq!(written[..4], [0, 0, 0, 42]);
        assert_eq!(written[4..10], MAC);
        assert_eq!(
            capture[..24],
            *b"\xa1\xb2\xc3\xd4\0\x02\0\x04\0\0\0\0\0\0\0\0\0\x01\x10\0\0\0\0\x01"
        );
        // Each frame has its time before it, and its length twice.
        for (at, frame) in [(24, &request), (82, &written[4..].to_vec())] {
            assert_eq!(capture[at + 8..at + 16], *b"\0\0\0\x2a\0\0\0\x2a");
            assert_eq!(capture[at + 16..at + 58], *frame);
        }
        assert_eq!(capture.len(), 140);
    }

    /// A datagram from 10.0.2.15, port 40,000, to 192.0.2.1, in a frame with no checksums.
    fn datagram(port: u16, data: &[u8]) -> Vec<u8> {
        let length = (8 + data.len()) as u16;
        [
            &[0x52, 0x54, 0, 0, 0, 1],
            &MAC[..],
            &[8, 0, 0x45, 0, 0, 0, 0, 0, 0, 0, 64, 17, 0, 0],
            &[10, 0, 2, 15, 192, 0, 2, 1],
            &40_000_u16.to_be_bytes(),
            &port.to_be_bytes(),
            &length.to_be_bytes(),
            &[0, 0],
            data,
        ]
        .concat()
    }

    fn served(frame: &[u8]) -> Vec<u8> {
        let bytes = [&(frame.len() as u32).to_be_bytes()[..], frame].concat();
        let (served, written, _) = serve(&bytes);
        assert_eq!(served, Ok(()));
        written
    }

    #[test]
    fn what_is_sent_to_port_7_comes_back_from_there() {
        let longest = vec![0xa5; 65_507];
        for data in [&b""[..], b"1", b"hello", &longest] {
            let written = served(&datagram(7, data));
            let (length, frame) = written.split_at(4);
            assert_eq!(length, (42 + data.len() as u32).to_be_bytes());
            assert_eq!(
                frame[..12],
                [0x52, 0x54, 0, 0x12, 0x34, 0x56, 0x52, 0x54, 0, 0, 0, 1]
            );
            assert_eq!(frame[26..34], [192, 0, 2, 1, 10, 0, 2, 15]);
            assert_eq!(frame[34..38], [0, 7, 0x9c, 0x40]);
            assert_eq!(frame[42..], *data);
            // The strict reader takes a frame with right checksums alone, and 0 was none of the datagram's.
            assert!(matches!(
                yavoledu::read(frame),
                Some(yavoledu::Reading::Udp { .. })
            ));
            assert_ne!(frame[40..42], [0, 0]);
        }
    }

    #[test]
    fn what_is_sent_to_another_port_or_is_too_long_for_an_echo_does_not_come_back() {
        for frame in [datagram(8, b"hello"), datagram(7, &[0xa5; 65_508])] {
            assert_eq!(served(&frame), []);
        }
    }

    #[test]
    fn words_that_name_no_guest_are_refused() {
        assert!(asked(&["socket", "capture", "52:54:00:12:34:56"]).is_ok());
        for mac in [
            "",
            "52:54:00:12:34",
            "52:54:00:12:34:5",
            "52:54:00:12:34:56:",
            "+2:54:00:12:34:56",
        ] {
            assert_eq!(mac_of(mac), Err(format!("'{mac}' is no MAC")));
        }
        assert!(asked(&["socket", "capture"]).is_err());
        assert!(asked(&["socket", "capture", "52:54:00:12:34:56", "10.0.2.2"]).is_err());
    }
}
