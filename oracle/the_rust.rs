//! What each program that asks the Rust needs: panics caught, lengths that are cut told, and the id
//! counter followed, which belongs to the process.

use published::SlirpBackend;
use std::panic::{self, AssertUnwindSafe};
use std::sync::Once;
use std::sync::atomic::{AtomicBool, Ordering};

use crate::guest_frames::{BODY_AT, IPV4, TOTAL_LENGTH_AT, TYPE_AT};

const ID_AT: usize = 18;

/// While the Rust is asked, a panic is its own: it is caught, and not printed as the program's.
static IS_ASKED: AtomicBool = AtomicBool::new(false);
static PRINTS_THE_OTHERS: Once = Once::new();

/// What the call gives, or where it panics the text of that.
pub fn text_of_panic<T>(call: impl FnOnce() -> T) -> Result<T, String> {
    PRINTS_THE_OTHERS.call_once(|| {
        let hook = panic::take_hook();
        panic::set_hook(Box::new(move |told| {
            if !IS_ASKED.load(Ordering::Relaxed) {
                hook(told);
            }
        }));
    });
    IS_ASKED.store(true, Ordering::Relaxed);
    let outcome = panic::catch_unwind(AssertUnwindSafe(call));
    IS_ASKED.store(false, Ordering::Relaxed);
    outcome.map_err(|panic| match panic.downcast::<String>() {
        Ok(text) => *text,
        Err(_) => "a panic without a text of its own".to_string(),
    })
}

/// Where the panic is that of an index past the end: the slice's length and the index.
pub fn index_past_the_end(text: &str) -> Option<(usize, usize)> {
    let numbers = text.strip_prefix("index out of bounds: the len is ")?;
    let (len, index) = numbers.split_once(" but the index is ")?;
    Some((len.parse().ok()?, index.parse().ok()?))
}

/// The big-endian number of two bytes.
pub fn half_word(bytes: &[u8], at: usize) -> usize {
    usize::from(u16::from_be_bytes([bytes[at], bytes[at + 1]]))
}

pub fn is_ipv4(frame: &[u8]) -> bool {
    half_word(frame, TYPE_AT) == usize::from(IPV4)
}

/// The IPv4 frame says a total length that is not its own.
pub fn is_cut(frame: &[u8]) -> bool {
    is_ipv4(frame) && half_word(frame, TOTAL_LENGTH_AT) != frame.len() - BODY_AT
}

/// Where the id counter stands, as far as it was followed.
pub struct IdCounter {
    next: u16,
}

impl IdCounter {
    pub fn new() -> Self {
        let mut counter = IdCounter { next: 0 };
        counter.spent();
        counter
    }

    /// This id was the last one taken.
    pub fn behind(id: u16) -> Self {
        IdCounter {
            next: id.wrapping_add(1),
        }
    }

    pub fn next(&self) -> u16 {
        self.next
    }

    /// The id of a frame that is built for its id alone; the counter stands behind it.
    pub fn spent(&mut self) -> u16 {
        let frame = SlirpBackend::make_ip_frame(&[0; 6], &[0; 4], &[0; 4], 0, &[]);
        let id = half_word(&frame, ID_AT) as u16;
        self.next = id.wrapping_add(1);
        id
    }

    /// Whether the counter stands where it was followed to. That takes an id.
    pub fn is_followed(&mut self) -> bool {
        let id = self.next;
        self.spent() == id
    }

    /// Builds frames until the counter stands there.
    pub fn bring_to(&mut self, id: u16) {
        while self.next != id {
            assert!(self.is_followed());
        }
    }

    /// The Rust built this IPv4 frame: it took the next id.
    pub fn follow(&mut self, frame: &[u8]) -> Result<(), String> {
        let id = half_word(frame, ID_AT) as u16;
        if id != self.next {
            return Err(format!("the Rust took id {id}, not {}", self.next));
        }
        self.next = id.wrapping_add(1);
        Ok(())
    }
}
