//! The memory that is lent to a call: between pages that nothing can touch, or as blocks of the heap that valgrind
//! watches. Either way each argument lies alone, and it can be told which bytes of it a call has written.

use std::ffi::c_void;
use std::ptr::null_mut;

/// What a call is lent.
#[derive(Clone, Copy, PartialEq)]
pub enum Slot {
    /// The frame, or a builder's payload.
    Frame,
    /// The reply, or what a builder builds.
    Reply,
    /// The record, or the id that a builder takes of it.
    Record,
    Values,
    Parts,
    Mac,
    /// The source's address, or the gateway's.
    Source,
    /// The target's address, or the guest's.
    Target,
    Mask,
}

pub const SLOTS: [(Slot, &str); 9] = [
    (Slot::Frame, "the frame or payload"),
    (Slot::Reply, "the reply"),
    (Slot::Record, "the record or its id"),
    (Slot::Values, "the values"),
    (Slot::Parts, "the parts"),
    (Slot::Mac, "the MAC"),
    (Slot::Source, "the source or gateway address"),
    (Slot::Target, "the target or guest address"),
    (Slot::Mask, "the mask"),
];

pub trait Lender {
    /// How many places there are to lend memory at; a call is made once at each.
    const PLACES: usize;

    fn go_to(&mut self, place: usize);

    /// Bytes that the call may read.
    fn to_read(&mut self, slot: Slot, bytes: &[u8]) -> *const u8;

    /// Bytes that it may read and change.
    fn to_change(&mut self, slot: Slot, bytes: &[u8]) -> *mut u8;

    /// Room that it may write to. What stands there says nothing.
    fn to_write(&mut self, slot: Slot, len: usize) -> *mut u8;

    /// The call had to write the first `n` bytes of the room and no others: what it did else.
    fn wrongly_written(&self, slot: Slot, n: usize) -> Option<String>;

    /// What was lent to be read is still these bytes.
    fn is_kept(&self, slot: Slot, bytes: &[u8]) -> bool;

    /// What was lent is taken back. A call that kept an address has none any more.
    fn take_back(&mut self);
}

// Pages.

unsafe extern "C" {
    fn mmap(at: *mut u8, len: usize, access: i32, kind: i32, file: i32, offset: i64) -> *mut u8;
    fn memfd_create(name: *const u8, flags: u32) -> i32;
    fn ftruncate(file: i32, len: i64) -> i32;
}

pub const NO_ACCESS: i32 = 0;
const READ: i32 = 1;
pub const READ_AND_WRITE: i32 = 1 | 2;
const SHARED: i32 = 0x01;
pub const PRIVATE: i32 = 0x02;
pub const AT_THIS_ADDRESS: i32 = 0x10;
pub const FROM_NO_FILE: i32 = 0x20;

/// A multiple of every machine's page, and more than an index of 16 bits reaches.
pub const OUT_OF_REACH: usize = 128 * 1024;
const LONGEST: usize = 512 * 1024;

/// The same memory twice: as a call sees it, with pages out of reach right before and right behind, and as the one who
/// lends it writes it.
struct Pages {
    seen: *mut u8,
    written: *mut u8,
    len: usize,
}

impl Pages {
    fn new(len: usize, access: i32) -> Self {
        unsafe {
            let file = memfd_create(c"lent".as_ptr().cast(), 0);
            assert!(file >= 0 && ftruncate(file, len as i64) == 0, "no memory");
            let all = len + 2 * OUT_OF_REACH;
            let around = mapped(null_mut(), all, NO_ACCESS, PRIVATE | FROM_NO_FILE, -1);
            let at = around.add(OUT_OF_REACH);
            Pages {
                seen: mapped(at, len, access, SHARED | AT_THIS_ADDRESS, file),
                written: mapped(null_mut(), len, READ_AND_WRITE, SHARED, file),
                len,
            }
        }
    }
}

pub unsafe fn mapped(at: *mut u8, len: usize, access: i32, kind: i32, file: i32) -> *mut u8 {
    let address = unsafe { mmap(at, len, access, kind, file, 0) };
    assert!(address as isize != -1, "no memory");
    address
}

/// What is lent of a slot.
#[derive(Clone, Copy, Default)]
struct Part {
    start: usize,
    len: usize,
    /// Where its first byte stands in the drawn bytes, if it is room.
    drawn_at: usize,
}

/// Memory that ends where nothing can be touched or, at the other place, starts there.
pub struct Guarded {
    pages: [Pages; SLOTS.len()],
    lent: [Part; SLOTS.len()],
    /// Rooms are filled with these, from another place on in each call: a byte written by mistake is not by chance the
    /// one that stood there each time, and a byte that wasn't written is another one in the next call.
    drawn: Vec<u8>,
    calls: usize,
    place: usize,
}

const AT_THE_END: usize = 0;
const PERIOD: usize = 4_093;

impl Guarded {
    pub fn new(drawn: impl FnOnce(usize) -> Vec<u8>) -> Self {
        // What is only read is mapped so: a call that writes to it faults.
        let pages = SLOTS.map(|(slot, _)| match slot {
            Slot::Frame => Pages::new(LONGEST, READ),
            Slot::Reply => Pages::new(LONGEST, READ_AND_WRITE),
            Slot::Record | Slot::Values | Slot::Parts => Pages::new(OUT_OF_REACH, READ_AND_WRITE),
            Slot::Mac | Slot::Source | Slot::Target | Slot::Mask => Pages::new(OUT_OF_REACH, READ),
        });
        Guarded {
            pages,
            lent: Default::default(),
            drawn: drawn(LONGEST + PERIOD),
            calls: 0,
            place: AT_THE_END,
        }
    }

    fn lend(&mut self, slot: Slot, len: usize) -> (&mut [u8], *mut u8) {
        let pages = &self.pages[slot as usize];
        // Of no bytes there is none that may be touched, so they lie at the end in any case.
        let start = match self.place {
            AT_THE_END => pages.len - len,
            _ if len == 0 => pages.len,
            _ => 0,
        };
        self.lent[slot as usize] = Part {
            start,
            len,
            drawn_at: 0,
        };
        unsafe {
            let written = std::slice::from_raw_parts_mut(pages.written.add(start), len);
            (written, pages.seen.add(start))
        }
    }

    fn written(&self, slot: Slot) -> &[u8] {
        let (pages, part) = (&self.pages[slot as usize], self.lent[slot as usize]);
        unsafe { std::slice::from_raw_parts(pages.written.add(part.start), part.len) }
    }

    /// In words which byte of what is lent stands at this address.
    pub fn words_for(&self, address: usize) -> Option<String> {
        let (slot, name) = SLOTS.into_iter().find(|(slot, _)| {
            let pages = &self.pages[*slot as usize];
            let from = pages.seen as usize - OUT_OF_REACH;
            (from..from + pages.len + 2 * OUT_OF_REACH).contains(&address)
        })?;
        let part = self.lent[slot as usize];
        let first = self.pages[slot as usize].seen as usize + part.start;
        let byte = address as isize - first as isize;
        Some(format!(
            "byte {byte} of {name}, which has {} bytes",
            part.len
        ))
    }
}

impl Lender for Guarded {
    const PLACES: usize = 2;

    fn go_to(&mut self, place: usize) {
        self.place = place;
    }

    fn to_read(&mut self, slot: Slot, bytes: &[u8]) -> *const u8 {
        self.to_change(slot, bytes)
    }

    fn to_change(&mut self, slot: Slot, bytes: &[u8]) -> *mut u8 {
        let (written, seen) = self.lend(slot, bytes.len());
        written.copy_from_slice(bytes);
        seen
    }

    fn to_write(&mut self, slot: Slot, len: usize) -> *mut u8 {
        self.calls += 1;
        let drawn_at = self.calls % PERIOD;
        let drawn = std::mem::take(&mut self.drawn);
        let (written, seen) = self.lend(slot, len);
        written.copy_from_slice(&drawn[drawn_at..drawn_at + len]);
        self.drawn = drawn;
        self.lent[slot as usize].drawn_at = drawn_at;
        seen
    }

    /// That each of the first `n` bytes was written shows where two calls answer the same.
    fn wrongly_written(&self, slot: Slot, n: usize) -> Option<String> {
        let (is, part) = (self.written(slot), self.lent[slot as usize]);
        let was = &self.drawn[part.drawn_at..part.drawn_at + part.len];
        if is[n..] == was[n..] {
            return None;
        }
        let place = (n..part.len).find(|at| is[*at] != was[*at]).unwrap();
        let name = SLOTS[slot as usize].1;
        Some(format!(
            "byte {place} of {name} was written, and only {n} were to be"
        ))
    }

    /// What is lent to be read can't be written to.
    fn is_kept(&self, _: Slot, _: &[u8]) -> bool {
        true
    }

    /// The pages stay; what is in them says other things in the next call.
    fn take_back(&mut self) {}
}

// Blocks of the heap.

unsafe extern "C" {
    fn malloc(len: usize) -> *mut c_void;
    fn free(block: *mut c_void);
    // memcheck.c
    fn hard_is_on_valgrind() -> i32;
    fn hard_undefined_bits(at: *const c_void, bits: *mut u8, len: usize) -> i32;
    fn hard_errors() -> usize;
}

pub fn is_on_valgrind() -> bool {
    unsafe { hard_is_on_valgrind() != 0 }
}

/// How many errors valgrind has told so far.
pub fn valgrinds_errors() -> usize {
    unsafe { hard_errors() }
}

/// Blocks that have exactly the bytes lent and are made anew for each call. valgrind tells a byte touched around them
/// or after they were freed, and knows of every byte whether it was ever written.
pub struct Heap {
    blocks: [(*mut u8, usize); SLOTS.len()],
}

impl Heap {
    pub fn new() -> Self {
        Heap {
            blocks: [(null_mut(), 0); SLOTS.len()],
        }
    }
}

impl Lender for Heap {
    const PLACES: usize = 1;

    fn go_to(&mut self, _: usize) {}

    fn to_read(&mut self, slot: Slot, bytes: &[u8]) -> *const u8 {
        self.to_change(slot, bytes)
    }

    fn to_change(&mut self, slot: Slot, bytes: &[u8]) -> *mut u8 {
        let block = self.to_write(slot, bytes.len());
        unsafe { block.copy_from_nonoverlapping(bytes.as_ptr(), bytes.len()) };
        block
    }

    fn to_write(&mut self, slot: Slot, len: usize) -> *mut u8 {
        let block = unsafe { malloc(len) }.cast();
        self.blocks[slot as usize] = (block, len);
        block
    }

    fn wrongly_written(&self, slot: Slot, n: usize) -> Option<String> {
        let (block, len) = self.blocks[slot as usize];
        let mut undefined = vec![0; len];
        let told = unsafe { hard_undefined_bits(block.cast(), undefined.as_mut_ptr(), len) };
        assert!(
            told == 1 || len == 0,
            "valgrind does not say what is written"
        );
        let right = |at: usize| if at < n { 0 } else { 0xff };
        let place = (0..len).find(|at| undefined[*at] != right(*at))?;
        let (name, deed) = (
            SLOTS[slot as usize].1,
            if place < n { "not written" } else { "written" },
        );
        Some(format!(
            "byte {place} of {name} was {deed}, and the first {n} were to be"
        ))
    }

    fn is_kept(&self, slot: Slot, bytes: &[u8]) -> bool {
        let (block, len) = self.blocks[slot as usize];
        unsafe { std::slice::from_raw_parts(block, len) == bytes }
    }

    fn take_back(&mut self) {
        for (block, len) in &mut self.blocks {
            unsafe { free(block.cast()) };
            (*block, *len) = (null_mut(), 0);
        }
    }
}
