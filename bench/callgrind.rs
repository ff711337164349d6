//! What valgrind's header `callgrind.h` has as macros: requests to the tool that runs the program, nothing without it.

#[cfg(target_arch = "aarch64")]
mod requests {
    use std::arch::asm;

    const DUMP_STATS: u64 = 0x4354_0000;
    const ZERO_STATS: u64 = DUMP_STATS + 1;

    /// Four rotations by 128 bits in all and an empty instruction, by which valgrind knows a request.
    fn request(number: u64) {
        let request = [number, 0, 0, 0, 0, 0];
        unsafe {
            asm!(
                "ror x12, x12, #3", "ror x12, x12, #13", "ror x12, x12, #51", "ror x12, x12, #61",
                "orr x10, x10, x10",
                inout("x3") 0_u64 => _, in("x4") request.as_ptr(), options(nostack),
            );
        }
    }

    pub fn zero() {
        request(ZERO_STATS);
    }

    pub fn dump() {
        request(DUMP_STATS);
    }
}

#[cfg(not(target_arch = "aarch64"))]
mod requests {
    pub fn zero() {}

    pub fn dump() {}
}

pub use requests::{dump, zero};
