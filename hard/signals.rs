//! A call that faults is a signal to the program, which then tells of it and ends.

/// glibc's, the same on x86-64 and on Arm.
#[repr(C)]
struct Action {
    handler: Handler,
    mask: [u64; 16],
    flags: i32,
    restorer: usize,
}

#[repr(C)]
pub struct Told {
    number: i32,
    error: i32,
    code: i32,
    pub address: usize,
}

pub type Handler = extern "C" fn(i32, *const Told, *const u8);

const WITH_ADDRESS: i32 = 4;

/// The stack that a handler runs on.
#[derive(Clone, Copy)]
pub enum Stack {
    OfTheCall = 0,
    /// The thread's, where it has one.
    Alternate = 0x0800_0000,
}

/// SIGILL, SIGTRAP, SIGABRT, SIGBUS, SIGFPE and SIGSEGV.
const FAULTS: [i32; 6] = [4, 5, 6, 7, 8, 11];

unsafe extern "C" {
    fn sigaction(number: i32, new: *const Action, old: *mut Action) -> i32;
    fn _exit(status: i32) -> !;
}

pub fn watch_for_faults(handler: Handler, stack: Stack) {
    let action = Action {
        handler,
        mask: [0; 16],
        flags: WITH_ADDRESS | stack as i32,
        restorer: 0,
    };
    for number in FAULTS {
        assert_eq!(
            unsafe { sigaction(number, &action, std::ptr::null_mut()) },
            0
        );
    }
}

/// Ends the program at once, as a handler has to.
pub fn end(status: i32) -> ! {
    unsafe { _exit(status) }
}
