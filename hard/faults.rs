//! The library with a fault around it (faulty.c), by which a harness shows that it can fail.

use std::ffi::{CStr, c_char};

use crate::library;
use crate::library::*;

#[repr(C)]
struct Fault {
    name: *const c_char,
    /// The harnesses that have to catch it.
    harnesses: *const c_char,
}

unsafe extern "C" {
    static hard_faults: Fault;
    static hard_faults_len: usize;
    static mut hard_fault: usize;
}

static FAULTY: Library = library!("faulty_");

fn faults() -> Vec<(&'static str, &'static str)> {
    let text = |at: *const c_char| unsafe { CStr::from_ptr(at) }.to_str().unwrap();
    let faults = unsafe { std::slice::from_raw_parts(&raw const hard_faults, hard_faults_len) };
    faults
        .iter()
        .map(|fault| (text(fault.name), text(fault.harnesses)))
        .collect()
}

pub fn names_for(harness: &str) -> Vec<&'static str> {
    let mut faults = faults();
    faults.retain(|(_, harnesses)| harnesses.split(' ').any(|word| word == harness));
    faults.into_iter().map(|(name, _)| name).collect()
}

/// The library around which this fault is put.
pub fn with_fault(name: &str) -> Option<&'static Library> {
    let number = faults().iter().position(|(known, _)| *known == name)?;
    unsafe { hard_fault = number };
    Some(&FAULTY)
}
