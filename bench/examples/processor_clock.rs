//! A library that a program can be started with: where it asks for the time since the machine started, it is given the time that the
//! processor spent on its thread.

use std::ffi::{c_int, c_long, c_void};

// of Linux on x86-64
const CLOCK_GETTIME: c_long = 228;
const MONOTONIC: c_int = 1;
const OF_THREAD: c_int = 3;

extern "C" {
    fn syscall(number: c_long, ...) -> c_long;
}

/// # Safety
///
/// As of the C library's function of this name.
#[no_mangle]
pub unsafe extern "C" fn clock_gettime(clock: c_int, time: *mut c_void) -> c_int {
    let clock = if clock == MONOTONIC { OF_THREAD } else { clock };
    unsafe { syscall(CLOCK_GETTIME, clock, time) as c_int }
}
