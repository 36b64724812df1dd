//! The level of the processor that the library runs on, which it tells in Rust alone: it is no part of the C interface
//! (tools/symbols).

use std::ffi::{CStr, c_char};

unsafe extern "C" {
    fn brothwagon_level() -> *const c_char;
}

/// The level of the processor that the library runs on: x86-64, x86-64-v3 or x86-64-v4; on Arm, aarch64.
pub fn level() -> &'static str {
    // Safety: the library answers a constant of its own, which a zero byte ends.
    let name = unsafe { CStr::from_ptr(brothwagon_level()) };
    name.to_str().expect("a level's name is in ASCII")
}
