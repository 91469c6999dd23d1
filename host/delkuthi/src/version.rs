//! The version of this crate, and whether the linked archive matches it.

use crate::ffi;
use crate::monitor::Monitor;
use core::mem::size_of;

/// The version of this crate, of its header and of its archive: major × 1,000,000 + minor × 1,000 + patch.
pub const VERSION: u32 = number(env!("CARGO_PKG_VERSION_MAJOR")) * 1_000_000
    + number(env!("CARGO_PKG_VERSION_MINOR")) * 1_000
    + number(env!("CARGO_PKG_VERSION_PATCH"));

/// A number, from its decimal digits.
const fn number(digits: &str) -> u32 {
    let bytes = digits.as_bytes();
    let (mut number, mut i) = (0, 0);
    while i < bytes.len() {
        number = number * 10 + (bytes[i] - b'0') as u32;
        i += 1;
    }
    number
}

/// The version of the linked archive.
pub fn library_version() -> u32 {
    ffi::delkuthi_version()
}

/// Does the linked archive have the interface of this crate? It does if the first number of its version and the size of a
/// monitor are the same, and the second number is not smaller. A [`Monitor`] can be made only if it does.
pub fn matches() -> bool {
    let version = ffi::delkuthi_version();
    version / 1_000_000 == VERSION / 1_000_000
        && version / 1_000 >= VERSION / 1_000
        && ffi::delkuthi_monitor_size() == size_of::<Monitor>() as u64
}
