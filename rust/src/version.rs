//! The release of this crate and of the linked library.

use crate::ffi;

/// The release that this crate is of: major × 1,000,000 + minor × 1,000 + patch.
///
/// The library has to be of the same: compare this with [`version`].
///
/// ```
/// assert_eq!(mirror::version(), mirror::VERSION, "libmirror.a is of another release");
/// ```
pub const VERSION: u32 = 1_000_000 * decimal(env!("CARGO_PKG_VERSION_MAJOR"))
    + 1_000 * decimal(env!("CARGO_PKG_VERSION_MINOR"))
    + decimal(env!("CARGO_PKG_VERSION_PATCH"));

/// The release that the linked library is of, as a number like [`VERSION`], with
/// which to compare it.
pub fn version() -> u32 {
    // SAFETY: it takes nothing.
    unsafe { ffi::mirror_version() }
}

/// The number that decimal digits say.
const fn decimal(digits: &str) -> u32 {
    let digits = digits.as_bytes();
    let (mut number, mut read) = (0, 0);
    while read < digits.len() {
        number = 10 * number + (digits[read] - b'0') as u32;
        read += 1;
    }
    number
}
