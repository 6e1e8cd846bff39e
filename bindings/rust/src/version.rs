//! The versions of this package and of the library.

use crate::exported;

/// The version of this package.
pub const VERSION: &str = env!("CARGO_PKG_VERSION");

/// The major version of this package.
pub const VERSION_MAJOR: u64 = decimal(env!("CARGO_PKG_VERSION_MAJOR"));

/// The minor version of this package.
pub const VERSION_MINOR: u64 = decimal(env!("CARGO_PKG_VERSION_MINOR"));

/// The patch version of this package.
pub const VERSION_PATCH: u64 = decimal(env!("CARGO_PKG_VERSION_PATCH"));

/// The version of this package as one number, 2^16 * major + 2^8 * minor + patch, to compare with
/// the library's own, [`version`].
pub const VERSION_NUMBER: u64 = (VERSION_MAJOR << 16) + (VERSION_MINOR << 8) + VERSION_PATCH;

/// The number that decimal digits spell.
const fn decimal(digits: &str) -> u64 {
    let digits = digits.as_bytes();
    let (mut number, mut at) = (0, 0);
    while at < digits.len() {
        number = 10 * number + (digits[at] - b'0') as u64;
        at += 1;
    }
    number
}

/// The version of the library that is linked, as one number: 2^16 * major + 2^8 * minor + patch.
///
/// # Examples
///
/// ```
/// assert_eq!(qorshudan::version(), qorshudan::VERSION_NUMBER);
/// ```
#[must_use]
pub fn version() -> u64 {
    // SAFETY: it takes nothing.
    unsafe { exported::qorshudan_version() }
}
