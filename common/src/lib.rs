//! What the comparison and the benchmark share: a random generator, names in the papers' notation,
//! the papers' neighbours, and a few things that both do with octets and results.

pub mod names;
pub mod notation;
pub mod papers;
pub mod random;

pub use notation::wire;
pub use random::Random;

/// A result as the library packs it.
pub fn packed(number: u8, reason: u8, value: u64) -> u64 {
    u64::from(number) + (u64::from(reason) << 8) + (value << 16)
}

/// What lies in a space before a call: an octet that the call changes shows, and so does one that it
/// copies to another place.
pub fn pattern(length: usize) -> Vec<u8> {
    (0..length).map(|place| (place * 37 + 11) as u8).collect()
}

pub fn hex(octets: &[u8]) -> String {
    octets.iter().map(|octet| format!("{octet:02x}")).collect()
}
