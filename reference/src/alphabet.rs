//! Alphabets: the octets that the labels above an apex may have.

use crate::name::is_folded;

/// A set of octets: at least one, and none of 65 to 90. The papers know two of them.
#[derive(Clone, Copy, Debug)]
pub struct Alphabet {
    allows: fn(u8) -> bool,
}

impl Alphabet {
    /// Every octet that folding leaves as it is.
    pub const FULL: Alphabet = Alphabet::of(is_folded);

    /// The letters, the digits and the hyphen: thirty-seven octets.
    pub const LETTERS_DIGITS_HYPHENS: Alphabet =
        Alphabet::of(|octet| matches!(octet, b'-' | b'0'..=b'9' | b'a'..=b'z'));

    /// The alphabet of the octets that are allowed. Tests have smaller ones than the papers, so
    /// that they can list whole zones.
    pub(crate) const fn of(allows: fn(u8) -> bool) -> Alphabet {
        Alphabet { allows }
    }

    /// Whether the octet is in the alphabet.
    pub fn has(self, octet: u8) -> bool {
        (self.allows)(octet)
    }

    /// The least octet of the alphabet.
    pub fn least(self) -> u8 {
        let mut octets = 0..=255;
        octets
            .find(|&o| self.has(o))
            .expect("an alphabet has an octet")
    }

    /// The greatest octet of the alphabet.
    pub fn greatest(self) -> u8 {
        let mut octets = (0..=255).rev();
        octets
            .find(|&o| self.has(o))
            .expect("an alphabet has an octet")
    }

    /// The least octet of the alphabet that is greater than this one.
    pub fn next_octet(self, octet: u8) -> Option<u8> {
        (octet..=255).skip(1).find(|&o| self.has(o))
    }

    /// The greatest octet of the alphabet that is less than this one.
    pub fn previous_octet(self, octet: u8) -> Option<u8> {
        (0..octet).rev().find(|&o| self.has(o))
    }
}
