//! The alphabets of zones: which octets the labels above the apex have.

/// An alphabet, of which each neighbour is compiled for itself.
pub trait Alphabet {
    const LEAST: u8;
    const GREATEST: u8;

    /// Whether each octet of these labels, folded, is in it.
    fn has_all(labels: &[u8]) -> bool;
    /// Whether an octet, folded, is the greatest.
    fn is_greatest(octet: u8) -> bool;
    /// The octet before one that is not the least, and after one that is not the greatest.
    fn lower(octet: u8) -> u8;
    fn raise(octet: u8) -> u8;
}

/// Every octet but upper case letters, which stepping passes over.
pub struct Full;

impl Alphabet for Full {
    const LEAST: u8 = 0;
    const GREATEST: u8 = 255;

    fn has_all(_: &[u8]) -> bool {
        true
    }

    fn is_greatest(octet: u8) -> bool {
        octet == 255
    }

    fn lower(octet: u8) -> u8 {
        if octet == b'[' {
            b'@'
        } else {
            octet - 1
        }
    }

    fn raise(octet: u8) -> u8 {
        if octet == b'@' {
            b'['
        } else {
            octet + 1
        }
    }
}

/// Letters, digits and the hyphen.
pub struct Ldh;

impl Alphabet for Ldh {
    const LEAST: u8 = b'-';
    const GREATEST: u8 = b'z';

    fn has_all(mut labels: &[u8]) -> bool {
        while let Some((&size, rest)) = labels.split_first() {
            let (label, rest) = rest.split_at(usize::from(size));
            if !label.iter().all(|octet| octet.is_ascii_alphanumeric() || *octet == b'-') {
                return false;
            }
            labels = rest;
        }
        true
    }

    fn is_greatest(octet: u8) -> bool {
        octet.eq_ignore_ascii_case(&b'z')
    }

    fn lower(octet: u8) -> u8 {
        match octet {
            b'0' => b'-',
            b'a' => b'9',
            _ => octet - 1,
        }
    }

    fn raise(octet: u8) -> u8 {
        match octet {
            b'-' => b'0',
            b'9' => b'a',
            _ => octet + 1,
        }
    }
}
