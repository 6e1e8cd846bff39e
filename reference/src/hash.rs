//! Hashes of NSEC3 zones (RFC 5155): 20 octets, taken as a number of 160 bits on a ring, and the
//! owner labels that they are written as.

/// The number of octets of a hash.
pub const HASH_LENGTH: usize = 20;
/// The number of characters of its label, five bits each.
pub const LABEL_LENGTH: usize = 32;

/// The characters that five bits are written as (RFC 4648 section 7, in lower case).
const CHARACTERS: &[u8; 32] = b"0123456789abcdefghijklmnopqrstuv";

/// A hash as a number: the 32 high bits of its 160, and the 128 low ones.
#[derive(Clone, Copy, Debug, PartialEq, Eq, PartialOrd, Ord)]
pub struct Hash {
    high: u32,
    low: u128,
}

impl Hash {
    const ZERO: Hash = Hash { high: 0, low: 0 };
    const ONE: Hash = Hash { high: 0, low: 1 };

    /// The hash that these octets are, if there are 20 of them.
    pub fn read(octets: &[u8]) -> Option<Hash> {
        if octets.len() != HASH_LENGTH {
            return None;
        }
        let (high, low) = octets.split_at(4);
        Some(Hash {
            high: u32::from_be_bytes(high.try_into().ok()?),
            low: u128::from_be_bytes(low.try_into().ok()?),
        })
    }

    /// The 20 octets of the hash.
    pub fn octets(self) -> Vec<u8> {
        [&self.high.to_be_bytes()[..], &self.low.to_be_bytes()].concat()
    }

    /// The hash after this one; zero comes after the greatest.
    pub fn after(self) -> Hash {
        self.plus(Hash::ONE)
    }

    /// The hash before this one; the greatest comes before zero.
    pub fn before(self) -> Hash {
        self.minus(Hash::ONE)
    }

    /// Whether a hash lies strictly between two others, going up from the first. It does where the
    /// way up to it is neither nothing nor as far as the way up to the second, which is all the way
    /// round where the two are equal.
    pub fn is_between(self, first: Hash, second: Hash) -> bool {
        let way = self.minus(first);
        let whole_way = second.minus(first);
        way != Hash::ZERO && (whole_way == Hash::ZERO || way < whole_way)
    }

    fn plus(self, other: Hash) -> Hash {
        let (low, carry) = self.low.overflowing_add(other.low);
        let high = self.high.wrapping_add(other.high);
        Hash {
            high: high.wrapping_add(carry.into()),
            low,
        }
    }

    fn minus(self, other: Hash) -> Hash {
        let (low, borrow) = self.low.overflowing_sub(other.low);
        let high = self.high.wrapping_sub(other.high);
        Hash {
            high: high.wrapping_sub(borrow.into()),
            low,
        }
    }

    /// The owner label of the hash, 32 characters without a length octet.
    pub fn label(self) -> Vec<u8> {
        let bits = bits(&self.octets(), 8);
        let values = bits.chunks(5).map(number);
        values.map(|value| CHARACTERS[usize::from(value)]).collect()
    }

    /// The hash whose owner label this is, in either letter case.
    pub fn of_label(label: &[u8]) -> Option<Hash> {
        if label.len() != LABEL_LENGTH {
            return None;
        }
        let value = |character: &u8| {
            let character = character.to_ascii_lowercase();
            (0..32).find(|&value| CHARACTERS[usize::from(value)] == character)
        };
        let values: Vec<u8> = label.iter().map(value).collect::<Option<_>>()?;
        let octets: Vec<u8> = bits(&values, 5).chunks(8).map(number).collect();
        Hash::read(&octets)
    }
}

/// The low bits of each octet, as many as wanted, highest first.
fn bits(octets: &[u8], wanted: u8) -> Vec<bool> {
    octets
        .iter()
        .flat_map(|octet| (0..wanted).rev().map(move |bit| octet >> bit & 1 == 1))
        .collect()
}

/// The number of these bits, highest first.
fn number(bits: &[bool]) -> u8 {
    bits.iter()
        .fold(0, |number, &bit| 2 * number + u8::from(bit))
}
