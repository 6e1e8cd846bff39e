//! Tests of the reference. What they expect comes from the papers and RFC 4471, or from
//! slower ways of deciding the same thing that share nothing with the code under test.

mod alphabets;
mod batches;
mod between;
mod bitmaps;
mod denials;
mod depths;
mod enclosers;
mod hashes;
mod keys;
mod listed;
mod nearby;
mod owners;
mod papers;
mod places;
mod refusals;
mod spelling;
mod subtrees;
mod texts;

use crate::Alphabet;

/// The letters, the digits and the hyphen in rising order.
pub const THIRTY_SEVEN: &[u8; 37] = b"-0123456789abcdefghijklmnopqrstuvwxyz";

/// The papers' two alphabets, each with its octets in rising order, written apart from the code
/// under test.
pub fn alphabets() -> [(Alphabet, Vec<u8>); 2] {
    [
        (Alphabet::FULL, (0..=64).chain(91..=255).collect()),
        (Alphabet::LETTERS_DIGITS_HYPHENS, THIRTY_SEVEN.to_vec()),
    ]
}

/// The wire form of a name in the papers' notation: labels separated and ended by dots, `\DDD`
/// and `\c` for single octets, `{n}` behind an octet for n of it.
pub fn wire(text: &str) -> Vec<u8> {
    if text == "." {
        return vec![0];
    }
    let mut out = Vec::new();
    let mut label: Vec<u8> = Vec::new();
    let mut rest = text.as_bytes();
    while let Some((&first, after)) = rest.split_first() {
        rest = after;
        match first {
            b'.' => {
                out.push(label.len() as u8);
                out.append(&mut label);
            }
            b'{' => {
                let end = rest.iter().position(|&c| c == b'}').expect("an open brace");
                let times: usize = number(&rest[..end]);
                let octet = *label.last().expect("a repetition without an octet");
                label.resize(label.len() - 1 + times, octet);
                rest = &rest[end + 1..];
            }
            b'\\' if rest[0].is_ascii_digit() => {
                label.push(number(&rest[..3]) as u8);
                rest = &rest[3..];
            }
            b'\\' => {
                label.push(rest[0]);
                rest = &rest[1..];
            }
            other => label.push(other),
        }
    }
    assert!(label.is_empty(), "the text {text} lacks its last dot");
    out.push(0);
    out
}

fn number(digits: &[u8]) -> usize {
    let text = std::str::from_utf8(digits).expect("digits");
    text.parse().expect("a number")
}

/// The same for a name under `example.com.`.
pub fn under(text: &str) -> Vec<u8> {
    wire(&format!("{text}.example.com."))
}

/// The order of wire-format names, written apart from the code under test: each label octet counts
/// one more than it is, so that 0 can stand for the end of a label.
pub fn sort_value(name: &[u8]) -> Vec<u16> {
    let mut labels = Vec::new();
    let mut place = 0;
    while name[place] != 0 {
        let end = place + 1 + usize::from(name[place]);
        labels.push(&name[place + 1..end]);
        place = end;
    }
    let mut value = Vec::new();
    while let Some(label) = labels.pop() {
        value.extend(label.iter().map(|&octet| u16::from(octet) + 1));
        value.push(0);
    }
    value
}

/// The ends of a name on the wire that begin at a length octet, the longest first.
pub fn ends(name: &[u8]) -> Vec<&[u8]> {
    let mut ends = vec![name];
    let mut rest = name;
    while rest[0] != 0 {
        rest = &rest[1 + usize::from(rest[0])..];
        ends.push(rest);
    }
    ends
}

/// Whether the name, on the wire, is the other or lies under it.
pub fn at_or_under(name: &[u8], top: &[u8]) -> bool {
    ends(name).contains(&top)
}

/// The name with some of its letters in the other case.
pub fn respelt(random: &mut Random, name: &[u8]) -> Vec<u8> {
    let letter = |octet: &u8| match octet.is_ascii_alphabetic() && random.below(2) == 0 {
        true => octet ^ 32,
        false => *octet,
    };
    name.iter().map(letter).collect()
}

/// A small random generator (splitmix64), seeded by hand so that these tests always do the same.
pub struct Random(pub u64);

impl Random {
    pub fn next(&mut self) -> u64 {
        self.0 = self.0.wrapping_add(0x9e37_79b9_7f4a_7c15);
        let mut z = self.0;
        z = (z ^ (z >> 30)).wrapping_mul(0xbf58_476d_1ce4_e5b9);
        z = (z ^ (z >> 27)).wrapping_mul(0x94d0_49bb_1331_11eb);
        z ^ (z >> 31)
    }

    /// A number from 0 to `end` - 1.
    pub fn below(&mut self, end: usize) -> usize {
        (self.next() % end as u64) as usize
    }

    pub fn pick<T: Copy>(&mut self, from: &[T]) -> T {
        from[self.below(from.len())]
    }
}

#[test]
fn notation() {
    assert_eq!(wire("."), [0]);
    assert_eq!(under("fo"), *b"\x02fo\x07example\x03com\x00");
    assert_eq!(wire("a\\000{2}b.\\@\\[."), [4, 97, 0, 0, 98, 2, 64, 91, 0]);
    assert_eq!(wire("o{63}.").len(), 65);
}
