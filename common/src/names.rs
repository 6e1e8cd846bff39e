//! Names as octets.

use crate::Random;

/// The places of a well formed name's length octets, the zero octet at its end included.
pub fn starts(name: &[u8]) -> Vec<usize> {
    let (mut starts, mut place) = (vec![0], 0);
    while name[place] != 0 {
        place += 1 + usize::from(name[place]);
        starts.push(place);
    }
    starts
}

/// The name with another case for one letter in so many. Length octets are below all letters, so
/// none of them is taken for one.
pub fn change_case(random: &mut Random, name: &[u8], one_in: usize) -> Vec<u8> {
    let mut changed = name.to_vec();
    for octet in &mut changed {
        if octet.is_ascii_alphabetic() && random.one_in(one_in) {
            *octet ^= 32;
        }
    }
    changed
}

#[cfg(test)]
mod tests {
    use super::*;

    #[test]
    fn places() {
        assert_eq!(starts(&[0]), [0]);
        assert_eq!(starts(b"\x03foo\x01\x00\x00"), [0, 4, 6]);
    }

    #[test]
    fn cases() {
        let name = b"\x04a@Z[\x00";
        assert_eq!(change_case(&mut Random::new(1), name, 1), *b"\x04A@z[\x00");
        assert_eq!(change_case(&mut Random::new(1), &[0], 1), [0]);
    }
}
