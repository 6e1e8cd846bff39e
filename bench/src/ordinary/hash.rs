//! Hashes of NSEC3 zones: their ring, and their owner labels in base32hex.

use super::Refusal;

pub const HASH: usize = 20;
pub const HASH_LABEL: usize = 32;

type Hash = [u8; HASH];

const CHARACTERS: &[u8; 32] = b"0123456789abcdefghijklmnopqrstuv";

/// The digit of each character, in either letter case, and 32 for an octet that is none.
const DIGITS: [u8; 256] = {
    let mut digits = [32; 256];
    let mut digit = 0;
    while digit < 32 {
        let character = CHARACTERS[digit];
        digits[character as usize] = digit as u8;
        digits[character.to_ascii_uppercase() as usize] = digit as u8;
        digit += 1;
    }
    digits
};

fn read(octets: &[u8]) -> Result<Hash, Refusal> {
    octets.try_into().map_err(|_| Refusal::NotAHash)
}

fn answer(octets: &[u8], space: &mut [u8]) -> Result<usize, Refusal> {
    space.get_mut(..octets.len()).ok_or(Refusal::NoRoom)?.copy_from_slice(octets);
    Ok(octets.len())
}

#[inline(never)]
pub fn hash_after(hash: &[u8], space: &mut [u8]) -> Result<usize, Refusal> {
    let mut hash = read(hash)?;
    for octet in hash.iter_mut().rev() {
        *octet = octet.wrapping_add(1);
        if *octet != 0 {
            break;
        }
    }
    answer(&hash, space)
}

#[inline(never)]
pub fn hash_before(hash: &[u8], space: &mut [u8]) -> Result<usize, Refusal> {
    let mut hash = read(hash)?;
    for octet in hash.iter_mut().rev() {
        *octet = octet.wrapping_sub(1);
        if *octet != 0xff {
            break;
        }
    }
    answer(&hash, space)
}

/// Five octets are eight characters.
#[inline(never)]
pub fn write_hash_label(hash: &[u8], space: &mut [u8]) -> Result<usize, Refusal> {
    let hash = read(hash)?;
    let space = space.get_mut(..HASH_LABEL).ok_or(Refusal::NoRoom)?;
    for (characters, octets) in space.chunks_exact_mut(8).zip(hash.chunks_exact(5)) {
        let bits = octets.iter().fold(0, |bits, &octet| bits << 8 | u64::from(octet));
        for (index, character) in characters.iter_mut().enumerate() {
            *character = CHARACTERS[(bits >> (35 - 5 * index)) as usize & 31];
        }
    }
    Ok(HASH_LABEL)
}

#[inline(never)]
pub fn read_hash_label(label: &[u8], space: &mut [u8]) -> Result<usize, Refusal> {
    let label: &[u8; HASH_LABEL] = label.try_into().map_err(|_| Refusal::NotAHash)?;
    let mut hash = [0; HASH];
    for (octets, characters) in hash.chunks_exact_mut(5).zip(label.chunks_exact(8)) {
        let mut bits = 0;
        for &character in characters {
            let digit = DIGITS[usize::from(character)];
            if digit == 32 {
                return Err(Refusal::NotAHash);
            }
            bits = bits << 5 | u64::from(digit);
        }
        octets.copy_from_slice(&bits.to_be_bytes()[3..]);
    }
    answer(&hash, space)
}

/// Arrays compare as the numbers whose octets they are, the high one first.
#[inline(never)]
pub fn hash_between(first: &[u8], hash: &[u8], second: &[u8]) -> Result<bool, Refusal> {
    let (first, hash, second) = (read(first)?, read(hash)?, read(second)?);
    Ok(if first < second { first < hash && hash < second } else { first < hash || hash < second })
}
