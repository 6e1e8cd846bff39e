//! Hashes of NSEC3 zones (RFC 5155), as numbers of 160 bits on a ring, and their owner labels.

use crate::raw;
use crate::refusal::{unpack, Refusal};

/// The octets of a hash.
pub const HASH_LENGTH: usize = 20;

/// The characters of a hash's owner label.
pub const HASH_LABEL_LENGTH: usize = 32;

/// An answer that fills its array, which an array of a hash always gets.
fn filled<const N: usize>(call: impl FnOnce(&mut [u8]) -> u64) -> Result<[u8; N], Refusal> {
    let mut answer = [0; N];
    unpack(call(&mut answer))?;
    Ok(answer)
}

/// Finds the hash after a hash on the ring: one more as a number of 160 bits, the high octet first.
/// After 20 octets ff come 20 octets 00. The hash before the answer is the hash again.
///
/// # Examples
///
/// ```
/// use qorshudan::{hash_after, hash_before, hash_between};
///
/// let hash = [0xff; 20];
/// assert_eq!(hash_after(hash), [0; 20]);
/// // A record with these two ends denies this hash, and no other.
/// assert!(hash_between(hash_before(hash), hash, hash_after(hash)));
/// ```
#[must_use]
pub fn hash_after(hash: [u8; HASH_LENGTH]) -> [u8; HASH_LENGTH] {
    let answer = filled(|space| raw::hash_after(&hash, space));
    answer.expect("20 octets are a hash, and have room")
}

/// Finds the hash before a hash on the ring: one less as a number of 160 bits. Before 20 octets 00
/// come 20 octets ff. The hash after the answer is the hash again.
///
/// # Examples
///
/// ```
/// use qorshudan::hash_before;
///
/// assert_eq!(hash_before([0; 20]), [0xff; 20]);
/// ```
#[must_use]
pub fn hash_before(hash: [u8; HASH_LENGTH]) -> [u8; HASH_LENGTH] {
    let answer = filled(|space| raw::hash_before(&hash, space));
    answer.expect("20 octets are a hash, and have room")
}

/// Writes the owner label of a hash: 32 characters of base32hex (RFC 4648 section 7), 0 to 9 and a
/// to v, without padding and without a length octet. Labels sort as their hashes do.
///
/// # Examples
///
/// ```
/// use qorshudan::{read_hash_label, write_hash_label};
///
/// let label = write_hash_label([0xab; 20]);
/// assert_eq!(&label, b"lelqnatblelqnatblelqnatblelqnatb");
/// assert_eq!(read_hash_label(&label), Ok([0xab; 20]));
/// ```
#[must_use]
pub fn write_hash_label(hash: [u8; HASH_LENGTH]) -> [u8; HASH_LABEL_LENGTH] {
    let answer = filled(|space| raw::write_hash_label(&hash, space));
    answer.expect("20 octets are a hash, and 32 have room for its label")
}

/// Reads the owner label of a hash, in either letter case, which may change within the label. The
/// label that is written for the answer is this one in lower case.
///
/// # Errors
///
/// [`NotAHash`](Refusal::NotAHash): it does not have 32 characters, or one of them is none of 0 to
/// 9, a to v and A to V.
///
/// # Examples
///
/// ```
/// use qorshudan::{read_hash_label, Refusal};
///
/// let label = b"0P9MHAVEQVM6T7VBL5LOP2U3T2RP3TOM"; // of example., in RFC 5155
/// assert_eq!(read_hash_label(label)?[..4], [0x06, 0x53, 0x68, 0xab]);
/// assert_eq!(read_hash_label(&label[..31]), Err(Refusal::NotAHash));
/// # Ok::<(), Refusal>(())
/// ```
pub fn read_hash_label(label: &[u8]) -> Result<[u8; HASH_LENGTH], Refusal> {
    filled(|space| raw::read_hash_label(label, space))
}

/// Tells whether a hash lies strictly between two others on the ring, going up from the first. If
/// the two are equal, every other hash lies between.
///
/// # Examples
///
/// ```
/// use qorshudan::hash_between;
///
/// let (low, middle, high) = ([1; 20], [2; 20], [3; 20]);
/// assert!(hash_between(low, middle, high));
/// assert!(!hash_between(low, high, high));
/// assert!(hash_between(high, low, middle)); // past the greatest and 0
/// assert!(hash_between(low, middle, low) && !hash_between(low, low, low));
/// ```
#[must_use]
pub fn hash_between(
    first: [u8; HASH_LENGTH],
    hash: [u8; HASH_LENGTH],
    second: [u8; HASH_LENGTH],
) -> bool {
    let answer = unpack(raw::hash_between(&first, &hash, &second));
    answer.expect("20 octets are a hash") == 1
}
