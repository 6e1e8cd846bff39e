//! The names next to a given one in a zone that keeps to an alphabet.

use crate::raw;
use crate::refusal::{unpack, Refusal};

/// Which octets the labels above the apex have in a zone that keeps to it. The apex is free.
#[derive(Clone, Copy, Debug, Default, PartialEq, Eq, Hash)]
pub enum Alphabet {
    /// Every octet but A to Z, which are folded.
    #[default]
    Full,
    /// The letters, the digits and the hyphen alone (RFC 4471 section 4.3).
    Ldh,
}

impl Alphabet {
    /// The number that the exported C functions take for it.
    #[must_use]
    pub const fn number(self) -> u64 {
        match self {
            Alphabet::Full => 0,
            Alphabet::Ldh => 1,
        }
    }
}

/// Finds the absolute predecessor of a name, as [`predecessor`](crate::predecessor) does, among the
/// names of the zone whose labels above the apex keep to the alphabet.
///
/// # Errors
///
/// Those of [`predecessor`](crate::predecessor), in the same cases, and then
/// [`NotInAlphabet`](Refusal::NotInAlphabet).
///
/// # Examples
///
/// ```
/// use qorshudan::{predecessor_in, Alphabet, Refusal, NAME_MAX};
///
/// let apex = b"\x07example\x03com\x00";
/// let mut space = [0; NAME_MAX];
/// let mut before = |name: &[u8]| {
///     let length = predecessor_in(Alphabet::Ldh, apex, 18, name, &mut space)?;
///     Ok(space[..length].to_vec())
/// };
/// assert_eq!(before(b"\x03Foo\x07example\x03com\x00")?, b"\x04fonz\x07example\x03com\x00");
/// assert_eq!(before(b"\x01a\x07example\x03com\x00")?, b"\x049zzz\x07example\x03com\x00");
/// assert_eq!(before(b"\x01_\x07example\x03com\x00"), Err(Refusal::NotInAlphabet));
/// # Ok::<(), Refusal>(())
/// ```
pub fn predecessor_in(
    alphabet: Alphabet,
    apex: &[u8],
    limit: u64,
    name: &[u8],
    space: &mut [u8],
) -> Result<usize, Refusal> {
    let alphabet = alphabet.number();
    unpack(raw::predecessor_in(alphabet, apex, limit, name, space))
}

/// Finds the absolute successor of a name, as [`successor`](crate::successor) does, among the names
/// of the zone whose labels above the apex keep to the alphabet. The predecessor of the answer in
/// this alphabet is the name, folded.
///
/// # Errors
///
/// Those of [`predecessor_in`], in the same cases.
///
/// # Examples
///
/// ```
/// use qorshudan::{successor_in, Alphabet, NAME_MAX};
///
/// let apex = b"\x07example\x03com\x00";
/// let mut space = [0; NAME_MAX];
/// let name = b"\x03foo\x07example\x03com\x00";
/// let length = successor_in(Alphabet::Ldh, apex, 255, name, &mut space)?;
/// assert_eq!(&space[..length], b"\x01-\x03foo\x07example\x03com\x00");
/// # Ok::<(), qorshudan::Refusal>(())
/// ```
pub fn successor_in(
    alphabet: Alphabet,
    apex: &[u8],
    limit: u64,
    name: &[u8],
    space: &mut [u8],
) -> Result<usize, Refusal> {
    let alphabet = alphabet.number();
    unpack(raw::successor_in(alphabet, apex, limit, name, space))
}

/// Finds the modified predecessor of a name among the apex and the names of the zone with at most
/// `depth` labels more that keep to the alphabet: the last before the name in the canonical order.
/// Before the apex comes the last of them all. The depth is 1 to 3; at depth 1 and in the full
/// alphabet this is [`modified_predecessor`](crate::modified_predecessor). The name itself may have
/// any number of labels more than the apex; if it has at most `depth`, the modified successor of the
/// answer, in this alphabet and at this depth, is the name, folded.
///
/// # Errors
///
/// Those of [`predecessor`](crate::predecessor), in the same cases, then
/// [`NoFullLabel`](Refusal::NoFullLabel), then [`NotInAlphabet`](Refusal::NotInAlphabet).
///
/// # Examples
///
/// ```
/// use qorshudan::{modified_predecessor_in, Alphabet, Refusal, NAME_MAX};
///
/// let apex = b"\x07example\x03com\x00";
/// let mut space = [0; NAME_MAX];
/// let name = b"\x04_tcp\x03foo\x07example\x03com\x00";
/// let mut before = |depth, name: &[u8]| {
///     let length = modified_predecessor_in(Alphabet::Full, depth, apex, 255, name, &mut space)?;
///     Ok(space[..length].to_vec())
/// };
/// assert_eq!(before(1, name)?, b"\x03foo\x07example\x03com\x00");
/// assert!(before(2, name)?.starts_with(b"\x3f_tco\xff\xff"));
/// assert_eq!(before(4, name), Err(Refusal::NoFullLabel));
/// # Ok::<(), Refusal>(())
/// ```
pub fn modified_predecessor_in(
    alphabet: Alphabet,
    depth: u64,
    apex: &[u8],
    limit: u64,
    name: &[u8],
    space: &mut [u8],
) -> Result<usize, Refusal> {
    let number = alphabet.number();
    unpack(raw::modified_predecessor_in(
        number, depth, apex, limit, name, space,
    ))
}

/// Finds the modified successor of a name among the apex and the names of the zone with at most
/// `depth` labels more that keep to the alphabet: the first after the name in the canonical order,
/// or the apex when there is none. The depth is 1 to 3; at depth 1 and in the full alphabet this is
/// [`modified_successor`](crate::modified_successor).
///
/// # Errors
///
/// Those of [`modified_predecessor_in`], in the same cases.
///
/// # Examples
///
/// ```
/// use qorshudan::{modified_successor_in, Alphabet, NAME_MAX};
///
/// let apex = b"\x07example\x03com\x00";
/// let mut space = [0; NAME_MAX];
/// let name = b"\x03bar\x03foo\x07example\x03com\x00";
/// let mut after = |depth| {
///     let length = modified_successor_in(Alphabet::Ldh, depth, apex, 255, name, &mut space)?;
///     Ok(space[..length].to_vec())
/// };
/// assert_eq!(after(1)?, b"\x04foo-\x07example\x03com\x00");
/// assert_eq!(after(2)?, b"\x04bar-\x03foo\x07example\x03com\x00");
/// assert_eq!(after(3)?, b"\x01-\x03bar\x03foo\x07example\x03com\x00");
/// # Ok::<(), qorshudan::Refusal>(())
/// ```
pub fn modified_successor_in(
    alphabet: Alphabet,
    depth: u64,
    apex: &[u8],
    limit: u64,
    name: &[u8],
    space: &mut [u8],
) -> Result<usize, Refusal> {
    let number = alphabet.number();
    unpack(raw::modified_successor_in(
        number, depth, apex, limit, name, space,
    ))
}
