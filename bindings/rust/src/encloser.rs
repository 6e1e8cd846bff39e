//! The closest encloser of a query, read off the two ends of its gap, and the wildcard above it.

use crate::raw;
use crate::refusal::{unpack, Refusal};

/// Finds the closest encloser of a query that does not exist, from the owner and the next name of
/// the gap that it lies in: the longest ancestor that the query shares with either, each name
/// counting as its own ancestor. It is handed back as the end of the name that has it, the owner's
/// if both do, in that name's own spelling.
///
/// All three must be well formed and the query in the gap: after the owner in the canonical order,
/// and before the next name. In the last gap, where the next name is not after the owner, both the
/// owner and the query lie at or under the next name instead. Otherwise, and only then, what is
/// handed back is empty: the root is an ancestor of every name, so an encloser has an octet at
/// least.
///
/// # Examples
///
/// ```
/// use qorshudan::{closest_encloser, wildcard, NAME_MAX};
///
/// let owner = b"\x03bar\x07Example\x03com\x00";
/// let next = b"\x01z\x04Shop\x07example\x03com\x00";
/// let query = b"\x01a\x04shop\x07example\x03com\x00";
/// let encloser = closest_encloser(query, owner, next);
/// assert_eq!(encloser, b"\x04Shop\x07example\x03com\x00"); // a part of next
///
/// let mut space = [0; NAME_MAX];
/// let length = wildcard(encloser, &mut space)?;
/// assert_eq!(&space[..length], b"\x01*\x04Shop\x07example\x03com\x00");
///
/// assert!(closest_encloser(owner, owner, next).is_empty()); // the owner exists
/// # Ok::<(), qorshudan::Refusal>(())
/// ```
#[must_use]
pub fn closest_encloser<'a>(query: &[u8], owner: &'a [u8], next: &'a [u8]) -> &'a [u8] {
    let value = raw::value(raw::closest_encloser(query, owner, next)) as usize;
    let name = if value < 256 { owner } else { next };
    &name[name.len() - value % 256..]
}

/// Writes the wildcard name of an encloser: the label `*` and then the encloser, spelled as it is.
///
/// # Errors
///
/// [`BadName`](Refusal::BadName): the encloser is not well formed;
/// [`NameTooLong`](Refusal::NameTooLong): the wildcard name would be longer than [`NAME_MAX`]
/// octets; [`NoRoom`](Refusal::NoRoom).
///
/// [`NAME_MAX`]: crate::NAME_MAX
///
/// # Examples
///
/// ```
/// use qorshudan::{wildcard, Refusal};
///
/// let mut space = [0; 7];
/// assert_eq!(wildcard(b"\x03Com\x00", &mut space), Ok(7));
/// assert_eq!(&space, b"\x01*\x03Com\x00");
/// assert_eq!(wildcard(b"\x03Com\x00", &mut space[..6]), Err(Refusal::NoRoom));
/// ```
pub fn wildcard(encloser: &[u8], space: &mut [u8]) -> Result<usize, Refusal> {
    unpack(raw::wildcard(encloser, space))
}
