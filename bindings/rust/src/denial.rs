//! A denial, the one or two gaps that deny a missing query, and what it is made of: the next closer
//! name, the end of its gap past all names under it, and whether a gap covers a name.

use crate::alphabet::Alphabet;
use crate::raw;
use crate::refusal::{unpack, Refusal};
use crate::NAME_MAX;

/// Finds the subtree successor of a name: of all names of the zone whose labels above the apex keep
/// to the alphabet, the first that is after the name and not under it. Where there is none, and for
/// the apex, it is the apex.
///
/// The gap that denies a missing name and all names under it goes from the name's
/// [predecessor](crate::predecessor_in) to its subtree successor: of the names of the zone it
/// [covers] exactly those.
///
/// # Errors
///
/// Those of [`predecessor_in`](crate::predecessor_in), in the same cases.
///
/// # Examples
///
/// ```
/// use qorshudan::{covers, predecessor, subtree_successor, Alphabet, NAME_MAX};
///
/// let apex = b"\x07example\x03com\x00";
/// let name = b"\x03Foo\x07example\x03com\x00";
/// let (mut owner, mut next) = ([0; NAME_MAX], [0; NAME_MAX]);
/// let owner_length = predecessor(apex, 255, name, &mut owner)?;
/// let next_length = subtree_successor(Alphabet::Full, apex, 255, name, &mut next)?;
/// let (owner, next) = (&owner[..owner_length], &next[..next_length]);
/// assert_eq!(next, b"\x04foo\x00\x07example\x03com\x00");
///
/// assert!(covers(owner, next, b"\x03foo\x07example\x03com\x00"));
/// assert!(covers(owner, next, b"\x03bar\x03foo\x07example\x03com\x00"));
/// assert!(!covers(owner, next, b"\x03fop\x07example\x03com\x00"));
/// # Ok::<(), qorshudan::Refusal>(())
/// ```
pub fn subtree_successor(
    alphabet: Alphabet,
    apex: &[u8],
    limit: u64,
    name: &[u8],
    space: &mut [u8],
) -> Result<usize, Refusal> {
    let alphabet = alphabet.number();
    unpack(raw::subtree_successor(alphabet, apex, limit, name, space))
}

/// Finds the next closer name of a query: its ancestor, or the query itself, with one label more
/// than the encloser, as the end of the query in its own spelling. It is empty where one of the two
/// is not well formed, or the encloser is no ancestor of the query or the query itself, letter case
/// aside.
///
/// # Examples
///
/// ```
/// use qorshudan::next_closer;
///
/// let encloser = b"\x07example\x03com\x00";
/// let query = b"\x01a\x04Shop\x07Example\x03com\x00";
/// assert_eq!(next_closer(encloser, query), b"\x04Shop\x07Example\x03com\x00");
/// assert!(next_closer(query, query).is_empty());
/// ```
#[must_use]
pub fn next_closer<'a>(encloser: &[u8], query: &'a [u8]) -> &'a [u8] {
    let value = raw::value(raw::next_closer(encloser, query)) as usize;
    &query[query.len() - value..]
}

/// Tells whether an NSEC record covers a name, as a resolver reads it: all three are well formed,
/// and the name lies strictly between the owner and the next name in the canonical order. Where the
/// next name is not after the owner, as in the last record of a zone, the name lies after the owner
/// or before the next name.
///
/// # Examples
///
/// ```
/// use qorshudan::covers;
///
/// let (apex, foo) = (b"\x07example\x03com\x00", b"\x03foo\x07example\x03com\x00");
/// assert!(covers(foo, apex, b"\x03xyz\x07example\x03com\x00")); // the last record
/// assert!(!covers(foo, apex, b"\x03bar\x07example\x03com\x00"));
/// assert!(!covers(foo, apex, foo));
/// ```
#[must_use]
pub fn covers(owner: &[u8], next: &[u8], name: &[u8]) -> bool {
    raw::value(raw::covers(owner, next, name)) != 0
}

/// The octets of the names of any denial: room for four names.
pub const DENIAL_MAX: usize = 4 * NAME_MAX;

/// An NSEC record without its types: nothing exists between the two names. Both are folded.
#[derive(Clone, Copy, Debug, PartialEq, Eq, Hash)]
pub struct Gap<'a> {
    /// The name that owns the record.
    pub owner: &'a [u8],
    /// Its next name.
    pub next: &'a [u8],
}

/// The gaps that deny a query, as [`denial`] makes them.
#[derive(Clone, Copy, Debug, PartialEq, Eq, Hash)]
pub struct Denial<'a> {
    /// That of the next closer name; or the one gap for both, where the two would touch.
    pub first: Gap<'a>,
    /// That of the wildcard, where it needs one of its own.
    pub second: Option<Gap<'a>>,
}

impl<'a> Denial<'a> {
    /// The one or two gaps.
    pub fn gaps(&self) -> impl Iterator<Item = Gap<'a>> {
        core::iter::once(self.first).chain(self.second)
    }
}

/// Makes the gaps that deny a query: that its next closer name does not exist, nor the wildcard
/// right above its closest encloser, nor any name under these two. Of the names of the zone they
/// [cover](covers) exactly those at or under the one or the other.
///
/// It is one gap where the wildcard would pass the limit, where it is the next closer name, and
/// where the two gaps touch: records that touch contradict each other. The names lie back to back at
/// the front of the space, which [`DENIAL_MAX`] octets are always enough for.
///
/// Whether the encloser is the closest one, and that the wildcard does not exist, is the caller's to
/// know. An owner that exists must carry its own types.
///
/// # Errors
///
/// Those of [`predecessor`](crate::predecessor), in the same cases, for apex, limit and query, then
/// [`NotAnEncloser`](Refusal::NotAnEncloser). [`NoRoom`](Refusal::NoRoom) is last, and for all names
/// together.
///
/// # Examples
///
/// ```
/// use qorshudan::{denial, Refusal, DENIAL_MAX};
///
/// let apex = b"\x07example\x03com\x00";
/// let query = b"\x01a\x04Shop\x07example\x03com\x00";
/// let mut space = [0; DENIAL_MAX];
/// let denial = denial(apex, 255, apex, query, &mut space)?;
/// assert_eq!(denial.first.next, b"\x05shop\x00\x07example\x03com\x00");
/// assert_eq!(denial.gaps().count(), 2);
///
/// let refused = qorshudan::denial(apex, 255, query, query, &mut space);
/// assert_eq!(refused, Err(Refusal::NotAnEncloser));
/// # Ok::<(), Refusal>(())
/// ```
pub fn denial<'a>(
    apex: &[u8],
    limit: u64,
    encloser: &[u8],
    query: &[u8],
    space: &'a mut [u8],
) -> Result<Denial<'a>, Refusal> {
    let lengths = unpack(raw::denial(apex, limit, encloser, query, space))?;
    let (first, rest) = gap(space, lengths);
    Ok(Denial {
        first,
        second: match lengths >> 16 {
            0 => None,
            lengths => Some(gap(rest, lengths).0),
        },
    })
}

/// The gap at the front of the octets, and what is behind it. The lowest octet of the lengths is the
/// owner's, the next one that of the next name.
fn gap(octets: &[u8], lengths: usize) -> (Gap<'_>, &[u8]) {
    let (owner, rest) = octets.split_at(lengths & 0xff);
    let (next, rest) = rest.split_at(lengths >> 8 & 0xff);
    (Gap { owner, next }, rest)
}
