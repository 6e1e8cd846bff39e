//! The functions with the library's own results, for callers that want its numbers: programs that
//! hand them on, and tests that compare them. The functions of the same names outside this module
//! are these, their results read into a [`Refusal`](crate::Refusal).
//!
//! A result is number + 2^8 * reason + 2^16 * value:
//!
//! - the [`number`] is 0 for an answer, else the [refusal's](crate::Refusal::number);
//! - the [`reason`] is 1 to 4, the [fault's](crate::Fault::reason), if the number is 2, 4 or 11,
//!   else 0;
//! - the [`value`] of an answer is its length, or 128 plus the comparison, or 1 or 0 for whether
//!   a hash lies between two others, or the length of a closest encloser, plus 256 where it is a
//!   part of the next name; of a bitmap, the number of types, 1 or 0 for whether a type is there, or
//!   1 plus a type, and 0 for none; of a list of owners, their number, or the number looked at plus
//!   2^8 times 1 plus the index of the owner, or 0 for none; that of a refusal is its place or index
//!   if the number is 2, 4, 10, 11, 14, 15 or 16, else 0.
//!
//! # Examples
//!
//! ```
//! use qorshudan::raw;
//!
//! let mut space = [0; 255];
//! let result = raw::fold(b"\x03FoO\x00", &mut space);
//! assert_eq!(result, 5 << 16);
//! assert_eq!(&space[..5], b"\x03foo\x00");
//!
//! let result = raw::check(b"\x03fo"); // the name is cut short after 3 octets
//! assert_eq!(result, 4 + (1 << 8) + (3 << 16));
//! assert_eq!((raw::number(result), raw::reason(result), raw::value(result)), (4, 1, 3));
//! ```

use crate::exported::{self, Filling, ModifiedIn, Neighbour, NeighbourIn};

/// The number of a result: 0 for an answer, else the refusal's.
#[inline]
#[must_use]
pub const fn number(result: u64) -> u8 {
    result as u8
}

/// The reason in a result.
#[inline]
#[must_use]
pub const fn reason(result: u64) -> u8 {
    (result >> 8) as u8
}

/// The value of a result: a length, a comparison plus 128, 1 or 0, or a place.
#[inline]
#[must_use]
pub const fn value(result: u64) -> u64 {
    result >> 16
}

#[inline]
fn fill(function: Filling, octets: &[u8], space: &mut [u8]) -> u64 {
    // SAFETY: a slice can be read for its length, a mutable one written and overlaps no other;
    // that is all the library asks for.
    unsafe {
        function(
            octets.as_ptr(),
            octets.len(),
            space.as_mut_ptr(),
            space.len(),
        )
    }
}

#[inline]
fn neighbour(function: Neighbour, apex: &[u8], limit: u64, name: &[u8], space: &mut [u8]) -> u64 {
    // SAFETY: as in `fill`. The two inputs may overlap each other.
    unsafe {
        function(
            apex.as_ptr(),
            apex.len(),
            limit,
            name.as_ptr(),
            name.len(),
            space.as_mut_ptr(),
            space.len(),
        )
    }
}

#[inline]
fn neighbour_in(
    function: NeighbourIn,
    alphabet: u64,
    apex: &[u8],
    limit: u64,
    name: &[u8],
    space: &mut [u8],
) -> u64 {
    // SAFETY: as in `neighbour`.
    unsafe {
        function(
            alphabet,
            apex.as_ptr(),
            apex.len(),
            limit,
            name.as_ptr(),
            name.len(),
            space.as_mut_ptr(),
            space.len(),
        )
    }
}

#[inline]
fn modified_in(
    function: ModifiedIn,
    (alphabet, depth): (u64, u64),
    apex: &[u8],
    limit: u64,
    name: &[u8],
    space: &mut [u8],
) -> u64 {
    // SAFETY: as in `neighbour`.
    unsafe {
        function(
            alphabet,
            depth,
            apex.as_ptr(),
            apex.len(),
            limit,
            name.as_ptr(),
            name.len(),
            space.as_mut_ptr(),
            space.len(),
        )
    }
}

/// [`check`](crate::check).
#[inline]
#[must_use]
pub fn check(name: &[u8]) -> u64 {
    // SAFETY: as in `fill`.
    unsafe { exported::qorshudan_check(name.as_ptr(), name.len()) }
}

/// [`compare`](crate::compare).
#[inline]
#[must_use]
pub fn compare(first: &[u8], second: &[u8]) -> u64 {
    // SAFETY: as in `fill`.
    unsafe {
        exported::qorshudan_compare(first.as_ptr(), first.len(), second.as_ptr(), second.len())
    }
}

/// [`fold`](crate::fold).
#[inline]
pub fn fold(name: &[u8], space: &mut [u8]) -> u64 {
    fill(exported::qorshudan_fold, name, space)
}

/// [`label_places`](crate::label_places).
#[inline]
pub fn label_places(name: &[u8], places: &mut [u8]) -> u64 {
    fill(exported::qorshudan_label_places, name, places)
}

/// [`write_key`](crate::write_key).
#[inline]
pub fn write_key(name: &[u8], space: &mut [u8]) -> u64 {
    fill(exported::qorshudan_write_key, name, space)
}

/// [`read_key`](crate::read_key).
#[inline]
pub fn read_key(key: &[u8], space: &mut [u8]) -> u64 {
    fill(exported::qorshudan_read_key, key, space)
}

/// [`write_text`](crate::write_text).
#[inline]
pub fn write_text(name: &[u8], space: &mut [u8]) -> u64 {
    fill(exported::qorshudan_write_text, name, space)
}

/// [`read_text`](crate::read_text).
#[inline]
pub fn read_text(text: &[u8], space: &mut [u8]) -> u64 {
    fill(exported::qorshudan_read_text, text, space)
}

/// [`predecessor`](crate::predecessor).
#[inline]
pub fn predecessor(apex: &[u8], limit: u64, name: &[u8], space: &mut [u8]) -> u64 {
    neighbour(exported::qorshudan_predecessor, apex, limit, name, space)
}

/// [`successor`](crate::successor).
#[inline]
pub fn successor(apex: &[u8], limit: u64, name: &[u8], space: &mut [u8]) -> u64 {
    neighbour(exported::qorshudan_successor, apex, limit, name, space)
}

/// [`modified_predecessor`](crate::modified_predecessor).
#[inline]
pub fn modified_predecessor(apex: &[u8], limit: u64, name: &[u8], space: &mut [u8]) -> u64 {
    let function = exported::qorshudan_modified_predecessor;
    neighbour(function, apex, limit, name, space)
}

/// [`modified_successor`](crate::modified_successor).
#[inline]
pub fn modified_successor(apex: &[u8], limit: u64, name: &[u8], space: &mut [u8]) -> u64 {
    let function = exported::qorshudan_modified_successor;
    neighbour(function, apex, limit, name, space)
}

/// [`predecessor_in`](crate::predecessor_in), by the [number](crate::Alphabet::number) of the alphabet:
/// any other than 0 is that of letters, digits and hyphens.
#[inline]
pub fn predecessor_in(
    alphabet: u64,
    apex: &[u8],
    limit: u64,
    name: &[u8],
    space: &mut [u8],
) -> u64 {
    let function = exported::qorshudan_predecessor_in;
    neighbour_in(function, alphabet, apex, limit, name, space)
}

/// [`successor_in`](crate::successor_in), by the [number](crate::Alphabet::number) of the alphabet:
/// any other than 0 is that of letters, digits and hyphens.
#[inline]
pub fn successor_in(alphabet: u64, apex: &[u8], limit: u64, name: &[u8], space: &mut [u8]) -> u64 {
    let function = exported::qorshudan_successor_in;
    neighbour_in(function, alphabet, apex, limit, name, space)
}

/// [`modified_predecessor_in`](crate::modified_predecessor_in), by the [number](crate::Alphabet::number) of the alphabet:
/// any other than 0 is that of letters, digits and hyphens.
#[inline]
pub fn modified_predecessor_in(
    alphabet: u64,
    depth: u64,
    apex: &[u8],
    limit: u64,
    name: &[u8],
    space: &mut [u8],
) -> u64 {
    let function = exported::qorshudan_modified_predecessor_in;
    modified_in(function, (alphabet, depth), apex, limit, name, space)
}

/// [`modified_successor_in`](crate::modified_successor_in), by the [number](crate::Alphabet::number) of the alphabet:
/// any other than 0 is that of letters, digits and hyphens.
#[inline]
pub fn modified_successor_in(
    alphabet: u64,
    depth: u64,
    apex: &[u8],
    limit: u64,
    name: &[u8],
    space: &mut [u8],
) -> u64 {
    let function = exported::qorshudan_modified_successor_in;
    modified_in(function, (alphabet, depth), apex, limit, name, space)
}

/// [`hash_after`](crate::hash_after), of octets from anywhere.
#[inline]
pub fn hash_after(hash: &[u8], space: &mut [u8]) -> u64 {
    fill(exported::qorshudan_hash_after, hash, space)
}

/// [`hash_before`](crate::hash_before), of octets from anywhere.
#[inline]
pub fn hash_before(hash: &[u8], space: &mut [u8]) -> u64 {
    fill(exported::qorshudan_hash_before, hash, space)
}

/// [`write_hash_label`](crate::write_hash_label), of octets from anywhere.
#[inline]
pub fn write_hash_label(hash: &[u8], space: &mut [u8]) -> u64 {
    fill(exported::qorshudan_write_hash_label, hash, space)
}

/// [`read_hash_label`](crate::read_hash_label).
#[inline]
pub fn read_hash_label(label: &[u8], space: &mut [u8]) -> u64 {
    fill(exported::qorshudan_read_hash_label, label, space)
}

/// [`hash_between`](crate::hash_between), of octets from anywhere.
#[inline]
#[must_use]
pub fn hash_between(first: &[u8], hash: &[u8], second: &[u8]) -> u64 {
    // SAFETY: as in `fill`.
    unsafe {
        exported::qorshudan_hash_between(
            first.as_ptr(),
            first.len(),
            hash.as_ptr(),
            hash.len(),
            second.as_ptr(),
            second.len(),
        )
    }
}

/// [`closest_encloser`](crate::closest_encloser): always an answer, whose value is the number of
/// octets at the end of the owner, or, plus 256, at the end of the next name.
#[inline]
#[must_use]
pub fn closest_encloser(query: &[u8], owner: &[u8], next: &[u8]) -> u64 {
    // SAFETY: as in `fill`.
    unsafe {
        exported::qorshudan_closest_encloser(
            query.as_ptr(),
            query.len(),
            owner.as_ptr(),
            owner.len(),
            next.as_ptr(),
            next.len(),
        )
    }
}

/// [`wildcard`](crate::wildcard).
#[inline]
pub fn wildcard(encloser: &[u8], space: &mut [u8]) -> u64 {
    fill(exported::qorshudan_wildcard, encloser, space)
}

/// [`subtree_successor`](crate::subtree_successor), by the [number](crate::Alphabet::number) of the alphabet:
/// any other than 0 is that of letters, digits and hyphens.
#[inline]
pub fn subtree_successor(
    alphabet: u64,
    apex: &[u8],
    limit: u64,
    name: &[u8],
    space: &mut [u8],
) -> u64 {
    let function = exported::qorshudan_subtree_successor;
    neighbour_in(function, alphabet, apex, limit, name, space)
}

/// [`next_closer`](crate::next_closer): always an answer, whose value is the number of octets at the
/// end of the query.
#[inline]
#[must_use]
pub fn next_closer(encloser: &[u8], query: &[u8]) -> u64 {
    // SAFETY: as in `fill`.
    unsafe {
        exported::qorshudan_next_closer(
            encloser.as_ptr(),
            encloser.len(),
            query.as_ptr(),
            query.len(),
        )
    }
}

/// [`covers`](crate::covers): always an answer, whose value is 1 or 0.
#[inline]
#[must_use]
pub fn covers(owner: &[u8], next: &[u8], name: &[u8]) -> u64 {
    // SAFETY: as in `fill`.
    unsafe {
        exported::qorshudan_covers(
            owner.as_ptr(),
            owner.len(),
            next.as_ptr(),
            next.len(),
            name.as_ptr(),
            name.len(),
        )
    }
}

/// [`denial`](crate::denial): the value is the lengths of the names, the first plus 2^8 times the
/// second and so on.
#[inline]
pub fn denial(apex: &[u8], limit: u64, encloser: &[u8], query: &[u8], space: &mut [u8]) -> u64 {
    // SAFETY: as in `fill`.
    unsafe {
        exported::qorshudan_denial(
            apex.as_ptr(),
            apex.len(),
            limit,
            encloser.as_ptr(),
            encloser.len(),
            query.as_ptr(),
            query.len(),
            space.as_mut_ptr(),
            space.len(),
        )
    }
}

/// [`read_types`](crate::read_types).
#[inline]
pub fn read_types(bitmap: &[u8], types: &mut [u16]) -> u64 {
    // SAFETY: as in `fill`.
    unsafe {
        exported::qorshudan_read_types(
            bitmap.as_ptr(),
            bitmap.len(),
            types.as_mut_ptr(),
            types.len(),
        )
    }
}

/// [`write_types`](crate::write_types).
#[inline]
pub fn write_types(types: &[u16], space: &mut [u8]) -> u64 {
    // SAFETY: as in `fill`.
    unsafe {
        exported::qorshudan_write_types(
            types.as_ptr(),
            types.len(),
            space.as_mut_ptr(),
            space.len(),
        )
    }
}

/// [`has_type`](crate::has_type).
#[inline]
#[must_use]
pub fn has_type(bitmap: &[u8], of: u16) -> u64 {
    // SAFETY: as in `fill`.
    unsafe { exported::qorshudan_has_type(bitmap.as_ptr(), bitmap.len(), of) }
}

/// [`count_types`](crate::count_types).
#[inline]
#[must_use]
pub fn count_types(bitmap: &[u8]) -> u64 {
    // SAFETY: as in `fill`.
    unsafe { exported::qorshudan_count_types(bitmap.as_ptr(), bitmap.len()) }
}

/// [`smallest_type`](crate::smallest_type): the value is 1 plus the type, and 0 for none.
#[inline]
#[must_use]
pub fn smallest_type(bitmap: &[u8]) -> u64 {
    // SAFETY: as in `fill`.
    unsafe { exported::qorshudan_smallest_type(bitmap.as_ptr(), bitmap.len()) }
}

/// [`largest_type`](crate::largest_type): the value is 1 plus the type, and 0 for none.
#[inline]
#[must_use]
pub fn largest_type(bitmap: &[u8]) -> u64 {
    // SAFETY: as in `fill`.
    unsafe { exported::qorshudan_largest_type(bitmap.as_ptr(), bitmap.len()) }
}

/// [`Owners::check`](crate::Owners::check).
#[inline]
#[must_use]
pub fn check_owners(apex: &[u8], limit: u64, names: &[u8], starts: &[u32]) -> u64 {
    // SAFETY: as in `fill`.
    unsafe {
        exported::qorshudan_check_owners(
            apex.as_ptr(),
            apex.len(),
            limit,
            names.as_ptr(),
            names.len(),
            starts.as_ptr(),
            starts.len(),
        )
    }
}

/// [`Owners::find`](crate::Owners::find), of any list.
#[inline]
#[must_use]
pub fn find_owner(names: &[u8], starts: &[u32], query: &[u8]) -> u64 {
    // SAFETY: as in `fill`.
    unsafe {
        exported::qorshudan_find_owner(
            names.as_ptr(),
            names.len(),
            starts.as_ptr(),
            starts.len(),
            query.as_ptr(),
            query.len(),
        )
    }
}
