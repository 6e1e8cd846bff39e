//! Proved DNS name arithmetic for signers: checking names in wire format, their labels, folding
//! letter case, the canonical order of RFC 4034 section 6.1, sorting keys, names as text (RFC 1035 section
//! 5.1), the names next to a given one in a zone (RFC 4471), which are the ends of the gap that
//! denies it, for zones with hashed names (RFC 5155) the hashes next to a given one, the closest
//! encloser of a missing name with the wildcard above it (RFC 4592), and type bitmaps (RFC 4034
//! section 4.1.2).
//!
//! Every function takes any octets at all and ends with an answer or a [`Refusal`], so there is
//! nothing to check first. What it answers and when it refuses is proved of the library's code,
//! for every input. These are safe functions over that library, `libqorshudan.a`, for x86-64
//! Linux.
//!
//! A *name* is octets in wire format: 0 to 127 labels of 1 to 63 octets, each behind its length
//! octet, and one zero octet, [`NAME_MAX`] octets at most. *Folding* turns A to Z into a to z;
//! apex and name are folded before any other work, and every name that is answered is folded, but
//! for that of [`read_text`], which keeps the letter case of the text, and those of
//! [`closest_encloser`] and [`wildcard`], which keep that of the names given. The *zone* of an apex and a
//! limit is all folded names at or under the apex that are at most the limit long; in the functions
//! with an [`Alphabet`], those whose labels above the apex keep to it.
//!
//! An answer is written to the front of the space that the caller gives; the functions hand back
//! its length. Octets of the space behind the answer stay as they were, and all of them do when
//! the function refuses. Nothing is allocated, and there is no global state: any number of
//! threads may call at once. The crate needs no `std`.
//!
//! # Example
//!
//! The two ends of the gap around a name that doesn't exist, from the texts that people type:
//!
//! ```
//! use qorshudan::{predecessor, read_text, successor, write_text, NAME_MAX, TEXT_MAX};
//!
//! let (mut apex, mut name) = ([0; NAME_MAX], [0; NAME_MAX]);
//! let length = read_text(b"example.com.", &mut apex)?;
//! let apex = &apex[..length];
//! let length = read_text(b"foo.example.com.", &mut name)?;
//! let name = &name[..length];
//!
//! let (mut space, mut text) = ([0; NAME_MAX], [0; TEXT_MAX]);
//! let length = predecessor(apex, 255, name, &mut space)?;
//! assert!(space[..length].ends_with(b"\xff\xff\xff\x07example\x03com\x00"));
//! let length = successor(apex, 255, name, &mut space)?;
//! let length = write_text(&space[..length], &mut text)?;
//! assert_eq!(&text[..length], br"\000.foo.example.com.");
//! # Ok::<(), qorshudan::Refusal>(())
//! ```
//!
//! # Linking
//!
//! `make` in the repository makes the library, `libqorshudan.a`. The build script looks for it in
//! the directory that the environment variable `QORSHUDAN_LIB_DIR` names, else in
//! `../../target/staticlib` beside this package.

#![no_std]
#![warn(missing_docs)]

mod alphabet;
mod bitmap;
mod denial;
mod encloser;
pub mod exported;
mod hash;
mod label;
mod neighbour;
mod owners;
pub mod raw;
mod refusal;
mod version;

pub use alphabet::{
    modified_predecessor_in, modified_successor_in, predecessor_in, successor_in, Alphabet,
};
pub use bitmap::{
    count_types, has_type, largest_type, read_types, smallest_type, write_types, BITMAP_MAX,
    TYPES_MAX,
};
pub use denial::{covers, denial, next_closer, subtree_successor, Denial, Gap, DENIAL_MAX};
pub use encloser::{closest_encloser, wildcard};
pub use hash::{
    hash_after, hash_before, hash_between, read_hash_label, write_hash_label, HASH_LABEL_LENGTH,
    HASH_LENGTH,
};
pub use label::{label_places, labels, Labels, LABELS_MAX};
pub use neighbour::{modified_predecessor, modified_successor, predecessor, successor};
pub use owners::{Found, Owners, OWNERS_MAX, OWNER_OCTETS_MAX};
pub use refusal::{Fault, Refusal};
pub use version::{version, VERSION, VERSION_MAJOR, VERSION_MINOR, VERSION_NUMBER, VERSION_PATCH};

use refusal::unpack;

/// The longest name, and the most that a limit can be. A space this long has room for any name.
pub const NAME_MAX: usize = 255;

/// The longest sorting key.
pub const KEY_MAX: usize = 504;

/// The longest text of a name.
pub const TEXT_MAX: usize = 1004;

/// Checks that the octets are one well formed name, and answers its length.
///
/// # Errors
///
/// [`BadName`](Refusal::BadName): they are not.
///
/// # Examples
///
/// ```
/// use qorshudan::{check, Fault, Refusal};
///
/// assert_eq!(check(b"\x03foo\x00"), Ok(5));
/// assert_eq!(check(b"\x03foo"), Err(Refusal::BadName(Fault::CutShort(4))));
/// assert_eq!(check(b"\xc0\x0c"), Err(Refusal::BadName(Fault::BadLength(0))));
/// ```
pub fn check(name: &[u8]) -> Result<usize, Refusal> {
    unpack(raw::check(name))
}

/// Folds a name: the same octets, with A to Z as a to z.
///
/// # Errors
///
/// [`BadName`](Refusal::BadName), [`NoRoom`](Refusal::NoRoom).
///
/// # Examples
///
/// ```
/// use qorshudan::{fold, Refusal, NAME_MAX};
///
/// let mut space = [0; NAME_MAX];
/// let length = fold(b"\x03FoO\x00", &mut space)?;
/// assert_eq!(&space[..length], b"\x03foo\x00");
///
/// assert_eq!(fold(b"\x03FoO\x00", &mut [0; 4]), Err(Refusal::NoRoom));
/// # Ok::<(), Refusal>(())
/// ```
pub fn fold(name: &[u8], space: &mut [u8]) -> Result<usize, Refusal> {
    unpack(raw::fold(name, space))
}

/// Compares two names in the canonical order: labels from the right, each as unsigned octets from
/// its left end, letter case aside. A missing octet sorts before any octet, and a name before
/// every name under it.
///
/// Answers zero when the names differ in letter case at most, a negative number when the first
/// sorts earlier and a positive one when it sorts later. If not zero, it is, apart from its sign,
/// 1 plus the number of labels that the names share from the right; so it lies between -127 and
/// 127. For an [`Ordering`](core::cmp::Ordering), compare it with 0.
///
/// # Errors
///
/// [`BadName`](Refusal::BadName) for the first name, [`BadSecondName`](Refusal::BadSecondName)
/// for the second.
///
/// # Examples
///
/// ```
/// use qorshudan::compare;
/// use std::cmp::Ordering;
///
/// let foo = b"\x03foo\x07example\x03com\x00";
/// let bar = b"\x03BAR\x07Example\x03COM\x00";
/// assert_eq!(compare(bar, foo), Ok(-3)); // earlier; com and example are shared
/// assert_eq!(compare(foo, bar)?.cmp(&0), Ordering::Greater);
/// assert_eq!(compare(foo, b"\x03FOO\x07example\x03com\x00"), Ok(0));
/// # Ok::<(), qorshudan::Refusal>(())
/// ```
pub fn compare(first: &[u8], second: &[u8]) -> Result<i16, Refusal> {
    let value = unpack(raw::compare(first, second))?;
    Ok(value as i16 - 128)
}

/// Writes the sorting key of a name: its labels from the right, folded, each followed by 00,
/// where octet 0 of a label is written 01 01 and octet 1 is written 01 02. The root's key is
/// empty.
///
/// Keys sort as plain octets (as `[u8]` does) like their names in the canonical order, and two
/// names have the same key exactly when they differ in letter case at most. A key is at most
/// [`KEY_MAX`] octets long.
///
/// # Errors
///
/// [`BadName`](Refusal::BadName), [`NoRoom`](Refusal::NoRoom).
///
/// # Examples
///
/// ```
/// use qorshudan::{write_key, KEY_MAX};
///
/// let mut space = [0; KEY_MAX];
/// let length = write_key(b"\x03foo\x07Example\x03com\x00", &mut space)?;
/// assert_eq!(&space[..length], b"com\x00example\x00foo\x00");
/// # Ok::<(), qorshudan::Refusal>(())
/// ```
pub fn write_key(name: &[u8], space: &mut [u8]) -> Result<usize, Refusal> {
    unpack(raw::write_key(name, space))
}

/// Reads a sorting key: writes the one folded name that has it. The key of that name is these
/// octets again.
///
/// # Errors
///
/// [`NotAKey`](Refusal::NotAKey), however short the space; [`NoRoom`](Refusal::NoRoom).
///
/// # Examples
///
/// ```
/// use qorshudan::{read_key, Refusal, NAME_MAX};
///
/// let mut space = [0; NAME_MAX];
/// let length = read_key(b"com\x00example\x00foo\x00", &mut space)?;
/// assert_eq!(&space[..length], b"\x03foo\x07example\x03com\x00");
///
/// assert_eq!(read_key(b"a", &mut space), Err(Refusal::NotAKey(1)));
/// # Ok::<(), Refusal>(())
/// ```
pub fn read_key(key: &[u8], space: &mut [u8]) -> Result<usize, Refusal> {
    unpack(raw::read_key(key, space))
}

/// Writes the text of a name: its labels, folded, with a dot after each, and the root as a single
/// dot. Octets 33 to 126 are written as they are, but `. \ " ; ( ) @ $` behind a backslash; all
/// others as a backslash and three decimal digits. A text is at most [`TEXT_MAX`] octets long.
///
/// # Errors
///
/// [`BadName`](Refusal::BadName), [`NoRoom`](Refusal::NoRoom).
///
/// # Examples
///
/// ```
/// use qorshudan::{write_text, TEXT_MAX};
///
/// let mut space = [0; TEXT_MAX];
/// let length = write_text(b"\x04A.b\xff\x03com\x00", &mut space)?;
/// assert_eq!(&space[..length], br"a\.b\255.com.");
/// # Ok::<(), qorshudan::Refusal>(())
/// ```
pub fn write_text(name: &[u8], space: &mut [u8]) -> Result<usize, Refusal> {
    unpack(raw::write_text(name, space))
}

/// Reads the text of a name, and writes that name, in the letter case of the text: labels with a
/// dot after each, or a single dot. A character of a label is one of 33 to 126 other than dot and
/// backslash, or a backslash and three decimal digits up to 255, or a backslash and one of 33 to
/// 126 that is no digit. There is no relative name: a text ends with a dot.
///
/// # Errors
///
/// [`NotAText`](Refusal::NotAText), however short the space; [`NoRoom`](Refusal::NoRoom).
///
/// # Examples
///
/// ```
/// use qorshudan::{read_text, Refusal, NAME_MAX};
///
/// let mut space = [0; NAME_MAX];
/// let length = read_text(br"Foo.a\.b\255.", &mut space)?;
/// assert_eq!(&space[..length], b"\x03Foo\x04a.b\xff\x00");
///
/// assert_eq!(read_text(b"example.com", &mut space), Err(Refusal::NotAText(11)));
/// assert_eq!(read_text(br"\256.", &mut space), Err(Refusal::NotAText(3)));
/// # Ok::<(), Refusal>(())
/// ```
pub fn read_text(text: &[u8], space: &mut [u8]) -> Result<usize, Refusal> {
    unpack(raw::read_text(text, space))
}
