//! The names next to a given one in the zone of an apex.

use crate::raw;
use crate::refusal::{unpack, Refusal};

/// Finds the absolute predecessor of a name: of all names of the zone, the last before it in the
/// canonical order. Before the apex comes the last name of the zone.
///
/// # Errors
///
/// [`BadLimit`](Refusal::BadLimit), [`BadApex`](Refusal::BadApex),
/// [`ApexTooLong`](Refusal::ApexTooLong), [`BadName`](Refusal::BadName),
/// [`NameTooLong`](Refusal::NameTooLong), [`NotUnderApex`](Refusal::NotUnderApex),
/// [`NoRoom`](Refusal::NoRoom).
///
/// # Examples
///
/// ```
/// use qorshudan::{predecessor, NAME_MAX};
///
/// let apex = b"\x07example\x03com\x00";
/// let mut space = [0; NAME_MAX];
/// let length = predecessor(apex, 255, b"\x01\x00\x03foo\x07example\x03com\x00", &mut space)?;
/// assert_eq!(&space[..length], b"\x03foo\x07example\x03com\x00");
///
/// // foo's own predecessor is as long as a name can be: \255...\255.fon\255...\255
/// let length = predecessor(apex, 255, b"\x03foo\x07example\x03com\x00", &mut space)?;
/// assert_eq!(length, 255);
/// assert!(space[..length].ends_with(b"\xff\xff\x07example\x03com\x00"));
/// # Ok::<(), qorshudan::Refusal>(())
/// ```
pub fn predecessor(
    apex: &[u8],
    limit: u64,
    name: &[u8],
    space: &mut [u8],
) -> Result<usize, Refusal> {
    unpack(raw::predecessor(apex, limit, name, space))
}

/// Finds the absolute successor of a name: of all names of the zone, the first after it in the
/// canonical order. After the last name of the zone comes the apex. The predecessor of the answer
/// is the name, folded.
///
/// # Errors
///
/// Those of [`predecessor`], in the same cases.
///
/// # Examples
///
/// ```
/// use qorshudan::{successor, Refusal, NAME_MAX};
///
/// let apex = b"\x07example\x03com\x00";
/// let mut space = [0; NAME_MAX];
/// let length = successor(apex, 255, b"\x03foo\x07example\x03com\x00", &mut space)?;
/// assert_eq!(&space[..length], b"\x01\x00\x03foo\x07example\x03com\x00");
///
/// // A label that only ends in the octets of the apex is not under it.
/// let outside = b"\x09x\x07example\x03com\x00";
/// assert_eq!(successor(apex, 255, outside, &mut space), Err(Refusal::NotUnderApex));
/// # Ok::<(), Refusal>(())
/// ```
pub fn successor(apex: &[u8], limit: u64, name: &[u8], space: &mut [u8]) -> Result<usize, Refusal> {
    unpack(raw::successor(apex, limit, name, space))
}

/// Finds the modified predecessor of a name: of the apex and the names of the zone with exactly
/// one label more, the last before the name in the canonical order. Before the apex comes the last
/// of them all. The name itself may have any number of labels more than the apex; if it has at
/// most one, the modified successor of the answer is the name, folded.
///
/// # Errors
///
/// Those of [`predecessor`], in the same cases, and [`NoFullLabel`](Refusal::NoFullLabel).
///
/// # Examples
///
/// ```
/// use qorshudan::{modified_predecessor, NAME_MAX};
///
/// let apex = b"\x07example\x03com\x00";
/// let mut space = [0; NAME_MAX];
/// let name = b"\x03bar\x03foo\x07example\x03com\x00";
/// let length = modified_predecessor(apex, 255, name, &mut space)?;
/// assert_eq!(&space[..length], b"\x03foo\x07example\x03com\x00");
/// # Ok::<(), qorshudan::Refusal>(())
/// ```
pub fn modified_predecessor(
    apex: &[u8],
    limit: u64,
    name: &[u8],
    space: &mut [u8],
) -> Result<usize, Refusal> {
    unpack(raw::modified_predecessor(apex, limit, name, space))
}

/// Finds the modified successor of a name: of the names of the zone with exactly one label more
/// than the apex, the first after the name in the canonical order, or the apex when there is
/// none. The name itself may have any number of labels more than the apex; if it has at most one,
/// the modified predecessor of the answer is the name, folded.
///
/// # Errors
///
/// Those of [`modified_predecessor`], in the same cases.
///
/// # Examples
///
/// ```
/// use qorshudan::{modified_successor, Refusal, NAME_MAX};
///
/// let apex = b"\x07example\x03com\x00";
/// let mut space = [0; NAME_MAX];
/// let name = b"\x03bar\x03foo\x07example\x03com\x00";
/// let length = modified_successor(apex, 255, name, &mut space)?;
/// assert_eq!(&space[..length], b"\x04foo\x00\x07example\x03com\x00");
///
/// let length = modified_successor(apex, 255, apex, &mut space)?;
/// assert_eq!(&space[..length], b"\x01\x00\x07example\x03com\x00");
///
/// // Above the apex there must be room for a label of 63 octets.
/// assert_eq!(modified_successor(apex, 76, apex, &mut space), Err(Refusal::NoFullLabel));
/// # Ok::<(), Refusal>(())
/// ```
pub fn modified_successor(
    apex: &[u8],
    limit: u64,
    name: &[u8],
    space: &mut [u8],
) -> Result<usize, Refusal> {
    unpack(raw::modified_successor(apex, limit, name, space))
}
