//! Type bitmaps (RFC 4034 section 4.1.2): which types exist at a name.

use crate::raw;
use crate::refusal::{unpack, Refusal};

/// The longest type bitmap. A space this long has room for any.
pub const BITMAP_MAX: usize = 8704;

/// The most types that a bitmap has.
pub const TYPES_MAX: usize = 65536;

/// Reads a type bitmap: writes the list of its types, which strictly rises, and answers their
/// number. Exactly the bitmaps of sets are read: windows by rising number, 1 to 32 octets each, none
/// empty and none with a trailing zero octet; or no octets at all.
///
/// # Errors
///
/// [`NotASet`](Refusal::NotASet) with the place, however few places there are;
/// [`NoRoom`](Refusal::NoRoom): fewer places than types.
///
/// # Examples
///
/// ```
/// use qorshudan::{read_types, Refusal};
///
/// let mut types = [0; 16];
/// let count = read_types(b"\x00\x06\x40\x01\x00\x00\x00\x03", &mut types)?;
/// assert_eq!(types[..count], [1, 15, 46, 47]); // A, MX, RRSIG and NSEC
///
/// assert_eq!(read_types(b"\x00\x01\x00", &mut types), Err(Refusal::NotASet(2)));
/// # Ok::<(), Refusal>(())
/// ```
pub fn read_types(bitmap: &[u8], types: &mut [u16]) -> Result<usize, Refusal> {
    unpack(raw::read_types(bitmap, types))
}

/// Writes the bitmap of a set of types, a list that strictly rises, and answers its length. Each set
/// has exactly one bitmap, and that of the empty set is empty. Pseudo-types count like others.
///
/// # Errors
///
/// [`NotASet`](Refusal::NotASet) with the first index at which the list does not rise;
/// [`NoRoom`](Refusal::NoRoom).
///
/// # Examples
///
/// ```
/// use qorshudan::{write_types, Refusal};
///
/// let mut space = [0; 64];
/// let length = write_types(&[1, 15, 46, 47], &mut space)?;
/// assert_eq!(&space[..length], b"\x00\x06\x40\x01\x00\x00\x00\x03");
///
/// assert_eq!(write_types(&[1, 15, 15], &mut space), Err(Refusal::NotASet(2)));
/// # Ok::<(), Refusal>(())
/// ```
pub fn write_types(types: &[u16], space: &mut [u8]) -> Result<usize, Refusal> {
    unpack(raw::write_types(types, space))
}

/// Tells whether a bitmap has a type.
///
/// # Errors
///
/// [`NotASet`](Refusal::NotASet) with the place, wherever the type would be.
///
/// # Examples
///
/// ```
/// use qorshudan::has_type;
///
/// let bitmap = b"\x00\x06\x40\x01\x00\x00\x00\x03";
/// assert_eq!(has_type(bitmap, 15), Ok(true));
/// assert_eq!(has_type(bitmap, 28), Ok(false));
/// ```
pub fn has_type(bitmap: &[u8], of: u16) -> Result<bool, Refusal> {
    Ok(unpack(raw::has_type(bitmap, of))? == 1)
}

/// Tells how many types a bitmap has.
///
/// # Errors
///
/// [`NotASet`](Refusal::NotASet) with the place.
///
/// # Examples
///
/// ```
/// use qorshudan::count_types;
///
/// assert_eq!(count_types(b"\x00\x06\x40\x01\x00\x00\x00\x03"), Ok(4));
/// ```
pub fn count_types(bitmap: &[u8]) -> Result<usize, Refusal> {
    unpack(raw::count_types(bitmap))
}

/// Tells the smallest type of a bitmap, if it has any.
///
/// # Errors
///
/// [`NotASet`](Refusal::NotASet) with the place.
///
/// # Examples
///
/// ```
/// use qorshudan::smallest_type;
///
/// assert_eq!(smallest_type(b"\x00\x06\x40\x01\x00\x00\x00\x03"), Ok(Some(1)));
/// assert_eq!(smallest_type(b""), Ok(None));
/// ```
pub fn smallest_type(bitmap: &[u8]) -> Result<Option<u16>, Refusal> {
    unpack(raw::smallest_type(bitmap)).map(a_type)
}

/// Tells the largest type of a bitmap, if it has any.
///
/// # Errors
///
/// [`NotASet`](Refusal::NotASet) with the place.
///
/// # Examples
///
/// ```
/// use qorshudan::largest_type;
///
/// assert_eq!(largest_type(b"\x00\x06\x40\x01\x00\x00\x00\x03"), Ok(Some(47)));
/// assert_eq!(largest_type(b""), Ok(None));
/// ```
pub fn largest_type(bitmap: &[u8]) -> Result<Option<u16>, Refusal> {
    unpack(raw::largest_type(bitmap)).map(a_type)
}

/// A value is 1 plus the type, and 0 for none.
fn a_type(value: usize) -> Option<u16> {
    value.checked_sub(1).map(|of| of as u16)
}
