//! Where the labels of a name begin, and the labels themselves.

use core::iter::FusedIterator;

use crate::raw;
use crate::refusal::{unpack, Refusal};

/// The most labels of a name. This many places have room for those of any name.
pub const LABELS_MAX: usize = 127;

/// Tells where the labels of a name begin: writes the places of their length octets, from the left,
/// and answers how many there are, which is the number of labels. The root has none. At each place
/// stands the length octet of a label, and its octets follow; [`labels`] hands these out.
///
/// # Errors
///
/// [`BadName`](Refusal::BadName), [`NoRoom`](Refusal::NoRoom).
///
/// # Examples
///
/// ```
/// use qorshudan::{label_places, Refusal, LABELS_MAX};
///
/// let name = b"\x03Foo\x07example\x03com\x00";
/// let mut places = [0; LABELS_MAX];
/// let count = label_places(name, &mut places)?;
/// assert_eq!(places[..count], [0, 4, 12]);
///
/// assert_eq!(label_places(name, &mut [0; 2]), Err(Refusal::NoRoom));
/// assert_eq!(label_places(b"\x00", &mut []), Ok(0));
/// # Ok::<(), Refusal>(())
/// ```
pub fn label_places(name: &[u8], places: &mut [u8]) -> Result<usize, Refusal> {
    unpack(raw::label_places(name, places))
}

/// The labels of a name, from the left, as they are spelled; from the right with
/// [`rev`](Iterator::rev).
///
/// # Errors
///
/// [`BadName`](Refusal::BadName).
///
/// # Examples
///
/// ```
/// use qorshudan::labels;
///
/// let mut labels = labels(b"\x03Foo\x07example\x03com\x00")?;
/// assert_eq!(labels.len(), 3);
/// assert_eq!(labels.next(), Some(&b"Foo"[..]));
/// assert_eq!(labels.next_back(), Some(&b"com"[..]));
/// assert_eq!(labels.next(), Some(&b"example"[..]));
/// assert_eq!(labels.next(), None);
/// # Ok::<(), qorshudan::Refusal>(())
/// ```
pub fn labels(name: &[u8]) -> Result<Labels<'_>, Refusal> {
    let mut places = [0; LABELS_MAX];
    let end = label_places(name, &mut places)?;
    Ok(Labels {
        name,
        places,
        start: 0,
        end,
    })
}

/// The labels of a name, each a part of its octets: what [`labels`] hands back.
#[derive(Clone, Debug)]
pub struct Labels<'a> {
    name: &'a [u8],
    places: [u8; LABELS_MAX],
    start: usize,
    end: usize,
}

impl<'a> Labels<'a> {
    /// The label whose length octet stands at the place of this index.
    fn at(&self, index: usize) -> &'a [u8] {
        let place = usize::from(self.places[index]);
        let length = usize::from(self.name[place]);
        &self.name[place + 1..][..length]
    }
}

impl<'a> Iterator for Labels<'a> {
    type Item = &'a [u8];

    fn next(&mut self) -> Option<&'a [u8]> {
        if self.start == self.end {
            return None;
        }
        self.start += 1;
        Some(self.at(self.start - 1))
    }

    fn size_hint(&self) -> (usize, Option<usize>) {
        let left = self.end - self.start;
        (left, Some(left))
    }
}

impl DoubleEndedIterator for Labels<'_> {
    fn next_back(&mut self) -> Option<Self::Item> {
        if self.start == self.end {
            return None;
        }
        self.end -= 1;
        Some(self.at(self.end))
    }
}

impl ExactSizeIterator for Labels<'_> {}

impl FusedIterator for Labels<'_> {}
