//! Lists of a zone's owners, for zones that are signed ahead: checked, and searched for the gap that
//! a query lies in.

use crate::raw;
use crate::refusal::{unpack, Refusal};

/// The most owners of a list.
pub const OWNERS_MAX: usize = 16384;

/// The most octets of the names of a list together: 4 MiB.
pub const OWNER_OCTETS_MAX: usize = 4_194_304;

/// A checked list of a zone's owners: their names back to back, and a table of where each of them
/// starts. An owner runs from its start to the next one, the last to the end of the names.
#[derive(Clone, Copy, Debug, PartialEq, Eq)]
pub struct Owners<'a> {
    names: &'a [u8],
    starts: &'a [u32],
}

/// What a lookup finds.
#[derive(Clone, Copy, Debug, PartialEq, Eq)]
pub struct Found {
    /// The index of the last owner that was found not after the query.
    pub owner: Option<usize>,
    /// The number of owners looked at, 15 at most.
    pub looks: usize,
}

impl<'a> Owners<'a> {
    /// Checks a list: the first owner is the folded apex, all are folded names of the zone of this
    /// apex and limit, and each is after the one before it in the canonical order.
    ///
    /// # Errors
    ///
    /// [`BadLimit`](Refusal::BadLimit), [`BadApex`](Refusal::BadApex),
    /// [`ApexTooLong`](Refusal::ApexTooLong); [`NotAList`](Refusal::NotAList) with the index of the
    /// first owner that breaks this against those before it, 0 for no owner, a first start above 0
    /// or too large a list.
    ///
    /// # Examples
    ///
    /// ```
    /// use qorshudan::{closest_encloser, Owners};
    ///
    /// let mut names = Vec::new();
    /// let mut starts = Vec::new();
    /// for owner in [&b"\x03com\x00"[..], b"\x01a\x03com\x00", b"\x03www\x03com\x00"] {
    ///     starts.push(names.len() as u32);
    ///     names.extend_from_slice(owner);
    /// }
    /// let owners = Owners::check(b"\x03Com\x00", 255, &names, &starts)?;
    /// assert_eq!(owners.len(), 3);
    ///
    /// let query = b"\x01B\x03com\x00";
    /// let found = owners.find(query)?;
    /// assert_eq!((found.owner, found.looks), (Some(1), 2));
    /// let (owner, next) = (owners.owner(1), owners.next(1));
    /// assert_eq!(closest_encloser(query, owner, next), b"\x03com\x00");
    /// # Ok::<(), qorshudan::Refusal>(())
    /// ```
    pub fn check(
        apex: &[u8],
        limit: u64,
        names: &'a [u8],
        starts: &'a [u32],
    ) -> Result<Owners<'a>, Refusal> {
        unpack(raw::check_owners(apex, limit, names, starts))?;
        Ok(Owners { names, starts })
    }

    /// The number of owners, 1 at least.
    #[must_use]
    #[allow(clippy::len_without_is_empty)]
    pub fn len(&self) -> usize {
        self.starts.len()
    }

    /// The owner of an index.
    ///
    /// # Panics
    ///
    /// If there is none.
    #[must_use]
    pub fn owner(&self, index: usize) -> &'a [u8] {
        let end = self.starts.get(index + 1);
        let end = end.map_or(self.names.len(), |&start| start as usize);
        &self.names[self.starts[index] as usize..end]
    }

    /// The owner after that of an index, and after the last one the first, which is the apex.
    #[must_use]
    pub fn next(&self, index: usize) -> &'a [u8] {
        self.owner(if index + 1 < self.len() { index + 1 } else { 0 })
    }

    /// Finds the last owner that is not after a query, letter case aside. Of a query of the zone
    /// there is one: it is the query, or it and the [next](Owners::next) one are the ends of the gap
    /// that the query lies in.
    ///
    /// # Errors
    ///
    /// [`BadName`](Refusal::BadName): the query is not well formed.
    pub fn find(&self, query: &[u8]) -> Result<Found, Refusal> {
        let value = unpack(raw::find_owner(self.names, self.starts, query))?;
        Ok(Found {
            owner: (value / 256).checked_sub(1),
            looks: value % 256,
        })
    }
}
