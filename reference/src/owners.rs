//! Lists of a zone's owners: their names back to back and a table of their starts, checked, and
//! searched for the owner that a query comes to lie at or behind.
//!
//! The check asks of each owner alone whether it is what it should be against the one before it.
//! The search says how many owners it looked at, so there is but one way to it: the paper's.

use crate::name::Name;
use crate::zone::Zone;
use std::ops::Range;

/// The most owners of a list.
pub const MOST_OWNERS: usize = 16_384;
/// The most octets of their names together: 4 MiB.
pub const MOST_OCTETS: usize = 4 << 20;

/// The place in the names where an owner starts.
pub type Start = u32;

/// What a search found: the index of the last owner that it saw not after the query, if any, and
/// how many owners it looked at.
#[derive(Clone, Copy, Debug, PartialEq, Eq)]
pub struct Found {
    pub owner: Option<usize>,
    pub looks: usize,
}

/// A list of owners, of any size and whatever its octets are.
#[derive(Clone, Copy, Debug)]
pub struct List<'a> {
    names: &'a [u8],
    starts: &'a [Start],
}

impl<'a> List<'a> {
    pub fn new(names: &'a [u8], starts: &'a [Start]) -> List<'a> {
        List { names, starts }
    }

    /// The number of owners, where the list is one of this zone: the first is the apex, all are
    /// members and they strictly rise. Otherwise the index of the first owner that breaks this
    /// against those before it, 0 where there is none, where the first does not start at 0, and
    /// where the list is too large.
    pub fn check(&self, zone: &Zone) -> Result<usize, usize> {
        if self.is_too_large() || self.starts.first() != Some(&0) {
            return Err(0);
        }
        let owners: Vec<Option<Name>> = self.indexes().map(|index| self.owner(index)).collect();
        let is_right = |index: usize| match (index.checked_sub(1), &owners[index]) {
            (_, None) => false,
            (None, Some(first)) => first == zone.apex(),
            (Some(before), Some(owner)) => {
                let before = owners[before].as_ref();
                let rises = before.map(|before| before.canonical_order(owner).is_lt());
                zone.has(owner) && rises == Some(true)
            }
        };
        match self.indexes().find(|&index| !is_right(index)) {
            None => Ok(owners.len()),
            Some(index) => Err(index),
        }
    }

    /// What is found of the folded query by halving all indexes. Otherwise the index of an owner
    /// looked at that is not exactly one whole name, or 0 for a list that is too large.
    pub fn find(&self, query: &Name) -> Result<Found, usize> {
        if self.is_too_large() {
            return Err(0);
        }
        let nothing = Found {
            owner: None,
            looks: 0,
        };
        self.halve(self.indexes(), query, nothing)
    }

    /// Goes on with these indexes after what was found: looks at the one in the middle, and then
    /// goes on above it if that owner is not after the query, else below it.
    fn halve(&self, indexes: Range<usize>, query: &Name, found: Found) -> Result<Found, usize> {
        if indexes.is_empty() {
            return Ok(found);
        }
        let middle = (indexes.start + indexes.end) / 2;
        let owner = self.owner(middle).ok_or(middle)?.folded();
        let looks = found.looks + 1;
        if owner.canonical_order(query).is_le() {
            let owner = Some(middle);
            self.halve(middle + 1..indexes.end, query, Found { owner, looks })
        } else {
            self.halve(indexes.start..middle, query, Found { looks, ..found })
        }
    }

    fn is_too_large(&self) -> bool {
        self.starts.len() > MOST_OWNERS || self.names.len() > MOST_OCTETS
    }

    fn indexes(&self) -> Range<usize> {
        0..self.starts.len()
    }

    /// The owner of this index, in its own spelling, if its octets are exactly one whole name.
    /// They run from its start to the next one, and those of the last owner to the end.
    fn owner(&self, index: usize) -> Option<Name> {
        let start = |index: usize| self.starts.get(index).map(|&start| start as usize);
        let end = start(index + 1).unwrap_or(self.names.len());
        let octets = self.names.get(start(index)?..end)?;
        Name::read(octets).ok()
    }
}
