//! Lists of a zone's owners, names back to back with a table of their starts: checked, and searched for the last owner
//! that is not after a query.

use super::encloser::Read;
use super::neighbour::apex_within;
use super::{put_folded, Refusal, MAX_NAME};

pub const MAX_OWNERS: usize = 16_384;
pub const MAX_OWNER_OCTETS: usize = 4 << 20;

/// Where an owner starts in the names.
pub type Start = u32;

/// The last owner looked at that is not after the query, and how many were looked at.
#[derive(Debug, Clone, Copy, PartialEq, Eq)]
pub struct Found {
    pub owner: Option<usize>,
    pub looks: usize,
}

fn is_too_large(names: &[u8], starts: &[Start]) -> bool {
    starts.len() > MAX_OWNERS || names.len() > MAX_OWNER_OCTETS
}

/// The octets of an owner, which run to the next one's start or to the end.
fn owner<'a>(names: &'a [u8], starts: &[Start], index: usize) -> Option<&'a [u8]> {
    let end = starts.get(index + 1).map_or(names.len(), |&start| start as usize);
    names.get(starts[index] as usize..end)
}

/// Whether no octet changes where they are folded, without a stop at the first that does.
fn is_folded(octets: &[u8]) -> bool {
    !octets.iter().fold(false, |found, octet| found | octet.is_ascii_uppercase())
}

/// Answers the number of owners of a list whose first name is the apex, whose names are folded and of the zone, and rise.
#[inline(never)]
pub fn check_owners(apex: &[u8], limit: usize, names: &[u8], starts: &[Start]) -> Result<usize, Refusal> {
    apex_within(apex, limit)?;
    if is_too_large(names, starts) || starts.first() != Some(&0) {
        return Err(Refusal::NotOwners(0));
    }
    let mut folded = [0; MAX_NAME];
    let folded = &mut folded[..apex.len()];
    put_folded(folded, apex);
    let first = owner(names, starts, 0).filter(|&name| *name == *folded).and_then(Read::new);
    let apex = first.ok_or(Refusal::NotOwners(0))?;
    let mut before = apex;
    for index in 1..starts.len() {
        let name = owner(names, starts, index).and_then(Read::new);
        let right = |name: &Read| {
            name.name.len() <= limit
                && is_folded(name.name)
                && name.start_of_last(apex.count).is_some_and(|start| name.name[start..] == *apex.name)
                && before.labels(apex.count).lt(name.labels(apex.count))
        };
        before = name.filter(right).ok_or(Refusal::NotOwners(index))?;
    }
    Ok(starts.len())
}

/// Halves the list. Owners looked at are names in any letter case.
#[inline(never)]
pub fn find_owner(names: &[u8], starts: &[Start], query: &[u8]) -> Result<Found, Refusal> {
    let mut folded = [0; MAX_NAME];
    let query = Read::folded(query, &mut folded).map_err(Refusal::BadName)?;
    if is_too_large(names, starts) {
        return Err(Refusal::NotOwners(0));
    }
    let (mut low, mut high) = (0, starts.len());
    let mut found = Found { owner: None, looks: 0 };
    let mut space = [0; MAX_NAME];
    while low < high {
        let middle = (low + high) / 2;
        found.looks += 1;
        let owner = owner(names, starts, middle).and_then(|name| Read::folded(name, &mut space).ok());
        if owner.ok_or(Refusal::NotOwners(middle))?.labels(0).le(query.labels(0)) {
            found.owner = Some(middle);
            low = middle + 1;
        } else {
            high = middle;
        }
    }
    Ok(found)
}
