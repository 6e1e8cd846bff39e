//! The closest encloser of a query in its gap, and the wildcard above an encloser.

use super::{label, put_folded, starts, well_formed, Reason, Refusal, MAX_LABELS, MAX_NAME};
use std::cmp::Ordering;

/// A well formed name and the places of its length octets.
#[derive(Clone, Copy)]
pub struct Read<'a> {
    pub name: &'a [u8],
    pub starts: [u8; MAX_LABELS],
    pub count: usize,
}

impl<'a> Read<'a> {
    pub fn new(name: &'a [u8]) -> Option<Read<'a>> {
        let (starts, count) = starts(name).ok()?;
        Some(Read { name, starts, count })
    }

    /// The name folded, in the space.
    pub fn folded(name: &[u8], space: &'a mut [u8; MAX_NAME]) -> Result<Read<'a>, Reason> {
        let (starts, count) = starts(name)?;
        put_folded(space, name);
        Ok(Read { name: &space[..name.len()], starts, count })
    }

    /// Where the last `count` labels begin.
    pub fn start_of_last(&self, count: usize) -> Option<usize> {
        match count {
            0 => Some(self.name.len() - 1),
            _ => self.count.checked_sub(count).map(|index| usize::from(self.starts[index])),
        }
    }

    /// The labels but the last `shared`, from the right. In the labels of folded names the plain order is theirs.
    pub fn labels(&self, shared: usize) -> impl Iterator<Item = &[u8]> {
        self.starts[..self.count - shared].iter().rev().map(|&start| label(self.name, start))
    }

    /// How this name sorts to another, and how many octets of the other are an ancestor of both.
    fn beside(&self, other: &Read) -> (Ordering, usize) {
        let mut shared = 1;
        for (&x, &y) in self.starts[..self.count].iter().rev().zip(other.starts[..other.count].iter().rev()) {
            let (x, z) = (label(self.name, x), label(other.name, y));
            let order = x.iter().map(u8::to_ascii_lowercase).cmp(z.iter().map(u8::to_ascii_lowercase));
            if order.is_ne() {
                return (order, shared);
            }
            shared = other.name.len() - usize::from(y);
        }
        (self.count.cmp(&other.count), shared)
    }
}

/// The number of octets at the end of the owner, or 256 more and at the end of the next name; 0 outside of the gap.
#[inline(never)]
pub fn closest_encloser(query: &[u8], owner: &[u8], next: &[u8]) -> Result<usize, Refusal> {
    let (Some(query), Some(owner), Some(next)) = (Read::new(query), Read::new(owner), Read::new(next)) else {
        return Ok(0);
    };
    let (after, of_owner) = query.beside(&owner);
    let (before, of_next) = query.beside(&next);
    let ends = match before {
        Ordering::Less => true,
        Ordering::Equal => false,
        // the last gap: both lie at or under the next name
        Ordering::Greater => of_next == next.name.len() && owner.beside(&next).1 == next.name.len(),
    };
    Ok(match after.is_gt() && ends {
        false => 0,
        true if of_next > of_owner => 256 + of_next,
        true => of_owner,
    })
}

#[inline(never)]
pub fn wildcard(encloser: &[u8], space: &mut [u8]) -> Result<usize, Refusal> {
    well_formed(encloser).map_err(Refusal::BadName)?;
    let length = encloser.len() + 2;
    if length > MAX_NAME {
        return Err(Refusal::NameTooLong);
    }
    let space = space.get_mut(..length).ok_or(Refusal::NoRoom)?;
    space[..2].copy_from_slice(&[1, b'*']);
    space[2..].copy_from_slice(encloser);
    Ok(length)
}
