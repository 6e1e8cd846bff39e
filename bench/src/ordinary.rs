//! The ordinary Rust version of the operations, written from the papers: safe, without heap or crates.
//!
//! The public functions stay out of line, as the library's do, so that the benchmark compares call with call.

#[cfg(test)]
mod against;
mod alphabet;
mod denial;
mod encloser;
mod hash;
mod key;
mod neighbour;
mod owners;
#[cfg(test)]
mod tests;
mod text;
mod types;

use std::cmp::Ordering;

pub use denial::{covers, denial, next_closer, Gaps, MAX_DENIAL};
pub use encloser::{closest_encloser, wildcard};
pub use hash::{hash_after, hash_before, hash_between, read_hash_label, write_hash_label, HASH, HASH_LABEL};
pub use key::{read_key, write_key};
pub use neighbour::{
    modified_predecessor, modified_predecessor_in, modified_successor, modified_successor_in, predecessor,
    predecessor_in, subtree_successor, successor, successor_in,
};
pub use owners::{check_owners, find_owner, Found, Start, MAX_OWNERS, MAX_OWNER_OCTETS};
pub use text::{read_text, write_text};
pub use types::{count_types, has_type, largest_type, read_types, smallest_type, write_types};

pub const MAX_NAME: usize = 255;
pub const MAX_LABEL: usize = 63;
pub const MAX_LABELS: usize = 127;
pub const MAX_KEY: usize = 504;
pub const MAX_TEXT: usize = 1004;
pub const MAX_BITMAP: usize = 8704;

/// Why octets are no name, with the place where that shows.
#[derive(Debug, Clone, Copy, PartialEq, Eq)]
pub enum Reason {
    CutShort(usize),
    LeftOver(usize),
    BadLength(usize),
    TooLong(usize),
}

#[derive(Debug, Clone, Copy, PartialEq, Eq)]
pub enum Refusal {
    BadLimit,
    BadApex(Reason),
    ApexTooLong,
    BadName(Reason),
    NameTooLong,
    NotUnderApex,
    NoRoomAboveApex,
    NoRoom,
    NotAKey(usize),
    BadSecondName(Reason),
    NotInAlphabet,
    NotAText(usize),
    NotASet(usize),
    NotOwners(usize),
    NotAHash,
    NotAnEncloser,
}

impl Refusal {
    /// The papers' number.
    pub fn number(self) -> u8 {
        match self {
            Refusal::BadLimit => 1,
            Refusal::BadApex(_) => 2,
            Refusal::ApexTooLong => 3,
            Refusal::BadName(_) => 4,
            Refusal::NameTooLong => 5,
            Refusal::NotUnderApex => 6,
            Refusal::NoRoomAboveApex => 7,
            Refusal::NoRoom => 9,
            Refusal::NotAKey(_) => 10,
            Refusal::BadSecondName(_) => 11,
            Refusal::NotInAlphabet => 12,
            Refusal::NotAText(_) => 14,
            Refusal::NotASet(_) => 15,
            Refusal::NotOwners(_) => 16,
            Refusal::NotAHash => 17,
            Refusal::NotAnEncloser => 18,
        }
    }
}

/// Checks a name from the left and shows where each of its labels begins, with its length octet, and ends.
fn walk(name: &[u8], mut label: impl FnMut(usize, usize)) -> Result<(), Reason> {
    let mut at = 0;
    loop {
        let Some(&size) = name.get(at) else { return Err(Reason::CutShort(name.len())) };
        let size = usize::from(size);
        if size == 0 {
            return if at + 1 == name.len() { Ok(()) } else { Err(Reason::LeftOver(at + 1)) };
        }
        if size > MAX_LABEL {
            return Err(Reason::BadLength(at));
        }
        let next = at + 1 + size;
        if next >= MAX_NAME {
            return Err(Reason::TooLong(at));
        }
        if next > name.len() {
            return Err(Reason::CutShort(name.len()));
        }
        label(at, next);
        at = next;
    }
}

fn well_formed(name: &[u8]) -> Result<(), Reason> {
    walk(name, |_, _| {})
}

fn put_folded(out: &mut [u8], octets: &[u8]) {
    for (out, octet) in out.iter_mut().zip(octets) {
        *out = octet.to_ascii_lowercase();
    }
}

/// Answers the length of a well formed name.
#[inline(never)]
pub fn check(name: &[u8]) -> Result<usize, Refusal> {
    well_formed(name).map_err(Refusal::BadName)?;
    Ok(name.len())
}

#[inline(never)]
pub fn fold(name: &[u8], space: &mut [u8]) -> Result<usize, Refusal> {
    well_formed(name).map_err(Refusal::BadName)?;
    answer_folded(name, space)
}

fn answer_folded(name: &[u8], space: &mut [u8]) -> Result<usize, Refusal> {
    put_folded(space.get_mut(..name.len()).ok_or(Refusal::NoRoom)?, name);
    Ok(name.len())
}

/// The places of a name's length octets, and their number.
fn starts(name: &[u8]) -> Result<([u8; MAX_LABELS], usize), Reason> {
    let (mut starts, mut count) = ([0; MAX_LABELS], 0);
    walk(name, |at, _| {
        starts[count] = at as u8;
        count += 1;
    })?;
    Ok((starts, count))
}

/// The places of the length octets, from the left; answers their number.
#[inline(never)]
pub fn label_places(name: &[u8], places: &mut [u8]) -> Result<usize, Refusal> {
    let (starts, count) = starts(name).map_err(Refusal::BadName)?;
    places.get_mut(..count).ok_or(Refusal::NoRoom)?.copy_from_slice(&starts[..count]);
    Ok(count)
}

fn label(name: &[u8], start: u8) -> &[u8] {
    let start = usize::from(start);
    &name[start + 1..][..usize::from(name[start])]
}

#[inline(never)]
pub fn compare(first: &[u8], second: &[u8]) -> Result<i8, Refusal> {
    let (a, m) = starts(first).map_err(Refusal::BadName)?;
    let (b, n) = starts(second).map_err(Refusal::BadSecondName)?;
    for (shared, (&x, &y)) in a[..m].iter().rev().zip(b[..n].iter().rev()).enumerate() {
        let x = label(first, x).iter().map(u8::to_ascii_lowercase);
        let y = label(second, y).iter().map(u8::to_ascii_lowercase);
        match x.cmp(y) {
            Ordering::Less => return Ok(-(shared as i8) - 1),
            Ordering::Greater => return Ok(shared as i8 + 1),
            Ordering::Equal => {}
        }
    }
    Ok(match m.cmp(&n) {
        Ordering::Less => -(m as i8) - 1,
        Ordering::Greater => n as i8 + 1,
        Ordering::Equal => 0,
    })
}
