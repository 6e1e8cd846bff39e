//! What denies a name: its next closer name, what a record covers, and the gaps of a whole denial.

use super::alphabet::Full;
use super::encloser::Read;
use super::neighbour::{after_all_under, answer_before, answer_lengthened, answer_raised, before, greatest, place};
use super::{well_formed, Refusal, MAX_LABEL, MAX_NAME};

/// The most octets of a denial: four names.
pub const MAX_DENIAL: usize = 4 * MAX_NAME;

/// The lengths of the names that stand back to back, 0 where there is none.
#[derive(Debug, Clone, Copy, PartialEq, Eq)]
pub struct Gaps {
    pub lengths: [u8; 4],
}

/// Where the next closer name begins in a well formed query, if the encloser is a proper ancestor of it. An end of the
/// query that begins at a length octet is well formed, and so is an encloser that differs from it in letter case alone.
fn closer(encloser: &[u8], query: &[u8]) -> Option<usize> {
    let cut = query.len().checked_sub(encloser.len())?;
    let (mut at, mut next) = (0, 0);
    while next < cut {
        at = next;
        next += 1 + usize::from(query[next]);
    }
    let proper = 0 < cut && next == cut && !encloser.is_empty();
    (proper && query[cut..].eq_ignore_ascii_case(encloser)).then_some(at)
}

/// The number of octets at the end of the query, 0 for none.
#[inline(never)]
pub fn next_closer(encloser: &[u8], query: &[u8]) -> Result<usize, Refusal> {
    let at = well_formed(query).ok().and_then(|()| closer(encloser, query));
    Ok(at.map_or(0, |at| query.len() - at))
}

/// Whether a resolver takes the name for one that the record denies.
#[inline(never)]
pub fn covers(owner: &[u8], next: &[u8], name: &[u8]) -> Result<bool, Refusal> {
    let [mut first, mut second, mut third] = [[0; MAX_NAME]; 3];
    let owner = Read::folded(owner, &mut first);
    let next = Read::folded(next, &mut second);
    let name = Read::folded(name, &mut third);
    let (Ok(owner), Ok(next), Ok(name)) = (owner, next, name) else { return Ok(false) };
    let before = |one: &Read, other: &Read| one.labels(0).lt(other.labels(0));
    Ok(match (before(&owner, &name), before(&name, &next)) {
        (false, false) => false,
        (true, true) => true,
        // One of the two is enough in the last gap.
        _ => !before(&owner, &next),
    })
}

/// An end of a gap.
#[derive(Clone, Copy)]
enum End {
    BeforeCloser,
    AfterCloser,
    BeforeWildcard,
    AfterWildcard,
}

/// What a denial is made of, all checked: the next closer name, which is its label above the encloser.
struct Denied<'a> {
    apex: &'a [u8],
    limit: usize,
    encloser: &'a [u8],
    closer: &'a [u8],
}

impl Denied<'_> {
    /// The most octets of a label above the encloser, at least 1.
    fn longest(&self) -> usize {
        (self.limit - self.encloser.len() - 1).min(MAX_LABEL)
    }

    /// The ends of the gaps, which are one where nothing lies between what they deny.
    fn ends(&self) -> &'static [End] {
        use End::*;
        let label = &self.closer[1..self.closer.len() - self.encloser.len()];
        match label {
            b"*" => &[BeforeWildcard, AfterWildcard],
            b"*\0" => &[BeforeWildcard, AfterCloser],
            b"+" if self.longest() == 1 => &[BeforeWildcard, AfterCloser],
            [b')', padding @ ..] if label.len() == self.longest() && padding.iter().all(|&octet| octet == 255) => {
                &[BeforeCloser, AfterWildcard]
            }
            _ => &[BeforeCloser, AfterCloser, BeforeWildcard, AfterWildcard],
        }
    }

    fn put(&self, end: End, space: &mut [u8]) -> Result<usize, Refusal> {
        match end {
            End::BeforeCloser => before::<Full>(self.limit, self.closer, space),
            End::AfterCloser => after_all_under::<Full>(self.apex, self.limit, self.closer, space),
            End::BeforeWildcard => {
                let size = self.longest();
                let front = greatest(self.limit - 1 - size - self.encloser.len());
                answer_before::<Full>(front, (size, &[], Some(b')')), self.encloser, space)
            }
            End::AfterWildcard if self.longest() == 1 => answer_raised::<Full>(b"*", 0, self.encloser, space),
            End::AfterWildcard => answer_lengthened::<Full>(b"*", self.encloser, space),
        }
    }

    /// Writes the gaps to a space that holds any.
    fn put_gaps(&self, space: &mut [u8]) -> Result<(Gaps, usize), Refusal> {
        let (mut lengths, mut used) = ([0; 4], 0);
        for (length, &end) in lengths.iter_mut().zip(self.ends()) {
            let size = self.put(end, &mut space[used..])?;
            *length = size as u8;
            used += size;
        }
        Ok((Gaps { lengths }, used))
    }
}

/// The ends of the gap of the next closer name and of the wildcard's, or of the one that both are.
#[inline(never)]
pub fn denial(apex: &[u8], limit: usize, encloser: &[u8], query: &[u8], space: &mut [u8]) -> Result<Gaps, Refusal> {
    place::<Full>(apex, limit, query)?;
    let at = closer(encloser, query).filter(|_| encloser.len() >= apex.len()).ok_or(Refusal::NotAnEncloser)?;
    let denied = Denied { apex, limit, encloser, closer: &query[at..] };
    if space.len() >= MAX_DENIAL {
        return denied.put_gaps(space).map(|(gaps, _)| gaps);
    }
    let mut whole = [0; MAX_DENIAL];
    let (gaps, used) = denied.put_gaps(&mut whole)?;
    space.get_mut(..used).ok_or(Refusal::NoRoom)?.copy_from_slice(&whole[..used]);
    Ok(gaps)
}
