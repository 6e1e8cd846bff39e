//! A whole denial of a query: the gaps that say that neither the next closer name exists nor the
//! wildcard, nor anything under them.
//!
//! What is denied is at most two stretches of the zone, each a name and the members under it, which
//! follow one another. Two stretches with no member between them are one. The gap of a stretch goes
//! from the member before it to the member after it.

use crate::encloser::{next_closer, wildcard, Gap};
use crate::name::Name;
use crate::zone::Zone;

/// The members from the first to the last, of which none is the apex.
#[derive(Clone, Debug, PartialEq, Eq)]
struct Stretch {
    first: Name,
    last: Name,
}

impl Stretch {
    /// A member and all members under it.
    fn at_or_under(zone: &Zone, member: Name) -> Stretch {
        Stretch {
            last: zone.last_at_or_under(member.clone()),
            first: member,
        }
    }

    /// The two as one, where the other begins right after this one.
    fn joined(&self, zone: &Zone, other: &Stretch) -> Option<Stretch> {
        (zone.successor(&self.last) == other.first).then(|| Stretch {
            first: self.first.clone(),
            last: other.last.clone(),
        })
    }

    fn gap(&self, zone: &Zone) -> Gap {
        Gap::new(zone.predecessor(&self.first), zone.successor(&self.last))
    }
}

/// The gap of the next closer name and, where it is another one, that of the wildcard. None where
/// the encloser is no proper ancestor of the query or not at or under the apex. The query is a
/// member, and the encloser is folded.
pub fn gaps(zone: &Zone, encloser: &Name, query: &Name) -> Option<Vec<Gap>> {
    if !encloser.is_at_or_under(zone.apex()) {
        return None;
    }
    let closer = Stretch::at_or_under(zone, next_closer(encloser, query)?);
    // In the full alphabet the wildcard is always a member: no label is shorter than its own, and
    // the next closer name is within the limit.
    let wildcard = wildcard(encloser)
        .filter(|name| zone.has(name))
        .map(|name| Stretch::at_or_under(zone, name))
        .filter(|wildcard| *wildcard != closer);
    let stretches = match wildcard {
        None => vec![closer],
        Some(wildcard) => {
            let both = closer.joined(zone, &wildcard);
            match both.or_else(|| wildcard.joined(zone, &closer)) {
                Some(both) => vec![both],
                None => vec![closer, wildcard],
            }
        }
    };
    Some(stretches.iter().map(|stretch| stretch.gap(zone)).collect())
}
