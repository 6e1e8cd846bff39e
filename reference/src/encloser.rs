//! The gap between an owner and the next name of a zone, the closest encloser of a query in it, and
//! the wildcard and the next closer name above an encloser.
//!
//! The encloser and the next closer name are looked for by their definitions: each ancestor of the
//! query is tried, the longest first. Only their lengths are handed back, which are the same in every
//! spelling of them.

use crate::name::{wire_length, Label, Name, LONGEST_NAME};

/// An end of one of the two names of a gap: how many of that name's last octets it has.
#[derive(Clone, Copy, Debug, PartialEq, Eq)]
pub enum Piece {
    OfOwner(usize),
    OfNext(usize),
}

impl Piece {
    /// The empty part of the owner.
    pub const EMPTY: Piece = Piece::OfOwner(0);

    /// The octets of the piece, in the spelling of the name that it is of.
    pub fn octets<'a>(self, owner: &'a [u8], next: &'a [u8]) -> &'a [u8] {
        let (name, length) = match self {
            Piece::OfOwner(length) => (owner, length),
            Piece::OfNext(length) => (next, length),
        };
        &name[name.len() - length..]
    }
}

/// An owner and the next name, both folded.
#[derive(Clone, Debug)]
pub struct Gap {
    owner: Name,
    next: Name,
}

impl Gap {
    pub fn new(owner: Name, next: Name) -> Gap {
        Gap { owner, next }
    }

    /// The owner and the next name.
    pub fn names(&self) -> [&Name; 2] {
        [&self.owner, &self.next]
    }

    /// Whether the folded query lies in the gap: after the owner, and before the next name. In the
    /// last gap, where the next name is not after the owner, nothing has to be before it; instead
    /// both the owner and the query lie at or under it.
    pub fn has(&self, query: &Name) -> bool {
        let before = |first: &Name, second: &Name| first.canonical_order(second).is_lt();
        let ends = match before(&self.owner, &self.next) {
            true => before(query, &self.next),
            false => [&self.owner, query]
                .iter()
                .all(|name| name.is_at_or_under(&self.next)),
        };
        before(&self.owner, query) && ends
    }

    /// Whether the folded name lies strictly between the two on the ring, as a resolver reads a
    /// record with these names: after the owner and before the next name or, where the next name is
    /// not after the owner, after the owner or before the next name.
    pub fn covers(&self, name: &Name) -> bool {
        let before = |first: &Name, second: &Name| first.canonical_order(second).is_lt();
        match before(&self.owner, &self.next) {
            true => before(&self.owner, name) && before(name, &self.next),
            false => before(&self.owner, name) || before(name, &self.next),
        }
    }

    /// The longest ancestor that the folded query shares with the owner or the next name, as a
    /// piece of the owner if both have it; each name is its own ancestor. Empty outside of the gap.
    pub fn closest_encloser(&self, query: &Name) -> Piece {
        if !self.has(query) {
            return Piece::EMPTY;
        }
        let mut ancestors = ancestors(query);
        ancestors
            .find_map(|ancestor| {
                if self.owner.is_at_or_under(&ancestor) {
                    Some(Piece::OfOwner(ancestor.length()))
                } else if self.next.is_at_or_under(&ancestor) {
                    Some(Piece::OfNext(ancestor.length()))
                } else {
                    None
                }
            })
            .expect("the root is an ancestor of every name")
    }
}

/// The name, its parent and so on up to the root.
fn ancestors(name: &Name) -> impl Iterator<Item = Name> + '_ {
    let numbers = (0..=name.labels().len()).rev();
    numbers.map(|number| Name::from_right(name.labels()[..number].to_vec()))
}

/// The ancestor of the query, or the query itself, that has one label more than the encloser. None
/// where the encloser is no proper ancestor of the query. Both are folded.
pub fn next_closer(encloser: &Name, query: &Name) -> Option<Name> {
    let wanted = encloser.labels().len() + 1;
    let mut ancestors = ancestors(query);
    ancestors.find(|name| name.labels().len() == wanted && name.is_at_or_under(encloser))
}

/// The name with the label `*` above this encloser, unless it is longer than a name may be.
pub fn wildcard(encloser: &Name) -> Option<Name> {
    let labels: Vec<Label> = [encloser.labels(), &[b"*".to_vec()]].concat();
    (wire_length(&labels) <= LONGEST_NAME).then(|| Name::from_right(labels))
}
