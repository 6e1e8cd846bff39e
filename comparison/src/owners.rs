//! Generators of lists of owners: of a zone, in order and laid out as they should be, or with one
//! thing wrong; and of queries in and around one.

use crate::names::{assemble, damaged, kind, label, well_formed};
use common::names::change_case;
use common::Random;
use reference::Name;

/// A list with the zone that it is checked for.
pub struct List {
    pub apex: Vec<u8>,
    pub limit: u64,
    pub names: Vec<u8>,
    pub starts: Vec<u32>,
}

/// What was done to a list.
pub const CLASSES: [&str; 15] = [
    "in order",
    "no owner",
    "an owner damaged",
    "two owners exchanged",
    "an owner twice",
    "an owner with a capital letter",
    "an owner outside the zone",
    "an owner beyond the limit",
    "the apex left out",
    "a first start above 0",
    "a start that falls",
    "a start that stands still",
    "a start past the end",
    "octets behind the last owner",
    "any octets and starts",
];

impl List {
    /// The octets of the starts, in the machine's order.
    pub fn start_octets(&self) -> Vec<u8> {
        self.starts
            .iter()
            .flat_map(|start| start.to_ne_bytes())
            .collect()
    }

    fn laid_out(apex: Vec<u8>, limit: u64, owners: &[Vec<u8>]) -> List {
        let mut names = Vec::new();
        let mut starts = Vec::new();
        for owner in owners {
            starts.push(names.len() as u32);
            names.extend_from_slice(owner);
        }
        List {
            apex,
            limit,
            names,
            starts,
        }
    }
}

/// A name above an apex with up to three labels more, folded.
fn above(random: &mut Random, apex: &[u8]) -> Vec<u8> {
    let mut labels = Vec::new();
    for _ in 0..random.below(4) {
        let octets = kind(random);
        let length = if random.one_in(20) {
            random.between(1, 63)
        } else {
            random.between(1, 4)
        };
        labels.push(label(random, length, octets));
    }
    let mut name = assemble(&labels);
    name.pop();
    name.extend_from_slice(apex);
    name.make_ascii_lowercase();
    name
}

/// So many different owners at most, in the canonical order, the apex first.
fn owners(random: &mut Random, apex: &[u8], most: usize) -> Vec<Vec<u8>> {
    let mut names: Vec<Name> = (1..most)
        .filter_map(|_| reference::check(&above(random, apex)).ok())
        .collect();
    names.push(reference::check(apex).expect("the apex is a name").folded());
    names.sort_by(Name::canonical_order);
    names.dedup();
    names.iter().map(Name::wire).collect()
}

/// A zone's list of at most so many owners, and what was done to it.
pub fn list(random: &mut Random, most: usize) -> (&'static str, List) {
    let labels: Vec<Vec<u8>> = (0..random.below(3))
        .map(|_| {
            let octets = kind(random);
            let length = random.between(1, 8);
            label(random, length, octets)
        })
        .collect();
    let apex = assemble(&labels);
    let mut folded = apex.clone();
    folded.make_ascii_lowercase();
    let mut owners = owners(random, &folded, most);
    let limit = match random.below(4) {
        0 => owners.iter().map(Vec::len).max().unwrap_or(255) as u64,
        1 => random.between(apex.len(), 255) as u64,
        _ => 255,
    };
    let class = random.pick(&CLASSES);
    let at = random.below(owners.len());
    let other = random.below(owners.len());
    match class {
        "no owner" => owners.clear(),
        "an owner damaged" => owners[at] = damaged(random, owners[at].clone()),
        "two owners exchanged" => owners.swap(at, other),
        "an owner twice" => owners.insert(at, owners[at].clone()),
        "an owner with a capital letter" => owners[at] = owners[at].to_ascii_uppercase(),
        "an owner outside the zone" => owners[at] = above(random, b"\x04else\x00"),
        "an owner beyond the limit" => {
            let mut long = vec![63; 64];
            long.extend_from_slice(&folded);
            owners.push(long);
        }
        "the apex left out" => {
            owners.remove(0);
        }
        _ => {}
    }
    let mut list = List::laid_out(apex, limit, &owners);
    let count = list.starts.len();
    match class {
        "a first start above 0" => list.starts[0] = 1,
        "a start that falls" => list.starts[at] = list.starts[at].saturating_sub(1),
        "a start that stands still" => list.starts[at] = list.starts[other],
        "a start past the end" => list.starts[at] = list.names.len() as u32 + 1,
        "octets behind the last owner" => list.names.push(0),
        "any octets and starts" => {
            let length = random.below(40);
            list.names = random.octets(length);
            list.starts = (0..count)
                .map(|_| random.below(length + 2) as u32)
                .collect();
        }
        _ => {}
    }
    (class, list)
}

/// Octets that are no name, mostly: a damaged one, or one that is too long.
pub fn no_name(random: &mut Random) -> Vec<u8> {
    if random.one_in(2) {
        let name = well_formed(random);
        return damaged(random, name);
    }
    let octets = kind(random);
    let labels: Vec<Vec<u8>> = (0..5).map(|_| label(random, 60, octets)).collect();
    assemble(&labels)
}

/// A query: one of the list's own octets, in any letter case, a name under one of them, one beside the
/// zone, or no name.
pub fn query(random: &mut Random, list: &List) -> (&'static str, Vec<u8>) {
    let any = |random: &mut Random| -> Vec<u8> {
        let Some(last) = list.starts.len().checked_sub(1) else {
            return list.apex.clone();
        };
        let index = random.between(0, last);
        let end = list.starts.get(index + 1);
        let end = end.map_or(list.names.len(), |&start| start as usize);
        let octets = list.names.get(list.starts[index] as usize..end);
        octets.map_or_else(|| list.apex.clone(), <[u8]>::to_vec)
    };
    match random.below(5) {
        0 => {
            let owner = any(random);
            ("an owner", change_case(random, &owner, 2))
        }
        1 => {
            let owner = any(random);
            ("under an owner", above(random, &owner))
        }
        2 => ("of the zone", above(random, &list.apex)),
        3 => ("beside the zone", above(random, b"\x04else\x00")),
        _ => {
            let owner = any(random);
            let is_damaged = random.one_in(2) && !owner.is_empty();
            let name = if is_damaged {
                damaged(random, owner)
            } else {
                no_name(random)
            };
            ("damaged", name)
        }
    }
}

pub const QUERIES: [&str; 5] = [
    "an owner",
    "under an owner",
    "of the zone",
    "beside the zone",
    "damaged",
];
