//! Neighbours against whole zones, or unbroken stretches of them, listed by brute force.

use super::{sort_value, wire};
use crate::*;

/// The 230 octets of folded names.
fn octets() -> Vec<u8> {
    (0..=255u8)
        .filter(|octet| !octet.is_ascii_uppercase())
        .collect()
}

/// Adds all names of at most `limit` octets under `parent` whose next label begins with `stem`
/// and, when the stem is empty, the parent.
fn list(parent: &[u8], limit: usize, stem: &[u8], found: &mut Vec<Vec<u8>>) {
    if stem.is_empty() {
        found.push(parent.to_vec());
    } else {
        let name = [&[stem.len() as u8], stem, parent].concat();
        if name.len() > limit {
            return;
        }
        list(&name, limit, &[], found);
    }
    if stem.len() < 63 && parent.len() + 1 + stem.len() < limit {
        for octet in octets() {
            list(parent, limit, &[stem, &[octet]].concat(), found);
        }
    }
}

pub fn listed(parent: &[u8], limit: usize, stem: &[u8]) -> Vec<Vec<u8>> {
    let mut found = Vec::new();
    list(parent, limit, stem, &mut found);
    found.sort_by_cached_key(|name| sort_value(name));
    found
}

/// Whether `after` comes right after `before` in the zone, by both operations.
fn adjacent(apex: &[u8], limit: usize, before: &[u8], after: &[u8]) {
    let limit = limit as u64;
    assert_eq!(
        successor(apex, limit, before, after.len()).as_deref(),
        Ok(after),
        "successor of {before:?} in {apex:?} up to {limit}"
    );
    assert_eq!(
        predecessor(apex, limit, after, before.len()).as_deref(),
        Ok(before),
        "predecessor of {after:?} in {apex:?} up to {limit}"
    );
}

/// The whole zone: every neighbour, and the first and last member meet.
fn whole_zone(apex: &[u8], limit: usize, members: usize) {
    let zone = listed(apex, limit, &[]);
    assert_eq!(zone.len(), members);
    assert_eq!(zone[0], apex);
    for pair in zone.windows(2) {
        adjacent(apex, limit, &pair[0], &pair[1]);
    }
    adjacent(apex, limit, &zone[members - 1], apex);
}

/// A stretch without gaps: every neighbour inside it. Hands back its first and last member.
fn stretch(apex: &[u8], limit: usize, parent: &[u8], stem: &[u8]) -> (Vec<u8>, Vec<u8>) {
    let part = listed(parent, limit, stem);
    for pair in part.windows(2) {
        adjacent(apex, limit, &pair[0], &pair[1]);
    }
    (part[0].clone(), part[part.len() - 1].clone())
}

#[test]
fn whole_zones() {
    for apex in [".", "\\255.", "@.", "a\\000."] {
        let apex = wire(apex);
        whole_zone(&apex, apex.len() + 2, 1 + 230);
    }
    for apex in [".", "\\255."] {
        let apex = wire(apex);
        whole_zone(&apex, apex.len() + 3, 1 + 230 + 230 * 230);
    }
    // At the end of all names, with an apex of 252 octets.
    let apex = [&[1, 120].repeat(125)[..], &[1, 121, 0]].concat();
    assert_eq!(apex.len(), 253);
    whole_zone(&apex, 255, 1 + 230);
    let apex = [&apex[..250], &[0]].concat();
    assert_eq!(apex.len(), 251);
    whole_zone(&apex, 254, 1 + 230 + 230 * 230);
}

/// With four octets to spare there are labels of three octets and two labels of one. The names
/// whose label next to the apex begins with a given octet follow one another without a gap.
#[test]
fn stretches_of_larger_zones() {
    let apex = wire("a.");
    let limit = apex.len() + 4;
    let mut last_before: Option<Vec<u8>> = None;
    for octet in [63, 64, 91] {
        let (first, last) = stretch(&apex, limit, &apex, &[octet]);
        if let Some(before) = last_before {
            adjacent(&apex, limit, &before, &first);
        }
        last_before = Some(last);
    }
    let (first, _) = stretch(&apex, limit, &apex, &[0]);
    adjacent(&apex, limit, &apex, &first);
    let (_, last) = stretch(&apex, limit, &apex, &[255]);
    adjacent(&apex, limit, &last, &apex);
}

/// Three labels deep: at the end of the stretch the successor climbs.
#[test]
fn stretches_under_deeper_parents() {
    let apex = wire("a.");
    let limit = apex.len() + 7;
    for (parent, after) in [
        ("@.\\255.a.", "@\\000.\\255.a."),
        ("\\255.@.a.", "\\255\\000.@.a."),
        ("\\255.\\255.a.", "\\255\\000.\\255.a."),
    ] {
        let (_, last) = stretch(&apex, limit, &wire(parent), &[]);
        adjacent(&apex, limit, &last, &wire(after));
    }
    let (_, last) = stretch(&apex, limit, &wire("\\255{4}.\\255.a."), &[]);
    assert_eq!(last, wire("\\255{4}.\\255.a."));
    adjacent(&apex, limit, &last, &wire("\\255\\000.a."));
}

/// Labels of 61 to 63 octets where the limit would let one of 64 pass.
#[test]
fn stretches_at_the_longest_label() {
    let apex = wire("example.com.");
    let limit = apex.len() + 65;
    let (first, last) = stretch(&apex, limit, &apex, &[111; 61]);
    assert_eq!(first, [&[61][..], &[111; 61], &apex].concat());
    let next = [&[61][..], &[111; 60], &[112], &apex].concat();
    adjacent(&apex, limit, &last, &next);

    let apex = wire("a{61}.b{63}.c{62}.");
    let limit = apex.len() + 65;
    assert_eq!(limit, 255);
    let (_, last) = stretch(&apex, limit, &apex, &[255; 62]);
    assert_eq!(last, [&[63][..], &[255; 63], &apex].concat());
    adjacent(&apex, limit, &last, &apex);
}

/// The short set under limits too small for the modified operations, straight from the zone: for
/// each member of the zone, the apex too, its neighbours in the sorted short set as a ring.
fn short_set(apex: &[u8], limit: usize, names: &[Vec<u8>]) {
    let zone = zone::Zone::new(Alphabet::FULL, Name::read(apex).unwrap(), limit);
    let labels = |name: &[u8]| Name::read(name).unwrap().labels().len();
    let depth = labels(apex);
    let mut short = listed(apex, limit, &[]);
    short.retain(|name| labels(name) <= depth + 1);
    let values: Vec<Vec<u16>> = short.iter().map(|name| sort_value(name)).collect();
    for name in names {
        let value = sort_value(name);
        let before = values.partition_point(|v| *v < value);
        let after = values.partition_point(|v| *v <= value);
        let name = Name::read(name).unwrap();
        assert_eq!(
            zone.predecessor_in_short_set(1, &name).wire(),
            short[before.checked_sub(1).unwrap_or(short.len() - 1)]
        );
        assert_eq!(
            zone.successor_in_short_set(1, &name).wire(),
            *short.get(after).unwrap_or(&short[0])
        );
    }
}

#[test]
fn short_sets() {
    let apex = wire("a.");
    for limit in 3..=6 {
        short_set(&apex, limit, &listed(&apex, limit, &[]));
    }
    // Names of several labels, seen against the short set of the smaller limit.
    let mut deep = Vec::new();
    for octet in [0, 64, 91, 254, 255] {
        deep.extend(listed(&[1, octet, 1, 97, 0], 7, &[]));
        deep.extend(listed(&[2, 255, octet, 1, 97, 0], 8, &[]));
        deep.extend(listed(&[1, 255, 1, octet, 1, 97, 0], 9, &[]));
    }
    assert!(deep.len() > 2000);
    short_set(&apex, 6, &deep);
}

/// A part of the true short set, where a label of 63 octets fits: all labels that begin with 61 or
/// 62 times the same octet, and below each of them a name.
#[test]
fn modified_neighbours_at_the_longest_label() {
    let apex = wire("example.com.");
    for (octet, times) in [(111, 61), (255, 62)] {
        let mut labels = vec![vec![octet; times]];
        let mut grown = labels.clone();
        for _ in times..63 {
            grown = grown
                .iter()
                .flat_map(|l| octets().into_iter().map(move |o| [&l[..], &[o]].concat()))
                .collect();
            labels.extend_from_slice(&grown);
        }
        let mut part: Vec<Vec<u8>> = labels
            .iter()
            .map(|label| [&[label.len() as u8], &label[..], &apex].concat())
            .collect();
        part.sort_by_cached_key(|name| sort_value(name));
        let below = |name: &[u8]| [&[2, 0, 0], name].concat();
        for pair in part.windows(2) {
            for from in [pair[0].clone(), below(&pair[0])] {
                let next = modified_successor(&apex, 99, &from, 255);
                assert_eq!(next.as_ref(), Ok(&pair[1]));
            }
            for from in [pair[1].clone(), below(&pair[0])] {
                let before = modified_predecessor(&apex, 99, &from, 255);
                assert_eq!(before.as_ref(), Ok(&pair[0]));
            }
        }
        let last = &part[part.len() - 1];
        let after = match octet {
            255 => apex.clone(),
            _ => [&[61][..], &[111; 60], &[112], &apex].concat(),
        };
        assert_eq!(modified_successor(&apex, 99, last, 255), Ok(after));
    }
}
