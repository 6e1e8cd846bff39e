//! Zones that keep to an alphabet: whole ones listed by brute force, in the papers' alphabets and
//! in smaller ones; which names are refused; and cases worked out by hand.

use super::{alphabets, sort_value, under, wire, THIRTY_SEVEN};
use crate::*;

const SMALL: Alphabet = Alphabet::LETTERS_DIGITS_HYPHENS;

/// Alphabets of one to three octets, in which zones of larger limits can be listed.
pub fn small_alphabets() -> [(Alphabet, Vec<u8>); 7] {
    [
        (Alphabet::of(|octet| octet == 0), vec![0]),
        (Alphabet::of(|octet| octet == 97), vec![97]),
        (Alphabet::of(|octet| octet == 255), vec![255]),
        (
            Alphabet::of(|octet| octet == 0 || octet == 255),
            vec![0, 255],
        ),
        (
            Alphabet::of(|octet| octet == 64 || octet == 91),
            vec![64, 91],
        ),
        (
            Alphabet::of(|octet| octet == 45 || octet == 122),
            vec![45, 122],
        ),
        (
            Alphabet::of(|octet| (97..100).contains(&octet)),
            vec![97, 98, 99],
        ),
    ]
}

/// All names of at most `limit` octets that have at most `depth` labels of these octets above the
/// folded apex, in canonical order.
pub fn members(octets: &[u8], apex: &[u8], limit: usize, depth: usize) -> Vec<Vec<u8>> {
    let mut found = vec![apex.to_vec()];
    let mut newest = found.clone();
    for _ in 0..depth {
        newest = newest
            .iter()
            .flat_map(|parent| children(octets, parent, limit))
            .collect();
        found.extend_from_slice(&newest);
    }
    found.sort_by_cached_key(|name| sort_value(name));
    found
}

fn children(octets: &[u8], parent: &[u8], limit: usize) -> Vec<Vec<u8>> {
    let longest = limit.saturating_sub(parent.len() + 1).min(63);
    let mut found = Vec::new();
    let mut labels: Vec<Vec<u8>> = vec![vec![]];
    for length in 1..=longest {
        labels = labels
            .iter()
            .flat_map(|label| {
                octets
                    .iter()
                    .map(move |&octet| [label, &[octet][..]].concat())
            })
            .collect();
        let names = labels.iter();
        found.extend(names.map(|label| [&[length as u8], &label[..], parent].concat()));
    }
    found
}

/// Every neighbour in the whole zone of the folded apex, asked with the apex as given.
fn whole_zone(alphabet: Alphabet, octets: &[u8], apex: &[u8], limit: usize) -> usize {
    let zone = members(octets, &apex.to_ascii_lowercase(), limit, 127);
    for (index, name) in zone.iter().enumerate() {
        let next = &zone[(index + 1) % zone.len()];
        assert_eq!(
            successor_in(alphabet, apex, limit as u64, name, next.len()).as_ref(),
            Ok(next),
            "successor of {name:?} in {apex:?} up to {limit}"
        );
        assert_eq!(
            predecessor_in(alphabet, apex, limit as u64, next, name.len()).as_ref(),
            Ok(name),
            "predecessor of {next:?} in {apex:?} up to {limit}"
        );
    }
    zone.len()
}

#[test]
fn octets_of_the_alphabets() {
    for (alphabet, octets) in alphabets() {
        assert!(octets.windows(2).all(|pair| pair[0] < pair[1]));
        for octet in 0..=255u8 {
            assert_eq!(alphabet.has(octet), octets.contains(&octet));
            let mut after = octets.iter().copied().filter(|&o| o > octet);
            assert_eq!(alphabet.next_octet(octet), after.next());
            let before = octets.iter().copied().filter(|&o| o < octet);
            assert_eq!(alphabet.previous_octet(octet), before.max());
        }
        assert_eq!(alphabet.least(), octets[0]);
        assert_eq!(alphabet.greatest(), octets[octets.len() - 1]);
    }
    let [(_, full), (_, small)] = alphabets();
    assert_eq!((full.len(), small.len()), (230, 37));
}

#[test]
fn whole_zones_of_letters_digits_and_hyphens() {
    for apex in [".", "Z@.", "\\255.\\000.", "a{63}."].map(wire) {
        let spares = if apex == [0] { 2..=4 } else { 2..=3 };
        for spare in spares {
            let found = whole_zone(SMALL, THIRTY_SEVEN, &apex, apex.len() + spare);
            assert_eq!(found, [38, 1 + 37 + 37 * 37, 53_429][spare - 2]);
        }
    }
    // At the end of all names.
    let apex = [&[1, 120].repeat(125)[..], &[0]].concat();
    assert_eq!(
        whole_zone(SMALL, THIRTY_SEVEN, &apex, 254),
        1 + 37 + 37 * 37
    );
}

/// In alphabets of a few octets zones reach several labels, in every mixture of their lengths.
#[test]
fn whole_zones_of_few_octets() {
    let mut found = 0;
    for (alphabet, octets) in small_alphabets() {
        for apex in [".", "\\255.A."].map(wire) {
            let spare = [16, 9, 7][octets.len() - 1];
            for limit in apex.len() + 2..=apex.len() + spare {
                found += whole_zone(alphabet, &octets, &apex, limit);
            }
        }
    }
    assert!(found > 50_000, "{found}");
}

/// With a single octet, the labels under a parent are as many as they have lengths, up to 63.
#[test]
fn labels_of_a_single_octet() {
    for (alphabet, octets) in &small_alphabets()[..3] {
        let apex = wire("a{61}.b{62}.");
        for spare in 60..=70 {
            let limit = apex.len() + spare;
            let last = spare.min(64) - 1;
            let label = |length: usize| [&[length as u8][..], &vec![octets[0]; length]].concat();
            // The last name is of the longest label, and above it the longest that fits.
            let mut end = [&label(last)[..], &apex].concat();
            if limit >= end.len() + 2 {
                end = [&label(limit - end.len() - 1)[..], &end].concat();
            }
            let limit = limit as u64;
            assert_eq!(
                predecessor_in(*alphabet, &apex, limit, &apex, 255),
                Ok(end.clone())
            );
            assert_eq!(
                successor_in(*alphabet, &apex, limit, &end, 255),
                Ok(apex.clone())
            );
            for length in 1..last {
                // Under a label of this length, behind all of its names, comes the next length.
                let mut end = [&label(length)[..], &apex].concat();
                while limit as usize >= end.len() + 2 {
                    let fits = (limit as usize - end.len() - 1).min(63);
                    end = [&label(fits)[..], &end].concat();
                }
                let next = [&label(length + 1)[..], &apex].concat();
                assert_eq!(
                    successor_in(*alphabet, &apex, limit, &end, 255),
                    Ok(next.clone())
                );
                assert_eq!(predecessor_in(*alphabet, &apex, limit, &next, 255), Ok(end));
            }
        }
    }
}

type Neighbour = fn(Alphabet, &[u8], u64, &[u8], usize) -> Result<Vec<u8>, Refusal>;
const ABSOLUTE: [Neighbour; 2] = [predecessor_in, successor_in];
const MODIFIED: [Neighbour; 2] = [
    |alphabet, apex, limit, name, room| {
        modified_predecessor_in(alphabet, 1, apex, limit, name, room)
    },
    |alphabet, apex, limit, name, room| modified_successor_in(alphabet, 1, apex, limit, name, room),
];

fn all() -> impl Iterator<Item = Neighbour> {
    ABSOLUTE.into_iter().chain(MODIFIED)
}

/// Every octet, wherever it stands above the apex or in it.
#[test]
fn refused_where_an_octet_is_outside() {
    let apex = wire("example.com.");
    for octet in 0..=255u8 {
        let outside = !THIRTY_SEVEN.contains(&octet.to_ascii_lowercase());
        for name in [
            vec![1, octet],
            vec![2, octet, 97],
            vec![3, 97, octet, 97],
            vec![1, octet, 1, 97],
            vec![1, 97, 1, octet],
            vec![1, 97, 2, 97, octet, 1, 97],
            [&[63][..], &[97; 62], &[octet]].concat(),
        ] {
            let name = [&name[..], &apex].concat();
            for neighbour in all() {
                let answer = neighbour(SMALL, &apex, 255, &name, 255);
                assert_eq!(answer == Err(Refusal::NotInAlphabet), outside, "{name:?}");
                assert_eq!(answer.is_ok(), !outside, "{name:?}");
                assert!(neighbour(Alphabet::FULL, &apex, 255, &name, 255).is_ok());
            }
        }
        // The apex is free.
        let apex = [2, octet, octet, 1, octet, 0];
        for name in [&apex[..], &[&[1, 97], &apex[..]].concat()] {
            for neighbour in all() {
                assert!(neighbour(SMALL, &apex, 255, name, 255).is_ok());
            }
        }
    }
}

/// 12 comes after 7 and before 9.
#[test]
fn order_of_refusals() {
    let apex = wire("example.com.");
    for neighbour in all() {
        let number = |apex: &[u8], limit: u64, name: &[u8]| {
            neighbour(SMALL, apex, limit, name, 0).unwrap_err().number()
        };
        assert_eq!(number(&apex, 0, &under("@")), 1);
        assert_eq!(number(&[1], 255, &under("@")), 2);
        assert_eq!(number(&apex, 12, &under("@")), 3);
        assert_eq!(number(&apex, 255, &[1, 64]), 4);
        assert_eq!(number(&apex, 77, &under("@{62}.a")), 5);
        assert_eq!(number(&apex, 255, &wire("@.com.")), 6);
        assert_eq!(number(&apex, 77, &under("@")), 12);
        assert_eq!(number(&apex, 77, &under("A")), 9);
    }
    for neighbour in MODIFIED {
        let refused = neighbour(SMALL, &apex, 76, &under("@"), 0);
        assert_eq!(refused, Err(Refusal::NoLabelToSpare));
    }
    for neighbour in ABSOLUTE {
        let refused = neighbour(SMALL, &apex, 76, &under("@"), 0);
        assert_eq!(refused, Err(Refusal::NotInAlphabet));
    }
}

/// The papers' and RFC 4471's cases, with the hyphen for `\000` and `z` for `\255`.
#[test]
fn cases() {
    let apex = wire("example.com.");
    let p = |name: &str| predecessor_in(SMALL, &apex, 255, &under(name), 255).unwrap();
    let s = |name: &str| successor_in(SMALL, &apex, 255, &under(name), 255).unwrap();
    assert_eq!(p("foo"), under("z{49}.z{63}.z{63}.fonz{60}"));
    assert_eq!(p("-.foo"), under("foo"));
    assert_eq!(p("foo-"), under("z{45}.z{63}.z{63}.z{63}.foo"));
    assert_eq!(p("0.foo"), under("z{45}.z{63}.z{63}.-z{62}.foo"));
    assert_eq!(p("fooa"), under("z{49}.z{63}.z{63}.foo9z{59}"));
    assert_eq!(s("z{45}.z{63}.z{63}.z{63}.foo"), under("foo-"));
    assert_eq!(s("Foo"), under("-.foo"));
    assert_eq!(
        s("fo{47}.o{63}.o{63}.o{63}"),
        under("fo{47}-.o{63}.o{63}.o{63}")
    );
    assert_eq!(
        s("fo{48}.o{63}.o{63}.o{63}"),
        under("fo{47}p.o{63}.o{63}.o{63}")
    );
    assert_eq!(s("z{49}.o{63}.o{63}.o{63}"), under("o{62}p.o{63}.o{63}"));
    assert_eq!(
        s("fo{47}9.o{63}.o{63}.o{63}"),
        under("fo{47}a.o{63}.o{63}.o{63}")
    );
    assert_eq!(
        s("fo{47}-.o{63}.o{63}.o{63}"),
        under("fo{47}0.o{63}.o{63}.o{63}")
    );
    let last = under("z{49}.z{63}.z{63}.z{63}");
    assert_eq!(
        predecessor_in(SMALL, &apex, 255, &apex, 255),
        Ok(last.clone())
    );
    assert_eq!(
        successor_in(SMALL, &apex, 255, &last, 255),
        Ok(apex.clone())
    );
    for neighbour in ABSOLUTE {
        let refused = neighbour(SMALL, &apex, 14, &apex, 255);
        assert_eq!(refused, Err(Refusal::ApexAboveLimit));
    }
    for (before, after) in [("-", "0"), ("9", "a"), ("y", "z")].map(|(b, a)| (under(b), under(a))) {
        assert_eq!(
            successor_in(SMALL, &apex, 15, &before, 255),
            Ok(after.clone())
        );
        assert_eq!(predecessor_in(SMALL, &apex, 15, &after, 255), Ok(before));
    }
    assert_eq!(
        successor_in(SMALL, &apex, 15, &under("z"), 255),
        Ok(apex.clone())
    );
    assert_eq!(predecessor_in(SMALL, &apex, 15, &under("-"), 255), Ok(apex));
}

#[test]
fn modified_cases() {
    let apex = wire("example.com.");
    let p = |name: &[u8]| modified_predecessor_in(SMALL, 1, &apex, 77, name, 255).unwrap();
    let s = |name: &[u8]| modified_successor_in(SMALL, 1, &apex, 77, name, 255).unwrap();
    assert_eq!(p(&under("foo")), under("fonz{60}"));
    assert_eq!(p(&under("bar.foo")), under("foo"));
    assert_eq!(p(&under("foo-")), under("foo"));
    assert_eq!(p(&under("foo0")), under("foo-z{59}"));
    assert_eq!(p(&under("-")), apex);
    assert_eq!(p(&apex), under("z{63}"));
    assert_eq!(s(&under("foo")), under("foo-"));
    assert_eq!(s(&under("Bar.Foo")), under("foo-"));
    assert_eq!(s(&under("fo{61}-")), under("fo{61}0"));
    assert_eq!(s(&under("fo{61}z")), under("fo{60}p"));
    assert_eq!(s(&under("z{63}")), apex);
    assert_eq!(s(&apex), under("-"));
}
