//! Closest enclosers against every pair of ends of the names on the wire, and against whole zones,
//! where the encloser is the longest ancestor of the query that some name of the zone has.

use super::{ends, respelt, sort_value, under, wire, Random};
use crate::*;
use std::collections::BTreeMap;

/// The closest encloser of well formed names, over their octets. Length octets are no letters.
fn slow(query: &[u8], owner: &[u8], next: &[u8]) -> Piece {
    let [query, owner, next] = [query, owner, next].map(|name| name.to_ascii_lowercase());
    let before = |first: &[u8], second: &[u8]| sort_value(first) < sort_value(second);
    let under_next = |name: &[u8]| ends(name).contains(&&next[..]);
    let in_gap = if before(&owner, &next) {
        before(&owner, &query) && before(&query, &next)
    } else {
        before(&owner, &query) && under_next(&owner) && under_next(&query)
    };
    if !in_gap {
        return Piece::OfOwner(0);
    }
    let shared = |name: &[u8]| {
        let both = ends(&query)
            .into_iter()
            .filter(|end| ends(name).contains(end));
        both.map(<[u8]>::len).max().unwrap()
    };
    match (shared(&owner), shared(&next)) {
        (of_owner, of_next) if of_next > of_owner => Piece::OfNext(of_next),
        (of_owner, _) => Piece::OfOwner(of_owner),
    }
}

/// All names of up to so many of these labels above the root.
pub fn names(labels: &[&[u8]], most: usize) -> Vec<Vec<u8>> {
    let mut names = vec![vec![0]];
    let mut last = names.clone();
    for _ in 0..most {
        last = last
            .iter()
            .flat_map(|name| {
                labels
                    .iter()
                    .map(move |label| [&[label.len() as u8], *label, name].concat())
            })
            .collect();
        names.extend(last.iter().cloned());
    }
    names
}

#[test]
fn worked_by_hand() {
    let apex = wire("example.com.");
    let cases = [
        // The query, the owner, the next name, the encloser.
        ("foo", "bar", "xyz", Piece::OfOwner(13)),
        ("a.foo", "foo", "xyz", Piece::OfOwner(17)),
        ("b.foo", "a.foo", "xyz", Piece::OfOwner(17)),
        ("foo", "bar", "a.foo", Piece::OfNext(17)),
        ("a.foo", "bar", "b.foo", Piece::OfNext(17)),
        ("b.foo", "a.foo", "c.foo", Piece::OfOwner(17)),
        ("b.b.foo", "a.foo", "c.b.foo", Piece::OfNext(19)),
        ("c.b.foo", "b.b.foo", "c.foo", Piece::OfOwner(19)),
        // Outside of the gap, at its two ends, and in a gap turned round.
        ("bar", "bar", "foo", Piece::OfOwner(0)),
        ("BAR", "bar", "foo", Piece::OfOwner(0)),
        ("foo", "bar", "foo", Piece::OfOwner(0)),
        ("foO", "bar", "foo", Piece::OfOwner(0)),
        ("xyz", "bar", "foo", Piece::OfOwner(0)),
        ("abc", "bar", "foo", Piece::OfOwner(0)),
        ("xyz", "foo", "bar", Piece::OfOwner(0)),
        ("cat", "foo", "bar", Piece::OfOwner(0)),
    ];
    for (query, owner, next, expected) in cases {
        let [query, owner, next] = [query, owner, next].map(under);
        assert_eq!(closest_encloser(&query, &owner, &next), expected);
        assert_eq!(slow(&query, &owner, &next), expected);
    }
    // The last gap: the apex comes next, and it is an encloser that the owner has too.
    let [foo, xyz] = ["foo", "xyz"].map(under);
    assert_eq!(closest_encloser(&xyz, &foo, &apex), Piece::OfOwner(13));
    assert_eq!(closest_encloser(&xyz, &apex, &apex), Piece::OfOwner(13));
    assert_eq!(closest_encloser(&foo, &xyz, &apex), Piece::EMPTY);
    assert_eq!(closest_encloser(&apex, &xyz, &apex), Piece::EMPTY);
    assert_eq!(closest_encloser(&apex, &apex, &apex), Piece::EMPTY);
    // There both must lie at or under the next name, label by label.
    let net = wire("net.");
    assert_eq!(closest_encloser(&net, &foo, &apex), Piece::EMPTY);
    assert_eq!(closest_encloser(&net, &foo, &wire(".")), Piece::OfOwner(1));
    assert_eq!(closest_encloser(&net, &foo, &wire("com.")), Piece::EMPTY);
    let imitated = wire("x\\007example.com.");
    assert_eq!(closest_encloser(&imitated, &foo, &apex), Piece::EMPTY);
    // In all other gaps nothing has to lie under anything.
    assert_eq!(
        closest_encloser(&net, &foo, &wire("org.")),
        Piece::OfOwner(1)
    );
    let next = wire("A.nEt.");
    assert_eq!(closest_encloser(&net, &foo, &next), Piece::OfNext(5));
}

/// The piece is in the spelling of the name that it is of.
#[test]
fn spelling_of_the_piece() {
    let query = wire("new.SHOP.example.COM.");
    let owner = wire("b.Example.com.");
    let next = wire("old.sHoP.eXAMPLE.com.");
    let piece = closest_encloser(&query, &owner, &next);
    assert_eq!(piece, Piece::OfNext(18));
    assert_eq!(piece.octets(&owner, &next), wire("sHoP.eXAMPLE.com."));
    let query = wire("c.EXAMPLE.COM.");
    let piece = closest_encloser(&query, &owner, &next);
    assert_eq!(piece, Piece::OfOwner(13));
    assert_eq!(piece.octets(&owner, &next), wire("Example.com."));
    let outside = closest_encloser(&owner, &owner, &next);
    assert!(outside.octets(&owner, &next).is_empty());
}

/// The zone and the table of RFC 4592, sections 2.2.1 and 3.3.1.
#[test]
fn enclosers_of_rfc_4592() {
    let zone = [
        "example.",
        "*.example.",
        "sub.*.example.",
        "host1.example.",
        "_ssh._tcp.host1.example.",
        "_ssh._tcp.host2.example.",
        "subdel.example.",
    ];
    let zone = sorted(zone.map(wire).to_vec());
    let table = [
        ("host3.example.", "example."),
        ("_telnet._tcp.host1.example.", "_tcp.host1.example."),
        ("_dns._udp.host2.example.", "host2.example."),
        ("_telnet._tcp.host3.example.", "example."),
        ("_chat._udp.host3.example.", "example."),
        ("foobar.*.example.", "*.example."),
    ];
    for (query, encloser) in table {
        let query = wire(query);
        let (owner, next) = gap(&zone, &query).unwrap();
        let piece = closest_encloser(&query, owner, next);
        assert_eq!(piece.octets(owner, next), wire(encloser), "{query:?}");
    }
}

pub fn sorted(zone: Vec<Vec<u8>>) -> Vec<Vec<u8>> {
    let zone: BTreeMap<_, _> = zone
        .into_iter()
        .map(|name| (sort_value(&name), name))
        .collect();
    zone.into_values().collect()
}

/// The owner and the next name of a zone's gap that has the query, the apex after the last owner;
/// none for a name of the zone.
fn gap<'a>(zone: &'a [Vec<u8>], query: &[u8]) -> Option<(&'a [u8], &'a [u8])> {
    let after = zone
        .iter()
        .filter(|name| sort_value(name) <= sort_value(query));
    let index = after.count() - 1;
    let next = (index + 1) % zone.len();
    (zone[index] != query).then(|| (&zone[index][..], &zone[next][..]))
}

/// All triples of small names, in any spelling.
#[test]
fn all_small_triples() {
    let mut random = Random(4592);
    let names = names(&[b"a", b"*", b"ab"], 3);
    assert_eq!(names.len(), 40);
    let [mut outside, mut of_owner, mut of_next] = [0; 3];
    for query in &names {
        for owner in &names {
            for next in &names {
                let [query, owner, next] = [query, owner, next].map(|n| respelt(&mut random, n));
                let piece = closest_encloser(&query, &owner, &next);
                let what = (&query, &owner, &next);
                assert_eq!(piece, slow(&query, &owner, &next), "{what:?}");
                match piece {
                    Piece::EMPTY => outside += 1,
                    Piece::OfOwner(_) => of_owner += 1,
                    Piece::OfNext(_) => of_next += 1,
                }
                let octets = piece.octets(&owner, &next);
                assert_eq!(check(octets).is_ok(), piece != Piece::EMPTY);
            }
        }
    }
    assert!(outside.min(of_owner).min(of_next) > 1_000, "{of_next}");
}

/// Whole zones of few names, each name that is missing from them.
#[test]
fn missing_names_of_zones() {
    let mut random = Random(4035);
    let apex = wire("zone.example.");
    let relative = names(&[b"a", b"\x00", b"*", b"ab", b"\xff"], 3);
    let above = |name: &Vec<u8>| [&name[..name.len() - 1], &apex[..]].concat();
    let all: Vec<Vec<u8>> = relative.iter().map(above).collect();
    let [mut of_owner, mut of_next] = [0; 2];
    for _ in 0..200 {
        let some = random.pick(&[0, 1, 3, 10, 50]);
        let mut zone: Vec<Vec<u8>> = (0..some)
            .map(|_| all[random.below(all.len())].clone())
            .collect();
        zone.push(apex.clone());
        let zone = sorted(zone);
        for query in &all {
            let (owner, next) = match gap(&zone, query) {
                Some(gap) => gap,
                None => continue,
            };
            let encloser = ends(query)
                .into_iter()
                .find(|end| zone.iter().any(|name| ends(name).contains(end)))
                .unwrap();
            let [query, owner, next] = [query, owner, next].map(|n| respelt(&mut random, n));
            let piece = closest_encloser(&query, &owner, &next);
            let octets = piece.octets(&owner, &next);
            assert_eq!(
                octets.to_ascii_lowercase(),
                encloser,
                "{query:?} in {zone:?}"
            );
            assert_eq!(piece, slow(&query, &owner, &next));
            match piece {
                Piece::OfOwner(_) => of_owner += 1,
                Piece::OfNext(_) => of_next += 1,
            }
        }
    }
    assert!(of_owner.min(of_next) > 1_000, "{of_owner} {of_next}");
}

/// Names of many labels and of all lengths, which share much.
#[test]
fn long_names() {
    let mut random = Random(5155);
    let [mut outside, mut inside] = [0; 2];
    for round in 0..4_000 {
        let base = random_name(&mut random, &[0], round % 2 == 0);
        let mut near = || {
            let ends = ends(&base);
            let end = random.pick(&ends).to_vec();
            let many = random.below(2) == 0;
            let name = random_name(&mut random, &end, many);
            respelt(&mut random, &name)
        };
        let [query, owner, next] = [near(), near(), near()];
        let piece = closest_encloser(&query, &owner, &next);
        assert_eq!(piece, slow(&query, &owner, &next));
        match piece {
            Piece::EMPTY => outside += 1,
            _ => inside += 1,
        }
    }
    assert!(outside.min(inside) > 500, "{outside} {inside}");
}

/// The name with labels put in front: many of one octet, or few of any length.
pub fn random_name(random: &mut Random, end: &[u8], many: bool) -> Vec<u8> {
    let mut name = end.to_vec();
    for _ in 0..random.below(if many { 128 } else { 5 }) {
        let length = if many { 1 } else { 1 + random.below(63) };
        if name.len() + 1 + length > 255 {
            break;
        }
        let octet = random.pick(b"@a[m\x00\xff");
        name = [&[length as u8], &vec![octet; length][..], &name].concat();
    }
    name
}

/// Octets that are no name, as each of the three.
#[test]
fn names_that_are_none() {
    let [query, owner, next] = ["b", "a", "c"].map(under);
    assert_eq!(closest_encloser(&query, &owner, &next), Piece::OfOwner(13));
    let long = [&[1, 97].repeat(127)[..], &[1, 97, 0]].concat();
    for broken in [
        &[][..],
        &[1],
        &[64],
        &[0, 0],
        &next[1..],
        &query[..14],
        &long,
    ] {
        assert_eq!(closest_encloser(broken, &owner, &next), Piece::EMPTY);
        assert_eq!(closest_encloser(&query, broken, &next), Piece::EMPTY);
        assert_eq!(closest_encloser(&query, &owner, broken), Piece::EMPTY);
        assert_eq!(closest_encloser(broken, broken, broken), Piece::EMPTY);
    }
}

#[test]
fn wildcards() {
    assert_eq!(wildcard(&wire("."), 3), Ok(vec![1, b'*', 0]));
    assert_eq!(wildcard(&wire("."), 2), Err(Refusal::NoRoom));
    let kept = wire("*.fOO.Example.com.");
    assert_eq!(wildcard(&wire("fOO.Example.com."), 19), Ok(kept.clone()));
    assert_eq!(
        wildcard(&wire("fOO.Example.com."), 18),
        Err(Refusal::NoRoom)
    );
    assert_eq!(wildcard(&kept, 255), Ok(wire("*.*.fOO.Example.com.")));
    for (octets, fault) in [
        (&[][..], Fault::CutShort(0)),
        (&[1, 97], Fault::CutShort(2)),
        (&[0, 0], Fault::LeftOver(1)),
        (&[1, 97, 64], Fault::BadLength(2)),
        (&[1, 97].repeat(128), Fault::TooLong(254)),
    ] {
        for room in [0, 255] {
            assert_eq!(wildcard(octets, room), Err(Refusal::Name(fault)));
        }
    }
}

/// Enclosers of every length, in labels of every length and of one octet: 253 octets leave two.
#[test]
fn wildcards_of_every_length() {
    for length in (1..=255).filter(|&length| length != 2) {
        let mut encloser = vec![0];
        while encloser.len() < length {
            let missing = length - encloser.len();
            let label = match missing {
                65 => 62,
                64.. => 63,
                _ => missing - 1,
            };
            encloser = [&[label as u8], &vec![b'Q'; label][..], &encloser].concat();
        }
        check_wildcard(&encloser);
        if length % 2 == 1 {
            check_wildcard(&[&[1, b'Q'].repeat(length / 2)[..], &[0]].concat());
        }
    }
}

fn check_wildcard(encloser: &[u8]) {
    assert_eq!(check(encloser).unwrap().wire(), encloser);
    for room in [
        0,
        encloser.len(),
        encloser.len() + 1,
        encloser.len() + 2,
        300,
    ] {
        let expected = if encloser.len() > 253 {
            Err(Refusal::NameAboveLimit)
        } else if room < encloser.len() + 2 {
            Err(Refusal::NoRoom)
        } else {
            Ok([&[1, b'*'], encloser].concat())
        };
        assert_eq!(wildcard(encloser, room), expected, "{encloser:?}");
    }
}
