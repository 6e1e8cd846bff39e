//! The next closer name against each pair of ends of the query, and what a record covers against a
//! walk round the sorted names.

use super::enclosers::{names, random_name, sorted};
use super::listed::listed;
use super::{ends, respelt, sort_value, under, wire, Random};
use crate::*;

/// The end of the query with one label more than the end that is the encloser. Length octets are no
/// letters.
fn slow_next_closer(encloser: &[u8], query: &[u8]) -> usize {
    let [encloser, query] = [encloser, query].map(|name| name.to_ascii_lowercase());
    let ends = ends(&query);
    let mut pairs = ends.windows(2);
    let found = pairs.find(|pair| pair[1] == encloser);
    found.map_or(0, |pair| pair[0].len())
}

#[test]
fn next_closer_names_by_hand() {
    let apex = wire("example.com.");
    for (encloser, query, expected) in [
        ("example.com.", "foo.example.com.", 17),
        ("example.com.", "bar.foo.example.com.", 17),
        ("foo.example.com.", "bar.foo.example.com.", 21),
        ("com.", "bar.foo.example.com.", 13),
        (".", "bar.foo.example.com.", 5),
        (".", "com.", 5),
        // The name itself, names that are longer or elsewhere, and the root's.
        ("foo.example.com.", "foo.example.com.", 0),
        ("bar.foo.example.com.", "foo.example.com.", 0),
        ("bar.example.com.", "foo.example.com.", 0),
        ("net.", "foo.example.com.", 0),
        (".", ".", 0),
        ("a.", ".", 0),
        // Octets at the end that are no labels.
        ("example.com.", "x\\007example.com.", 0),
        ("com.", "x\\007example.com.", 15),
    ] {
        let [encloser, query] = [encloser, query].map(wire);
        assert_eq!(next_closer(&encloser, &query), expected, "{query:?}");
        assert_eq!(slow_next_closer(&encloser, &query), expected, "{query:?}");
        let upper = query.to_ascii_uppercase();
        assert_eq!(next_closer(&encloser, &upper), expected);
        assert_eq!(
            next_closer(&encloser.to_ascii_uppercase(), &query),
            expected
        );
    }
    let query = under("a.b.c");
    let piece = &query[query.len() - next_closer(&under("c"), &query)..];
    assert_eq!(piece, under("b.c"));
    for broken in [&[][..], &[1], &[64], &[0, 0], &query[1..], &query[..9]] {
        assert_eq!(next_closer(broken, &query), 0);
        assert_eq!(next_closer(&apex, broken), 0);
        assert_eq!(next_closer(broken, broken), 0);
    }
    // 127 labels, each of which is the next closer name of one encloser.
    let most = [&[1, 97].repeat(127)[..], &[0]].concat();
    for number in 0..127 {
        let encloser = &most[254 - 2 * number..];
        assert_eq!(next_closer(encloser, &most), 2 * number + 3);
    }
    assert_eq!(next_closer(&most, &most), 0);
}

#[test]
fn all_small_pairs() {
    let mut random = Random(5_155);
    let names = names(&[b"a", b"*", b"ab", b"\x01a"], 3);
    let mut found = 0;
    for encloser in &names {
        for query in &names {
            let [encloser, query] = [encloser, query].map(|name| respelt(&mut random, name));
            let expected = slow_next_closer(&encloser, &query);
            assert_eq!(next_closer(&encloser, &query), expected);
            found += usize::from(expected > 0);
        }
    }
    assert!(found > 200, "{found}");
}

/// Names of many labels and of all lengths, and enclosers that are their ancestors or beside them.
#[test]
fn long_names() {
    let mut random = Random(7_129);
    let mut found = 0;
    for round in 0..4_000 {
        let query = random_name(&mut random, &[0], round % 2 == 0);
        let ends = ends(&query);
        let base = random.pick(&ends).to_vec();
        let encloser = match random.below(4) {
            0 => random_name(&mut random, &base, round % 2 == 0),
            _ => base,
        };
        let [query, encloser] = [&query, &encloser].map(|name| respelt(&mut random, name));
        let expected = slow_next_closer(&encloser, &query);
        assert_eq!(next_closer(&encloser, &query), expected);
        found += usize::from(expected > 0);
    }
    assert!(found > 1_000, "{found}");
}

/// Each two of some names in canonical order: covered are those that a walk from the owner comes by,
/// one name after the other and from the last to the first, until it is at the next name.
fn check_covered(random: &mut Random, names: &[Vec<u8>]) {
    for owner in 0..names.len() {
        for next in 0..names.len() {
            let mut expected = vec![false; names.len()];
            let mut at = (owner + 1) % names.len();
            while at != next {
                expected[at] = true;
                at = (at + 1) % names.len();
            }
            for (name, expected) in names.iter().zip(expected) {
                let [owner, next, name] =
                    [&names[owner], &names[next], name].map(|name| respelt(random, name));
                assert_eq!(
                    covers(&owner, &next, &name),
                    expected,
                    "{name:?} from {owner:?} to {next:?}"
                );
            }
        }
    }
}

#[test]
fn all_small_records() {
    let mut random = Random(4_034);
    check_covered(&mut random, &sorted(names(&[b"a", b"*", b"ab"], 3)));
    check_covered(
        &mut random,
        &sorted(names(&[b"\x00", b"@", b"[", b"\xff", b"\xff\x00"], 2)),
    );
    check_covered(&mut random, &[wire(".")]);
    check_covered(&mut random, &[wire("a."), wire("a.a.")]);
}

#[test]
fn long_records() {
    let mut random = Random(253);
    for round in 0..40 {
        let base = random_name(&mut random, &[0], round % 2 == 0);
        let ends = ends(&base);
        let mut some = Vec::new();
        for _ in 0..12 {
            let end = random.pick(&ends);
            some.push(random_name(&mut random, end, round % 3 == 0));
        }
        check_covered(&mut random, &sorted(some));
    }
}

#[test]
fn records_by_hand() {
    let apex = wire("example.com.");
    let [bar, foo, xyz] = ["bar", "foo", "xyz"].map(under);
    assert!(covers(&bar, &xyz, &foo));
    assert!(!covers(&foo, &xyz, &bar));
    assert!(!covers(&bar, &foo, &foo) && !covers(&bar, &foo, &bar));
    assert!(covers(&bar, &foo, &under("a.b.c.bar")));
    // The last record of a zone ends at its apex. It has no say about what lies outside of the zone,
    // but the ring goes on there.
    assert!(covers(&foo, &apex, &xyz) && covers(&foo, &apex, &under("a.foo")));
    assert!(!covers(&foo, &apex, &bar) && !covers(&foo, &apex, &apex));
    assert!(covers(&foo, &apex, &wire("net.")) && covers(&foo, &apex, &wire("com.")));
    // A record from a name to itself covers all others.
    assert!(covers(&apex, &apex, &foo) && covers(&apex, &apex, &wire(".")));
    assert!(!covers(&apex, &wire("EXAMPLE.COM."), &wire("Example.com.")));
    // Octets that are no name.
    for broken in [&[][..], &[1], &[64], &[0, 0], &foo[1..], &foo[..9]] {
        assert!(!covers(broken, &xyz, &foo));
        assert!(!covers(&bar, broken, &foo));
        assert!(!covers(&bar, &xyz, broken));
        assert!(!covers(broken, broken, broken));
    }
}

/// A name that exists and its successor have nothing of the zone between them; a name's two
/// neighbours have the name itself between them and nothing else of the zone.
#[test]
fn records_of_names_that_exist() {
    let limit = 5;
    let apex = wire("a.");
    let zone = listed(&apex, limit, &[]);
    for name in &zone {
        let next = successor(&apex, limit as u64, name, 255).unwrap();
        let before = predecessor(&apex, limit as u64, name, 255).unwrap();
        for member in &zone {
            assert!(!covers(name, &next, member));
            assert_eq!(covers(&before, &next, member), member == name);
        }
        // The successor lies under the name wherever a name can.
        let under = sort_value(&next).starts_with(&sort_value(name)) && next != *name;
        assert_eq!(under, name.len() + 2 <= limit);
    }
}
