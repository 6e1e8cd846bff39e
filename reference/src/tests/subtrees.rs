//! The first name after all names under a name: against whole zones, where each member is tried in
//! turn; against the short set that is as deep as the name; and for long names against what is near.

use super::alphabets::{members, small_alphabets};
use super::listed::listed;
use super::nearby::{members_near, random_name};
use super::{alphabets, at_or_under, ends, respelt, sort_value, under, wire, Random, THIRTY_SEVEN};
use crate::zone::Zone;
use crate::*;

const FULL: Alphabet = Alphabet::FULL;
const SMALL: Alphabet = Alphabet::LETTERS_DIGITS_HYPHENS;

/// Each member of a zone in canonical order: the first one after it that is not under it, or the apex.
fn whole_zone(alphabet: Alphabet, apex: &[u8], limit: usize, zone: &[Vec<u8>]) -> usize {
    for (index, name) in zone.iter().enumerate() {
        let mut after = zone[index..].iter();
        let expected = after.find(|member| !at_or_under(member, name));
        let expected = expected.unwrap_or(&zone[0]);
        assert_eq!(
            subtree_successor(alphabet, apex, limit as u64, name, expected.len()).as_ref(),
            Ok(expected),
            "after all under {name:?} in {apex:?} up to {limit}"
        );
    }
    zone.len()
}

#[test]
fn whole_zones_of_few_octets() {
    let mut found = 0;
    for (alphabet, octets) in small_alphabets() {
        for apex in [".", "\\255.A."].map(wire) {
            let spare = [15, 9, 7][octets.len() - 1];
            for limit in apex.len() + 2..=apex.len() + spare {
                let zone = members(&octets, &apex.to_ascii_lowercase(), limit, 127);
                found += whole_zone(alphabet, &apex, limit, &zone);
            }
        }
    }
    assert!(found > 25_000, "{found}");
}

#[test]
fn whole_zones_of_the_alphabets() {
    for apex in [".", "@.", "a\\000.", "\\255.\\255."].map(wire) {
        let limit = apex.len() + 2;
        whole_zone(FULL, &apex, limit, &listed(&apex, limit, &[]));
        for limit in apex.len() + 2..=apex.len() + 3 {
            let zone = members(THIRTY_SEVEN, &apex, limit, 127);
            whole_zone(SMALL, &apex, limit, &zone);
        }
    }
    let apex = wire("a.");
    assert_eq!(
        whole_zone(FULL, &apex, 6, &listed(&apex, 6, &[])),
        1 + 230 + 230 * 230
    );
    let zone = members(THIRTY_SEVEN, &apex, 7, 127);
    assert_eq!(whole_zone(SMALL, &apex, 7, &zone), 53_429);
    // At the end of all names.
    let apex = [&[1, 120].repeat(126)[..], &[0]].concat();
    assert_eq!(
        whole_zone(FULL, &apex, 255, &listed(&apex, 255, &[])),
        1 + 230
    );
}

/// It is the successor in the members that have at most as many labels as the name.
#[test]
fn successors_at_the_depth_of_the_name() {
    for (alphabet, octets) in small_alphabets() {
        let apex = wire("\\255.a.");
        let spare = [13, 8, 6][octets.len() - 1];
        let top = Name::read(&apex).unwrap();
        for limit in apex.len()..=apex.len() + spare {
            let zone = Zone::new(alphabet, top.clone(), limit);
            for name in members(&octets, &apex, limit, 127) {
                let name = Name::read(&name).unwrap();
                let depth = name.labels().len() - top.labels().len();
                assert_eq!(
                    zone.subtree_successor(&name),
                    zone.successor_in_short_set(depth, &name)
                );
            }
        }
    }
}

#[test]
fn worked_by_hand() {
    let apex = wire("example.com.");
    let at = |text: &str| match text {
        "" => apex.clone(),
        _ => under(text),
    };
    let cases = [
        (255, "", ""),
        (15, "", ""),
        (255, "foo", "foo\\000"),
        (255, "FOO", "foo\\000"),
        (17, "foo", "fop"),
        (18, "foo", "foo\\000"),
        (255, "bar.foo", "bar\\000.foo"),
        (255, "a.bar.foo", "a\\000.bar.foo"),
        (255, "o{63}", "o{62}p"),
        (255, "o{62}\\@", "o{62}\\["),
        (255, "o{62}\\255", "o{61}p"),
        (255, "o{62}", "o{62}\\000"),
        (255, "\\255{63}", ""),
        (255, "\\255{62}", "\\255{62}\\000"),
        (255, "\\255{63}.foo", "foo\\000"),
        (255, "\\255{63}.\\255{63}", ""),
        (255, "\\255{63}.\\255{62}", "\\255{62}\\000"),
        (255, "*", "*\\000"),
        (255, ")\\255{62}", "*"),
        (15, ")", "*"),
        (15, "*", "+"),
        (15, "\\@", "["),
        (15, "\\255", ""),
        (16, "\\255", "\\255\\000"),
        (16, "\\255\\255", ""),
        // The name is as long as the limit, or an octet shorter.
        (255, "o{49}.o{63}.o{63}.o{63}", "o{48}p.o{63}.o{63}.o{63}"),
        (
            255,
            "o{48}.o{63}.o{63}.o{63}",
            "o{48}\\000.o{63}.o{63}.o{63}",
        ),
        (255, "\\255{49}.o{63}.o{63}.o{63}", "o{62}p.o{63}.o{63}"),
        (255, "\\255{49}.\\255{63}.\\255{63}.foo\\255{60}", "fop"),
    ];
    for (limit, name, expected) in cases {
        assert_eq!(
            subtree_successor(FULL, &apex, limit, &at(name), 255),
            Ok(at(expected)),
            "{name} up to {limit}"
        );
    }
    for (limit, name, expected) in [
        (255, "foo", "foo-"),
        (255, "o{62}9", "o{62}a"),
        (255, "o{62}z", "o{61}p"),
        (255, "z{63}.b", "b-"),
        (255, "z{63}", ""),
        (15, "-", "0"),
    ] {
        assert_eq!(
            subtree_successor(SMALL, &apex, limit, &at(name), 255),
            Ok(at(expected)),
            "{name} up to {limit}"
        );
    }
    // 127 labels, as long as a name can be: the first octet is raised, or the parent's label grows.
    let deep = |octet: u8| [&[1, octet].repeat(127)[..], &[0]].concat();
    let next = [&[1, 98][..], &[1, 97].repeat(126), &[0]].concat();
    assert_eq!(subtree_successor(FULL, &[0], 255, &deep(97), 255), Ok(next));
    let next = [&[2, 255, 0][..], &[1, 255].repeat(125), &[0]].concat();
    assert_eq!(
        subtree_successor(FULL, &[0], 255, &deep(255), 255),
        Ok(next)
    );
}

#[test]
fn refusals() {
    let apex = wire("example.com.");
    let number = |alphabet, apex: &[u8], limit, name: &[u8], room| {
        let answer = subtree_successor(alphabet, apex, limit, name, room);
        answer.map_or_else(Refusal::number, |_| 0)
    };
    for limit in [0, 256, u64::MAX] {
        assert_eq!(number(SMALL, &[99], limit, &[99], 0), 1);
    }
    assert_eq!(number(SMALL, &[99], 1, &[99], 0), 2);
    assert_eq!(number(SMALL, &apex, 12, &[99], 0), 3);
    assert_eq!(number(SMALL, &apex, 14, &[99], 0), 3);
    assert_eq!(number(SMALL, &apex, 15, &[99], 0), 4);
    assert_eq!(number(SMALL, &apex, 15, &wire("@@@example.com."), 0), 5);
    assert_eq!(number(SMALL, &apex, 255, &wire("@example.com."), 0), 6);
    assert_eq!(number(SMALL, &apex, 255, &under("@"), 0), 12);
    assert_eq!(number(FULL, &apex, 255, &under("@"), 0), 9);
    assert_eq!(number(FULL, &apex, 255, &under("@"), 15), 9);
    assert_eq!(number(FULL, &apex, 255, &under("@"), 16), 0);
    assert_eq!(number(FULL, &apex, 255, &apex, 12), 9);
    assert_eq!(number(FULL, &apex, 255, &apex, 13), 0);
}

/// Long names: the answer is a member after the name and not under it, and no member near the name
/// or near the answer lies between them that is not under the name.
#[test]
fn nothing_nearby_lies_between() {
    let mut random = Random(4470);
    let [mut climbed, mut wrapped] = [0; 2];
    for (alphabet, octets) in alphabets() {
        let apexes = [".", "com.", "\\255{63}.", "@.\\091.", "a{61}.b{63}."].map(wire);
        for _ in 0..250 {
            let apex = &apexes[random.below(apexes.len())];
            let spare = random.pick(&[2, 3, 5, 60, 64, 65, 66, 100, 254]);
            let limit = (apex.len() + spare).min(255);
            let whole = random_name(&mut random, &octets, apex, limit);
            let tops = ends(&whole);
            let above = tops.iter().filter(|top| top.len() >= apex.len()).count();
            let name = tops[random.below(above)];
            let spelt = respelt(&mut random, name);
            let next = subtree_successor(alphabet, apex, limit as u64, &spelt, 255).unwrap();
            let value = sort_value(name);
            assert!(next.len() <= limit && next.ends_with(apex));
            assert!(next == *apex || sort_value(&next) > value);
            assert!(next == *apex || !at_or_under(&next, name));
            let mut near = members_near(name, &octets, apex, limit);
            near.extend(members_near(&next, &octets, apex, limit));
            for member in near {
                let between = sort_value(&member) > value
                    && (next == *apex || sort_value(&member) < sort_value(&next));
                assert!(!between || at_or_under(&member, name), "{member:?}");
            }
            climbed += usize::from(ends(&next).len() < ends(name).len() && next != *apex);
            wrapped += usize::from(next == *apex && name != apex);
        }
    }
    assert!(climbed.min(wrapped) > 10, "{climbed} {wrapped}");
}
