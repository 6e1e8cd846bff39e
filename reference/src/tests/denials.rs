//! Whole denials: against whole zones, in which the members at or under the next closer name or the
//! wildcard are marked one by one; for long names against what is near; and cases worked out by hand.

use super::alphabets::members;
use super::listed::listed;
use super::nearby::{members_near, random_name};
use super::{alphabets, at_or_under, ends, respelt, sort_value, under, wire, Random};
use crate::zone::Zone;
use crate::*;

/// Alphabets of one to three octets, most of them with the wildcard's label and what is beside it.
fn starred() -> [(Alphabet, Vec<u8>); 8] {
    [
        (Alphabet::of(|octet| octet == b'*'), b"*".to_vec()),
        (
            Alphabet::of(|octet| octet == b')' || octet == b'*'),
            b")*".to_vec(),
        ),
        (
            Alphabet::of(|octet| octet == b'*' || octet == b'+'),
            b"*+".to_vec(),
        ),
        (
            Alphabet::of(|octet| octet == 0 || octet == b'*'),
            b"\x00*".to_vec(),
        ),
        (
            Alphabet::of(|octet| octet == b'*' || octet == 255),
            b"*\xff".to_vec(),
        ),
        (
            Alphabet::of(|octet| (b')'..=b'+').contains(&octet)),
            b")*+".to_vec(),
        ),
        (
            Alphabet::of(|octet| octet == 0 || octet == b'*' || octet == 255),
            b"\x00*\xff".to_vec(),
        ),
        (
            Alphabet::of(|octet| octet == b'a' || octet == b'b'),
            b"ab".to_vec(),
        ),
    ]
}

fn wildcard_of(encloser: &[u8]) -> Vec<u8> {
    [&[1, b'*'], encloser].concat()
}

/// The next closer name on the wire, if the encloser is a proper ancestor of the query.
fn closer_of<'a>(encloser: &[u8], query: &'a [u8]) -> Option<&'a [u8]> {
    let ends = ends(query);
    let found = ends.windows(2).find(|pair| pair[1] == encloser);
    found.map(|pair| pair[0])
}

/// Which members are at or under the next closer name or the wildcard.
fn marked(zone: &[Vec<u8>], closer: &[u8], wildcard: &[u8]) -> Vec<bool> {
    let denied = |member: &Vec<u8>| at_or_under(member, closer) || at_or_under(member, wildcard);
    zone.iter().map(denied).collect()
}

/// The names before and after each unbroken row of marked members, the row of the next closer name
/// first. The zone is in canonical order and begins with the apex, which is never marked.
fn slow(zone: &[Vec<u8>], closer: &[u8], marked: &[bool]) -> Vec<Vec<u8>> {
    let mut rows = Vec::new();
    for first in (0..zone.len()).filter(|&index| marked[index] && !marked[index - 1]) {
        let row = marked[first..].iter().take_while(|&&marked| marked);
        rows.push(first..first + row.count());
    }
    rows.sort_by_key(|row| !zone[row.clone()].iter().any(|member| member == closer));
    let gap = |row: &std::ops::Range<usize>| [row.start - 1, row.end % zone.len()];
    let ends = rows.iter().flat_map(gap);
    ends.map(|index| zone[index].clone()).collect()
}

/// The gaps as the reference has them, in any alphabet.
fn found(zone: &Zone, encloser: &[u8], query: &[u8]) -> Option<Vec<Vec<u8>>> {
    let [encloser, query] = [encloser, query].map(|name| Name::read(name).unwrap());
    let gaps = denial::gaps(zone, &encloser, &query)?;
    Some(
        gaps.iter()
            .flat_map(|gap| gap.names().map(Name::wire))
            .collect(),
    )
}

/// Each query of a whole zone with each of the names as its encloser.
fn whole_zone(alphabet: Alphabet, octets: &[u8], apex: &[u8], limit: usize) -> [usize; 3] {
    let zone = Zone::new(alphabet, Name::read(apex).unwrap(), limit);
    let all = members(octets, apex, limit, 127);
    let mut kinds = [0; 3];
    for encloser in all.iter().map(|name| &name[..]).chain(ends(apex)) {
        for query in &all {
            let closer = match closer_of(encloser, query) {
                Some(closer) if all.iter().any(|name| name == encloser) => closer,
                _ => {
                    assert_eq!(found(&zone, encloser, query), None);
                    kinds[0] += 1;
                    continue;
                }
            };
            let marked = marked(&all, closer, &wildcard_of(encloser));
            let gaps = found(&zone, encloser, query).unwrap();
            assert_eq!(gaps, slow(&all, closer, &marked), "{query:?} {encloser:?}");
            kinds[gaps.len() / 2] += 1;
            if query == closer {
                check_covered(&gaps, &all, &marked);
            }
        }
    }
    kinds
}

/// The records of the gaps cover the marked members and no others.
fn check_covered(gaps: &[Vec<u8>], all: &[Vec<u8>], marked: &[bool]) {
    for (member, &marked) in all.iter().zip(marked) {
        let mut records = gaps.chunks(2);
        let covered = records.any(|gap| covers(&gap[0], &gap[1], member));
        assert_eq!(covered, marked, "{member:?} {gaps:?}");
    }
}

#[test]
fn whole_zones_of_few_octets() {
    let mut kinds = [0; 3];
    for (alphabet, octets) in starred() {
        for apex in [".", "\\255.a.", "*."].map(wire) {
            let spare = [10, 6, 5][octets.len() - 1];
            for limit in apex.len()..=apex.len() + spare {
                let some = whole_zone(alphabet, &octets, &apex, limit);
                kinds = [0, 1, 2].map(|kind| kinds[kind] + some[kind]);
            }
        }
    }
    let [none, one, two] = kinds;
    assert!(none.min(one).min(two) > 1_000, "{kinds:?}");
}

/// Zones of the full alphabet with limits of two and three octets above the apex, every query or
/// those beside the wildcard and at the ends of the zone, through the operation.
#[test]
fn whole_zones_of_the_full_alphabet() {
    for (apex, spare, step) in [
        (".", 2, 1),
        ("a.", 2, 1),
        ("*.\\255.", 2, 1),
        ("a.", 3, 2_999),
    ] {
        let apex = wire(apex);
        let limit = apex.len() + spare;
        let all = listed(&apex, limit, &[]);
        let wildcard = wildcard_of(&apex);
        let beside = all.iter().position(|name| *name == wildcard).unwrap();
        let mut some: Vec<usize> = (1..all.len()).step_by(step).collect();
        some.extend([1, 2, all.len() - 2, all.len() - 1]);
        some.extend(beside - 3..=beside + 3);
        for index in some {
            let query = &all[index];
            let marked = marked(&all, query, &wildcard);
            let expected = slow(&all, query, &marked);
            let room = expected.concat().len();
            let gaps = denial(&apex, limit as u64, &apex, query, room).unwrap();
            assert_eq!(gaps, expected);
            // Those that are the wildcard, right before it or right after it take one gap.
            let one = index.abs_diff(beside) <= 1;
            assert_eq!(gaps.len(), if one { 2 } else { 4 });
            check_covered(&gaps, &all, &marked);
        }
    }
}

/// What must hold of an answer, in zones of any size: its ends are members that are not denied, and
/// the members right behind and right before them, inside of the gap, are. Tells how many gaps.
fn check_laws(apex: &[u8], limit: usize, encloser: &[u8], query: &[u8]) -> usize {
    let gaps = denial(apex, limit as u64, encloser, query, 1_020).unwrap();
    let closer = closer_of(encloser, query).unwrap();
    let wildcard = wildcard_of(encloser);
    // The wildcard never passes a limit that the query does not pass.
    assert!(wildcard.len() <= closer.len() && closer.len() <= limit);
    let denied = |name: &[u8]| at_or_under(name, closer) || at_or_under(name, &wildcard);
    let covered = |name: &[u8]| gaps.chunks(2).any(|gap| covers(&gap[0], &gap[1], name));
    assert!(covered(closer) && covered(&wildcard) && covered(query));
    for gap in gaps.chunks(2) {
        let next = successor(apex, limit as u64, &gap[0], 255).unwrap();
        let before = predecessor(apex, limit as u64, &gap[1], 255).unwrap();
        assert!(denied(&next) && denied(&before));
        assert!(sort_value(&next) <= sort_value(&before));
    }
    for end in &gaps {
        assert!(end.len() <= limit && at_or_under(end, apex));
        assert!(!denied(end) && !covered(end));
    }
    // The next closer name's gap comes first, and the two do not touch.
    assert!(covers(&gaps[0], &gaps[1], closer));
    if gaps.len() == 4 {
        assert!(covers(&gaps[2], &gaps[3], &wildcard) && closer != wildcard);
        assert!(!covers(&gaps[0], &gaps[1], &wildcard) && !covers(&gaps[2], &gaps[3], closer));
        assert!(gaps[0] != gaps[2]);
    }
    gaps.len() / 2
}

/// The same, and of the members near all names of the answer exactly the denied ones are covered.
fn check_near(apex: &[u8], limit: usize, encloser: &[u8], query: &[u8]) {
    check_laws(apex, limit, encloser, query);
    let mut names = denial(apex, limit as u64, encloser, query, 1_020).unwrap();
    let gaps = names.clone();
    let closer = closer_of(encloser, query).unwrap();
    let wildcard = wildcard_of(encloser);
    names.extend([closer.to_vec(), wildcard.clone(), query.to_vec()]);
    let octets = &alphabets()[0].1;
    for name in names {
        let near = members_near(&name, octets, apex, limit);
        check_covered(&gaps, &near, &marked(&near, closer, &wildcard));
    }
}

/// Labels beside the wildcard's, and others.
const LABELS: [&str; 22] = [
    "*",
    "*\\000",
    "*\\000\\000",
    "*\\001",
    "**",
    "*\\255{62}",
    "*\\255{61}",
    "*\\000{62}",
    "*\\000{61}",
    ")",
    ")\\255",
    ")\\255{60}",
    ")\\255{61}",
    ")\\255{62}",
    "+",
    "+\\000",
    "\\000",
    "\\255",
    "\\255{63}",
    "@",
    "[",
    "foo",
];

/// Above apexes and enclosers of many lengths, limits from the least that the query allows.
#[test]
fn labels_beside_the_wildcard() {
    let apexes = [
        ".",
        "example.com.",
        "*.com.",
        "a{61}.b{63}.c{55}.",
        "o{59}.o{63}.o{63}.o{62}.",
    ];
    let mut kinds = [0; 3];
    for apex in &apexes.map(wire) {
        for label in LABELS {
            let label = wire(&format!("{label}."));
            let label = &label[..label.len() - 1];
            for above in [&[][..], b"\x01*", b"\x03foo", b"\x02*\x00"] {
                let encloser = [above, &apex[..]].concat();
                let closer = [label, &encloser].concat();
                let deeper = [&[1, 97], &closer[..]].concat();
                for query in [closer, deeper] {
                    let limits = [query.len(), query.len() + 1, query.len() + 2, 254, 255];
                    for limit in limits {
                        if query.len() <= limit && limit <= 255 {
                            kinds[check_laws(apex, limit, &encloser, &query)] += 1;
                        }
                    }
                }
            }
        }
    }
    assert!(kinds[1].min(kinds[2]) > 100, "{kinds:?}");
}

/// A few of them in full.
#[test]
fn nothing_nearby_is_covered() {
    for (apex, limit) in [("a.", 8), ("*.", 70), ("a.", 140), ("example.com.", 255)] {
        let apex = wire(apex);
        for label in [
            "*\\000",
            ")\\255{62}",
            ")\\255{61}",
            "+",
            "\\255{63}",
            "@",
            "\\000",
        ] {
            let label = wire(&format!("{label}."));
            let query = [&label[..label.len() - 1], &apex].concat();
            if query.len() <= limit {
                check_near(&apex, limit, &apex, &query);
            }
        }
    }
}

/// Names of 253 to 255 octets and of up to 127 labels, every one of their ancestors as the encloser.
#[test]
fn long_names() {
    let mut random = Random(9_824);
    let mut kinds = [0; 3];
    let one_octet = |octet: u8, number: usize| [&[1, octet].repeat(number)[..], &[0]].concat();
    let mut names = vec![
        one_octet(b'a', 127),
        one_octet(b'*', 127),
        one_octet(b'+', 127),
        one_octet(255, 127),
        one_octet(0, 126),
        one_octet(b')', 126),
    ];
    for length in [253, 254, 255] {
        for label in ["a", "*", "*\\255{62}", ")\\255{62}", "\\255{63}"] {
            let mut name = vec![0];
            while name.len() < length {
                let label = wire(&format!("{label}."));
                let mut label = label[1..label.len() - 1].to_vec();
                label.truncate(length - name.len() - 1);
                // One octet alone holds no label.
                if length - name.len() - 1 == label.len() + 1 {
                    match label.len() {
                        63 => drop(label.pop()),
                        _ => label.push(97),
                    }
                }
                name = [&[label.len() as u8], &label[..], &name].concat();
            }
            assert_eq!(name.len(), length);
            names.push(name);
        }
    }
    let octets = alphabets()[0].1.clone();
    for _ in 0..10 {
        names.push(random_name(&mut random, &octets, &[0], 255));
    }
    for name in names {
        let ends = ends(&name);
        let step = 1 + ends.len() / 12;
        for index in (1..ends.len()).step_by(step).chain([1, ends.len() - 1]) {
            let encloser = ends[index];
            for apex in [&[0][..], encloser, ends[(index + 1).min(ends.len() - 1)]] {
                for limit in [name.len(), 255] {
                    kinds[check_laws(apex, limit, encloser, &name)] += 1;
                }
            }
        }
    }
    assert!(kinds[1].min(kinds[2]) > 10, "{kinds:?}");
}

fn two(first: [&str; 2], second: [&str; 2]) -> Vec<Vec<u8>> {
    [one(first), one(second)].concat()
}

fn one(gap: [&str; 2]) -> Vec<Vec<u8>> {
    gap.map(|text| match text {
        "" => wire("example.com."),
        _ => under(text),
    })
    .to_vec()
}

#[test]
fn worked_by_hand() {
    let apex = wire("example.com.");
    let ask = |limit, encloser: &str, query: &str| {
        let encloser = one([encloser, ""]).remove(0);
        denial(&apex, limit, &encloser, &under(query), 1_020).unwrap()
    };
    let star = ["\\255{49}.\\255{63}.\\255{63}.)\\255{62}", "*\\000"];
    let foo = ["\\255{49}.\\255{63}.\\255{63}.fon\\255{60}", "foo\\000"];
    assert_eq!(ask(255, "", "foo"), two(foo, star));
    assert_eq!(ask(255, "", "FOO"), two(foo, star));
    assert_eq!(ask(255, "", "a.b.foo"), two(foo, star));
    assert_eq!(
        ask(255, "foo", "a.b.foo"),
        two(
            ["\\255{45}.\\255{63}.\\255{63}.a\\255{62}.foo", "b\\000.foo"],
            ["\\255{45}.\\255{63}.\\255{63}.)\\255{62}.foo", "*\\000.foo"],
        )
    );
    // The next closer name is the wildcard.
    assert_eq!(ask(255, "", "*"), one(star));
    assert_eq!(ask(255, "", "a.b.*"), one(star));
    // The gaps touch, the wildcard's first or last; or almost.
    let after = |next| one([star[0], next]);
    assert_eq!(ask(255, "", "*\\000"), after("*\\000\\000"));
    assert_eq!(ask(255, "", "x.*\\000"), after("*\\000\\000"));
    assert_eq!(
        ask(255, "", ")\\255{62}"),
        one(["\\255{49}.\\255{63}.\\255{63}.)\\255{61}\\254", "*\\000"])
    );
    assert_eq!(
        ask(255, "", ")\\255{61}"),
        two(
            [
                "\\255{49}.\\255{63}.\\255{63}.)\\255{60}\\254\\255",
                ")\\255{61}\\000"
            ],
            star
        )
    );
    assert_eq!(
        ask(255, "", "+"),
        two(["\\255{49}.\\255{63}.\\255{63}.*\\255{62}", "+\\000"], star)
    );
    assert_eq!(
        ask(255, "", "*\\001"),
        two(
            [
                "\\255{49}.\\255{63}.\\255{63}.*\\000\\255{61}",
                "*\\001\\000"
            ],
            star
        )
    );
    // The first and the last names of the zone.
    assert_eq!(ask(255, "", "\\000"), two(["", "\\000\\000"], star));
    assert_eq!(
        ask(255, "", "\\255{63}"),
        two(["\\255{49}.\\255{63}.\\255{63}.\\255{62}\\254", ""], star)
    );
    // Labels of one octet alone: each is beside the next.
    let narrow = [")", "+"];
    assert_eq!(ask(15, "", "*"), one(narrow));
    assert_eq!(ask(15, "", ")"), one(["(", "+"]));
    assert_eq!(ask(15, "", "+"), one([")", ","]));
    assert_eq!(ask(15, "", ","), two(["+", "-"], narrow));
    assert_eq!(ask(15, "", "\\255"), two(["\\254", ""], narrow));
    assert_eq!(ask(15, "", "\\000"), two(["", "\\001"], narrow));
    assert_eq!(ask(15, "", "a"), two(["`", "b"], narrow));
    assert_eq!(ask(15, "", "@"), two(["?", "["], narrow));
    // Of two octets.
    assert_eq!(ask(16, "", "*"), one([")\\255", "*\\000"]));
    assert_eq!(ask(16, "", "*\\000"), one([")\\255", "*\\001"]));
    assert_eq!(ask(16, "", ")\\255"), one([")\\254", "*\\000"]));
    assert_eq!(ask(17, "*", "a.*"), two(["`.*", "b.*"], [").*", "+.*"]));
}

/// Numbers 1 to 6 of apex, limit and query come first, then 18, then 9.
#[test]
fn order_of_refusals() {
    let apex = wire("example.com.");
    let query = under("foo");
    let number = |apex: &[u8], limit, encloser: &[u8], query: &[u8], room| {
        let answer = denial(apex, limit, encloser, query, room);
        answer.map_or_else(Refusal::number, |_| 0)
    };
    let broken = [99, 99];
    for encloser in [&broken[..], &query, &apex, &[]] {
        for limit in [0, 256, 1 << 32, u64::MAX] {
            assert_eq!(number(&broken, limit, encloser, &broken, 0), 1);
        }
        assert_eq!(number(&broken, 1, encloser, &broken, 0), 2);
        assert_eq!(number(&apex, 12, encloser, &broken, 0), 3);
        assert_eq!(number(&apex, 15, encloser, &broken, 0), 4);
        assert_eq!(number(&apex, 15, encloser, &wire("example.organs."), 0), 5);
        assert_eq!(number(&apex, 255, encloser, &wire("example.organs."), 0), 6);
        assert_eq!(number(&apex, 255, encloser, &wire("com."), 0), 6);
    }
    let none = [
        &broken[..],
        &[],
        &apex[1..],
        &apex[..12],
        &[&apex[..], &[0]].concat(),
        // The query and names that are under it, beside it, above the apex, or end like an ancestor.
        &query,
        &under("a.foo"),
        &under("fo"),
        &wire("com."),
        &wire("."),
        &wire("example.net."),
    ]
    .map(<[u8]>::to_vec);
    for encloser in &none {
        for room in [0, 1_020] {
            assert_eq!(number(&apex, 255, encloser, &query, room), 18);
            assert_eq!(number(&apex, 255, encloser, &apex, room), 18);
        }
    }
    // The apex has no ancestor in the zone, however little room the limit leaves.
    for limit in [13, 14] {
        assert_eq!(number(&apex, limit, &apex, &apex, 0), 3);
    }
    for limit in [15, 16, 255] {
        assert_eq!(number(&apex, limit, &apex, &apex, 0), 18);
    }
    let imitated = wire("x\\007example.com.");
    assert_eq!(number(&wire("com."), 255, &apex, &imitated, 0), 18);
    for encloser in ["example.com.", "EXAMPLE.COM."].map(wire) {
        assert_eq!(
            number(&apex, 255, &encloser, &wire("fOO.Example.Com."), 0),
            9
        );
        // 255 and 18 octets, and 255 and 16.
        assert_eq!(number(&apex, 255, &encloser, &query, 543), 9);
        assert_eq!(number(&apex, 255, &encloser, &query, 544), 0);
        assert_eq!(number(&apex, 255, &encloser, &under("*"), 270), 9);
        assert_eq!(number(&apex, 255, &encloser, &under("*"), 271), 0);
    }
}

/// Spelling makes no difference, and neither does what is asked for under the next closer name.
#[test]
fn spelling() {
    let mut random = Random(1_033);
    let query = under("a.b.mail.shop");
    let expected = denial(
        &wire("example.com."),
        255,
        &under("shop"),
        &under("mail.shop"),
        999,
    );
    for _ in 0..50 {
        let [apex, encloser, query] =
            [&wire("example.com."), &under("shop"), &query].map(|name| respelt(&mut random, name));
        assert_eq!(denial(&apex, 255, &encloser, &query, 999), expected);
    }
    let names = expected.unwrap();
    assert!(names.iter().all(|name| name.to_ascii_lowercase() == *name));
}
