//! Modified neighbours one to three labels deep: against short sets listed by brute force, against
//! those of the parent's zone with one label less, and cases worked out by hand.

use super::alphabets::{members, small_alphabets};
use super::{alphabets, sort_value, under, wire, Random};
use crate::zone::Zone;
use crate::*;

fn labels(name: &[u8]) -> usize {
    check(name).unwrap().labels().len()
}

/// For each name of the zone, its neighbours in the sorted short set as a ring, straight from the
/// zone, whatever the limit.
fn short_set(alphabet: Alphabet, octets: &[u8], apex: &[u8], limit: usize, depth: usize) -> usize {
    let zone = Zone::new(alphabet, Name::read(apex).unwrap(), limit);
    let short = members(octets, apex, limit, depth);
    let values: Vec<Vec<u16>> = short.iter().map(|name| sort_value(name)).collect();
    let names = members(octets, apex, limit, 127);
    for name in &names {
        let value = sort_value(name);
        let before = values.partition_point(|v| *v < value);
        let after = values.partition_point(|v| *v <= value);
        let name = Name::read(name).unwrap();
        assert_eq!(
            zone.predecessor_in_short_set(depth, &name).wire(),
            short[before.checked_sub(1).unwrap_or(short.len() - 1)],
            "predecessor of {name:?} in {apex:?} up to {limit}, {depth} deep"
        );
        assert_eq!(
            zone.successor_in_short_set(depth, &name).wire(),
            *short.get(after).unwrap_or(&short[0]),
            "successor of {name:?} in {apex:?} up to {limit}, {depth} deep"
        );
    }
    names.len()
}

/// Depths that are deeper than any name of the zone make the whole zone of the short set.
#[test]
fn short_sets_of_few_octets() {
    let mut found = 0;
    for (alphabet, octets) in small_alphabets() {
        let apex = wire("\\255.a.");
        let spare = [13, 8, 6][octets.len() - 1];
        for limit in apex.len()..=apex.len() + spare {
            for depth in [1, 2, 3, 4, 127] {
                found += short_set(alphabet, &octets, &apex, limit, depth);
            }
        }
    }
    assert!(found > 40_000, "{found}");
}

/// Two labels of one octet, or one of three, fit above an apex that leaves four octets.
#[test]
fn short_sets_of_the_alphabets() {
    for (alphabet, octets) in alphabets() {
        let apex = wire("@.");
        let spare = if octets.len() > 100 { 2 } else { 3 };
        for limit in apex.len()..=apex.len() + spare {
            for depth in 1..=3 {
                short_set(alphabet, &octets, &apex, limit, depth);
            }
        }
    }
    let (small, octets) = &alphabets()[1];
    short_set(*small, octets, &wire("."), 1 + 4, 2);
}

/// True short sets, where labels of 63 octets fit. Of a single octet there are as many labels as
/// lengths: 63 names one label deep, 63 times as many two deep, and three deep those above two of
/// the lengths. The limit changes nothing.
#[test]
fn whole_short_sets_of_one_octet() {
    let (alphabet, octets) = &small_alphabets()[1];
    let apex = wire("EXAMPLE.");
    let folded = apex.to_ascii_lowercase();
    let label = |length: usize| [&[length as u8][..], &vec![octets[0]; length]].concat();
    for depth in 1..=3 {
        let least = folded.len() + 64 * depth;
        // Stretches without gaps, each with the name that comes after it.
        let mut stretches = Vec::new();
        if depth < 3 {
            stretches.push((members(octets, &folded, least, depth), folded.clone()));
        } else {
            for length in [62, 63] {
                let top = [&label(length)[..], &folded].concat();
                let next = match length {
                    63 => folded.clone(),
                    _ => [&label(length + 1)[..], &folded].concat(),
                };
                stretches.push((members(octets, &top, least, 2), next));
            }
        }
        for (mut stretch, next) in stretches {
            assert_eq!(stretch.len(), [1, 1 + 63, 1 + 63 + 63 * 63][depth.min(2)]);
            stretch.push(next);
            for (index, pair) in stretch.windows(2).enumerate() {
                let limit = [least as u64, 255][index % 2];
                let deep = depth as u64;
                let after = |name: &[u8]| {
                    modified_successor_in(*alphabet, deep, &apex, limit, name, 255).unwrap()
                };
                let before = |name: &[u8]| {
                    modified_predecessor_in(*alphabet, deep, &apex, limit, name, 255).unwrap()
                };
                assert_eq!(after(&pair[0]), pair[1]);
                assert_eq!(before(&pair[1]), pair[0]);
                // Names deeper than the short set lie between.
                let below = [&label(1)[..], &pair[0]].concat();
                if labels(&pair[0]) == labels(&apex) + depth && below.len() <= limit as usize {
                    assert_eq!(after(&below), pair[1]);
                    assert_eq!(before(&below), pair[0]);
                }
            }
        }
    }
}

/// The neighbours by way of the parent, the name one label above the apex that N is or lies under:
/// its zone, one label less deep, has N's neighbours but at its ends, where the parent's own
/// neighbours, one label deep, lead on.
fn by_the_parent(alphabet: Alphabet, depth: u64, apex: &[u8], name: &[u8]) -> (Vec<u8>, Vec<u8>) {
    let ask = |depth, apex: &[u8], name: &[u8]| {
        let before = modified_predecessor_in(alphabet, depth, apex, 255, name, 255).unwrap();
        let after = modified_successor_in(alphabet, depth, apex, 255, name, 255).unwrap();
        (before, after)
    };
    if depth == 1 {
        return ask(1, apex, name);
    }
    // The last name at or under one, so deep: the one before it in its own zone.
    let last = |depth: u64, apex: &[u8]| by_the_parent(alphabet, depth, apex, apex).0;
    if name == apex {
        let (greatest, least) = ask(1, apex, apex);
        return (last(depth - 1, &greatest), least);
    }
    let mut parent = name;
    while labels(parent) > labels(apex) + 1 {
        parent = &parent[1 + usize::from(parent[0])..];
    }
    let (mut before, mut after) = by_the_parent(alphabet, depth - 1, parent, name);
    let (lesser, greater) = ask(1, apex, parent);
    if name == parent {
        before = match lesser == apex {
            true => lesser,
            false => last(depth - 1, &lesser),
        };
    } else if after == parent {
        after = greater;
    }
    (before, after)
}

#[test]
fn neighbours_by_the_parent() {
    let mut random = Random(4592);
    let apexes = [".", "com.", "\\255{62}.", "@.\\091.", "a{20}.b{40}."].map(wire);
    let mut ends = 0;
    for (alphabet, octets) in alphabets() {
        let edges = [octets[0], 97, 111, octets[octets.len() - 1]];
        for _ in 0..3_000 {
            let apex = &apexes[random.below(apexes.len())];
            let mut name = apex.clone();
            for _ in 0..random.below(5) {
                let length = random.pick(&[1, 2, 62, 63, 63, 63]);
                let length = length.min(254usize.saturating_sub(name.len()));
                let mut label: Vec<u8> = (0..length).map(|_| random.pick(&edges)).collect();
                if random.below(2) == 0 {
                    label.fill(random.pick(&[octets[0], edges[3], edges[3]]));
                }
                if length > 0 {
                    name = [&[length as u8][..], &label, &name].concat();
                }
            }
            for depth in 1..=3 {
                let least = apex.len() + 64 * depth;
                if least > 255 {
                    continue;
                }
                let (before, after) = by_the_parent(alphabet, depth as u64, apex, &name);
                let above = |name: &[u8]| labels(name) - labels(apex);
                ends += usize::from(depth > 1 && above(&after) < above(&name).min(depth));
                for limit in [least, 255.min(least + 1), 255] {
                    if name.len() > limit {
                        continue;
                    }
                    let (limit, depth) = (limit as u64, depth as u64);
                    assert_eq!(
                        modified_predecessor_in(alphabet, depth, apex, limit, &name, 255).as_ref(),
                        Ok(&before),
                        "{depth} deep before {name:?} in {apex:?} up to {limit}"
                    );
                    assert_eq!(
                        modified_successor_in(alphabet, depth, apex, limit, &name, 255).as_ref(),
                        Ok(&after),
                        "{depth} deep after {name:?} in {apex:?} up to {limit}"
                    );
                }
            }
        }
    }
    assert!(ends > 300, "only {ends} successors are outside");
}

#[test]
fn depth_one_is_what_there_was() {
    let apex = wire("example.com.");
    for name in [
        "foo",
        "bar.foo",
        "a.b.c.foo",
        "\\000",
        "\\255{63}",
        "\\255.\\255{63}",
    ]
    .map(under)
    {
        for limit in [77, 78, 200, 255] {
            let before = modified_predecessor(&apex, limit, &name, 255);
            let after = modified_successor(&apex, limit, &name, 255);
            let full = Alphabet::FULL;
            assert_eq!(
                modified_predecessor_in(full, 1, &apex, limit, &name, 255),
                before
            );
            assert_eq!(
                modified_successor_in(full, 1, &apex, limit, &name, 255),
                after
            );
        }
    }
}

/// 7 is given exactly for a depth that is not 1 to 3, and where A and 64 for each label of the
/// depth are above the limit; after 6, before 12 and 9.
#[test]
fn refusals() {
    let depths = [
        0,
        1,
        2,
        3,
        4,
        5,
        127,
        1 << 32,
        (1 << 32) + 1,
        1 << 58,
        u64::MAX,
    ];
    let small = Alphabet::LETTERS_DIGITS_HYPHENS;
    for apex in [
        ".",
        "a.",
        "example.com.",
        "a{58}.",
        "a{59}.",
        "a{60}.",
        "a{61}.b{63}.",
    ]
    .map(wire)
    {
        let name = [&[1, 64], &apex[..]].concat();
        for limit in name.len()..=255 {
            for depth in depths {
                let needed = apex.len() as u128 + 64 * u128::from(depth);
                let refused = !(1..=3).contains(&depth) || needed > limit as u128;
                for neighbour in [modified_predecessor_in, modified_successor_in] {
                    let limit = limit as u64;
                    let number = |alphabet, name: &[u8], room| {
                        let answer = neighbour(alphabet, depth, &apex, limit, name, room);
                        answer.map_or_else(Refusal::number, |_| 0)
                    };
                    let or_7 = |other: u8| if refused { 7 } else { other };
                    assert_eq!(number(small, &name, 0), or_7(12));
                    assert_eq!(number(Alphabet::FULL, &name, 0), or_7(9));
                    assert_eq!(number(Alphabet::FULL, &name, 255), or_7(0));
                    assert_eq!(number(small, &apex, 255), or_7(0));
                    assert_eq!(number(small, &[1, 64], 0), 4);
                    if apex.len() > 1 {
                        assert_eq!(number(small, &[1, 64, 0], 0), 6);
                    }
                }
            }
        }
    }
}

#[test]
fn cases() {
    let apex = wire("example.com.");
    let ask = |depth: u64, name: &str, before: &str, after: &str| {
        let at = |text: &str| match text {
            "" => apex.clone(),
            _ => under(text),
        };
        for limit in [apex.len() as u64 + 64 * depth, 255] {
            let full = Alphabet::FULL;
            let name = at(name);
            assert_eq!(
                modified_predecessor_in(full, depth, &apex, limit, &name, 255),
                Ok(at(before)),
            );
            assert_eq!(
                modified_successor_in(full, depth, &apex, limit, &name, 255),
                Ok(at(after)),
            );
        }
    };
    // The apex, and what is next to it.
    ask(1, "", "\\255{63}", "\\000");
    ask(2, "", "\\255{63}.\\255{63}", "\\000");
    ask(3, "", "\\255{63}.\\255{63}.\\255{63}", "\\000");
    ask(2, "\\000", "", "\\000.\\000");
    ask(2, "\\255{63}.\\255{63}", "\\255{62}\\254.\\255{63}", "");
    ask(
        3,
        "\\255{63}.\\255{63}",
        "\\255{63}.\\255{62}\\254.\\255{63}",
        "\\000.\\255{63}.\\255{63}",
    );
    // One label.
    ask(1, "foo", "fon\\255{60}", "foo\\000");
    ask(2, "foo", "\\255{63}.fon\\255{60}", "\\000.foo");
    ask(3, "foo", "\\255{63}.\\255{63}.fon\\255{60}", "\\000.foo");
    // Two.
    ask(1, "bar.foo", "foo", "foo\\000");
    ask(2, "bar.foo", "baq\\255{60}.foo", "bar\\000.foo");
    ask(3, "bar.foo", "\\255{63}.baq\\255{60}.foo", "\\000.bar.foo");
    ask(2, "\\000.foo", "foo", "\\000\\000.foo");
    ask(2, "\\255{63}.foo", "\\255{62}\\254.foo", "foo\\000");
    ask(2, "foo\\000", "\\255{63}.foo", "\\000.foo\\000");
    // Three and four.
    ask(1, "a.bar.foo", "foo", "foo\\000");
    ask(2, "a.bar.foo", "bar.foo", "bar\\000.foo");
    ask(3, "a.bar.foo", "`\\255{62}.bar.foo", "a\\000.bar.foo");
    ask(3, "b.a.bar.foo", "a.bar.foo", "a\\000.bar.foo");
    ask(2, "a.\\255{63}.foo", "\\255{63}.foo", "foo\\000");
    ask(
        3,
        "a.\\255{63}.\\255{63}.foo",
        "\\255{63}.\\255{63}.foo",
        "foo\\000",
    );
    // Past the upper-case letters.
    ask(2, "\\[.foo", "\\@\\255{62}.foo", "\\[\\000.foo");
}
