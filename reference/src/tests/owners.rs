//! Lists of owners: the check against each owner taken alone, the search against counting owners
//! one by one and against a list that is cut in two again and again.

use super::{ends, respelt, sort_value, under, wire, Random};
use crate::owners::{MOST_OCTETS, MOST_OWNERS};
use crate::*;

/// The names back to back, and their starts.
fn list(names: &[Vec<u8>]) -> (Vec<u8>, Vec<Start>) {
    let start = |end: &mut usize, name: &Vec<u8>| {
        let start = *end as Start;
        *end += name.len();
        Some(start)
    };
    (names.concat(), names.iter().scan(0, start).collect())
}

/// Whether the octets are exactly one whole name, written apart from the code under test.
fn is_name(octets: &[u8]) -> bool {
    let mut rest = octets;
    while let Some((&length @ 1..=63, after)) = rest.split_first() {
        match after.get(usize::from(length)..) {
            Some(behind) => rest = behind,
            None => return false,
        }
    }
    rest == [0] && octets.len() <= 255
}

/// The octets of each owner, none where its start lies behind its end or its end outside.
fn octets<'a>(names: &'a [u8], starts: &[Start]) -> Vec<Option<&'a [u8]>> {
    let mut end = names.len();
    let mut octets = Vec::new();
    for start in starts.iter().rev().map(|&start| start as usize) {
        let inside = start <= end && end <= names.len();
        octets.push(inside.then(|| &names[start..end]));
        end = start;
    }
    octets.reverse();
    octets
}

/// The check of a list within the sizes: each owner against all that are before it.
fn slow_check(apex: &[u8], limit: u64, names: &[u8], starts: &[Start]) -> Result<usize, Refusal> {
    let apex = apex.to_ascii_lowercase();
    let owners = octets(names, starts);
    if starts.is_empty() || starts[0] > 0 {
        return Err(Refusal::NoOwners(0));
    }
    for (index, owner) in owners.iter().enumerate() {
        let right = owner.map_or(false, |owner| {
            let after = |before: &Option<&[u8]>| sort_value(before.unwrap()) < sort_value(owner);
            is_name(owner)
                && (index > 0 || owner == apex)
                && owner.to_ascii_lowercase() == owner
                && owner.len() as u64 <= limit
                && ends(owner).contains(&&apex[..])
                && owners[..index].iter().all(after)
        });
        if !right {
            return Err(Refusal::NoOwners(index));
        }
    }
    Ok(owners.len())
}

/// The search of a list within the sizes for a well formed query: the indexes that are left are a
/// list, which is cut in two, the half above having one more where they are odd.
fn slow_find(names: &[u8], starts: &[Start], query: &[u8]) -> Result<Found, Refusal> {
    let owners = octets(names, starts);
    let query = sort_value(&query.to_ascii_lowercase());
    let mut left: Vec<usize> = (0..owners.len()).collect();
    let mut seen = Vec::new();
    let mut looks = 0;
    while !left.is_empty() {
        let above = left.split_off(left.len() / 2);
        looks += 1;
        match owners[above[0]] {
            Some(owner) if is_name(owner) => {
                if sort_value(&owner.to_ascii_lowercase()) <= query {
                    seen.push(above[0]);
                    left = above[1..].to_vec();
                }
            }
            _ => return Err(Refusal::NoOwners(above[0])),
        }
    }
    let owner = seen.last().copied();
    Ok(Found { owner, looks })
}

/// So many owners: the apex, and single labels of five digits under it, each even.
fn numbered(number: usize) -> Vec<Vec<u8>> {
    let label = |index: usize| under(&format!("{:05}", 2 * index));
    let labels = (1..number).map(label);
    let owners = [wire("example.com.")].into_iter().chain(labels);
    owners.take(number).collect()
}

fn found(owner: Option<usize>, looks: usize) -> Result<Found, Refusal> {
    Ok(Found { owner, looks })
}

#[test]
fn the_sizes_of_the_paper() {
    assert_eq!((MOST_OWNERS, MOST_OCTETS), (16_384, 4_194_304));
}

#[test]
fn checks_by_hand() {
    let apex = wire("example.com.");
    let lists = [
        (vec!["example.com."], Ok(1)),
        (vec!["example.com.", "a.example.com."], Ok(2)),
        (
            vec!["example.com.", "foo.example.com.", "\\000.foo.example.com."],
            Ok(3),
        ),
        (
            vec!["example.com.", "z.a.example.com.", "b.example.com."],
            Ok(3),
        ),
        (
            vec!["example.com.", "@.example.com.", "[.example.com."],
            Ok(3),
        ),
        // The first name is not the apex, or not written folded.
        (vec!["com.", "example.com."], Err(0)),
        (vec!["a.example.com."], Err(0)),
        (vec!["Example.com."], Err(0)),
        (vec!["."], Err(0)),
        // Others that are not folded, not under the apex, not rising.
        (vec!["example.com.", "A.example.com."], Err(1)),
        (vec!["example.com.", "a.example.cOm."], Err(1)),
        (
            vec!["example.com.", "a.example.com.", "a.example.net."],
            Err(2),
        ),
        (
            vec!["example.com.", "a.example.com.", "x\\007example.com."],
            Err(2),
        ),
        (vec!["example.com.", "example.com."], Err(1)),
        (
            vec!["example.com.", "a.example.com.", "a.example.com."],
            Err(2),
        ),
        (
            vec!["example.com.", "b.example.com.", "z.a.example.com."],
            Err(2),
        ),
        (
            vec!["example.com.", "\\200.example.com.", "a.example.com."],
            Err(2),
        ),
        (
            vec!["example.com.", "a\\000.example.com.", "a.example.com."],
            Err(2),
        ),
        // The first to break it is told of, though later ones rise again.
        (
            vec![
                "example.com.",
                "b.example.com.",
                "a.example.com.",
                "B.example.com.",
            ],
            Err(2),
        ),
        (
            vec![
                "example.com.",
                "b.example.com.",
                "a.example.com.",
                "c.example.com.",
            ],
            Err(2),
        ),
    ];
    for (texts, expected) in lists {
        let (names, starts) = list(&texts.iter().map(|text| wire(text)).collect::<Vec<_>>());
        let expected = expected.map_err(Refusal::NoOwners);
        for apex in [&apex, &wire("EXAMPLE.com.")] {
            assert_eq!(
                check_owners(apex, 255, &names, &starts),
                expected,
                "{texts:?}"
            );
        }
        assert_eq!(slow_check(&apex, 255, &names, &starts), expected);
    }
    // Lengths against the limit.
    let (names, starts) = list(&["a", "ab", "b"].map(under));
    let (names, starts) = (
        [&apex[..], &names].concat(),
        [vec![0], starts.iter().map(|start| start + 13).collect()].concat(),
    );
    assert_eq!(check_owners(&apex, 16, &names, &starts), Ok(4));
    assert_eq!(
        check_owners(&apex, 15, &names, &starts),
        Err(Refusal::NoOwners(2))
    );
    assert_eq!(
        check_owners(&apex, 14, &names, &starts),
        Err(Refusal::ApexAboveLimit)
    );
}

/// Starts that are not those of the names.
#[test]
fn starts_by_hand() {
    let apex = wire("a.");
    let names = [wire("a."), wire("b.a."), wire("c.a.")].concat();
    let cases: [(&[Start], Result<usize, usize>); 18] = [
        (&[0, 3, 8], Ok(3)),
        (&[], Err(0)),
        (&[0], Err(0)),
        (&[1, 3, 8], Err(0)),
        (&[3, 8], Err(0)),
        (&[65_535], Err(0)),
        (&[Start::MAX], Err(0)),
        (&[0, 0, 3, 8], Err(0)),
        (&[0, 2, 8], Err(0)),
        (&[0, 14, 8], Err(0)),
        (&[0, 3], Err(1)),
        (&[0, 3, 3, 8], Err(1)),
        (&[0, 3, 0], Err(1)),
        (&[0, 3, 7], Err(1)),
        (&[0, 3, 65_535], Err(1)),
        (&[0, 3, Start::MAX], Err(1)),
        (&[0, 3, 8, 13], Err(3)),
        (&[0, 3, 8, 12], Err(2)),
    ];
    for (starts, expected) in cases {
        let expected = expected.map_err(Refusal::NoOwners);
        assert_eq!(
            check_owners(&apex, 255, &names, starts),
            expected,
            "{starts:?}"
        );
        assert_eq!(slow_check(&apex, 255, &names, starts), expected);
    }
    assert_eq!(
        check_owners(&apex, 255, &[], &[]),
        Err(Refusal::NoOwners(0))
    );
    assert_eq!(
        check_owners(&apex, 255, &[], &[0]),
        Err(Refusal::NoOwners(0))
    );
    assert_eq!(find_owner(&[], &[], &apex), found(None, 0));
    assert_eq!(find_owner(&names, &[], &apex), found(None, 0));
    assert_eq!(find_owner(&[], &[0], &apex), Err(Refusal::NoOwners(0)));
    // A search does not mind where the first owner starts, nor an owner that it does not look at.
    assert_eq!(
        find_owner(&names, &[3, 8], &wire("d.a.")),
        found(Some(1), 1)
    );
    assert_eq!(find_owner(&names, &[3, 8], &apex), found(None, 2));
    assert_eq!(
        find_owner(&names, &[1, 3, 8], &wire("d.a.")),
        found(Some(2), 2)
    );
    assert_eq!(
        find_owner(&names, &[1, 3, 8], &apex),
        Err(Refusal::NoOwners(0))
    );
}

/// All small tables of starts over names that overlap.
#[test]
fn all_small_tables() {
    let mut tables: Vec<Vec<Start>> = vec![vec![]];
    let queries = ["a.", "b.a.", "z.a.", ".", "b.", "A.A."].map(wire);
    let mut answered = 0;
    for _ in 0..=4 {
        for starts in &tables {
            for names in [
                &b"\x01a\x00\x01b\x01a\x00\x00"[..],
                b"\x01a\x00\x01A\x00\x00\x01",
                b"\x00\x01a\x00",
            ] {
                for (apex, limit) in [("a.", 255), ("a.", 5), (".", 255), ("A.", 6)] {
                    let apex = wire(apex);
                    let expected = slow_check(&apex, limit, names, starts);
                    assert_eq!(
                        check_owners(&apex, limit, names, starts),
                        expected,
                        "{starts:?}"
                    );
                    answered += usize::from(expected.is_ok());
                }
                for query in &queries {
                    let expected = slow_find(names, starts, query);
                    assert_eq!(find_owner(names, starts, query), expected, "{starts:?}");
                }
            }
        }
        tables = tables
            .iter()
            .flat_map(|table| (0..=10).map(|start| [&table[..], &[start]].concat()))
            .collect();
    }
    assert!(answered > 0);
}

/// Numbers 1, 2 and 3 come before 16, whatever the list is; 4 does, and then the sizes.
#[test]
fn order_of_refusals() {
    let apex = wire("example.com.");
    let broken = [1, 97, 99];
    let many = vec![0; MOST_OWNERS + 1];
    for (names, starts) in [(&apex, &vec![0]), (&vec![], &vec![]), (&apex, &many)] {
        for limit in [0, 256, u64::MAX] {
            assert_eq!(
                check_owners(&broken, limit, names, starts),
                Err(Refusal::Limit)
            );
        }
        let refused = check_owners(&broken, 1, names, starts);
        assert_eq!(refused, Err(Refusal::Apex(Fault::BadLength(2))));
        let refused = check_owners(&[], 1, names, starts);
        assert_eq!(refused, Err(Refusal::Apex(Fault::CutShort(0))));
        for limit in [12, 13, 14] {
            let refused = check_owners(&apex, limit, names, starts);
            assert_eq!(refused, Err(Refusal::ApexAboveLimit));
        }
        let refused = find_owner(names, starts, &broken);
        assert_eq!(refused, Err(Refusal::Name(Fault::BadLength(2))));
        let refused = find_owner(names, starts, &[0, 0]);
        assert_eq!(refused, Err(Refusal::Name(Fault::LeftOver(1))));
    }
    assert_eq!(check_owners(&apex, 15, &apex, &[0]), Ok(1));
    assert_eq!(
        check_owners(&apex, 15, &apex, &many),
        Err(Refusal::NoOwners(0))
    );
    // All of these owners but the last are empty, and the middle one is looked at first.
    assert_eq!(
        find_owner(&apex, &many[1..], &apex),
        Err(Refusal::NoOwners(8_192))
    );
    assert_eq!(find_owner(&apex, &many, &apex), Err(Refusal::NoOwners(0)));
}

/// 16,384 owners are a list and 16,385 are none.
#[test]
fn most_owners() {
    let apex = wire("example.com.");
    let owners = numbered(MOST_OWNERS + 1);
    let (names, starts) = list(&owners[..MOST_OWNERS]);
    assert_eq!(check_owners(&apex, 255, &names, &starts), Ok(16_384));
    assert_eq!(
        find_owner(&names, &starts, &under("zzz")),
        found(Some(16_383), 14)
    );
    assert_eq!(find_owner(&names, &starts, &wire(".")), found(None, 15));
    let (names, starts) = list(&owners);
    assert_eq!(
        check_owners(&apex, 255, &names, &starts),
        Err(Refusal::NoOwners(0))
    );
    assert_eq!(
        find_owner(&names, &starts, &apex),
        Err(Refusal::NoOwners(0))
    );
}

/// The longest list, of 16,384 owners with 255 octets each but for the apex, is within 4 MiB. The
/// octets behind it up to 4 MiB are the last owner's, and with one more there is no list.
#[test]
fn most_octets() {
    let apex = wire("example.com.");
    let fill = |index: usize| {
        let mut name = under(&format!("{index:05}"));
        while name.len() < 255 {
            let missing = 255 - name.len();
            let label = if missing > 64 {
                62.min(missing - 3)
            } else {
                missing - 1
            };
            name = [&[label as u8], &vec![b'x'; label][..], &name].concat();
        }
        name
    };
    let mut owners = vec![apex.clone()];
    owners.extend((1..MOST_OWNERS).map(fill));
    let (mut names, starts) = list(&owners);
    assert_eq!(names.len(), 13 + 16_383 * 255);
    assert_eq!(check_owners(&apex, 255, &names, &starts), Ok(16_384));
    assert_eq!(
        check_owners(&apex, 254, &names, &starts),
        Err(Refusal::NoOwners(1))
    );
    for (index, owner) in owners.iter().enumerate().step_by(97) {
        let expected = slow_find(&names, &starts, owner);
        assert_eq!(expected.unwrap().owner, Some(index));
        assert_eq!(find_owner(&names, &starts, owner), expected);
    }
    // With an octet less at the end, or up to 4 MiB more, it is the last owner that breaks the list.
    let cut = names[..names.len() - 1].to_vec();
    names.resize(MOST_OCTETS, 0);
    for names in [&cut, &names] {
        assert_eq!(
            check_owners(&apex, 255, names, &starts),
            Err(Refusal::NoOwners(16_383))
        );
        assert_eq!(find_owner(names, &starts, &apex), found(Some(0), 15));
        assert_eq!(
            find_owner(names, &starts, &owners[16_383]),
            Err(Refusal::NoOwners(16_383))
        );
    }
    names.push(0);
    assert_eq!(
        check_owners(&apex, 255, &names, &starts),
        Err(Refusal::NoOwners(0))
    );
    for starts in [&starts[..], &[]] {
        assert_eq!(find_owner(&names, starts, &apex), Err(Refusal::NoOwners(0)));
    }
}

/// The largest lists: each owner and what lies between two. No query takes more than 15 looks, and
/// with one owner less none takes more than 14.
#[test]
fn most_looks() {
    for (number, most) in [(MOST_OWNERS - 1, 14), (MOST_OWNERS, 15)] {
        let (names, starts) = list(&numbered(number));
        let query = |n: usize| find_owner(&names, &starts, &under(&format!("{n:05}")));
        let found: Vec<Found> = (0..2 * number + 2).map(|n| query(n).unwrap()).collect();
        for (n, found) in found.iter().enumerate() {
            assert_eq!(found.owner, Some((n / 2).min(number - 1)));
        }
        let nothing = find_owner(&names, &starts, &wire("com.")).unwrap();
        let looks = found.iter().map(|found| found.looks);
        assert_eq!(looks.chain([nothing.looks]).max(), Some(most));
    }
}

/// Lists of every number of owners: each owner, what lies between two, and before all. The search
/// finds the last owner not after the query, which is how many are not after it, less one.
#[test]
fn every_number_of_owners() {
    let mut most = [0; 2];
    for number in (0..=66).chain([127, 128, 129, 511, 512, 513, 1023, 1024]) {
        let owners = numbered(number);
        let (names, starts) = list(&owners);
        let apex = wire("example.com.");
        let checked = check_owners(&apex, 255, &names, &starts);
        assert_eq!(checked, slow_check(&apex, 255, &names, &starts));
        assert_eq!(checked.is_ok(), number > 0);
        let mut queries = vec![wire("."), wire("com."), apex];
        queries.extend((0..2 * number + 2).map(|n| under(&format!("{n:05}"))));
        for query in queries {
            let value = sort_value(&query);
            let not_after = owners.iter().filter(|owner| sort_value(owner) <= value);
            let found = find_owner(&names, &starts, &query).unwrap();
            assert_eq!(found.owner, not_after.count().checked_sub(1));
            assert_eq!(Ok(found), slow_find(&names, &starts, &query));
            // So many looks tell apart all places that the query may have.
            let bits = usize::BITS - number.leading_zeros();
            assert!(found.looks <= bits as usize, "{found:?} of {number}");
            most[usize::from(number == 1024)] = most[usize::from(number == 1024)].max(found.looks);
        }
    }
    assert_eq!(most, [10, 11]);
}

fn random_owner(random: &mut Random, end: &[u8], most: usize) -> Vec<u8> {
    let mut name = end.to_vec();
    for _ in 0..random.below(most + 1) {
        let length = 1 + random.below(2);
        let label: Vec<u8> = (0..length).map(|_| random.pick(b"ab@[\x00\xff")).collect();
        name = [&[length as u8], &label[..], &name].concat();
    }
    name
}

/// Zones of random owners, each query of the zone: the owner found is the query, or it and the next
/// one, the apex after the last, enclose it, so that the gap has a closest encloser.
#[test]
fn the_gap_of_a_query() {
    let mut random = Random(65_535);
    let [mut equal, mut inside, mut last] = [0; 3];
    for round in 0..300 {
        let apex = random_owner(&mut random, &[0], 2);
        let some = random.below(if round % 10 == 0 { 1_000 } else { 30 });
        let mut owners: Vec<Vec<u8>> = (0..some)
            .map(|_| random_owner(&mut random, &apex, 3))
            .collect();
        owners.push(apex.clone());
        owners.sort_by_cached_key(|owner| sort_value(owner));
        owners.dedup();
        let (names, starts) = list(&owners);
        let spelt = respelt(&mut random, &apex);
        assert_eq!(check_owners(&spelt, 255, &names, &starts), Ok(owners.len()));
        for _ in 0..100 {
            let query = random_owner(&mut random, &apex, 4);
            let spelt = respelt(&mut random, &query);
            let found = find_owner(&names, &starts, &spelt);
            assert_eq!(found, slow_find(&names, &starts, &query));
            let index = found.unwrap().owner.expect("the apex is before every name");
            assert!(found.unwrap().looks <= 15);
            let owner = &owners[index];
            let next = owners.get(index + 1).unwrap_or(&apex);
            let piece = closest_encloser(&spelt, owner, next);
            assert_eq!(piece == Piece::EMPTY, *owner == query);
            assert_eq!(owners.contains(&query), *owner == query);
            equal += usize::from(*owner == query);
            inside += usize::from(*owner != query);
            last += usize::from(next == &apex);
        }
    }
    assert!(
        equal.min(inside).min(last) > 1_000,
        "{equal} {inside} {last}"
    );
}

/// Lists in any order, in any spelling and with owners that are no names: the search's answer and
/// its looks are the halving's, the check's index is the first to break it.
#[test]
fn lists_in_any_order() {
    let mut random = Random(1_024);
    let mut breaks = [0; 4];
    let mut refused = 0;
    for round in 0..3_000 {
        let apex = random_owner(&mut random, &[0], 1);
        let number = 1 + random.below(if round % 20 == 0 { 1_023 } else { 20 });
        let mut owners: Vec<Vec<u8>> = (1..number)
            .map(|_| random_owner(&mut random, &apex, 3))
            .collect();
        owners.push(apex.clone());
        if random.below(4) > 0 {
            owners.sort_by_cached_key(|owner| sort_value(owner));
            owners.dedup();
        }
        // A few of them are changed, exchanged or damaged.
        for _ in 0..random.below(4) {
            let index = random.below(owners.len());
            match random.below(6) {
                0 => owners[index] = respelt(&mut random, &owners[index]),
                1 => owners[index] = random_owner(&mut random, &[0], 3),
                2 => owners[index] = owners[random.below(owners.len())].clone(),
                3 => drop(owners[index].pop()),
                4 => owners[index].push(random.pick(&[0, 1, 64])),
                _ => {
                    let other = random.below(owners.len());
                    owners.swap(index, other);
                }
            }
        }
        let (names, mut starts) = list(&owners);
        if random.below(4) == 0 {
            let index = random.below(starts.len());
            starts[index] = random.below(names.len() + 2) as Start;
        }
        for limit in [255, apex.len() as u64 + 2, apex.len() as u64 + 5] {
            let expected = slow_check(&apex, limit, &names, &starts);
            let checked = check_owners(&apex, limit, &names, &starts);
            assert_eq!(checked, expected, "{owners:?} {starts:?}");
            match checked {
                Ok(_) => breaks[0] += 1,
                Err(refusal) => breaks[1 + refusal.place().min(2)] += 1,
            }
        }
        for _ in 0..20 {
            let query = random_owner(&mut random, &apex, 3);
            let found = find_owner(&names, &starts, &respelt(&mut random, &query));
            let expected = slow_find(&names, &starts, &query);
            assert_eq!(found, expected, "{owners:?} {starts:?}");
            refused += usize::from(found.is_err());
        }
    }
    assert!(breaks.iter().all(|&number| number > 100), "{breaks:?}");
    assert!(refused > 1_000, "{refused}");
}
