//! The ordinary version against the second program: every answer, every refusal and every octet of the space.

mod lists;

use super::*;
use crate::names::{Inputs, Kind, SEED};
use crate::operations::{pack, Answer};
use common::names::{change_case, starts as places_of};
use common::{packed, pattern, wire, Random};

const MIX: usize = 10_000;

/// Calls both with a space that holds any answer, with one that just holds it, with one that does not, and with none.
/// Tells the number that both gave to the first.
fn agree<A: Answer>(
    most: usize,
    call: impl Fn(&mut [u8]) -> Result<A, Refusal>,
    second: impl Fn(usize) -> Result<(u64, Vec<u8>), reference::Refusal>,
) -> u8 {
    let length = second(most).map_or(0, |(_, octets)| octets.len());
    for room in [most, length, length.saturating_sub(1), 0] {
        let mut space = pattern(room);
        let found = pack(call(&mut space));
        let mut filled = pattern(room);
        let expected = match second(room) {
            Ok((value, octets)) => {
                filled[..octets.len()].copy_from_slice(&octets);
                packed(0, 0, value)
            }
            Err(refusal) => refused(refusal),
        };
        assert_eq!((found, space), (expected, filled));
    }
    second(most).map_or_else(|refusal| refusal.number(), |_| 0)
}

fn refused(refusal: reference::Refusal) -> u64 {
    packed(refusal.number(), refusal.reason(), refusal.place() as u64)
}

/// An answer whose value is the number of its octets.
fn counted(octets: Vec<u8>) -> (u64, Vec<u8>) {
    (octets.len() as u64, octets)
}

/// All inputs of a kind.
fn each(kind: Kind, mut check: impl FnMut(&[u8], &[u8], usize)) {
    for &class in kind.classes() {
        for input in Inputs::new(kind, class, MIX, SEED).views() {
            check(input.first, input.second, input.limit);
        }
    }
}

/// Octets that may be a name, and an end of them in another case where they are, or of others.
fn end_of(octets: &[u8], others: &[u8], random: &mut Random) -> Vec<u8> {
    let of = if random.one_in(4) { others } else { octets };
    if check(of).is_err() || random.one_in(16) {
        return of[random.below(of.len() + 1)..].to_vec();
    }
    let place = random.pick(&places_of(of));
    change_case(random, &of[place..], 4)
}

#[test]
fn label_places_of_all_names() {
    each(Kind::Names, |name, _, _| {
        agree(MAX_LABELS, |space| label_places(name, space), |room| reference::label_places(name, room).map(counted));
    });
}

#[test]
fn subtree_successors() {
    let mut numbers = [0; 20];
    for (kind, alphabet) in [(Kind::Questions, 0), (Kind::LdhQuestions, 1), (Kind::LdhQuestions, u64::MAX)] {
        let second =
            if alphabet == 0 { reference::Alphabet::FULL } else { reference::Alphabet::LETTERS_DIGITS_HYPHENS };
        each(kind, |apex, name, limit| {
            let number = agree(
                MAX_NAME,
                |space| subtree_successor(alphabet, apex, limit, name, space),
                |room| reference::subtree_successor(second, apex, limit as u64, name, room).map(counted),
            );
            numbers[usize::from(number)] += 1;
        });
    }
    assert!([0, 1, 2, 3, 4, 5, 6, 12].iter().all(|&number| numbers[number] > 10), "{numbers:?}");
}

#[test]
fn next_closer_names() {
    let mut random = Random::new(29);
    let mut found = 0;
    each(Kind::Pairs, |first, second, _| {
        let encloser = end_of(first, second, &mut random);
        for (encloser, query) in [(&encloser[..], first), (first, second), (first, &encloser), (&[], first)] {
            let expected = reference::next_closer(encloser, query);
            assert_eq!(next_closer(encloser, query), Ok(expected));
            found += usize::from(expected > 0);
        }
    });
    assert!(found > 5_000, "{found}");
}

#[test]
fn covered_names() {
    let mut numbers = [0; 2];
    each(Kind::Gaps, |query, two, middle| {
        let (owner, next) = two.split_at(middle);
        for [owner, next, name] in [
            [owner, next, query],
            [next, owner, query],
            [query, owner, next],
            [owner, owner, query],
            [owner, query, query],
            [query, query, query],
        ] {
            let expected = reference::covers(owner, next, name);
            assert_eq!(covers(owner, next, name), Ok(expected));
            numbers[usize::from(expected)] += 1;
        }
    });
    assert!(numbers.iter().all(|&number| number > 10_000), "{numbers:?}");
}

/// The second program's names, back to back, and their lengths.
fn second_denial(
    (apex, limit): (&[u8], usize),
    encloser: &[u8],
    query: &[u8],
    room: usize,
) -> Result<(u64, Vec<u8>), reference::Refusal> {
    let names = reference::denial(apex, limit as u64, encloser, query, room)?;
    let lengths = names.iter().rev().fold(0, |value, name| 256 * value + name.len() as u64);
    Ok((lengths, names.concat()))
}

#[test]
fn denials() {
    let mut random = Random::new(18);
    let mut numbers = [0; 20];
    each(Kind::Questions, |apex, name, limit| {
        let encloser = end_of(name, apex, &mut random);
        let number = agree(
            MAX_DENIAL,
            |space| denial(apex, limit, &encloser, name, space),
            |room| second_denial((apex, limit), &encloser, name, room),
        );
        numbers[usize::from(number)] += 1;
    });
    assert!([0, 1, 2, 3, 4, 5, 6, 18].iter().all(|&number| numbers[number] > 10), "{numbers:?}");
}

/// Queries whose next closer name is the wildcard, beside it or near it, up to the greatest lengths and down to the
/// least limits.
#[test]
fn denials_beside_the_wildcard() {
    let labels = [
        "*",
        r"*\000",
        r"*\001",
        r"*\000\000",
        "**",
        r"*\255{62}",
        ")",
        r")\255",
        r")\255{61}",
        r")\255{62}",
        r")\254",
        "+",
        r"+\000",
        r"\000",
        r"\255{63}",
        "a",
        "@",
        "[",
        "Z",
    ];
    let mut kinds = [0; 2];
    let apexes = [".", "example.com.", "Shop.*.", r"a{61}.b{63}.c{55}.", r"o{59}.o{63}.o{63}.o{62}."].map(wire);
    for (apex, label) in apexes.iter().flat_map(|apex| labels.map(|label| (apex, wire(&format!("{label}."))))) {
        let label = &label[..label.len() - 1];
        for below in [&[][..], b"\x01*", b"\x03Foo", b"\x02*\x00"] {
            let encloser = [below, &apex[..]].concat();
            for above in [&[][..], b"\x01a", b"\x01*\x01*"] {
                let query = [above, label, &encloser].concat();
                for limit in (query.len() - 1..query.len() + 4).chain([254, 255]) {
                    let number = agree(
                        MAX_DENIAL,
                        |space| denial(apex, limit, &encloser, &query, space),
                        |room| second_denial((apex, limit), &encloser, &query, room),
                    );
                    if number == 0 {
                        let gaps = denial(apex, limit, &encloser, &query, &mut [0; MAX_DENIAL]).unwrap();
                        kinds[usize::from(gaps.lengths[2] > 0)] += 1;
                    }
                }
            }
        }
    }
    assert!(kinds.iter().all(|&number| number > 500), "{kinds:?}");
}
