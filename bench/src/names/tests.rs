//! What the inputs cover, and what holds of the ordinary version's answers to them.

use super::*;
use crate::operations::pack;
use crate::ordinary::*;
use std::collections::BTreeSet;

const SOME: usize = 60_000;

fn space() -> [u8; MAX_KEY] {
    [0; MAX_KEY]
}

fn between(i: &Input) -> Result<bool, Refusal> {
    hash_between(i.first, &i.second[..i.limit], &i.second[i.limit..])
}

fn encloser(i: &Input) -> usize {
    closest_encloser(i.first, &i.second[..i.limit], &i.second[i.limit..]).unwrap()
}

/// The types whose octets an input has.
fn list(i: &Input) -> Vec<u16> {
    i.first.chunks_exact(2).map(|two| u16::from_ne_bytes([two[0], two[1]])).collect()
}

/// The numbers, with their reasons, that an operation gives over the class `mix`.
fn numbers(kind: Kind, call: impl Fn(&Input) -> u64) -> BTreeSet<(u64, u64)> {
    let inputs = Inputs::new(kind, Class::Mix, SOME, SEED);
    inputs.views().iter().map(call).map(|answer| (answer & 255, answer >> 8 & 255)).collect()
}

#[test]
fn every_refusal_comes_up() {
    let named = |number| (1..=4).map(move |reason| (number, reason));
    let plain = |numbers: &'static [u64]| numbers.iter().map(|&number| (number, 0));
    assert_eq!(numbers(Kind::Names, |i| pack(check(i.first))), plain(&[0]).chain(named(4)).collect());
    assert_eq!(
        numbers(Kind::Pairs, |i| pack(compare(i.first, i.second))),
        plain(&[0]).chain(named(4)).chain(named(11)).collect()
    );
    assert_eq!(numbers(Kind::Keys, |i| pack(read_key(i.first, &mut space()))), plain(&[0, 10]).collect());
    assert_eq!(numbers(Kind::Texts, |i| pack(read_text(i.first, &mut space()))), plain(&[0, 14]).collect());
    assert_eq!(numbers(Kind::Hashes, |i| pack(hash_after(i.first, &mut space()))), plain(&[0, 17]).collect());
    assert_eq!(numbers(Kind::HashLabels, |i| pack(read_hash_label(i.first, &mut space()))), plain(&[0, 17]).collect());
    assert_eq!(numbers(Kind::HashTriples, |i| pack(between(i))), plain(&[0, 17]).collect());
    assert_eq!(numbers(Kind::Bitmaps, |i| pack(count_types(i.first))), plain(&[0, 15]).collect());
    assert_eq!(
        numbers(Kind::TypeLists, |i| pack(write_types(&list(i), &mut [0; MAX_BITMAP]))),
        plain(&[0, 15]).collect()
    );
    assert_eq!(
        numbers(Kind::Names, |i| pack(wildcard(i.first, &mut space()))),
        plain(&[0, 5]).chain(named(4)).collect()
    );
    assert_eq!(
        numbers(Kind::Questions, |i| pack(predecessor(i.first, i.limit, i.second, &mut space()))),
        plain(&[0, 1, 3, 5, 6]).chain(named(2)).chain(named(4)).collect()
    );
    assert_eq!(
        numbers(Kind::Questions, |i| pack(modified_successor(i.first, i.limit, i.second, &mut space()))),
        plain(&[0, 1, 3, 5, 6, 7]).chain(named(2)).chain(named(4)).collect()
    );
}

#[test]
fn every_refusal_in_an_alphabet_comes_up() {
    let named = |number| (1..=4).map(move |reason| (number, reason));
    let plain = |numbers: &'static [u64]| numbers.iter().map(|&number| (number, 0));
    let kind = Kind::LdhQuestions;
    assert_eq!(
        numbers(kind, |i| pack(successor_in(1, i.first, i.limit, i.second, &mut space()))),
        plain(&[0, 1, 3, 5, 6, 12]).chain(named(2)).chain(named(4)).collect()
    );
    assert_eq!(
        numbers(kind, |i| pack(modified_predecessor_in(1, 1, i.first, i.limit, i.second, &mut space()))),
        plain(&[0, 1, 3, 5, 6, 7, 12]).chain(named(2)).chain(named(4)).collect()
    );
}

/// Only the class `mix` is damaged.
#[test]
fn hot_classes_are_answered() {
    let zone = |i: &Input| predecessor(i.first, i.limit, i.second, &mut space()).is_ok();
    for kind in KINDS {
        for &class in kind.classes().iter().filter(|&&class| !matches!(class, Class::Mix | Class::Paper)) {
            let inputs = Inputs::new(kind, class, 0, SEED);
            assert!(inputs.views().iter().all(|i| match kind {
                Kind::Names => check(i.first).is_ok(),
                Kind::Pairs => compare(i.first, i.second).is_ok(),
                Kind::Keys => read_key(i.first, &mut space()).is_ok(),
                Kind::Questions => zone(i),
                Kind::LdhQuestions => predecessor_in(1, i.first, i.limit, i.second, &mut space()).is_ok(),
                Kind::Texts => read_text(i.first, &mut space()).is_ok(),
                Kind::Hashes => hash_before(i.first, &mut space()).is_ok(),
                Kind::HashLabels => read_hash_label(i.first, &mut space()).is_ok(),
                Kind::HashTriples => between(i).is_ok(),
                Kind::Gaps => encloser(i) > 0,
                Kind::Bitmaps => count_types(i.first).is_ok(),
                Kind::TypeLists => write_types(&list(i), &mut [0; MAX_BITMAP]).is_ok(),
            }));
        }
    }
}

/// A name's text is read as the folded name, and a text's name has the same one.
#[test]
fn texts_are_read_as_written() {
    let inputs = Inputs::new(Kind::Names, Class::Mix, SOME, SEED);
    for Input { first: name, .. } in inputs.views() {
        let (mut folded, mut text, mut back) = (space(), [0; MAX_TEXT], space());
        let Ok(len) = write_text(name, &mut text) else { continue };
        let count = read_text(&text[..len], &mut back).unwrap();
        assert_eq!(fold(name, &mut folded), Ok(count));
        assert_eq!(back[..count], folded[..count]);
    }
    let inputs = Inputs::new(Kind::Texts, Class::Mix, SOME, SEED);
    for Input { first: text, .. } in inputs.views() {
        let (mut name, mut written, mut back) = (space(), [0; MAX_TEXT], space());
        let Ok(len) = read_text(text, &mut name) else { continue };
        let count = write_text(&name[..len], &mut written).unwrap();
        assert_eq!(read_text(&written[..count], &mut back), Ok(len));
        assert!(back[..len].eq_ignore_ascii_case(&name[..len]));
    }
}

/// Each neighbour undoes the other, and lies on its side but at the ends of the zone.
#[test]
fn neighbours_undo_each_other() {
    let inputs = Inputs::new(Kind::Questions, Class::Mix, SOME, SEED);
    for Input { first: apex, second: name, limit } in inputs.views() {
        let (mut folded, mut before, mut after, mut back) = (space(), space(), space(), space());
        let Ok(len) = predecessor(apex, limit, name, &mut before) else { continue };
        let before = &before[..len];
        let len = fold(name, &mut folded).unwrap();
        let folded = &folded[..len];
        let len = successor(apex, limit, before, &mut back).unwrap();
        assert_eq!(&back[..len], folded);
        let len = successor(apex, limit, name, &mut after).unwrap();
        let after = &after[..len];
        let len = predecessor(apex, limit, after, &mut back).unwrap();
        assert_eq!(&back[..len], folded);
        let is_apex = compare(apex, name).unwrap() == 0;
        assert_eq!(compare(before, name).unwrap() < 0, !is_apex);
        assert_eq!(compare(after, name).unwrap() > 0, compare(after, apex).unwrap() != 0);
    }
}

/// The modified neighbours of a name enclose it, and are each other's neighbours.
#[test]
fn modified_neighbours_enclose() {
    let inputs = Inputs::new(Kind::Questions, Class::Mix, SOME, SEED);
    for Input { first: apex, second: name, limit } in inputs.views() {
        let (mut before, mut after, mut back) = (space(), space(), space());
        let Ok(len) = modified_predecessor(apex, limit, name, &mut before) else { continue };
        let before = &before[..len];
        let len = modified_successor(apex, limit, name, &mut after).unwrap();
        let after = &after[..len];
        let is_last = compare(after, apex).unwrap() == 0;
        let is_apex = compare(name, apex).unwrap() == 0;
        assert!(is_apex || compare(before, name).unwrap() < 0);
        assert!(is_last || compare(after, name).unwrap() > 0);
        // The name itself may stand between the two.
        let len = modified_successor(apex, limit, before, &mut back).unwrap();
        let next = &back[..len];
        assert!(compare(next, after).unwrap() == 0 || compare(next, name).unwrap() == 0);
    }
}

/// Enclosers of both names come up, and queries outside of a gap; an encloser is the end of the query, letter case aside.
#[test]
fn enclosers_of_both_names() {
    let inputs = Inputs::new(Kind::Gaps, Class::Mix, SOME, SEED);
    let mut counts = [0; 3];
    for i in inputs.views() {
        let value = encloser(&i);
        counts[if value == 0 { 2 } else { value / 256 }] += 1;
        let (owner, next) = i.second.split_at(i.limit);
        let name = if value < 256 { owner } else { next };
        let end = &name[name.len() - value % 256..];
        assert!(i.first.len() >= end.len() && i.first[i.first.len() - end.len()..].eq_ignore_ascii_case(end));
    }
    assert!(counts.iter().all(|&count| count > 500), "{counts:?}");
}
