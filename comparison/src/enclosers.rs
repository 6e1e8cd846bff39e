//! Generators of a query, an owner and a next name that are related in every way there is, and what
//! is true of them.

use crate::names;
use common::names::{change_case, starts};
use common::Random;

/// Every way in which the three are made. All but the last start from well formed names.
pub const CLASSES: [&str; 9] = [
    "all under one label",
    "query under owner",
    "next under query",
    "next under owner",
    "the apex comes next",
    "next is the owner",
    "in the order of the gap",
    "in any order",
    "one of them damaged",
];

/// The query, the owner and the next name of a random class.
pub fn three(random: &mut Random) -> (&'static str, [Vec<u8>; 3]) {
    let class = random.below(CLASSES.len());
    let mut three = of_class(random, class);
    if class == CLASSES.len() - 1 {
        let place = random.below(3);
        three[place] = match random.below(4) {
            0 => names::any(random).1,
            _ => names::damaged(random, three[place].clone()),
        };
    }
    (CLASSES[class], three)
}

fn of_class(random: &mut Random, class: usize) -> [Vec<u8>; 3] {
    let base = base(random);
    let near = |random: &mut Random| {
        let places = starts(&base);
        let end = base[random.pick(&places)..].to_vec();
        above(random, &end)
    };
    let [query, owner, next] = [near(random), near(random), near(random)];
    match class {
        0 => [(); 3].map(|()| above(random, &base)),
        1 => [above(random, &owner), owner, next],
        2 => [query.clone(), owner, above(random, &query)],
        3 => [query, owner.clone(), above(random, &owner)],
        4 => {
            let places = starts(&base);
            let apex = base[random.pick(&places)..].to_vec();
            let [first, second] = [(); 2].map(|()| above(random, &apex));
            let [owner, query] = sorted([first, second]);
            [query, owner, respelt(random, &apex)]
        }
        5 => [query, owner.clone(), respelt(random, &owner)],
        6 => {
            let [owner, query, next] = sorted([query, owner, next]);
            [query, owner, next]
        }
        _ => [query, owner, next],
    }
}

/// A name that leaves others room above it: most of the time short, sometimes as long as can be.
fn base(random: &mut Random) -> Vec<u8> {
    match random.below(4) {
        0 => names::well_formed(random),
        _ => {
            let labels: Vec<Vec<u8>> = (0..random.below(5)).map(|_| label(random)).collect();
            names::assemble(&labels)
        }
    }
}

/// A label that another is often the same as, letter case aside, or begins like.
fn label(random: &mut Random) -> Vec<u8> {
    match random.below(6) {
        0 => {
            let length = random.between(1, 63);
            let kind = names::kind(random);
            names::label(random, length, kind)
        }
        1 => vec![random.pick(b"aAbB@[`{*\x00\xff"); random.between(1, 63)],
        _ => (0..random.between(1, 2))
            .map(|_| random.pick(b"aAbB@[`{*\x00\x01\xff"))
            .collect(),
    }
}

/// The name with none, one or more labels put in front, as far as there is room, in any spelling.
fn above(random: &mut Random, name: &[u8]) -> Vec<u8> {
    let count = random.pick(&[0, 1, 1, 1, 2, 3, 130]);
    let mut name = name.to_vec();
    for _ in 0..count {
        let label = match count {
            130 => vec![random.pick(b"aAb")],
            _ => label(random),
        };
        if name.len() + 1 + label.len() > 255 {
            break;
        }
        name = [&[label.len() as u8], &label[..], &name].concat();
    }
    respelt(random, &name)
}

fn respelt(random: &mut Random, name: &[u8]) -> Vec<u8> {
    match random.below(2) {
        0 => name.to_vec(),
        _ => change_case(random, name, 2),
    }
}

/// Well formed names in the canonical order.
fn sorted<const N: usize>(mut names: [Vec<u8>; N]) -> [Vec<u8>; N] {
    names.sort_by(|first, second| {
        let comparison = reference::compare(first, second).expect("well formed names");
        comparison.cmp(&0)
    });
    names
}

/// What is true of the three and of the value that is expected.
pub fn facts([query, owner, next]: &[Vec<u8>; 3], value: u64) -> Vec<&'static str> {
    let mut facts = vec![match value {
        0 => "outside of the gap",
        1..=255 => "a piece of the owner",
        _ => "a piece of the next name",
    }];
    if value == 0 {
        if [query, owner, next]
            .iter()
            .any(|name| reference::check(name).is_err())
        {
            facts.push("one is no name");
        } else if reference::compare(query, owner) == Ok(0) {
            facts.push("the query is the owner");
        } else if reference::compare(query, next) == Ok(0) {
            facts.push("the query is the next name");
        } else if reference::compare(owner, next).is_ok_and(|order| order >= 0) {
            facts.push("no gap ends there");
        } else {
            facts.push("out of order");
        }
        return facts;
    }
    let (name, octets) = match value {
        0..=255 => (owner, value as usize),
        _ => (next, value as usize - 256),
    };
    let piece = &name[name.len() - octets..];
    if reference::compare(owner, next).is_ok_and(|order| order >= 0) {
        facts.push("the last gap");
    }
    if reference::compare(owner, next) == Ok(0) {
        facts.push("one name alone");
    }
    if octets == query.len() {
        facts.push("the query itself");
    }
    if octets == owner.len() && value < 256 {
        facts.push("the owner itself");
    }
    if octets == 1 {
        facts.push("the root");
    }
    if !query.ends_with(piece) {
        facts.push("spelled otherwise than the query");
    }
    facts
}

/// Each fact there is.
pub const FACTS: [&str; 14] = [
    "outside of the gap",
    "a piece of the owner",
    "a piece of the next name",
    "one is no name",
    "the query is the owner",
    "the query is the next name",
    "no gap ends there",
    "out of order",
    "the last gap",
    "one name alone",
    "the query itself",
    "the owner itself",
    "the root",
    "spelled otherwise than the query",
];

/// All names of up to two of a few labels, for all triples of them.
pub fn small() -> Vec<Vec<u8>> {
    let labels = [&b"a"[..], b"B", b"ab", b"*", b"\x00"].map(<[u8]>::to_vec);
    let mut names = vec![vec![0]];
    for first in &labels {
        names.push(names::assemble(&[first.clone()]));
        for second in &labels {
            names.push(names::assemble(&[first.clone(), second.clone()]));
        }
    }
    // One longer, another spelling, and octets that are no name.
    names.push(b"\x01a\x01A\x01a\x00".to_vec());
    names.push(b"\x01A\x00".to_vec());
    names.push(Vec::new());
    names.push(b"\x01a".to_vec());
    names
}
