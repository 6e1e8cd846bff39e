//! Compares the neighbours in an alphabet with the reference: each function in both alphabets.

use comparison::neighbours::{Facts, Operation, Pair, DEPTH_FACTS};
use comparison::requests;
use comparison::spelling::{
    Spelling, COMMON_FACTS, LDH_FACTS, LOWERED_FACTS, RAISED_FACTS, REFUSAL_FACTS, SPELLINGS,
};
use qorshudan::exported;

/// The facts of the full alphabet that the smaller one knows too: all but the step past the letters.
fn kept(facts: &[&'static str]) -> Vec<&'static str> {
    let past_letters = ["raised from 64 to 91", "lowered from 91 to 64"];
    let facts = facts.iter().copied();
    facts.filter(|fact| !past_letters.contains(fact)).collect()
}

/// Compares a function in an alphabet.
fn compare(name: &'static str, spelling: Spelling, pair: Pair, way: Way) {
    let modified = way.least_spare == 64;
    let steps = kept(way.wanted);
    let (own, numbers): (Vec<&[&'static str]>, &[u8]) = match (spelling, modified) {
        (Spelling::Full, false) => (vec![way.wanted], &[0, 1, 2, 3, 4, 5, 6, 9]),
        (Spelling::Full, true) => (vec![way.wanted], &[0, 1, 2, 3, 4, 5, 6, 7, 9]),
        (Spelling::Ldh, _) => (
            vec![&steps, &LDH_FACTS, &REFUSAL_FACTS, &SPELLINGS, way.steps],
            match modified {
                false => &[0, 1, 2, 3, 4, 5, 6, 9, 12],
                true => &[0, 1, 2, 3, 4, 5, 6, 7, 9, 12],
            },
        ),
    };
    Operation {
        name,
        pair,
        facts: way.facts,
        depths: false,
        least_spare: way.least_spare,
        numbers,
        wanted: &[&own.concat(), &DEPTH_FACTS, &COMMON_FACTS],
    }
    .compare();
}

/// What is looked for in the answers of a function.
struct Way {
    facts: Facts,
    wanted: &'static [&'static str],
    steps: &'static [&'static str],
    least_spare: usize,
}

const BEFORE: Way = Way {
    facts: requests::predecessor_facts,
    wanted: &requests::PREDECESSOR_FACTS,
    steps: &LOWERED_FACTS,
    least_spare: 2,
};
const AFTER: Way = Way {
    facts: requests::successor_facts,
    wanted: &requests::SUCCESSOR_FACTS,
    steps: &RAISED_FACTS,
    least_spare: 2,
};
const MODIFIED_BEFORE: Way = Way {
    facts: requests::modified_predecessor_facts,
    wanted: &requests::MODIFIED_PREDECESSOR_FACTS,
    steps: &LOWERED_FACTS,
    least_spare: 64,
};
const MODIFIED_AFTER: Way = Way {
    facts: requests::modified_successor_facts,
    wanted: &requests::MODIFIED_SUCCESSOR_FACTS,
    steps: &RAISED_FACTS,
    least_spare: 64,
};

fn before(spelling: Spelling) -> Pair {
    let function = exported::qorshudan_predecessor_in;
    Pair::In(spelling, function, reference::predecessor_in)
}

fn after(spelling: Spelling) -> Pair {
    let function = exported::qorshudan_successor_in;
    Pair::In(spelling, function, reference::successor_in)
}

fn modified_before(spelling: Spelling) -> Pair {
    let function = exported::qorshudan_modified_predecessor_in;
    Pair::Deep(spelling, function, reference::modified_predecessor_in)
}

fn modified_after(spelling: Spelling) -> Pair {
    let function = exported::qorshudan_modified_successor_in;
    Pair::Deep(spelling, function, reference::modified_successor_in)
}

#[test]
fn predecessor_in_full() {
    let spelling = Spelling::Full;
    compare("predecessor_in, full", spelling, before(spelling), BEFORE);
}

#[test]
fn predecessor_in_ldh() {
    let spelling = Spelling::Ldh;
    compare("predecessor_in, LDH", spelling, before(spelling), BEFORE);
}

#[test]
fn successor_in_full() {
    let spelling = Spelling::Full;
    compare("successor_in, full", spelling, after(spelling), AFTER);
}

#[test]
fn successor_in_ldh() {
    let spelling = Spelling::Ldh;
    compare("successor_in, LDH", spelling, after(spelling), AFTER);
}

#[test]
fn modified_predecessor_in_full() {
    let (spelling, name) = (Spelling::Full, "modified_predecessor_in, full");
    compare(name, spelling, modified_before(spelling), MODIFIED_BEFORE);
}

#[test]
fn modified_predecessor_in_ldh() {
    let (spelling, name) = (Spelling::Ldh, "modified_predecessor_in, LDH");
    compare(name, spelling, modified_before(spelling), MODIFIED_BEFORE);
}

#[test]
fn modified_successor_in_full() {
    let (spelling, name) = (Spelling::Full, "modified_successor_in, full");
    compare(name, spelling, modified_after(spelling), MODIFIED_AFTER);
}

#[test]
fn modified_successor_in_ldh() {
    let (spelling, name) = (Spelling::Ldh, "modified_successor_in, LDH");
    compare(name, spelling, modified_after(spelling), MODIFIED_AFTER);
}
