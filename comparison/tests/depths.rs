//! Compares the modified neighbours at depths 0 to 4 and others with the reference, in both alphabets.

use comparison::depths::{
    predecessor_facts, successor_facts, ANSWER_FACTS, CLASSES, PREDECESSOR_FACTS, SUCCESSOR_FACTS,
};
use comparison::neighbours::{Facts, Operation, Pair};
use comparison::spelling::{Spelling, LDH_FACTS, REFUSAL_FACTS, SPELLINGS};
use qorshudan::exported;

fn compare(
    name: &'static str,
    spelling: Spelling,
    pair: Pair,
    facts: Facts,
    wanted: &[&'static str],
) {
    let (own, numbers): (Vec<&'static str>, &[u8]) = match spelling {
        Spelling::Full => (vec![], &[0, 1, 2, 3, 4, 5, 6, 7, 9]),
        Spelling::Ldh => (
            [&LDH_FACTS[..], &REFUSAL_FACTS, &SPELLINGS].concat(),
            &[0, 1, 2, 3, 4, 5, 6, 7, 9, 12],
        ),
    };
    Operation {
        name,
        pair,
        facts,
        depths: true,
        least_spare: 192,
        numbers,
        wanted: &[wanted, &own, &CLASSES, &ANSWER_FACTS],
    }
    .compare();
}

fn predecessor(name: &'static str, spelling: Spelling) {
    let function = exported::qorshudan_modified_predecessor_in;
    let pair = Pair::Deep(spelling, function, reference::modified_predecessor_in);
    compare(name, spelling, pair, predecessor_facts, &PREDECESSOR_FACTS);
}

fn successor(name: &'static str, spelling: Spelling) {
    let function = exported::qorshudan_modified_successor_in;
    let pair = Pair::Deep(spelling, function, reference::modified_successor_in);
    compare(name, spelling, pair, successor_facts, &SUCCESSOR_FACTS);
}

#[test]
fn predecessor_at_depths() {
    predecessor("modified_predecessor_in, depths, full", Spelling::Full);
}

#[test]
fn predecessor_at_depths_ldh() {
    predecessor("modified_predecessor_in, depths, LDH", Spelling::Ldh);
}

#[test]
fn successor_at_depths() {
    successor("modified_successor_in, depths, full", Spelling::Full);
}

#[test]
fn successor_at_depths_ldh() {
    successor("modified_successor_in, depths, LDH", Spelling::Ldh);
}
