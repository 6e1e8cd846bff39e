//! Compares the hashes next to a hash, owner labels, and what lies between two hashes, with the
//! reference.

use common::Random;
use comparison::call::{Input, Outcome, Run, Wanted};
use comparison::hashes::{any, any_label, directed, directed_labels, CLASSES, HASH, LABEL_CLASSES};
use comparison::{exported, names, RANDOM_INPUTS};
use qorshudan::exported::{
    qorshudan_hash_after, qorshudan_hash_before, qorshudan_read_hash_label,
    qorshudan_write_hash_label, Filling,
};
use reference::{
    hash_after, hash_before, hash_between, read_hash_label, write_hash_label, Refusal,
};

type Reference = fn(&[u8], usize) -> Result<Vec<u8>, Refusal>;

/// What is compared: the exported function, the reference, how long an answer is, and the inputs.
struct Operation {
    name: &'static str,
    function: Filling,
    reference: Reference,
    answer: usize,
    any: fn(&mut Random) -> (&'static str, Vec<u8>),
    directed: Vec<Vec<u8>>,
    classes: &'static [&'static str],
}

fn compare(operation: Operation) {
    let (mut run, mut random) = Run::start(operation.name);
    let one = |run: &mut Run, octets: &[u8], room: usize| {
        let input = Input {
            slices: &[octets],
            limit: None,
            room: Some(room),
        };
        let outcome = Outcome::of_octets((operation.reference)(octets, room));
        run.call(input, &outcome, |slices, space| {
            exported::fill(operation.function, slices[0], space)
        });
    };
    let answer = operation.answer;
    for octets in &operation.directed {
        for room in [0, answer - 1, answer, answer + 1, 255] {
            one(&mut run, octets, room);
        }
    }
    for _ in 0..RANDOM_INPUTS {
        let (class, octets) = (operation.any)(&mut random);
        run.count(class);
        let room = names::room(&mut random, answer);
        if (operation.reference)(&octets, answer).is_ok() {
            run.count(names::room_fact(answer, room));
        }
        one(&mut run, &octets, room);
    }
    let mut facts = operation.classes.to_vec();
    facts.extend(names::ROOM_FACTS);
    run.finish(&Wanted {
        often: 500,
        numbers: &[0, 9, 17],
        facts,
    });
}

#[test]
fn after() {
    compare(Operation {
        name: "hash_after",
        function: qorshudan_hash_after,
        reference: hash_after,
        answer: HASH,
        any,
        directed: directed(),
        classes: &CLASSES,
    });
}

#[test]
fn before() {
    compare(Operation {
        name: "hash_before",
        function: qorshudan_hash_before,
        reference: hash_before,
        answer: HASH,
        any,
        directed: directed(),
        classes: &CLASSES,
    });
}

#[test]
fn write_label() {
    compare(Operation {
        name: "write_hash_label",
        function: qorshudan_write_hash_label,
        reference: write_hash_label,
        answer: 32,
        any,
        directed: directed(),
        classes: &CLASSES,
    });
}

#[test]
fn read_label() {
    compare(Operation {
        name: "read_hash_label",
        function: qorshudan_read_hash_label,
        reference: read_hash_label,
        answer: HASH,
        any: any_label,
        directed: directed_labels(),
        classes: &LABEL_CLASSES,
    });
}

/// Where three hashes lie: near one another, at the ends, the same, or anywhere.
fn three(random: &mut Random) -> [Vec<u8>; 3] {
    let (_, first) = any(random);
    let mut three = [first.clone(), first.clone(), first];
    for other in &mut three[1..] {
        match random.below(8) {
            0 => {}
            1 => *other = any(random).1,
            2 => *other = random.octets(HASH),
            3 => *other = vec![random.pick(&[0, 0xff]); HASH],
            4 if !other.is_empty() => {
                // one octet of it changed, by one or to anything
                let place = random.below(other.len());
                other[place] = match random.below(3) {
                    0 => other[place].wrapping_add(1),
                    1 => other[place].wrapping_sub(1),
                    _ => random.octet(),
                };
            }
            _ => {
                let steps = random.between(1, 4);
                for _ in 0..steps {
                    let step = if random.one_in(2) {
                        hash_after
                    } else {
                        hash_before
                    };
                    *other = step(other, HASH).unwrap_or_else(|_| other.clone());
                }
            }
        }
    }
    three.rotate_left(random.below(3));
    three
}

#[test]
fn between() {
    let (mut run, mut random) = Run::start("hash_between");
    let mut one = |three: &[Vec<u8>; 3]| {
        let [first, hash, second] = three;
        let input = Input {
            slices: &[first, hash, second],
            limit: None,
            room: None,
        };
        let outcome = Outcome::of_bool(hash_between(first, hash, second));
        run.call(input, &outcome, |slices, _| {
            exported::between(slices[0], slices[1], slices[2])
        });
        if outcome.number() == 0 {
            run.count(if outcome.value() == 1 {
                "between"
            } else {
                "outside"
            });
            if first == second {
                run.count("the two are equal");
            }
            if first == hash || hash == second {
                run.count("an end");
            }
            if second < first {
                run.count("round");
            }
        }
    };
    let few = [0x00, 0x01, 0x7f, 0x80, 0xfe, 0xff].map(|octet| vec![octet; HASH]);
    for first in &few {
        for hash in &few {
            for second in &few {
                one(&[first.clone(), hash.clone(), second.clone()]);
            }
        }
    }
    for length in (0..=40).filter(|&length| length != HASH) {
        for place in 0..3 {
            let mut three = [7, 7, 7].map(|octet| vec![octet; HASH]);
            three[place] = vec![7; length];
            one(&three);
        }
    }
    for _ in 0..RANDOM_INPUTS {
        one(&three(&mut random));
    }
    run.finish(&Wanted {
        often: 500,
        numbers: &[0, 17],
        facts: vec!["between", "outside", "the two are equal", "an end", "round"],
    });
}
