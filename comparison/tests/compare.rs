//! Compares the comparison of two names with the reference.

use common::names::change_case;
use common::Random;
use comparison::call::{Input, Outcome, Run, Wanted};
use comparison::{exported, names, RANDOM_INPUTS};

const PAIRS: [&str; 8] = [
    "two of any class",
    "letter case only",
    "one octet of a label changed",
    "long shared tail",
    "parent and child",
    "a label and its beginning",
    "first malformed",
    "second malformed",
];

/// Two names of a random kind of pair.
fn pair(random: &mut Random) -> (&'static str, Vec<u8>, Vec<u8>) {
    let class = random.below(PAIRS.len());
    let first = names::well_formed(random);
    let second = match class {
        0 => {
            let (_, first) = names::any(random);
            let (_, second) = names::any(random);
            return (PAIRS[0], first, second);
        }
        1 => change_case(random, &first, 2),
        2 => names::change_label_octet(random, &first),
        3 => {
            // A few labels in front of each, behind them up to 126 labels that both have.
            let shared = match random.below(2) {
                0 => {
                    let octets = 2 * random.between(100, 126);
                    let kind = names::kind(random);
                    names::put_in_front(random, &[0], octets, kind, |_| 1)
                }
                _ => {
                    let length = random.between(3, 251);
                    names::of_length(random, length)
                }
            };
            let left = 255 - shared.len();
            let with_front = |random: &mut Random| {
                let octets = random.between(2, 12).min(left);
                let kind = names::kind(random);
                let name = names::put_in_front(random, &shared, octets, kind, |r| r.between(1, 4));
                change_case(random, &name, 2)
            };
            let first = with_front(random);
            let second = with_front(random);
            return (PAIRS[3], first, second);
        }
        4 => {
            let mut parent = &first[..];
            for _ in 0..random.between(1, 3) {
                if parent[0] != 0 {
                    parent = &parent[1 + usize::from(parent[0])..];
                }
            }
            parent.to_vec()
        }
        5 => {
            // The same name with the leftmost label cut at its end.
            let length = usize::from(first[0]);
            if length < 2 {
                first.clone()
            } else {
                let keep = random.between(1, length - 1);
                let label = &first[1..1 + keep];
                [&[keep as u8], label, &first[1 + length..]].concat()
            }
        }
        6 => {
            let second = match random.below(2) {
                0 => names::any(random).1,
                _ => names::well_formed(random),
            };
            return (PAIRS[6], malformed(random), second);
        }
        _ => return (PAIRS[7], first, malformed(random)),
    };
    match random.below(2) {
        0 => (PAIRS[class], first, second),
        _ => (PAIRS[class], second, first),
    }
}

fn malformed(random: &mut Random) -> Vec<u8> {
    loop {
        let (_, name) = names::any(random);
        if reference::check(&name).is_err() {
            return name;
        }
    }
}

#[test]
fn compare() {
    let (mut run, mut random) = Run::start("compare");
    let one = |run: &mut Run, first: &[u8], second: &[u8]| {
        let result = reference::compare(first, second);
        match result {
            Ok(0) if first == second => run.count("same octets"),
            Ok(0) => run.count("equal up to letter case"),
            Ok(-127 | 127) => run.count("126 shared labels"),
            Ok(number) if number.abs() > 100 => run.count("100 to 125 shared labels"),
            Ok(-1) => run.count("first earlier, nothing shared"),
            Ok(1) => run.count("first later, nothing shared"),
            Ok(number) if number < 0 => run.count("first earlier, with shared labels"),
            Ok(_) => run.count("first later, with shared labels"),
            Err(refusal) if refusal.number() == 4 && reference::check(second).is_err() => {
                run.count("both malformed");
            }
            Err(_) => {}
        }
        let input = Input {
            slices: &[first, second],
            limit: None,
            room: None,
        };
        let outcome = Outcome::of_comparison(result);
        run.call(input, &outcome, |slices, _| {
            exported::compare(slices[0], slices[1])
        });
    };
    let directed = names::directed();
    for (index, first) in directed.iter().enumerate() {
        one(&mut run, first, first);
        one(&mut run, first, b"\x03wwW\x07EXAMPLE\x03com\x00");
        one(&mut run, b"\x00", first);
        let other = &directed[random.below(directed.len())];
        one(&mut run, first, other);
        one(&mut run, &directed[(index + 1) % directed.len()], first);
    }
    for _ in 0..RANDOM_INPUTS {
        let (class, first, second) = pair(&mut random);
        run.count(class);
        one(&mut run, &first, &second);
    }
    let mut facts = PAIRS.to_vec();
    facts.extend([
        "same octets",
        "equal up to letter case",
        "126 shared labels",
        "100 to 125 shared labels",
        "first earlier, with shared labels",
        "first earlier, nothing shared",
        "first later, nothing shared",
        "first later, with shared labels",
        "both malformed",
    ]);
    run.finish(&Wanted {
        often: 500,
        numbers: &[0, 4, 11],
        facts,
    });
}
