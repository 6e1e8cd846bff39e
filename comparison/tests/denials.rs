//! Compares the denial of a query, the subtree successor of a name, the next closer name of a query, and
//! whether a gap covers a name, with the reference.

use common::names::starts;
use common::Random;
use comparison::call::{Input, Outcome, Run, Wanted};
use comparison::enclosers::{small, three, CLASSES};
use comparison::neighbours::{Operation, Pair, DEPTH_FACTS};
use comparison::requests::{self, Request};
use comparison::spelling::{Spelling, COMMON_FACTS, LDH_FACTS, REFUSAL_FACTS, SPELLINGS};
use comparison::{exported, RANDOM_INPUTS};
use qorshudan::exported::qorshudan_subtree_successor;
use reference::Name;

/// What is true of the subtree successor of a name, all folded.
fn subtree_facts(apex: &Name, name: &Name, answer: &Name) -> Vec<&'static str> {
    if answer == apex {
        return vec!["nothing comes after it"];
    }
    assert!(!answer.is_at_or_under(name), "{answer:?} under {name:?}");
    match answer.labels().len() == name.labels().len() {
        true => vec!["as many labels"],
        false => vec!["fewer labels"],
    }
}

const SUBTREE_FACTS: [&str; 3] = ["nothing comes after it", "as many labels", "fewer labels"];

fn subtree_successor_in(
    name: &'static str,
    spelling: Spelling,
    numbers: &[u8],
    more: &[&[&'static str]],
) {
    Operation {
        name,
        pair: Pair::In(
            spelling,
            qorshudan_subtree_successor,
            reference::subtree_successor,
        ),
        facts: subtree_facts,
        depths: false,
        least_spare: 2,
        numbers,
        wanted: &[&SUBTREE_FACTS, &DEPTH_FACTS, &COMMON_FACTS, &more.concat()],
    }
    .compare();
}

#[test]
fn subtree_successor() {
    let numbers = [0, 1, 2, 3, 4, 5, 6, 9];
    subtree_successor_in("subtree_successor", Spelling::Full, &numbers, &[]);
}

#[test]
fn subtree_successor_of_letters_digits_hyphens() {
    let numbers = [0, 1, 2, 3, 4, 5, 6, 9, 12];
    let facts: [&[&str]; 3] = [&LDH_FACTS, &REFUSAL_FACTS, &SPELLINGS];
    subtree_successor_in("subtree_successor (ldh)", Spelling::Ldh, &numbers, &facts);
}

#[test]
fn covers() {
    let (mut run, mut random) = Run::start("covers");
    let mut one = |[name, owner, next]: &[Vec<u8>; 3], class: Option<&'static str>| {
        let covered = reference::covers(owner, next, name);
        let input = Input {
            slices: &[owner, next, name],
            limit: None,
            room: None,
        };
        run.call(input, &Outcome::of_bool(Ok(covered)), |slices, _| {
            exported::covers(slices[0], slices[1], slices[2])
        });
        assert_eq!(qorshudan::covers(owner, next, name), covered);
        if let Some(class) = class {
            run.count(class);
            run.count(if covered { "covered" } else { "not covered" });
            if covered && reference::compare(owner, next).is_ok_and(|order| order >= 0) {
                run.count("covered round the end");
            }
        }
    };
    let small = small();
    for name in &small {
        for owner in &small {
            for next in &small {
                one(&[name.clone(), owner.clone(), next.clone()], None);
            }
        }
    }
    for _ in 0..RANDOM_INPUTS {
        let (class, three) = three(&mut random);
        one(&three, Some(class));
    }
    let facts = ["covered", "not covered", "covered round the end"];
    run.finish(&Wanted {
        often: 500,
        numbers: &[0],
        facts: [&CLASSES[..], &facts].concat(),
    });
}

#[test]
fn next_closer() {
    let (mut run, mut random) = Run::start("next_closer");
    let mut one = |encloser: &[u8], query: &[u8], class: Option<&'static str>| {
        let length = reference::next_closer(encloser, query);
        let input = Input {
            slices: &[encloser, query],
            limit: None,
            room: None,
        };
        run.call(input, &Outcome::of_value(Ok(length as u64)), |slices, _| {
            exported::next_closer(slices[0], slices[1])
        });
        // The Rust function hands back that part of the query itself.
        let part = qorshudan::next_closer(encloser, query);
        assert_eq!(
            part.as_ptr_range(),
            query[query.len() - length..].as_ptr_range()
        );
        if let Some(class) = class {
            run.count(class);
            run.count(match length {
                0 => "none",
                length if length == query.len() => "the query itself",
                _ => "an ancestor of the query",
            });
        }
    };
    let small = small();
    for encloser in &small {
        for query in &small {
            one(encloser, query, None);
        }
    }
    for _ in 0..RANDOM_INPUTS {
        let (class, [query, owner, _]) = three(&mut random);
        // Half of the time the encloser is an ancestor of the query, in the other's spelling where it can be.
        let encloser = match reference::check(&query).is_ok() && random.one_in(2) {
            true => {
                let places = starts(&query);
                query[random.pick(&places)..].to_ascii_uppercase()
            }
            false => owner,
        };
        one(&encloser, &query, Some(class));
    }
    let facts = ["none", "the query itself", "an ancestor of the query"];
    run.finish(&Wanted {
        often: 500,
        numbers: &[0],
        facts: [&CLASSES[..], &facts].concat(),
    });
}

/// The octets of four names of 255.
const ALL: usize = 1020;

/// Labels around the wildcard's own, and that one.
fn beside_wildcard(random: &mut Random) -> Vec<u8> {
    let last = |count| [&b")"[..], &vec![255; count]].concat();
    match random.below(8) {
        0 => b"*".to_vec(),
        1 | 2 => b"*\0".to_vec(),
        3 => b"*\0\0".to_vec(),
        4 => b"+".to_vec(),
        5 => last(61),
        _ => last(62),
    }
}

/// How the encloser and the query of a random request come about.
const ENCLOSERS: [&str; 8] = [
    "the apex is the encloser",
    "another ancestor is the encloser",
    "the query beside the wildcard",
    "the query under what is beside the wildcard",
    "the query is its own encloser",
    "the encloser above the apex",
    "another name for the encloser",
    "a damaged encloser",
];

/// The encloser, and the query where it is to be another.
fn encloser(random: &mut Random, request: &mut Request) -> (&'static str, Vec<u8>) {
    let class = random.below(ENCLOSERS.len());
    let whole = reference::check(&request.name).is_ok();
    let places = if whole {
        starts(&request.name)
    } else {
        vec![0]
    };
    let mut ancestor = request.name[random.pick(&places)..].to_vec();
    if random.one_in(3) {
        ancestor.make_ascii_uppercase();
    }
    let encloser = match class {
        0 => request.apex.clone(),
        1 => ancestor,
        2 | 3 => {
            let encloser = match random.one_in(2) {
                true => request.apex.clone(),
                false => ancestor,
            };
            let label = beside_wildcard(random);
            request.name = [&[label.len() as u8][..], &label, &encloser].concat();
            if class == 3 {
                request.name = [&[1, random.below(256) as u8][..], &request.name].concat();
            }
            encloser
        }
        4 => request.name.clone(),
        5 if reference::check(&request.apex).is_ok() => {
            let parent = starts(&request.apex).get(1).copied().unwrap_or(0);
            request.apex[parent..].to_vec()
        }
        5 => vec![0],
        6 => comparison::names::any(random).1,
        _ if whole => comparison::names::damaged(random, ancestor),
        _ => ancestor,
    };
    (ENCLOSERS[class], encloser)
}

/// What is true of a denial that is answered.
fn denial_facts(request: &Request, encloser: &[u8], names: &[Vec<u8>]) -> Vec<&'static str> {
    let wildcard = [&b"\x01*"[..], encloser].concat();
    let closer = request.name.len() - reference::next_closer(encloser, &request.name);
    let closer = request.name[closer..].to_ascii_lowercase();
    let mut facts = vec![match names.len() {
        4 => "two gaps",
        _ if wildcard.eq_ignore_ascii_case(&closer) => "the next closer name is the wildcard",
        _ if closer[1] < b'*' => "joined, the wildcard last",
        _ => "joined, the wildcard first",
    }];
    if request.limit == request.apex.len() as u64 + 2 {
        facts.push("two octets above the apex");
    }
    if request.name.len() > 252 {
        facts.push("a query of 253 to 255 octets");
    }
    if starts(&request.name).len() == 127 {
        facts.push("a query of 127 labels");
    }
    facts
}

const DENIAL_FACTS: [&str; 6] = [
    "two gaps",
    "the next closer name is the wildcard",
    "joined, the wildcard last",
    "joined, the wildcard first",
    "two octets above the apex",
    "a query of 253 to 255 octets",
];

#[test]
fn denial() {
    let (mut run, mut random) = Run::start("denial");
    let mut one = |request: &Request, encloser: &[u8], room: usize, class: Option<&'static str>| {
        let Request {
            apex, limit, name, ..
        } = request;
        let names = reference::denial(apex, *limit, encloser, name, room);
        if let (Some(class), Ok(names)) = (class, &names) {
            run.count(class);
            run.count_all(&denial_facts(request, encloser, names));
        }
        // The Rust function hands back the names as parts of the space.
        let mut space = vec![7; room];
        match (
            qorshudan::denial(apex, *limit, encloser, name, &mut space),
            &names,
        ) {
            (Ok(denial), Ok(names)) => {
                let found: Vec<&[u8]> = denial
                    .gaps()
                    .flat_map(|gap| [gap.owner, gap.next])
                    .collect();
                assert_eq!(&found, names);
            }
            (Err(ours), Err(theirs)) => assert_eq!(ours.number(), theirs.number()),
            (ours, theirs) => panic!("{ours:?} and {theirs:?}"),
        }
        let input = Input {
            slices: &[apex, encloser, name],
            limit: Some(*limit),
            room: Some(room),
        };
        run.call(input, &Outcome::of_names(names), |slices, space| {
            exported::denial(slices[0], *limit, slices[1], slices[2], space)
        });
    };
    for request in requests::directed() {
        for encloser in [&request.apex, &request.name, &vec![0], &vec![], &vec![1]] {
            for room in [0, 255, 540, 1019, ALL] {
                one(&request, encloser, room, None);
            }
        }
    }
    let most = [&[1, 97].repeat(127)[..], &[0]].concat();
    for labels in 0..=127 {
        for apex in [2 * labels, 254] {
            let request = Request {
                class: "127 labels",
                apex: most[apex..].to_vec(),
                limit: 255,
                name: most.to_ascii_uppercase(),
                depth: 1,
            };
            one(&request, &most[2 * labels..], ALL, Some("127 labels"));
        }
    }
    for _ in 0..RANDOM_INPUTS {
        let mut request = requests::any(&mut random, 2);
        let (class, encloser) = encloser(&mut random, &mut request);
        let all = reference::denial(&request.apex, request.limit, &encloser, &request.name, ALL);
        let room = match (random.below(4), all.map(|names| names.concat().len())) {
            (0, Ok(length)) => length,
            (1, Ok(length)) => length - 1,
            (2, _) => random.below(ALL + 9),
            _ => ALL,
        };
        one(&request, &encloser, room, Some(class));
    }
    run.finish(&Wanted {
        often: 200,
        numbers: &[0, 1, 2, 3, 4, 5, 6, 9, 18],
        facts: [&ENCLOSERS[..4], &DENIAL_FACTS].concat(),
    });
}
