//! Prints cases with the second program's answers, for the tests of a module in another language:
//! `answers SEED COUNT` prints COUNT of each operation. A line has the operation, its arguments and
//! the outcome, with tabs between: octets in hex, `-` for none, numbers in decimal, types with
//! commas, and so names of a list. An outcome is `=` and the answer, or `!` and the refusal's number,
//! reason and place.

use common::names::starts;
use common::{hex, Random};
use comparison::requests::{self, Request};
use comparison::spelling::{self, Spelling};
use comparison::{bitmaps, depths, enclosers, hashes, names, owners, texts};
use reference::Refusal;
use std::env;
use std::fmt::Display;
use std::io::{self, BufWriter, Write};
use std::process::ExitCode;

/// Room for every answer.
const ROOM: usize = 1 << 16;

fn main() -> ExitCode {
    let numbers: Vec<u64> = env::args().skip(1).flat_map(|one| one.parse()).collect();
    let [seed, count] = numbers[..] else {
        eprintln!("usage: answers SEED COUNT");
        return ExitCode::FAILURE;
    };
    match write_all(seed, count, &mut BufWriter::new(io::stdout().lock())) {
        Ok(()) => ExitCode::SUCCESS,
        Err(error) => {
            eprintln!("answers: {error}");
            ExitCode::FAILURE
        }
    }
}

/// An operation: its name, and a case of it as its arguments and its outcome.
type Operation = (&'static str, fn(&mut Random) -> (Vec<String>, String));

const OPERATIONS: [Operation; 28] = [
    ("check", |r| {
        of_octets(names::any(r).1, |name| {
            number(reference::check(name).map(|name| name.length()))
        })
    }),
    ("fold", |r| {
        of_octets(names::any(r).1, |name| octets(reference::fold(name, ROOM)))
    }),
    ("label_places", |r| {
        of_octets(names::any(r).1, |name| {
            octets(reference::label_places(name, ROOM))
        })
    }),
    ("compare", compare),
    ("key", |r| {
        of_octets(names::any(r).1, |name| {
            octets(reference::write_key(name, ROOM))
        })
    }),
    ("from_key", |r| {
        of_octets(a_key(r), |key| octets(reference::read_key(key, ROOM)))
    }),
    ("text", |r| {
        of_octets(names::any(r).1, |name| {
            octets(reference::write_text(name, ROOM))
        })
    }),
    ("wire", |r| {
        of_octets(texts::any(r).1, |text| {
            octets(reference::read_text(text, ROOM))
        })
    }),
    ("predecessor", |r| neighbour(r, Side::Before, false)),
    ("successor", |r| neighbour(r, Side::After, false)),
    ("modified_predecessor", |r| neighbour(r, Side::Before, true)),
    ("modified_successor", |r| neighbour(r, Side::After, true)),
    ("hash_after", |r| {
        of_octets(hashes::any(r).1, |hash| {
            octets(reference::hash_after(hash, ROOM))
        })
    }),
    ("hash_before", |r| {
        of_octets(hashes::any(r).1, |hash| {
            octets(reference::hash_before(hash, ROOM))
        })
    }),
    ("write_hash_label", |r| {
        of_octets(hashes::any(r).1, |hash| {
            octets(reference::write_hash_label(hash, ROOM))
        })
    }),
    ("read_hash_label", |r| {
        of_octets(hashes::any_label(r).1, |label| {
            octets(reference::read_hash_label(label, ROOM))
        })
    }),
    ("hash_between", hash_between),
    ("closest_encloser", closest_encloser),
    ("wildcard", |r| {
        of_octets(names::any(r).1, |name| {
            octets(reference::wildcard(name, ROOM))
        })
    }),
    ("subtree_successor", subtree_successor),
    ("next_closer", next_closer),
    ("covers", covers),
    ("denial", denial),
    ("find_owner", find_owner),
    ("read_types", |r| {
        of_octets(bitmaps::any(r).1, |bitmap| {
            types(reference::read_types(bitmap, ROOM))
        })
    }),
    ("write_types", |r| {
        let list = bitmaps::list(r).1;
        (
            vec![listed(&list)],
            octets(reference::write_types(&list, ROOM)),
        )
    }),
    ("has_type", has_type),
    ("ends", |r| of_octets(bitmaps::any(r).1, ends)),
];

fn write_all(seed: u64, count: u64, to: &mut dyn Write) -> io::Result<()> {
    for (name, one) in OPERATIONS {
        let mut random = Random::named(seed, name);
        for _ in 0..count {
            let (arguments, outcome) = one(&mut random);
            writeln!(to, "{name}\t{}\t{outcome}", arguments.join("\t"))?;
        }
    }
    to.flush()
}

/// Octets in hex, and `-` for none.
fn shown(octets: &[u8]) -> String {
    match octets {
        [] => "-".into(),
        _ => hex(octets),
    }
}

/// Types with commas, and `-` for none.
fn listed(types: &[u16]) -> String {
    match types {
        [] => "-".into(),
        _ => types
            .iter()
            .map(u16::to_string)
            .collect::<Vec<_>>()
            .join(","),
    }
}

/// Names with commas, and `-` for no name.
fn in_a_row(names: &[Vec<u8>]) -> String {
    match names {
        [] => "-".into(),
        _ => names
            .iter()
            .map(|name| shown(name))
            .collect::<Vec<_>>()
            .join(","),
    }
}

fn outcome<T>(result: Result<T, Refusal>, show: impl Fn(T) -> String) -> String {
    match result {
        Ok(answer) => format!("=\t{}", show(answer)),
        Err(refusal) => format!(
            "!\t{}\t{}\t{}",
            refusal.number(),
            refusal.reason(),
            refusal.place()
        ),
    }
}

fn octets(result: Result<Vec<u8>, Refusal>) -> String {
    outcome(result, |octets| shown(&octets))
}

fn types(result: Result<Vec<u16>, Refusal>) -> String {
    outcome(result, |types| listed(&types))
}

fn number<T: Display>(result: Result<T, Refusal>) -> String {
    outcome(result, |number| number.to_string())
}

fn of_octets(given: Vec<u8>, told: fn(&[u8]) -> String) -> (Vec<String>, String) {
    (vec![shown(&given)], told(&given))
}

fn compare(random: &mut Random) -> (Vec<String>, String) {
    let first = names::any(random).1;
    let second = match random.below(3) {
        0 => names::any(random).1,
        1 => common::names::change_case(random, &first, 2),
        _ if reference::check(&first).is_ok() => names::change_label_octet(random, &first),
        _ => names::well_formed(random),
    };
    let told = number(reference::compare(&first, &second));
    (vec![shown(&first), shown(&second)], told)
}

/// The key of a name, whole or with an octet changed, or any octets.
fn a_key(random: &mut Random) -> Vec<u8> {
    let name = names::well_formed(random);
    let mut key = reference::write_key(&name, ROOM).expect("the name is well formed");
    match random.below(4) {
        0 if !key.is_empty() => {
            let place = random.below(key.len());
            key[place] = random.pick(&[0, 1, 2, 3, 64, 65, 90, 91, 255]);
            key
        }
        1 => {
            key.truncate(random.below(key.len() + 1));
            key
        }
        _ => key,
    }
}

#[derive(Clone, Copy)]
enum Side {
    Before,
    After,
}

fn neighbour(random: &mut Random, side: Side, modified: bool) -> (Vec<String>, String) {
    let mut request = requests::any(random, if modified { 64 } else { 2 });
    if modified {
        depths::deepen(random, &mut request);
    }
    let spelling = random.pick(&[Spelling::Full, Spelling::Ldh]);
    if spelling == Spelling::Ldh {
        spelling::keep_to_alphabet(random, &mut request);
    }
    let Request {
        apex,
        limit,
        name,
        depth,
        ..
    } = &request;
    let (alphabet, limit, depth) = (spelling.alphabet(), *limit, *depth);
    let told = octets(match (side, modified) {
        (Side::Before, false) => reference::predecessor_in(alphabet, apex, limit, name, ROOM),
        (Side::After, false) => reference::successor_in(alphabet, apex, limit, name, ROOM),
        (Side::Before, true) => {
            reference::modified_predecessor_in(alphabet, depth, apex, limit, name, ROOM)
        }
        (Side::After, true) => {
            reference::modified_successor_in(alphabet, depth, apex, limit, name, ROOM)
        }
    });
    let hostnames = u8::from(spelling == Spelling::Ldh);
    let mut arguments = vec![
        shown(name),
        shown(apex),
        limit.to_string(),
        hostnames.to_string(),
    ];
    if modified {
        arguments.push(depth.to_string());
    }
    (arguments, told)
}

fn hash_between(random: &mut Random) -> (Vec<String>, String) {
    let mut three = [(); 3].map(|()| hashes::any(random).1);
    if random.one_in(3) {
        three[2] = three[random.below(2)].clone();
    }
    let [first, hash, second] = &three;
    let told = number(reference::hash_between(first, hash, second).map(u8::from));
    (three.iter().map(|one| shown(one)).collect(), told)
}

fn closest_encloser(random: &mut Random) -> (Vec<String>, String) {
    let three = enclosers::three(random).1;
    let [query, owner, next] = &three;
    let found = reference::closest_encloser(query, owner, next)
        .octets(owner, next)
        .to_vec();
    (
        three.iter().map(|one| shown(one)).collect(),
        octets(Ok(found)),
    )
}

fn subtree_successor(random: &mut Random) -> (Vec<String>, String) {
    let mut request = requests::any(random, 2);
    let spelling = random.pick(&[Spelling::Full, Spelling::Ldh]);
    if spelling == Spelling::Ldh {
        spelling::keep_to_alphabet(random, &mut request);
    }
    let Request {
        apex, limit, name, ..
    } = &request;
    let told = octets(reference::subtree_successor(
        spelling.alphabet(),
        apex,
        *limit,
        name,
        ROOM,
    ));
    let hostnames = u8::from(spelling == Spelling::Ldh);
    let arguments = vec![
        shown(name),
        shown(apex),
        limit.to_string(),
        hostnames.to_string(),
    ];
    (arguments, told)
}

/// The query comes first, since the answer has its kind.
fn next_closer(random: &mut Random) -> (Vec<String>, String) {
    let [query, owner, _] = enclosers::three(random).1;
    let encloser = match reference::check(&query).is_ok() && random.one_in(2) {
        true => query[random.pick(&starts(&query))..].to_vec(),
        false => owner,
    };
    let length = reference::next_closer(&encloser, &query);
    let found = query[query.len() - length..].to_vec();
    (vec![shown(&query), shown(&encloser)], octets(Ok(found)))
}

fn covers(random: &mut Random) -> (Vec<String>, String) {
    let [name, owner, next] = enclosers::three(random).1;
    let told = number(Ok(u8::from(reference::covers(&owner, &next, &name))));
    ([&owner, &next, &name].map(|one| shown(one)).to_vec(), told)
}

/// The query comes first, since the answer has its kind; then the apex and the encloser.
fn denial(random: &mut Random) -> (Vec<String>, String) {
    let Request {
        apex,
        mut limit,
        name: mut query,
        ..
    } = requests::any(random, 2);
    let mut encloser = match reference::check(&query) {
        // Mostly one within the zone, with the query under it.
        Ok(_) if !random.one_in(6) => {
            let mut places = starts(&query);
            if !random.one_in(6) {
                places.retain(|&place| place > 0 && query.len() - place >= apex.len());
            }
            match places[..] {
                [] => apex.clone(),
                _ => query[random.pick(&places)..].to_vec(),
            }
        }
        _ => names::any(random).1,
    };
    // Names beside the wildcard, whose gaps touch, also where the limit leaves no octet between them.
    if random.one_in(3) && encloser.len() < 250 {
        let beside = [
            &b"*"[..],
            b"*\0",
            b"*\0\0",
            b"+",
            b")",
            b")\xff",
            b"\0",
            b"*a",
        ];
        let label = random.pick(&beside);
        query = [&[label.len() as u8], label, &encloser].concat();
        if random.one_in(2) {
            limit = (query.len() + random.below(3)) as u64;
        }
    }
    if random.one_in(3) {
        encloser = common::names::change_case(random, &encloser, 2);
    }
    let told = reference::denial(&apex, limit, &encloser, &query, ROOM);
    let names = [&query, &apex, &encloser].map(|one| shown(one));
    (
        [&names[..], &[limit.to_string()]].concat(),
        outcome(told, |names| in_a_row(&names)),
    )
}

/// A list of names, its apex and limit, and a query; answered with the index of the owner or `-`, the
/// number of looks, and the closest encloser of a query in the gap from that owner to the next one.
fn find_owner(random: &mut Random) -> (Vec<String>, String) {
    let list = loop {
        match owners::list(random, 24) {
            ("in order", list) => break list,
            // What is wrong with the starts alone cannot be asked of a list of names.
            (class, _) if class.contains("start") || class.contains("behind") => {}
            (_, list) if random.one_in(4) => break list,
            _ => {}
        }
    };
    let ends = list.starts.iter().skip(1).map(|&start| start as usize);
    let places = list.starts.iter().map(|&start| start as usize);
    let names: Vec<Vec<u8>> = places
        .zip(ends.chain([list.names.len()]))
        .map(|(start, end)| list.names[start..end].to_vec())
        .collect();
    let query = owners::query(random, &list).1;
    let checked = reference::check_owners(&list.apex, list.limit, &list.names, &list.starts);
    let told = checked
        .and_then(|_| reference::find_owner(&list.names, &list.starts, &query))
        .map(|found| match found.owner {
            None => format!("-,{},-", found.looks),
            Some(index) => {
                let (owner, next) = (&names[index], &names[(index + 1) % names.len()]);
                let encloser = reference::closest_encloser(&query, owner, next);
                let encloser = shown(encloser.octets(owner, next));
                format!("{index},{},{encloser}", found.looks)
            }
        });
    let arguments = vec![
        in_a_row(&names),
        shown(&list.apex),
        list.limit.to_string(),
        shown(&query),
    ];
    (arguments, outcome(told, |told| told))
}

fn has_type(random: &mut Random) -> (Vec<String>, String) {
    let bitmap = bitmaps::any(random).1;
    let types = reference::read_types(&bitmap, ROOM).unwrap_or_default();
    let asked = bitmaps::asked(random, &types);
    let told = number(reference::has_type(&bitmap, asked).map(u8::from));
    (vec![shown(&bitmap), asked.to_string()], told)
}

/// How many types a bitmap has, the smallest and the largest: three numbers, `-` for none.
fn ends(bitmap: &[u8]) -> String {
    let end = |one: Option<u16>| one.map_or("-".into(), |one| one.to_string());
    let all = reference::count_types(bitmap).and_then(|count| {
        Ok((
            count,
            reference::smallest_type(bitmap)?,
            reference::largest_type(bitmap)?,
        ))
    });
    outcome(all, |(count, smallest, largest)| {
        format!("{count},{},{}", end(smallest), end(largest))
    })
}
