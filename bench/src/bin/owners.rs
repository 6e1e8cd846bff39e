//! Requests Six and Thirteen of document 02: a list of owners checked, and queries looked up in it, the library beside the ordinary Rust
//! version, and beside a search of the standard library with the library's own comparison. Every answer is compared, and then
//! all are timed by turns. `cargo run --release -p bench --bin owners [-- SEED]`.

use std::collections::BTreeMap;
use std::hint::black_box;
use std::process::ExitCode;
use std::time::Instant;

use bench::names::SEED;
use bench::ordinary;
use common::{packed, Random};
use qorshudan::{raw, OWNERS_MAX};

const QUERIES: usize = 4096;
const ROUNDS: usize = 35;

struct List {
    apex: Vec<u8>,
    names: Vec<u8>,
    starts: Vec<u32>,
    queries: Vec<Vec<u8>>,
}

fn main() -> ExitCode {
    let seed = std::env::args().nth(1).map_or(Ok(SEED), |word| word.parse());
    let Ok(seed) = seed else {
        eprintln!("usage: owners [SEED]");
        return ExitCode::FAILURE;
    };
    println!("Lists of owners, seed {seed}; nanoseconds of a lookup, and of a check for each owner.");
    println!("| owners | class | operation | ours | ordinary | ours / ordinary | binary search, our compare |");
    println!("|---:|---|---|---:|---:|---:|---:|");
    for (class, labels, length) in [("host", 1, 8), ("two labels", 2, 8), ("long", 3, 40)] {
        for count in [16, 256, 1_024, OWNERS_MAX] {
            let list = list(&mut Random::new(seed), count, labels, length);
            compare(&list);
            report(class, &list);
        }
    }
    ExitCode::SUCCESS
}

fn name(random: &mut Random, labels: usize, length: usize, apex: &[u8]) -> Vec<u8> {
    let mut name = Vec::new();
    for _ in 0..labels {
        let length = random.between(length.min(3), length);
        name.push(length as u8);
        name.extend((0..length).map(|_| random.pick(b"abcdefghijklmnopqrstuvwxyz0123456789-")));
    }
    name.extend_from_slice(apex);
    name
}

/// A list of so many owners, and queries of its zone, half of them owners.
fn list(random: &mut Random, count: usize, labels: usize, length: usize) -> List {
    let apex = b"\x07example\x03com\x00".to_vec();
    // By their keys, so that they are in the canonical order.
    let mut keyed = BTreeMap::new();
    let mut owner = apex.clone();
    while keyed.len() < count {
        let mut key = [0; qorshudan::KEY_MAX];
        let size = qorshudan::write_key(&owner, &mut key).expect("a name");
        keyed.insert(key[..size].to_vec(), owner);
        let labels = random.between(1, labels);
        owner = name(random, labels, length, &apex);
    }
    let owners: Vec<Vec<u8>> = keyed.into_values().collect();
    let (mut names, mut starts) = (Vec::new(), Vec::new());
    for owner in &owners {
        starts.push(names.len() as u32);
        names.extend_from_slice(owner);
    }
    let queries = (0..QUERIES)
        .map(|_| match random.below(2) {
            0 => owners[random.below(owners.len())].to_ascii_uppercase(),
            _ => name(random, labels, length, &apex),
        })
        .collect();
    List { apex, names, starts, queries }
}

fn owner(list: &List, index: usize) -> &[u8] {
    let end = list.starts.get(index + 1).map_or(list.names.len(), |&start| start as usize);
    &list.names[list.starts[index] as usize..end]
}

/// The number of owners that are not after the query, by the standard library's binary search.
fn search(list: &List, query: &[u8]) -> usize {
    let (mut low, mut high) = (0, list.starts.len());
    while low < high {
        let middle = (low + high) / 2;
        if raw::value(raw::compare(owner(list, middle), query)) <= 128 {
            low = middle + 1;
        } else {
            high = middle;
        }
    }
    low
}

fn compare(list: &List) {
    let count = list.starts.len();
    assert_eq!(raw::check_owners(&list.apex, 255, &list.names, &list.starts), packed(0, 0, count as u64));
    assert_eq!(ordinary::check_owners(&list.apex, 255, &list.names, &list.starts), Ok(count));
    for query in &list.queries {
        let found = raw::find_owner(&list.names, &list.starts, query);
        let expected = ordinary::find_owner(&list.names, &list.starts, query).expect("a checked list");
        let not_after = expected.owner.map_or(0, |index| index + 1);
        assert_eq!(found, packed(0, 0, (expected.looks + 256 * not_after) as u64));
        assert_eq!(search(list, query), not_after);
    }
}

fn time(calls: usize, run: impl Fn()) -> f64 {
    let start = Instant::now();
    run();
    start.elapsed().as_secs_f64() * 1e9 / calls as f64
}

fn report(class: &str, list: &List) {
    let count = list.starts.len();
    let mut best = [f64::INFINITY; 5];
    for _ in 0..ROUNDS {
        let times = [
            time(QUERIES, || {
                for query in &list.queries {
                    black_box(raw::find_owner(&list.names, &list.starts, query));
                }
            }),
            time(QUERIES, || {
                for query in &list.queries {
                    let _ = black_box(ordinary::find_owner(&list.names, &list.starts, query));
                }
            }),
            time(QUERIES, || {
                for query in &list.queries {
                    black_box(search(list, query));
                }
            }),
            time(count, || {
                black_box(raw::check_owners(&list.apex, 255, &list.names, &list.starts));
            }),
            time(count, || {
                let _ = black_box(ordinary::check_owners(&list.apex, 255, &list.names, &list.starts));
            }),
        ];
        for (best, time) in best.iter_mut().zip(times) {
            *best = best.min(time);
        }
    }
    let [ours, usual, searched, checked, check] = best;
    println!("| {count} | {class} | find_owner | {ours:.0} | {usual:.0} | {:.2} | {searched:.0} |", ours / usual);
    println!("| {count} | {class} | check_owners | {checked:.1} | {check:.1} | {:.2} | |", checked / check);
}
