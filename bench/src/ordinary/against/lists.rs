//! Lists of owners, right ones and damaged ones.

use super::super::*;
use super::refused;
use crate::names::{Class, Inputs, Kind, SEED};
use crate::operations::pack;
use common::names::change_case;
use common::{packed, wire, Random};

/// A list of so many owners of a zone, most often as it should be, else with an owner or a start changed.
fn list(number: usize, random: &mut Random) -> (Vec<u8>, Vec<u8>, Vec<Start>) {
    let label = |random: &mut Random, name: &mut Vec<u8>| {
        let size = random.between(1, 3);
        let octets: Vec<u8> = (0..size).map(|_| random.pick(b"ab*@[\x00\xff")).collect();
        *name = [&[size as u8], &octets[..], name].concat();
    };
    let mut apex = vec![0];
    (0..random.below(3)).for_each(|_| label(random, &mut apex));
    let mut owners = vec![apex.clone()];
    for _ in 1..number {
        let mut owner = apex.clone();
        (0..random.between(1, 4)).for_each(|_| label(random, &mut owner));
        owners.push(owner);
    }
    owners.sort_by(|one, other| compare(one, other).expect("names are well formed").cmp(&0));
    owners.dedup();
    for _ in 0..random.below(3) {
        let (index, other) = (random.below(owners.len()), random.below(owners.len()));
        match random.below(7) {
            0 => owners[index] = change_case(random, &owners[index], 2),
            1 => owners[index] = wire("b.a."),
            2 => owners[index] = owners[other].clone(),
            3 => drop(owners[index].pop()),
            4 => owners[index].push(random.pick(&[0, 1, 64])),
            5 => owners[index] = [&[1, 200].repeat(120)[..], &owners[index]].concat(),
            _ => owners.swap(index, other),
        }
    }
    let mut starts: Vec<Start> = Vec::new();
    let mut names = Vec::new();
    for owner in &owners {
        starts.push(names.len() as Start);
        names.extend_from_slice(owner);
    }
    if random.one_in(4) {
        let index = random.below(starts.len());
        starts[index] = random.between(0, names.len() + 1) as Start;
    }
    (apex, names, starts)
}

fn agree_on_list(apex: &[u8], limit: usize, names: &[u8], starts: &[Start], queries: &[&[u8]]) -> u64 {
    let second = reference::check_owners(apex, limit as u64, names, starts);
    let expected = second.map_or_else(refused, |number| packed(0, 0, number as u64));
    assert_eq!(pack(check_owners(apex, limit, names, starts)), expected);
    for query in queries {
        let second = reference::find_owner(names, starts, query);
        let found = find_owner(names, starts, query);
        match second {
            Ok(second) => assert_eq!(found, Ok(Found { owner: second.owner, looks: second.looks })),
            Err(refusal) => assert_eq!(pack(found), refused(refusal)),
        }
    }
    expected
}

#[test]
fn lists_of_owners() {
    let mut random = Random::new(16);
    let queries = Inputs::new(Kind::Names, Class::Mix, 2_000, SEED);
    let queries = queries.views();
    let [mut right, mut broken] = [0; 2];
    for round in 0..3_000 {
        let most = match round {
            _ if round % 500 == 0 => MAX_OWNERS,
            _ if round % 20 == 0 => 1_024,
            _ => 20,
        };
        let number = random.between(1, most);
        let (apex, names, starts) = list(number, &mut random);
        let spelt = change_case(&mut random, &apex, 2);
        let mut some = vec![random.pick(&queries).first, &apex, &[1]];
        for _ in 0..10 {
            // Owners and what is near them, in any spelling.
            let start = (random.pick(&starts) as usize).min(names.len());
            let end = names[start..].iter().position(|&octet| octet == 0).map_or(names.len(), |size| start + size + 1);
            some.push(&names[start..end]);
        }
        for limit in [255, apex.len() + 2, apex.len() + random.below(9), random.below(300)] {
            match agree_on_list(&spelt, limit, &names, &starts, &some) % 256 {
                0 => right += 1,
                _ => broken += 1,
            }
        }
    }
    assert!(right > 1_000 && broken > 1_000, "{right} {broken}");
}

/// The sizes of a list, and lists that pass them by one.
#[test]
fn sizes_of_lists() {
    let root = [0];
    let query: &[&[u8]] = &[&root, b"\x01b\x00"];
    let (mut names, mut starts) = (vec![0], vec![0]);
    for index in 0..MAX_OWNERS {
        starts.push(names.len() as Start);
        names.extend_from_slice(&[3, (index / 256) as u8, (index % 256 / 16) as u8, (index % 16) as u8, 0]);
    }
    let whole = names.len() - 5;
    agree_on_list(&root, 255, &names, &starts, query);
    let number = agree_on_list(&root, 255, &names[..whole], &starts[..MAX_OWNERS], query);
    assert_eq!(number, packed(0, 0, MAX_OWNERS as u64));
    for more in [MAX_OWNER_OCTETS - names.len(), MAX_OWNER_OCTETS + 1 - names.len()] {
        let filled = [&names[..], &vec![0; more]].concat();
        agree_on_list(&root, 255, &filled, &starts[..9], query);
        agree_on_list(&root, 255, &filled, &[], query);
    }
    agree_on_list(&root, 255, &[], &[], query);
    agree_on_list(&root, 255, &[], &[0], query);
}
