//! Compares the check of lists of owners, and the lookup in them, with the reference.

use comparison::call::{Input, Outcome, Run, Wanted};
use comparison::owners::{list, no_name, query, List, CLASSES, QUERIES};
use common::Random;
use comparison::{exported, RANDOM_INPUTS};
use qorshudan::{Owners, OWNERS_MAX, OWNER_OCTETS_MAX};

fn check(run: &mut Run, list: &List) {
    let expected = reference::check_owners(&list.apex, list.limit, &list.names, &list.starts);
    let owners = Owners::check(&list.apex, list.limit, &list.names, &list.starts);
    assert_eq!(owners.ok().map(|owners| owners.len()), expected.ok());
    let outcome = Outcome::of_value(expected.map(|count| count as u64));
    let starts = list.start_octets();
    let input = Input {
        slices: &[&list.apex, &list.names, &starts],
        limit: Some(list.limit),
        room: None,
    };
    run.call(input, &outcome, |slices, _| {
        exported::check_owners(slices[0], list.limit, slices[1], slices[2])
    });
}

fn find(run: &mut Run, list: &List, query: &[u8]) {
    let expected = reference::find_owner(&list.names, &list.starts, query);
    if let Ok(found) = expected {
        assert!(found.looks <= 15);
    }
    let outcome = Outcome::of_value(expected.map(|found| {
        let owner = found.owner.map_or(0, |index| 1 + index);
        found.looks as u64 + 256 * owner as u64
    }));
    let starts = list.start_octets();
    let input = Input {
        slices: &[&list.names, &starts, query],
        limit: None,
        room: None,
    };
    run.call(input, &outcome, |slices, _| {
        exported::find_owner(slices[0], slices[1], slices[2])
    });
    // The Rust type finds the same in a list that it has checked.
    if let Ok(owners) = Owners::check(&list.apex, list.limit, &list.names, &list.starts) {
        let found = owners.find(query).ok();
        let same = expected.ok().map(|found| (found.owner, found.looks));
        assert_eq!(found.map(|found| (found.owner, found.looks)), same);
    }
}

/// Lists as large as they may be, and one larger, in owners and in octets.
fn large() -> Vec<List> {
    let name = |number: usize| format!("\x06n{number:05}\x00").into_bytes();
    let of = |count: usize, octets: usize| {
        let mut names = vec![0];
        let mut starts = vec![0];
        for number in 1..count {
            starts.push(names.len() as u32);
            names.extend(name(number));
        }
        names.resize(octets.max(names.len()), 0);
        List {
            apex: vec![0],
            limit: 255,
            names,
            starts,
        }
    };
    let mut lists = vec![
        of(OWNERS_MAX - 1, 0),
        of(OWNERS_MAX, 0),
        of(OWNERS_MAX + 1, 0),
    ];
    // The apex and names of 255 octets, which do not fill the octets that a list may have: what is
    // left behind them is the last owner's.
    let longest = |octets: usize| {
        let mut list = of(1, 0);
        for number in 1..OWNERS_MAX {
            list.starts.push(list.names.len() as u32);
            for label in [
                vec![b'x'; 61],
                vec![b'y'; 63],
                vec![b'z'; 63],
                format!("{number:063}").into_bytes(),
            ] {
                list.names.push(label.len() as u8);
                list.names.extend(label);
            }
            list.names.push(0);
        }
        list.names.resize(octets.max(list.names.len()), 0);
        list
    };
    lists.push(longest(0));
    for octets in [OWNER_OCTETS_MAX, OWNER_OCTETS_MAX + 1] {
        lists.push(of(2, octets));
        lists.push(longest(octets));
    }
    lists
}

/// How many owners a random list has at most: few, but for some as many as a list may have, and one
/// more.
fn many(random: &mut Random, round: usize) -> usize {
    match round {
        _ if round % 10_000 == 0 => OWNERS_MAX + 1,
        _ if round % 2_000 == 0 => 1_025,
        _ => random.between(1, 9),
    }
}

#[test]
fn check_owners() {
    let (mut run, mut random) = Run::start("check_owners");
    for list in large() {
        check(&mut run, &list);
    }
    for round in 0..RANDOM_INPUTS {
        let most = many(&mut random, round);
        let (class, mut list) = list(&mut random, most);
        match random.below(30) {
            0 => list.limit = random.pick(&[0, 256, u64::MAX]),
            1 => list.apex = no_name(&mut random),
            2 => list.limit = random.below(list.apex.len() + 1) as u64,
            _ => run.count(class),
        }
        check(&mut run, &list);
    }
    run.finish(&Wanted {
        often: 50,
        numbers: &[0, 1, 2, 3, 16],
        facts: CLASSES.to_vec(),
    });
}

#[test]
fn find_owner() {
    let (mut run, mut random) = Run::start("find_owner");
    for list in large() {
        for query in [
            &b"\x00"[..],
            b"\x06N08192\x00",
            b"\x01z\x00",
            b"\x06n08192\x01a\x00",
            b"",
        ] {
            find(&mut run, &list, query);
        }
    }
    for round in 0..RANDOM_INPUTS {
        let most = many(&mut random, round);
        let (class, list) = list(&mut random, most);
        let (kind, query) = query(&mut random, &list);
        run.count(class);
        run.count(kind);
        find(&mut run, &list, &query);
    }
    run.finish(&Wanted {
        often: 50,
        numbers: &[0, 4, 16],
        facts: [&CLASSES[..], &QUERIES].concat(),
    });
}
