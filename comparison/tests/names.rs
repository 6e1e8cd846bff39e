//! Compares checking, folding and the places of labels with the reference.

use comparison::call::{Input, Outcome, Run, Wanted};
use comparison::{exported, names, RANDOM_INPUTS};
use qorshudan::exported::{qorshudan_fold, qorshudan_label_places};

fn wanted() -> Vec<&'static str> {
    let mut facts = names::all_facts();
    facts.extend(names::CLASSES);
    facts
}

#[test]
fn check() {
    let (mut run, mut random) = Run::start("check");
    let one = |run: &mut Run, name: &[u8]| {
        let input = Input {
            slices: &[name],
            limit: None,
            room: None,
        };
        let outcome = Outcome::of_check(reference::check(name));
        run.call(input, &outcome, |slices, _| exported::check(slices[0]));
    };
    for name in names::directed() {
        one(&mut run, &name);
    }
    for _ in 0..RANDOM_INPUTS {
        let (class, name) = names::any(&mut random);
        run.count(class);
        run.count_all(&names::facts(&name));
        one(&mut run, &name);
    }
    run.finish(&Wanted {
        often: 500,
        numbers: &[0, 4],
        facts: wanted(),
    });
}

#[test]
fn fold() {
    let (mut run, mut random) = Run::start("fold");
    let one = |run: &mut Run, name: &[u8], room: usize| {
        let input = Input {
            slices: &[name],
            limit: None,
            room: Some(room),
        };
        let outcome = Outcome::of_octets(reference::fold(name, room));
        run.call(input, &outcome, |slices, space| {
            exported::fill(qorshudan_fold, slices[0], space)
        });
        if outcome.number() == 0 && outcome.written != name {
            run.count("changed by folding");
        }
    };
    for name in names::directed() {
        for room in [0, 1, 2, 254, 255, 256, 100_000] {
            if room < 1000 || name.len() % 50 == 5 {
                one(&mut run, &name, room);
            }
        }
    }
    for _ in 0..RANDOM_INPUTS {
        let (class, name) = names::any(&mut random);
        run.count(class);
        run.count_all(&names::facts(&name));
        let room = names::room(&mut random, name.len());
        if reference::check(&name).is_ok() {
            run.count(names::room_fact(name.len(), room));
        }
        one(&mut run, &name, room);
    }
    let mut facts = wanted();
    facts.push("changed by folding");
    facts.extend(names::ROOM_FACTS);
    run.finish(&Wanted {
        often: 500,
        numbers: &[0, 4, 9],
        facts,
    });
}

#[test]
fn label_places() {
    let (mut run, mut random) = Run::start("label_places");
    let one = |run: &mut Run, name: &[u8], room: usize| {
        let input = Input {
            slices: &[name],
            limit: None,
            room: Some(room),
        };
        let outcome = Outcome::of_octets(reference::label_places(name, room));
        run.call(input, &outcome, |slices, space| {
            exported::fill(qorshudan_label_places, slices[0], space)
        });
        if outcome.written.last() > Some(&127) {
            run.count("a place above 127");
        }
    };
    for name in names::directed() {
        for room in [0, 1, 2, 3, 126, 127, 128, 255] {
            one(&mut run, &name, room);
        }
    }
    for _ in 0..RANDOM_INPUTS {
        let (class, name) = names::any(&mut random);
        run.count(class);
        run.count_all(&names::facts(&name));
        let checked = reference::check(&name);
        let labels = checked.as_ref().map_or(0, |name| name.labels().len());
        let room = names::room(&mut random, labels);
        if checked.is_ok() {
            run.count(names::room_fact(labels, room));
        }
        one(&mut run, &name, room);
    }
    let mut facts = wanted();
    facts.push("a place above 127");
    facts.extend(names::ROOM_FACTS);
    run.finish(&Wanted {
        often: 500,
        numbers: &[0, 4, 9],
        facts,
    });
}
