//! Compares the sorting key, written and read, with the reference.

use common::Random;
use comparison::call::{Input, Outcome, Run, Wanted};
use comparison::names::{self, Octets};
use comparison::{exported, RANDOM_INPUTS};
use qorshudan::exported::{qorshudan_read_key, qorshudan_write_key};

#[test]
fn write_key() {
    let (mut run, mut random) = Run::start("write_key");
    let one = |run: &mut Run, name: &[u8], room: usize| {
        let input = Input {
            slices: &[name],
            limit: None,
            room: Some(room),
        };
        let outcome = Outcome::of_octets(reference::write_key(name, room));
        run.call(input, &outcome, |slices, space| {
            exported::fill(qorshudan_write_key, slices[0], space)
        });
        if outcome.number() == 0 && outcome.written.len() > 400 {
            run.count("key of more than 400 octets");
        }
    };
    for name in names::directed() {
        for room in [0, 1, 253, 254, 503, 504, 505, 100_000] {
            if room < 1000 || name.len() % 50 == 5 {
                one(&mut run, &name, room);
            }
        }
    }
    for _ in 0..RANDOM_INPUTS {
        let (class, name) = match random.below(12) {
            0 => ("long key", name_with_long_key(&mut random)),
            _ => names::any(&mut random),
        };
        run.count(class);
        run.count_all(&names::facts(&name));
        let key = reference::write_key(&name, usize::MAX);
        let answer = key.as_ref().map_or(name.len(), Vec::len);
        let room = names::room(&mut random, answer);
        if key.is_ok() {
            run.count(names::room_fact(answer, room));
        }
        one(&mut run, &name, room);
    }
    let mut facts = names::all_facts();
    facts.extend(names::CLASSES);
    facts.extend(["long key", "key of more than 400 octets"]);
    facts.extend(names::ROOM_FACTS);
    run.finish(&Wanted {
        often: 500,
        numbers: &[0, 4, 9],
        facts,
    });
}

/// A name of nearly 255 octets, most of them 0 or 1, so that its key is near 504.
fn name_with_long_key(random: &mut Random) -> Vec<u8> {
    let octets = random.between(250, 254);
    let mut name = names::put_in_front(random, &[0], octets, Octets::Host, |_| 63);
    for place in names::label_octets(&name) {
        name[place] = u8::from(random.one_in(2));
    }
    for _ in 0..random.below(3) {
        name = names::change_label_octet(random, &name);
    }
    name
}

const KEYS: [&str; 11] = [
    "a key",
    "an octet of a key changed",
    "an octet of a key removed",
    "an octet put into a key",
    "a key cut",
    "a key with more behind",
    "near 504 octets",
    "near the end of 255 octets",
    "labels of 62 to 65 octets",
    "octets 0, 1, 2 and 97",
    "random octets",
];

const KEY_OCTETS: [u8; 16] = [0, 0, 0, 1, 1, 1, 2, 3, 64, 65, 77, 90, 91, 97, 122, 255];

/// A key of a random class, and the length of the name it came from.
fn key(random: &mut Random) -> (&'static str, Vec<u8>, usize) {
    let class = random.below(KEYS.len());
    let name = match class {
        6 => name_with_long_key(random),
        7 => {
            let length = random.between(250, 255);
            names::of_length(random, length)
        }
        _ => names::well_formed(random),
    };
    let mut key = reference::write_key(&name, 504).expect("a well formed name has a key");
    match class {
        1 if !key.is_empty() => {
            let place = random.below(key.len());
            key[place] = random.pick(&KEY_OCTETS);
        }
        2 if !key.is_empty() => {
            let place = random.below(key.len());
            key.remove(place);
        }
        3 => {
            let place = random.below(key.len() + 1);
            key.insert(place, random.pick(&KEY_OCTETS));
        }
        4 => {
            let length = random.below(key.len() + 1);
            key.truncate(length);
        }
        5 => {
            let more = random.between(1, 4);
            key.extend((0..more).map(|_| random.pick(&KEY_OCTETS)));
        }
        6 | 7 => {
            // At the end, where the octets that are left of the name decide.
            let cut = random.below(4).min(key.len());
            key.truncate(key.len() - cut);
            let more = random.below(6);
            key.extend((0..more).map(|_| random.pick(&KEY_OCTETS)));
        }
        8 => {
            // A label at its limit anywhere in the key, with escapes in it.
            let length = random.between(62, 65);
            let escapes = random.pick(&[2, 8, 1000]);
            let mut label = Vec::new();
            for _ in 0..length {
                if random.one_in(escapes) {
                    label.extend([1, random.pick(&[1, 2])]);
                } else {
                    label.push(random.pick(&[2, 97, 255]));
                }
            }
            if random.one_in(2) {
                label.push(0);
            }
            let labels: Vec<usize> = (0..=key.len())
                .filter(|&place| place == 0 || key[place - 1] == 0)
                .collect();
            let place = random.pick(&labels);
            key.splice(place..place, label);
        }
        9 => {
            let length = random.below(14);
            key = (0..length)
                .map(|_| random.pick(&[0, 0, 1, 1, 2, 97, 97, 97]))
                .collect();
        }
        10 => {
            let length = match random.below(4) {
                0 => random.below(600),
                _ => random.below(12),
            };
            key = random.octets(length);
        }
        _ => {}
    }
    (KEYS[class], key, name.len())
}

/// Keys to try in any case: of every length that matters, and a few damaged at every place.
fn directed_keys() -> Vec<Vec<u8>> {
    let mut keys = vec![vec![]];
    keys.extend((0..=255).map(|octet| vec![octet]));
    keys.extend((0..=255).map(|octet| vec![octet, 0]));
    keys.extend((0..=255).map(|octet| vec![1, octet]));
    keys.extend((0..=255).map(|octet| vec![1, octet, 0]));
    let third = [vec![63], vec![0; 63]].concat().repeat(3);
    let longest = [&[61][..], &[1; 61], &third[..], &[0]].concat();
    let many = [&[1, 0].repeat(127)[..], &[0]].concat();
    let plain = b"\x03foo\x07example\x03com\x00".to_vec();
    let mixed = b"\x05a\x00b\x01c\x02\x00\x01\x04\xff\x02\x40\x5b\x00".to_vec();
    for name in [&longest, &many, &plain, &mixed] {
        let key = reference::write_key(name, 504).expect("a well formed name has a key");
        for place in 0..=key.len() {
            keys.push(key[..place].to_vec());
            for octet in [0, 1, 2, 3, 65, 90, 97, 255] {
                let mut more = key.clone();
                more.insert(place, octet);
                keys.push(more);
                if place < key.len() {
                    let mut changed = key.clone();
                    changed[place] = octet;
                    keys.push(changed);
                }
            }
        }
        for octet in [0, 1, 97] {
            let mut far = key.clone();
            far.resize(100_000, octet);
            keys.push(far);
        }
    }
    for octet in [0, 1, 2, 65, 97, 255] {
        for length in [62, 63, 64, 126, 127, 503, 504, 505, 100_000] {
            let mut key = vec![octet; length];
            keys.push(key.clone());
            key.push(0);
            keys.push(key);
        }
    }
    keys
}

#[test]
fn read_key() {
    let (mut run, mut random) = Run::start("read_key");
    let one = |run: &mut Run, key: &[u8], room: usize| {
        let input = Input {
            slices: &[key],
            limit: None,
            room: Some(room),
        };
        let outcome = Outcome::of_octets(reference::read_key(key, room));
        run.call(input, &outcome, |slices, space| {
            exported::fill(qorshudan_read_key, slices[0], space)
        });
        match (outcome.number(), outcome.value() as usize) {
            (0, 255) => run.count("answer of 255 octets"),
            (10, 0) => run.count("refused at 0"),
            (10, place) if place == key.len() => run.count("refused at the end"),
            (10, place) => {
                run.count("refused inside");
                if place > 400 {
                    run.count("refused beyond 400");
                }
                if (65..=90).contains(&key[place]) {
                    run.count("refused at a capital");
                } else if key[place - 1] == 1 && key[place] > 2 {
                    run.count("refused at a wrong escape");
                } else if key[place] == 0 {
                    run.count("refused at an empty label");
                } else if key[place] == 1 {
                    run.count("refused at an escape without room");
                } else {
                    run.count("refused at an octet without room");
                }
                if key[place..].iter().take(3).any(|&octet| octet == 0) {
                    run.count("refused just before the end of a label");
                }
            }
            _ => {}
        }
        if outcome.number() == 0 && key.len() >= 500 {
            run.count("answered key of 500 to 504 octets");
        }
    };
    for key in directed_keys() {
        for room in [0, 17, 255] {
            one(&mut run, &key, room);
        }
    }
    for _ in 0..RANDOM_INPUTS {
        let (class, key, answer) = key(&mut random);
        run.count(class);
        let room = names::room(&mut random, answer);
        if class == "a key" {
            run.count(names::room_fact(answer, room));
        }
        one(&mut run, &key, room);
    }
    let mut facts = KEYS.to_vec();
    facts.extend(names::ROOM_FACTS);
    facts.extend([
        "answer of 255 octets",
        "answered key of 500 to 504 octets",
        "refused at 0",
        "refused at the end",
        "refused inside",
        "refused beyond 400",
        "refused at a capital",
        "refused at a wrong escape",
        "refused at an empty label",
        "refused at an escape without room",
        "refused at an octet without room",
        "refused just before the end of a label",
    ]);
    run.finish(&Wanted {
        often: 500,
        numbers: &[0, 9, 10],
        facts,
    });
}
