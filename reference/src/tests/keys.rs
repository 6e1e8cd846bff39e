//! The key reader against slower ways to decide the same: all keys of short names, and beginnings
//! completed in every way that might do.

use super::{sort_value, wire, Random};
use crate::*;
use std::collections::HashSet;

const SPACE: usize = 999;

/// Whether the bytes are the key of a well formed name: the one name that could have it is made
/// from the right, octet by octet, and its key is written.
fn is_key(bytes: &[u8]) -> bool {
    let mut name = vec![0];
    let mut label = Vec::new();
    let mut escaped = false;
    for &byte in bytes {
        if escaped {
            // Wrong second halves are found out when the key is written again.
            label.push(byte.wrapping_sub(1));
            escaped = false;
        } else if byte == 1 {
            escaped = true;
        } else if byte == 0 {
            let length = u8::try_from(label.len()).unwrap_or(255);
            name = [&[length][..], &label, &name].concat();
            label.clear();
        } else {
            label.push(byte);
        }
    }
    label.is_empty() && !escaped && write_key(&name, SPACE).as_deref() == Ok(bytes)
}

/// Whether some key begins with the bytes, by trying continuations of up to three octets. That is
/// as many as are ever needed: half an escape, an octet, the end of the label.
fn slow_begins_some_key(bytes: &[u8]) -> bool {
    let few = [0, 1, 2, 97];
    let mut tried: Vec<Vec<u8>> = vec![bytes.to_vec()];
    for _ in 0..3 {
        if tried.iter().any(|candidate| is_key(candidate)) {
            return true;
        }
        tried = tried
            .iter()
            .flat_map(|t| few.map(|octet| [&t[..], &[octet]].concat()))
            .collect();
    }
    tried.iter().any(|candidate| is_key(candidate))
}

/// Checks all that is promised of the reader for these bytes, by the slow way.
fn agrees(bytes: &[u8]) {
    let answer = read_key(bytes, 255);
    assert_eq!(answer.is_ok(), is_key(bytes), "{bytes:02x?}");
    match answer {
        Ok(name) => {
            assert_eq!(write_key(&name, SPACE).as_deref(), Ok(bytes));
            assert_eq!(fold(&name, SPACE), Ok(name));
        }
        Err(Refusal::NoKey(place)) => {
            assert!(slow_begins_some_key(&bytes[..place]), "{bytes:02x?}");
            if place < bytes.len() {
                assert!(!slow_begins_some_key(&bytes[..place + 1]), "{bytes:02x?}");
            }
            assert_eq!(read_key(bytes, 0), Err(Refusal::NoKey(place)));
        }
        Err(other) => panic!("{other:?} of {bytes:02x?}"),
    }
}

/// No decoding at all: the keys of all short names over a few octets, and the set of all their
/// beginnings. A beginning of n octets is completed by a name of at most n + 2 octets.
#[test]
fn beginnings_of_the_keys_of_all_short_names() {
    let few = [0, 1, 2, 3, 64, 65, 90, 91, 97, 255];
    let mut names = vec![vec![0u8]];
    let mut keys = HashSet::new();
    while let Some(name) = names.pop() {
        keys.insert(write_key(&name, SPACE).unwrap());
        let mut labels: Vec<Vec<u8>> = vec![vec![]];
        for length in 1..6u8.saturating_sub(name.len() as u8) {
            labels = labels
                .iter()
                .flat_map(|l| few.map(|octet| [&l[..], &[octet]].concat()))
                .collect();
            for label in &labels {
                names.push([&[length][..], label, &name].concat());
            }
        }
    }
    let mut beginnings = HashSet::new();
    for key in &keys {
        for length in 0..=key.len().min(4) {
            beginnings.insert(key[..length].to_vec());
        }
    }
    let mut strings: Vec<Vec<u8>> = vec![vec![]];
    let mut answered = 0;
    for _ in 0..=4 {
        for bytes in &strings {
            if keys.contains(bytes) {
                let name = read_key(bytes, 255).unwrap();
                assert_eq!(write_key(&name, SPACE).as_ref(), Ok(bytes));
                answered += 1;
                continue;
            }
            let place = (0..=bytes.len())
                .filter(|&length| beginnings.contains(&bytes[..length]))
                .max()
                .unwrap();
            assert_eq!(
                read_key(bytes, 255),
                Err(Refusal::NoKey(place)),
                "{bytes:?}"
            );
        }
        strings = strings
            .iter()
            .flat_map(|s| few.map(|octet| [&s[..], &[octet]].concat()))
            .collect();
    }
    assert!(answered > 100);
}

/// Places near the limits of labels and names, worked out by hand.
#[test]
fn places_at_the_limits() {
    let refused = |bytes: &[u8], place: usize| {
        assert_eq!(read_key(bytes, 255), Err(Refusal::NoKey(place)));
        agrees(bytes);
    };
    let label = |octet: u8, length: usize| [vec![octet; length], vec![0]].concat();
    refused(&[0], 0);
    refused(&[0x61], 1);
    refused(&[1], 1);
    refused(&[1, 0], 1);
    refused(&[1, 3], 1);
    refused(&[1, 1], 2);
    refused(&[1, 2, 1], 3);
    refused(&[0x61, 0, 0], 2);
    refused(&[0x61, 0x41, 0], 1);
    refused(&[0x5a, 0], 0);
    refused(&[0x40, 0x5b, 0x41], 2);
    // A label of 63 octets takes no more, not even half of an escape.
    refused(&[97; 63], 63);
    refused(&label(97, 64), 63);
    refused(&[&[97; 63][..], &[1, 1, 0]].concat(), 63);
    refused(&[&[97; 62][..], &[1]].concat(), 63);
    refused(&[&[97; 62][..], &[1, 1, 1]].concat(), 64);
    refused(&[1; 127], 126);
    // 3 labels of 63 octets: 193 octets of the name are used, 62 are left.
    let three = label(98, 63).repeat(3);
    refused(&[&three[..], &label(99, 62)].concat(), 192 + 61);
    refused(&[&three[..], &[99; 60], &[1]].concat(), 192 + 61);
    refused(&[&three[..], &[99; 61], &[1]].concat(), 192 + 61);
    // 255 used: nothing may follow.
    let full = [&three[..], &label(99, 61)].concat();
    assert_eq!(read_key(&full, 255).map(|name| name.len()), Ok(255));
    refused(&[&full[..], &[0]].concat(), 254);
    refused(&[&full[..], &[97]].concat(), 254);
    refused(&[&full[..], &[1]].concat(), 254);
    // 254 used: one octet is left, and no label is so short.
    let one_left = [&three[..], &label(99, 60)].concat();
    refused(&[&one_left[..], &[97, 0]].concat(), 253);
    // 253 used: a label of one octet fits.
    let two_left = [&three[..], &label(99, 59)].concat();
    refused(&[&two_left[..], &[1]].concat(), 253);
    refused(&[&two_left[..], &[1, 2]].concat(), 254);
    refused(&[&two_left[..], &[1, 2, 97]].concat(), 254);
    refused(&[&two_left[..], &[97, 1]].concat(), 253);
    // 127 labels of one octet.
    let many = label(97, 1).repeat(127);
    assert_eq!(read_key(&many, 255).map(|name| name.len()), Ok(255));
    refused(&label(97, 1).repeat(128), 254);
    // The longest key, one octet less and one more.
    let longest = wire("\\000{61}.\\001{63}.\\000{63}.\\001{63}.");
    let key = write_key(&longest, 504).unwrap();
    refused(&key[..503], 503);
    for more in [0, 1, 97] {
        refused(&[&key[..], &[more]].concat(), 504);
    }
    assert_eq!(
        read_key(&[&key[..], &[0; 99_496]].concat(), 0),
        Err(Refusal::NoKey(504))
    );
    assert_eq!(read_key(&[97; 100_000], 0), Err(Refusal::NoKey(63)));
    assert_eq!(read_key(&[1; 100_000], 0), Err(Refusal::NoKey(126)));
    assert_eq!(read_key(&[0; 100_000], 0), Err(Refusal::NoKey(0)));
}

/// Keys of random long names, damaged at every place.
#[test]
fn damaged_keys() {
    let mut random = Random(4471);
    for round in 0..12 {
        let mut name = vec![0];
        loop {
            let length = match round % 3 {
                0 => 1 + random.below(63),
                1 => 61 + random.below(3),
                _ => 1 + random.below(3),
            };
            if name.len() + 1 + length > 255 {
                break;
            }
            let octets: Vec<u8> = (0..length)
                .map(|_| random.pick(&[0, 1, 1, 2, 97, 64, 91, 255]))
                .collect();
            name = [&[length as u8][..], &octets, &name].concat();
        }
        let key = write_key(&name, SPACE).unwrap();
        agrees(&key);
        for place in 0..key.len() {
            let mut damaged = key.clone();
            match random.below(4) {
                0 => damaged[place] = random.pick(&[0, 1, 2, 65, 90, 97]),
                1 => damaged.insert(place, random.pick(&[0, 1, 2, 97])),
                2 => drop(damaged.remove(place)),
                _ => damaged.truncate(place),
            }
            agrees(&damaged);
        }
    }
}

/// What the paper asks of folding, comparing and keys together, for pairs of short names over few
/// octets, so that equal and nearly equal ones are frequent.
#[test]
fn one_name_one_key() {
    let mut random = Random(1035);
    let mut name = || {
        let mut name = vec![0];
        for _ in 0..random.below(4) {
            let length = 1 + random.below(2);
            let octets: Vec<u8> = (0..length)
                .map(|_| random.pick(&[0, 1, 2, 65, 97, 255]))
                .collect();
            name = [&[length as u8][..], &octets, &name].concat();
        }
        name
    };
    let mut equal = 0;
    for _ in 0..100_000 {
        let (first, second) = (name(), name());
        let fold = |name: &[u8]| fold(name, name.len()).unwrap();
        let key = |name: &[u8]| write_key(name, 99).unwrap();
        let number = compare(&first, &second).unwrap();
        let order = sort_value(&fold(&first)).cmp(&sort_value(&fold(&second)));
        assert_eq!(number.cmp(&0), order);
        assert_eq!(key(&first).cmp(&key(&second)), order);
        assert_eq!(number == 0, fold(&first) == fold(&second));
        assert_eq!(compare(&second, &first), Ok(-number));
        assert_eq!(fold(&fold(&first)), fold(&first));
        assert_eq!(key(&fold(&first)), key(&first));
        assert_eq!(read_key(&key(&first), 99), Ok(fold(&first)));
        equal += usize::from(number == 0 && first != second);
    }
    assert!(equal > 100);
}

/// Octets drawn from few values, so that keys and near keys are frequent.
#[test]
fn random_bytes() {
    let mut random = Random(4034);
    for _ in 0..20_000 {
        let length = random.below(12);
        let bytes: Vec<u8> = (0..length)
            .map(|_| random.pick(&[0, 0, 1, 1, 2, 2, 97, 98, 65, 255]))
            .collect();
        agrees(&bytes);
    }
}
