//! The reader of texts against slower ways to decide the same: all texts of short names, and
//! beginnings continued in every way that might do.

use super::Random;
use crate::*;
use std::collections::{HashMap, HashSet};

const SPACE: usize = 2000;

/// The wire octets that the text stands for, if it is one: character by character, whether they
/// are a name being left to the check.
fn name_of(text: &[u8]) -> Option<Vec<u8>> {
    if text == b"." {
        return Some(vec![0]);
    }
    let mut name = Vec::new();
    let mut label = Vec::new();
    let mut digits: Option<Vec<u8>> = None;
    for &character in text {
        match (digits.as_mut(), character) {
            (None, b'\\') => digits = Some(Vec::new()),
            (None, b'.') => {
                if label.is_empty() || label.len() > 255 {
                    return None;
                }
                name.push(label.len() as u8);
                name.append(&mut label);
            }
            (None, 33..=126) => label.push(character),
            (Some(seen), b'0'..=b'9') => {
                seen.push(character);
                if seen.len() == 3 {
                    let number = std::str::from_utf8(seen).unwrap().parse();
                    label.push(number.ok()?);
                    digits = None;
                }
            }
            (Some(seen), 33..=126) if seen.is_empty() => {
                label.push(character);
                digits = None;
            }
            _ => return None,
        }
    }
    if digits.is_some() || !label.is_empty() || name.is_empty() {
        return None;
    }
    name.push(0);
    check(&name).is_ok().then_some(name)
}

/// Whether some text begins so, by trying continuations of up to three characters. That is as many
/// as are ever needed: two digits and the dot.
fn slow_begins(text: &[u8]) -> bool {
    let mut tried = vec![text.to_vec()];
    for _ in 0..3 {
        if tried.iter().any(|candidate| name_of(candidate).is_some()) {
            return true;
        }
        tried = tried
            .iter()
            .flat_map(|t| b".0a".map(|character| [&t[..], &[character]].concat()))
            .collect();
    }
    tried.iter().any(|candidate| name_of(candidate).is_some())
}

/// Checks all that is promised of the reader for this text, by the slow way.
pub fn agrees(text: &[u8]) {
    let shown = String::from_utf8_lossy(text);
    match read_text(text, 255) {
        Ok(name) => assert_eq!(Some(name), name_of(text), "{shown}"),
        Err(Refusal::NoText(place)) => {
            assert_eq!(name_of(text), None, "{shown}");
            assert!(slow_begins(&text[..place]), "{shown}");
            if place < text.len() {
                assert!(!slow_begins(&text[..place + 1]), "{shown}");
            }
            assert_eq!(read_text(text, 0), Err(Refusal::NoText(place)));
        }
        Err(other) => panic!("{other:?} of {shown}"),
    }
}

/// No reading at all: the texts of all short names are made from the grammar, with the set of all
/// their beginnings. A beginning of n characters is completed by a text of at most n + 3.
#[test]
fn beginnings_of_all_short_texts() {
    let few = b".\\0256a @";
    let mut octets: Vec<(Vec<u8>, u8)> = b"0256a@".iter().map(|&c| (vec![c], c)).collect();
    octets.extend(b".\\a@".iter().map(|&c| (vec![b'\\', c], c)));
    for number in 0..=255u8 {
        let text = format!("\\{number:03}").into_bytes();
        if text.iter().all(|c| few.contains(c)) {
            octets.push((text, number));
        }
    }
    // Texts without the last dot, and the labels they stand for.
    let mut open: Vec<(Vec<u8>, Vec<Vec<u8>>)> = vec![(vec![], vec![vec![]])];
    let mut texts = HashMap::from([(b".".to_vec(), vec![0])]);
    while let Some((text, labels)) = open.pop() {
        if !labels[labels.len() - 1].is_empty() && text.len() < 7 {
            let closed = [&text[..], b"."].concat();
            let mut name: Vec<u8> = Vec::new();
            for label in &labels {
                name.push(label.len() as u8);
                name.extend(label);
            }
            name.push(0);
            texts.insert(closed.clone(), name);
            open.push((closed, [labels.clone(), vec![vec![]]].concat()));
        }
        for (spelt, octet) in octets.iter().filter(|(s, _)| text.len() + s.len() < 7) {
            let mut labels = labels.clone();
            let last = labels.len() - 1;
            labels[last].push(*octet);
            open.push(([&text[..], spelt].concat(), labels));
        }
    }
    let mut beginnings = HashSet::new();
    for text in texts.keys() {
        for length in 0..=text.len().min(4) {
            beginnings.insert(text[..length].to_vec());
        }
    }
    let mut strings: Vec<Vec<u8>> = vec![vec![]];
    let mut answered = 0;
    for _ in 0..=4 {
        for text in &strings {
            let expected = match texts.get(text) {
                Some(name) => Ok(name.clone()),
                None => Err(Refusal::NoText(
                    (0..=text.len())
                        .filter(|&length| beginnings.contains(&text[..length]))
                        .max()
                        .unwrap(),
                )),
            };
            answered += usize::from(expected.is_ok());
            assert_eq!(read_text(text, 255), expected, "{text:?}");
        }
        strings = strings
            .iter()
            .flat_map(|s| few.map(|character| [&s[..], &[character]].concat()))
            .collect();
    }
    assert!(answered > 300, "{answered}");
}

/// Random names, written and read again, and the texts damaged at every place.
#[test]
fn round_trip_and_damage() {
    let mut random = Random(1035);
    for round in 0..400 {
        let mut name = vec![0];
        let wanted = random.pick(&[1, 20, 60, 250, 255]);
        while name.len() + 2 <= wanted {
            let length = match round % 3 {
                0 => 1 + random.below(63),
                1 => 61 + random.below(3),
                _ => 1 + random.below(3),
            };
            let length = length.min(wanted - name.len() - 1);
            let octets: Vec<u8> = (0..length)
                .map(|_| match round % 2 {
                    0 => random.below(256) as u8,
                    _ => random.pick(b"aZ09.\\\"@ \x00\xff"),
                })
                .collect();
            name = [&[length as u8][..], &octets, &name].concat();
        }
        let text = write_text(&name, SPACE).unwrap();
        let folded = fold(&name, SPACE).unwrap();
        assert_eq!(read_text(&text, SPACE).as_ref(), Ok(&folded));
        assert_eq!(write_text(&folded, SPACE).as_ref(), Ok(&text));
        if round < 40 {
            for place in 0..text.len() {
                let mut damaged = text.clone();
                match random.below(4) {
                    0 => damaged[place] = random.pick(b".\\0256a \x7f"),
                    1 => damaged.insert(place, random.pick(b".\\0256a \x00")),
                    2 => drop(damaged.remove(place)),
                    _ => damaged.truncate(place),
                }
                agrees(&damaged);
            }
        }
    }
}

/// Characters drawn from few values, so that texts and near texts are frequent.
#[test]
fn random_characters() {
    let mut random = Random(4343);
    for _ in 0..20_000 {
        let length = random.below(12);
        let text: Vec<u8> = (0..length)
            .map(|_| random.pick(b"...\\\\\\00122556aA \x7f"))
            .collect();
        agrees(&text);
    }
}
