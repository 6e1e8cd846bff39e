//! Generators of names as text, whole and damaged, and what is true of a refused one.

use crate::names::{self, Octets};
use common::Random;

/// The classes of texts that are read.
pub const WHOLE: [&str; 3] = ["as written", "spelt otherwise", "all in digits"];

/// Every class of texts there is.
pub const CLASSES: [&str; 13] = [
    WHOLE[0],
    WHOLE[1],
    WHOLE[2],
    "a character changed",
    "a character removed",
    "a character put in",
    "a character doubled",
    "a text cut",
    "near 1004 characters",
    "near the end of 255 octets",
    "a label of 62 to 65 octets",
    "few characters",
    "random octets",
];

const CHARACTERS: &[u8] = b"...\\\\\\00122345569aAzZ\"@$;( !~\x7f\x00\xff";

/// A text of a random class, and the length of the name it came from.
pub fn any(random: &mut Random) -> (&'static str, Vec<u8>, usize) {
    let class = random.below(CLASSES.len());
    let name = match class {
        8 => with_long_text(random),
        9 => {
            let length = random.between(250, 255);
            names::of_length(random, length)
        }
        _ => names::well_formed(random),
    };
    let written = |name: &[u8]| reference::write_text(name, usize::MAX).expect("well formed");
    let one_in = match class {
        2 => 0,
        8 => random.pick(&[0, 0, 0, 30]),
        _ => random.pick(&[1, 2, 8, 30]),
    };
    let mut text = match class {
        0 => written(&name),
        _ => spelt(random, &name, one_in),
    };
    let place = random.below(text.len());
    match class {
        3 => text[place] = random.pick(CHARACTERS),
        4 => drop(text.remove(place)),
        5 => text.insert(place, random.pick(CHARACTERS)),
        6 => text.insert(place, text[place]),
        7 => text.truncate(place),
        8 | 9 => {
            // At the end, where the octets that are left of the name decide.
            let cut = random.below(6).min(text.len());
            text.truncate(text.len() - cut);
            let more = random.below(8);
            text.extend((0..more).map(|_| random.pick(CHARACTERS)));
        }
        10 => {
            // A label at its limit anywhere in the text.
            let length = random.between(62, 65);
            let label = names::label(random, length, Octets::MixedCase);
            let mut more: Vec<u8> = Vec::new();
            for octet in label {
                more.extend(character(random, octet, one_in));
            }
            if random.one_in(2) {
                more.push(b'.');
            }
            let starts: Vec<usize> = (0..=text.len())
                .filter(|&place| place == 0 || text[place - 1] == b'.')
                .collect();
            let place = random.pick(&starts);
            text.splice(place..place, more);
        }
        11 => {
            let length = random.below(14);
            text = (0..length)
                .map(|_| random.pick(b"..\\\\0012556aaaA\""))
                .collect();
        }
        12 => {
            let length = match random.below(4) {
                0 => random.below(1200),
                _ => random.below(12),
            };
            text = random.octets(length);
        }
        _ => {}
    }
    (CLASSES[class], text, name.len())
}

/// A name of nearly 255 octets, most of them without a character of their own, so that its text is
/// near 1004.
pub fn with_long_text(random: &mut Random) -> Vec<u8> {
    let octets = random.between(250, 254);
    let mut name = names::put_in_front(random, &[0], octets, Octets::High, |_| 63);
    for place in names::label_octets(&name) {
        name[place] = match random.one_in(400) {
            true => random.pick(b"a0.\\@"),
            false => random.pick(&[0, 1, 9, 10, 32, 127, 128, 199, 200, 255]),
        };
    }
    name
}

/// The name as a text, each octet in one of its spellings.
fn spelt(random: &mut Random, name: &[u8], one_in: usize) -> Vec<u8> {
    if name == [0] {
        return b".".to_vec();
    }
    let mut text = Vec::new();
    let mut rest = name;
    while rest[0] != 0 {
        let (label, after) = rest[1..].split_at(usize::from(rest[0]));
        for &octet in label {
            text.extend(character(random, octet, one_in));
        }
        text.push(b'.');
        rest = after;
    }
    text
}

/// An octet as itself where that is allowed, but one time in `one_in` in another spelling; for 0
/// always in digits.
fn character(random: &mut Random, octet: u8, one_in: usize) -> Vec<u8> {
    let graphic = matches!(octet, 33..=126);
    let plain = graphic && !matches!(octet, b'.' | b'\\');
    if one_in > 0 && plain && !random.one_in(one_in) {
        return vec![octet];
    }
    if one_in > 0 && graphic && !octet.is_ascii_digit() && random.one_in(2) {
        return vec![b'\\', octet];
    }
    format!("\\{octet:03}").into_bytes()
}

/// What is true of a text that was refused at this place, to be counted.
pub fn refusal_facts(text: &[u8], place: usize) -> Vec<&'static str> {
    let mut facts = Vec::new();
    if place == 0 {
        facts.push("refused at 0");
    }
    if place > 800 {
        facts.push("refused beyond 800");
    }
    let character = match text.get(place) {
        Some(&character) => character,
        None => {
            facts.push(match open_escape(text) {
                true => "refused at the end, behind a backslash",
                false => "refused at the end",
            });
            return facts;
        }
    };
    if open_escape(&text[..place]) {
        facts.push(match character {
            b'0'..=b'9' => "refused at a digit behind a backslash",
            _ => "refused at another character behind a backslash",
        });
        return facts;
    }
    if text[..place] == *b"." {
        facts.push("refused behind the root");
    }
    facts.push(match character {
        b'.' => "refused at an empty label",
        b'\\' => "refused at a backslash without room",
        33..=126 => "refused at a character without room",
        _ => "refused at a character that is never plain",
    });
    facts
}

/// Whether a beginning of a text ends inside what a backslash started.
fn open_escape(beginning: &[u8]) -> bool {
    let mut rest = beginning;
    while let Some((&first, after)) = rest.split_first() {
        let length = match (first, after.first()) {
            (b'\\', Some(b'0'..=b'9')) => 3,
            (b'\\', _) => 1,
            _ => 0,
        };
        if after.len() < length {
            return true;
        }
        rest = &after[length..];
    }
    false
}

/// All facts that `refusal_facts` can tell.
pub const REFUSAL_FACTS: [&str; 11] = [
    "refused at 0",
    "refused beyond 800",
    "refused at the end, behind a backslash",
    "refused at the end",
    "refused at a digit behind a backslash",
    "refused at another character behind a backslash",
    "refused behind the root",
    "refused at an empty label",
    "refused at a backslash without room",
    "refused at a character without room",
    "refused at a character that is never plain",
];

/// Texts to try in any case: every text of two characters, every number behind a backslash, whole
/// and cut, and a few texts damaged at every place.
pub fn directed() -> Vec<Vec<u8>> {
    let mut texts = vec![vec![]];
    texts.extend((0..=255).map(|character| vec![character]));
    for first in 0..=255 {
        texts.extend((0..=255).map(|second| vec![first, second]));
        texts.extend([vec![b'\\', first, b'.'], vec![b'a', first, b'.']]);
    }
    for number in 0..1000 {
        texts.push(format!("\\{number:03}.").into_bytes());
        texts.push(format!("\\{number:03}").into_bytes());
        if number < 100 {
            texts.push(format!("\\{number:02}").into_bytes());
            texts.push(format!("\\{number:02}.").into_bytes());
        }
    }
    let full = [&[b'a'; 63][..], b"."].concat().repeat(3);
    for length in 57..=63 {
        let last = [&full[..], &vec![b'B'; length]].concat();
        for end in [
            "", ".", "\\", "\\2", "\\25", "\\255", "\\255.", "\\c", "\\c.", ".d", ".d.", ".\\",
            "..",
        ] {
            texts.push([&last[..], end.as_bytes()].concat());
            texts.push([&last[189..], end.as_bytes()].concat());
        }
    }
    let greatest = [&b"\\255".repeat(63)[..], b"."].concat().repeat(3);
    let greatest = [&greatest[..], &b"\\000".repeat(61), b"."].concat();
    let many = b"a.".repeat(127);
    let mixed = b"fOo\\.\\\\.\\001\"\\\".exAMPle.".to_vec();
    for text in [&greatest, &many, &mixed, &b".".to_vec()] {
        for place in 0..=text.len() {
            texts.push(text[..place].to_vec());
            for character in *b".\\026a \xff" {
                let mut more = text.clone();
                more.insert(place, character);
                texts.push(more);
                if place < text.len() {
                    let mut changed = text.clone();
                    changed[place] = character;
                    texts.push(changed);
                }
            }
        }
        for character in *b".\\a1 " {
            let mut far = text.clone();
            far.resize(100_000, character);
            texts.push(far);
        }
    }
    for character in *b".\\0a \xff" {
        for length in [
            62, 63, 64, 125, 126, 127, 254, 255, 1003, 1004, 1005, 100_000,
        ] {
            let mut text = vec![character; length];
            texts.push(text.clone());
            text.push(b'.');
            texts.push(text);
        }
    }
    texts
}
