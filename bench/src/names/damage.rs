//! Inputs spoilt so that every refusal comes up.

use super::make::{self, labels};
use super::Class;
use crate::ordinary::MAX_NAME;
use common::names::starts;
use common::Random;

fn any_octets(most: usize, random: &mut Random) -> Vec<u8> {
    (0..random.between(0, most)).map(|_| random.octet()).collect()
}

/// A name spoilt in one of the ways that the check tells apart, or by chance.
pub fn damaged(mut name: Vec<u8>, random: &mut Random) -> Vec<u8> {
    match random.below(7) {
        0 => name.truncate(random.below(name.len())),
        1 => name.extend(any_octets(3, random)),
        2 => {
            let length = random.between(64, 255);
            let start = random.pick(&starts(&name));
            name[start] = length as u8;
        }
        3 => {
            let mut long = labels(Class::Long, MAX_NAME - 1, random);
            long.extend(name);
            name = long;
        }
        4 => name.clear(),
        5 => {
            let at = random.below(name.len());
            name[at] = random.octet();
        }
        _ => name = any_octets(300, random),
    }
    name
}

pub fn damaged_key(mut key: Vec<u8>, random: &mut Random) -> Vec<u8> {
    let at = random.below(key.len() + 1);
    match random.below(8) {
        0 => key.truncate(at),
        1 => key.extend(any_octets(3, random)),
        2 => key.insert(at, 0),
        3 => key.insert(at, 1),
        4 => key.insert(at, random.between(65, 90) as u8),
        5 => {
            key.splice(at..at, vec![b'a'; random.between(40, 70)]);
        }
        6 => key.extend(super::key(&make::name(Class::Long, random))),
        _ => key = any_octets(520, random),
    }
    key
}

pub fn damaged_question(
    (mut apex, mut limit, mut name): (Vec<u8>, usize, Vec<u8>),
    random: &mut Random,
) -> (Vec<u8>, usize, Vec<u8>) {
    match random.below(8) {
        0 => limit = random.pick(&[0, MAX_NAME + 1, usize::MAX]),
        1 => apex = damaged(apex, random),
        2 => name = damaged(name, random),
        3 => name = make::name(Class::Host, random),
        4 => limit = random.between(0, MAX_NAME),
        5 => limit = apex.len() + random.pick(&[0, 1, 2, 63, 64]),
        6 => {
            // The apex's octets at the end, but its first length octet inside a label.
            let size = usize::from(apex[0]);
            name = [&[size as u8 + 2, b'x'], &apex[..]].concat();
        }
        _ => {
            limit = random.below(MAX_NAME + 10);
            apex = damaged(apex, random);
            name = damaged(name, random);
        }
    }
    (apex, limit, name)
}

pub fn damaged_text(mut text: Vec<u8>, random: &mut Random) -> Vec<u8> {
    let at = random.below(text.len() + 1);
    match random.below(9) {
        0 => text.truncate(at),
        1 => drop(text.pop()),
        2 => text.insert(at, b'.'),
        3 => text.insert(at, b'\\'),
        4 => text.insert(at, random.between(usize::from(b'0'), usize::from(b'9')) as u8),
        5 => {
            text.splice(at..at, vec![b'a'; random.between(40, 70)]);
        }
        6 => text.extend(make::text(&make::name(Class::Long, random), random)),
        7 => text.insert(at, random.octet()),
        _ => text = any_octets(300, random),
    }
    text
}

/// Octets that are no hash, or characters that are no hash's label: one less or more, others, or one that no label has.
pub fn damaged_hash(mut octets: Vec<u8>, random: &mut Random) -> Vec<u8> {
    let at = random.below(octets.len());
    match random.below(5) {
        0 => drop(octets.remove(at)),
        1 => octets.insert(at, random.octet()),
        2 => octets[at] = random.pick(b"wz=@/:`\x00\xff"),
        3 => octets.truncate(at),
        _ => octets = any_octets(40, random),
    }
    octets
}
