//! Random names, pairs of names, zone questions and texts.

use super::Class;
use crate::ordinary::{MAX_LABEL, MAX_NAME};
use common::names::{change_case, starts};
use common::Random;

/// Random labels that together take at most `room` octets.
pub fn labels(class: Class, room: usize, random: &mut Random) -> Vec<u8> {
    let (total, sizes) = match class {
        Class::Long => (180..=254, 20..=63),
        Class::Deep => (100..=254, 1..=3),
        Class::High => (100..=254, 1..=63),
        Class::Low => (30..=200, 1..=40),
        Class::Mix => (0..=254, 1..=63),
        _ => (8..=40, 2..=12),
    };
    let total = random.between(*total.start(), *total.end()).min(room);
    let mut labels = Vec::with_capacity(MAX_NAME);
    while labels.len() + 2 <= total {
        let size = random.between(*sizes.start(), *sizes.end()).min(total - labels.len() - 1);
        labels.push(size as u8);
        for _ in 0..size {
            labels.push(octet(class, random));
        }
    }
    labels
}

fn octet(class: Class, random: &mut Random) -> u8 {
    const LETTERS: &[u8; 64] = b"abcdefghijklmnopqrstuvwxyzABCDEFGHIJKLMNOPQRSTUVWXYZ0123456789-a";
    match class {
        Class::High if !random.one_in(8) => 255,
        Class::Low if random.one_in(2) => random.below(2) as u8,
        Class::High | Class::Mix => random.octet(),
        _ => random.pick(LETTERS),
    }
}

/// The zones of the class `few-zones`.
const ZONES: [&[u8]; 3] = [b"\x07example\x03com\x00", b"\x04shop\x07example\x03net\x00", b"\x05wiki2\x02de\x00"];

/// One or two short labels before the apex of one of the zones.
fn in_few_zones(random: &mut Random) -> (&'static [u8], Vec<u8>) {
    let apex = random.pick(&ZONES);
    let mut name = Vec::with_capacity(MAX_NAME);
    for _ in 0..random.between(1, 2) {
        let size = random.between(2, 12);
        name.push(size as u8);
        name.extend((0..size).map(|_| octet(Class::FewZones, random)));
    }
    name.extend_from_slice(apex);
    (apex, name)
}

pub fn name(class: Class, random: &mut Random) -> Vec<u8> {
    if class == Class::FewZones {
        return in_few_zones(random).1;
    }
    let mut name = labels(class, MAX_NAME - 1, random);
    name.push(0);
    name
}

pub fn pair(class: Class, random: &mut Random) -> (Vec<u8>, Vec<u8>) {
    if class == Class::Unrelated {
        return (name(Class::Host, random), name(Class::Host, random));
    }
    if class == Class::FewZones {
        let (_, first) = in_few_zones(random);
        let (_, second) = in_few_zones(random);
        return (first, change_case(random, &second, 4));
    }
    let first = name(class, random);
    let second = beside(&first, class, random);
    (first, second)
}

/// A name that shares most of its labels with the first; of the class `unrelated`, a name like any other.
pub fn beside(first: &[u8], class: Class, random: &mut Random) -> Vec<u8> {
    let mut second;
    if class == Class::Unrelated {
        second = name(Class::Host, random);
    } else if random.one_in(4) {
        // The same name, most often with one octet of its first label changed.
        second = first.to_vec();
        if first[0] > 0 && !random.one_in(4) {
            second[random.between(1, first[0].into())] = octet(class, random);
        }
    } else {
        // Another name under the first, its parent or the parent's parent.
        let starts = starts(first);
        let tail = starts[random.between(0, 2).min(starts.len() - 1)];
        second = labels(Class::Host, (MAX_NAME - (first.len() - tail)).min(20), random);
        second.extend_from_slice(&first[tail..]);
    }
    change_case(random, &second, 4)
}

pub fn question(class: Class, random: &mut Random) -> (Vec<u8>, usize, Vec<u8>) {
    if class == Class::FewZones {
        let (apex, name) = in_few_zones(random);
        return (apex.to_vec(), MAX_NAME, change_case(random, &name, 4));
    }
    let mut apex = labels(Class::Host, if random.one_in(16) { 0 } else { 30 }, random);
    apex.push(0);
    let limit = if random.one_in(8) { random.between(apex.len() + 2, MAX_NAME) } else { MAX_NAME };
    let room = limit - apex.len();
    let mut name = match class {
        Class::Climb => climbing(room, random),
        _ if random.one_in(32) => Vec::new(),
        _ => labels(class, room, random),
    };
    name.extend_from_slice(&apex);
    (apex, limit, change_case(random, &name, 4))
}

/// A question whose name has letters, digits and hyphens above the apex: z for octets 255, and for others any of them.
pub fn ldh_question(class: Class, random: &mut Random) -> (Vec<u8>, usize, Vec<u8>) {
    const OCTETS: &[u8; 37] = b"-0123456789abcdefghijklmnopqrstuvwxyz";
    let (apex, limit, mut name) = question(class, random);
    let above = name.len() - apex.len();
    let mut at = 0;
    while at < above {
        let size = usize::from(name[at]);
        for octet in &mut name[at + 1..][..size] {
            *octet = match *octet {
                255 => b'z',
                octet if octet.is_ascii_alphanumeric() || octet == b'-' => octet,
                octet => OCTETS[usize::from(octet) % OCTETS.len()],
            };
        }
        at += 1 + size;
    }
    (apex, limit, name)
}

/// Labels of octets 255 that leave at most one octet of the room, most often over other labels.
fn climbing(room: usize, random: &mut Random) -> Vec<u8> {
    let least = if random.one_in(2) { MAX_LABEL } else { 1 };
    let below = if random.one_in(8) { Vec::new() } else { labels(Class::Host, room.min(40), random) };
    let mut climb = Vec::with_capacity(MAX_NAME);
    let room = room - below.len();
    while climb.len() + 2 <= room {
        let size = random.between(least, MAX_LABEL).min(room - climb.len() - 1);
        climb.push(size as u8);
        climb.resize(climb.len() + size, 255);
    }
    climb.extend(below);
    climb
}

/// A text of the name as people type it: each octet as itself where it may, but now and then with a backslash.
pub fn text(name: &[u8], random: &mut Random) -> Vec<u8> {
    let mut text = Vec::new();
    let mut rest = name;
    while let (size @ 1.., octets) = (usize::from(rest[0]), &rest[1..]) {
        for &octet in &octets[..size] {
            let digits = if octet.is_ascii_graphic() { random.one_in(64) } else { true };
            if digits {
                text.extend(format!("\\{octet:03}").bytes());
            } else {
                let must = matches!(octet, b'.' | b'\\');
                let may = octet.is_ascii_punctuation();
                if must || may && random.one_in(2) {
                    text.push(b'\\');
                }
                text.push(octet);
            }
        }
        text.push(b'.');
        rest = &octets[size..];
    }
    if text.is_empty() {
        text.push(b'.');
    }
    text
}
