//! Generators of hashes and of owner labels, whole and damaged.

use common::Random;

/// The octets of a hash, and the characters of its label.
pub const HASH: usize = 20;
pub const LABEL: usize = 32;

/// The longest octets and labels that are tried.
pub const LONGEST: usize = 40;

const CHARACTERS: &[u8; 32] = b"0123456789abcdefghijklmnopqrstuv";

/// Every class of hashes there is, and then octets that are none.
pub const CLASSES: [&str; 5] = [
    "random hash",
    "octets ff at the end",
    "octets 00 at the end",
    "few different octets",
    "another length",
];

/// A hash of a random class.
pub fn any(random: &mut Random) -> (&'static str, Vec<u8>) {
    let class = random.below(CLASSES.len());
    let mut hash = random.octets(HASH);
    let run = random.between(1, HASH);
    match class {
        1 => hash[HASH - run..].fill(0xff),
        2 => hash[HASH - run..].fill(0),
        3 => hash.fill_with(|| random.pick(&[0, 1, 0x7f, 0x80, 0xfe, 0xff])),
        4 => {
            let length = random.below(LONGEST + 1);
            hash = random.octets(length);
        }
        _ => {}
    }
    (CLASSES[class], hash)
}

/// Hashes with every run of ff and of 00 at the end, behind an octet that is neither, ff or 00.
pub fn directed() -> Vec<Vec<u8>> {
    let mut hashes = Vec::new();
    for run in 0..=HASH {
        for octet in [0, 0xff] {
            for before in [0, 1, 0x41, 0x7f, 0x80, 0xfe, 0xff] {
                let mut hash = vec![before; HASH];
                hash[HASH - run..].fill(octet);
                hashes.push(hash);
            }
        }
    }
    for length in 0..=LONGEST {
        hashes.push(vec![0xff; length]);
        hashes.push((0..length).map(|index| index as u8).collect());
    }
    hashes
}

/// Every class of labels there is.
pub const LABEL_CLASSES: [&str; 7] = [
    "as written",
    "in upper case",
    "in both cases",
    "a character changed",
    "another length of characters",
    "padded",
    "random octets",
];

/// A label of a random class.
pub fn any_label(random: &mut Random) -> (&'static str, Vec<u8>) {
    let class = random.below(LABEL_CLASSES.len());
    let mut label: Vec<u8> = (0..LABEL).map(|_| random.pick(CHARACTERS)).collect();
    let turned = |random: &mut Random, label: &mut [u8]| {
        for character in label {
            if random.one_in(2) {
                character.make_ascii_uppercase();
            }
        }
    };
    match class {
        1 => label.make_ascii_uppercase(),
        2 => turned(random, &mut label),
        3 => {
            turned(random, &mut label);
            let place = random.below(LABEL);
            label[place] = match random.below(3) {
                0 => random.octet(),
                _ => random.pick(b"/:@`wWxyzZ=[V v\x00\x80\xff"),
            };
        }
        4 => {
            let length = random.pick(&[0, 1, 16, 20, 30, 31, 33, 34, 40]);
            label.resize(length, b'0');
        }
        5 => {
            let count = random.between(1, 8);
            if random.one_in(2) {
                label[LABEL - count..].fill(b'=');
            } else {
                label.resize(LABEL + count, b'=');
            }
        }
        6 => {
            let length = random.pick(&[LABEL, LABEL, LABEL, 31, 33]);
            label = random.octets(length);
        }
        _ => {}
    }
    (LABEL_CLASSES[class], label)
}

/// A label with each of its characters changed to every octet, and labels of every length.
pub fn directed_labels() -> Vec<Vec<u8>> {
    let whole = b"0p9mhaveqvm6t7vbl5lop2u3t2rp3tom";
    let mut labels = Vec::new();
    for place in 0..LABEL {
        for octet in 0..=255 {
            let mut label = whole.to_vec();
            label[place] = octet;
            labels.push(label);
        }
    }
    for length in 0..=LONGEST {
        labels.push(whole.iter().copied().cycle().take(length).collect());
        labels.push(vec![b'0'; length]);
        labels.push(vec![b'V'; length]);
    }
    labels
}
