//! Generators of sets of types, of lists that are none, and of type bitmaps, whole and damaged.

use common::Random;
use reference::write_types;

/// Types on both sides of the borders of octets and of windows, and at both ends.
const BORDERS: [u16; 26] = [
    0, 1, 7, 8, 9, 15, 16, 247, 248, 254, 255, 256, 263, 264, 511, 512, 767, 768, 1234, 32767,
    32768, 65279, 65280, 65527, 65528, 65535,
];

/// Every class of sets there is.
pub const SETS: [&str; 6] = [
    "no type",
    "low types",
    "types of few windows",
    "types anywhere",
    "up to 400 types",
    "types at borders",
];

/// A set of a random class.
pub fn set(random: &mut Random) -> (&'static str, Vec<u16>) {
    let class = random.below(SETS.len());
    let (count, end) = match class {
        0 => (0, 1),
        1 => (random.between(1, 20), 256),
        2 => (random.between(1, 40), 2048),
        3 => (random.between(1, 12), 65536),
        4 if random.one_in(8) => (random.between(0, 400), 65536),
        4 => (random.between(20, 400), 512),
        _ => (random.between(1, 8), 0),
    };
    let one = |random: &mut Random| match end {
        0 => random.pick(&BORDERS),
        end => random.below(end) as u16,
    };
    let mut types: Vec<u16> = (0..count).map(|_| one(random)).collect();
    types.sort_unstable();
    types.dedup();
    (SETS[class], types)
}

/// All single types, and all pairs at borders.
pub fn directed_sets() -> Vec<Vec<u16>> {
    let mut sets: Vec<Vec<u16>> = (0..=65535).map(|one| vec![one]).collect();
    for (index, &low) in BORDERS.iter().enumerate() {
        sets.extend(BORDERS[index + 1..].iter().map(|&high| vec![low, high]));
    }
    sets.push(vec![]);
    sets.push(vec![1, 15, 46, 47, 1234]);
    sets
}

/// Every class of lists there is, beside the sets.
pub const LISTS: [&str; 4] = [
    "two types exchanged",
    "a type repeated",
    "in falling order",
    "any list",
];

/// A list of a random class, or one in two a set.
pub fn list(random: &mut Random) -> (&'static str, Vec<u16>) {
    let (class, mut types) = set(random);
    if random.one_in(2) || types.is_empty() {
        return (class, types);
    }
    let class = random.below(LISTS.len());
    let place = random.below(types.len());
    match class {
        0 => {
            let other = random.below(types.len());
            types.swap(place, other);
        }
        1 => types.insert(place, types[place]),
        2 => types.reverse(),
        _ => types.fill_with(|| random.below(65536) as u16),
    }
    (LISTS[class], types)
}

/// Every class of bitmaps there is.
pub const BITMAPS: [&str; 11] = [
    "of a set",
    "an octet changed",
    "cut",
    "an octet added",
    "two windows exchanged",
    "a window doubled",
    "a window of 0 octets",
    "a window of 33 octets",
    "a trailing zero",
    "two octets changed",
    "random octets",
];

/// The bitmap of a set.
pub fn of_set(types: &[u16]) -> Vec<u8> {
    write_types(types, usize::MAX).expect("a set has a bitmap")
}

/// The windows of a bitmap.
fn windows(bitmap: &[u8]) -> Vec<Vec<u8>> {
    let mut windows = Vec::new();
    let mut rest = bitmap;
    while let [_, count, ..] = rest {
        let (window, after) = rest.split_at(2 + usize::from(*count));
        windows.push(window.to_vec());
        rest = after;
    }
    windows
}

fn change(random: &mut Random, octets: &mut [u8]) {
    let place = random.below(octets.len());
    octets[place] = match random.below(4) {
        0 => octets[place].wrapping_add(1),
        1 => octets[place].wrapping_sub(1),
        2 => random.pick(&[0, 1, 31, 32, 33, 255]),
        _ => random.octet(),
    };
}

/// A bitmap of a random class, or one in two that of a set.
pub fn any(random: &mut Random) -> (&'static str, Vec<u8>) {
    let mut bitmap = of_set(&set(random).1);
    let mut windows = windows(&bitmap);
    if random.one_in(2) || windows.is_empty() {
        return (BITMAPS[0], bitmap);
    }
    let class = random.between(1, BITMAPS.len() - 1);
    let (place, window) = (random.below(bitmap.len() + 1), random.below(windows.len()));
    match class {
        1 => change(random, &mut bitmap),
        2 => bitmap.truncate(place),
        3 => bitmap.insert(place, random.octet()),
        4 => {
            let other = random.below(windows.len());
            windows.swap(window, other);
            bitmap = windows.concat();
        }
        5 => {
            windows.insert(window, windows[window].clone());
            bitmap = windows.concat();
        }
        6 => {
            windows[window].truncate(2);
            windows[window][1] = 0;
            bitmap = windows.concat();
        }
        7 => {
            windows[window].resize(35, 1);
            windows[window][1] = 33;
            bitmap = windows.concat();
        }
        8 => {
            // an octet more in the count, or the last one made 0
            let of = &mut windows[window];
            if random.one_in(2) {
                of[1] += 1;
                of.push(0);
            } else {
                *of.last_mut().expect("a window has octets") = 0;
            }
            bitmap = windows.concat();
        }
        9 => (0..2).for_each(|_| change(random, &mut bitmap)),
        _ => {
            let length = random.below(40);
            bitmap = random.octets(length);
        }
    }
    (BITMAPS[class], bitmap)
}

/// A type to ask for: one of the set or beside it, at a border, or any.
pub fn asked(random: &mut Random, types: &[u16]) -> u16 {
    match random.below(4) {
        0 => random.below(65536) as u16,
        1 => random.pick(&BORDERS),
        _ if types.is_empty() => random.below(300) as u16,
        2 => random.pick(types),
        _ => {
            let beside = [1, 8, 256, 65535, 65528, 65280];
            random.pick(types).wrapping_add(random.pick(&beside))
        }
    }
}
