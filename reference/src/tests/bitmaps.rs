//! Type bitmaps against slower ways to decide the same: a table of all 65,536 types, a reader that
//! goes octet by octet, and the beginnings of all small bitmaps.

use super::Random;
use crate::types::LONGEST_BITMAP;
use crate::*;
use std::collections::{BTreeSet, HashSet};

const SPACE: usize = 99_999;

/// The bitmap of these types, by a table of 256 windows of 32 octets each.
fn table(types: &[u16]) -> Vec<u8> {
    let mut table = vec![[0u8; 32]; 256];
    for &of in types {
        let (window, bit) = (usize::from(of / 256), usize::from(of % 256));
        table[window][bit / 8] |= 0b1000_0000 >> (bit % 8);
    }
    let mut bitmap = Vec::new();
    for (number, window) in table.iter().enumerate() {
        let mut octets = window.to_vec();
        while octets.last() == Some(&0) {
            octets.pop();
        }
        if !octets.is_empty() {
            bitmap.push(number as u8);
            bitmap.push(octets.len() as u8);
            bitmap.extend(octets);
        }
    }
    bitmap
}

/// The types of the octets, or the place where they can't go on, octet by octet.
fn octet_by_octet(octets: &[u8]) -> Result<Vec<u16>, usize> {
    let mut types = Vec::new();
    let mut least_number = 0;
    let mut place = 0;
    while place < octets.len() {
        let number = usize::from(octets[place]);
        if number < least_number {
            return Err(place);
        }
        least_number = number + 1;
        place += 1;
        let length = match octets.get(place) {
            None => return Err(place),
            Some(&length @ 1..=32) => usize::from(length),
            Some(_) => return Err(place),
        };
        place += 1;
        for index in 0..length {
            match octets.get(place) {
                None => return Err(place),
                Some(0) if index + 1 == length => return Err(place),
                Some(octet) => {
                    for bit in 0..8 {
                        if octet >> (7 - bit) & 1 == 1 {
                            types.push((256 * number + 8 * index + bit) as u16);
                        }
                    }
                }
            }
            place += 1;
        }
    }
    Ok(types)
}

/// Checks all that is promised of the operations that read these octets.
fn agrees(octets: &[u8]) {
    match octet_by_octet(octets) {
        Ok(types) => {
            assert_eq!(read_types(octets, types.len()).as_ref(), Ok(&types));
            assert_eq!(write_types(&types, octets.len()).as_deref(), Ok(octets));
            assert_eq!(count_types(octets), Ok(types.len()));
            assert_eq!(smallest_type(octets), Ok(types.first().copied()));
            assert_eq!(largest_type(octets), Ok(types.last().copied()));
            if let Some(few) = types.len().checked_sub(1) {
                assert_eq!(read_types(octets, few), Err(Refusal::NoRoom));
                assert_eq!(write_types(&types, octets.len() - 1), Err(Refusal::NoRoom));
            }
        }
        Err(place) => {
            let refused = Refusal::NoTypes(place);
            assert_eq!(read_types(octets, SPACE), Err(refused), "{octets:?}");
            assert_eq!(read_types(octets, 0), Err(refused));
            assert_eq!(has_type(octets, 1), Err(refused));
            assert_eq!(count_types(octets), Err(refused));
            assert_eq!(smallest_type(octets), Err(refused));
            assert_eq!(largest_type(octets), Err(refused));
        }
    }
}

fn refused(octets: &[u8], place: usize) {
    assert_eq!(
        read_types(octets, 0),
        Err(Refusal::NoTypes(place)),
        "{octets:?}"
    );
    agrees(octets);
}

/// A, MX, RRSIG, NSEC and type 1234, as in RFC 4034 section 4.3 and document 02.
#[test]
fn papers() {
    let types = [1, 15, 46, 47, 1234];
    let mut bitmap = vec![0x00, 0x06, 0x40, 0x01, 0x00, 0x00, 0x00, 0x03, 0x04, 0x1b];
    bitmap.resize(bitmap.len() + 26, 0);
    bitmap.push(0x20);
    assert_eq!(write_types(&types, 37), Ok(bitmap.clone()));
    assert_eq!(write_types(&types, 36), Err(Refusal::NoRoom));
    assert_eq!(read_types(&bitmap, 5), Ok(types.to_vec()));
    assert_eq!(read_types(&bitmap, 4), Err(Refusal::NoRoom));
    assert_eq!(count_types(&bitmap), Ok(5));
    assert_eq!(smallest_type(&bitmap), Ok(Some(1)));
    assert_eq!(largest_type(&bitmap), Ok(Some(1234)));
    for of in 0..=65_535 {
        assert_eq!(has_type(&bitmap, of), Ok(types.contains(&of)));
    }
    agrees(&bitmap);
    // No types at all.
    assert_eq!(write_types(&[], 0), Ok(vec![]));
    assert_eq!(read_types(&[], 0), Ok(vec![]));
    assert_eq!(count_types(&[]), Ok(0));
    assert_eq!(has_type(&[], 0), Ok(false));
    assert_eq!(smallest_type(&[]), Ok(None));
    assert_eq!(largest_type(&[]), Ok(None));
    // Pseudo-types, as OPT and ANY, count like others, and so does type 0.
    let pseudo = [0, 41, 249, 250, 251, 252, 253, 254, 255];
    assert_eq!(write_types(&pseudo, SPACE), Ok(table(&pseudo)));
    assert_eq!(read_types(&table(&pseudo), 9), Ok(pseudo.to_vec()));
}

/// Places worked out by hand.
#[test]
fn places() {
    refused(&[0], 1);
    refused(&[0, 0], 1);
    refused(&[0, 33], 1);
    refused(&[0, 255], 1);
    refused(&[0, 1], 2);
    refused(&[0, 1, 0], 2);
    refused(&[0, 32, 0], 3);
    refused(&[0, 2, 1, 0], 3);
    refused(&[0, 2, 0, 0], 3);
    refused(&[7, 1, 1, 7], 3);
    refused(&[7, 1, 1, 6, 1, 1], 3);
    refused(&[7, 1, 1, 8, 0], 4);
    refused(&[255, 1, 1, 255], 3);
    refused(&[255, 1, 1, 0, 0], 3);
    refused(&[255], 1);
    refused(&[0, 33, 1, 1, 1], 1);
    refused(&[0; 100_000], 1);
    refused(&[1; 100_000], 3);
    refused(&[32; 100_000], 34);
    refused(&[&[0, 32][..], &[0; 32]].concat(), 33);
    refused(&[&[0, 32][..], &[0; 31]].concat(), 33);
    // Cut behind a whole window, a bitmap is a bitmap.
    let two = [0, 1, 1, 4, 2, 0, 1];
    for length in 0..=7 {
        match length {
            0 | 3 | 7 => assert!(read_types(&two[..length], SPACE).is_ok()),
            _ => refused(&two[..length], length),
        }
        agrees(&two[..length]);
    }
}

/// Every type alone, in the bitmap it must have.
#[test]
fn every_type() {
    for of in 0..=65_535u16 {
        let [window, low] = of.to_be_bytes();
        let mut bitmap = vec![window, low / 8 + 1];
        bitmap.resize(2 + usize::from(low / 8), 0);
        bitmap.push([128, 64, 32, 16, 8, 4, 2, 1][usize::from(low % 8)]);
        assert_eq!(write_types(&[of], bitmap.len()).as_ref(), Ok(&bitmap));
        assert_eq!(read_types(&bitmap, 1), Ok(vec![of]));
        assert_eq!(count_types(&bitmap), Ok(1));
        assert_eq!(smallest_type(&bitmap), Ok(Some(of)));
        assert_eq!(largest_type(&bitmap), Ok(Some(of)));
        for other in [of.wrapping_sub(1), of, of.wrapping_add(1), of ^ 8, of ^ 256] {
            assert_eq!(has_type(&bitmap, other), Ok(other == of));
        }
    }
}

/// What holds of one window holds of each: its octets are the same under every number, behind and
/// before any other window.
#[test]
fn every_window() {
    let mut random = Random(4034);
    for number in 0..=255u8 {
        for some in [1, 2, 8, 100, 256] {
            let lows: BTreeSet<u8> = (0..some).map(|_| random.below(256) as u8).collect();
            let types: Vec<u16> = lows
                .iter()
                .map(|&l| u16::from_be_bytes([number, l]))
                .collect();
            let first: Vec<u16> = lows.iter().map(|&l| u16::from(l)).collect();
            let bitmap = write_types(&types, 34).unwrap();
            assert_eq!(bitmap[0], number);
            assert_eq!(bitmap[1..], write_types(&first, 34).unwrap()[1..]);
            assert_eq!(bitmap, table(&types));
            agrees(&bitmap);
        }
        // Each type of a window, and each other window behind it.
        let types = [2, 100, 101].map(|low| u16::from_be_bytes([number, low]));
        let bitmap = table(&types);
        for other in 0..=255u8 {
            let of = u16::from_be_bytes([number, other]);
            assert_eq!(has_type(&bitmap, of), Ok(types.contains(&of)));
            let both = [&bitmap[..], &[other, 1, 255]].concat();
            let expected = match other > number {
                true => Ok(3 + 8),
                false => Err(Refusal::NoTypes(bitmap.len())),
            };
            assert_eq!(count_types(&both), expected, "{other} behind {number}");
        }
    }
}

/// All lengths of a window, and every octet at its end.
#[test]
fn every_length_and_last_octet() {
    for length in 0..=255u8 {
        for last in (0..=255u8).step_by(if length > 33 { 51 } else { 1 }) {
            let mut octets = vec![3, length];
            octets.resize(1 + usize::from(length).max(1), 0);
            octets.push(last);
            agrees(&octets);
            let bitmap = (1..=32).contains(&length) && last != 0;
            assert_eq!(read_types(&octets, 8).is_ok(), bitmap, "{octets:?}");
        }
    }
}

/// Sets of types at the edges of octets and windows: all of them.
#[test]
fn all_subsets() {
    let edges = [0, 7, 8, 255, 256, 511, 512, 1234, 65_279, 65_280, 65_535];
    let mut bitmaps = HashSet::new();
    for subset in 0..1usize << edges.len() {
        let types: Vec<u16> = (0..edges.len())
            .filter(|bit| subset >> bit & 1 == 1)
            .map(|bit| edges[bit])
            .collect();
        let bitmap = write_types(&types, SPACE).unwrap();
        assert_eq!(bitmap, table(&types));
        assert_eq!(read_types(&bitmap, SPACE).as_ref(), Ok(&types));
        for of in edges {
            assert_eq!(has_type(&bitmap, of), Ok(types.contains(&of)));
        }
        agrees(&bitmap);
        bitmaps.insert(bitmap);
    }
    assert_eq!(bitmaps.len(), 2048);
}

/// All lists of a few types: the index is the length of the longest beginning that rises.
#[test]
fn lists_that_do_not_rise() {
    let mut lists: Vec<Vec<u16>> = vec![vec![]];
    for _ in 0..=5 {
        for list in &lists {
            let rising = (0..=list.len())
                .rev()
                .find(|&length| {
                    let set: BTreeSet<u16> = list[..length].iter().copied().collect();
                    set.into_iter().eq(list[..length].iter().copied())
                })
                .unwrap();
            let answer = write_types(list, SPACE);
            if rising == list.len() {
                assert_eq!(answer, Ok(table(list)));
            } else {
                assert_eq!(answer, Err(Refusal::NoTypes(rising)), "{list:?}");
                assert_eq!(write_types(list, 0), answer);
            }
        }
        lists = lists
            .iter()
            .flat_map(|list| [0, 1, 256, 65_535].map(|of| [&list[..], &[of]].concat()))
            .collect();
    }
}

/// No reading at all: all bitmaps of few octets, as far as their first five octets go, and the set
/// of their beginnings.
#[test]
fn beginnings_of_all_small_bitmaps() {
    const FEW: [u8; 9] = [0, 1, 2, 3, 31, 32, 33, 128, 255];
    const FREE: usize = 5;
    let mut bitmaps = HashSet::new();
    let mut beginnings = HashSet::new();
    let mut open: Vec<(Vec<u8>, Option<u8>)> = vec![(vec![], None)];
    while let Some((bitmap, last)) = open.pop() {
        for length in 0..=bitmap.len().min(FREE) {
            beginnings.insert(bitmap[..length].to_vec());
        }
        bitmaps.insert(bitmap.clone());
        if bitmap.len() >= FREE {
            continue;
        }
        for number in FEW.into_iter().filter(|&number| last < Some(number)) {
            for length in FEW.into_iter().filter(|length| (1..=32).contains(length)) {
                // Octets beyond the first five of the bitmap may be any: zeros, and a last 1.
                let head = [&bitmap[..], &[number, length]].concat();
                let length = usize::from(length);
                let free = length.min(FREE.saturating_sub(head.len()));
                let mut windows = vec![head.clone()];
                for index in 0..length {
                    let allowed: &[u8] = match (index + 1 == length, index < free) {
                        (true, true) => &FEW[1..],
                        (true, false) => &[1],
                        (false, true) => &FEW,
                        (false, false) => &[0],
                    };
                    windows = windows
                        .iter()
                        .flat_map(|w| allowed.iter().map(move |&o| [&w[..], &[o]].concat()))
                        .collect();
                }
                open.extend(windows.into_iter().map(|w| (w, Some(number))));
            }
        }
    }
    let mut strings: Vec<Vec<u8>> = vec![vec![]];
    let mut answered = 0;
    for _ in 0..=FREE {
        for octets in &strings {
            let place = (0..=octets.len())
                .rev()
                .find(|&length| beginnings.contains(&octets[..length]))
                .unwrap();
            let answer = read_types(octets, SPACE);
            match bitmaps.contains(octets) {
                true => assert_eq!(table(&answer.unwrap()), *octets),
                false => assert_eq!(answer, Err(Refusal::NoTypes(place)), "{octets:?}"),
            }
            answered += usize::from(bitmaps.contains(octets));
        }
        strings = strings
            .iter()
            .flat_map(|s| FEW.map(|octet| [&s[..], &[octet]].concat()))
            .collect();
    }
    assert!(answered > 1_000, "{answered}");
}

/// Random sets, dense and thin, their bitmaps, and these damaged at many places.
#[test]
fn random_sets_and_damage() {
    let mut random = Random(1183);
    for round in 0..60 {
        let windows = 1 + random.below(6);
        let numbers: Vec<u8> = (0..windows).map(|_| random.below(256) as u8).collect();
        let mut set = BTreeSet::new();
        for _ in 0..random.pick(&[1, 3, 30, 300]) {
            let low = match round % 2 {
                0 => random.below(256) as u8,
                _ => random.pick(&[0, 1, 7, 8, 62, 63, 64, 247, 248, 255]),
            };
            set.insert(u16::from_be_bytes([random.pick(&numbers), low]));
        }
        let types: Vec<u16> = set.iter().copied().collect();
        let bitmap = write_types(&types, SPACE).unwrap();
        assert_eq!(bitmap, table(&types));
        agrees(&bitmap);
        for _ in 0..300 {
            let of = random.pick(&types).wrapping_add(random.below(40) as u16);
            assert_eq!(has_type(&bitmap, of), Ok(set.contains(&of)));
        }
        for place in 0..bitmap.len() {
            let mut damaged = bitmap.clone();
            match random.below(5) {
                0 => damaged[place] = random.pick(&[0, 1, 31, 32, 33, 255]),
                1 => damaged.insert(place, random.pick(&[0, 1, 2, 32, 255])),
                2 => drop(damaged.remove(place)),
                3 => damaged[place] ^= 1 << random.below(8),
                _ => damaged.truncate(place),
            }
            agrees(&damaged);
        }
    }
}

/// The bitmap of all types is the longest there is.
#[test]
fn all_types() {
    let types: Vec<u16> = (0..=65_535).collect();
    let bitmap = write_types(&types, LONGEST_BITMAP).unwrap();
    assert_eq!(bitmap.len(), 8704);
    assert_eq!(bitmap, table(&types));
    agrees(&bitmap);
    for window in bitmap.chunks(34) {
        assert_eq!(window[1..], [&[32][..], &[255; 32]].concat());
    }
    assert_eq!(has_type(&bitmap, 0), Ok(true));
    assert_eq!(has_type(&bitmap, 65_535), Ok(true));
    for more in [&[0][..], &[255], &[0; 1_000]] {
        refused(&[&bitmap[..], more].concat(), 8704);
    }
    refused(&bitmap[..8703], 8703);
    let mut twice = types.clone();
    twice.push(65_535);
    assert_eq!(write_types(&twice, 0), Err(Refusal::NoTypes(65_536)));
}
