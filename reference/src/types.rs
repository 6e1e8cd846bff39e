//! Type bitmaps (RFC 4034 section 4.1.2), written and read.
//!
//! A set of types has one bitmap, and that is what is written of it. So octets are a bitmap when
//! the types that they seem to stand for have just these octets as their bitmap. The place where
//! octets that are none break is not found on the way: it is looked for among their beginnings,
//! each of which is completed with what its last window lacks.

use std::collections::BTreeMap;

/// The most octets a bitmap has: 256 windows of a number, a length and 32 octets.
pub const LONGEST_BITMAP: usize = 256 * 34;

/// The bitmap of these types, or the first index at which they do not rise.
pub fn write(types: &[u16]) -> Result<Vec<u8>, usize> {
    if let Some(index) = (1..types.len()).find(|&index| types[index] <= types[index - 1]) {
        return Err(index);
    }
    let mut windows: BTreeMap<u8, Vec<u8>> = BTreeMap::new();
    for [number, low] in types.iter().map(|of| of.to_be_bytes()) {
        windows.entry(number).or_default().push(low);
    }
    Ok(windows
        .iter()
        .flat_map(|(&number, lows)| window(number, lows))
        .collect())
}

/// One window: its number, its length and its octets, of which the last has the greatest type. A
/// type stands in the octet of its number divided by 8, the remainder 0 in the highest bit.
fn window(number: u8, lows: &[u8]) -> Vec<u8> {
    let last = lows.iter().max().expect("a window has a type") / 8;
    let mut octets = vec![0; usize::from(last) + 1];
    for low in lows {
        octets[usize::from(low / 8)] += 128 >> (low % 8);
    }
    [&[number, last + 1], &octets[..]].concat()
}

/// The types of this bitmap, rising, or the length of the longest beginning of the octets that
/// some bitmap also begins with.
pub fn read(octets: &[u8]) -> Result<Vec<u16>, usize> {
    whole(octets).ok_or_else(|| longest_beginning(octets))
}

fn whole(octets: &[u8]) -> Option<Vec<u16>> {
    let (windows, rest) = windows(octets);
    let types: Vec<u16> = windows.into_iter().flat_map(types).collect();
    let same = rest.is_empty() && write(&types).as_deref() == Ok(octets);
    same.then_some(types)
}

/// The octets cut into windows by the lengths that stand there, whatever these are, and the octets
/// that are left where the last window is not whole.
fn windows(octets: &[u8]) -> (Vec<(u8, &[u8])>, &[u8]) {
    let mut windows = Vec::new();
    let mut rest = octets;
    while let [number, length, after @ ..] = rest {
        let length = usize::from(*length);
        if after.len() < length {
            break;
        }
        windows.push((*number, &after[..length]));
        rest = &after[length..];
    }
    (windows, rest)
}

/// The types that the octets of a window stand for. Octets beyond the thirty-second stand for none.
fn types((number, octets): (u8, &[u8])) -> Vec<u16> {
    let bits = octets
        .iter()
        .flat_map(|octet| (0..8).map(move |bit| octet & (128 >> bit) != 0));
    (0..=255)
        .zip(bits)
        .filter(|(_, is_there)| *is_there)
        .map(|(low, _)| u16::from_be_bytes([number, low]))
        .collect()
}

/// The beginnings of bitmaps are closed under shortening, so the longest one is found by halving.
fn longest_beginning(octets: &[u8]) -> usize {
    let mut longest = 0;
    let mut too_long = octets.len().min(LONGEST_BITMAP) + 1;
    while too_long - longest > 1 {
        let middle = (longest + too_long) / 2;
        if begins_some_bitmap(&octets[..middle]) {
            longest = middle;
        } else {
            too_long = middle;
        }
    }
    longest
}

/// Whether some bitmap begins with these octets. The last window, if it is not whole, gets what it
/// lacks: a length, zeros, and a last octet that is none. All else that a bitmap must be is decided
/// by the octets that are there.
fn begins_some_bitmap(octets: &[u8]) -> bool {
    let lacking = match windows(octets).1 {
        [] => vec![],
        [_] => vec![1, 1],
        [_, length, after @ ..] => {
            let mut lacking = vec![0; usize::from(*length) - after.len()];
            *lacking.last_mut().expect("the window is not whole") = 1;
            lacking
        }
    };
    whole(&[octets, &lacking].concat()).is_some()
}
