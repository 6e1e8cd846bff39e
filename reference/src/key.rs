//! The sorting key of a name, written and read.
//!
//! In a key the octet 00 ends a label and occurs nowhere else, so a key is read by splitting it
//! at 00 and looking at each piece on its own.

use crate::name::{is_folded, wire_length, Label, Name, LONGEST_LABEL, LONGEST_NAME};

/// The most octets a key has: 254 octets for the name, and 250 label octets that each take two.
pub const LONGEST_KEY: usize = 504;

/// The key of a folded name.
pub fn write(name: &Name) -> Vec<u8> {
    let mut key = Vec::new();
    for label in name.labels() {
        for &octet in label {
            match octet {
                0 => key.extend([1, 1]),
                1 => key.extend([1, 2]),
                other => key.push(other),
            }
        }
        key.push(0);
    }
    key
}

/// The folded name whose key this is, or the length of the longest beginning of the bytes that
/// some key also begins with.
pub fn read(bytes: &[u8]) -> Result<Name, usize> {
    whole(bytes).ok_or_else(|| longest_beginning(bytes))
}

fn whole(bytes: &[u8]) -> Option<Name> {
    if bytes.is_empty() {
        return Some(Name::from_right(Vec::new()));
    }
    if bytes.len() > LONGEST_KEY {
        return None;
    }
    let pieces = bytes.strip_suffix(&[0])?.split(|&byte| byte == 0);
    let labels = pieces.map(label).collect::<Option<Vec<Label>>>()?;
    (wire_length(&labels) <= LONGEST_NAME).then(|| Name::from_right(labels))
}

/// The beginnings of keys are closed under shortening, so the longest one is found by halving.
fn longest_beginning(bytes: &[u8]) -> usize {
    let mut longest = 0;
    let mut too_long = bytes.len().min(LONGEST_KEY) + 1;
    while too_long - longest > 1 {
        let middle = (longest + too_long) / 2;
        if begins_some_key(&bytes[..middle]) {
            longest = middle;
        } else {
            too_long = middle;
        }
    }
    longest
}

/// Whether some key begins with these bytes. The label that is still open, if any, is closed in
/// the shortest way: an escape cut in two gets its second half (01; 02 would take as much), and
/// then 00 follows. No other continuation asks for less of the name's 255 octets.
fn begins_some_key(bytes: &[u8]) -> bool {
    match bytes.last() {
        None | Some(0) => whole(bytes).is_some(),
        Some(1) => {
            let closings: [&[u8]; 2] = [&[0], &[1, 0]];
            closings
                .iter()
                .any(|closing| whole(&[bytes, closing].concat()).is_some())
        }
        Some(_) => whole(&[bytes, &[0]].concat()).is_some(),
    }
}

/// The label that a piece of a key between two octets 00 stands for.
fn label(piece: &[u8]) -> Option<Label> {
    let mut octets = Vec::new();
    let mut rest = piece;
    while let Some((&byte, after)) = rest.split_first() {
        rest = after;
        octets.push(match byte {
            1 => {
                let (&second, after) = rest.split_first()?;
                rest = after;
                match second {
                    1 => 0,
                    2 => 1,
                    _ => return None,
                }
            }
            other if is_folded(other) => other,
            _ => return None,
        });
    }
    (1..=LONGEST_LABEL)
        .contains(&octets.len())
        .then_some(octets)
}
