//! Random sets of types, and their bitmaps.

use super::Class;
use crate::ordinary::{write_types, MAX_BITMAP};
use common::Random;

/// The types that most names have.
const USUAL: [u16; 12] = [1, 2, 5, 6, 15, 16, 28, 33, 46, 47, 48, 257];

/// A set of types: a few of the usual ones, up to 400, or of both kinds and anywhere.
pub fn types(class: Class, random: &mut Random) -> Vec<u16> {
    let mut types: Vec<u16> = match class {
        Class::FewTypes => (0..random.between(1, 8)).map(|_| random.pick(&USUAL)).collect(),
        Class::ManyTypes => (0..random.between(20, 400)).map(|_| random.below(2048) as u16).collect(),
        _ => (0..random.between(0, 12)).map(|_| random.below(65536) as u16).collect(),
    };
    types.sort_unstable();
    types.dedup();
    types
}

/// The octets of a list, in the machine's order.
pub fn list(types: &[u16]) -> Vec<u8> {
    types.iter().flat_map(|of| of.to_ne_bytes()).collect()
}

/// A list that does not rise.
pub fn damaged_list(mut types: Vec<u16>, random: &mut Random) -> Vec<u8> {
    types.push(random.below(2048) as u16);
    let (one, other) = (random.below(types.len()), random.below(types.len()));
    types.swap(one, other);
    list(&types)
}

pub fn bitmap(types: &[u16]) -> Vec<u8> {
    let mut space = [0; MAX_BITMAP];
    let length = write_types(types, &mut space).expect("a set has a bitmap");
    space[..length].to_vec()
}

/// A type to ask for: one of the set, or any low one.
pub fn asked(types: &[u16], random: &mut Random) -> usize {
    if types.is_empty() || random.one_in(2) {
        return random.below(300);
    }
    usize::from(random.pick(types))
}
