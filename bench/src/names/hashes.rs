//! Random hashes and their labels.

use super::Class;
use crate::ordinary::{write_hash_label, HASH, HASH_LABEL};
use common::names::change_case;
use common::Random;

/// A hash: any octets, or octets 255 or 0 at its end, where a carry or a borrow goes on.
pub fn hash(class: Class, random: &mut Random) -> [u8; HASH] {
    let mut hash = [0; HASH];
    random.fill(&mut hash);
    let run = random.between(1, HASH);
    match class {
        Class::High => hash[HASH - run..].fill(0xff),
        Class::Low => hash[HASH - run..].fill(0),
        _ => {}
    }
    hash
}

/// A hash's label, in lower case or, one in four, in upper case; of the class `mix`, in both.
pub fn label(class: Class, random: &mut Random) -> Vec<u8> {
    let mut label = [0; HASH_LABEL];
    write_hash_label(&hash(Class::Hash, random), &mut label).expect("a hash has a label");
    if class == Class::Mix {
        return change_case(random, &label, 2);
    }
    if random.one_in(4) {
        label.make_ascii_uppercase();
    }
    label.to_vec()
}

/// Three hashes: any, or such that differ late.
pub fn triple(class: Class, random: &mut Random) -> [[u8; HASH]; 3] {
    let mut three = [0; 3].map(|_| hash(class, random));
    if class != Class::Hash {
        let shared = random.below(HASH + 1);
        let first = three[0];
        three.iter_mut().for_each(|hash| hash[..shared].copy_from_slice(&first[..shared]));
    }
    three
}
