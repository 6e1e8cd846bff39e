//! Random queries, each with the owner and the next name of its gap.

use super::make::{beside, name};
use super::Class;
use crate::ordinary::compare;
use common::Random;

/// The query, the owner before it and the next name after it; one in sixteen in the last gap, where the root comes next.
pub fn gap(class: Class, random: &mut Random) -> [Vec<u8>; 3] {
    loop {
        let first = name(class, random);
        let mut three = [beside(&first, class, random), beside(&first, class, random), first];
        three.sort_by(|one, other| compare(one, other).expect("names are well formed").cmp(&0));
        let [owner, query, next] = three;
        let rises = |one: &[u8], other: &[u8]| compare(one, other).is_ok_and(|order| order < 0);
        if rises(&owner, &query) && rises(&query, &next) {
            let next = if random.one_in(16) { vec![0] } else { next };
            return [query, owner, next];
        }
    }
}
