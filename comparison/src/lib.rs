//! What the comparison tests share: the seed, generators of names, texts, hashes, type bitmaps, names
//! in and around a gap, lists of owners, and requests for neighbours, in an alphabet and at a depth too, the exported
//! functions, the call that compares every octet before and after, and the whole comparison of a
//! neighbour.

pub mod bitmaps;
pub mod call;
pub mod depths;
pub mod enclosers;
pub mod exported;
pub mod hashes;
pub mod names;
pub mod neighbours;
pub mod owners;
pub mod requests;
mod seed;
pub mod spelling;
pub mod texts;

/// How many random inputs each operation gets, besides the directed ones.
pub const RANDOM_INPUTS: usize = 200_000;
