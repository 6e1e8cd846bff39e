//! The parts of the benchmark: the ordinary Rust version of the library's functions (`ordinary`), the inputs that both
//! are given (`names`), the list that pairs the two versions (`operations`), the comparison of their answers (`answers`),
//! and the ordinary version of the batch program (`batch`).

pub mod answers;
pub mod batch;
pub mod names;
pub mod operations;
pub mod ordinary;
