//! Compares the absolute neighbours with the reference.

use comparison::neighbours::{Operation, Pair, DEPTH_FACTS};
use comparison::requests;
use qorshudan::exported;

const LEAST_SPARE: usize = 2;
const NUMBERS: [u8; 8] = [0, 1, 2, 3, 4, 5, 6, 9];

#[test]
fn predecessor() {
    Operation {
        name: "predecessor",
        pair: Pair::Plain(exported::qorshudan_predecessor, reference::predecessor),
        facts: requests::predecessor_facts,
        depths: false,
        least_spare: LEAST_SPARE,
        numbers: &NUMBERS,
        wanted: &[&requests::PREDECESSOR_FACTS, &DEPTH_FACTS],
    }
    .compare();
}

#[test]
fn successor() {
    Operation {
        name: "successor",
        pair: Pair::Plain(exported::qorshudan_successor, reference::successor),
        facts: requests::successor_facts,
        depths: false,
        least_spare: LEAST_SPARE,
        numbers: &NUMBERS,
        wanted: &[&requests::SUCCESSOR_FACTS, &DEPTH_FACTS],
    }
    .compare();
}
