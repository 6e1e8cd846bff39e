//! Compares the modified neighbours with the reference.

use comparison::neighbours::{Operation, Pair, DEPTH_FACTS};
use comparison::requests;
use qorshudan::exported;

const LEAST_SPARE: usize = 64;
const NUMBERS: [u8; 9] = [0, 1, 2, 3, 4, 5, 6, 7, 9];

#[test]
fn modified_predecessor() {
    Operation {
        name: "modified_predecessor",
        pair: Pair::Plain(
            exported::qorshudan_modified_predecessor,
            reference::modified_predecessor,
        ),
        facts: requests::modified_predecessor_facts,
        depths: false,
        least_spare: LEAST_SPARE,
        numbers: &NUMBERS,
        wanted: &[&requests::MODIFIED_PREDECESSOR_FACTS, &DEPTH_FACTS],
    }
    .compare();
}

#[test]
fn modified_successor() {
    Operation {
        name: "modified_successor",
        pair: Pair::Plain(
            exported::qorshudan_modified_successor,
            reference::modified_successor,
        ),
        facts: requests::modified_successor_facts,
        depths: false,
        least_spare: LEAST_SPARE,
        numbers: &NUMBERS,
        wanted: &[&requests::MODIFIED_SUCCESSOR_FACTS, &DEPTH_FACTS],
    }
    .compare();
}
