//! The operations, each as the library's function beside the ordinary one.

use std::hint::black_box;

use crate::names::{Input, Kind};
use crate::ordinary::{self, Found, Gaps, Reason, Refusal};
use crate::ordinary::{HASH, HASH_LABEL, MAX_BITMAP, MAX_DENIAL, MAX_KEY, MAX_LABELS, MAX_NAME, MAX_TEXT};
use common::packed;
use qorshudan::raw as ours;

/// The most types of an input.
const MAX_TYPES: usize = 400;

/// One call; the answer packed as the library packs it.
pub type Call = fn(&Input, &mut [u8]) -> u64;
/// One call for each input, the answers used up unpacked: what is timed and counted.
pub type Run = fn(&[Input], &mut [u8]);

pub struct Version {
    pub call: Call,
    pub run: Run,
}

pub struct Operation {
    pub name: &'static str,
    pub kind: Kind,
    /// The length of the space that holds every answer.
    pub space: usize,
    pub ours: Version,
    pub ordinary: Version,
    /// The octets of an answer copied and filled, with no thought: what no program is faster than.
    pub bare: Option<Run>,
}

/// An answer's number as the library gives it.
pub trait Answer {
    fn value(self) -> u64;
}

impl Answer for usize {
    fn value(self) -> u64 {
        self as u64
    }
}

impl Answer for bool {
    fn value(self) -> u64 {
        self.into()
    }
}

/// 1 plus a type, and 0 for none.
impl Answer for Option<u16> {
    fn value(self) -> u64 {
        self.map_or(0, |of| 1 + u64::from(of))
    }
}

/// The number looked at, and 256 times 1 plus the owner's index, or 0 for none.
impl Answer for Found {
    fn value(self) -> u64 {
        (self.looks + self.owner.map_or(0, |index| 256 * (1 + index))) as u64
    }
}

/// The lengths of the names, the first lowest.
impl Answer for Gaps {
    fn value(self) -> u64 {
        u32::from_le_bytes(self.lengths).into()
    }
}

/// Comparisons are moved above zero.
impl Answer for i8 {
    fn value(self) -> u64 {
        (128 + i16::from(self)) as u64
    }
}

/// An ordinary answer as the library packs it.
pub fn pack<A: Answer>(result: Result<A, Refusal>) -> u64 {
    match result {
        Ok(answer) => packed(0, 0, answer.value()),
        Err(refusal) => {
            let (reason, place) = match refusal {
                Refusal::BadApex(reason) | Refusal::BadName(reason) | Refusal::BadSecondName(reason) => match reason {
                    Reason::CutShort(place) => (1, place),
                    Reason::LeftOver(place) => (2, place),
                    Reason::BadLength(place) => (3, place),
                    Reason::TooLong(place) => (4, place),
                },
                Refusal::NotAKey(place)
                | Refusal::NotAText(place)
                | Refusal::NotASet(place)
                | Refusal::NotOwners(place) => (0, place),
                _ => (0, 0),
            };
            packed(refusal.number(), reason, place as u64)
        }
    }
}

fn run<R>(inputs: &[Input], space: &mut [u8], call: impl Fn(&Input, &mut [u8]) -> R) {
    for input in inputs {
        black_box(call(black_box(input), black_box(&mut *space)));
    }
}

macro_rules! operation {
    ($name:literal, $kind:ident, $space:expr, $ours:expr, $ordinary:expr) => {
        operation!($name, $kind, $space, $ours, $ordinary, None)
    };
    ($name:literal, $kind:ident, $space:expr, $ours:expr, $ordinary:expr, $bare:expr) => {
        Operation {
            name: $name,
            kind: Kind::$kind,
            space: $space,
            ours: Version { call: $ours, run: |inputs, space| run(inputs, space, $ours) },
            ordinary: Version {
                call: |input, space| pack(($ordinary)(input, space)),
                run: |inputs, space| run(inputs, space, $ordinary),
            },
            bare: $bare,
        }
    };
}

/// Fills the first octets of the space with 255, as many as the greatest labels take, and copies the name behind them.
fn bare(name: &[u8], filled: usize, space: &mut [u8]) -> usize {
    let filled = filled.min(MAX_NAME - name.len().min(MAX_NAME));
    let (front, rest) = space[..MAX_NAME].split_at_mut(filled);
    front.fill(255);
    let count = name.len().min(rest.len());
    rest[..count].copy_from_slice(&name[..count]);
    filled + count
}

/// An operation in a zone.
macro_rules! neighbour {
    ($name:literal, $function:ident, $bare:expr) => {
        operation!(
            $name,
            Questions,
            MAX_NAME,
            |i: &Input, space: &mut [u8]| ours::$function(i.first, i.limit as u64, i.second, space),
            |i: &Input, space: &mut [u8]| ordinary::$function(i.first, i.limit, i.second, space),
            Some(|inputs, space| run(inputs, space, $bare))
        )
    };
}

/// An operation in a zone that keeps to an alphabet; a modified one with a depth.
macro_rules! neighbour_in {
    ($name:literal, $kind:ident, $function:ident, $($asked:literal),+) => {
        operation!(
            $name,
            $kind,
            MAX_NAME,
            |i: &Input, space: &mut [u8]| ours::$function($($asked),+, i.first, i.limit as u64, i.second, space),
            |i: &Input, space: &mut [u8]| ordinary::$function($($asked),+, i.first, i.limit, i.second, space)
        )
    };
}

/// An operation on a hash or its label.
macro_rules! hashed {
    ($name:literal, $kind:ident, $space:expr, $function:ident) => {
        operation!(
            $name,
            $kind,
            $space,
            |i: &Input, space: &mut [u8]| ours::$function(i.first, space),
            |i: &Input, space: &mut [u8]| ordinary::$function(i.first, space)
        )
    };
}

/// What is asked of a bitmap.
macro_rules! asked {
    ($name:literal, $function:ident) => {
        operation!(
            $name,
            Bitmaps,
            MAX_NAME,
            |i: &Input, _: &mut [u8]| ours::$function(i.first),
            |i: &Input, _: &mut [u8]| ordinary::$function(i.first)
        )
    };
}

/// The types that octets of an even number, at an even address, are in the machine's order.
fn types(octets: &[u8]) -> &[u16] {
    // SAFETY: any two octets are a type.
    unsafe { octets.align_to().1 }
}

fn places(space: &mut [u8]) -> &mut [u16] {
    // SAFETY: any two octets are a type.
    unsafe { space.align_to_mut().1 }
}

pub static OPERATIONS: &[Operation] = &[
    operation!("check", Names, MAX_NAME, |i: &Input, _: &mut [u8]| ours::check(i.first), |i: &Input, _: &mut [u8]| {
        ordinary::check(i.first)
    }),
    operation!(
        "fold",
        Names,
        MAX_NAME,
        |i: &Input, space: &mut [u8]| ours::fold(i.first, space),
        |i: &Input, space: &mut [u8]| ordinary::fold(i.first, space)
    ),
    operation!(
        "label_places",
        Names,
        MAX_LABELS,
        |i: &Input, space: &mut [u8]| ours::label_places(i.first, space),
        |i: &Input, space: &mut [u8]| ordinary::label_places(i.first, space)
    ),
    operation!(
        "compare",
        Pairs,
        MAX_NAME,
        |i: &Input, _: &mut [u8]| ours::compare(i.first, i.second),
        |i: &Input, _: &mut [u8]| ordinary::compare(i.first, i.second)
    ),
    operation!(
        "write_key",
        Names,
        MAX_KEY,
        |i: &Input, space: &mut [u8]| ours::write_key(i.first, space),
        |i: &Input, space: &mut [u8]| ordinary::write_key(i.first, space)
    ),
    operation!(
        "read_key",
        Keys,
        MAX_NAME,
        |i: &Input, space: &mut [u8]| ours::read_key(i.first, space),
        |i: &Input, space: &mut [u8]| ordinary::read_key(i.first, space)
    ),
    neighbour!("predecessor", predecessor, |i: &Input, space: &mut [u8]| bare(i.second, MAX_NAME, space)),
    neighbour!("successor", successor, |i: &Input, space: &mut [u8]| bare(i.second, 2, space)),
    neighbour!("modified_predecessor", modified_predecessor, |i: &Input, space: &mut [u8]| bare(i.first, 64, space)),
    neighbour!("modified_successor", modified_successor, |i: &Input, space: &mut [u8]| bare(i.second, 1, space)),
    neighbour_in!("predecessor_in", LdhQuestions, predecessor_in, 1),
    neighbour_in!("successor_in", LdhQuestions, successor_in, 1),
    neighbour_in!("modified_predecessor_in", LdhQuestions, modified_predecessor_in, 1, 1),
    neighbour_in!("modified_successor_in", LdhQuestions, modified_successor_in, 1, 1),
    neighbour_in!("modified_predecessor_2", Questions, modified_predecessor_in, 0, 2),
    neighbour_in!("modified_successor_2", Questions, modified_successor_in, 0, 2),
    neighbour_in!("modified_predecessor_3", Questions, modified_predecessor_in, 0, 3),
    neighbour_in!("modified_successor_3", Questions, modified_successor_in, 0, 3),
    operation!(
        "write_text",
        Names,
        MAX_TEXT,
        |i: &Input, space: &mut [u8]| ours::write_text(i.first, space),
        |i: &Input, space: &mut [u8]| ordinary::write_text(i.first, space)
    ),
    operation!(
        "read_text",
        Texts,
        MAX_NAME,
        |i: &Input, space: &mut [u8]| ours::read_text(i.first, space),
        |i: &Input, space: &mut [u8]| ordinary::read_text(i.first, space)
    ),
    hashed!("hash_after", Hashes, HASH, hash_after),
    hashed!("hash_before", Hashes, HASH, hash_before),
    hashed!("write_hash_label", Hashes, HASH_LABEL, write_hash_label),
    hashed!("read_hash_label", HashLabels, HASH, read_hash_label),
    operation!(
        "hash_between",
        HashTriples,
        HASH,
        |i: &Input, _: &mut [u8]| ours::hash_between(i.first, &i.second[..i.limit], &i.second[i.limit..]),
        |i: &Input, _: &mut [u8]| ordinary::hash_between(i.first, &i.second[..i.limit], &i.second[i.limit..])
    ),
    operation!(
        "closest_encloser",
        Gaps,
        MAX_NAME,
        |i: &Input, _: &mut [u8]| ours::closest_encloser(i.first, &i.second[..i.limit], &i.second[i.limit..]),
        |i: &Input, _: &mut [u8]| ordinary::closest_encloser(i.first, &i.second[..i.limit], &i.second[i.limit..])
    ),
    operation!(
        "wildcard",
        Names,
        MAX_NAME,
        |i: &Input, space: &mut [u8]| ours::wildcard(i.first, space),
        |i: &Input, space: &mut [u8]| ordinary::wildcard(i.first, space)
    ),
    neighbour_in!("subtree_successor", Questions, subtree_successor, 0),
    // Below the apex, as in a zone where nothing else exists.
    operation!(
        "next_closer",
        Questions,
        MAX_NAME,
        |i: &Input, _: &mut [u8]| ours::next_closer(i.first, i.second),
        |i: &Input, _: &mut [u8]| ordinary::next_closer(i.first, i.second)
    ),
    operation!(
        "covers",
        Gaps,
        MAX_NAME,
        |i: &Input, _: &mut [u8]| ours::covers(&i.second[..i.limit], &i.second[i.limit..], i.first),
        |i: &Input, _: &mut [u8]| ordinary::covers(&i.second[..i.limit], &i.second[i.limit..], i.first)
    ),
    operation!(
        "denial",
        Questions,
        MAX_DENIAL,
        |i: &Input, space: &mut [u8]| ours::denial(i.first, i.limit as u64, i.first, i.second, space),
        |i: &Input, space: &mut [u8]| ordinary::denial(i.first, i.limit, i.first, i.second, space)
    ),
    operation!(
        "read_types",
        Bitmaps,
        2 * MAX_TYPES,
        |i: &Input, space: &mut [u8]| ours::read_types(i.first, places(space)),
        |i: &Input, space: &mut [u8]| ordinary::read_types(i.first, places(space))
    ),
    operation!(
        "write_types",
        TypeLists,
        MAX_BITMAP,
        |i: &Input, space: &mut [u8]| ours::write_types(types(i.first), space),
        |i: &Input, space: &mut [u8]| ordinary::write_types(types(i.first), space)
    ),
    operation!(
        "has_type",
        Bitmaps,
        MAX_NAME,
        |i: &Input, _: &mut [u8]| ours::has_type(i.first, i.limit as u16),
        |i: &Input, _: &mut [u8]| ordinary::has_type(i.first, i.limit as u16)
    ),
    asked!("count_types", count_types),
    asked!("smallest_type", smallest_type),
    asked!("largest_type", largest_type),
];

/// The operation of this name, or a sentence that says which there are.
pub fn find(name: &str) -> Result<&'static Operation, String> {
    OPERATIONS.iter().find(|operation| operation.name == name).ok_or_else(|| {
        let names: Vec<_> = OPERATIONS.iter().map(|operation| operation.name).collect();
        format!("no operation {name}; there are {}", names.join(", "))
    })
}
