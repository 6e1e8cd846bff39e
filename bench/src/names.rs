//! The inputs: random names, pairs of names, keys, texts, zone questions, hashes, names in gaps and type bitmaps from a
//! seed, and document 01's own.
//!
//! A class of inputs is one kind of traffic. `mix` draws on every class, with some damage, and is too large for the
//! caches; the other classes are small and stay in them.

mod damage;
mod gaps;
mod hashes;
mod make;
mod paper;
#[cfg(test)]
mod tests;
mod types;

use std::ops::Range;

use crate::ordinary::{self, MAX_KEY, MAX_NAME, MAX_TEXT};
use common::notation::APEX;
use common::{wire, Random};
use damage::{damaged, damaged_hash, damaged_key, damaged_question, damaged_text};
use gaps::gap;
use hashes::{hash, label, triple};
use make::{ldh_question, name, pair, question, text};
use types::{asked, bitmap, damaged_list, list, types};

/// The seed that the command uses unless it is given another.
pub const SEED: u64 = 4471;

/// The size of a class that stays in the caches.
const HOT: usize = 2_000;

/// What an operation takes.
#[derive(Debug, Clone, Copy, PartialEq, Eq)]
pub enum Kind {
    Names,
    Pairs,
    Keys,
    Questions,
    /// Questions in zones of letters, digits and hyphens.
    LdhQuestions,
    Texts,
    Hashes,
    HashLabels,
    HashTriples,
    /// A query, and the owner and the next name of its gap.
    Gaps,
    Bitmaps,
    TypeLists,
}

pub const KINDS: [Kind; 12] = [
    Kind::Names,
    Kind::Pairs,
    Kind::Keys,
    Kind::Questions,
    Kind::LdhQuestions,
    Kind::Texts,
    Kind::Hashes,
    Kind::HashLabels,
    Kind::HashTriples,
    Kind::Gaps,
    Kind::Bitmaps,
    Kind::TypeLists,
];

impl Kind {
    pub fn classes(self) -> &'static [Class] {
        use Class::*;
        match self {
            Kind::Names | Kind::Keys | Kind::Texts => &[Host, FewZones, Long, Deep, High, Low, Paper, Mix],
            Kind::Pairs => &[Host, FewZones, Long, Deep, High, Low, Unrelated, Paper, Mix],
            Kind::Questions => &[Host, FewZones, Long, Deep, High, Low, Climb, Paper, Mix],
            Kind::LdhQuestions => &[Host, FewZones, Long, Deep, Climb, Mix],
            Kind::Hashes | Kind::HashTriples => &[Hash, High, Low, Mix],
            Kind::HashLabels => &[Hash, Mix],
            Kind::Gaps => &[Host, FewZones, Long, Deep, High, Low, Unrelated, Mix],
            Kind::Bitmaps | Kind::TypeLists => &[FewTypes, ManyTypes, Mix],
        }
    }
}

#[derive(Debug, Clone, Copy, PartialEq, Eq)]
pub enum Class {
    /// A few short labels of letters, digits and hyphens.
    Host,
    /// Labels of 20 octets and more, up to the full length.
    Long,
    /// Labels of 1 to 3 octets, up to 127 of them.
    Deep,
    /// Mostly octets 255.
    High,
    /// Octets 0 and 1 by half.
    Low,
    /// Two names that share no zone; the pairs of all other classes share most of their labels.
    Unrelated,
    /// Names that fill the limit with labels of the greatest octets, so that the successor climbs.
    Climb,
    /// Document 01, "Names to try".
    Paper,
    /// All those above and names of any octets, one in sixteen inputs damaged.
    Mix,
    /// Hashes as a hash function gives them: any octets.
    Hash,
    /// One to eight of the types that most names have.
    FewTypes,
    /// Up to 400 types, in eight windows.
    ManyTypes,
    /// What a server sees: three zones, and names with one or two short labels more than their apex.
    FewZones,
}

impl Class {
    pub fn name(self) -> &'static str {
        match self {
            Class::Host => "host",
            Class::FewZones => "few-zones",
            Class::Long => "long",
            Class::Deep => "deep",
            Class::High => "octets-255",
            Class::Low => "octets-0-1",
            Class::Unrelated => "unrelated",
            Class::Climb => "climb",
            Class::Paper => "document-01",
            Class::Mix => "mix",
            Class::Hash => "hash",
            Class::FewTypes => "few-types",
            Class::ManyTypes => "many-types",
        }
    }
}

/// One call's arguments but the space: `first` is the name, the first name, the key, the text, the apex, the hash or its
/// label, `second` the second name or the name asked about. Of a bitmap `limit` is the type asked for. Of three hashes,
/// and of a query and the ends of its gap, the other two are in `second`, and `limit` tells where the last begins.
#[derive(Debug, Clone, Copy)]
pub struct Input<'a> {
    pub first: &'a [u8],
    pub second: &'a [u8],
    pub limit: usize,
}

/// The inputs of one class, their octets back to back.
pub struct Inputs {
    octets: Vec<u8>,
    parts: Vec<Part>,
}

struct Part {
    first: Range<usize>,
    second: Range<usize>,
    limit: usize,
}

impl Inputs {
    /// A class's inputs; `mix` is the number of them in the class of that name.
    pub fn new(kind: Kind, class: Class, mix: usize, seed: u64) -> Inputs {
        // Another sequence for each kind and class.
        let mut random = Random::new(Random::new(seed).number() ^ ((kind as u64) << 8) ^ class as u64);
        let mut inputs = Inputs { octets: Vec::new(), parts: Vec::new() };
        match class {
            Class::Paper => inputs.add_paper(kind),
            Class::Mix => {
                for _ in 0..mix {
                    inputs.add_mixed(kind, &mut random);
                }
            }
            _ => {
                for _ in 0..HOT {
                    inputs.add_random(kind, class, &mut random);
                }
            }
        }
        inputs
    }

    pub fn views(&self) -> Vec<Input<'_>> {
        let view = |part: &Part| Input {
            first: &self.octets[part.first.clone()],
            second: &self.octets[part.second.clone()],
            limit: part.limit,
        };
        self.parts.iter().map(view).collect()
    }

    fn add(&mut self, first: &[u8], second: &[u8], limit: usize) {
        let start = self.octets.len();
        self.octets.extend_from_slice(first);
        let middle = self.octets.len();
        self.octets.extend_from_slice(second);
        self.parts.push(Part { first: start..middle, second: middle..self.octets.len(), limit });
    }

    fn add_paper(&mut self, kind: Kind) {
        let names: Vec<_> = paper::NAMES.iter().map(|text| wire(text)).collect();
        match kind {
            Kind::Names => names.iter().for_each(|name| self.add(name, &[], 0)),
            Kind::Pairs => {
                for first in &names {
                    names.iter().for_each(|second| self.add(first, second, 0));
                }
            }
            Kind::Keys => {
                names.iter().for_each(|name| self.add(&key(name), &[], 0));
                self.add(&[0x00], &[], 0);
                self.add(&[0x61], &[], 0);
            }
            Kind::Questions => {
                names.iter().for_each(|name| self.add(APEX, name, MAX_NAME));
                for (text, limit) in paper::LIMITS {
                    self.add(APEX, &wire(text), limit);
                }
                self.add(APEX, &[3, b'f'], 0);
            }
            Kind::Texts => names.iter().for_each(|name| self.add(&written(name), &[], 0)),
            Kind::LdhQuestions
            | Kind::Hashes
            | Kind::HashLabels
            | Kind::HashTriples
            | Kind::Gaps
            | Kind::Bitmaps
            | Kind::TypeLists => {}
        }
    }

    fn add_random(&mut self, kind: Kind, class: Class, random: &mut Random) {
        match kind {
            Kind::Names => self.add(&name(class, random), &[], 0),
            Kind::Pairs => {
                let (first, second) = pair(class, random);
                self.add(&first, &second, 0);
            }
            Kind::Keys => self.add(&key(&name(class, random)), &[], 0),
            Kind::Questions => {
                let (apex, limit, name) = question(class, random);
                self.add(&apex, &name, limit);
            }
            Kind::LdhQuestions => {
                let (apex, limit, name) = ldh_question(class, random);
                self.add(&apex, &name, limit);
            }
            Kind::Texts => self.add(&text(&name(class, random), random), &[], 0),
            Kind::Hashes => self.add(&hash(class, random), &[], 0),
            Kind::HashLabels => self.add(&label(class, random), &[], 0),
            Kind::HashTriples => {
                let [first, hash, second] = triple(class, random);
                self.add(&first, &[hash, second].concat(), hash.len());
            }
            Kind::Gaps => {
                let [query, owner, next] = gap(class, random);
                self.add(&query, &[&owner[..], &next].concat(), owner.len());
            }
            Kind::Bitmaps => {
                let types = types(class, random);
                self.add(&bitmap(&types), &[], asked(&types, random));
            }
            Kind::TypeLists => self.add(&list(&types(class, random)), &[], 0),
        }
    }

    fn add_mixed(&mut self, kind: Kind, random: &mut Random) {
        // The classes of random inputs, and `Mix` itself for names of any octets.
        let classes: Vec<_> = kind.classes().iter().copied().filter(|&class| class != Class::FewZones).collect();
        let class = match random.pick(&classes) {
            Class::Paper => Class::Host,
            class => class,
        };
        if !random.one_in(16) {
            return self.add_random(kind, class, random);
        }
        match kind {
            Kind::Names => self.add(&damaged(name(class, random), random), &[], 0),
            Kind::Pairs => {
                let (mut first, mut second) = pair(class, random);
                let which = random.below(3);
                if which != 1 {
                    first = damaged(first, random);
                }
                if which != 0 {
                    second = damaged(second, random);
                }
                self.add(&first, &second, 0);
            }
            Kind::Keys => self.add(&damaged_key(key(&name(class, random)), random), &[], 0),
            Kind::Questions => {
                let (apex, limit, name) = damaged_question(question(class, random), random);
                self.add(&apex, &name, limit);
            }
            Kind::LdhQuestions => {
                // Other octets too, where the damage is none.
                let asked = if random.one_in(2) { question(class, random) } else { ldh_question(class, random) };
                let (apex, limit, name) = if random.one_in(2) { damaged_question(asked, random) } else { asked };
                self.add(&apex, &name, limit);
            }
            Kind::Texts => self.add(&damaged_text(text(&name(class, random), random), random), &[], 0),
            Kind::Hashes => self.add(&damaged_hash(hash(class, random).to_vec(), random), &[], 0),
            Kind::HashLabels => self.add(&damaged_hash(label(class, random), random), &[], 0),
            Kind::HashTriples => {
                let mut three = triple(class, random).map(|hash| hash.to_vec());
                let which = random.below(3);
                three[which] = damaged_hash(three[which].clone(), random);
                self.add(&three[0], &three[1..].concat(), three[1].len());
            }
            Kind::Gaps => {
                // One of them damaged, or all three in another order.
                let mut three = gap(class, random);
                let which = random.below(3);
                match random.below(2) {
                    0 => three[which] = damaged(three[which].clone(), random),
                    _ => three.rotate_left(which),
                }
                self.add(&three[0], &three[1..].concat(), three[1].len());
            }
            Kind::Bitmaps => {
                let types = types(Class::FewTypes, random);
                self.add(&damaged_hash(bitmap(&types), random), &[], asked(&types, random));
            }
            Kind::TypeLists => self.add(&damaged_list(types(class, random), random), &[], 0),
        }
    }
}

fn key(name: &[u8]) -> Vec<u8> {
    let mut space = [0; MAX_KEY];
    let len = ordinary::write_key(name, &mut space).expect("a name has a key");
    space[..len].to_vec()
}

/// The name's one written text.
fn written(name: &[u8]) -> Vec<u8> {
    let mut space = [0; MAX_TEXT];
    let len = ordinary::write_text(name, &mut space).expect("a name has a text");
    space[..len].to_vec()
}
