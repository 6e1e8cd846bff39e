//! Requests in an alphabet: names that keep to it, with octets at its borders, and names that don't.

use crate::requests::Request;
use common::names::{change_case, starts};
use common::Random;
use reference::{Alphabet, Name};

/// The two alphabets.
#[derive(Clone, Copy, Debug, PartialEq, Eq)]
pub enum Spelling {
    Full,
    Ldh,
}

/// Octets in the alphabet of letters, digits and hyphens, at its borders and beside them within it.
const WITHIN: &[u8] = b"--00199abyzz";

/// Octets outside it, next to its borders for the most part.
const OUTSIDE: &[u8] = b"\x00\x1f,./:;@[_`{\x7f\x80\xff";

impl Spelling {
    /// A number of the alphabet: 0 for the full one, and any other for the other, by turns.
    pub fn number(self, name: &[u8]) -> u64 {
        let others = [1, 2, 255, 256, 1 << 32, 1 << 63, u64::MAX];
        match self {
            Spelling::Full => 0,
            Spelling::Ldh => others[name.len() % others.len()],
        }
    }

    pub fn alphabet(self) -> Alphabet {
        match self {
            Spelling::Full => Alphabet::FULL,
            Spelling::Ldh => Alphabet::LETTERS_DIGITS_HYPHENS,
        }
    }

    /// What is true of an answered request in this alphabet.
    pub fn answer_facts(self, apex: &Name, name: &[u8], answer: &Name) -> Vec<&'static str> {
        let mut facts = Vec::new();
        let alphabet = self.alphabet();
        let kept = |octet: &u8| alphabet.has(*octet);
        let count = apex.labels().len();
        if self == Spelling::Full {
            if !apex.labels().iter().flatten().all(is_ldh) {
                facts.push("answered under an apex with other octets");
            }
            return facts;
        }
        assert!(answer.labels()[count..].iter().flatten().all(kept));
        if !apex.labels().iter().flatten().all(kept) {
            facts.push("answered under an apex with other octets");
        }
        let above = name.len() - apex.length();
        if name[..above].iter().any(u8::is_ascii_uppercase) {
            facts.push("answered with upper case above the apex");
        }
        let folded = reference::check(name).expect("well formed").folded();
        let labels = folded.labels().iter().zip(answer.labels()).skip(count);
        for (old, new) in labels {
            let steps = old.iter().zip(new).filter(|(old, new)| old != new);
            facts.extend(steps.take(1).filter_map(|(&old, &new)| match (old, new) {
                (b'-', b'0') => Some("raised from - to 0"),
                (b'9', b'a') => Some("raised from 9 to a"),
                (b'0', b'-') => Some("lowered from 0 to -"),
                (b'a', b'9') => Some("lowered from a to 9"),
                _ => None,
            }));
        }
        facts
    }
}

fn is_ldh(octet: &u8) -> bool {
    Alphabet::LETTERS_DIGITS_HYPHENS.has(*octet)
}

/// What `answer_facts` can tell of both alphabets, of the smaller one, and of its neighbours.
pub const COMMON_FACTS: [&str; 1] = ["answered under an apex with other octets"];
pub const LDH_FACTS: [&str; 1] = ["answered with upper case above the apex"];
pub const RAISED_FACTS: [&str; 2] = ["raised from - to 0", "raised from 9 to a"];
pub const LOWERED_FACTS: [&str; 2] = ["lowered from 0 to -", "lowered from a to 9"];

/// Where a refused name has an octet outside the alphabet.
pub const REFUSAL_FACTS: [&str; 3] = [
    "outside in the first label",
    "outside in the last label above the apex",
    "outside in a label between",
];

/// Where a name that is refused with 12 has an octet outside the alphabet.
pub fn refusal_facts(apex: &[u8], name: &[u8]) -> Vec<&'static str> {
    let above = name.len() - apex.len();
    let places: Vec<usize> = starts(name)
        .into_iter()
        .take_while(|&p| p < above)
        .collect();
    let mut facts = Vec::new();
    for (index, &place) in places.iter().enumerate() {
        let label = &name[place + 1..][..usize::from(name[place])];
        if label
            .iter()
            .all(|octet| is_ldh(&octet.to_ascii_lowercase()))
        {
            continue;
        }
        if index == 0 {
            facts.push(REFUSAL_FACTS[0]);
        }
        if index + 1 == places.len() {
            facts.push(REFUSAL_FACTS[1]);
        }
        if index > 0 && index + 1 < places.len() {
            facts.push(REFUSAL_FACTS[2]);
        }
    }
    facts
}

/// What is done with the name of a request.
pub const SPELLINGS: [&str; 4] = [
    "left as it was",
    "kept",
    "kept but for one octet",
    "in upper case",
];

/// Turns the octets of the name above the apex into ones of the alphabet, its least and its greatest
/// where they were 0 and 255, and then perhaps one of them into one outside; or leaves them.
pub fn keep_to_alphabet(random: &mut Random, request: &mut Request) -> &'static str {
    let Request { apex, name, .. } = request;
    let whole = reference::check(apex).is_ok() && reference::check(name).is_ok();
    if !whole || name.len() <= apex.len() || random.one_in(12) {
        return SPELLINGS[0];
    }
    let above = name.len() - apex.len();
    let places: Vec<usize> = starts(name)
        .into_iter()
        .take_while(|&p| p < above)
        .collect();
    let labels = |place: usize, name: &[u8]| place + 1..place + 1 + usize::from(name[place]);
    for &place in &places {
        for octet in labels(place, name) {
            if octet < above {
                name[octet] = match name[octet] {
                    0 => b'-',
                    1 => b'0',
                    254 => b'y',
                    255 => b'z',
                    other if random.one_in(4) && is_ldh(&other) => other,
                    _ => random.pick(WITHIN),
                };
            }
        }
    }
    match random.below(6) {
        0 => {
            // in the first label, in the last above the apex, or in any
            let place = match random.below(3) {
                0 => places[0],
                1 => places[places.len() - 1],
                _ => random.pick(&places),
            };
            let octets = labels(place, name);
            let octet = random.between(octets.start, octets.end - 1);
            if octet < above {
                name[octet] = random.pick(OUTSIDE);
            }
            SPELLINGS[2]
        }
        1 => {
            *name = change_case(random, name, 2);
            SPELLINGS[3]
        }
        _ => SPELLINGS[1],
    }
}
