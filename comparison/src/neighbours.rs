//! The comparison of a function that answers a neighbour, absolute or modified, with the reference.

use crate::call::{Input, Outcome, Run, Wanted};
use crate::depths;
use crate::exported;
use crate::requests::{self, Request};
use crate::spelling::{self, Spelling};
use crate::{names, RANDOM_INPUTS};
use qorshudan::exported::{ModifiedIn, Neighbour, NeighbourIn};
use reference::{Alphabet, Name, Refusal};

type Plain = fn(&[u8], u64, &[u8], usize) -> Result<Vec<u8>, Refusal>;
type In = fn(Alphabet, &[u8], u64, &[u8], usize) -> Result<Vec<u8>, Refusal>;
type Deep = fn(Alphabet, u64, &[u8], u64, &[u8], usize) -> Result<Vec<u8>, Refusal>;

/// An exported function, and the reference's for it.
#[derive(Clone, Copy)]
pub enum Pair {
    Plain(Neighbour, Plain),
    In(Spelling, NeighbourIn, In),
    /// At the depth of the request.
    Deep(Spelling, ModifiedIn, Deep),
}

impl Pair {
    fn spelling(self) -> Option<Spelling> {
        match self {
            Pair::Plain(..) => None,
            Pair::In(spelling, ..) | Pair::Deep(spelling, ..) => Some(spelling),
        }
    }
}

/// What is true of an answer, told of the apex, the name and the answer, all folded.
pub type Facts = fn(&Name, &Name, &Name) -> Vec<&'static str>;

/// What is compared, and what the random requests must bring up.
pub struct Operation<'a> {
    pub name: &'static str,
    pub pair: Pair,
    pub facts: Facts,
    /// Whether the random requests have a depth of their own; else it is 1.
    pub depths: bool,
    /// How many octets above the apex most limits leave.
    pub least_spare: usize,
    pub numbers: &'a [u8],
    pub wanted: &'a [&'a [&'static str]],
}

/// What is true of answers under apexes of any length, with names near the limit and others.
const COMMON_FACTS: [&str; 7] = [
    "answered within 3 octets of the limit",
    "answered with other letter case in the apex",
    "answered under the root",
    "answered under a short apex",
    "answered under a long apex",
    "answered under a very long apex",
    "outside in spite of its last octets",
];

/// How far above the apex the names are that get an answer.
pub const DEPTH_FACTS: [&str; 4] = [
    "answered of the apex",
    "answered of one label more",
    "answered of two labels more",
    "answered of several labels more",
];

impl Operation<'_> {
    /// Compares the function with the reference on the directed and on random requests.
    pub fn compare(&self) {
        let (mut run, mut random) = Run::start(self.name);
        for request in requests::directed() {
            for room in [0, 12, 13, 17, 18, 19, 76, 77, 78, 254, 255, 256] {
                if request.apex.len() + request.name.len() < 1000 || room % 16 == 0 {
                    self.one(&mut run, &request, room);
                }
            }
        }
        for _ in 0..RANDOM_INPUTS {
            let mut request = requests::any(&mut random, self.least_spare);
            if self.depths {
                run.count_all(&depths::deepen(&mut random, &mut request));
            }
            if self.pair.spelling() == Some(Spelling::Ldh) {
                run.count(spelling::keep_to_alphabet(&mut random, &mut request));
            }
            run.count(request.class);
            let result = self.reference(&request, usize::MAX);
            let answer = match &result {
                Ok(answer) => answer.len(),
                Err(_) => random.below(256),
            };
            let room = names::room(&mut random, answer);
            if result.is_ok() {
                run.count(names::room_fact(answer, room));
            }
            self.one(&mut run, &request, room);
        }
        let mut facts = requests::CLASSES.to_vec();
        facts.extend(self.wanted.concat());
        facts.extend(names::ROOM_FACTS);
        facts.extend(COMMON_FACTS);
        if self.depths {
            // Two labels of 63 octets and more find no room there.
            facts.retain(|&fact| fact != "answered under a very long apex");
        }
        run.finish(&Wanted {
            often: 250,
            numbers: self.numbers,
            facts,
        });
    }

    fn one(&self, run: &mut Run, request: &Request, room: usize) {
        let result = self.reference(request, room);
        if let Ok(answer) = &result {
            self.count(run, request, answer);
        }
        if result == Err(Refusal::NotInAlphabet) {
            run.count_all(&spelling::refusal_facts(&request.apex, &request.name));
        }
        if result == Err(Refusal::NotUnderApex) && request.name.ends_with(&request.apex) {
            run.count("outside in spite of its last octets");
        }
        let input = Input {
            slices: &[&request.apex, &request.name],
            limit: Some(request.limit),
            room: Some(room),
        };
        let outcome = Outcome::of_octets(result);
        run.call(input, &outcome, |slices, space| {
            let (apex, limit, name) = (slices[0], request.limit, slices[1]);
            match self.pair {
                Pair::Plain(function, _) => exported::neighbour(function, apex, limit, name, space),
                Pair::In(spelling, function, _) => {
                    let alphabet = spelling.number(name);
                    exported::neighbour_in(function, alphabet, apex, limit, name, space)
                }
                Pair::Deep(spelling, function, _) => {
                    let asked = (spelling.number(name), request.depth);
                    exported::modified_in(function, asked, apex, limit, name, space)
                }
            }
        });
    }

    fn reference(&self, request: &Request, room: usize) -> Result<Vec<u8>, Refusal> {
        let (apex, limit, name) = (&request.apex, request.limit, &request.name);
        match self.pair {
            Pair::Plain(_, reference) => reference(apex, limit, name, room),
            Pair::In(spelling, _, reference) => {
                reference(spelling.alphabet(), apex, limit, name, room)
            }
            Pair::Deep(spelling, _, reference) => {
                let alphabet = spelling.alphabet();
                reference(alphabet, request.depth, apex, limit, name, room)
            }
        }
    }

    /// Counts what is true of an answered request.
    fn count(&self, run: &mut Run, request: &Request, answer: &[u8]) {
        let folded = |name: &[u8]| reference::check(name).expect("well formed").folded();
        let (apex, name) = (folded(&request.apex), folded(&request.name));
        let answer = folded(answer);
        run.count_all(&(self.facts)(&apex, &name, &answer));
        if let Some(spelling) = self.pair.spelling() {
            run.count_all(&spelling.answer_facts(&apex, &request.name, &answer));
        }
        if self.depths {
            run.count_all(&depths::answer_facts(&apex, &name, request.depth, &answer));
        }
        if name.length() as u64 + 3 >= request.limit {
            run.count("answered within 3 octets of the limit");
        }
        if !request.name.ends_with(&request.apex) {
            run.count("answered with other letter case in the apex");
        }
        match request.apex.len() {
            1 => run.count("answered under the root"),
            2..=63 => run.count("answered under a short apex"),
            64..=180 => run.count("answered under a long apex"),
            _ => run.count("answered under a very long apex"),
        }
        let more = name.labels().len() - apex.labels().len();
        run.count(DEPTH_FACTS[more.min(3)]);
    }
}
