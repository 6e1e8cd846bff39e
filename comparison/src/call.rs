//! One call of an exported function: inputs and space are laid out between noise, the call is made,
//! and everything it hands back or could have touched is compared with what the reference says.

use crate::seed::seed;
use common::{hex, packed, Random};
use qorshudan::raw;
use reference::{Name, Piece, Refusal};
use std::collections::BTreeMap;
use std::io::Write;

/// What a call must hand back: the packed number, and the octets at the start of the space.
pub struct Outcome {
    pub packed: u64,
    pub written: Vec<u8>,
}

impl Outcome {
    /// Of an operation that fills a space.
    pub fn of_octets(result: Result<Vec<u8>, Refusal>) -> Outcome {
        match result {
            Ok(written) => Outcome {
                packed: packed(0, 0, written.len() as u64),
                written,
            },
            Err(refusal) => Outcome::of_refusal(refusal),
        }
    }

    /// Of a check: the value is the name's length.
    pub fn of_check(result: Result<Name, Refusal>) -> Outcome {
        match result {
            Ok(name) => Outcome::bare(packed(0, 0, name.length() as u64)),
            Err(refusal) => Outcome::of_refusal(refusal),
        }
    }

    /// Of a comparison: the value is 128 plus the comparison.
    pub fn of_comparison(result: Result<i32, Refusal>) -> Outcome {
        match result {
            Ok(comparison) => {
                let value = u64::try_from(128 + comparison).expect("at least -127");
                Outcome::bare(packed(0, 0, value))
            }
            Err(refusal) => Outcome::of_refusal(refusal),
        }
    }

    /// Of the reader of bitmaps: the value is the number of types, which lie in the space in the
    /// machine's order.
    pub fn of_types(result: Result<Vec<u16>, Refusal>) -> Outcome {
        match result {
            Ok(types) => Outcome {
                packed: packed(0, 0, types.len() as u64),
                written: types.iter().flat_map(|of| of.to_ne_bytes()).collect(),
            },
            Err(refusal) => Outcome::of_refusal(refusal),
        }
    }

    /// Of what is told by a number.
    pub fn of_value(result: Result<u64, Refusal>) -> Outcome {
        match result {
            Ok(value) => Outcome::bare(packed(0, 0, value)),
            Err(refusal) => Outcome::of_refusal(refusal),
        }
    }

    /// Of a test: the value is 1 or 0.
    pub fn of_bool(result: Result<bool, Refusal>) -> Outcome {
        match result {
            Ok(is_so) => Outcome::bare(packed(0, 0, is_so.into())),
            Err(refusal) => Outcome::of_refusal(refusal),
        }
    }

    /// Of a closest encloser: the value is its length, plus 2^8 where it is a piece of the next name.
    pub fn of_piece(piece: Piece) -> Outcome {
        Outcome::bare(match piece {
            Piece::OfOwner(length) => packed(0, 0, length as u64),
            Piece::OfNext(length) => packed(0, 0, length as u64 + 256),
        })
    }

    /// Of a denial: the names back to back, and the value is their lengths.
    pub fn of_names(result: Result<Vec<Vec<u8>>, Refusal>) -> Outcome {
        match result {
            Ok(names) => Outcome {
                packed: packed(0, 0, lengths(&names)),
                written: names.concat(),
            },
            Err(refusal) => Outcome::of_refusal(refusal),
        }
    }

    fn of_refusal(refusal: Refusal) -> Outcome {
        let place = refusal.place() as u64;
        Outcome::bare(packed(refusal.number(), refusal.reason(), place))
    }

    fn bare(packed: u64) -> Outcome {
        Outcome {
            packed,
            written: Vec::new(),
        }
    }

    pub fn number(&self) -> u8 {
        raw::number(self.packed)
    }

    pub fn reason(&self) -> u8 {
        raw::reason(self.packed)
    }

    pub fn value(&self) -> u64 {
        raw::value(self.packed)
    }
}

/// The length of the first name, plus 2^8 times that of the second, and so on.
fn lengths(names: &[Vec<u8>]) -> u64 {
    let octets = names.iter().rev();
    octets.fold(0, |more, name| more * 256 + name.len() as u64)
}

/// What a function is called with. An operation without a limit or a space leaves it out.
#[derive(Clone, Copy)]
pub struct Input<'a> {
    pub slices: &'a [&'a [u8]],
    pub limit: Option<u64>,
    pub room: Option<usize>,
}

/// The comparison of one operation, with its counts.
pub struct Run {
    operation: &'static str,
    noise: Random,
    agreed: u64,
    numbers: [u64; NUMBERS],
    reasons: BTreeMap<(u8, u8), u64>,
    facts: BTreeMap<&'static str, u64>,
    buffer: Vec<u8>,
    expected: Vec<u8>,
}

/// How many numbers there are: 0 to 18.
const NUMBERS: usize = 19;

/// Octets of noise on either side of an input or a space.
const MARGIN: usize = 16;

impl Run {
    /// Starts an operation, tells the seed and hands back the generator of its inputs.
    pub fn start(operation: &'static str) -> (Run, Random) {
        say(&format!("seed {} ({operation})", seed()));
        let run = Run {
            operation,
            noise: Random::named(!seed(), operation),
            agreed: 0,
            numbers: [0; NUMBERS],
            reasons: BTreeMap::new(),
            facts: BTreeMap::new(),
            buffer: Vec::new(),
            expected: Vec::new(),
        };
        (run, Random::named(seed(), operation))
    }

    /// Counts something that is true of the input or the answer.
    pub fn count(&mut self, fact: &'static str) {
        *self.facts.entry(fact).or_insert(0) += 1;
    }

    pub fn count_all(&mut self, facts: &[&'static str]) {
        for fact in facts {
            self.count(fact);
        }
    }

    /// Makes the call and compares all of it.
    pub fn call(
        &mut self,
        input: Input,
        outcome: &Outcome,
        function: impl FnOnce(&[&[u8]], &mut [u8]) -> u64,
    ) {
        // Behind an input comes a zero or noise: who reads on past its end finds a name there.
        let given: Vec<Vec<u8>> = input
            .slices
            .iter()
            .map(|slice| {
                let mut octets = Vec::with_capacity(slice.len() + MARGIN);
                octets.extend_from_slice(slice);
                if self.noise.one_in(2) {
                    octets.resize(slice.len() + MARGIN, 0);
                } else {
                    octets.extend(self.noise.octets(MARGIN));
                }
                octets
            })
            .collect();
        let lent = given.clone();
        let views: Vec<&[u8]> = input
            .slices
            .iter()
            .zip(&lent)
            .map(|(slice, octets)| &octets[..slice.len()])
            .collect();

        let room = input.room.unwrap_or(0);
        self.buffer.resize(MARGIN + room + MARGIN, 0);
        self.noise.fill(&mut self.buffer);
        self.expected.clone_from(&self.buffer);
        assert!(
            outcome.written.len() <= room,
            "the reference answers {} octets into a room of {room}",
            outcome.written.len()
        );
        self.expected[MARGIN..MARGIN + outcome.written.len()].copy_from_slice(&outcome.written);

        let packed = function(&views, &mut self.buffer[MARGIN..MARGIN + room]);

        if packed != outcome.packed {
            let got = Outcome::bare(packed);
            self.differs(
                &input,
                outcome,
                &format!(
                    "number {}, reason {}, value {} were expected, but number {}, reason {}, \
                     value {} came back",
                    outcome.number(),
                    outcome.reason(),
                    outcome.value(),
                    got.number(),
                    got.reason(),
                    got.value()
                ),
            );
        }
        if self.buffer != self.expected {
            let place = (0..self.buffer.len()).find(|&i| self.buffer[i] != self.expected[i]);
            let place = place.expect("the buffers have the same length");
            self.differs(
                &input,
                outcome,
                &format!(
                    "octet {} of the space (of {room} octets) is {:02x}, expected is {:02x}",
                    place as i64 - MARGIN as i64,
                    self.buffer[place],
                    self.expected[place]
                ),
            );
        }
        if lent != given {
            self.differs(&input, outcome, "an input was changed");
        }

        self.agreed += 1;
        self.numbers[usize::from(outcome.number())] += 1;
        if outcome.reason() != 0 {
            let key = (outcome.number(), outcome.reason());
            *self.reasons.entry(key).or_insert(0) += 1;
        }
    }

    fn differs(&self, input: &Input, outcome: &Outcome, what: &str) -> ! {
        let mut text = format!("{}: {what}\nseed {}", self.operation, seed());
        for (index, slice) in input.slices.iter().enumerate() {
            let (shown, more) = match slice.len() {
                0..=2000 => (*slice, ""),
                _ => (&slice[..2000], "..."),
            };
            text += &format!(
                "\ninput {} of {} octets: {}{more}",
                index + 1,
                slice.len(),
                hex(shown)
            );
        }
        if let Some(limit) = input.limit {
            text += &format!("\nlimit {limit}");
        }
        if let Some(room) = input.room {
            text += &format!("\nspace of {room} octets");
        }
        if outcome.number() == 0 && input.room.is_some() {
            text += &format!("\nexpected answer: {}", hex(&outcome.written));
        }
        panic!("{text}");
    }

    /// Tells the counts and asserts that everything on the lists was met often enough.
    pub fn finish(&self, wanted: &Wanted) {
        let numbers: Vec<String> = (0..self.numbers.len())
            .filter(|&number| self.numbers[number] > 0)
            .map(|number| format!("{number}: {}", self.numbers[number]))
            .collect();
        say(&format!(
            "{}: {} inputs agreed ({})",
            self.operation,
            self.agreed,
            numbers.join(", ")
        ));
        let mut rare = Vec::new();
        for (number, &count) in (0u8..).zip(&self.numbers) {
            if wanted.numbers.contains(&number) {
                if count < wanted.often {
                    rare.push(format!("number {number}: {count}"));
                }
            } else if count > 0 {
                rare.push(format!("number {number} is not to occur: {count}"));
            }
        }
        for &number in wanted.numbers {
            if [2, 4, 11].contains(&number) {
                for reason in 1..=4 {
                    let count = self.reasons.get(&(number, reason)).copied().unwrap_or(0);
                    if count < wanted.often {
                        rare.push(format!("number {number} with reason {reason}: {count}"));
                    }
                }
            }
        }
        for fact in &wanted.facts {
            let count = self.facts.get(fact).copied().unwrap_or(0);
            if count < wanted.often {
                rare.push(format!("{fact}: {count}"));
            }
        }
        assert!(
            rare.is_empty(),
            "{}: of each, at least {} inputs are wanted, but of these there were fewer\n{}\nseed {}",
            self.operation,
            wanted.often,
            rare.join("\n"),
            seed()
        );
    }
}

/// What a run must have met at least `often` times; other numbers must not have come up.
pub struct Wanted<'a> {
    pub often: u64,
    pub numbers: &'a [u8],
    pub facts: Vec<&'static str>,
}

/// Prints a line past the test harness, which would keep it back when the test passes.
fn say(line: &str) {
    let _ = writeln!(std::io::stdout().lock(), "{line}");
}
