//! Questions in a batch, and their answers: fields of a tag, a length of two octets and a value.

use crate::refusal::Refusal;
use crate::{modified_predecessor, modified_successor, predecessor, successor};
use std::ops::RangeInclusive;

/// The most octets of an apex or a name in a question.
pub const LONGEST_VALUE: usize = 600;

const APEX: u8 = 0x01;
const LIMIT: u8 = 0x02;
const NAME: u8 = 0x03;
const WAY: u8 = 0x04;
const NUMBER: u8 = 0x10;
const ANSWER: u8 = 0x11;

/// The answers to a batch of questions, one after the other. What is no question gets number 13
/// and ends the batch.
pub fn batch(input: &[u8]) -> Vec<u8> {
    let mut answers = Vec::new();
    let mut rest = input;
    while !rest.is_empty() {
        match Question::read(rest) {
            Some((question, after)) => {
                answers.extend(answer(question.ask()));
                rest = after;
            }
            None => {
                answers.extend(answer(Err(Refusal::NoQuestion)));
                break;
            }
        }
    }
    answers
}

/// The question's octets, as a batch has them.
pub fn write_question(apex: &[u8], limit: u64, name: &[u8], way: u64) -> Result<Vec<u8>, Refusal> {
    let limit = u8::try_from(limit).map_err(|_| Refusal::NoQuestion)?;
    let way = u8::try_from(way).map_err(|_| Refusal::NoQuestion)?;
    if way > 3 || apex.len() > LONGEST_VALUE || name.len() > LONGEST_VALUE {
        return Err(Refusal::NoQuestion);
    }
    Ok([
        field(APEX, apex),
        field(LIMIT, &[limit]),
        field(NAME, name),
        field(WAY, &[way]),
    ]
    .concat())
}

/// A question whose fields are as they should be; whether it has an answer is another matter.
#[derive(Clone, Copy, Debug, PartialEq, Eq)]
pub struct Question<'a> {
    pub apex: &'a [u8],
    pub limit: u8,
    pub name: &'a [u8],
    pub way: u8,
}

impl<'a> Question<'a> {
    /// The question at the beginning of the octets, and the octets behind it.
    pub fn read(octets: &'a [u8]) -> Option<(Question<'a>, &'a [u8])> {
        let (apex, octets) = value(octets, APEX, 0..=LONGEST_VALUE)?;
        let (limit, octets) = value(octets, LIMIT, 1..=1)?;
        let (name, octets) = value(octets, NAME, 0..=LONGEST_VALUE)?;
        let (way, octets) = value(octets, WAY, 1..=1)?;
        let question = Question {
            apex,
            limit: limit[0],
            name,
            way: way[0],
        };
        (question.way <= 3).then_some((question, octets))
    }

    /// The neighbour asked for. There is room for any.
    pub fn ask(&self) -> Result<Vec<u8>, Refusal> {
        let neighbour = match self.way {
            0 => predecessor,
            1 => successor,
            2 => modified_predecessor,
            _ => modified_successor,
        };
        neighbour(self.apex, self.limit.into(), self.name, usize::MAX)
    }
}

/// The value of the field that the octets begin with, if it has this tag and one of these sizes,
/// and the octets behind it.
fn value(octets: &[u8], tag: u8, sizes: RangeInclusive<usize>) -> Option<(&[u8], &[u8])> {
    match octets {
        [found, high, low, octets @ ..] if *found == tag => {
            let size = usize::from(u16::from_be_bytes([*high, *low]));
            let whole = sizes.contains(&size) && size <= octets.len();
            whole.then(|| octets.split_at(size))
        }
        _ => None,
    }
}

fn field(tag: u8, value: &[u8]) -> Vec<u8> {
    let size = u16::try_from(value.len()).expect("values are short");
    [&[tag], &size.to_be_bytes()[..], value].concat()
}

fn answer(result: Result<Vec<u8>, Refusal>) -> Vec<u8> {
    match result {
        Ok(name) => [field(NUMBER, &[0]), field(ANSWER, &name)].concat(),
        Err(refusal) => field(NUMBER, &[refusal.number()]),
    }
}
