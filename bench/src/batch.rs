//! The ordinary Rust version of the batch program, written from document 02: questions are read and answered as they
//! come, in bounded memory.

use std::io::{self, ErrorKind, Read, Write};

use crate::ordinary::{self, Refusal, MAX_NAME};

/// The most octets of an apex or a name in a question.
const MAX_VALUE: usize = 600;
/// How much is read, and written, at once. No question and no answer is as long.
const BUFFER: usize = 64 * 1024;
/// An answer's two fields.
const MAX_ANSWER: usize = 4 + 3 + MAX_NAME;
/// The answer to what is no question, with number 13.
const WRONG: [u8; 4] = [0x10, 0, 1, 13];

struct Question<'a> {
    apex: &'a [u8],
    limit: u8,
    name: &'a [u8],
    way: u8,
}

/// Why there is no question at the beginning of some octets.
enum Missing {
    /// It is wrong, whatever follows.
    Wrong,
    /// There are too few octets yet.
    More,
}

/// Appends a question to `out`.
pub fn put_question(apex: &[u8], limit: u8, name: &[u8], way: u8, out: &mut Vec<u8>) {
    for (tag, value) in [(1, apex), (2, &[limit]), (3, name), (4, &[way])] {
        put_field(tag, value, out);
    }
}

fn put_field(tag: u8, value: &[u8], out: &mut Vec<u8>) {
    out.push(tag);
    out.extend_from_slice(&(value.len() as u16).to_be_bytes());
    out.extend_from_slice(value);
}

/// Takes a field's value off the octets.
fn take<'a>(octets: &mut &'a [u8], tag: u8, least: usize, most: usize) -> Result<&'a [u8], Missing> {
    let found = octets.first().ok_or(Missing::More)?;
    if *found != tag {
        return Err(Missing::Wrong);
    }
    let [_, high, low, rest @ ..] = *octets else { return Err(Missing::More) };
    let size = usize::from(u16::from_be_bytes([*high, *low]));
    if !(least..=most).contains(&size) {
        return Err(Missing::Wrong);
    }
    let value = rest.get(..size).ok_or(Missing::More)?;
    *octets = &rest[size..];
    Ok(value)
}

/// Takes a question off the octets, if it is there whole.
fn take_question<'a>(octets: &mut &'a [u8]) -> Result<Question<'a>, Missing> {
    let mut rest = *octets;
    let apex = take(&mut rest, 1, 0, MAX_VALUE)?;
    let limit = take(&mut rest, 2, 1, 1)?[0];
    let name = take(&mut rest, 3, 0, MAX_VALUE)?;
    let way = take(&mut rest, 4, 1, 1)?[0];
    if way > 3 {
        return Err(Missing::Wrong);
    }
    *octets = rest;
    Ok(Question { apex, limit, name, way })
}

impl Question<'_> {
    fn ask(&self, space: &mut [u8]) -> Result<usize, Refusal> {
        let neighbour = match self.way {
            0 => ordinary::predecessor,
            1 => ordinary::successor,
            2 => ordinary::modified_predecessor,
            _ => ordinary::modified_successor,
        };
        neighbour(self.apex, self.limit.into(), self.name, space)
    }

    fn answer(&self, out: &mut Vec<u8>) {
        let mut space = [0; MAX_NAME];
        match self.ask(&mut space) {
            Ok(len) => {
                put_field(0x10, &[0], out);
                put_field(0x11, &space[..len], out);
            }
            Err(refusal) => put_field(0x10, &[refusal.number()], out),
        }
    }
}

/// Answers all questions of the input. What is answered so far is written out before more is read.
pub fn answer_all(mut input: impl Read, mut output: impl Write) -> io::Result<()> {
    let mut buffer = vec![0; BUFFER];
    let (mut start, mut end) = (0, 0);
    let mut answers = Vec::with_capacity(BUFFER);
    loop {
        let mut rest = &buffer[start..end];
        let missing = loop {
            if answers.len() + MAX_ANSWER > BUFFER {
                output.write_all(&answers)?;
                answers.clear();
            }
            match take_question(&mut rest) {
                Ok(question) => question.answer(&mut answers),
                Err(missing) => break missing,
            }
        };
        start = end - rest.len();
        let ended = match missing {
            Missing::Wrong => true,
            Missing::More => {
                output.write_all(&answers)?;
                output.flush()?;
                answers.clear();
                buffer.copy_within(start..end, 0);
                (start, end) = (0, end - start);
                let count = read(&mut input, &mut buffer[end..])?;
                end += count;
                count == 0
            }
        };
        if ended {
            // The end of the input between questions is no question cut off.
            if start < end {
                answers.extend_from_slice(&WRONG);
            }
            output.write_all(&answers)?;
            return output.flush();
        }
    }
}

fn read(input: &mut impl Read, buffer: &mut [u8]) -> io::Result<usize> {
    loop {
        match input.read(buffer) {
            Err(error) if error.kind() == ErrorKind::Interrupted => {}
            result => return result,
        }
    }
}

#[cfg(test)]
mod tests {
    use super::*;
    use common::wire;

    const CASE: [u8; 18] = [1, 0, 1, 0, 2, 0, 1, 0xff, 3, 0, 3, 1, 0x61, 0, 4, 0, 1, 1];
    const ANSWER: [u8; 12] = [0x10, 0, 1, 0, 0x11, 0, 5, 1, 0, 1, 0x61, 0];

    /// Hands out so many octets at a time.
    struct Slow<'a>(&'a [u8], usize);

    impl Read for Slow<'_> {
        fn read(&mut self, buffer: &mut [u8]) -> io::Result<usize> {
            let count = self.1.min(self.0.len());
            let count = count.min(buffer.len());
            let (now, later) = self.0.split_at(count);
            buffer[..count].copy_from_slice(now);
            self.0 = later;
            Ok(count)
        }
    }

    fn answers(input: &[u8]) -> Vec<u8> {
        let all = |step: usize| {
            let mut output = Vec::new();
            answer_all(Slow(input, step), &mut output).unwrap();
            output
        };
        let output = all(usize::MAX);
        for step in [1, 7, 1000] {
            assert_eq!(all(step), output);
        }
        output
    }

    #[test]
    fn whole_case() {
        assert_eq!(answers(&CASE), ANSWER);
        assert_eq!(answers(&[]), []);
        // More than the buffers hold.
        assert_eq!(answers(&CASE.repeat(20_000)), ANSWER.repeat(20_000));
    }

    #[test]
    fn ways() {
        let mut questions = Vec::new();
        let mut expected = Vec::new();
        let names = [r"\255{49}.\255{63}.\255{63}.fon\255{60}", r"\000.foo", r"fon\255{60}", r"foo\000"];
        for (way, name) in (0..).zip(names) {
            put_question(&wire("example.com."), 255, &wire("foo"), way, &mut questions);
            put_field(0x10, &[0], &mut expected);
            put_field(0x11, &wire(name), &mut expected);
        }
        put_question(&[0; 600], 0, &[0; 600], 0, &mut questions);
        put_field(0x10, &[1], &mut expected);
        assert_eq!(answers(&questions), expected);
    }

    #[test]
    fn wrong_questions() {
        let wrong = [&ANSWER[..], &WRONG].concat();
        let behind = |more: &[u8]| answers(&[&CASE[..], more].concat());
        for len in 1..CASE.len() {
            assert_eq!(behind(&CASE[..len]), wrong);
        }
        // Wrong tags, sizes and a wrong way, with more behind.
        for (at, octet) in [(0, 2), (4, 3), (8, 4), (14, 1), (6, 0), (6, 2), (16, 0), (16, 2), (17, 4), (17, 255)] {
            let mut changed = CASE;
            changed[at] = octet;
            assert_eq!(behind(&[changed, CASE].concat()), wrong);
        }
        for (apex, name) in [(601, 1), (1, 601)] {
            let mut long = Vec::new();
            put_question(&vec![0; apex], 255, &vec![0; name], 0, &mut long);
            assert_eq!(behind(&[&long[..], &CASE].concat()), wrong);
        }
    }
}
