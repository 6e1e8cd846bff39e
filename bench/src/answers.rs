//! Whether the two versions of an operation give the same answers.

use common::{hex, pattern};
use qorshudan::raw;

use crate::names::Input;
use crate::operations::Operation;

/// One input in so many is tried with shorter spaces too.
const SHORTER: usize = 8;

/// Gives every input to both versions, and counts the calls of each; or tells the first that differs.
pub fn same_answers(operation: &Operation, views: &[Input]) -> Result<u64, String> {
    // What lies in the space beforehand; octets that an answer leaves alone must still be it.
    let before = pattern(operation.space);
    let (mut ours, mut ordinary) = (before.clone(), before.clone());
    let mut calls = 0;
    let mut same = |input: &Input, room: usize| {
        calls += 1;
        ours.copy_from_slice(&before);
        ordinary.copy_from_slice(&before);
        let ours_answer = (operation.ours.call)(input, &mut ours[..room]);
        let ordinary_answer = (operation.ordinary.call)(input, &mut ordinary[..room]);
        if ours_answer == ordinary_answer && ours == ordinary {
            return Ok(ordinary_answer);
        }
        let seen = |answer: u64, space: &[u8]| {
            let (number, reason, value) = (raw::number(answer), raw::reason(answer), raw::value(answer));
            format!("number {number}, reason {reason}, value {value}, space {}", hex(space))
        };
        Err([
            format!("first    {}", hex(input.first)),
            format!("second   {}", hex(input.second)),
            format!("limit    {}, space of {room} octets", input.limit),
            format!("ours     {}", seen(ours_answer, &ours)),
            format!("ordinary {}", seen(ordinary_answer, &ordinary)),
        ]
        .join("\n"))
    };
    for (index, input) in views.iter().enumerate() {
        let answer = same(input, operation.space)?;
        if index % SHORTER == 0 {
            // The answer's own length and one octet less, where it has one, and any other.
            let len = (raw::value(answer) as usize).min(operation.space);
            for room in [len, len.saturating_sub(1), index / SHORTER % operation.space] {
                same(input, room)?;
            }
        }
    }
    Ok(calls)
}

#[cfg(test)]
mod tests {
    use super::*;
    use crate::names::{Inputs, SEED};
    use crate::operations::OPERATIONS;

    const MIX: usize = 20_000;

    #[test]
    fn all_operations_and_classes() {
        for operation in OPERATIONS {
            for &class in operation.kind.classes() {
                let inputs = Inputs::new(operation.kind, class, MIX, SEED);
                if let Err(difference) = same_answers(operation, &inputs.views()) {
                    panic!("{} differs, class {}:\n{difference}", operation.name, class.name());
                }
            }
        }
    }
}
