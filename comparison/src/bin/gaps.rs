//! Writes what the command `deny`, which shows gaps, must print, from the second program: for each
//! NAME.args in a directory, an argument of the command on each line, `gaps DIRECTORY` makes NAME.out.

use common::hex;
use reference::{
    compare, denial, fold, modified_predecessor, modified_successor, predecessor, read_text,
    successor, write_key, write_text, Refusal,
};
use std::ffi::OsStr;
use std::path::Path;
use std::process::ExitCode;
use std::{env, fs, io};

const LONGEST_ARGUMENT: usize = 4096;

/// Room for every answer.
const ROOM: usize = 2000;

const TOO_LONG: &str = "an argument is longer than 4096 octets";

const USAGE: &str = r"usage: deny APEX NAME [LIMIT]
       deny compare NAME NAME
       deny key NAME
       deny fold NAME
       deny --help";

const HELP: &str = r"Shows the gap that denies a name: the names next to it in a zone, in canonical order (RFC 4034, RFC 4471).
  deny APEX NAME [LIMIT]   its absolute and its modified neighbours in the zone of APEX, and its sorting key
  deny compare NAME NAME   which of two names sorts earlier, and how many labels they share
  deny key NAME            the sorting key, in hex
  deny fold NAME           the name in lower case
A name is written as in zone files, with its final dot: \. is a dot in a label and \200 is octet 200.
LIMIT is the most octets that a name may have, 255 if left out. What can't be answered is refused with a number.
Example:
  deny example.com. foo.example.com.";

fn main() -> ExitCode {
    let directory = match env::args_os().nth(1) {
        Some(directory) => directory,
        None => {
            eprintln!("usage: gaps DIRECTORY");
            return ExitCode::FAILURE;
        }
    };
    match write_all(Path::new(&directory)) {
        Ok(count) => {
            println!("{count} cases");
            ExitCode::SUCCESS
        }
        Err(error) => {
            eprintln!("{}: {error}", directory.to_string_lossy());
            ExitCode::FAILURE
        }
    }
}

fn write_all(directory: &Path) -> io::Result<usize> {
    let mut count = 0;
    for entry in fs::read_dir(directory)? {
        let path = entry?.path();
        if path.extension() == Some(OsStr::new("args")) {
            let file = fs::read(&path)?;
            fs::write(path.with_extension("out"), printed(&arguments(&file)))?;
            count += 1;
        }
    }
    Ok(count)
}

/// The arguments in a file, each ended by a newline.
fn arguments(file: &[u8]) -> Vec<&[u8]> {
    let lines = file.split_inclusive(|&octet| octet == b'\n');
    lines
        .map(|line| line.strip_suffix(b"\n").unwrap_or(line))
        .collect()
}

/// What the command prints, every line ended by a newline.
fn printed(arguments: &[&[u8]]) -> String {
    let lines = deny(arguments).unwrap_or_else(|| vec![USAGE.into()]);
    lines.into_iter().map(|line| line + "\n").collect()
}

/// The lines for these arguments, none for wrong usage. A word that is a command's is never an apex,
/// whatever stands behind it.
fn deny(arguments: &[&[u8]]) -> Option<Vec<String>> {
    if arguments.iter().any(|a| a.len() > LONGEST_ARGUMENT) {
        return Some(vec![TOO_LONG.into()]);
    }
    match arguments {
        [b"--help"] => Some(vec![HELP.into()]),
        [b"compare", first, second] => Some(comparison(first, second)),
        [b"key", name] => Some(vec![shown(name, key)]),
        [b"fold", name] => Some(vec![shown(name, folded)]),
        [b"--help" | b"compare" | b"key" | b"fold", ..] => None,
        [apex, name] => Some(gap(apex, 255, name)),
        [apex, name, limit] => Some(gap(apex, number(limit)?, name)),
        _ => None,
    }
}

/// The number in decimal digits. Any that is too large for its type is as good as the largest.
fn number(digits: &[u8]) -> Option<u64> {
    if digits.is_empty() || !digits.iter().all(u8::is_ascii_digit) {
        return None;
    }
    Some(digits.iter().fold(0, |number: u64, digit| {
        let digit = u64::from(digit - b'0');
        number.saturating_mul(10).saturating_add(digit)
    }))
}

type Neighbour = fn(&[u8], u64, &[u8], usize) -> Result<Vec<u8>, Refusal>;

const NEIGHBOURS: [(&str, Neighbour); 4] = [
    ("predecessor", predecessor),
    ("successor", successor),
    ("modified predecessor", modified_predecessor),
    ("modified successor", modified_successor),
];

fn gap(apex: &[u8], limit: u64, name: &[u8]) -> Vec<String> {
    let (apex, name) = (read(apex), read(name));
    let mut lines = Vec::new();
    if let (Ok(apex), Ok(name)) = (&apex, &name) {
        lines.extend(match denial(apex, limit, apex, name, ROOM) {
            Ok(names) => {
                let gaps = names.chunks(2);
                let shown =
                    |gap: &[Vec<u8>]| format!("gap: {} NSEC {}", text(&gap[0]), text(&gap[1]));
                gaps.map(shown).collect()
            }
            Err(refusal) => vec![format!("gap: {}", refused(refusal))],
        });
        lines.extend(NEIGHBOURS.iter().map(|(label, neighbour)| {
            let value = match neighbour(apex, limit, name, ROOM) {
                Ok(answer) => text(&answer),
                Err(refusal) => refused(refusal),
            };
            format!("{label}: {value}")
        }));
    }
    lines.extend(apex.err().map(|refused| format!("apex: {refused}")));
    lines.push(match name {
        Ok(name) => format!("key: {}", key(&name)),
        Err(refused) => format!("name: {refused}"),
    });
    lines
}

fn comparison(first: &[u8], second: &[u8]) -> Vec<String> {
    match (read(first), read(second)) {
        (Ok(first), Ok(second)) => {
            let number = compare(&first, &second).expect("a text's name is well formed");
            vec![format!("{number}: {}", relation(number))]
        }
        (first, second) => {
            let first = first.err().map(|refused| format!("first: {refused}"));
            let second = second.err().map(|refused| format!("second: {refused}"));
            first.into_iter().chain(second).collect()
        }
    }
}

/// What a comparison's number says.
fn relation(number: i32) -> String {
    if number == 0 {
        return "the same name, letter case aside".into();
    }
    let side = if number < 0 { "earlier" } else { "later" };
    let shared = match number.abs() - 1 {
        0 => "no label".into(),
        1 => "1 label".into(),
        more => format!("{more} labels"),
    };
    format!("first sorts {side}; {shared} shared")
}

/// What there is to show of a text's name, or how the text is refused.
fn shown(text: &[u8], of_name: fn(&[u8]) -> String) -> String {
    read(text).map_or_else(|refused| refused, |name| of_name(&name))
}

/// The name of a text, or how the text is refused.
fn read(text: &[u8]) -> Result<Vec<u8>, String> {
    read_text(text, ROOM).map_err(|refusal| {
        let (number, place) = (refusal.number(), refusal.place());
        let sentence = match read_text(&[text, b"."].concat(), ROOM) {
            Ok(_) => "the name must end with a dot",
            Err(_) => "no name's text goes on like this",
        };
        format!("refused {number} at {place}: {sentence}")
    })
}

/// How a denial or a neighbour of a well formed name is refused.
fn refused(refusal: Refusal) -> String {
    let sentence = match refusal {
        Refusal::Limit => "the limit is not 1 to 255",
        Refusal::ApexAboveLimit => {
            "the limit leaves no room for a name under the apex: the length of the apex plus 2 is above it"
        }
        Refusal::NameAboveLimit => "the name is longer than the limit",
        Refusal::NotUnderApex => "the name is not at or under the apex",
        Refusal::NoLabelToSpare => {
            "the limit leaves less than 64 octets for each label of depth, or the depth is not 1 to 3"
        }
        Refusal::NoEncloser => {
            "the encloser is no proper ancestor of the query at or under the apex"
        }
        other => unreachable!("{other:?} of names read from texts, with room"),
    };
    format!("refused {}: {sentence}", refusal.number())
}

fn text(name: &[u8]) -> String {
    let text = write_text(name, ROOM).expect("the name is well formed");
    String::from_utf8(text).expect("a text is of octets 33 to 126")
}

fn folded(name: &[u8]) -> String {
    text(&fold(name, ROOM).expect("the name is well formed"))
}

fn key(name: &[u8]) -> String {
    hex(&write_key(name, ROOM).expect("the name is well formed"))
}

#[cfg(test)]
#[path = "gaps/tests.rs"]
mod tests;
