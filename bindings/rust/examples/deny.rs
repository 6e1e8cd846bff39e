//! Shows the gaps that deny a name, the names next to it in a zone, and its sorting key.
//!
//! ```text
//! deny APEX NAME [LIMIT]
//! ```
//!
//! A signer that makes its records on the spot denies a missing name with one NSEC record or two:
//! [`denial`] has their owners and their next names. Here the closest encloser is the apex, as in a
//! zone where nothing else exists; a server hands in the one that it found. Before it signs, it
//! still has to look whether an owner exists (RFC 4471 section 4.1), since the record then lists its
//! types.
//!
//! The name's own successor is no end of these: `\000.foo` lies under `foo`, so a record that ends
//! there says that `foo` is an empty non-terminal, and goes with NODATA. The modified neighbours (RFC
//! 4471 section 3.2) are the nearest among the apex and the names with one label more.

use qorshudan::{
    denial, modified_predecessor, modified_successor, predecessor, read_text, successor, write_key,
    write_text, Refusal, DENIAL_MAX, KEY_MAX, NAME_MAX, TEXT_MAX,
};
use std::env;
use std::ffi::{OsStr, OsString};
use std::os::unix::ffi::OsStrExt;
use std::process::ExitCode;

const USAGE: &str = r"usage: deny APEX NAME [LIMIT]
Shows the gaps that deny NAME and the wildcard of APEX, the owner and the next name of each, the
names next to NAME in the zone, in canonical order, and its sorting key.
Names are written as in zone files, with their final dot: \. is a dot in a label, \200 is
octet 200. LIMIT is the most octets that a name of the zone may have; without it, 255.
    deny example.com. foo.example.com.
The exit status is 0 when all is answered, 1 when something is refused, and 2 when the
arguments are not understood.";

type Neighbour = fn(&[u8], u64, &[u8], &mut [u8]) -> Result<usize, Refusal>;

const NEIGHBOURS: [(&str, Neighbour); 4] = [
    ("predecessor", predecessor),
    ("successor", successor),
    ("modified predecessor", modified_predecessor),
    ("modified successor", modified_successor),
];

fn main() -> ExitCode {
    let arguments: Vec<OsString> = env::args_os().skip(1).collect();
    if arguments == ["--help"] {
        println!("{USAGE}");
        return ExitCode::SUCCESS;
    }
    let answered = match &arguments[..] {
        [apex, name] => Some(deny(apex, name, NAME_MAX as u64)),
        [apex, name, limit] => read_limit(limit).map(|limit| deny(apex, name, limit)),
        _ => None,
    };
    match answered {
        Some(true) => ExitCode::SUCCESS,
        Some(false) => ExitCode::from(1),
        None => {
            eprintln!("{USAGE}");
            ExitCode::from(2)
        }
    }
}

/// Prints all that can be said, and tells whether nothing was refused.
fn deny(apex: &OsStr, name: &OsStr, limit: u64) -> bool {
    let apex = read_name("apex", apex);
    let name = read_name("name", name);
    let mut answered = apex.is_some() && name.is_some();
    if let (Some(apex), Some(name)) = (&apex, &name) {
        let mut space = [0; DENIAL_MAX];
        match denial(apex, limit, apex, name, &mut space) {
            Ok(denial) => denial.gaps().for_each(|gap| {
                println!("gap: {} NSEC {}", text_of(gap.owner), text_of(gap.next));
            }),
            Err(refusal) => {
                println!("gap: refused {}: {refusal}", refusal.number());
                answered = false;
            }
        }
        for (what, neighbour) in NEIGHBOURS {
            let mut found = [0; NAME_MAX];
            match neighbour(apex, limit, name, &mut found) {
                Ok(length) => println!("{what}: {}", text_of(&found[..length])),
                Err(refusal) => {
                    println!("{what}: refused {}: {refusal}", refusal.number());
                    answered = false;
                }
            }
        }
    }
    if let Some(name) = &name {
        println!("key: {}", key_of(name));
    }
    answered
}

/// Reads a name as people type it. If it is none, says so.
fn read_name(what: &str, text: &OsStr) -> Option<Vec<u8>> {
    let mut name = [0; NAME_MAX];
    match read_text(text.as_bytes(), &mut name) {
        Ok(length) => Some(name[..length].to_vec()),
        Err(refusal) => {
            // A text that only lacks its final dot is one with a dot behind it.
            let dotted = [text.as_bytes(), b"."].concat();
            let why = match read_text(&dotted, &mut name) {
                Ok(_) => "the name must end with a dot",
                Err(_) => "no name's text goes on like this",
            };
            let place = refusal.place().unwrap_or_default();
            println!("{what}: refused {} at {place}: {why}", refusal.number());
            None
        }
    }
}

/// Reads a limit in decimal digits. One that is too large for its type is as good as the largest.
fn read_limit(text: &OsStr) -> Option<u64> {
    let digits = text.as_bytes();
    if digits.is_empty() || !digits.iter().all(u8::is_ascii_digit) {
        return None;
    }
    Some(digits.iter().fold(0, |limit: u64, digit| {
        let digit = u64::from(digit - b'0');
        limit.saturating_mul(10).saturating_add(digit)
    }))
}

/// A name as text. This always answers: the name is well formed, and there is room.
fn text_of(name: &[u8]) -> String {
    let mut text = [0; TEXT_MAX];
    let length = write_text(name, &mut text).expect("a name that was answered is well formed");
    String::from_utf8_lossy(&text[..length]).into_owned()
}

/// A name's sorting key, in hex.
fn key_of(name: &[u8]) -> String {
    let mut key = [0; KEY_MAX];
    let length = write_key(name, &mut key).expect("a name that was read is well formed");
    key[..length]
        .iter()
        .map(|octet| format!("{octet:02x}"))
        .collect()
}
