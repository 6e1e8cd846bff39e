//! Names as text (RFC 1035 section 5.1), written and read.
//!
//! A text is taken apart into its dots and its octets first, and only then into labels. The place
//! where a text that is none breaks is not found on the way: it is looked for among its
//! beginnings, each of which is completed in every way that might do.

use crate::name::{wire_length, Label, Name, LONGEST_LABEL, LONGEST_NAME};

/// The most characters a text has: 250 label octets of four each, and 4 dots.
pub const LONGEST_TEXT: usize = 1004;

/// The text of a folded name.
pub fn write(name: &Name) -> Vec<u8> {
    if name.labels().is_empty() {
        return b".".to_vec();
    }
    let labels = name.labels().iter().rev();
    labels
        .flat_map(|label| {
            label
                .iter()
                .map(|&octet| written(octet))
                .chain([".".into()])
        })
        .collect::<String>()
        .into_bytes()
}

fn written(octet: u8) -> String {
    match char::from(octet) {
        special @ ('.' | '\\' | '"' | ';' | '(' | ')' | '@' | '$') => format!("\\{special}"),
        plain @ '!'..='~' => plain.to_string(),
        _ => format!("\\{octet:03}"),
    }
}

/// The name of this text, in its own letter case, or the length of the longest beginning of the
/// text that some text of a name also begins with.
pub fn read(text: &[u8]) -> Result<Name, usize> {
    whole(text).ok_or_else(|| longest_beginning(text))
}

fn whole(text: &[u8]) -> Option<Name> {
    if text == b"." {
        return Some(Name::from_right(Vec::new()));
    }
    if text.len() > LONGEST_TEXT || !text.ends_with(b".") {
        return None;
    }
    let marks = marks(text)?;
    let rest = match marks.split_last()? {
        (Mark::Dot, rest) => rest,
        _ => return None,
    };
    let labels: Vec<Label> = rest
        .rsplit(|mark| matches!(mark, Mark::Dot))
        .map(octets)
        .collect();
    let sizes = labels
        .iter()
        .all(|label| (1..=LONGEST_LABEL).contains(&label.len()));
    (sizes && wire_length(&labels) <= LONGEST_NAME).then(|| Name::from_right(labels))
}

/// What a text is made of: dots behind labels, and octets of labels, however they are spelt.
enum Mark {
    Dot,
    Octet(u8),
}

fn marks(text: &[u8]) -> Option<Vec<Mark>> {
    let mut marks = Vec::with_capacity(text.len());
    let mut rest = text;
    while !rest.is_empty() {
        let (mark, after) = match rest {
            [b'\\', a @ b'0'..=b'9', b @ b'0'..=b'9', c @ b'0'..=b'9', after @ ..] => {
                let digit = |character: &u8| u16::from(character - b'0');
                let number = 100 * digit(a) + 10 * digit(b) + digit(c);
                (Mark::Octet(u8::try_from(number).ok()?), after)
            }
            [b'\\', b'0'..=b'9', ..] => return None,
            [b'\\', escaped @ 33..=126, after @ ..] => (Mark::Octet(*escaped), after),
            [b'\\', ..] => return None,
            [b'.', after @ ..] => (Mark::Dot, after),
            [plain @ 33..=126, after @ ..] => (Mark::Octet(*plain), after),
            _ => return None,
        };
        marks.push(mark);
        rest = after;
    }
    Some(marks)
}

fn octets(marks: &[Mark]) -> Label {
    let octet = |mark: &Mark| match mark {
        Mark::Dot => None,
        Mark::Octet(octet) => Some(*octet),
    };
    marks.iter().filter_map(octet).collect()
}

/// The beginnings of texts are closed under shortening, so the longest one is found by halving.
fn longest_beginning(text: &[u8]) -> usize {
    let mut longest = 0;
    let mut too_long = text.len().min(LONGEST_TEXT) + 1;
    while too_long - longest > 1 {
        let middle = (longest + too_long) / 2;
        if begins(&text[..middle]) {
            longest = middle;
        } else {
            too_long = middle;
        }
    }
    longest
}

/// Whether the text of some name begins so. It does when it is such a text, or when one of these
/// makes it one: the dot behind the last label, with what a backslash before it may still lack,
/// which is a character, one digit or two. Nought asks for less than any other digit, and no other
/// continuation for fewer of the name's 255 octets.
fn begins(beginning: &[u8]) -> bool {
    let endings: [&[u8]; 5] = [b"", b".", b"a.", b"0.", b"00."];
    endings
        .iter()
        .any(|ending| whole(&[beginning, ending].concat()).is_some())
}
