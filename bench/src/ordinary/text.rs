//! Names as text, written and read.

use super::{put_folded, walk, Refusal, MAX_LABEL, MAX_NAME};

/// How many characters more than one an octet takes in a written text.
const EXTRA: [u8; 256] = {
    let mut extra = [3; 256];
    let mut octet = 33;
    while octet <= 126 {
        extra[octet] = matches!(octet as u8, b'.' | b'\\' | b'"' | b';' | b'(' | b')' | b'@' | b'$') as u8;
        octet += 1;
    }
    extra
};

/// What is written for an octet; those behind the last that counts are anything.
const WRITTEN: [[u8; 4]; 256] = {
    let mut written = [[0; 4]; 256];
    let mut octet = 0;
    while octet < 256 {
        let folded = (octet as u8).to_ascii_lowercase();
        written[octet] = match EXTRA[octet] {
            0 => [folded, 0, 0, 0],
            1 => [b'\\', folded, 0, 0],
            _ => [b'\\', b'0' + folded / 100, b'0' + folded / 10 % 10, b'0' + folded % 10],
        };
        octet += 1;
    }
    written
};

/// Which characters stand for themselves in a text that is read.
const PLAIN: [bool; 256] = {
    let mut plain = [false; 256];
    let mut mark = 33;
    while mark <= 126 {
        plain[mark] = !matches!(mark as u8, b'.' | b'\\');
        mark += 1;
    }
    plain
};

fn extra(octet: u8) -> usize {
    EXTRA[usize::from(octet)].into()
}

#[inline(never)]
pub fn write_text(name: &[u8], space: &mut [u8]) -> Result<usize, Refusal> {
    // A length octet gives way to the dot behind its label, so it takes one character whatever it is.
    let mut lengths = extra(0);
    walk(name, |at, _| lengths += extra(name[at])).map_err(Refusal::BadName)?;
    if name == [0] {
        *space.first_mut().ok_or(Refusal::NoRoom)? = b'.';
        return Ok(1);
    }
    let more = name.iter().map(|&octet| extra(octet)).sum::<usize>() - lengths;
    let len = name.len() - 1 + more;
    let out = space.get_mut(..len).ok_or(Refusal::NoRoom)?;
    if more == 0 {
        put_folded(out, &name[1..]);
        let mut end = usize::from(name[0]);
        while end < len {
            out[end] = b'.';
            end += 1 + usize::from(name[end + 1]);
        }
    } else {
        write_escaped(name, out);
    }
    Ok(len)
}

/// Fills `out` with the text of a name.
fn write_escaped(name: &[u8], out: &mut [u8]) {
    let (mut at, mut end) = (0, 0);
    while name[at] != 0 {
        let next = at + 1 + usize::from(name[at]);
        for &octet in &name[at + 1..next] {
            let (written, count) = (&WRITTEN[usize::from(octet)], 1 + extra(octet));
            // Four at once where the answer has so many left: those that do not count are written over.
            match out.get_mut(end..end + 4) {
                Some(four) => four.copy_from_slice(written),
                None => out[end..end + count].copy_from_slice(&written[..count]),
            }
            end += count;
        }
        out[end] = b'.';
        end += 1;
        at = next;
    }
}

/// The octet that the text behind a backslash spells, and how many characters that takes; or how many of them do
/// begin an octet.
fn escaped(text: &[u8]) -> Result<(u8, usize), usize> {
    match *text {
        [a @ b'0'..=b'2', b @ b'0'..=b'9', c @ b'0'..=b'9', ..] => {
            let number = u16::from(a - b'0') * 100 + u16::from(b - b'0') * 10 + u16::from(c - b'0');
            match u8::try_from(number) {
                Ok(octet) => Ok((octet, 3)),
                Err(_) => Err(if b > b'5' { 1 } else { 2 }),
            }
        }
        [b'2', b'6'..=b'9', ..] => Err(1),
        [b'0'..=b'2', b'0'..=b'9', ..] => Err(2),
        [b'0'..=b'2', ..] => Err(1),
        [b'3'..=b'9', ..] => Err(0),
        [octet @ 33..=126, ..] => Ok((octet, 1)),
        _ => Err(0),
    }
}

/// The length of the name whose text this is, put into `name`, or else the place where the characters stop beginning
/// any text.
fn parse(text: &[u8], name: &mut [u8; MAX_NAME]) -> Result<usize, usize> {
    if text.first() == Some(&b'.') {
        return if text.len() == 1 { Ok(1) } else { Err(1) };
    }
    // Where the label's length octet stands, where its next octet does, and where none may stand any more: behind
    // the label the zero octet at the end still has to fit.
    let (mut start, mut end, mut full) = (0, 1, 1 + MAX_LABEL);
    let mut at = 0;
    while let Some(&mark) = text.get(at) {
        if mark == b'.' {
            if end == start + 1 {
                return Err(at);
            }
            name[start] = (end - start - 1) as u8;
            start = end;
            full = (start + 1 + MAX_LABEL).min(MAX_NAME - 1);
        } else if end >= full {
            return Err(at);
        } else if PLAIN[usize::from(mark)] {
            name[end] = mark;
        } else if mark == b'\\' {
            let (octet, count) = escaped(&text[at + 1..]).map_err(|count| at + 1 + count)?;
            name[end] = octet;
            at += count;
        } else {
            return Err(at);
        }
        end += 1;
        at += 1;
    }
    if start == 0 || end > start + 1 {
        return Err(text.len());
    }
    name[start] = 0;
    Ok(end)
}

#[inline(never)]
pub fn read_text(text: &[u8], space: &mut [u8]) -> Result<usize, Refusal> {
    let mut name = [0; MAX_NAME];
    let len = parse(text, &mut name).map_err(Refusal::NotAText)?;
    space.get_mut(..len).ok_or(Refusal::NoRoom)?.copy_from_slice(&name[..len]);
    Ok(len)
}
