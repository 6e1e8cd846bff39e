//! Names as text, written and read: cases and places worked out by hand.

use super::texts::agrees;
use super::wire;
use crate::*;

const SPACE: usize = 2000;

fn reads(text: &str, name: &[u8]) {
    assert_eq!(
        read_text(text.as_bytes(), 255).as_deref(),
        Ok(name),
        "{text}"
    );
    agrees(text.as_bytes());
}

fn refused(text: &[u8], place: usize) {
    assert_eq!(
        read_text(text, 255),
        Err(Refusal::NoText(place)),
        "{}",
        String::from_utf8_lossy(text)
    );
    agrees(text);
}

#[test]
fn written() {
    let writes = |name: &[u8], text: &str| {
        assert_eq!(
            write_text(name, SPACE).as_deref(),
            Ok(text.as_bytes()),
            "{name:?}"
        );
    };
    writes(&[0], ".");
    writes(b"\x03fOo\x07exAMPle\x03COM\x00", "foo.example.com.");
    // The eight characters that take a backslash, and what lies around 33 and 126.
    writes(b"\x08.\\\";()@$\x00", "\\.\\\\\\\"\\;\\(\\)\\@\\$.");
    writes(b"\x04 !~\x7f\x00", "\\032!~\\127.");
    writes(
        b"\x05\x00\x01\x09\x0a\xff\x00",
        "\\000\\001\\009\\010\\255.",
    );
    // Digits are as plain as letters, also behind an octet of three digits.
    writes(b"\x0300A\x01\xc8\x039-_\x00", "00a.\\200.9-_.");
    writes(b"\x03\xff12\x00", "\\25512.");
    for octet in 0..=255u8 {
        let text = write_text(&[1, octet, 0], SPACE).unwrap();
        let expected = match octet {
            b'.' | b'\\' | b'"' | b';' | b'(' | b')' | b'@' | b'$' => vec![b'\\', octet, b'.'],
            b'A'..=b'Z' => vec![octet + 32, b'.'],
            33..=126 => vec![octet, b'.'],
            _ => format!("\\{octet:03}.").into_bytes(),
        };
        assert_eq!(text, expected);
    }
}

#[test]
fn read() {
    reads(".", &[0]);
    reads("foo.example.com.", &wire("foo.example.com."));
    reads("FoO.", b"\x03FoO\x00");
    reads("\"a;(b)@$.", b"\x08\"a;(b)@$\x00");
    reads("\\a\\A\\.\\\\\\\"\\@.", b"\x06aA.\\\"@\x00");
    reads("\\000\\255\\065.\\046.", b"\x03\x00\xffA\x01.\x00");
    // Three digits and no more; a digit behind them is a character of its own.
    reads("\\2000.", b"\x02\xc80\x00");
    reads("\\\\000.", b"\x04\\000\x00");
    reads("!.~.", b"\x01!\x01~\x00");
}

/// Every number of three digits, whole and cut.
#[test]
fn three_digits() {
    for number in 0..1000usize {
        let text = format!("\\{number:03}.").into_bytes();
        // Where the number passes 255, the first digit to show it is the one that ends it.
        let place = match number {
            0..=255 => 5,
            256..=259 => 3,
            260..=299 => 2,
            _ => 1,
        };
        match place {
            5 => assert_eq!(read_text(&text, 255), Ok(vec![1, number as u8, 0])),
            _ => refused(&text, place),
        }
        agrees(&text);
        for length in 0..5 {
            refused(&text[..length], place.min(length));
        }
    }
}

/// Places worked out by hand.
#[test]
fn places() {
    refused(b"", 0);
    refused(b"a", 1);
    refused(b"foo.example.com", 15);
    refused(b"\\", 1);
    refused(b"\\2", 2);
    refused(b"\\20", 3);
    refused(b"\\200", 4);
    refused(b"\\26", 2);
    refused(b"\\256.", 3);
    refused(b"\\3", 1);
    refused(b"\\9.", 1);
    // Behind a backslash comes no space, and behind a digit nothing but digits.
    refused(b"\\ .", 1);
    refused(b"\\\x7f.", 1);
    refused(b"\\1a.", 2);
    refused(b"\\.", 2);
    refused(b"\\12.", 3);
    refused(b"a b.", 1);
    refused(b"\x00.", 0);
    refused(b"a\x80.", 1);
    // A dot without a label, and anything behind the root.
    refused(b"..", 1);
    refused(b".a.", 1);
    refused(b".\\", 1);
    refused(b"a..", 2);
    refused(b"a.b..c.", 4);
}

/// Places near the limits of labels and names, worked out by hand.
#[test]
fn places_at_the_limits() {
    let label = |length: usize| [&vec![b'a'; length][..], b"."].concat();
    // A label of 63 octets takes no more, not even a backslash, however its octets are spelt.
    reads(&format!("{}.", "a".repeat(63)), &wire("a{63}."));
    refused(&[b'a'; 63], 63);
    refused(&label(64), 63);
    refused(&[&[b'a'; 63][..], b"\\"].concat(), 63);
    refused(&[&[b'a'; 62][..], b"\\"].concat(), 63);
    refused(&b"\\000".repeat(64), 252);
    refused(&b"\\.".repeat(64), 126);
    refused(&b"a".repeat(100_000), 63);
    refused(&b"\\".repeat(100_000), 126);
    // Three labels of 63 octets: 193 octets of the name are used, 61 are left for a label.
    let three = label(63).repeat(3);
    refused(&[&three[..], &label(62)].concat(), 192 + 61);
    refused(&[&three[..], &[b'b'; 61], b"\\"].concat(), 192 + 61);
    refused(&[&three[..], &[b'b'; 60], b"\\"].concat(), 192 + 61);
    refused(&[&three[..], &[b'b'; 60], b"\\25"].concat(), 192 + 63);
    // 255 used: nothing may follow.
    let full = [&three[..], &label(61)].concat();
    assert_eq!(read_text(&full, 255).map(|name| name.len()), Ok(255));
    for more in [b".", b"a", b"\\"] {
        refused(&[&full[..], more].concat(), 254);
    }
    // 254 used: one octet is left, and no label is so short.
    let one_left = [&three[..], &label(60)].concat();
    assert_eq!(read_text(&one_left, 255).map(|name| name.len()), Ok(254));
    refused(&[&one_left[..], b"a."].concat(), 253);
    refused(&[&one_left[..], b"\\"].concat(), 253);
    // 253 used: a label of one octet fits.
    let two_left = [&three[..], &label(59)].concat();
    reads(
        std::str::from_utf8(&[&two_left[..], b"\\255."].concat()).unwrap(),
        &wire("a{63}.a{63}.a{63}.a{59}.\\255."),
    );
    refused(&[&two_left[..], b"\\2555."].concat(), 256);
    refused(&[&two_left[..], b"a\\"].concat(), 253);
    // 127 labels of one octet.
    let many = label(1).repeat(127);
    assert_eq!(read_text(&many, 255).map(|name| name.len()), Ok(255));
    refused(&label(1).repeat(128), 254);
    refused(&label(1).repeat(50_000), 254);
}

/// The greatest text has 1004 characters.
#[test]
fn greatest_text() {
    let name = wire("\\255{61}.\\000{63}.\\127{63}.\\032{63}.");
    assert_eq!(name.len(), 255);
    let greatest = write_text(&name, text::LONGEST_TEXT).unwrap();
    assert_eq!(greatest.len(), 1004);
    assert_eq!(write_text(&name, 1003), Err(Refusal::NoRoom));
    assert_eq!(read_text(&greatest, 254), Err(Refusal::NoRoom));
    assert_eq!(read_text(&greatest, 255), Ok(name));
    refused(&greatest[..1003], 1003);
    for more in [&b"."[..], b"a", b"\\", b" ", &[b'a'; 99_000]] {
        refused(&[&greatest[..], more].concat(), 1004);
    }
    // Other shares of labels and octets take fewer characters.
    for labels in [5, 10, 127] {
        let octets = 254 - labels;
        let mut name = Vec::new();
        for index in 0..labels {
            let length = octets / labels + usize::from(index < octets % labels);
            name.push(length as u8);
            name.resize(name.len() + length, 0);
        }
        name.push(0);
        let text = write_text(&name, SPACE).unwrap();
        assert_eq!(text.len(), 4 * octets + labels);
        assert_eq!(read_text(&text, 255), Ok(name));
    }
}
