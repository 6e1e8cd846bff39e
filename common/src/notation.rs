//! Names in the papers' notation: labels with dots between them, `\DDD` or `\c` for an octet, and
//! `{n}` behind an octet for n of it. They stand under the apex `example.com.` unless a dot ends
//! them; the empty text is that apex.

/// The apex of document 01's names, `example.com.`
pub const APEX: &[u8] = b"\x07example\x03com\x00";

/// The octets of a name. What isn't in the notation panics, but a name may have any length.
pub fn wire(text: &str) -> Vec<u8> {
    let (mut name, mut label) = (Vec::new(), Vec::new());
    let mut rest = text.as_bytes();
    while let Some((&mark, after)) = rest.split_first() {
        rest = after;
        match mark {
            b'.' if label.is_empty() => assert_eq!(text, ".", "an empty label"),
            b'.' => put(&mut name, &mut label),
            b'{' => {
                let end = rest.iter().position(|&c| c == b'}');
                let end = end.expect("a closing brace");
                let octet = *label.last().expect("an octet to repeat");
                label.resize(label.len() - 1 + number(&rest[..end]), octet);
                rest = &rest[end + 1..];
            }
            b'\\' if rest[0].is_ascii_digit() => {
                label.push(u8::try_from(number(&rest[..3])).expect("an octet"));
                rest = &rest[3..];
            }
            b'\\' => {
                label.push(rest[0]);
                rest = &rest[1..];
            }
            plain => label.push(plain),
        }
    }
    let absolute = label.is_empty() && !text.is_empty();
    if !label.is_empty() {
        put(&mut name, &mut label);
    }
    name.extend_from_slice(if absolute { &[0] } else { APEX });
    name
}

/// Moves the label to the end of the name, behind its length octet.
fn put(name: &mut Vec<u8>, label: &mut Vec<u8>) {
    name.push(u8::try_from(label.len()).expect("a label of at most 255 octets"));
    name.append(label);
}

fn number(digits: &[u8]) -> usize {
    let digits = std::str::from_utf8(digits).expect("digits");
    digits.parse().expect("a number")
}

#[cfg(test)]
mod tests {
    use super::*;

    #[test]
    fn names() {
        assert_eq!(wire("."), [0]);
        assert_eq!(wire("com."), *b"\x03com\x00");
        assert_eq!(wire("example.com."), APEX);
        assert_eq!(wire(""), APEX);
        assert_eq!(wire("a.foo"), *b"\x01a\x03foo\x07example\x03com\x00");
        assert_eq!(wire("FOO").len(), 17);
    }

    #[test]
    fn octets() {
        assert_eq!(wire(r"a\000{2}b.\@[."), [4, 97, 0, 0, 98, 2, 64, 91, 0]);
        assert_eq!(wire(r"x\007example."), *b"\x09x\x07example\x00");
        assert_eq!(wire(r"\..\255{1}."), [1, 46, 1, 255, 0]);
        assert_eq!(wire(r"a\."), *b"\x02a.\x07example\x03com\x00");
        assert_eq!(wire("fo{63}.").len(), 66);
    }

    #[test]
    #[should_panic = "an empty label"]
    fn empty_label() {
        wire("a..b");
    }

    #[test]
    #[should_panic = "an octet to repeat"]
    fn nothing_to_repeat() {
        wire("a.{2}");
    }
}
