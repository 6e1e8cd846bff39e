//! What is printed, against the examples and the sentences that the command is defined with.

use super::*;

const NO_DOT: &str = "the name must end with a dot";
const NO_TEXT: &str = "no name's text goes on like this";

fn expect(arguments: &[&str], expected: &str) {
    let octets: Vec<&[u8]> = arguments.iter().map(|a| a.as_bytes()).collect();
    assert_eq!(printed(&octets), format!("{expected}\n"), "{arguments:?}");
}

#[test]
fn arguments_of_a_file() {
    assert!(arguments(b"").is_empty());
    assert_eq!(arguments(b"\n"), [b""]);
    assert_eq!(arguments(b"a\n\n\xff\n"), [&b"a"[..], b"", b"\xff"]);
    assert_eq!(arguments(b"a\nb"), [b"a", b"b"]);
}

#[test]
fn gap_of_a_name() {
    let expected = r"gap: \@.x. NSEC \\.x.
gap: \).x. NSEC +.x.
predecessor: \@.x.
successor: \\.x.
modified predecessor: refused 7: the limit leaves less than 64 octets for each label of depth, or the depth is not 1 to 3
modified successor: refused 7: the limit leaves less than 64 octets for each label of depth, or the depth is not 1 to 3
key: 78005b00";
    expect(&["X.", "[.x.", "5"], expected);
}

#[test]
fn gap_of_the_root() {
    let greatest = |length| r"\255".repeat(length);
    let label = greatest(63);
    let last = format!("{}.{label}.{label}.{label}.", greatest(61));
    let expected = format!(
        r"gap: refused 18: the encloser is no proper ancestor of the query at or under the apex
predecessor: {last}
successor: \000.
modified predecessor: {label}.
modified successor: \000.
key: "
    );
    expect(&[".", "."], &expected);
    expect(&[".", ".", "255"], &expected);
}

#[test]
fn refused_gaps() {
    for (apex, name, limit, refused, key) in [
        ("a.", ".", "0", "1: the limit is not 1 to 255", ""),
        ("a.", ".", "256", "1: the limit is not 1 to 255", ""),
        (
            "a.",
            ".",
            "4",
            "3: the limit leaves no room for a name under the apex: the length of the apex plus 2 is above it",
            "",
        ),
        (
            ".",
            "aa.",
            "3",
            "5: the name is longer than the limit",
            "616100",
        ),
        (
            "a.",
            ".",
            "5",
            "6: the name is not at or under the apex",
            "",
        ),
    ] {
        let neighbours = NEIGHBOURS.map(|(label, _)| format!("{label}: refused {refused}\n"));
        let gap = format!("gap: refused {refused}\n");
        expect(
            &[apex, name, limit],
            &(gap + &neighbours.concat() + "key: " + key),
        );
    }
}

#[test]
fn refused_texts() {
    let (empty, dots) = (format!("14 at 0: {NO_DOT}"), format!("14 at 1: {NO_TEXT}"));
    expect(&["", "."], &format!("apex: refused {empty}\nkey: "));
    expect(&[".", "..", "0"], &format!("name: refused {dots}"));
    let both = format!("apex: refused {empty}\nname: refused {dots}");
    expect(&["", ".."], &both);
    expect(&["compare", "", "."], &format!("first: refused {empty}"));
    expect(&["compare", ".", ".."], &format!("second: refused {dots}"));
    let both = format!("first: refused {empty}\nsecond: refused {dots}");
    expect(&["compare", "", ".."], &both);
    expect(&["key", "a"], &format!("refused 14 at 1: {NO_DOT}"));
    expect(&["fold", "a\\"], &format!("refused 14 at 2: {NO_TEXT}"));
}

#[test]
fn comparisons() {
    for (first, second, expected) in [
        (
            "a.y.x.",
            "b.Y.x.",
            "-3: first sorts earlier; 2 labels shared",
        ),
        ("b.", "a.", "1: first sorts later; no label shared"),
        ("a.x.", "x.", "2: first sorts later; 1 label shared"),
        ("A.", "a.", "0: the same name, letter case aside"),
    ] {
        expect(&["compare", first, second], expected);
    }
}

#[test]
fn keys_and_folded_names() {
    expect(&["key", "."], "");
    expect(&["key", r"\001a.B."], "620001026100");
    expect(&["fold", r"A\;\066."], r"a\;b.");
}

#[test]
fn usage_and_help() {
    for wrong in [
        &[][..],
        &["a."],
        &["a.", "a.", ""],
        &["a.", "a.", "-1"],
        &["a.", "a.", "1", "1"],
        &["compare", "a."],
        &["key", "a.", "1"],
    ] {
        expect(wrong, USAGE);
    }
    expect(&["--help"], HELP);
}

#[test]
fn long_arguments() {
    let longest = "1".repeat(LONGEST_ARGUMENT);
    expect(&["key", &longest], &format!("refused 14 at 63: {NO_TEXT}"));
    expect(&["key", &(longest + "1")], TOO_LONG);
}
