//! Every case of the scope paper's "Names to try" and of its list of costly mistakes, and every
//! example of RFC 4471 section 5.

use super::{under, wire};
use crate::*;

const ROOM: usize = 255;

fn apex() -> Vec<u8> {
    wire("example.com.")
}

fn p(name: &[u8]) -> Vec<u8> {
    predecessor(&apex(), 255, name, ROOM).unwrap()
}

fn s(name: &[u8]) -> Vec<u8> {
    successor(&apex(), 255, name, ROOM).unwrap()
}

fn mp(name: &[u8]) -> Vec<u8> {
    modified_predecessor(&apex(), 255, name, ROOM).unwrap()
}

fn ms(name: &[u8]) -> Vec<u8> {
    modified_successor(&apex(), 255, name, ROOM).unwrap()
}

#[test]
fn names_to_try() {
    assert_eq!(apex().len(), 13);
    // 1 to 3
    assert_eq!(
        p(&under("foo")),
        under("\\255{49}.\\255{63}.\\255{63}.fon\\255{60}")
    );
    assert_eq!(p(&under("\\000.foo")), under("foo"));
    let before = under("\\255{45}.\\255{63}.\\255{63}.\\255{63}.foo");
    assert_eq!(p(&under("foo\\000")), before);
    assert_eq!(s(&before), under("foo\\000"));
    // 4 to 6
    assert_eq!(s(&under("foo")), under("\\000.foo"));
    assert_eq!(
        s(&under("fo{47}.o{63}.o{63}.o{63}")),
        under("fo{47}\\000.o{63}.o{63}.o{63}")
    );
    assert_eq!(
        s(&under("fo{48}.o{63}.o{63}.o{63}")),
        under("fo{47}p.o{63}.o{63}.o{63}")
    );
    assert_eq!(
        s(&under("\\255{49}.o{63}.o{63}.o{63}")),
        under("o{62}p.o{63}.o{63}")
    );
    // 7
    let last = under("\\255{49}.\\255{63}.\\255{63}.\\255{63}");
    assert_eq!(p(&apex()), last);
    assert_eq!(s(&last), apex());
    // 8
    for operation in [
        predecessor,
        successor,
        modified_predecessor,
        modified_successor,
    ] {
        // Document 02, Thirteen: 14 as well as 12.
        assert_eq!(
            operation(&apex(), 14, &apex(), ROOM),
            Err(Refusal::ApexAboveLimit)
        );
        assert_eq!(
            operation(&apex(), 12, &apex(), ROOM),
            Err(Refusal::ApexAboveLimit)
        );
    }
    // 9
    assert_eq!(successor(&apex(), 15, &under("@"), ROOM), Ok(under("[")));
    assert_eq!(predecessor(&apex(), 15, &under("["), ROOM), Ok(under("@")));
    assert_eq!(successor(&apex(), 15, &under("\\255"), ROOM), Ok(apex()));
    // 10
    assert_eq!(mp(&under("bar.foo")), under("foo"));
    assert_eq!(ms(&under("bar.foo")), under("foo\\000"));
    assert_eq!(mp(&under("\\000")), apex());
    // 11
    assert_eq!(
        modified_predecessor(&apex(), 77, &under("foo"), ROOM),
        Ok(under("fon\\255{60}"))
    );
    for operation in [modified_predecessor, modified_successor] {
        assert_eq!(
            operation(&apex(), 76, &under("foo"), ROOM),
            Err(Refusal::NoLabelToSpare)
        );
    }
    // 12
    for operation in [
        predecessor,
        successor,
        modified_predecessor,
        modified_successor,
    ] {
        assert_eq!(operation(&apex(), 0, &[9, 9], ROOM), Err(Refusal::Limit));
    }
    // 13
    assert_eq!(read_key(&[0x00], ROOM), Err(Refusal::NoKey(0)));
    assert_eq!(read_key(&[0x61], ROOM), Err(Refusal::NoKey(1)));
}

#[test]
fn costly_mistakes() {
    // Sorting from the left label: a.b. comes after z.a., for b follows a.
    assert_eq!(compare(&wire("a.b."), &wire("z.a.")), Ok(1));
    // \200 is a greater octet than \127, not a negative number.
    assert_eq!(compare(&wire("\\200."), &wire("\\127.")), Ok(1));
    assert_eq!(compare(&wire("z."), &wire("\\200.")), Ok(-1));
    // Raw tail octets are no labels.
    let outside = wire("x\\007example.com.");
    assert!(outside.ends_with(&apex()));
    for operation in [
        predecessor,
        successor,
        modified_predecessor,
        modified_successor,
    ] {
        assert_eq!(
            operation(&apex(), 255, &outside, ROOM),
            Err(Refusal::NotUnderApex)
        );
    }
    // Stripping bar.foo to foo must not step on below foo.
    assert_eq!(mp(&under("bar.foo")), under("foo"));
    // An octet 00 must not imitate the end of a label in the key.
    let two_labels = write_key(&wire("b.a."), 600).unwrap();
    let one_label = write_key(&wire("a\\000b."), 600).unwrap();
    assert_eq!(two_labels, [0x61, 0, 0x62, 0]);
    assert_eq!(one_label, [0x61, 1, 1, 0x62, 0]);
    assert!(two_labels < one_label);
    assert_eq!(compare(&wire("b.a."), &wire("a\\000b.")), Ok(-1));
    // From @ the next octet is [, for A folds to a.
    assert_eq!(
        s(&under("fo{47}\\@.o{63}.o{63}.o{63}")),
        under("fo{47}\\[.o{63}.o{63}.o{63}")
    );
}

#[test]
fn key_example() {
    let key = [
        0x63, 0x6f, 0x6d, 0x00, 0x65, 0x78, 0x61, 0x6d, 0x70, 0x6c, 0x65, 0x00, 0x66, 0x6f, 0x6f,
        0x00,
    ];
    assert_eq!(write_key(&under("foo"), 16), Ok(key.to_vec()));
    assert_eq!(write_key(&wire("FOO.Example.COM."), 16), Ok(key.to_vec()));
    assert_eq!(read_key(&key, 17), Ok(under("foo")));
    assert_eq!(write_key(&[0], 0), Ok(vec![]));
    assert_eq!(read_key(&[], 1), Ok(vec![0]));
    assert_eq!(
        write_key(&wire("\\000\\001\\002."), 9),
        Ok(vec![1, 1, 1, 2, 2, 0])
    );
    // The longest key.
    let longest = wire("\\000{61}.\\001{63}.\\000{63}.\\001{63}.");
    assert_eq!(longest.len(), 255);
    let key = write_key(&longest, 504).unwrap();
    assert_eq!(key.len(), 504);
    assert_eq!(read_key(&key, 255), Ok(longest));
}

#[test]
fn rfc_4471_section_5_1() {
    assert_eq!(
        p(&under("foo")),
        under("\\255{49}.\\255{63}.\\255{63}.fon\\255{60}")
    );
    assert_eq!(p(&under("\\000.foo")), under("foo"));
    assert_eq!(
        p(&under("foo\\000")),
        under("\\255{45}.\\255{63}.\\255{63}.\\255{63}.foo")
    );
    assert_eq!(
        p(&under("fo\\[")),
        under("\\255{49}.\\255{63}.\\255{63}.fo\\@\\255{60}")
    );
    assert_eq!(p(&apex()), under("\\255{49}.\\255{63}.\\255{63}.\\255{63}"));
}

#[test]
fn rfc_4471_section_5_2() {
    assert_eq!(s(&under("foo")), under("\\000.foo"));
    let examples = [
        ("fo{47}.o{63}.o{63}.o{63}", "fo{47}\\000.o{63}.o{63}.o{63}"),
        ("fo{48}.o{63}.o{63}.o{63}", "fo{47}p.o{63}.o{63}.o{63}"),
        ("\\255{49}.o{63}.o{63}.o{63}", "o{62}p.o{63}.o{63}"),
        (
            "fo{40}\\255{8}.o{63}.o{63}.o{63}",
            "fo{39}p.o{63}.o{63}.o{63}",
        ),
        ("fo{47}\\@.o{63}.o{63}.o{63}", "fo{47}\\[.o{63}.o{63}.o{63}"),
    ];
    for (name, next) in examples {
        assert_eq!(s(&under(name)), under(next));
    }
    assert_eq!(s(&under("\\255{49}.\\255{63}.\\255{63}.\\255{63}")), apex());
}

#[test]
fn rfc_4471_section_5_3() {
    assert_eq!(mp(&under("foo")), under("fon\\255{60}"));
    assert_eq!(mp(&under("bar.foo")), under("foo"));
    assert_eq!(mp(&under("foo\\000")), under("foo"));
    assert_eq!(mp(&under("\\000")), apex());
    assert_eq!(mp(&apex()), under("\\255{63}"));
}

#[test]
fn rfc_4471_section_5_4() {
    assert_eq!(ms(&under("foo")), under("foo\\000"));
    assert_eq!(ms(&under("bar.foo")), under("foo\\000"));
    assert_eq!(ms(&under("\\255{63}")), apex());
}

/// The short set is a ring: the apex has neighbours in it as soon as 7 lets it pass.
#[test]
fn apex_in_the_modified_way() {
    let upper = wire("EXAMPLE.com.");
    for limit in 77..=255 {
        for name in [&apex(), &upper] {
            assert_eq!(
                modified_successor(&apex(), limit, name, ROOM),
                Ok(under("\\000"))
            );
            assert_eq!(
                modified_predecessor(&upper, limit, name, ROOM),
                Ok(under("\\255{63}"))
            );
        }
        assert_eq!(
            modified_predecessor(&apex(), limit, &under("\\000"), ROOM),
            Ok(apex())
        );
        assert_eq!(
            modified_successor(&apex(), limit, &under("\\255{63}"), ROOM),
            Ok(apex())
        );
    }
    for operation in [modified_predecessor, modified_successor] {
        assert_eq!(
            operation(&apex(), 76, &apex(), ROOM),
            Err(Refusal::NoLabelToSpare)
        );
        assert_eq!(
            operation(&wire("."), 64, &wire("."), ROOM),
            Err(Refusal::NoLabelToSpare)
        );
    }
    let root = wire(".");
    assert_eq!(
        modified_successor(&root, 65, &root, ROOM),
        Ok(wire("\\000."))
    );
    assert_eq!(
        modified_predecessor(&root, 65, &root, ROOM),
        Ok(wire("\\255{63}."))
    );
}

#[test]
fn letter_case() {
    assert_eq!(fold(&wire("@AZ[`az{1}."), 99), Ok(wire("@az[`az.")));
    assert_eq!(
        successor(&wire("EXAMPLE.com."), 255, &wire("Foo.exAMPle.COM."), ROOM),
        Ok(under("\\000.foo"))
    );
    assert_eq!(
        predecessor(&wire("EXAMPLE.com."), 15, &wire("exAMPle.COM."), ROOM),
        Ok(under("\\255"))
    );
    assert_eq!(compare(&wire("Foo.BAR."), &wire("fOO.bar.")), Ok(0));
}

#[test]
fn comparisons() {
    assert_eq!(compare(&wire("."), &wire(".")), Ok(0));
    assert_eq!(compare(&wire("."), &wire("a.")), Ok(-1));
    assert_eq!(compare(&wire("b.a."), &wire("a.")), Ok(2));
    assert_eq!(compare(&wire("a.example."), &wire("z.example.")), Ok(-2));
    // A missing octet sorts before any octet, zero included.
    assert_eq!(compare(&wire("a."), &wire("a\\000.")), Ok(-1));
    // 126 shared labels give the greatest number there is.
    let shared = [1, 120].repeat(126);
    let first = [&[1, 97][..], &shared, &[0]].concat();
    let second = [&[1, 98][..], &shared, &[0]].concat();
    assert_eq!(compare(&first, &second), Ok(-127));
    assert_eq!(compare(&second, &first), Ok(127));
    assert_eq!(compare(&first, &[&shared[..], &[0]].concat()), Ok(127));
}
