//! The papers' cases.

use super::*;
use common::papers::{Says, Way, NEIGHBOURS};
use common::wire;

type Neighbour = fn(&[u8], usize, &[u8], &mut [u8]) -> Result<usize, Refusal>;

const APEX: &str = "example.com.";

/// The octets answered, the space's others seen to be left alone.
fn answer(call: impl Fn(&mut [u8]) -> Result<usize, Refusal>) -> Result<Vec<u8>, Refusal> {
    let mut space = [0x5a; MAX_TEXT];
    let answer = call(&mut space);
    let len = answer.unwrap_or(0);
    assert!(space[len..].iter().all(|&octet| octet == 0x5a));
    answer?;
    let mut exact = vec![0x5a; len];
    assert_eq!(call(&mut exact), Ok(len));
    assert_eq!(exact, space[..len]);
    if len > 0 {
        let mut short = vec![0x5a; len - 1];
        assert_eq!(call(&mut short), Err(Refusal::NoRoom));
        assert!(short.iter().all(|&octet| octet == 0x5a));
    }
    Ok(exact)
}

fn neighbour(way: Neighbour, limit: usize, name: &str) -> Result<Vec<u8>, Refusal> {
    answer(|space| way(&wire(APEX), limit, &wire(name), space))
}

#[test]
fn names_to_try() {
    for &(source, way, limit, name, says) in NEIGHBOURS {
        let way = match way {
            Way::Predecessor => predecessor as Neighbour,
            Way::Successor => successor,
            Way::ModifiedPredecessor => modified_predecessor,
            Way::ModifiedSuccessor => modified_successor,
        };
        let expected = match says {
            Says::Answer(text) => Ok(wire(text)),
            Says::Refusal(number) => Err(number),
        };
        let found = neighbour(way, limit as usize, name).map_err(Refusal::number);
        assert_eq!(found, expected, "{source}: {name}, limit {limit}");
    }
}

#[test]
fn more_neighbours() {
    let cases: [(Neighbour, usize, &str, &str); 8] = [
        (predecessor, 15, APEX, r"\255"),
        (successor, 15, APEX, r"\000"),
        (successor, 255, "FOO.Example.COM.", r"\000.foo"),
        (modified_successor, 77, r"fon\255{60}", "foo"),
        (modified_successor, 255, r"a.\255{63}", APEX),
        (modified_successor, 255, r"@\255{62}", "["),
        (modified_predecessor, 255, "EXAMPLE.com.", r"\255{63}"),
        (modified_successor, 255, "EXAMPLE.com.", r"\000"),
    ];
    for (way, limit, name, expected) in cases {
        assert_eq!(neighbour(way, limit, name), Ok(wire(expected)), "{name}, limit {limit}");
    }
}

/// In zones of letters, digits and hyphens.
#[test]
fn neighbours_in_an_alphabet() {
    type In = fn(u64, &[u8], usize, &[u8], &mut [u8]) -> Result<usize, Refusal>;
    let ask = |way: In, limit, name| answer(|space| way(1, &wire(APEX), limit, &wire(name), space));
    let before: In =
        |alphabet, apex, limit, name, space| modified_predecessor_in(alphabet, 1, apex, limit, name, space);
    let after: In = |alphabet, apex, limit, name, space| modified_successor_in(alphabet, 1, apex, limit, name, space);
    let cases: [(In, usize, &str, &str); 12] = [
        (predecessor_in, 255, APEX, "z{49}.z{63}.z{63}.z{63}"),
        (predecessor_in, 18, "foo", "fonz"),
        (predecessor_in, 15, "A", "9"),
        (predecessor_in, 15, "0", "-"),
        (predecessor_in, 15, "-", APEX),
        (successor_in, 255, "FOO", "-.foo"),
        (successor_in, 15, "-", "0"),
        (successor_in, 15, "9", "a"),
        (successor_in, 15, "Z", APEX),
        (before, 77, "fo-", "fo"),
        (before, 77, APEX, "z{63}"),
        (after, 255, "a.z{62}Y", "z{63}"),
    ];
    for (way, limit, name, expected) in cases {
        assert_eq!(ask(way, limit, name), Ok(wire(expected)), "{name}, limit {limit}");
    }
    for way in [predecessor_in, successor_in, before, after] as [In; 4] {
        assert_eq!(ask(way, 255, "a_b"), Err(Refusal::NotInAlphabet));
        assert_eq!(ask(way, 255, r"a.\001.b"), Err(Refusal::NotInAlphabet));
        let free = answer(|space| way(1, &wire("_."), 255, &wire("a._."), space));
        assert!(free.is_ok());
    }
    assert_eq!(ask(after, 76, "_"), Err(Refusal::NoRoomAboveApex));
}

/// Two and three labels deep.
#[test]
fn deeper_neighbours() {
    type Deep = fn(u64, u64, &[u8], usize, &[u8], &mut [u8]) -> Result<usize, Refusal>;
    let (before, after): (Deep, Deep) = (modified_predecessor_in, modified_successor_in);
    let ask = |way: Deep, depth, limit, name| answer(|space| way(0, depth, &wire(APEX), limit, &wire(name), space));
    let cases: [(Deep, u64, &str, &str); 14] = [
        (before, 1, "d.c.b.a", "a"),
        (before, 2, "d.c.b.a", "b.a"),
        (before, 3, "d.c.b.a", "c.b.a"),
        (before, 2, "b.a", r"a\255{62}.a"),
        (before, 3, "b.a", r"\255{63}.a\255{62}.a"),
        (before, 2, r"b\000", r"\255{63}.b"),
        (before, 3, r"\000.b", "b"),
        (before, 3, APEX, r"\255{63}.\255{63}.\255{63}"),
        (after, 2, "d.c.b.a", r"b\000.a"),
        (after, 3, "b.a", r"\000.b.a"),
        (after, 2, APEX, r"\000"),
        (after, 2, r"\255{63}.b", r"b\000"),
        (after, 3, r"a.\255{63}.\255{63}.@\255{62}", "["),
        (after, 3, r"\255{63}.\255{63}.\255{63}", APEX),
    ];
    for (way, depth, name, expected) in cases {
        assert_eq!(ask(way, depth, 255, name), Ok(wire(expected)), "{name}, depth {depth}");
    }
    for way in [before, after] {
        for (depth, limit) in [(0, 255), (1, 76), (2, 140), (3, 204), (4, 255), (1 << 63, 255)] {
            assert_eq!(ask(way, depth, limit, "foo"), Err(Refusal::NoRoomAboveApex));
        }
        for (depth, limit) in [(1, 77), (2, 141), (3, 205)] {
            assert!(ask(way, depth, limit, "foo").is_ok());
        }
        assert_eq!(ask(way, 4, 255, "other."), Err(Refusal::NotUnderApex));
    }
}

#[test]
fn refused_questions() {
    let outside = wire(r"x\007example.com.");
    assert!(outside.ends_with(&wire(APEX)));
    for way in [predecessor, successor, modified_predecessor, modified_successor] as [Neighbour; 4] {
        let ask = |apex: &[u8], limit, name: &[u8]| answer(|space| way(apex, limit, name, space));
        let apex = &wire(APEX)[..];
        assert_eq!(ask(apex, 0, b"\x03f"), Err(Refusal::BadLimit));
        assert_eq!(ask(b"", 256, apex), Err(Refusal::BadLimit));
        assert_eq!(ask(b"", 255, b""), Err(Refusal::BadApex(Reason::CutShort(0))));
        assert_eq!(ask(apex, 12, b"\x03f"), Err(Refusal::ApexTooLong));
        assert_eq!(ask(apex, 14, b"\x03f"), Err(Refusal::ApexTooLong));
        assert_eq!(ask(apex, 255, b"\x03f"), Err(Refusal::BadName(Reason::CutShort(2))));
        assert_eq!(ask(apex, 15, &wire("other.")[..]), Err(Refusal::NotUnderApex));
        assert_eq!(ask(apex, 15, &wire("foo")[..]), Err(Refusal::NameTooLong));
        assert_eq!(ask(apex, 255, &outside), Err(Refusal::NotUnderApex));
        assert_eq!(ask(apex, 255, b"\0"), Err(Refusal::NotUnderApex));
    }
    for way in [modified_predecessor, modified_successor] as [Neighbour; 2] {
        assert_eq!(neighbour(way, 76, "foo"), Err(Refusal::NoRoomAboveApex));
        assert_eq!(neighbour(way, 76, APEX), Err(Refusal::NoRoomAboveApex));
    }
}

#[test]
fn badly_formed_names() {
    let name = |sizes: &[usize], end: &[u8]| {
        let mut name = Vec::new();
        for &size in sizes {
            name.push(size as u8);
            name.resize(name.len() + size, b'A');
        }
        name.extend_from_slice(end);
        name
    };
    let cases = [
        (name(&[], b""), Reason::CutShort(0)),
        (name(&[], b"\0\0"), Reason::LeftOver(1)),
        (name(&[3], b"\0\x01"), Reason::LeftOver(5)),
        (name(&[3], b"\x40"), Reason::BadLength(4)),
        (name(&[3], b"\xff"), Reason::BadLength(4)),
        (name(&[3], b"\x02a"), Reason::CutShort(6)),
        (name(&[3], b""), Reason::CutShort(4)),
        (name(&[63, 63, 63, 62], b"\0"), Reason::TooLong(192)),
        (name(&[63, 63, 63], b"\x3e"), Reason::TooLong(192)),
        (name(&[63, 63, 63, 61], b"\x01"), Reason::TooLong(254)),
    ];
    for (name, reason) in cases {
        assert_eq!(check(&name), Err(Refusal::BadName(reason)));
        assert_eq!(answer(|space| fold(&name, space)), Err(Refusal::BadName(reason)));
        assert_eq!(answer(|space| write_key(&name, space)), Err(Refusal::BadName(reason)));
        assert_eq!(answer(|space| write_text(&name, space)), Err(Refusal::BadName(reason)));
        assert_eq!(compare(&name, &name), Err(Refusal::BadName(reason)));
        assert_eq!(compare(b"\0", &name), Err(Refusal::BadSecondName(reason)));
    }
    let longest = name(&[63, 63, 63, 61], b"\0");
    assert_eq!((longest.len(), check(&longest)), (255, Ok(255)));
    assert_eq!(answer(|space| fold(&longest, space)), Ok(longest.to_ascii_lowercase()));
}

#[test]
fn keys() {
    let key = |name: &str| answer(|space| write_key(&wire(name), space));
    assert_eq!(key("FOO.example.com."), Ok(b"com\0example\0foo\0".to_vec()));
    assert_eq!(key("."), Ok(vec![]));
    assert_eq!(key(r"\001.\000\002."), Ok(vec![1, 1, 2, 0, 1, 2, 0]));
    let largest = key(r"\000{61}.\000{63}.\000{63}.\000{63}.").unwrap();
    assert_eq!(largest.len(), MAX_KEY);
    let read = |key: &[u8]| answer(|space| read_key(key, space));
    assert_eq!(read(&largest), Ok(wire(r"\000{61}.\000{63}.\000{63}.\000{63}.")));
    assert_eq!(read(b""), Ok(wire(".")));
    assert_eq!(read(b"com\0example\0foo\0"), Ok(wire("foo")));
    for (octets, place) in [
        (&b"\0"[..], 0),
        (b"a", 1),
        (b"a\0\0", 2),
        (b"abC\0", 2),
        (b"a\x01", 2),
        (b"a\x01\x03\0", 2),
        (b"a\x01\0", 2),
        (&[b'a'; 64], 63),
        (&[&largest[..], b"a"].concat(), 504),
    ] {
        assert_eq!(read(octets), Err(Refusal::NotAKey(place)));
        assert_eq!(read_key(octets, &mut []), Err(Refusal::NotAKey(place)));
    }
}

#[test]
fn texts() {
    let text = |name: &[u8]| answer(|space| write_text(name, space));
    let read = |text: &[u8]| answer(|space| read_text(text, space));
    for (name, written) in [
        (&b"\0"[..], &b"."[..]),
        (b"\x03FoO\x07example\x03COM\0", b"foo.example.com."),
        (b"\x08.\\\";()@$\0", br#"\.\\\"\;\(\)\@\$."#),
        (b"\x04 !~\x7f\0", br"\032!~\127."),
        (b"\x05\x00\x01\x09\x0a\xff\x0200\0", br"\000\001\009\010\255.00."),
        (b"\x03\xff12\0", br"\25512."),
    ] {
        assert_eq!(text(name), Ok(written.to_vec()));
        assert_eq!(read(written), Ok(name.to_ascii_lowercase()));
    }
    for octet in 0..=255 {
        let written = text(&[1, octet, 0]).unwrap();
        assert_eq!(read(&written), Ok(vec![1, octet.to_ascii_lowercase(), 0]));
        assert_eq!(read(format!("\\{octet:03}.").as_bytes()), Ok(vec![1, octet, 0]));
    }
    assert_eq!(read(br#"FoO"\a\Z;.(b).@$."#), Ok(b"\x07FoO\"aZ;\x03(b)\x02@$\0".to_vec()));
    let name = wire(r"\255{61}.\000{63}.\127{63}.\032{63}.");
    let greatest = text(&name).unwrap();
    assert_eq!((greatest.len(), read(&greatest)), (MAX_TEXT, Ok(name)));
    let full = [&b"a".repeat(63)[..], b"."].concat().repeat(3);
    for (text, place) in [
        (&b""[..], 0),
        (b"a", 1),
        (b"..", 1),
        (b".a", 1),
        (b"a..", 2),
        (b"a b.", 1),
        (b"\x7f.", 0),
        (br"\", 1),
        (br"\ ", 1),
        (br"\2", 2),
        (br"\2a", 2),
        (br"\26", 2),
        (br"\266.", 2),
        (br"\25", 3),
        (br"\25.", 3),
        (br"\256.", 3),
        (br"\3", 1),
        (br"\.", 2),
        (&[b'a'; 64], 63),
        (&[&[b'a'; 63][..], br"\"].concat(), 63),
        (&br"\000".repeat(64), 252),
        (&[&full[..], &[b'a'; 62]].concat(), 253),
        (&[&full[..], &[b'a'; 61], br"\"].concat(), 253),
        (&[&full[..], &[b'a'; 60], b".a"].concat(), 253),
        (&[&full[..], &[b'a'; 59], br".\2555."].concat(), 256),
        (&b"a.".repeat(128), 254),
        (&[&greatest[..], b"."].concat(), 1004),
    ] {
        assert_eq!(read(text), Err(Refusal::NotAText(place)), "{}", text.escape_ascii());
        assert_eq!(read_text(text, &mut []), Err(Refusal::NotAText(place)));
    }
}

/// RFC 4034 section 6.1's list.
#[test]
fn canonical_order() {
    let names = [
        "example.",
        "a.example.",
        "yljkjljk.a.example.",
        "Z.a.example.",
        "zABC.a.EXAMPLE.",
        "z.example.",
        r"\001.z.example.",
        "*.z.example.",
        r"\200.z.example.",
    ]
    .map(wire);
    let key = |name: &[u8]| answer(|space| write_key(name, space)).unwrap();
    for (i, first) in names.iter().enumerate() {
        for (j, second) in names.iter().enumerate() {
            let order = compare(first, second).unwrap();
            assert_eq!(order.cmp(&0), i.cmp(&j));
            assert_eq!(order, -compare(second, first).unwrap());
            assert_eq!(key(first).cmp(&key(second)), i.cmp(&j));
        }
    }
    assert_eq!(compare(&wire("Foo"), &wire("fOO")), Ok(0));
    assert_eq!(compare(&wire("foo"), &wire("bar.foo")), Ok(-4));
    assert_eq!(compare(&wire("foo"), &wire("a.bar")), Ok(3));
    assert_eq!(compare(&wire("."), &wire("a.")), Ok(-1));
    let deepest = [&[1, b'a'].repeat(127)[..], &[0]].concat();
    assert_eq!(compare(&deepest, &deepest[2..]), Ok(127));
    assert_eq!(compare(&deepest, &deepest), Ok(0));
}
