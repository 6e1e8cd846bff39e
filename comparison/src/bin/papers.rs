//! Runs the proved library on every case of document 01's "Names to try", on the apex as document
//! 02's request Four has it, on every example of RFC 4471 section 5, on the hashes of document 02's
//! request Twelve and the types of request Five, for its request Eleven on the labels of document
//! 01's names, and for its request Seven on the zone of RFC 4592, with the space filled before and
//! every octet of it compared after. Prints a line for each case and, at the end, how many held;
//! fails if any did not. What is expected is copied from the papers.

use common::notation::APEX;
use common::papers::{Says, Way, NEIGHBOURS, WAYS};
use common::{packed, pattern, wire};
use qorshudan::raw;
use std::process::ExitCode;

/// Counts the cases and prints a line for each.
struct Tally {
    cases: usize,
    held: usize,
}

impl Tally {
    fn note(&mut self, held: bool, case: &str) {
        self.cases += 1;
        self.held += usize::from(held);
        println!("{}: {case}", if held { "held" } else { "FAILED" });
    }
}

/// What is expected of a call: an answer, or a refusal with its number and place.
type Expected = Result<Vec<u8>, (u8, u64)>;

/// Whether a call on a space full of a pattern hands back what is said and leaves the rest as it was.
fn fills(expected: &Expected, call: impl Fn(&mut [u8]) -> u64) -> bool {
    let mut space = pattern(600);
    let result = call(&mut space);
    let mut after = pattern(600);
    let said = match expected {
        Ok(octets) => {
            after[..octets.len()].copy_from_slice(octets);
            packed(0, 0, octets.len() as u64)
        }
        Err((number, place)) => packed(*number, 0, *place),
    };
    result == said && space == after
}

fn neighbour(way: Way, limit: u64, name: &[u8], space: &mut [u8]) -> u64 {
    match way {
        Way::Predecessor => raw::predecessor(APEX, limit, name, space),
        Way::Successor => raw::successor(APEX, limit, name, space),
        Way::ModifiedPredecessor => raw::modified_predecessor(APEX, limit, name, space),
        Way::ModifiedSuccessor => raw::modified_successor(APEX, limit, name, space),
    }
}

fn neighbours(tally: &mut Tally) {
    for &(source, way, limit, name, says) in NEIGHBOURS {
        let (expected, says) = match says {
            Says::Answer(text) => (Ok(wire(text)), format!("= {}", shown(text))),
            Says::Refusal(number) => (Err((number, 0)), format!("is refused with {number}")),
        };
        let octets = wire(name);
        let held = fills(&expected, |space| neighbour(way, limit, &octets, space));
        let (sign, name) = (way.sign(), shown(name));
        tally.note(
            held,
            &format!("{source}: {sign}({name}) {says}, L = {limit}"),
        );
    }
    // 12: limit 0 with a broken name
    for way in WAYS {
        let held = fills(&Err((1, 0)), |space| neighbour(way, 0, &[64], space));
        tally.note(held, "01, 12: limit 0 with a broken name is refused with 1");
    }
}

fn shown(text: &str) -> &str {
    if text.is_empty() {
        "the apex"
    } else {
        text
    }
}

fn keys(tally: &mut Tally) {
    let run = |function: fn(&[u8], &mut [u8]) -> u64, input: &[u8], expected: Expected| {
        fills(&expected, |space| function(input, space))
    };
    let key = b"com\0example\0foo\0".to_vec();
    tally.note(
        run(raw::write_key, &wire("foo"), Ok(key.clone())),
        "01, the key of foo.example.com.",
    );
    tally.note(
        run(raw::read_key, &key, Ok(wire("foo"))),
        "01, the name of that key",
    );
    tally.note(
        run(raw::write_key, &[0], Ok(vec![])),
        "01, the root's key is empty",
    );
    tally.note(
        run(raw::read_key, &[], Ok(vec![0])),
        "01, the empty key is the root's",
    );
    tally.note(
        run(raw::read_key, &[0x00], Err((10, 0))),
        "01, 13: key 00 is refused with 10 at 0",
    );
    tally.note(
        run(raw::read_key, &[0x61], Err((10, 1))),
        "01, 13: key 61 is refused with 10 at 1",
    );
    let escaped = vec![0x61, 1, 1, 0x62, 0];
    tally.note(
        run(raw::write_key, &wire("a\\000b."), Ok(escaped)),
        "01, an octet 00 does not end a label in the key",
    );
}

fn comparisons(tally: &mut Tally) {
    let cases: [(&str, &str, i64, &str); 5] = [
        ("a.b.", "z.a.", 1, "labels compare from the right"),
        ("\\200.", "\\127.", 1, "octet 200 is no negative number"),
        ("b.a.", "a\\000b.", -1, "a\\000b. is not b.a."),
        ("foo", "FOO.Example.com.", 0, "letter case does not count"),
        ("foo", "", 3, "a name sorts after the apex that it is under"),
    ];
    for (first, second, number, what) in cases {
        let (a, b) = (wire(first), wire(second));
        tally.note(
            raw::compare(&a, &b) == packed(0, 0, (128 + number) as u64),
            &format!("01, comparing: {what}"),
        );
    }
}

fn labels(tally: &mut Tally) {
    let most = [&[1, 97].repeat(127)[..], &[0]].concat();
    let even = (0..127).map(|index| 2 * index).collect();
    for (octets, expected, what) in [
        (wire("foo"), Ok(vec![0, 4, 12]), "of foo.example.com."),
        (wire(""), Ok(vec![0, 8]), "of the apex"),
        (wire("."), Ok(vec![]), "of the root, which has none"),
        (
            wire("x\\007example.com."),
            Ok(vec![0, 10]),
            "of x\\007example.com., two labels and not three",
        ),
        (
            wire("fo{47}.o{63}.o{63}.o{63}"),
            Ok(vec![0, 49, 113, 177, 241, 249]),
            "of a name of 254 octets",
        ),
        (most, Ok(even), "of a name of 127 labels"),
    ] {
        tally.note(
            fills(&expected, |space| raw::label_places(&octets, space)),
            &format!("02, Eleven: the places {what}"),
        );
    }
}

fn hashes(tally: &mut Tally) {
    let run = |function: fn(&[u8], &mut [u8]) -> u64, input: &[u8], expected: Expected| {
        fills(&expected, |space| function(input, space))
    };
    // RFC 5155, appendix A: the hash of example.
    let hash = [
        0x06, 0x53, 0x68, 0xab, 0xee, 0xd7, 0xec, 0x6e, 0x9f, 0xeb, 0xa9, 0x6b, 0x8c, 0x8b, 0xc3,
        0xe8, 0xb7, 0x91, 0xf7, 0x16,
    ];
    let label = b"0p9mhaveqvm6t7vbl5lop2u3t2rp3tom";
    let (least, greatest) = ([0; 20], [0xff; 20]);
    let carried = [&[0; 18][..], &[1, 0]].concat();
    let full = [&[0; 19][..], &[0xff]].concat();
    let seventeen: Expected = Err((17, 0));
    for (function, input, expected, what) in [
        (
            raw::hash_after as fn(&[u8], &mut [u8]) -> u64,
            &greatest[..],
            Ok(least.to_vec()),
            "after 20 times ff comes 20 times 00",
        ),
        (
            raw::hash_before,
            &least,
            Ok(greatest.to_vec()),
            "before 20 times 00 comes 20 times ff",
        ),
        (
            raw::hash_after,
            &full,
            Ok(carried.clone()),
            "255 becomes 0 and carries",
        ),
        (raw::hash_before, &carried, Ok(full.clone()), "and back"),
        (
            raw::hash_after,
            &hash[..19],
            seventeen.clone(),
            "19 octets are refused with 17",
        ),
        (
            raw::write_hash_label,
            &hash,
            Ok(label.to_vec()),
            "the label of example., of RFC 5155",
        ),
        (
            raw::read_hash_label,
            label,
            Ok(hash.to_vec()),
            "that label read",
        ),
        (
            raw::read_hash_label,
            &label.to_ascii_uppercase(),
            Ok(hash.to_vec()),
            "that label read in upper case",
        ),
        (
            raw::read_hash_label,
            &label[..31],
            seventeen.clone(),
            "a label of 31 characters is refused with 17",
        ),
        (
            raw::read_hash_label,
            &[&label[..], b"="].concat(),
            seventeen.clone(),
            "a label with padding is refused with 17",
        ),
        (
            raw::read_hash_label,
            &[&label[..31], b"w"].concat(),
            seventeen,
            "a label with a w is refused with 17",
        ),
    ] {
        tally.note(
            run(function, input, expected),
            &format!("02, Twelve: {what}"),
        );
    }
    for (first, hash, second, lies, what) in [
        (least, hash, greatest, 1, "a hash between two"),
        (greatest, least, hash, 1, "and past the end of the ring"),
        (least, hash, hash, 0, "an end does not lie between"),
        (hash, least, hash, 1, "between equal ends lies every other"),
        (hash, hash, hash, 0, "but not that one"),
    ] {
        tally.note(
            raw::hash_between(&first, &hash, &second) == packed(0, 0, lies),
            &format!("02, Twelve: {what}"),
        );
    }
}

fn types(tally: &mut Tally) {
    let types = [1, 15, 46, 47, 1234];
    let bitmap = [
        b"\x00\x06\x40\x01\x00\x00\x00\x03\x04\x1b",
        &[0; 26][..],
        b"\x20",
    ]
    .concat();
    tally.note(
        fills(&Ok(bitmap.clone()), |space| raw::write_types(&types, space)),
        "02, Five: A, MX, RRSIG, NSEC and 1234 have a bitmap of 37 octets",
    );
    let mut list = [7; 6];
    let read = raw::read_types(&bitmap, &mut list);
    tally.note(
        read == packed(0, 0, 5) && list == [1, 15, 46, 47, 1234, 7],
        "02, Five: that bitmap has these five types",
    );
    tally.note(
        fills(&Ok(vec![]), |space| raw::write_types(&[], space)),
        "02, Five: no types have the empty bitmap",
    );
    tally.note(
        fills(&Err((15, 1)), |space| raw::write_types(&[15, 1], space)),
        "02, Five: a list that does not rise is refused with 15 at its index",
    );
    for (told, value, what) in [
        (raw::has_type(&bitmap, 46), 1, "RRSIG is there"),
        (raw::has_type(&bitmap, 48), 0, "DNSKEY is not"),
        (raw::count_types(&bitmap), 5, "there are five"),
        (raw::smallest_type(&bitmap), 1 + 1, "A is the smallest"),
        (raw::largest_type(&bitmap), 1 + 1234, "1234 is the largest"),
        (raw::largest_type(b""), 0, "the empty bitmap has none"),
    ] {
        tally.note(told == packed(0, 0, value), &format!("02, Five: {what}"));
    }
    for (octets, place, what) in [
        (&b"\x00\x01\x40\x00\x01\x40"[..], 3, "a window again"),
        (b"\x00\x00", 1, "an empty window"),
        (b"\x00\x21", 1, "33 octets"),
        (b"\x00\x02\x40\x00", 3, "a trailing zero octet"),
    ] {
        tally.note(
            raw::count_types(octets) == packed(15, 0, place),
            &format!("02, Five: {what} is refused with 15 at {place}"),
        );
    }
}

/// The zone of RFC 4592 section 2.2.1, and the closest enclosers that its section 3.3.1 tells; then
/// what document 02 says of the ends of a gap.
fn enclosers(tally: &mut Tally) {
    let [ssh1, ssh2] = ["_ssh._tcp.host1.example.", "_ssh._tcp.host2.example."];
    let [star, below, last] = ["*.example.", "sub.*.example.", "subdel.example."];
    let apex = "example.";
    for (query, owner, next, encloser, of_next) in [
        ("host3.example.", ssh2, last, apex, false),
        (
            "_telnet._tcp.host1.example.",
            ssh1,
            ssh2,
            "_tcp.host1.example.",
            false,
        ),
        (
            "_dns._udp.host2.example.",
            ssh2,
            last,
            "host2.example.",
            false,
        ),
        ("_telnet._tcp.host3.example.", ssh2, last, apex, false),
        ("_chat._udp.host3.example.", ssh2, last, apex, false),
        ("foobar.*.example.", star, below, star, false),
        // a name that exists only by those under it, and the last gap
        ("HOST2.Example.", ssh1, ssh2, "host2.example.", true),
        ("zone.example.", last, apex, apex, false),
    ] {
        let [asked, before, after] = [query, owner, next].map(wire);
        let length = wire(encloser).len();
        let value = length + if of_next { 256 } else { 0 };
        let piece = qorshudan::closest_encloser(&asked, &before, &after);
        tally.note(
            raw::closest_encloser(&asked, &before, &after) == packed(0, 0, value as u64)
                && piece == wire(encloser),
            &format!("02, Seven: the closest encloser of {query} after {owner} is {encloser}"),
        );
    }
    for (query, owner, next, what) in [
        (star, star, below, "the owner itself"),
        (below, star, below, "the next name itself"),
        (apex, last, apex, "the next name of the last gap"),
        ("net.", last, apex, "outside of the last gap's next name"),
        (ssh1, ssh2, last, "before the owner"),
        (last, star, ssh1, "past the next name"),
    ] {
        let [asked, before, after] = [query, owner, next].map(wire);
        tally.note(
            raw::closest_encloser(&asked, &before, &after) == 0,
            &format!("02, Seven: no closest encloser: {what}"),
        );
    }
    let mut long = [&[63][..], &[b'A'; 63]].concat().repeat(4);
    long.truncate(251);
    long[192] = 58;
    let most = [&long[..], &[1, b'b', 0]].concat();
    for (encloser, expected, what) in [
        (wire("Example."), Ok(wire("*.Example.")), "of Example."),
        (wire("."), Ok(wire("*.")), "of the root"),
        (most, Err((5, 0)), "of 254 octets is refused with 5"),
    ] {
        tally.note(
            fills(&expected, |space| raw::wildcard(&encloser, space)),
            &format!("02, Seven: the wildcard {what}"),
        );
    }
}

fn main() -> ExitCode {
    let mut tally = Tally { cases: 0, held: 0 };
    neighbours(&mut tally);
    keys(&mut tally);
    comparisons(&mut tally);
    labels(&mut tally);
    hashes(&mut tally);
    types(&mut tally);
    enclosers(&mut tally);
    println!("{} of {} cases held", tally.held, tally.cases);
    ExitCode::from(u8::from(tally.held != tally.cases))
}
