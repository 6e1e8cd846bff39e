//! Each function through its safe form: answers, every refusal, and what is left in the space.

use qorshudan::*;

const APEX: &[u8] = b"\x07example\x03com\x00";
const FOO: &[u8] = b"\x03foo\x07example\x03com\x00";

type Neighbour = fn(&[u8], u64, &[u8], &mut [u8]) -> Result<usize, Refusal>;
const NEIGHBOURS: [Neighbour; 4] = [
    predecessor,
    successor,
    modified_predecessor,
    modified_successor,
];

/// Calls with a space that held a pattern and checks that only the answer is in it afterwards.
fn answer(
    room: usize,
    call: impl FnOnce(&mut [u8]) -> Result<usize, Refusal>,
) -> Result<Vec<u8>, Refusal> {
    let pattern: Vec<u8> = (0..room).map(|i| (i * 31 + 5) as u8).collect();
    let mut space = pattern.clone();
    let result = call(&mut space);
    let written = result.unwrap_or(0);
    assert_eq!(space[written..], pattern[written..]);
    result.map(|length| space[..length].to_vec())
}

/// A name of the labels given, in wire format.
fn name(labels: &[&[u8]]) -> Vec<u8> {
    let mut octets = Vec::new();
    for label in labels {
        octets.push(label.len() as u8);
        octets.extend_from_slice(label);
    }
    octets.push(0);
    octets
}

#[test]
fn versions() {
    let number = 65536 * VERSION_MAJOR + 256 * VERSION_MINOR + VERSION_PATCH;
    assert_eq!(VERSION_NUMBER, number);
    assert_eq!(version(), number);
    let text = format!("{VERSION_MAJOR}.{VERSION_MINOR}.{VERSION_PATCH}");
    assert_eq!(VERSION, text);
    assert_eq!(VERSION, include_str!("../../../VERSION").trim_end());
}

#[test]
fn checks() {
    assert_eq!(check(&[0]), Ok(1));
    assert_eq!(check(FOO), Ok(17));
    let longest = name(&[&[0; 63], &[0; 63], &[0; 63], &[0; 61]]);
    assert_eq!(check(&longest), Ok(NAME_MAX));
    for (octets, fault) in [
        (&b""[..], Fault::CutShort(0)),
        (b"\x03fo", Fault::CutShort(3)),
        (b"\x00\x00", Fault::LeftOver(1)),
        (b"\x01a\x40", Fault::BadLength(2)),
        (
            &name(&[&[0; 63], &[0; 63], &[0; 63], &[0; 62]]),
            Fault::TooLong(192),
        ),
    ] {
        assert_eq!(check(octets), Err(Refusal::BadName(fault)));
    }
}

#[test]
fn folds() {
    assert_eq!(
        answer(9, |s| fold(b"\x03FoZ\x00", s)).unwrap(),
        b"\x03foz\x00"
    );
    assert_eq!(
        answer(5, |s| fold(b"\x03@[\xc1\x00", s)).unwrap(),
        b"\x03@[\xc1\x00"
    );
    assert_eq!(answer(4, |s| fold(b"\x03FoZ\x00", s)), Err(Refusal::NoRoom));
    assert_eq!(
        answer(0, |s| fold(b"", s)),
        Err(Refusal::BadName(Fault::CutShort(0)))
    );
}

#[test]
fn tells_label_places() {
    let mut odd = FOO.to_vec();
    odd[1..4].copy_from_slice(&[1, 3, 0]);
    for octets in [FOO, &odd] {
        for room in [3, 4, LABELS_MAX] {
            assert_eq!(
                answer(room, |s| label_places(octets, s)).unwrap(),
                [0, 4, 12]
            );
        }
        assert_eq!(answer(2, |s| label_places(octets, s)), Err(Refusal::NoRoom));
    }
    assert_eq!(answer(0, |s| label_places(&[0], s)).unwrap(), []);
    let deepest = name(&[&[7][..]; LABELS_MAX]);
    let places: Vec<u8> = (0..LABELS_MAX).map(|i| 2 * i as u8).collect();
    assert_eq!(
        answer(LABELS_MAX, |s| label_places(&deepest, s)).unwrap(),
        places
    );
    assert_eq!(
        answer(LABELS_MAX - 1, |s| label_places(&deepest, s)),
        Err(Refusal::NoRoom)
    );
    // No name is refused with 4 however small the space is, and leaves it as it was.
    for room in [0, LABELS_MAX] {
        assert_eq!(
            answer(room, |s| label_places(b"\x01a\x01b\x40", s)),
            Err(Refusal::BadName(Fault::BadLength(4)))
        );
    }
}

#[test]
fn hands_out_labels() {
    for parts in [
        &[][..],
        &[&b"a"[..]],
        &[&b"Foo"[..], b"\x01\x00", b"com"],
        &[&[0; 63][..], &[1; 63], &[255; 63], &[b'Z'; 61]],
        &[&[1][..]; LABELS_MAX],
    ] {
        let octets = name(parts);
        let all = labels(&octets).unwrap();
        assert_eq!(all.len(), parts.len());
        assert!(all.clone().eq(parts.iter().copied()));
        assert!(all.clone().rev().eq(parts.iter().rev().copied()));
        // from both ends at once, each label once
        let mut both = all;
        let mut seen = 0;
        while let Some(label) = both.next() {
            assert_eq!(label, parts[seen]);
            seen += 1;
            assert_eq!(both.len(), parts.len() - seen);
            if seen == parts.len() / 2 {
                break;
            }
        }
        let rest: Vec<_> = both.by_ref().rev().collect();
        let expected: Vec<_> = parts[seen..].iter().rev().copied().collect();
        assert_eq!(rest, expected);
        assert_eq!((both.next(), both.next_back()), (None, None));
    }
    assert_eq!(
        labels(b"\x00\x00").err(),
        Some(Refusal::BadName(Fault::LeftOver(1)))
    );
}

#[test]
fn compares() {
    assert_eq!(compare(APEX, FOO), Ok(-3));
    assert_eq!(compare(FOO, APEX), Ok(3));
    assert_eq!(compare(FOO, b"\x03fOO\x07EXAMPLE\x03Com\x00"), Ok(0));
    assert_eq!(compare(&[0], &[0]), Ok(0));
    // The largest number: the names share 126 labels, and one has a label more.
    let deepest = [&[7][..]; 127];
    let (deep, parent) = (name(&deepest), name(&deepest[1..]));
    assert_eq!(compare(&deep, &parent), Ok(127));
    assert_eq!(compare(&parent, &deep), Ok(-127));
    assert_eq!(compare(b"", b""), Err(Refusal::BadName(Fault::CutShort(0))));
    assert_eq!(
        compare(FOO, b"\x00a"),
        Err(Refusal::BadSecondName(Fault::LeftOver(1)))
    );
}

#[test]
fn writes_and_reads_keys() {
    let key = answer(20, |s| write_key(FOO, s)).unwrap();
    assert_eq!(key, b"com\x00example\x00foo\x00");
    assert_eq!(answer(17, |s| read_key(&key, s)).unwrap(), FOO);
    assert_eq!(answer(15, |s| write_key(FOO, s)), Err(Refusal::NoRoom));
    assert_eq!(answer(16, |s| read_key(&key, s)), Err(Refusal::NoRoom));
    assert_eq!(answer(0, |s| write_key(&[0], s)).unwrap(), b"");
    assert_eq!(answer(1, |s| read_key(b"", s)).unwrap(), [0]);
    let longest = name(&[&[0; 63], &[0; 63], &[0; 63], &[1; 61]]);
    assert_eq!(
        answer(KEY_MAX, |s| write_key(&longest, s)).unwrap().len(),
        KEY_MAX
    );
    assert_eq!(answer(0, |s| read_key(&[0], s)), Err(Refusal::NotAKey(0)));
    assert_eq!(answer(0, |s| read_key(b"a", s)), Err(Refusal::NotAKey(1)));
}

#[test]
fn finds_neighbours() {
    let under = |labels: &[&[u8]]| name(&[labels, &[b"example", b"com"]].concat());
    let last = under(&[&[255; 49], &[255; 63], &[255; 63], &[255; 63]]);
    let fon = [&b"fon"[..], &[255; 60]].concat();
    for (neighbour, limit, of, expected) in [
        (
            NEIGHBOURS[0],
            255,
            FOO,
            under(&[&[255; 49], &[255; 63], &[255; 63], &fon]),
        ),
        (NEIGHBOURS[0], 255, APEX, last.clone()),
        (NEIGHBOURS[1], 255, FOO, under(&[&[0], b"foo"])),
        (NEIGHBOURS[1], 255, &last[..], APEX.to_vec()),
        (
            NEIGHBOURS[1],
            15,
            b"\x01@\x07example\x03com\x00",
            under(&[b"["]),
        ),
        (NEIGHBOURS[2], 77, FOO, under(&[&fon])),
        (NEIGHBOURS[2], 77, APEX, under(&[&[255; 63]])),
        (NEIGHBOURS[3], 77, APEX, under(&[&[0]])),
        (
            NEIGHBOURS[3],
            255,
            b"\x03bar\x03foo\x07example\x03com\x00",
            under(&[b"foo\x00"]),
        ),
    ] {
        let found = answer(300, |s| neighbour(APEX, limit, of, s)).unwrap();
        assert_eq!(found, expected);
        // The apex may lie in the name, and letter case doesn't matter.
        let mut upper = of.to_vec();
        upper.make_ascii_uppercase();
        let apex = &upper[upper.len() - APEX.len()..];
        assert_eq!(
            answer(300, |s| neighbour(apex, limit, &upper, s)).unwrap(),
            expected
        );
    }
}

#[test]
fn refuses_neighbours() {
    for (index, neighbour) in NEIGHBOURS.into_iter().enumerate() {
        let refusal = |apex, limit, name, room| answer(room, |s| neighbour(apex, limit, name, s));
        for limit in [0, 256, u64::MAX] {
            assert_eq!(refusal(b"", limit, b"", 0), Err(Refusal::BadLimit));
        }
        assert_eq!(
            refusal(b"", 1, b"", 0),
            Err(Refusal::BadApex(Fault::CutShort(0)))
        );
        assert_eq!(refusal(APEX, 12, b"", 0), Err(Refusal::ApexTooLong));
        assert_eq!(refusal(APEX, 14, b"", 0), Err(Refusal::ApexTooLong));
        assert_eq!(
            refusal(APEX, 15, b"\xc0", 0),
            Err(Refusal::BadName(Fault::BadLength(0)))
        );
        assert_eq!(refusal(APEX, 16, FOO, 0), Err(Refusal::NameTooLong));
        assert_eq!(refusal(FOO, 19, APEX, 0), Err(Refusal::NotUnderApex));
        assert_eq!(refusal(APEX, 255, FOO, 12), Err(Refusal::NoRoom));
        let modified = index >= 2;
        assert_eq!(
            refusal(APEX, 76, FOO, 0) == Err(Refusal::NoFullLabel),
            modified
        );
        assert_eq!(
            refusal(APEX, 76, APEX, 0) == Err(Refusal::NoFullLabel),
            modified
        );
        assert_eq!(refusal(APEX, 77, APEX, 14), Err(Refusal::NoRoom));
    }
}

#[test]
fn threads_share_nothing() {
    let threads: Vec<_> = (0..4u8)
        .map(|letter| {
            std::thread::spawn(move || {
                let own = name(&[&[b'a' + letter; 9], b"example", b"com"]);
                let expected = name(&[&[0], &[b'a' + letter; 9], b"example", b"com"]);
                for _ in 0..2000 {
                    assert_eq!(
                        answer(255, |s| successor(APEX, 255, &own, s)).unwrap(),
                        expected
                    );
                }
            })
        })
        .collect();
    for thread in threads {
        thread.join().expect("a thread's answer differs");
    }
}

#[test]
fn texts() {
    let all = [0, 33, 34, 46, 48, 65, 92, 126, 127, 255];
    let wire = name(&[&all, b"com"]);
    let text = br#"\000!\"\.0a\\~\127\255.com."#;
    assert_eq!(
        answer(TEXT_MAX, |space| write_text(&wire, space)),
        Ok(text.to_vec())
    );
    assert_eq!(
        answer(NAME_MAX, |space| read_text(text, space)),
        Ok(wire.to_ascii_lowercase())
    );
    assert_eq!(
        answer(1, |space| write_text(b"\x00", space)),
        Ok(b".".to_vec())
    );
    assert_eq!(answer(1, |space| read_text(b".", space)), Ok(vec![0]));
    assert_eq!(
        answer(4, |space| read_text(b"FoO.", space)),
        Err(Refusal::NoRoom)
    );
    assert_eq!(
        answer(5, |space| read_text(b"FoO.", space)),
        Ok(b"\x03FoO\x00".to_vec())
    );
    assert_eq!(
        answer(3, |space| write_text(b"\x03FoO\x00", space)),
        Err(Refusal::NoRoom)
    );
    for (text, place) in [
        (&b""[..], 0),
        (b"a", 1),
        (b"a..", 2),
        (b".a", 1),
        (b"a b.", 1),
        (br"\256.", 3),
        (br"\9.", 1),
        (b"\xff.", 0),
    ] {
        assert_eq!(
            answer(0, |space| read_text(text, space)),
            Err(Refusal::NotAText(place))
        );
    }
    assert_eq!(
        answer(TEXT_MAX, |space| write_text(b"\x03fo", space)),
        Err(Refusal::BadName(Fault::CutShort(3)))
    );
    let longest = name(&[&[0; 63], &[0; 63], &[0; 63], &[0; 61]]);
    let text = answer(TEXT_MAX, |space| write_text(&longest, space)).unwrap();
    assert_eq!(text.len(), TEXT_MAX);
    assert_eq!(
        answer(NAME_MAX, |space| read_text(&text, space)),
        Ok(longest)
    );
}

/// The hashes of `example.` and `a.example.` in RFC 5155, appendix A, and their owner labels.
const HASHES: [([u8; 20], &[u8; 32]); 2] = [
    (
        [
            0x06, 0x53, 0x68, 0xab, 0xee, 0xd7, 0xec, 0x6e, 0x9f, 0xeb, 0xa9, 0x6b, 0x8c, 0x8b,
            0xc3, 0xe8, 0xb7, 0x91, 0xf7, 0x16,
        ],
        b"0p9mhaveqvm6t7vbl5lop2u3t2rp3tom",
    ),
    (
        [
            0x19, 0x6d, 0xd8, 0xc3, 0x30, 0x67, 0x83, 0xa8, 0x19, 0x0f, 0x52, 0xc2, 0x62, 0xd2,
            0xb7, 0xe5, 0xe8, 0x36, 0xe7, 0xf5,
        ],
        b"35mthgpgcu1qg68fab165klnsnk3dpvl",
    ),
];

#[test]
fn steps_between_hashes() {
    for (hash, _) in HASHES {
        let (before, after) = (hash_before(hash), hash_after(hash));
        assert_eq!(after[..19], hash[..19]);
        assert_eq!(after[19], hash[19] + 1);
        assert_eq!((hash_after(before), hash_before(after)), (hash, hash));
        assert!(hash_between(before, hash, after));
        assert!(!hash_between(before, before, after) && !hash_between(before, after, after));
        assert!(!hash_between(after, hash, before) && hash_between(hash, before, hash));
    }
    // A carry and a borrow through every octet, and round at both ends.
    for ones in 0..=20 {
        let (mut full, mut next) = ([7; 20], [7; 20]);
        full[20 - ones..].fill(0xff);
        next[20 - ones..].fill(0);
        if ones < 20 {
            next[19 - ones] = 8;
        }
        assert_eq!((hash_after(full), hash_before(next)), (next, full));
    }
}

#[test]
fn writes_and_reads_hash_labels() {
    for (hash, label) in HASHES {
        assert_eq!(&write_hash_label(hash), label);
        assert_eq!(read_hash_label(label), Ok(hash));
        assert_eq!(read_hash_label(&label.to_ascii_uppercase()), Ok(hash));
        assert_eq!(
            read_hash_label(&[&label[..], b"="].concat()),
            Err(Refusal::NotAHash)
        );
        for length in 0..32 {
            assert_eq!(read_hash_label(&label[..length]), Err(Refusal::NotAHash));
        }
        for wrong in [b'w', b'W', b'z', b'=', b'/', b':', b'@', b'`', 0, 0xff] {
            let mut changed = *label;
            changed[31] = wrong;
            assert_eq!(read_hash_label(&changed), Err(Refusal::NotAHash));
        }
    }
    assert!(HASHES[0].0 < HASHES[1].0 && HASHES[0].1 < HASHES[1].1);
}

/// What the functions on slices refuse, and what they leave in the space.
#[test]
fn refuses_hashes_of_other_lengths() {
    let hash = HASHES[0].0;
    type Filling = fn(&[u8], &mut [u8]) -> u64;
    let fillings: [(Filling, usize); 3] = [
        (raw::hash_after, 20),
        (raw::hash_before, 20),
        (raw::write_hash_label, 32),
    ];
    for (fill, length) in fillings {
        for (octets, room, expected) in [
            (&hash[..19], length, 17),
            (&[0; 21], length, 17),
            (b"", 0, 17),
            (&hash, length - 1, 9),
            (&hash, length, (length as u64) << 16),
        ] {
            let mut space = [0xa5; 40];
            assert_eq!(fill(octets, &mut space[..room]), expected);
            let written = if expected > 255 { length } else { 0 };
            assert!(space[written..].iter().all(|&octet| octet == 0xa5));
        }
    }
    assert_eq!(raw::hash_between(&hash[..19], &hash, &hash), 17);
    assert_eq!(raw::hash_between(&hash, &[0; 21], &hash), 17);
    assert_eq!(raw::hash_between(&hash, &hash, b""), 17);
    assert_eq!(raw::hash_between(&hash, &[0; 20], &hash), 1 << 16);
}

#[test]
fn keeps_to_an_alphabet() {
    type NeighbourIn = fn(Alphabet, &[u8], u64, &[u8], &mut [u8]) -> Result<usize, Refusal>;
    const IN: [NeighbourIn; 4] = [
        predecessor_in,
        successor_in,
        |alphabet, apex, limit, name, space| {
            modified_predecessor_in(alphabet, 1, apex, limit, name, space)
        },
        |alphabet, apex, limit, name, space| {
            modified_successor_in(alphabet, 1, apex, limit, name, space)
        },
    ];
    let under = |labels: &[&[u8]]| name(&[labels, &[b"example", b"com"]].concat());
    let last = under(&[&[b'z'; 49], &[b'z'; 63], &[b'z'; 63], &[b'z'; 63]]);
    for (index, limit, of, expected) in [
        (0, 255, APEX.to_vec(), last.clone()),
        (0, 17, FOO.to_vec(), under(&[b"fon"])),
        (0, 15, under(&[b"0"]), under(&[b"-"])),
        (0, 15, under(&[b"A"]), under(&[b"9"])),
        (0, 15, under(&[b"-"]), APEX.to_vec()),
        (1, 255, FOO.to_vec(), under(&[b"-", b"foo"])),
        (1, 255, last.clone(), APEX.to_vec()),
        (1, 15, under(&[b"-"]), under(&[b"0"])),
        (1, 15, under(&[b"9"]), under(&[b"a"])),
        (1, 15, under(&[b"Z"]), APEX.to_vec()),
        (2, 77, under(&[b"a", b"b"]), under(&[b"b"])),
        (2, 77, APEX.to_vec(), under(&[&[b'z'; 63]])),
        (3, 77, APEX.to_vec(), under(&[b"-"])),
        (3, 77, under(&[&[b'z'; 63]]), APEX.to_vec()),
    ] {
        let found = answer(300, |s| IN[index](Alphabet::Ldh, APEX, limit, &of, s));
        assert_eq!(found.unwrap(), expected);
    }
    // The full alphabet gives what the plain functions give; the other refuses other octets above
    // the apex, after 7 and before 9, and takes any in it.
    let odd = name(&[b"_", b"com"]);
    for (plain, neighbour) in NEIGHBOURS.into_iter().zip(IN) {
        for of in [APEX, FOO, b"\x02\x00_\x07example\x03com\x00"] {
            assert_eq!(
                answer(300, |s| neighbour(Alphabet::Full, APEX, 255, of, s)),
                answer(300, |s| plain(APEX, 255, of, s))
            );
        }
        for octet in [
            0, 0x1f, b',', b'.', b'/', b':', b'@', b'[', b'`', b'{', b'_', 255,
        ] {
            for of in [under(&[&[octet], b"a"]), under(&[b"a", &[b'a', octet]])] {
                assert_eq!(
                    answer(0, |s| neighbour(Alphabet::Ldh, APEX, 255, &of, s)),
                    Err(Refusal::NotInAlphabet)
                );
            }
        }
        let of = [b"\x01A", &odd[..]].concat();
        assert!(answer(300, |s| neighbour(Alphabet::Ldh, &odd, 255, &of, s)).is_ok());
        assert_eq!(
            answer(0, |s| neighbour(Alphabet::Ldh, &odd, 255, &of, s)),
            Err(Refusal::NoRoom)
        );
    }
    for modified in &IN[2..] {
        assert_eq!(
            answer(0, |s| modified(Alphabet::Ldh, APEX, 76, &under(&[b"_"]), s)),
            Err(Refusal::NoFullLabel)
        );
    }
    assert_eq!((Alphabet::Full.number(), Alphabet::Ldh.number()), (0, 1));
    assert_eq!(Alphabet::default(), Alphabet::Full);
}

#[test]
fn goes_deeper() {
    let under = |labels: &[&[u8]]| name(&[labels, &[b"example", b"com"]].concat());
    let deep = under(&[b"d", b"c", b"b", b"a"]);
    let high = [255; 63];
    let before = [b"b`", &high[..61]].concat();
    for (depth, of, previous, next) in [
        (1, &deep, under(&[b"a"]), under(&[b"a\x00"])),
        (2, &deep, under(&[b"b", b"a"]), under(&[b"b\x00", b"a"])),
        (
            3,
            &deep,
            under(&[b"c", b"b", b"a"]),
            under(&[b"c\x00", b"b", b"a"]),
        ),
        (
            2,
            &under(&[b"ba", b"a"]),
            under(&[&before, b"a"]),
            under(&[b"ba\x00", b"a"]),
        ),
        (
            3,
            &under(&[b"ba"]),
            under(&[&high, &high, &before]),
            under(&[&[0], b"ba"]),
        ),
        (2, &APEX.to_vec(), under(&[&high, &high]), under(&[&[0]])),
        (
            2,
            &under(&[&high, &high]),
            under(&[&[&high[..62], &[254]].concat(), &high]),
            APEX.to_vec(),
        ),
    ] {
        let alphabet = Alphabet::Full;
        assert_eq!(
            answer(300, |s| modified_predecessor_in(
                alphabet, depth, APEX, 255, of, s
            ))
            .unwrap(),
            previous
        );
        assert_eq!(
            answer(300, |s| modified_successor_in(
                alphabet, depth, APEX, 255, of, s
            ))
            .unwrap(),
            next
        );
    }
    for alphabet in [Alphabet::Full, Alphabet::Ldh] {
        for (depth, limit, refused) in [
            (0, 255, true),
            (1, 76, true),
            (1, 77, false),
            (2, 140, true),
            (2, 141, false),
            (3, 204, true),
            (3, 205, false),
            (4, 255, true),
            (1 << 63, 255, true),
            ((1 << 32) + 1, 255, true),
            (u64::MAX, 255, true),
        ] {
            for modified in [modified_predecessor_in, modified_successor_in] {
                let found = answer(300, |s| modified(alphabet, depth, APEX, limit, APEX, s));
                assert_eq!(found == Err(Refusal::NoFullLabel), refused);
                assert_eq!(found.is_ok(), !refused);
            }
        }
    }
}

#[test]
fn denies_in_one_call() {
    // As the second program has it: the names of x. of at most 5 octets have one octet above it.
    let [apex, name, wildcard] = [&b"\x01x\0"[..], b"\x01[\x01X\0", b"\x01*\x01x\0"];
    let mut space = [7; 21];
    let made = denial(apex, 5, apex, name, &mut space).unwrap();
    assert_eq!(made.first.owner, b"\x01@\x01x\0");
    assert_eq!(made.first.next, b"\x01\\\x01x\0");
    let second = made.second.unwrap();
    assert_eq!(second.owner, b"\x01)\x01x\0");
    assert_eq!(second.next, b"\x01+\x01x\0");
    assert_eq!(made.gaps().collect::<Vec<_>>(), [made.first, second]);
    assert!(covers(made.first.owner, made.first.next, name));
    assert!(covers(second.owner, second.next, wildcard));
    assert_eq!(space[20], 7);
    // The wildcard itself, and what is next to it, have one gap.
    let one = denial(apex, 5, apex, wildcard, &mut space).unwrap();
    assert_eq!((one.first, one.second), (between(b")", b"+"), None));
    let one = denial(apex, 5, apex, b"\x01+\x01x\0", &mut space).unwrap();
    assert_eq!((one.first, one.second), (between(b")", b","), None));
    let mut space = [7; 19];
    assert_eq!(denial(apex, 5, apex, name, &mut space), Err(Refusal::NoRoom));
    for encloser in [name, b"\0", b"", b"\x01y\0"] {
        let refused = denial(apex, 5, encloser, name, &mut space);
        assert_eq!(refused, Err(Refusal::NotAnEncloser));
    }
    assert_eq!(denial(apex, 5, b"", b"\0", &mut space), Err(Refusal::NotUnderApex));
    assert_eq!(space, [7; 19]);
}

/// The gap between two names of one octet above x.
fn between(owner: &[u8; 1], next: &[u8; 1]) -> Gap<'static> {
    let name = |octet: u8| -> &'static [u8] { vec![1, octet, 1, b'x', 0].leak() };
    Gap { owner: name(owner[0]), next: name(next[0]) }
}

#[test]
fn denies_subtrees() {
    let under = |labels: &[&[u8]]| name(&[labels, &[b"example", b"com"]].concat());
    let (apex, foo, end) = (under(&[]), under(&[b"Foo"]), under(&[b"foo\0"]));
    for alphabet in [Alphabet::Full, Alphabet::Ldh] {
        let found = answer(255, |s| subtree_successor(alphabet, &apex, 255, &apex, s));
        assert_eq!(found, Ok(apex.clone()));
    }
    let next = answer(255, |s| subtree_successor(Alphabet::Full, &apex, 255, &foo, s));
    assert_eq!(next, Ok(end.clone()));
    let next = answer(255, |s| subtree_successor(Alphabet::Ldh, &apex, 255, &foo, s));
    assert_eq!(next, Ok(under(&[b"foo-"])));
    let next = answer(255, |s| subtree_successor(Alphabet::Ldh, &apex, 255, &end, s));
    assert_eq!(next, Err(Refusal::NotInAlphabet));
    let next = answer(18, |s| subtree_successor(Alphabet::Full, &apex, 18, &end, s));
    assert_eq!(next, Ok(under(&[b"foo\x01"])));
    let last = under(&[b"\xff\xff\xff"]);
    let next = answer(18, |s| subtree_successor(Alphabet::Full, &apex, 17, &last, s));
    assert_eq!(next, Ok(apex.clone()));

    let owner = answer(255, |s| predecessor(&apex, 255, &foo, s)).unwrap();
    for (name, covered) in [
        (&foo, true),
        (&under(&[b"a", b"FOO"]), true),
        (&under(&[b"fon"]), false),
        (&owner, false),
        (&end, false),
        (&apex, false),
    ] {
        assert_eq!(covers(&owner, &end, name), covered);
        assert_eq!(raw::covers(&owner, &end, name), u64::from(covered) << 16);
    }
    assert!(covers(&foo, &apex, &end) && covers(&foo, &apex, b"\x03net\x00"));
    assert!(!covers(&foo, &apex, &foo) && !covers(b"", b"", b""));

    let query = under(&[b"x", b"Bar", b"foo"]);
    assert_eq!(next_closer(&foo, &query), under(&[b"Bar", b"foo"]));
    assert_eq!(next_closer(&apex, &foo), foo);
    assert_eq!(raw::next_closer(&apex, &query), 17 << 16);
    assert!(next_closer(&foo, &foo).is_empty() && next_closer(&end, &query).is_empty());
    assert!(next_closer(b"", &query).is_empty() && next_closer(&foo, b"").is_empty());
}

#[test]
fn finds_closest_enclosers() {
    let under = |labels: &[&[u8]]| name(&[labels, &[b"Example", b"com"]].concat());
    let (a, b, c) = (under(&[b"a"]), under(&[b"b"]), under(&[b"c"]));
    let (apex, query) = (under(&[]), under(&[b"X", b"B"]));
    let found = closest_encloser(&query, &b, &c);
    assert_eq!(found, b);
    assert_eq!(found.as_ptr(), b.as_ptr());
    // From the owner if both are as long, from the next name if that shares more.
    let found = closest_encloser(&b, &a, &c);
    assert_eq!(found, APEX_SPELT);
    assert_eq!(found.as_ptr(), a[2..].as_ptr());
    let next = name(&[b"y", b"b", b"eXAMPLE", b"COM"]);
    let found = closest_encloser(&query, &a, &next);
    assert_eq!(found, &next[2..]);
    assert_eq!(found.as_ptr(), next[2..].as_ptr());
    // An empty non-terminal is its own closest encloser, as the next name spells it.
    assert_eq!(closest_encloser(&b, &a, &next), &next[2..]);
    // The last gap, and a zone of one name.
    assert_eq!(closest_encloser(&c, &b, &apex), APEX_SPELT);
    assert_eq!(closest_encloser(&c, &apex, &apex), APEX_SPELT);
    assert_eq!(closest_encloser(b"\x03net\x00", &b, &[0]), [0]);
    // Outside of the gap: at its ends, before, past it, and of a last gap that the apex does not end.
    for (query, owner, next) in [
        (&a, &a, &c),
        (&c, &a, &c),
        (&a, &b, &c),
        (&c, &a, &b),
        (&c, &b, &a),
        (&b, &c, &apex),
        (&name(&[b"net"]), &b, &apex),
    ] {
        let found = closest_encloser(query, owner, next);
        assert!(found.is_empty());
        assert_eq!(found.as_ptr(), owner[owner.len()..].as_ptr());
    }
    for broken in [&b""[..], &b[1..], &b[..b.len() - 1], &[0; 256]] {
        assert!(closest_encloser(broken, &a, &c).is_empty());
        assert!(closest_encloser(&b, broken, &c).is_empty());
        assert!(closest_encloser(&b, &a, broken).is_empty());
    }
    assert_eq!(raw::closest_encloser(&query, &a, &next), (256 + 15) << 16);
    assert_eq!(raw::closest_encloser(&b, &a, &c), 13 << 16);
    assert_eq!(raw::closest_encloser(b"", b"", b""), 0);
}

const APEX_SPELT: &[u8] = b"\x07Example\x03com\x00";

#[test]
fn writes_wildcards() {
    assert_eq!(
        answer(40, |s| wildcard(APEX_SPELT, s)).unwrap(),
        b"\x01*\x07Example\x03com\x00"
    );
    assert_eq!(answer(3, |s| wildcard(&[0], s)).unwrap(), b"\x01*\x00");
    assert_eq!(answer(2, |s| wildcard(&[0], s)), Err(Refusal::NoRoom));
    let most = name(&[&[b'A'; 63], &[0; 63], &[0; 63], &[0; 59]]);
    let longest = answer(NAME_MAX, |s| wildcard(&most, s)).unwrap();
    assert_eq!((longest.len(), &longest[2..]), (NAME_MAX, &most[..]));
    assert_eq!(answer(254, |s| wildcard(&most, s)), Err(Refusal::NoRoom));
    for last in [60, 61] {
        let long = name(&[&[0; 63], &[0; 63], &[0; 63], &vec![0; last]]);
        for room in [0, 255, 300] {
            assert_eq!(
                answer(room, |s| wildcard(&long, s)),
                Err(Refusal::NameTooLong)
            );
        }
    }
    assert_eq!(
        answer(0, |s| wildcard(&[0; 300], s)),
        Err(Refusal::BadName(Fault::LeftOver(1)))
    );
}

#[test]
fn reads_and_writes_types() {
    let types = [1, 15, 46, 47, 1234];
    let bitmap = [
        b"\x00\x06\x40\x01\x00\x00\x00\x03\x04\x1b",
        &[0; 26][..],
        b"\x20",
    ]
    .concat();
    assert_eq!(answer(37, |s| write_types(&types, s)).unwrap(), bitmap);
    assert_eq!(answer(36, |s| write_types(&types, s)), Err(Refusal::NoRoom));
    let mut list = [7; 8];
    assert_eq!(read_types(&bitmap, &mut list), Ok(5));
    assert_eq!(list, [1, 15, 46, 47, 1234, 7, 7, 7]);
    let mut list = [7; 4];
    assert_eq!(read_types(&bitmap, &mut list), Err(Refusal::NoRoom));
    assert_eq!(list, [7; 4]);
    assert_eq!(
        (read_types(b"", &mut []), write_types(&[], &mut [])),
        (Ok(0), Ok(0))
    );
    for (list, index) in [(&[5, 5][..], 1), (&[1, 2, 9, 3], 3), (&[9, 8, 10, 7], 1)] {
        assert_eq!(
            answer(0, |s| write_types(list, s)),
            Err(Refusal::NotASet(index))
        );
    }
    // All types, and the longest bitmap.
    let all: Vec<u16> = (0..=65535).collect();
    let longest = answer(BITMAP_MAX, |s| write_types(&all, s)).unwrap();
    assert_eq!(longest.len(), BITMAP_MAX);
    let mut list = vec![0; TYPES_MAX];
    assert_eq!(read_types(&longest, &mut list), Ok(TYPES_MAX));
    assert_eq!(list, all);
}

#[test]
fn asks_for_types() {
    for types in [&[][..], &[0], &[65535], &[1, 15, 46, 47, 1234], &[255, 256]] {
        let bitmap = answer(100, |s| write_types(types, s)).unwrap();
        assert_eq!(count_types(&bitmap), Ok(types.len()));
        assert_eq!(smallest_type(&bitmap), Ok(types.first().copied()));
        assert_eq!(largest_type(&bitmap), Ok(types.last().copied()));
        for of in 0..=65535 {
            assert_eq!(has_type(&bitmap, of), Ok(types.contains(&of)));
        }
    }
    // A window number again, none or 33 octets, a trailing zero, and what breaks off.
    for (octets, place) in [
        (&b"\x00\x01\x40\x00\x01\x40"[..], 3),
        (b"\x01\x01\x40\x00\x01\x40", 3),
        (b"\x00\x00", 1),
        (b"\x00\x21", 1),
        (b"\x00\x02\x40\x00", 3),
        (b"\x00\x02\x40", 3),
        (b"\x00", 1),
    ] {
        let refused = Refusal::NotASet(place);
        assert_eq!(read_types(octets, &mut []), Err(refused));
        assert_eq!(has_type(octets, 1), Err(refused));
        assert_eq!(count_types(octets), Err(refused));
        assert_eq!(smallest_type(octets), Err(refused));
        assert_eq!(largest_type(octets), Err(refused));
        assert_eq!(refused.place(), Some(place));
    }
}
