//! Hashes on their ring and their labels, against slower ways to decide the same: octet by octet
//! with a carry, long division by 32, and walks around the ring.

use super::Random;
use crate::*;

/// The labels of the zone in appendix A of RFC 5155, in rising order, and their hashes.
const ZONE: [(&str, &str); 12] = [
    (
        "065368abeed7ec6e9feba96b8c8bc3e8b791f716",
        "0p9mhaveqvm6t7vbl5lop2u3t2rp3tom",
    ),
    (
        "174eb2409fe28bcb4887a1836f957f0a8425e27b",
        "2t7b4g4vsa5smi47k61mv5bv1a22bojr",
    ),
    (
        "17f3df17b2b2adaef615257de4d2020b80ac6c7c",
        "2vptu5timamqttgl4luu9kg21e0aor3s",
    ),
    (
        "196dd8c3306783a8190f52c262d2b7e5e836e7f5",
        "35mthgpgcu1qg68fab165klnsnk3dpvl",
    ),
    (
        "593d6419d08c5bc35dca0a4dcb7ed5c131be2525",
        "b4um86eghhds6nea196smvmlo4ors995",
    ),
    (
        "84dda71446cd56f0c116a57254baef69d09bce12",
        "gjeqe526plbf1g8mklp59enfd789njgi",
    ),
    (
        "9c8d77614ecfd0b2e0d423be31a9715223d4be0c",
        "ji6neoaepv8b5o6k4ev33abha8ht9fgc",
    ),
    (
        "a23cd75bf90cc4f3ba069b979e04ffc8ee891511",
        "k8udemvp1j2f7eg6jebps17vp3n8i58h",
    ),
    (
        "a622ad9ecb5a1ac131c85275faa238b92851fa32",
        "kohar7mbb8dc2ce8a9qvl8hon4k53uhi",
    ),
    (
        "d0093a31dfd7ede41760091876d16a1a3009c8bb",
        "q04jkcevqvmu85r014c7dkba38o0ji5r",
    ),
    (
        "d946bd1d8c17bf6f2dfe2e196b1b2edf13da25d7",
        "r53bq7cc2uvmubfu5ocmm6pers9tk9en",
    ),
    (
        "e988472f544ae4b65d4839212fecd3c4cc2b563f",
        "t644ebqk9bibcna874givr6joj62mlhv",
    ),
];

fn hex(digits: &str) -> Vec<u8> {
    let pair = |place: usize| u8::from_str_radix(&digits[place..place + 2], 16).unwrap();
    (0..digits.len()).step_by(2).map(pair).collect()
}

fn random_hash(random: &mut Random) -> Vec<u8> {
    let few: &[u8] = random.pick(&[&[0, 255], &[0, 1, 127, 128, 254, 255], &[255]]);
    let any = random.below(2) == 0;
    (0..20)
        .map(|_| match any {
            true => random.below(256) as u8,
            false => random.pick(few),
        })
        .collect()
}

/// The hash after, octet by octet: one is added to the last, 255 turns into 0 and carries.
fn slow_after(hash: &[u8]) -> Vec<u8> {
    let mut hash = hash.to_vec();
    for octet in hash.iter_mut().rev() {
        if *octet < 255 {
            *octet += 1;
            break;
        }
        *octet = 0;
    }
    hash
}

/// Checks both neighbours of the hash, and that each undoes the other.
fn steps(hash: &[u8]) {
    let after = hash_after(hash, 20).unwrap();
    assert_eq!(after, slow_after(hash), "{hash:?}");
    assert_eq!(hash_before(&after, 20).as_deref(), Ok(hash));
    let before = hash_before(hash, 20).unwrap();
    assert_eq!(slow_after(&before), hash);
    assert_eq!(hash_after(&before, 20).as_deref(), Ok(hash));
}

#[test]
fn after_and_before() {
    assert_eq!(hash_after(&[255; 20], 20), Ok(vec![0; 20]));
    assert_eq!(hash_before(&[0; 20], 20), Ok(vec![255; 20]));
    // All of the last two octets, with nothing, all and something before them.
    for first in [0, 255, 127] {
        for last in 0..=65_535u16 {
            steps(&[&[first; 18][..], &last.to_be_bytes()].concat());
        }
    }
    // A carry and a borrow that end at each place, at each octet.
    for place in 0..20 {
        for octet in 0..=255 {
            for tail in [0, 255] {
                let mut hash = vec![85; 20];
                hash[place] = octet;
                hash[place + 1..].fill(tail);
                steps(&hash);
            }
        }
    }
    let mut random = Random(5155);
    for _ in 0..5_000 {
        steps(&random_hash(&mut random));
    }
}

/// The label of a hash, by long division of the number by 32, from the last character on.
fn slow_label(hash: &[u8]) -> Vec<u8> {
    let mut number = hash.to_vec();
    let mut label = vec![0; 32];
    for character in label.iter_mut().rev() {
        let mut remainder = 0;
        for octet in number.iter_mut() {
            let value = 256 * remainder + u16::from(*octet);
            *octet = (value / 32) as u8;
            remainder = value % 32;
        }
        *character = match remainder as u8 {
            digit @ 0..=9 => b'0' + digit,
            letter => b'a' + letter - 10,
        };
    }
    assert_eq!(number, [0; 20]);
    label
}

/// Checks the label of the hash, and that it is read again in any letter case.
fn labels(hash: &[u8], random: &mut Random) {
    let label = write_hash_label(hash, 32).unwrap();
    assert_eq!(label, slow_label(hash));
    let mixed: Vec<u8> = label
        .iter()
        .map(|c| match random.below(2) {
            0 => *c,
            _ => c.to_ascii_uppercase(),
        })
        .collect();
    for label in [&label, &label.to_ascii_uppercase(), &mixed] {
        assert_eq!(read_hash_label(label, 20).as_deref(), Ok(hash));
    }
}

#[test]
fn labels_written_and_read() {
    let mut random = Random(4648);
    assert_eq!(write_hash_label(&[0; 20], 32), Ok(vec![b'0'; 32]));
    assert_eq!(write_hash_label(&[255; 20], 32), Ok(vec![b'v'; 32]));
    // RFC 4648 section 10: five octets make eight characters.
    assert_eq!(
        write_hash_label(&b"fooba".repeat(4), 32),
        Ok(b"cpnmuoj1".repeat(4))
    );
    for (digits, label) in ZONE {
        assert_eq!(write_hash_label(&hex(digits), 32), Ok(label.into()));
        assert_eq!(read_hash_label(label.as_bytes(), 20), Ok(hex(digits)));
        labels(&hex(digits), &mut random);
    }
    // Every octet at every place.
    for place in 0..20 {
        for octet in 0..=255 {
            for other in [0, 255] {
                let mut hash = [other; 20];
                hash[place] = octet;
                labels(&hash, &mut random);
            }
        }
    }
    for _ in 0..3_000 {
        let (first, second) = (random_hash(&mut random), random_hash(&mut random));
        labels(&first, &mut random);
        // Labels are in the order of their hashes.
        let label = |hash: &[u8]| write_hash_label(hash, 32).unwrap();
        assert_eq!(label(&first).cmp(&label(&second)), first.cmp(&second));
    }
}

/// Every character at every place, and every length.
#[test]
fn labels_refused() {
    let allowed = b"0123456789abcdefghijklmnopqrstuvABCDEFGHIJKLMNOPQRSTUV";
    for place in 0..32 {
        for character in 0..=255u8 {
            let mut label = [b'7'; 32];
            label[place] = character;
            let answer = read_hash_label(&label, 20);
            match allowed.contains(&character) {
                true => {
                    let written = write_hash_label(&answer.unwrap(), 32);
                    assert_eq!(written, Ok(label.to_ascii_lowercase()));
                }
                false => assert_eq!(answer, Err(Refusal::NoHash), "{character} at {place}"),
            }
        }
    }
    for length in (0..200).chain([512, 100_000]) {
        for character in [b'0', b'v', b'='] {
            let answer = read_hash_label(&vec![character; length], 99);
            let whole = length == 32 && character != b'=';
            assert_eq!(answer.is_ok(), whole);
            assert!(whole || answer == Err(Refusal::NoHash));
        }
    }
    // No padding, and no length octet.
    for (_, label) in ZONE {
        let padded = [label.as_bytes(), b"======"].concat();
        assert_eq!(read_hash_label(&padded, 99), Err(Refusal::NoHash));
        let with_length = [&[32], label.as_bytes()].concat();
        assert_eq!(read_hash_label(&with_length, 99), Err(Refusal::NoHash));
    }
}

/// 17 for other lengths than 20, whatever the space; then 9.
#[test]
fn refusals() {
    let hash = [7; 20];
    for length in (0..200)
        .chain([512, 100_000])
        .filter(|&length| length != 20)
    {
        let other = vec![7; length];
        for room in [0, 99] {
            assert_eq!(hash_after(&other, room), Err(Refusal::NoHash));
            assert_eq!(hash_before(&other, room), Err(Refusal::NoHash));
            assert_eq!(write_hash_label(&other, room), Err(Refusal::NoHash));
        }
        assert_eq!(hash_between(&other, &hash, &hash), Err(Refusal::NoHash));
        assert_eq!(hash_between(&hash, &other, &hash), Err(Refusal::NoHash));
        assert_eq!(hash_between(&hash, &hash, &other), Err(Refusal::NoHash));
    }
    let label = write_hash_label(&hash, 32).unwrap();
    for room in 0..40 {
        let refused = |needed: usize| (room < needed).then_some(Refusal::NoRoom);
        assert_eq!(hash_after(&hash, room).err(), refused(20));
        assert_eq!(hash_before(&hash, room).err(), refused(20));
        assert_eq!(write_hash_label(&hash, room).err(), refused(32));
        assert_eq!(read_hash_label(&label, room).err(), refused(20));
        assert_eq!(read_hash_label(&label[1..], room), Err(Refusal::NoHash));
    }
}

/// For all triples of hashes that are given in their order around the ring: a walk goes up from the
/// first, one at a time, and ends at the second.
fn walks(ring: &[Vec<u8>]) {
    for first in 0..ring.len() {
        for second in 0..ring.len() {
            // Where the two are equal, the walk goes all the way round.
            let mut met = vec![false; ring.len()];
            let mut at = (first + 1) % ring.len();
            while at != second {
                met[at] = true;
                at = (at + 1) % ring.len();
            }
            for (index, hash) in ring.iter().enumerate() {
                assert_eq!(
                    hash_between(&ring[first], hash, &ring[second]),
                    Ok(met[index]),
                    "{hash:?} from {:?} to {:?}",
                    ring[first],
                    ring[second]
                );
            }
        }
    }
}

#[test]
fn between() {
    // Neighbours, over the ends of the ring and elsewhere.
    for start in [
        [&[255; 19][..], &[246]].concat(),
        [&[127][..], &[255; 18], &[250]].concat(),
        [&[9; 3][..], &[255; 17]].concat(),
        [&[9; 4][..], &[255; 16]].concat(),
    ] {
        let mut ring = vec![start];
        for _ in 0..20 {
            ring.push(slow_after(&ring[ring.len() - 1]));
        }
        walks(&ring);
    }
    // Hashes that are far apart: the ring's ends, octets of 128 and more, the papers' zone.
    let mut ring: Vec<Vec<u8>> = ZONE.iter().map(|(digits, _)| hex(digits)).collect();
    ring.extend([0, 1, 127, 128, 254, 255].map(|octet| vec![octet; 20]));
    for place in [0, 3, 4, 19] {
        let mut hash = vec![0; 20];
        hash[place] = 128;
        ring.push(hash);
    }
    ring.sort();
    for turn in [0, 1, 7] {
        ring.rotate_left(turn);
        walks(&ring);
    }
    let mut random = Random(20);
    for _ in 0..20 {
        let mut ring: Vec<_> = (0..12).map(|_| random_hash(&mut random)).collect();
        ring.sort();
        ring.dedup();
        walks(&ring);
    }
    walks(&[vec![3; 20]]);
}

/// The gap around a hash that is missing, of its two neighbours, has that hash alone in it.
#[test]
fn smallest_gaps() {
    let mut random = Random(160);
    for _ in 0..2_000 {
        let hash = random_hash(&mut random);
        let other = random_hash(&mut random);
        let before = hash_before(&hash, 20).unwrap();
        let after = hash_after(&hash, 20).unwrap();
        assert_eq!(hash_between(&before, &other, &after), Ok(other == hash));
        assert_eq!(hash_between(&before, &hash, &after), Ok(true));
        // From a hash round to the same: every other. To the next one: none.
        assert_eq!(hash_between(&hash, &other, &hash), Ok(other != hash));
        assert_eq!(hash_between(&hash, &other, &after), Ok(false));
        // From the next one round to it: all but the two.
        let outside = other == hash || other == after;
        assert_eq!(hash_between(&after, &other, &hash), Ok(!outside));
    }
}
