//! Each refusal in its exact case, their order, and every fault with its place.

use super::{under, wire};
use crate::*;

type Neighbour = fn(&[u8], u64, &[u8], usize) -> Result<Vec<u8>, Refusal>;

const ABSOLUTE: [Neighbour; 2] = [predecessor, successor];
const MODIFIED: [Neighbour; 2] = [modified_predecessor, modified_successor];

fn all() -> impl Iterator<Item = Neighbour> {
    ABSOLUTE.into_iter().chain(MODIFIED)
}

#[test]
fn numbers_reasons_places() {
    let table = [
        (Refusal::Limit, (1, 0, 0)),
        (Refusal::Apex(Fault::CutShort(7)), (2, 1, 7)),
        (Refusal::ApexAboveLimit, (3, 0, 0)),
        (Refusal::Name(Fault::LeftOver(8)), (4, 2, 8)),
        (Refusal::NameAboveLimit, (5, 0, 0)),
        (Refusal::NotUnderApex, (6, 0, 0)),
        (Refusal::NoLabelToSpare, (7, 0, 0)),
        (Refusal::NoRoom, (9, 0, 0)),
        (Refusal::NoKey(500), (10, 0, 500)),
        (Refusal::SecondName(Fault::BadLength(3)), (11, 3, 3)),
        (Refusal::SecondName(Fault::TooLong(254)), (11, 4, 254)),
        (Refusal::NotInAlphabet, (12, 0, 0)),
        (Refusal::NoQuestion, (13, 0, 0)),
        (Refusal::NoText(1004), (14, 0, 1004)),
        (Refusal::NoTypes(8704), (15, 0, 8704)),
        (Refusal::NoOwners(1023), (16, 0, 1023)),
        (Refusal::NoHash, (17, 0, 0)),
        (Refusal::NoEncloser, (18, 0, 0)),
    ];
    for (refusal, expected) in table {
        assert_eq!(
            (refusal.number(), refusal.reason(), refusal.place()),
            expected
        );
    }
}

/// Malformed octets with their fault, by the five tests in their order.
fn malformed() -> Vec<(Vec<u8>, Fault)> {
    use Fault::{BadLength, CutShort, LeftOver, TooLong};
    let mut cases = vec![
        (vec![], CutShort(0)),
        (vec![1], CutShort(1)),
        (vec![1, 97], CutShort(2)),
        (vec![3, 97, 98], CutShort(3)),
        (vec![0, 0], LeftOver(1)),
        (vec![0, 200], LeftOver(1)),
        (vec![1, 97, 0, 1, 97, 0], LeftOver(3)),
        (vec![64], BadLength(0)),
        (vec![255], BadLength(0)),
        (vec![192, 12], BadLength(0)),
        (vec![1, 97, 64], BadLength(2)),
        (vec![63; 63], CutShort(63)),
    ];
    // 254 octets of labels end well; what matters is whether a zero octet, nothing or more follows.
    let full = [1, 97].repeat(127);
    cases.push((full.clone(), CutShort(254)));
    cases.push(([&full[..], &[0, 0]].concat(), LeftOver(255)));
    cases.push(([&full[..], &[1]].concat(), TooLong(254)));
    cases.push(([&full[..], &[63]].concat(), TooLong(254)));
    // Above 63 is tested before too long.
    cases.push(([&full[..], &[64]].concat(), BadLength(254)));
    // 252 octets of labels leave 2 for a label: 1 octet fits, 2 are too long even when cut short.
    let near = [1, 97].repeat(126);
    cases.push(([&near[..], &[1]].concat(), CutShort(253)));
    cases.push(([&near[..], &[2]].concat(), TooLong(252)));
    cases.push(([&near[..], &[2, 97, 97, 0]].concat(), TooLong(252)));
    // Three labels of 63 octets leave 62 octets: 61 fit, 62 do not.
    let third = [vec![63], vec![97; 63]].concat().repeat(3);
    let fits = [&third[..], &[61], &[97; 61], &[0]].concat();
    assert_eq!(fits.len(), 255);
    assert!(check(&fits).is_ok());
    cases.push(([&third[..], &[62], &[97; 62], &[0]].concat(), TooLong(192)));
    cases.push(([&third[..], &[63], &[97; 63], &[0]].concat(), TooLong(192)));
    cases.push((vec![97; 100_000], BadLength(0)));
    cases.push((vec![0; 100_000], LeftOver(1)));
    cases
}

#[test]
fn faults() {
    let com = wire("com.");
    for (octets, fault) in malformed() {
        let name = Refusal::Name(fault);
        assert_eq!(check(&octets), Err(name));
        for room in [0, 999] {
            assert_eq!(label_places(&octets, room), Err(name));
            assert_eq!(fold(&octets, room), Err(name));
            assert_eq!(write_key(&octets, room), Err(name));
            assert_eq!(write_text(&octets, room), Err(name));
        }
        assert_eq!(compare(&octets, &com), Err(name));
        assert_eq!(compare(&octets, &[]), Err(name));
        assert_eq!(compare(&com, &octets), Err(Refusal::SecondName(fault)));
        for neighbour in all() {
            assert_eq!(neighbour(&com, 255, &octets, 0), Err(name));
            assert_eq!(neighbour(&octets, 255, &[], 0), Err(Refusal::Apex(fault)));
        }
    }
}

#[test]
fn checked_names_keep_their_octets() {
    for name in [
        wire("."),
        wire("FoO.Bar."),
        [&[1, 97].repeat(127)[..], &[0]].concat(),
    ] {
        assert_eq!(check(&name).unwrap().wire(), name);
    }
}

/// The first number in rising order is given, with everything wrong that comes after it.
#[test]
fn order_of_refusals() {
    let apex = wire("example.com.");
    let broken = [99, 99];
    for neighbour in all() {
        for limit in [0, 256, 1 << 32, u64::MAX] {
            assert_eq!(neighbour(&broken, limit, &broken, 0), Err(Refusal::Limit));
        }
        let refused = neighbour(&broken, 1, &broken, 0).unwrap_err();
        assert_eq!(refused, Refusal::Apex(Fault::BadLength(0)));
        for limit in 1..=14 {
            assert_eq!(
                neighbour(&apex, limit, &broken, 0),
                Err(Refusal::ApexAboveLimit)
            );
        }
        let refused = neighbour(&apex, 15, &broken, 0).unwrap_err();
        assert_eq!(refused, Refusal::Name(Fault::BadLength(0)));
        // Too long for the limit and outside the apex.
        assert_eq!(
            neighbour(&apex, 15, &wire("example.orgsss."), 0),
            Err(Refusal::NameAboveLimit)
        );
        assert_eq!(
            neighbour(&apex, 15, &wire("example.orgss."), 0),
            Err(Refusal::NotUnderApex)
        );
        assert_eq!(
            neighbour(&apex, 255, &wire("com."), 0),
            Err(Refusal::NotUnderApex)
        );
    }
    for neighbour in MODIFIED {
        assert_eq!(neighbour(&apex, 76, &apex, 0), Err(Refusal::NoLabelToSpare));
        assert_eq!(neighbour(&apex, 77, &apex, 0), Err(Refusal::NoRoom));
        assert_eq!(neighbour(&apex, 77, &under("foo"), 0), Err(Refusal::NoRoom));
    }
    assert_eq!(compare(&broken, &broken).unwrap_err().number(), 4);
    assert_eq!(compare(&apex, &broken).unwrap_err().number(), 11);
}

/// Room is given when the space is no shorter than the answer.
#[test]
fn room() {
    let apex = wire("example.com.");
    assert_eq!(fold(&apex, 12), Err(Refusal::NoRoom));
    assert_eq!(fold(&apex, 13), Ok(apex.clone()));
    assert_eq!(write_key(&apex, 11), Err(Refusal::NoRoom));
    assert!(write_key(&apex, 12).is_ok());
    let key = write_key(&apex, 12).unwrap();
    assert_eq!(read_key(&key, 12), Err(Refusal::NoRoom));
    assert_eq!(read_key(&key, 13), Ok(apex.clone()));
    // Bytes that are no key get 10 however small the space is.
    assert_eq!(read_key(&key[..11], 0), Err(Refusal::NoKey(11)));
    assert_eq!(read_key(&[], 0), Err(Refusal::NoRoom));
    // So do texts: 14 comes before 9.
    assert_eq!(write_text(&apex, 11), Err(Refusal::NoRoom));
    assert_eq!(write_text(&apex, 12), Ok(b"example.com.".to_vec()));
    assert_eq!(read_text(b"example.com.", 12), Err(Refusal::NoRoom));
    assert_eq!(read_text(b"example.com.", 13), Ok(apex.clone()));
    assert_eq!(read_text(b"example.com", 0), Err(Refusal::NoText(11)));
    // The answer has 19 octets.
    assert_eq!(
        successor(&apex, 255, &under("foo"), 18),
        Err(Refusal::NoRoom)
    );
    assert!(successor(&apex, 255, &under("foo"), 19).is_ok());
    assert_eq!(predecessor(&apex, 255, &apex, 254), Err(Refusal::NoRoom));
    assert!(predecessor(&apex, 255, &apex, 255).is_ok());
    // 18 and 77 octets.
    assert!(modified_successor(&apex, 255, &under("foo"), 17).is_err());
    assert!(modified_successor(&apex, 255, &under("foo"), 18).is_ok());
    assert!(modified_predecessor(&apex, 255, &under("foo"), 76).is_err());
    assert!(modified_predecessor(&apex, 255, &under("foo"), 77).is_ok());
    // 15 and 77 octets.
    assert!(modified_successor(&apex, 255, &apex, 14).is_err());
    assert!(modified_successor(&apex, 255, &apex, 15).is_ok());
    assert!(modified_predecessor(&apex, 255, &apex, 76).is_err());
    assert!(modified_predecessor(&apex, 255, &apex, 77).is_ok());
}

/// A limit that leaves less than two octets above the apex has no zone: the apex would be alone in
/// it. With two octets, the neighbours of the apex are others.
#[test]
fn apex_alone() {
    for apex in [wire("."), wire("example.com."), wire("\\255.\\255.")] {
        let length = apex.len() as u64;
        for neighbour in all() {
            for limit in [length, length + 1] {
                let refused = neighbour(&apex, limit, &apex, 255);
                assert_eq!(refused, Err(Refusal::ApexAboveLimit));
            }
        }
        for neighbour in ABSOLUTE {
            let other = neighbour(&apex, length + 2, &apex, 255).unwrap();
            assert_eq!(other.len(), apex.len() + 2);
        }
    }
    let longest = [&[1, 255].repeat(127)[..], &[0]].concat();
    for neighbour in all() {
        let refused = neighbour(&longest, 255, &longest, 255);
        assert_eq!(refused, Err(Refusal::ApexAboveLimit));
    }
}
