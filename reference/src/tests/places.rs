//! The places of labels: cases worked out by hand, and each name's own ends on the wire, which begin
//! where its length octets stand.

use super::alphabets::{members, small_alphabets};
use super::{ends, respelt, wire, Random};
use crate::*;

/// Every end but the root's zero octet begins at a length octet.
fn slow(name: &[u8]) -> Vec<u8> {
    let mut ends = ends(name);
    ends.pop();
    ends.iter()
        .map(|end| (name.len() - end.len()) as u8)
        .collect()
}

/// All that is asked of one name: the places in just enough room, in more, and in too little; and
/// the labels that stand at them, which are the name.
fn check_places(name: &[u8]) {
    let expected = slow(name);
    for room in [expected.len(), expected.len() + 1, 127, 1_000] {
        assert_eq!(label_places(name, room).as_ref(), Ok(&expected));
    }
    if let Some(less) = expected.len().checked_sub(1) {
        assert_eq!(label_places(name, less), Err(Refusal::NoRoom));
        assert_eq!(label_places(name, 0), Err(Refusal::NoRoom));
    }
    let labels = expected.iter().map(|&place| {
        let place = usize::from(place);
        &name[place..=place + usize::from(name[place])]
    });
    assert_eq!(
        [labels.collect::<Vec<_>>().concat(), vec![0]].concat(),
        name
    );
}

#[test]
fn worked_by_hand() {
    assert_eq!(label_places(&wire("."), 0), Ok(vec![]));
    assert_eq!(label_places(&wire("a."), 1), Ok(vec![0]));
    assert_eq!(
        label_places(&wire("FOO.Example.com."), 3),
        Ok(vec![0, 4, 12])
    );
    assert_eq!(
        label_places(&wire("FOO.Example.com."), 2),
        Err(Refusal::NoRoom)
    );
    // Octets that look like lengths are none.
    assert_eq!(
        label_places(&wire("\\000\\001\\001.\\001\\000."), 2),
        Ok(vec![0, 4])
    );
    assert_eq!(
        label_places(&wire("a{61}.b{63}.c{63}.d{63}."), 4),
        Ok(vec![0, 62, 126, 190])
    );
    // 127 labels, of which the last begins at 252; none can begin later.
    let most = [&[1, 97].repeat(127)[..], &[0]].concat();
    let even: Vec<u8> = (0..127).map(|index| 2 * index).collect();
    assert_eq!(label_places(&most, 127), Ok(even));
    assert_eq!(label_places(&most, 126), Err(Refusal::NoRoom));
}

/// A name that is none is refused with 4 however small the space is.
#[test]
fn refusals() {
    for (octets, fault) in [
        (&[][..], Fault::CutShort(0)),
        (&[1, 97], Fault::CutShort(2)),
        (&[0, 0], Fault::LeftOver(1)),
        (&[1, 97, 64], Fault::BadLength(2)),
        (&[1, 97].repeat(128), Fault::TooLong(254)),
    ] {
        for room in [0, 127] {
            assert_eq!(label_places(octets, room), Err(Refusal::Name(fault)));
        }
    }
}

#[test]
fn all_small_names() {
    let mut found = 0;
    for (_, octets) in small_alphabets() {
        for apex in [".", "\\255.A."].map(wire) {
            let spare = [12, 8, 6][octets.len() - 1];
            for name in members(&octets, &apex, apex.len() + spare, 127) {
                check_places(&name);
                found += 1;
            }
        }
    }
    assert!(found > 4_000, "{found}");
}

#[test]
fn names_of_every_length() {
    let mut random = Random(1_035);
    for round in 0..3_000 {
        let most = random.pick(&[1, 2, 5, 63]);
        let mut name = vec![0];
        while name.len() < 254 && (round % 3 == 0 || random.below(20) > 0) {
            let length = 1 + random.below(most).min(253 - name.len());
            let label: Vec<u8> = (0..length).map(|_| random.below(256) as u8).collect();
            name = [&[length as u8], &label[..], &name].concat();
        }
        assert!(name.len() <= 255);
        check_places(&respelt(&mut random, &name));
    }
}
