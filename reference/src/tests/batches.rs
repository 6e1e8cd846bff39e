//! Batches of questions: the paper's case, every way in which a question can be wrong, and what
//! the writer of questions refuses.

use super::{under, wire, Random};
use crate::batch::Question;
use crate::*;

fn octets(hex: &str) -> Vec<u8> {
    let digit = |text| u8::from_str_radix(text, 16).unwrap();
    hex.split_whitespace().map(digit).collect()
}

/// The paper's question and its answer.
fn whole_case() -> (Vec<u8>, Vec<u8>) {
    (
        octets("01 00 01 00 02 00 01 ff 03 00 03 01 61 00 04 00 01 01"),
        octets("10 00 01 00 11 00 05 01 00 01 61 00"),
    )
}

/// The answer of number 13.
fn wrong() -> Vec<u8> {
    octets("10 00 01 0d")
}

/// That the octets are no question: alone, behind one, before one, and between two.
fn ends_the_batch(octets: &[u8]) {
    let (question, answer) = whole_case();
    for (before, answered) in [(&[][..], &[][..]), (&question, &answer)] {
        for after in [&[][..], &question] {
            assert_eq!(
                batch(&[before, octets, after].concat()),
                [answered, &wrong()].concat(),
                "{octets:02x?}"
            );
        }
    }
}

#[test]
fn answered() {
    let (question, answer) = whole_case();
    assert_eq!(batch(&question), answer);
    assert_eq!(batch(&[]), []);
    assert_eq!(batch(&question.repeat(3)), answer.repeat(3));
    assert_eq!(write_question(&[0], 255, &wire("a."), 1), Ok(question));
}

/// The four ways, and a refusal of each number that a question can get.
#[test]
fn ways_and_numbers() {
    let apex = wire("example.com.");
    let ask = |limit, name: &[u8], way| batch(&write_question(&apex, limit, name, way).unwrap());
    let named = |name: Vec<u8>| {
        let length = name.len() as u8;
        [&[0x10, 0, 1, 0, 0x11, 0, length], &name[..]].concat()
    };
    let refused = |number| vec![0x10, 0, 1, number];
    let foo = under("foo");
    let last = under("\\255{49}.\\255{63}.\\255{63}.fon\\255{60}");
    assert_eq!(ask(255, &foo, 0), named(last));
    assert_eq!(ask(255, &foo, 1), named(under("\\000.foo")));
    assert_eq!(ask(255, &foo, 2), named(under("fon\\255{60}")));
    assert_eq!(ask(255, &foo, 3), named(under("foo\\000")));
    for way in 0..4 {
        assert_eq!(ask(0, &[9, 9], way), refused(1));
        assert_eq!(ask(12, &foo, way), refused(3));
        assert_eq!(ask(255, &[], way), refused(4));
        assert_eq!(ask(255, &[0; 600], way), refused(4));
        assert_eq!(ask(16, &foo, way), refused(5));
        assert_eq!(ask(255, &[0], way), refused(6));
        let empty = write_question(&[], 255, &foo, way).unwrap();
        assert_eq!(batch(&empty), refused(2));
        let long = write_question(&[1; 600], 255, &foo, way).unwrap();
        assert_eq!(batch(&long), refused(2));
    }
    assert_eq!(ask(76, &foo, 2), refused(7));
    assert_eq!(ask(76, &foo, 3), refused(7));
    assert_eq!(ask(77, &apex, 2), named(under("\\255{63}")));
    assert_eq!(ask(77, &apex, 3), named(under("\\000")));
}

#[test]
fn cut_off() {
    let (question, answer) = whole_case();
    for length in 1..question.len() {
        let cut = &question[..length];
        assert_eq!(batch(cut), wrong(), "{cut:02x?}");
        let behind = [&question[..], cut].concat();
        assert_eq!(batch(&behind), [&answer[..], &wrong()].concat());
    }
}

/// Every tag, length and way of a question, changed to every other octet that it cannot be.
#[test]
fn tags_lengths_and_ways() {
    let (question, _) = whole_case();
    for octet in 0..=255 {
        let changed = |place: usize| {
            let mut changed = question.clone();
            changed[place] = octet;
            changed
        };
        for tag in [0, 4, 8, 14] {
            if octet != question[tag] {
                ends_the_batch(&changed(tag));
            }
        }
        // Behind it there may be no more octets, which a greater length would take in.
        for length in [1, 2, 5, 6, 9, 10, 15, 16] {
            if octet != question[length] {
                assert_eq!(batch(&changed(length)), wrong());
            }
        }
        if octet > 3 {
            ends_the_batch(&changed(17));
        }
    }
}

/// Fields out of order, left out or given twice.
#[test]
fn order() {
    let fields = [
        octets("01 00 01 00"),
        octets("02 00 01 ff"),
        octets("03 00 03 01 61 00"),
        octets("04 00 01 01"),
    ];
    for first in 0..4 {
        for second in 0..4 {
            for third in 0..4 {
                for fourth in 0..4 {
                    let order = [first, second, third, fourth];
                    let asked = order.map(|index| fields[index].clone()).concat();
                    if order != [0, 1, 2, 3] {
                        ends_the_batch(&asked);
                    }
                }
            }
        }
        let mut fewer = fields.to_vec();
        fewer.remove(first);
        ends_the_batch(&fewer.concat());
    }
}

/// Whole fields of a size that none may have.
#[test]
fn sizes() {
    let field = |tag: u8, size: usize| {
        let length = (size as u16).to_be_bytes();
        [&[tag], &length[..], &vec![1; size]].concat()
    };
    let question = |sizes: [usize; 4]| {
        let fields: Vec<Vec<u8>> = (1..)
            .zip(sizes)
            .map(|(tag, size)| field(tag, size))
            .collect();
        fields.concat()
    };
    for size in [601, 602, 856, 1112, 65_535] {
        ends_the_batch(&question([size, 1, 3, 1]));
        ends_the_batch(&question([3, 1, size, 1]));
    }
    for size in [0, 2, 3, 256, 257, 600] {
        ends_the_batch(&question([3, size, 3, 1]));
        ends_the_batch(&question([3, 1, 3, size]));
    }
    for size in [0, 1, 255, 256, 599, 600] {
        assert_eq!(batch(&question([size, 1, 3, 1])), [0x10, 0, 1, 2]);
        assert_eq!(batch(&question([3, 1, size, 1])), [0x10, 0, 1, 2]);
    }
}

/// What no question can hold is not written, and all else is read back as meant.
#[test]
fn written() {
    let refused = Err(Refusal::NoQuestion);
    assert_eq!(Refusal::NoQuestion.number(), 13);
    for wrong in [4, 255, 256, 257, u64::MAX] {
        assert_eq!(write_question(&[0], 255, &[0], wrong), refused);
    }
    for wrong in [256, 511, 1 << 32, u64::MAX] {
        assert_eq!(write_question(&[0], wrong, &[0], 0), refused);
    }
    for size in [601, 65_536, 65_537] {
        assert_eq!(write_question(&vec![0; size], 255, &[0], 0), refused);
        assert_eq!(write_question(&[0], 255, &vec![0; size], 0), refused);
    }
    let mut random = Random(13);
    for _ in 0..2000 {
        let mut some = || -> Vec<u8> {
            let size = random.pick(&[0, 1, 2, 17, 255, 256, 599, 600]);
            (0..size).map(|_| random.next() as u8).collect()
        };
        let (apex, name, more) = (some(), some(), some());
        let (limit, way) = (random.next() as u8, random.below(4) as u8);
        let question = Question {
            apex: &apex,
            limit,
            name: &name,
            way,
        };
        let written = write_question(&apex, limit.into(), &name, way.into()).unwrap();
        assert_eq!(written.len(), 14 + apex.len() + name.len());
        let with_more = [&written[..], &more].concat();
        assert_eq!(Question::read(&with_more), Some((question, &more[..])));
    }
}
