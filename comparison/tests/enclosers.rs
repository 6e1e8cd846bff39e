//! Compares the closest encloser of a query in its gap, and the wildcard above an encloser, with the
//! reference.

use comparison::call::{Input, Outcome, Run, Wanted};
use comparison::enclosers::{facts, small, three, CLASSES, FACTS};
use comparison::{exported, names, RANDOM_INPUTS};
use qorshudan::exported::qorshudan_wildcard;
use reference::Piece;

#[test]
fn closest_encloser() {
    let (mut run, mut random) = Run::start("closest_encloser");
    let mut one = |three: &[Vec<u8>; 3], class: Option<&'static str>| {
        let [query, owner, next] = three;
        let piece = reference::closest_encloser(query, owner, next);
        let outcome = Outcome::of_piece(piece);
        let input = Input {
            slices: &[query, owner, next],
            limit: None,
            room: None,
        };
        run.call(input, &outcome, |slices, _| {
            exported::closest_encloser(slices[0], slices[1], slices[2])
        });
        // The Rust function hands back that part of the owner or of the next name itself.
        let part = qorshudan::closest_encloser(query, owner, next);
        assert_eq!(
            part.as_ptr_range(),
            piece.octets(owner, next).as_ptr_range()
        );
        if piece == Piece::EMPTY {
            assert_eq!(part.as_ptr(), owner.as_ptr_range().end);
        }
        if let Some(class) = class {
            run.count(class);
            run.count_all(&facts(three, outcome.value()));
        }
    };
    let small = small();
    for query in &small {
        for owner in &small {
            for next in &small {
                one(&[query.clone(), owner.clone(), next.clone()], None);
            }
        }
    }
    for _ in 0..RANDOM_INPUTS {
        let (class, three) = three(&mut random);
        one(&three, Some(class));
    }
    run.finish(&Wanted {
        often: 500,
        numbers: &[0],
        facts: [&CLASSES[..], &FACTS].concat(),
    });
}

#[test]
fn wildcard() {
    let (mut run, mut random) = Run::start("wildcard");
    let one = |run: &mut Run, encloser: &[u8], room: usize| {
        let input = Input {
            slices: &[encloser],
            limit: None,
            room: Some(room),
        };
        let outcome = Outcome::of_octets(reference::wildcard(encloser, room));
        run.call(input, &outcome, |slices, space| {
            exported::fill(qorshudan_wildcard, slices[0], space)
        });
    };
    // Names of every length, with the rooms around that of the answer.
    for length in (1..=255).filter(|&length| length != 2) {
        let encloser = names::of_length(&mut random, length);
        for room in [0, length, length + 1, length + 2, length + 3, 300] {
            one(&mut run, &encloser, room);
        }
    }
    for _ in 0..RANDOM_INPUTS {
        let (class, encloser) = match random.below(4) {
            0 => {
                let length = random.between(248, 255);
                ("near the longest", names::of_length(&mut random, length))
            }
            _ => names::any(&mut random),
        };
        run.count(class);
        let room = match reference::wildcard(&encloser, 255) {
            Ok(answer) => {
                let room = names::room(&mut random, answer.len());
                run.count(names::room_fact(answer.len(), room));
                room
            }
            Err(_) => names::room(&mut random, 255),
        };
        one(&mut run, &encloser, room);
    }
    let mut facts = names::CLASSES.to_vec();
    facts.push("near the longest");
    facts.extend(names::ROOM_FACTS);
    run.finish(&Wanted {
        often: 500,
        numbers: &[0, 4, 5, 9],
        facts,
    });
}
