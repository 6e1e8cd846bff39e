//! Compares names as text, written and read, with the reference.

use comparison::call::{Input, Outcome, Run, Wanted};
use comparison::{exported, names, texts, RANDOM_INPUTS};
use qorshudan::exported::{qorshudan_read_text, qorshudan_write_text, Filling};
use reference::Refusal;

fn one(
    run: &mut Run,
    octets: &[u8],
    room: usize,
    function: Filling,
    result: Result<Vec<u8>, Refusal>,
) -> Outcome {
    let input = Input {
        slices: &[octets],
        limit: None,
        room: Some(room),
    };
    let outcome = Outcome::of_octets(result);
    run.call(input, &outcome, |slices, space| {
        exported::fill(function, slices[0], space)
    });
    outcome
}

#[test]
fn write_text() {
    let (mut run, mut random) = Run::start("write_text");
    let one = |run: &mut Run, name: &[u8], room: usize| {
        let result = reference::write_text(name, room);
        let outcome = one(run, name, room, qorshudan_write_text, result);
        match outcome.written.len() {
            1 => run.count("the root's text"),
            2..=800 => {}
            801..=1003 => run.count("text of more than 800 characters"),
            1004 => run.count("text of 1004 characters"),
            _ => {}
        }
    };
    for name in names::directed() {
        let text = reference::write_text(&name, usize::MAX);
        let answer = text.map_or(name.len(), |text| text.len());
        for room in [0, answer.saturating_sub(1), answer, answer + 1, 1004] {
            if answer < 2000 || room < 2000 {
                one(&mut run, &name, room);
            }
        }
    }
    for _ in 0..RANDOM_INPUTS {
        let (class, name) = match random.below(12) {
            0 => ("long text", texts::with_long_text(&mut random)),
            1 => ("one octet", vec![1, random.octet(), 0]),
            _ => names::any(&mut random),
        };
        run.count(class);
        run.count_all(&names::facts(&name));
        let text = reference::write_text(&name, usize::MAX);
        let answer = text.as_ref().map_or(name.len(), Vec::len);
        let room = names::room(&mut random, answer);
        if text.is_ok() {
            run.count(names::room_fact(answer, room));
        }
        one(&mut run, &name, room);
    }
    let mut facts = names::all_facts();
    facts.extend(names::CLASSES);
    facts.extend([
        "long text",
        "one octet",
        "the root's text",
        "text of more than 800 characters",
        "text of 1004 characters",
    ]);
    facts.extend(names::ROOM_FACTS);
    run.finish(&Wanted {
        often: 500,
        numbers: &[0, 4, 9],
        facts,
    });
}

#[test]
fn read_text() {
    let (mut run, mut random) = Run::start("read_text");
    let one = |run: &mut Run, text: &[u8], room: usize, result: Result<Vec<u8>, Refusal>| {
        let outcome = one(run, text, room, qorshudan_read_text, result);
        match (outcome.number(), outcome.value() as usize) {
            (14, place) => run.count_all(&texts::refusal_facts(text, place)),
            (0, length) => {
                if length == 255 {
                    run.count("answer of 255 octets");
                }
                if text.len() >= 950 {
                    run.count("answered text of 950 to 1004 characters");
                }
                if outcome.written.iter().any(u8::is_ascii_uppercase) {
                    run.count("answer with capitals");
                }
                if reference::write_text(&outcome.written, 1004).as_deref() != Ok(text) {
                    run.count("answered text that is not the written one");
                }
            }
            _ => {}
        }
    };
    for text in texts::directed() {
        match reference::read_text(&text, 255) {
            Ok(name) => {
                for room in [0, name.len() - 1, name.len(), name.len() + 1] {
                    one(&mut run, &text, room, reference::read_text(&text, room));
                }
            }
            // The same in any room, for 14 comes before 9.
            refused => {
                for room in [0, text.len().min(255), 256] {
                    one(&mut run, &text, room, refused.clone());
                }
            }
        }
    }
    for _ in 0..RANDOM_INPUTS {
        let (class, text, answer) = texts::any(&mut random);
        run.count(class);
        let room = names::room(&mut random, answer);
        if texts::WHOLE.contains(&class) {
            run.count(names::room_fact(answer, room));
        }
        one(&mut run, &text, room, reference::read_text(&text, room));
    }
    let mut facts = texts::CLASSES.to_vec();
    facts.extend(names::ROOM_FACTS);
    facts.extend(texts::REFUSAL_FACTS);
    facts.extend([
        "answer of 255 octets",
        "answer with capitals",
        "answered text of 950 to 1004 characters",
        "answered text that is not the written one",
    ]);
    run.finish(&Wanted {
        often: 500,
        numbers: &[0, 9, 14],
        facts,
    });
}
