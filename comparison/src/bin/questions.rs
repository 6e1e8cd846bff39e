//! Writes batches of questions and the answers that the second program gives to them, for the tests
//! of the proved program: `questions DIRECTORY` makes NAME.in and NAME.out for each, always the same.

use common::names::change_case;
use common::Random;
use comparison::{names, requests};
use reference::{batch, write_question};
use std::path::Path;
use std::process::ExitCode;
use std::{env, fs, io};

const SEED: u64 = 4471;

/// What a batch that ends in number 13 ends with.
const WRONG: [u8; 4] = [0x10, 0, 1, 13];

fn main() -> ExitCode {
    let directory = match env::args_os().nth(1) {
        Some(directory) => directory,
        None => {
            eprintln!("usage: questions DIRECTORY");
            return ExitCode::FAILURE;
        }
    };
    match write_all(Path::new(&directory)) {
        Ok(count) => {
            println!("{count} batches");
            ExitCode::SUCCESS
        }
        Err(error) => {
            eprintln!("{}: {error}", directory.to_string_lossy());
            ExitCode::FAILURE
        }
    }
}

fn write_all(directory: &Path) -> io::Result<usize> {
    fs::create_dir_all(directory)?;
    let answered = answered();
    let wrong = wrong();
    for (name, input) in answered.iter().chain(&wrong) {
        fs::write(directory.join(format!("{name}.in")), input)?;
        fs::write(directory.join(format!("{name}.out")), batch(input))?;
    }
    for (name, input) in &answered {
        assert!(!batch(input).ends_with(&WRONG), "{name} is not answered");
    }
    for (name, input) in &wrong {
        assert!(batch(input).ends_with(&WRONG), "{name} does not end in 13");
    }
    Ok(answered.len() + wrong.len())
}

type Batch = (String, Vec<u8>);

/// Batches in which every question gets an answer or a number other than 13.
fn answered() -> Vec<Batch> {
    let thousand = thousand(&mut Random::named(SEED, "questions"));
    let values = [
        question(&[1; 600], 255, &[0], 0),
        question(&[0], 255, &[63; 600], 1),
        question(&[], 255, &[], 2),
        question(&[0], 255, &[], 3),
    ];
    vec![
        ("thousand".into(), thousand),
        ("whole-case".into(), fields(WHOLE_CASE).concat()),
        ("longest-and-empty-values".into(), values.concat()),
        ("empty".into(), Vec::new()),
    ]
}

fn question(apex: &[u8], limit: u64, name: &[u8], way: u64) -> Vec<u8> {
    write_question(apex, limit, name, way).expect("a question holds it")
}

/// A thousand questions with every limit: most about short names near a short apex, some of every
/// class of requests there is.
fn thousand(random: &mut Random) -> Vec<u8> {
    let mut questions = Vec::new();
    for index in 0..1000 {
        let way = random.below(4) as u64;
        let least_spare = if way < 2 { 2 } else { 64 };
        let (apex, limit, name) = match random.below(8) {
            0 => {
                let request = requests::any(random, least_spare);
                (request.apex, request.limit.min(255), request.name)
            }
            _ => short(random, least_spare),
        };
        let limit = if index < 256 { index } else { limit };
        questions.extend(question(&apex, limit, &name, way));
    }
    questions
}

fn short(random: &mut Random, least_spare: usize) -> (Vec<u8>, u64, Vec<u8>) {
    let apex = match random.below(4) {
        0 => vec![0],
        1 => b"\x02Co\x00".to_vec(),
        _ => b"\x07example\x03com\x00".to_vec(),
    };
    let kind = names::kind(random);
    let octets = random.pick(&[0, 2, 4, 6, 9, 12, 20]);
    let name = names::put_in_front(random, &apex, octets, kind, |r| r.between(1, 6));
    let name = change_case(random, &name, 2);
    let limit = match random.below(4) {
        0 => name.len() + random.below(4),
        1 => apex.len() + least_spare + random.below(4),
        _ => 255,
    };
    match random.below(12) {
        0 => (names::damaged(random, apex), limit as u64, name),
        1 => (apex, limit as u64, names::damaged(random, name)),
        2 => (name, limit as u64, apex),
        _ => (apex, limit as u64, name),
    }
}

/// The four fields of a question as tag and value.
type Fields = [(u8, &'static [u8]); 4];

/// Document 02's question.
const WHOLE_CASE: Fields = [(1, &[0]), (2, &[255]), (3, &[1, 97, 0]), (4, &[1])];

fn fields(fields: impl IntoIterator<Item = (u8, &'static [u8])>) -> Vec<Vec<u8>> {
    let field = |(tag, value): (u8, &[u8])| {
        let size = u16::try_from(value.len()).expect("values are short");
        [&[tag], &size.to_be_bytes()[..], value].concat()
    };
    fields.into_iter().map(field).collect()
}

/// Batches that end in 13: a question that is answered, the wrong one, and another one that is not
/// answered any more; or a question that is cut off.
fn wrong() -> Vec<Batch> {
    let good = fields(WHOLE_CASE).concat();
    let mut batches = Vec::new();
    let mut add = |name: String, wrong: Vec<u8>, after: &[u8]| {
        batches.push((name, [&good[..], &wrong, after].concat()));
    };
    let with = |index: usize, field: (u8, &'static [u8])| {
        let mut changed = WHOLE_CASE;
        changed[index] = field;
        fields(changed).concat()
    };

    let parts = ["apex", "limit", "name", "way"];
    for (index, part) in parts.iter().enumerate() {
        let (tag, value) = WHOLE_CASE[index];
        for (wrong, kind) in [
            (0, "zero"),
            (tag + 1, "next"),
            (0x10, "answer"),
            (255, "255"),
        ] {
            add(
                format!("tag-{part}-{kind}"),
                with(index, (wrong, value)),
                &good,
            );
        }
        let fewer = WHOLE_CASE.into_iter().filter(|field| field.0 != tag);
        add(
            format!("order-without-{part}"),
            fields(fewer).concat(),
            &good,
        );
        let twice = fields(WHOLE_CASE).into_iter().enumerate();
        let twice = twice.flat_map(|(at, field)| vec![field; if at == index { 2 } else { 1 }]);
        add(
            format!("order-{part}-twice"),
            twice.collect::<Vec<_>>().concat(),
            &good,
        );
        for (other, second) in parts.iter().enumerate().skip(index + 1) {
            let mut swapped = fields(WHOLE_CASE);
            swapped.swap(index, other);
            add(format!("order-{part}-{second}"), swapped.concat(), &good);
        }
    }

    add("size-apex-601".into(), with(0, (1, &[0; 601])), &good);
    add("size-name-601".into(), with(2, (3, &[0; 601])), &good);
    add("size-apex-856".into(), with(0, (1, &[0; 856])), &good);
    add("size-limit-0".into(), with(1, (2, &[])), &good);
    add("size-limit-2".into(), with(1, (2, &[0, 255])), &good);
    add("size-limit-257".into(), with(1, (2, &[255; 257])), &good);
    add("size-way-0".into(), with(3, (4, &[])), &good);
    add("size-way-2".into(), with(3, (4, &[0, 1])), &good);
    add("size-way-257".into(), with(3, (4, &[1; 257])), &good);
    add("way-4".into(), with(3, (4, &[4])), &good);
    add("way-255".into(), with(3, (4, &[255])), &good);
    // 13 comes before 1 and 2, and what stands behind is not looked at.
    let nothing = fields([(1, &[64][..]), (2, &[0]), (3, &[64]), (4, &[4])]).concat();
    add("way-4-before-others".into(), nothing, &good.repeat(20));
    for length in 1..good.len() {
        add(format!("cut-{length:02}"), good[..length].to_vec(), &[]);
    }
    // Cut off inside the longest value there is.
    let long = question(&[0; 600], 255, &[0], 0);
    add("cut-long".into(), long[..602].to_vec(), &[]);
    batches
}
