//! Compares the reader and the writer of type bitmaps, and what is asked of one, with the reference.

use comparison::bitmaps::{any, asked, directed_sets, list, of_set, set, BITMAPS, LISTS, SETS};
use comparison::call::{Input, Outcome, Run, Wanted};
use comparison::{exported, names, RANDOM_INPUTS};
use qorshudan::exported::{
    qorshudan_count_types, qorshudan_largest_type, qorshudan_smallest_type, Asking,
};
use reference::{
    count_types, has_type, largest_type, read_types, smallest_type, write_types, Refusal,
};

/// The octets of a list, in the machine's order.
fn octets(types: &[u16]) -> Vec<u8> {
    types.iter().flat_map(|of| of.to_ne_bytes()).collect()
}

#[test]
fn read() {
    let (mut run, mut random) = Run::start("read_types");
    let one = |run: &mut Run, bitmap: &[u8], room: usize| {
        let input = Input {
            slices: &[bitmap],
            limit: None,
            room: Some(2 * room),
        };
        let outcome = Outcome::of_types(read_types(bitmap, room));
        run.call(input, &outcome, |slices, space| {
            exported::read_types(slices[0], space)
        });
    };
    for types in directed_sets() {
        let count = types.len();
        for room in [count.saturating_sub(1), count, count + 1] {
            one(&mut run, &of_set(&types), room);
        }
    }
    for _ in 0..RANDOM_INPUTS {
        let (class, bitmap) = any(&mut random);
        run.count(class);
        let count = count_types(&bitmap).unwrap_or(5);
        let room = names::room(&mut random, count);
        if count_types(&bitmap).is_ok() {
            run.count(names::room_fact(count, room));
        }
        one(&mut run, &bitmap, room);
    }
    let mut facts = BITMAPS.to_vec();
    facts.extend(names::ROOM_FACTS);
    run.finish(&Wanted {
        often: 500,
        numbers: &[0, 9, 15],
        facts,
    });
}

#[test]
fn write() {
    let (mut run, mut random) = Run::start("write_types");
    let one = |run: &mut Run, types: &[u16], room: usize| {
        let input = Input {
            slices: &[&octets(types)],
            limit: None,
            room: Some(room),
        };
        let outcome = Outcome::of_octets(write_types(types, room));
        run.call(input, &outcome, |slices, space| {
            exported::write_types(slices[0], space)
        });
    };
    for types in directed_sets() {
        let length = of_set(&types).len();
        for room in [length.saturating_sub(1), length, length + 1] {
            one(&mut run, &types, room);
        }
    }
    for _ in 0..RANDOM_INPUTS {
        let (class, types) = list(&mut random);
        run.count(class);
        let bitmap = write_types(&types, usize::MAX);
        let length = bitmap.as_ref().map_or(5, Vec::len);
        let room = names::room(&mut random, length);
        if bitmap.is_ok() {
            run.count(names::room_fact(length, room));
        }
        one(&mut run, &types, room);
    }
    let mut facts = [&SETS[..], &LISTS].concat();
    facts.extend(names::ROOM_FACTS);
    run.finish(&Wanted {
        often: 500,
        numbers: &[0, 9, 15],
        facts,
    });
}

#[test]
fn has() {
    let (mut run, mut random) = Run::start("has_type");
    let one = |run: &mut Run, bitmap: &[u8], of: u16| {
        let input = Input {
            slices: &[bitmap],
            limit: None,
            room: None,
        };
        let outcome = Outcome::of_bool(has_type(bitmap, of));
        run.call(input, &outcome, |slices, _| {
            exported::has_type(slices[0], of)
        });
        if outcome.number() == 0 {
            run.count(["absent", "present"][outcome.value() as usize]);
        }
    };
    for types in directed_sets() {
        for of in [types.first(), types.last()].into_iter().flatten() {
            for of in [of.wrapping_sub(1), *of, of.wrapping_add(1)] {
                one(&mut run, &of_set(&types), of);
            }
        }
    }
    for _ in 0..RANDOM_INPUTS {
        let (class, bitmap) = any(&mut random);
        run.count(class);
        let types = read_types(&bitmap, usize::MAX).unwrap_or_else(|_| set(&mut random).1);
        one(&mut run, &bitmap, asked(&mut random, &types));
    }
    let mut facts = BITMAPS.to_vec();
    facts.extend(["absent", "present"]);
    run.finish(&Wanted {
        often: 500,
        numbers: &[0, 15],
        facts,
    });
}

/// What is asked of a bitmap alone.
fn ask(name: &'static str, function: Asking, reference: fn(&[u8]) -> Result<u64, Refusal>) {
    let (mut run, mut random) = Run::start(name);
    let one = |run: &mut Run, bitmap: &[u8]| {
        let input = Input {
            slices: &[bitmap],
            limit: None,
            room: None,
        };
        let outcome = Outcome::of_value(reference(bitmap));
        run.call(input, &outcome, |slices, _| {
            exported::ask(function, slices[0])
        });
    };
    for types in directed_sets() {
        one(&mut run, &of_set(&types));
    }
    for _ in 0..RANDOM_INPUTS {
        let (class, bitmap) = any(&mut random);
        run.count(class);
        one(&mut run, &bitmap);
    }
    run.finish(&Wanted {
        often: 500,
        numbers: &[0, 15],
        facts: BITMAPS.to_vec(),
    });
}

/// 1 plus a type, and 0 for none.
fn told(of: Option<u16>) -> u64 {
    of.map_or(0, |of| 1 + u64::from(of))
}

#[test]
fn count() {
    ask("count_types", qorshudan_count_types, |bitmap| {
        count_types(bitmap).map(|count| count as u64)
    });
}

#[test]
fn smallest() {
    ask("smallest_type", qorshudan_smallest_type, |bitmap| {
        smallest_type(bitmap).map(told)
    });
}

#[test]
fn largest() {
    ask("largest_type", qorshudan_largest_type, |bitmap| {
        largest_type(bitmap).map(told)
    });
}
