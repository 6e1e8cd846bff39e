//! Generators of names, well formed and damaged, and of rooms; and what is true of a name, so that
//! the tests can count what they were really given.

use common::names::starts;
use common::Random;

/// Which octets a label is made of.
#[derive(Clone, Copy)]
pub enum Octets {
    Host,
    MixedCase,
    /// 0, 1, 2 and 255.
    LowAndHigh,
    /// 200 to 255.
    High,
    /// Around the ends of the two ranges of letters.
    Borders,
    Any,
}

const KINDS: [Octets; 6] = [
    Octets::Host,
    Octets::MixedCase,
    Octets::LowAndHigh,
    Octets::High,
    Octets::Borders,
    Octets::Any,
];

pub fn octet(random: &mut Random, octets: Octets) -> u8 {
    match octets {
        Octets::Host => random.pick(b"abcdefghijklmnopqrstuvwxyz0123456789-"),
        Octets::MixedCase => random.pick(b"abyzABYZmMnNeExXoO"),
        Octets::LowAndHigh => random.pick(&[0, 0, 1, 1, 2, 255, 255]),
        Octets::High => random.between(200, 255) as u8,
        Octets::Borders => random.pick(&[
            63, 64, 65, 66, 89, 90, 91, 92, 95, 96, 97, 98, 121, 122, 123,
        ]),
        Octets::Any => random.octet(),
    }
}

pub fn kind(random: &mut Random) -> Octets {
    random.pick(&KINDS)
}

pub fn label(random: &mut Random, length: usize, octets: Octets) -> Vec<u8> {
    let mut label: Vec<u8> = (0..length).map(|_| octet(random, octets)).collect();
    // Ends that matter to neighbours, above all of labels that cannot grow: a run of 255, a zero,
    // the octets beside the capitals.
    let rarely = if length > 60 { 3 } else { 12 };
    match random.below(rarely) {
        0 => {
            let keep = random.below(length + 1);
            label[keep..].fill(255);
            if keep > 0 && random.one_in(2) {
                label[keep - 1] = random.pick(&[64, 91, 254]);
            }
        }
        1 => {
            if let Some(last) = label.last_mut() {
                *last = random.pick(&[0, 0, 1, 64, 91, 254, 255]);
            }
        }
        _ => {}
    }
    label
}

/// The wire form of these labels, leftmost first, whatever they are.
pub fn assemble(labels: &[Vec<u8>]) -> Vec<u8> {
    let mut name = Vec::new();
    for label in labels {
        name.push(label.len() as u8);
        name.extend_from_slice(label);
    }
    name.push(0);
    name
}

/// Puts labels in front of `name` that take exactly `octets` octets (none for 1), with lengths
/// drawn by `lengths`, which are bent where they do not fit.
pub fn put_in_front(
    random: &mut Random,
    name: &[u8],
    mut octets: usize,
    kind: Octets,
    lengths: impl Fn(&mut Random) -> usize,
) -> Vec<u8> {
    let mut labels = Vec::new();
    while octets >= 2 {
        let mut length = lengths(random).clamp(1, 63).min(octets - 1);
        // One octet alone can be no label.
        if octets - 1 - length == 1 {
            length = if length < 63 { length + 1 } else { length - 1 };
        }
        labels.push(label(random, length, kind));
        octets -= 1 + length;
    }
    let mut front = assemble(&labels);
    front.pop();
    front.extend_from_slice(name);
    front
}

/// A well formed name of exactly this length (1, 3 to 255).
pub fn of_length(random: &mut Random, length: usize) -> Vec<u8> {
    let kind = kind(random);
    match random.below(4) {
        0 => put_in_front(random, &[0], length - 1, kind, |r| r.between(1, 3)),
        1 => put_in_front(random, &[0], length - 1, kind, |r| r.between(60, 63)),
        _ => put_in_front(random, &[0], length - 1, kind, |r| r.between(1, 63)),
    }
}

/// Every class of names there is. The damaged ones start from any of the others.
pub const CLASSES: [&str; 14] = [
    "host-like",
    "long",
    "just too long",
    "many labels",
    "labels of 62 to 64 octets",
    "octets 0, 1, 2 and 255",
    "octets 200 to 255",
    "octets beside letters",
    "mixed case",
    "cut",
    "octets appended",
    "an octet changed",
    "a length changed",
    "random octets",
];

/// A name of a random class, and the class.
pub fn any(random: &mut Random) -> (&'static str, Vec<u8>) {
    // The well formed classes come twice as often as the damaged ones.
    let class = match random.below(CLASSES.len() + 9) {
        class if class >= CLASSES.len() => class - CLASSES.len(),
        class => class,
    };
    (CLASSES[class], of_class(random, class))
}

/// A well formed name, nearly always of a class other than host-like.
pub fn well_formed(random: &mut Random) -> Vec<u8> {
    loop {
        let class = random.pick(&[0, 1, 3, 4, 5, 6, 7, 8]);
        let name = of_class(random, class);
        if reference::check(&name).is_ok() {
            return name;
        }
    }
}

fn of_class(random: &mut Random, class: usize) -> Vec<u8> {
    let few = |random: &mut Random, kind: Octets| {
        let labels: Vec<Vec<u8>> = (0..random.below(6))
            .map(|_| {
                let length = match random.below(8) {
                    0 => random.between(1, 63),
                    _ => random.between(1, 12),
                };
                label(random, length, kind)
            })
            .collect();
        assemble(&labels)
    };
    match class {
        0 => few(random, Octets::Host),
        1 => {
            let length = random.between(240, 255);
            of_length(random, length)
        }
        2 => {
            let kind = kind(random);
            let front = random.between(255, 262);
            put_in_front(random, &[0], front, kind, |r| r.between(1, 63))
        }
        3 => {
            let labels = random.pick(&[100, 120, 125, 126, 127, 127, 127, 128, 129]);
            let kind = kind(random);
            put_in_front(random, &[0], 2 * labels, kind, |_| 1)
        }
        4 => {
            let labels: Vec<Vec<u8>> = (0..random.between(1, 4))
                .map(|_| {
                    let length = random.pick(&[1, 57, 60, 61, 62, 62, 63, 63, 63, 63, 63, 64]);
                    let kind = kind(random);
                    label(random, length, kind)
                })
                .collect();
            assemble(&labels)
        }
        5 => few(random, Octets::LowAndHigh),
        6 => few(random, Octets::High),
        7 => few(random, Octets::Borders),
        8 => few(random, Octets::MixedCase),
        13 => {
            let length = match random.below(4) {
                0 => random.below(600),
                _ => random.below(12),
            };
            random.octets(length)
        }
        _ => {
            let start = random.below(9);
            let name = of_class(random, start);
            match class {
                9 => cut(random, name),
                10 => append(random, name),
                11 => change_octet(random, name),
                _ => change_length(random, name),
            }
        }
    }
}

/// The name damaged in one of the four ways.
pub fn damaged(random: &mut Random, name: Vec<u8>) -> Vec<u8> {
    match random.below(4) {
        0 => cut(random, name),
        1 => append(random, name),
        2 => change_octet(random, name),
        _ => change_length(random, name),
    }
}

fn cut(random: &mut Random, mut name: Vec<u8>) -> Vec<u8> {
    let keep = match random.below(2) {
        0 => name.len() - 1,
        _ => random.below(name.len()),
    };
    name.truncate(keep);
    name
}

fn append(random: &mut Random, mut name: Vec<u8>) -> Vec<u8> {
    let more = random.between(1, 4);
    name.extend((0..more).map(|_| random.pick(&[0, 0, 1, 97, 255])));
    name
}

fn change_octet(random: &mut Random, mut name: Vec<u8>) -> Vec<u8> {
    let place = random.below(name.len());
    name[place] = random.octet();
    name
}

fn change_length(random: &mut Random, mut name: Vec<u8>) -> Vec<u8> {
    let mut places = vec![0];
    let mut place = 0;
    while name[place] != 0 && place + 1 + usize::from(name[place]) < name.len() {
        place += 1 + usize::from(name[place]);
        places.push(place);
    }
    let place = random.pick(&places);
    name[place] = match random.below(3) {
        0 => random.octet(),
        1 => random.pick(&[0, 1, 62, 63, 64, 65, 127, 128, 192, 255]),
        _ => name[place].wrapping_add(random.pick(&[1, 255])),
    };
    name
}

/// The places of a well formed name's label octets.
pub fn label_octets(name: &[u8]) -> Vec<usize> {
    let starts = starts(name);
    let is_label = |place: &usize| starts.binary_search(place).is_err();
    (0..name.len()).filter(is_label).collect()
}

/// A well formed name with one octet of a label changed.
pub fn change_label_octet(random: &mut Random, name: &[u8]) -> Vec<u8> {
    let mut changed = name.to_vec();
    let places = label_octets(name);
    if !places.is_empty() {
        let place = random.pick(&places);
        changed[place] = match random.below(3) {
            0 => random.octet(),
            1 => changed[place].wrapping_add(random.pick(&[1, 255])),
            _ => changed[place] ^ random.pick(&[32, 128]),
        };
    }
    changed
}

/// A room for an answer of this many octets: mostly within 3 octets of it, now and then none or a
/// large one.
pub fn room(random: &mut Random, answer: usize) -> usize {
    match random.below(24) {
        0 => 0,
        1 => random.below(answer + 1),
        2..=5 => answer + random.below(300),
        6 if random.one_in(400) => 100_000,
        7..=12 => answer + random.below(4),
        _ => (answer + random.below(7)).saturating_sub(3),
    }
}

/// How a room stands to the answer, to be counted.
pub fn room_fact(answer: usize, room: usize) -> &'static str {
    if room == 0 {
        return "no room at all";
    }
    match room as i64 - answer as i64 {
        more if more < -3 => "room far too small",
        -3 => "room 3 octets short",
        -2 => "room 2 octets short",
        -1 => "room 1 octet short",
        0 => "room just enough",
        1 => "room of 1 octet more",
        2 => "room of 2 octets more",
        3 => "room of 3 octets more",
        _ => "large room",
    }
}

/// All facts that `room_fact` can tell.
pub const ROOM_FACTS: [&str; 10] = [
    "no room at all",
    "room far too small",
    "room 3 octets short",
    "room 2 octets short",
    "room 1 octet short",
    "room just enough",
    "room of 1 octet more",
    "room of 2 octets more",
    "room of 3 octets more",
    "large room",
];

/// What is true of the octets given as a name, to be counted.
pub fn facts(octets: &[u8]) -> Vec<&'static str> {
    let mut facts = Vec::new();
    let name = match reference::check(octets) {
        Ok(name) => name,
        Err(refusal) => {
            if (256..=263).contains(&octets.len()) {
                facts.push("malformed, of 256 to 263 octets");
            }
            if octets.get(refusal.place()) == Some(&64) {
                facts.push("a length of 64");
            }
            return facts;
        }
    };
    match octets.len() {
        1 => facts.push("the root"),
        253 | 254 => facts.push("length 253 or 254"),
        255 => facts.push("length 255"),
        _ => {}
    }
    match name.labels().len() {
        127 => facts.push("127 labels"),
        100.. => facts.push("100 to 126 labels"),
        _ => {}
    }
    let lengths = |n: usize| name.labels().iter().any(|label| label.len() == n);
    if lengths(62) {
        facts.push("a label of 62");
    }
    if lengths(63) {
        facts.push("a label of 63");
    }
    let mut seen = [false; 256];
    for &octet in name.labels().iter().flatten() {
        seen[usize::from(octet)] = true;
    }
    let all = |kind: fn(u8) -> bool| (0..=255).all(|o| !seen[usize::from(o)] || kind(o));
    let cases = (97..=122).any(|o| seen[o]) && (65..=90).any(|o| seen[o]);
    if octets.len() >= 5 {
        if all(|o| matches!(o, b'a'..=b'z' | b'0'..=b'9' | b'-')) {
            facts.push("host octets only");
        }
        if all(|o| matches!(o, 0..=2 | 255)) {
            facts.push("octets 0, 1, 2 and 255 only");
        }
        if all(|o| o >= 200) {
            facts.push("octets 200 to 255 only");
        }
        if all(|o| matches!(o, 63..=66 | 89..=92 | 95..=98 | 121..=123)) {
            facts.push("octets beside letters only");
        }
        if cases && all(|o| o.is_ascii_alphabetic()) {
            facts.push("letters of both cases only");
        }
    }
    for (octet, fact) in OCTET_FACTS {
        if seen[usize::from(octet)] {
            facts.push(fact);
        }
    }
    facts
}

const OCTET_FACTS: [(u8, &str); 17] = [
    (0, "octet 0"),
    (1, "octet 1"),
    (2, "octet 2"),
    (64, "octet 64"),
    (65, "octet 65"),
    (66, "octet 66"),
    (89, "octet 89"),
    (90, "octet 90"),
    (91, "octet 91"),
    (96, "octet 96"),
    (97, "octet 97"),
    (98, "octet 98"),
    (121, "octet 121"),
    (122, "octet 122"),
    (123, "octet 123"),
    (200, "octet 200"),
    (255, "octet 255"),
];

/// All facts that `facts` can tell.
pub fn all_facts() -> Vec<&'static str> {
    let mut all = vec![
        "the root",
        "length 253 or 254",
        "length 255",
        "127 labels",
        "100 to 126 labels",
        "a label of 62",
        "a label of 63",
        "malformed, of 256 to 263 octets",
        "a length of 64",
        "host octets only",
        "octets 0, 1, 2 and 255 only",
        "octets 200 to 255 only",
        "octets beside letters only",
        "letters of both cases only",
    ];
    all.extend(OCTET_FACTS.map(|(_, fact)| fact));
    all
}

/// Octets to try in any case: none, one, and lengths at and far above the limits.
pub fn directed() -> Vec<Vec<u8>> {
    let many = [1, 97].repeat(127);
    let longest = [&many[..], &[0]].concat();
    let mut all = vec![vec![], b"\x03wWw\x07eXample\x03cOm\x00".to_vec()];
    all.extend((0..=255).map(|octet| vec![octet]));
    all.extend((0..=255).map(|octet| vec![1, octet, 0]));
    for length in [0, 1, 2, 62, 63, 64, 65, 127, 128, 191, 192, 255] {
        for more in 0..4 {
            let octets = usize::from(length) + more;
            all.push([vec![length], vec![77; octets]].concat());
            let mut ended = [vec![length], vec![90; usize::from(length)]].concat();
            ended.resize(ended.len() + more, 0);
            all.push(ended);
        }
        for labels in [123, 124, 125, 126, 127, 128] {
            let front = [1, 97].repeat(labels);
            all.push([&front[..], &[length]].concat());
            all.push([&front[..], &[length], &vec![65; usize::from(length)], &[0]].concat());
        }
    }
    for cut in 0..=longest.len() {
        all.push(longest[..cut].to_vec());
    }
    for octet in [0, 1, 2, 63, 64, 255] {
        all.push(vec![octet; 254]);
        all.push(vec![octet; 255]);
        all.push(vec![octet; 256]);
        all.push(vec![octet; 100_000]);
        all.push([&longest[..], &[octet]].concat());
        let mut far = longest.clone();
        far.resize(100_000, octet);
        all.push(far);
    }
    let third = [vec![63], vec![255; 63]].concat().repeat(3);
    for length in 58..=63u8 {
        for octet in [0, 1, 65, 255] {
            let label = vec![octet; usize::from(length)];
            all.push([&third[..], &[length], &label, &[0]].concat());
            all.push([&[length], &label[..], &third[..], &[0]].concat());
        }
    }
    all
}
