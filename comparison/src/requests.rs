//! Generators of requests for a neighbour: an apex, a limit and a name.

use crate::names::{self, Octets};
use common::names::change_case;
use common::Random;
use reference::Name;

pub struct Request {
    pub class: &'static str,
    pub apex: Vec<u8>,
    pub limit: u64,
    pub name: Vec<u8>,
    /// Of a modified question; 1 unless the tests of depths change it.
    pub depth: u64,
}

/// Every class of requests there is.
pub const CLASSES: [&str; 15] = [
    "the apex itself",
    "few short labels",
    "within 3 octets of the limit",
    "just above the limit",
    "labels of 62 and 63 octets",
    "runs of 255 up to the limit",
    "labels of 63 times 255 up to the limit",
    "a label that is one zero",
    "a label of few low octets",
    "tail octets of the apex in a longer label",
    "an octet of the apex's part changed",
    "the apex's parent",
    "unrelated to the apex",
    "damaged name",
    "damaged apex",
];

/// A request of a random class. `least_spare` bends most limits so far above the apex.
pub fn any(random: &mut Random, least_spare: usize) -> Request {
    let apex = apex(random, least_spare);
    let limit = limit(random, apex.len(), least_spare);
    // The classes that get an answer come twice as often.
    let class = match random.below(CLASSES.len() + 8) {
        class if class >= CLASSES.len() => class + 1 - CLASSES.len(),
        class => class,
    };
    let top = usize::try_from(limit).unwrap_or(255).clamp(apex.len(), 255);
    let mut name = name(random, &apex, top, class);
    let mut apex = apex;
    if random.one_in(3) && class < 9 {
        name = change_case(random, &name, 2);
    }
    if random.one_in(4) && class < 10 {
        apex = change_case(random, &apex, 2);
    }
    match class {
        13 => name = names::damaged(random, name),
        14 => apex = names::damaged(random, apex),
        _ => {}
    }
    Request {
        class: CLASSES[class],
        apex,
        limit,
        name,
        depth: 1,
    }
}

/// A well formed apex of 1 to 255 octets, mostly with that much to spare below 255.
fn apex(random: &mut Random, least_spare: usize) -> Vec<u8> {
    match random.below(8) {
        0 => vec![0],
        1 | 2 => b"\x07example\x03com\x00".to_vec(),
        3 => {
            let length = random.between(3, 255);
            names::of_length(random, length)
        }
        4 => {
            // As long as the spare octets allow, or nearly.
            let most = 255 - least_spare;
            let length = random.between(most - 6, (most + 2).min(255));
            names::of_length(random, length)
        }
        5 => {
            let kind = names::kind(random);
            let length = random.between(1, 4);
            names::assemble(&[names::label(random, length, kind)])
        }
        _ => {
            let length = random.between(3, 60);
            names::of_length(random, length)
        }
    }
}

fn limit(random: &mut Random, apex: usize, least_spare: usize) -> u64 {
    let apex = apex as u64;
    let spare = least_spare as u64;
    match random.below(40) {
        0 => 0,
        1 => 256,
        2 => u64::MAX,
        // Limits that would do if only their low octets were looked at.
        3 => (1 + random.below(1 << 20) as u64) * 256 + random.between(1, 255) as u64,
        4 => (1 << 32) + 255,
        5 | 6 => apex - 1,
        7 => apex,
        8 => apex + 1,
        9..=11 => apex + random.below(6) as u64,
        12 => apex + spare.saturating_sub(1),
        13..=17 => apex + spare + random.below(6) as u64,
        18..=20 => apex + spare + random.below(201) as u64,
        21..=25 => (apex + spare + random.below(201) as u64).min(255),
        26 => random.below(257) as u64,
        _ => 255,
    }
}

fn name(random: &mut Random, apex: &[u8], top: usize, class: usize) -> Vec<u8> {
    let spare = top - apex.len();
    let kind = match random.below(3) {
        0 => Octets::Borders,
        1 => Octets::LowAndHigh,
        _ => names::kind(random),
    };
    match class {
        1 => {
            let octets = random.between(2, 20).min(spare);
            names::put_in_front(random, apex, octets, kind, |r| r.between(1, 6))
        }
        2 => {
            let octets = spare.saturating_sub(random.below(4));
            match random.below(3) {
                0 => names::put_in_front(random, apex, octets, kind, |r| r.between(1, 3)),
                _ => names::put_in_front(random, apex, octets, kind, |r| r.between(1, 63)),
            }
        }
        3 => {
            // Never above 255, where it would not be a name.
            let octets = (spare + random.between(1, 3)).min(255 - apex.len());
            names::put_in_front(random, apex, octets, kind, |r| r.between(1, 63))
        }
        4 | 13 | 14 => {
            let octets = spare.saturating_sub(random.pick(&[0, 0, 1, 2, 3, 20, 64, 128]));
            names::put_in_front(random, apex, octets, kind, |r| r.pick(&[62, 63, 63]))
        }
        5 | 6 => high(random, apex, spare, kind, class == 6),
        7 => {
            let octets = random.pick(&[0, 0, 2, 5, 18]).min(spare.saturating_sub(2));
            let parent = names::put_in_front(random, apex, octets, kind, |r| r.between(1, 6));
            [&[1, 0], &parent[..]].concat()
        }
        8 => {
            // Its end is what the predecessor drops or lowers.
            let length = random.between(1, 4);
            let mut label = names::label(random, length, kind);
            label[length - 1] = random.pick(&[0, 0, 1, 64, 91, 91, 92, 97]);
            let parent = match random.below(3) {
                0 | 1 => apex.to_vec(),
                _ => names::put_in_front(random, apex, 4.min(spare), kind, |_| 3),
            };
            [&[length as u8], &label[..], &parent].concat()
        }
        9 => imitation(random, apex, kind),
        10 => {
            let octets = random.below(12).min(spare);
            let mut name = names::put_in_front(random, apex, octets, kind, |r| r.between(1, 6));
            // A letter's other case would not take it out of the zone, so several bits are tried.
            let start = name.len() - apex.len();
            let place = start + random.below(apex.len());
            name[place] ^= random.pick(&[1, 2, 32, 128]);
            name
        }
        11 => match apex[0] {
            0 => vec![0],
            length => apex[1 + usize::from(length)..].to_vec(),
        },
        12 => {
            let length = random.between(3, top.max(3));
            names::of_length(random, length)
        }
        _ => apex.to_vec(),
    }
}

/// A name whose leftmost labels are all 255, up to the limit or nearly: its successor climbs, and
/// climbs on when the next label has 63 octets and no room for a zero octet either.
fn high(random: &mut Random, apex: &[u8], spare: usize, kind: Octets, longest: bool) -> Vec<u8> {
    let mut parent = apex.to_vec();
    let mut left = spare - spare.min(random.pick(&[0, 0, 0, 0, 1, 2]));
    if random.one_in(2) && left > 70 {
        let octets = random.pick(&[2, 5, 63, 64, 64, 64, 64]);
        parent = names::put_in_front(random, &parent, octets, kind, |_| 63);
        left -= octets;
    }
    while left >= 2 {
        let length = match longest {
            true => 63,
            false => random.pick(&[1, 2, 30, 62, 63, 63]),
        };
        let length = length.min(left - 1);
        let mut label = vec![255; length];
        if random.one_in(12) {
            let place = random.below(length);
            label[place] = random.pick(&[0, 64, 91, 111, 254]);
        }
        parent = [&[length as u8], &label[..], &parent].concat();
        left -= 1 + length;
    }
    parent
}

/// A name outside the apex whose octets end in the apex's octets, as the one label `x\007example`
/// before `com.` does for `example.com.`; the root has none, so it gets a name of few octets.
fn imitation(random: &mut Random, apex: &[u8], kind: Octets) -> Vec<u8> {
    let first = usize::from(apex[0]);
    if first == 0 || first + 2 > 63 || apex.len() + 2 > 255 {
        return names::put_in_front(random, apex, 0, kind, |_| 1);
    }
    let most = (62 - first).min(254 - apex.len()).min(8);
    let more = random.between(1, most);
    let front = names::label(random, more, kind);
    let length = (more + 1 + first) as u8;
    [&[length], &front[..], apex].concat()
}

/// What is true of an answered successor, by labels from the right.
pub fn successor_facts(apex: &Name, name: &Name, next: &Name) -> Vec<&'static str> {
    let (n, s) = (name.labels(), next.labels());
    let mut facts = Vec::new();
    if next == apex {
        facts.push("after the last the apex");
        return facts;
    }
    if s.len() > n.len() {
        facts.push("a label in front");
        return facts;
    }
    let (old, new) = (&n[s.len() - 1], &s[s.len() - 1]);
    let zero = new.len() == old.len() + 1;
    facts.push(match (n.len() - s.len(), zero) {
        (0, true) => "a zero octet added",
        (0, false) => "an octet raised",
        (1, true) => "a zero octet added after a climb",
        (1, false) => "an octet raised after a climb",
        (_, true) => "a zero octet added after climbs",
        (_, false) => "an octet raised after climbs",
    });
    if !zero {
        let last = new.len() - 1;
        if (old[last], new[last]) == (64, 91) {
            facts.push("raised from 64 to 91");
        }
        if old.len() > new.len() {
            facts.push("octets dropped behind the raised one");
        }
    }
    facts
}

/// All facts that `successor_facts` can tell.
pub const SUCCESSOR_FACTS: [&str; 10] = [
    "after the last the apex",
    "a label in front",
    "a zero octet added",
    "an octet raised",
    "a zero octet added after a climb",
    "an octet raised after a climb",
    "a zero octet added after climbs",
    "an octet raised after climbs",
    "raised from 64 to 91",
    "octets dropped behind the raised one",
];

/// What is true of an answered predecessor, by labels from the right.
pub fn predecessor_facts(apex: &Name, name: &Name, before: &Name) -> Vec<&'static str> {
    let (n, p) = (name.labels(), before.labels());
    if name == apex {
        return vec!["before the apex the last"];
    }
    if p.len() < n.len() {
        return vec!["the parent"];
    }
    let mut facts = Vec::new();
    let (old, new) = (&n[n.len() - 1], &p[n.len() - 1]);
    if new.len() < old.len() && old.starts_with(new) {
        facts.push("a zero octet dropped");
    } else {
        facts.push("an octet lowered");
        let place = old.len() - 1;
        if (old[place], new[place]) == (91, 64) {
            facts.push("lowered from 91 to 64");
        }
        if new.len() > old.len() {
            facts.push("octets 255 behind the lowered one");
        }
    }
    match p.len() - n.len() {
        0 => facts.push("no label in front"),
        1 => facts.push("one label in front"),
        _ => facts.push("several labels in front"),
    }
    facts
}

/// All facts that `predecessor_facts` can tell.
pub const PREDECESSOR_FACTS: [&str; 9] = [
    "before the apex the last",
    "the parent",
    "a zero octet dropped",
    "an octet lowered",
    "lowered from 91 to 64",
    "octets 255 behind the lowered one",
    "no label in front",
    "one label in front",
    "several labels in front",
];

/// What is true of an answered modified successor: told of the name's ancestor next to the apex.
pub fn modified_successor_facts(apex: &Name, name: &Name, next: &Name) -> Vec<&'static str> {
    successor_facts(apex, &next_to_apex(apex, name), next)
}

/// What is true of an answered modified predecessor.
pub fn modified_predecessor_facts(apex: &Name, name: &Name, before: &Name) -> Vec<&'static str> {
    let ancestor = next_to_apex(apex, name);
    if *before == ancestor && ancestor != *apex {
        return vec!["its own ancestor"];
    }
    predecessor_facts(apex, &ancestor, before)
}

/// The name's ancestor with one label more than the apex; of the apex, itself.
fn next_to_apex(apex: &Name, name: &Name) -> Name {
    let labels = name.labels().iter().take(apex.labels().len() + 1);
    Name::from_right(labels.cloned().collect())
}

/// All facts that `modified_successor_facts` can tell.
pub const MODIFIED_SUCCESSOR_FACTS: [&str; 6] = [
    "after the last the apex",
    "a label in front",
    "a zero octet added",
    "an octet raised",
    "raised from 64 to 91",
    "octets dropped behind the raised one",
];

/// All facts that `modified_predecessor_facts` can tell.
pub const MODIFIED_PREDECESSOR_FACTS: [&str; 7] = [
    "its own ancestor",
    "before the apex the last",
    "the parent",
    "a zero octet dropped",
    "an octet lowered",
    "lowered from 91 to 64",
    "octets 255 behind the lowered one",
];

/// Requests to try in any case, with spaces of several lengths to be given to each.
pub fn directed() -> Vec<Request> {
    let example = b"\x07example\x03com\x00".to_vec();
    let child = b"\x03foo\x07example\x03com\x00".to_vec();
    let longest = [&[1, 255].repeat(127)[..], &[0]].concat();
    let far = vec![0; 100_000];
    let wide = vec![1; 100_000];
    let outside = b"\x09x\x07example\x03com\x00".to_vec();
    let octets = [
        vec![],
        vec![0],
        vec![1],
        vec![255],
        longest.clone(),
        [&longest[..], &[0]].concat(),
        [&longest[..254], &[1, 97, 0]].concat(),
        vec![63; 255],
        vec![63; 256],
        far,
        wide,
        example,
        child,
        outside,
    ];
    let limits = [
        0,
        1,
        2,
        3,
        12,
        13,
        14,
        15,
        16,
        76,
        77,
        78,
        253,
        254,
        255,
        256,
        511,
        u64::MAX,
    ];
    let mut all = Vec::new();
    for apex in &octets {
        for name in &octets {
            for limit in limits {
                all.push(Request {
                    class: "directed",
                    apex: apex.clone(),
                    limit,
                    name: name.clone(),
                    depth: 1,
                });
            }
        }
    }
    all
}
