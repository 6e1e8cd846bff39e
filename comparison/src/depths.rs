//! Modified requests at a depth: depths that are allowed and others, names with up to six labels more
//! than the apex, and limits around what the depth asks for.

use crate::names::{self, Octets};
use crate::requests::Request;
use common::Random;
use reference::Name;

/// Depths that are none, of which some are 1 to 3 if only their low octets are looked at.
const NO_DEPTHS: [u64; 8] = [0, 4, 5, 255, (1 << 8) + 2, (1 << 32) + 1, 1 << 63, u64::MAX];

/// The most labels that are put before the apex.
const MOST_LABELS: usize = 6;

/// What is done with a request.
pub const CLASSES: [&str; 15] = [
    "depth 1",
    "depth 2",
    "depth 3",
    "depth 0",
    "depth 4",
    "depth 2^63",
    "another depth",
    "limit A + 64 d - 1",
    "limit A + 64 d",
    "limit A + 64 d + 1",
    "no label put in front",
    "1 or 2 labels put in front",
    "3 or 4 labels put in front",
    "5 or 6 labels put in front",
    "full labels of 255 put in front",
];

/// Gives a request a depth, and mostly a name with so many labels more than the apex and a limit for
/// the depth.
pub fn deepen(random: &mut Random, request: &mut Request) -> Vec<&'static str> {
    let mut classes = Vec::new();
    request.depth = match random.below(5) {
        0 => random.pick(&NO_DEPTHS),
        _ => random.between(1, 3) as u64,
    };
    classes.push(match request.depth {
        1 => CLASSES[0],
        2 => CLASSES[1],
        3 => CLASSES[2],
        0 => CLASSES[3],
        4 => CLASSES[4],
        depth if depth == 1 << 63 => CLASSES[5],
        _ => CLASSES[6],
    });
    if reference::check(&request.apex).is_err() || random.one_in(4) {
        return classes;
    }
    let least = request.apex.len() + 64 * request.depth.clamp(1, 3) as usize;
    match random.below(8) {
        0 => {
            request.limit = least as u64 - 1;
            classes.push(CLASSES[7]);
        }
        1 => {
            request.limit = least as u64;
            classes.push(CLASSES[8]);
        }
        2 => {
            request.limit = least as u64 + 1;
            classes.push(CLASSES[9]);
        }
        3 => {}
        _ => request.limit = 255,
    }
    if random.one_in(4) {
        return classes;
    }
    let limit = usize::try_from(request.limit).unwrap_or(255).min(255);
    let room = limit.saturating_sub(request.apex.len());
    let labels = random.below(MOST_LABELS + 1);
    let full = labels > 0 && random.one_in(4);
    let kind = match random.below(3) {
        0 => Octets::Borders,
        1 => Octets::LowAndHigh,
        _ => names::kind(random),
    };
    let mut front = Vec::new();
    let mut count = 0;
    for _ in 0..labels {
        let length = match full {
            true => 63,
            false => random.pick(&[1, 1, 2, 3, 8, 62, 63]),
        };
        if front.len() + 1 + length > room {
            break;
        }
        front.push(length as u8);
        match full && !random.one_in(6) {
            true => front.resize(front.len() + length, 255),
            false => front.extend(names::label(random, length, kind)),
        }
        count += 1;
    }
    request.name = [&front[..], &request.apex].concat();
    classes.push(CLASSES[10 + usize::min(count, MOST_LABELS).div_ceil(2)]);
    if full && count > 0 {
        classes.push(CLASSES[14]);
    }
    classes
}

/// What is true of a request that is answered at its depth.
pub fn answer_facts(apex: &Name, name: &Name, depth: u64, answer: &Name) -> Vec<&'static str> {
    let above = |name: &Name| name.labels().len() - apex.labels().len();
    let mut facts = vec![match depth {
        1 => ANSWER_FACTS[0],
        2 => ANSWER_FACTS[1],
        _ => ANSWER_FACTS[2],
    }];
    facts.push(match (above(name) as u64).cmp(&depth) {
        std::cmp::Ordering::Less => ANSWER_FACTS[3],
        std::cmp::Ordering::Equal => ANSWER_FACTS[4],
        std::cmp::Ordering::Greater => ANSWER_FACTS[5],
    });
    facts.push(match above(answer) {
        0 => ANSWER_FACTS[6],
        1 => ANSWER_FACTS[7],
        2 => ANSWER_FACTS[8],
        3 => ANSWER_FACTS[9],
        more => panic!("an answer of {more} labels more than the apex"),
    });
    if above(name) == MOST_LABELS {
        facts.push(ANSWER_FACTS[10]);
    }
    facts
}

/// All facts that `answer_facts` can tell.
pub const ANSWER_FACTS: [&str; 11] = [
    "answered at depth 1",
    "answered at depth 2",
    "answered at depth 3",
    "answered of fewer labels than the depth",
    "answered of as many labels as the depth",
    "answered of more labels than the depth",
    "the apex answered",
    "one label more answered",
    "two labels more answered",
    "three labels more answered",
    "answered of six labels more",
];

/// The name's ancestor with at most so many labels more than the apex.
fn cut(apex: &Name, name: &Name, depth: usize) -> Name {
    let labels = name.labels().iter().take(apex.labels().len() + depth);
    Name::from_right(labels.cloned().collect())
}

/// What is true of an answered successor at any depth.
pub fn successor_facts(apex: &Name, name: &Name, next: &Name) -> Vec<&'static str> {
    if next == apex {
        return vec!["after the last the apex"];
    }
    let shared = name.shared_labels(next);
    let (n, s) = (name.labels(), next.labels());
    vec![match (n.get(shared), s.get(shared)) {
        (None, _) => "a label in front",
        (Some(old), Some(new)) if new.starts_with(old) => "the least octet added",
        _ => "an octet raised",
    }]
}

pub const SUCCESSOR_FACTS: [&str; 4] = [
    "after the last the apex",
    "a label in front",
    "the least octet added",
    "an octet raised",
];

/// What is true of an answered predecessor at any depth.
pub fn predecessor_facts(apex: &Name, name: &Name, before: &Name) -> Vec<&'static str> {
    if name == apex {
        return vec!["before the apex the last"];
    }
    let more = before.labels().len() - apex.labels().len();
    if *before == cut(apex, name, more) {
        return vec!["its own ancestor"];
    }
    let shared = name.shared_labels(before);
    vec![
        match (name.labels().get(shared), before.labels().get(shared)) {
            (Some(old), Some(new)) if old.starts_with(new) => "the least octet dropped",
            _ => "an octet lowered",
        },
    ]
}

pub const PREDECESSOR_FACTS: [&str; 4] = [
    "before the apex the last",
    "its own ancestor",
    "the least octet dropped",
    "an octet lowered",
];
