//! Neighbours of random names in large zones: the answer is a member on the right side, nothing
//! made from the name by small changes lies between, and the two neighbours undo each other.

use super::{alphabets, sort_value, wire, Random};
use crate::*;

/// The octets that have no other right before or right behind them.
fn edges(octets: &[u8]) -> Vec<u8> {
    let has = |octet: Option<u8>| octet.map_or(false, |octet| octets.contains(&octet));
    let mut edges = octets.to_vec();
    edges.retain(|octet| !has(octet.checked_sub(1)) || !has(octet.checked_add(1)));
    edges
}

/// Labels of these octets near a label: beginnings of it, one octet changed, octets added, with and
/// without as many of the greatest octet behind as fit.
fn labels_near(label: &[u8], octets: &[u8]) -> Vec<Vec<u8>> {
    let edges = edges(octets);
    let mut near = vec![label.to_vec()];
    for place in 0..label.len() {
        near.push(label[..place].to_vec());
        let beside = [label[place].wrapping_sub(1), label[place].wrapping_add(1)];
        let mut changed = [&beside[..], &edges].concat();
        changed.retain(|octet| octets.contains(octet));
        for octet in changed {
            near.push([&label[..place], &[octet]].concat());
            near.push([&label[..place], &[octet], &label[place + 1..]].concat());
        }
    }
    for octet in [octets[0], octets[1], octets[octets.len() - 1]] {
        near.push([label, &[octet]].concat());
    }
    let mut all = Vec::new();
    for label in near {
        for length in [61, 62, 63] {
            let mut padded = label.clone();
            padded.resize(length.max(label.len()), octets[octets.len() - 1]);
            all.push(padded);
        }
        all.push(label);
    }
    all.retain(|label| (1..=63).contains(&label.len()));
    all.sort();
    all.dedup();
    all
}

/// Members near a name: it, its ancestors, their relatives with a label near theirs, and each of
/// those with labels in front that are as low or as high as the limit allows.
pub fn members_near(name: &[u8], octets: &[u8], apex: &[u8], limit: usize) -> Vec<Vec<u8>> {
    let mut near = Vec::new();
    let mut rest = name;
    while rest.len() > apex.len() {
        let (label, parent) = rest[1..].split_at(usize::from(rest[0]));
        near.extend(
            labels_near(label, octets)
                .into_iter()
                .map(|l| [&[l.len() as u8], &l[..], parent].concat()),
        );
        rest = parent;
    }
    near.push(apex.to_vec());
    near.push([&[1, octets[0]], name].concat());
    let mut all = Vec::new();
    for name in near {
        let mut filled = name.clone();
        while limit >= filled.len() + 2 {
            let length = (limit - filled.len() - 1).min(63);
            filled = [
                &[length as u8][..],
                &vec![octets[octets.len() - 1]; length],
                &filled,
            ]
            .concat();
        }
        all.push(filled);
        all.push(name);
    }
    all.retain(|name| name.len() <= limit);
    all
}

pub fn random_name(random: &mut Random, octets: &[u8], apex: &[u8], limit: usize) -> Vec<u8> {
    let mut name = apex.to_vec();
    let greatest = octets[octets.len() - 1];
    let few = [&edges(octets)[..], &[97, 111, greatest - 1, greatest]].concat();
    let lengths: &[usize] = random.pick(&[&[1, 2, 3][..], &[61, 62, 63], &[1, 20, 63], &[63]]);
    // Names whose left labels are as high as can be make the successor climb, and more than once
    // when the labels have no room for a zero octet.
    let high_from = random.pick(&[apex.len(), apex.len() + 1, 255]);
    let wanted = match high_from {
        255 => limit - random.below(5).min(limit - apex.len()),
        _ => limit,
    };
    while name.len() + 2 <= wanted {
        let length = random.pick(lengths).min(wanted - name.len() - 1);
        let mut label: Vec<u8> = (0..length).map(|_| random.pick(&few)).collect();
        if name.len() >= high_from {
            label.fill(greatest);
        } else if random.below(3) == 0 {
            let keep = random.below(length + 1);
            label[keep..].fill(greatest);
        }
        name = [&[length as u8][..], &label, &name].concat();
        if high_from == 255 && random.below(12) == 0 {
            break;
        }
    }
    name
}

/// Checks the two neighbours of a name against candidates, in sort values, of which all are members
/// of the set in question.
fn nearest(name: &[u8], next: &[u8], before: &[u8], set: &[&Vec<u16>], apex: &[u8]) {
    let at = sort_value(name);
    let (next_at, before_at) = (sort_value(next), sort_value(before));
    let wraps = next == apex;
    assert!(wraps || next_at > at, "{next:?} is not after {name:?}");
    assert!(
        before_at < at || name == apex,
        "{before:?} is not before {name:?}"
    );
    for &value in set {
        assert!(
            *value <= at || (!wraps && *value >= next_at),
            "{value:?} lies between {name:?} and {next:?}"
        );
        assert!(
            *value <= before_at || (name != apex && *value >= at),
            "{value:?} lies between {before:?} and {name:?}"
        );
    }
}

#[test]
fn nothing_nearby_lies_between() {
    let mut random = Random(1034);
    for (alphabet, octets) in alphabets() {
        let apexes = [".", "com.", "\\255{63}.", "@.\\091.", "a{61}.b{63}."].map(wire);
        let mut climbed = 0;
        for _ in 0..300 {
            let apex = &apexes[random.below(apexes.len())];
            let spare = random.pick(&[2, 3, 5, 60, 64, 65, 66, 100, 254]);
            let limit = (apex.len() + spare).min(255);
            let name = random_name(&mut random, &octets, apex, limit);
            climbed += usize::from(round_about(alphabet, &octets, apex, limit, &name));
        }
        assert!(climbed > 15, "only {climbed} successors climbed twice");
    }
}

/// Checks the neighbours of the name, in the zone and at each depth that its limit lets pass. Says
/// whether its successor has two labels fewer.
fn round_about(alphabet: Alphabet, octets: &[u8], apex: &[u8], limit: usize, name: &[u8]) -> bool {
    let after = |name: &[u8]| successor_in(alphabet, apex, limit as u64, name, 255).unwrap();
    let before = |name: &[u8]| predecessor_in(alphabet, apex, limit as u64, name, 255).unwrap();
    let members: Vec<Vec<u16>> = members_near(name, octets, apex, limit)
        .iter()
        .map(|member| sort_value(member))
        .collect();
    let next = after(name);
    nearest(
        name,
        &next,
        &before(name),
        &members.iter().collect::<Vec<_>>(),
        apex,
    );
    assert_eq!(after(&before(name)), name);
    assert_eq!(before(&next), name);

    // In a sort value, a 0 stands for each label.
    let labels = |value: &[u16]| value.iter().filter(|&&octet| octet == 0).count();
    let above = |name: &[u8]| labels(&sort_value(name)) - labels(&sort_value(apex));
    for depth in 1..=3 {
        let limit = limit as u64;
        let next = modified_successor_in(alphabet, depth as u64, apex, limit, name, 255);
        let before = modified_predecessor_in(alphabet, depth as u64, apex, limit, name, 255);
        if apex.len() + 64 * depth > limit as usize {
            assert_eq!(next, Err(Refusal::NoLabelToSpare));
            assert_eq!(before, Err(Refusal::NoLabelToSpare));
            continue;
        }
        let (next, before) = (next.unwrap(), before.unwrap());
        assert!(next.ends_with(apex) && above(&next) <= depth);
        assert!(before.ends_with(apex) && above(&before) <= depth);
        let deepest = labels(&sort_value(apex)) + depth;
        let short = members.iter().filter(|member| labels(member) <= deepest);
        nearest(name, &next, &before, &short.collect::<Vec<_>>(), apex);
    }
    above(&next) + 2 <= above(name)
}
