//! The zone of an apex and a limit in an alphabet, and the neighbours of a name in it and in its
//! short set of some depth: the members with at most so many labels more than the apex.
//!
//! Nothing here follows the steps of RFC 4471. The members after (or before) a name are sorted
//! into classes by the label in which they first differ from it, counted from the right; the
//! nearest class that has a member holds the answer, and within a class the answer's label is the
//! least (greatest) of a small set that contains the least (greatest) label there is.

use crate::alphabet::Alphabet;
use crate::name::{wire_length, Label, Name, LONGEST_LABEL, MOST_LABELS};
use std::ops::RangeInclusive;

/// All folded names at or under the apex with a length of at most the limit, whose labels above
/// the apex have octets of the alphabet alone. The apex may have any.
#[derive(Clone, Debug)]
pub struct Zone {
    alphabet: Alphabet,
    apex: Name,
    limit: usize,
}

impl Zone {
    /// The apex is folded and no longer than the limit, the limit is at most 255.
    pub fn new(alphabet: Alphabet, apex: Name, limit: usize) -> Zone {
        assert!(apex.length() <= limit, "the apex must fit in the limit");
        assert!(limit <= 255, "the limit must be at most 255");
        Zone {
            alphabet,
            apex,
            limit,
        }
    }

    pub fn apex(&self) -> &Name {
        &self.apex
    }

    /// Whether the name is a member.
    pub fn has(&self, name: &Name) -> bool {
        name.folded() == *name
            && name.length() <= self.limit
            && name.is_at_or_under(&self.apex)
            && self.is_in_alphabet(name)
    }

    /// Whether a folded name at or under the apex has octets of the alphabet alone above it.
    pub fn is_in_alphabet(&self, name: &Name) -> bool {
        let mut above = name.labels().iter().skip(self.apex.labels().len());
        above.all(|label| label.iter().all(|&octet| self.alphabet.has(octet)))
    }

    /// The least member after N, or the apex.
    ///
    /// Members after N, nearest first: those under N; then those that share one label fewer with
    /// N and have a greater label there; and so on up to the apex. An own label of N that is
    /// missing counts as the empty label, which every label follows.
    pub fn successor(&self, name: &Name) -> Name {
        let labels = name.labels();
        self.shared_labels(MOST_LABELS, labels.len())
            .rev()
            .find_map(|shared| {
                let parent = &labels[..shared];
                let own = labels.get(shared).map_or(&[][..], Vec::as_slice);
                let next = self.least_label_after(own, self.longest_label_under(parent))?;
                Some(child(parent, next))
            })
            .unwrap_or_else(|| self.apex.clone())
    }

    /// The least member after N that is not under it, or the apex: N and the members under it follow
    /// one another, so it is the one after the last of them.
    pub fn subtree_successor(&self, name: &Name) -> Name {
        self.successor(&self.last_at_or_under(name.clone()))
    }

    /// The greatest member before N, or the last member when N is the apex.
    ///
    /// All members before N that are not its ancestors or before its parent lie at or under a
    /// sibling with a lesser label; without such a sibling the parent is the nearest.
    pub fn predecessor(&self, name: &Name) -> Name {
        if name.labels().len() == self.apex.labels().len() {
            return self.last_at_or_under(self.apex.clone());
        }
        let (own, parent) = name
            .labels()
            .split_last()
            .expect("a name under the apex has a label");
        match self.greatest_label_before(own, self.longest_label_under(parent)) {
            Some(label) => self.last_at_or_under(child(parent, label)),
            None => Name::from_right(parent.to_vec()),
        }
    }

    /// The least member after N in the short set of this depth, or the apex.
    ///
    /// Of the members after N that share a number of labels with it, the least has one label more,
    /// the least after N's own. The answer is the least of these that the depth allows.
    pub fn successor_in_short_set(&self, depth: usize, name: &Name) -> Name {
        let labels = name.labels();
        let least = self
            .shared_labels(depth, labels.len())
            .filter_map(|shared| {
                let parent = &labels[..shared];
                let own = labels.get(shared).map_or(&[][..], Vec::as_slice);
                let next = self.least_label_after(own, self.longest_label_under(parent))?;
                Some(child(parent, next))
            });
        least
            .filter(|member| self.is_within(depth, member))
            .min_by(Name::canonical_order)
            .unwrap_or_else(|| self.apex.clone())
    }

    /// The greatest member before N in the short set of this depth, or the last member when N is
    /// the apex.
    ///
    /// Of the members before N that share a number of labels with it, one is an ancestor of N, and
    /// all others lie at or under its siblings with a lesser label than N's, the greatest of them
    /// at or under the greatest sibling. The answer is the greatest of these that the depth allows.
    pub fn predecessor_in_short_set(&self, depth: usize, name: &Name) -> Name {
        let labels = name.labels();
        let greatest = self
            .shared_labels(depth, labels.len())
            .filter_map(|shared| {
                let parent = &labels[..shared];
                let own = labels.get(shared)?;
                let lesser = self.greatest_label_before(own, self.longest_label_under(parent));
                let last = lesser.map(|label| self.last_within(depth, child(parent, label)));
                Some([Some(Name::from_right(parent.to_vec())), last])
            });
        greatest
            .flatten()
            .flatten()
            .filter(|member| self.is_within(depth, member))
            .max_by(Name::canonical_order)
            .unwrap_or_else(|| self.last_within(depth, self.apex.clone()))
    }

    /// How many labels a member of this depth may share with a name that has so many.
    fn shared_labels(&self, depth: usize, labels: usize) -> RangeInclusive<usize> {
        let apex = self.apex.labels().len();
        apex..=labels.min(apex + depth)
    }

    /// Whether the member has at most this many labels more than the apex.
    fn is_within(&self, depth: usize, member: &Name) -> bool {
        member.labels().len() - self.apex.labels().len() <= depth
    }

    /// The last of the members at or under a member.
    pub fn last_at_or_under(&self, member: Name) -> Name {
        self.last_within(MOST_LABELS, member)
    }

    /// The last of the members at or under a member that have at most `depth` labels more than the
    /// apex: of the longest label the greatest sorts last, and so on as long as a label fits.
    fn last_within(&self, depth: usize, member: Name) -> Name {
        match self.longest_label_under(member.labels()) {
            0 => member,
            length => {
                let under = child(member.labels(), self.greatest_label(length));
                if !self.is_within(depth, &under) {
                    return member;
                }
                self.last_within(depth, under)
            }
        }
    }

    /// How many octets a label in front of this member may have, 0 when none fits.
    fn longest_label_under(&self, parent: &[Label]) -> usize {
        let used = wire_length(parent) + 1;
        self.limit.saturating_sub(used).min(LONGEST_LABEL)
    }

    /// The greatest label of this many octets.
    fn greatest_label(&self, length: usize) -> Label {
        vec![self.alphabet.greatest(); length]
    }

    /// The least label after this one (which may be empty) with at most the given number of octets.
    ///
    /// A label after it either continues it, the least of those with the least octet alone, or
    /// first differs from it at some place with a greater octet, the least of those with the next
    /// octet and no more.
    fn least_label_after(&self, label: &[u8], longest: usize) -> Option<Label> {
        let continued = [label, &[self.alphabet.least()]].concat();
        let raised = label.iter().enumerate().filter_map(|(place, &octet)| {
            let next = self.alphabet.next_octet(octet)?;
            Some([&label[..place], &[next]].concat())
        });
        raised
            .chain([continued])
            .filter(|candidate| candidate.len() <= longest)
            .min()
    }

    /// The greatest label before this one with at most the given number of octets.
    ///
    /// A label before it is either a beginning of it or first differs from it at some place with a
    /// lesser octet, the greatest of those with the previous octet and as many of the greatest
    /// octet behind it as fit.
    fn greatest_label_before(&self, label: &[u8], longest: usize) -> Option<Label> {
        let beginnings = (1..label.len()).map(|length| label[..length].to_vec());
        let lowered = label.iter().enumerate().filter_map(|(place, &octet)| {
            let previous = self.alphabet.previous_octet(octet)?;
            let mut candidate = [&label[..place], &[previous]].concat();
            candidate.resize(longest.max(candidate.len()), self.alphabet.greatest());
            Some(candidate)
        });
        beginnings
            .chain(lowered)
            .filter(|candidate| candidate.len() <= longest)
            .max()
    }
}

fn child(parent: &[Label], label: Label) -> Name {
    let mut labels = parent.to_vec();
    labels.push(label);
    Name::from_right(labels)
}
