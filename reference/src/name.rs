//! Names as lists of labels: reading and writing the wire form, folding, the canonical order.

use crate::refusal::Fault;
use std::cmp::Ordering;

/// The most octets a label has.
pub const LONGEST_LABEL: usize = 63;
/// The most octets a name has on the wire, length octets and the final zero counted.
pub const LONGEST_NAME: usize = 255;
/// The most labels a name has.
pub const MOST_LABELS: usize = 127;

pub type Label = Vec<u8>;

/// A well formed name. Its labels are kept rightmost first: a name at or under another then
/// begins with that name's labels, and the canonical order is the plain order of such lists.
#[derive(Clone, Debug, PartialEq, Eq)]
pub struct Name {
    labels: Vec<Label>,
}

impl Name {
    /// The name with these labels, rightmost first. They must be within the limits of a name.
    pub fn from_right(labels: Vec<Label>) -> Name {
        assert!(
            labels
                .iter()
                .all(|l| (1..=LONGEST_LABEL).contains(&l.len())),
            "a label of a name has 1 to 63 octets"
        );
        assert!(
            wire_length(&labels) <= LONGEST_NAME,
            "a name has at most 255 octets"
        );
        Name { labels }
    }

    /// The labels, rightmost first.
    pub fn labels(&self) -> &[Label] {
        &self.labels
    }

    /// Reads octets that must be exactly one whole name.
    pub fn read(octets: &[u8]) -> Result<Name, Fault> {
        let mut labels = Vec::new();
        let mut place = 0;
        loop {
            let length = match octets.get(place) {
                None => return Err(Fault::CutShort(octets.len())),
                Some(&length) => usize::from(length),
            };
            let start = place + 1;
            if length == 0 {
                if octets.len() > start {
                    return Err(Fault::LeftOver(start));
                }
                labels.reverse();
                return Ok(Name { labels });
            }
            if length > LONGEST_LABEL {
                return Err(Fault::BadLength(place));
            }
            // The zero octet that ends the name still has to fit behind the label.
            if start + length > LONGEST_NAME - 1 {
                return Err(Fault::TooLong(place));
            }
            match octets.get(start..start + length) {
                None => return Err(Fault::CutShort(octets.len())),
                Some(label) => labels.push(label.to_vec()),
            }
            place = start + length;
        }
    }

    /// The octets of the name on the wire.
    pub fn wire(&self) -> Vec<u8> {
        let mut octets = Vec::with_capacity(self.length());
        for label in self.labels.iter().rev() {
            octets.push(u8::try_from(label.len()).expect("a label has at most 63 octets"));
            octets.extend_from_slice(label);
        }
        octets.push(0);
        octets
    }

    /// The number of octets of the name on the wire.
    pub fn length(&self) -> usize {
        wire_length(&self.labels)
    }

    /// The place of each label's length octet on the wire, from the left: the octets that are not
    /// of this label or of those to its right.
    pub fn label_places(&self) -> Vec<u8> {
        let places = (1..=self.labels.len())
            .rev()
            .map(|number| self.length() - wire_length(&self.labels[..number]));
        places
            .map(|place| u8::try_from(place).expect("a name has at most 255 octets"))
            .collect()
    }

    /// The name with the octets 65 to 90 of its labels turned into 97 to 122.
    pub fn folded(&self) -> Name {
        let labels = self
            .labels
            .iter()
            .map(|label| label.iter().map(|&octet| fold_octet(octet)).collect())
            .collect();
        Name { labels }
    }

    /// Whether the name is the apex or lies under it. Both are taken folded.
    pub fn is_at_or_under(&self, apex: &Name) -> bool {
        self.labels.starts_with(&apex.labels)
    }

    /// The canonical order of folded names. Lists and labels compare from their first element
    /// as unsigned octets, and whatever is missing sorts before whatever is there.
    pub fn canonical_order(&self, other: &Name) -> Ordering {
        self.labels.cmp(&other.labels)
    }

    /// How many labels two folded names share from the right.
    pub fn shared_labels(&self, other: &Name) -> usize {
        let pairs = self.labels.iter().zip(&other.labels);
        pairs.take_while(|(mine, theirs)| mine == theirs).count()
    }
}

/// The length on the wire of the name with these labels.
pub fn wire_length(labels: &[Label]) -> usize {
    1 + labels.iter().map(|label| 1 + label.len()).sum::<usize>()
}

/// Whether folding leaves the octet as it is.
pub fn is_folded(octet: u8) -> bool {
    !(65..=90).contains(&octet)
}

fn fold_octet(octet: u8) -> u8 {
    if is_folded(octet) {
        octet
    } else {
        octet + 32
    }
}
