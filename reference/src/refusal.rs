//! The numbered refusals and, for octets that are not a name, the fault and its place.

/// Why octets are not exactly one whole name. Each case holds its place.
#[derive(Clone, Copy, Debug, PartialEq, Eq)]
pub enum Fault {
    CutShort(usize),
    LeftOver(usize),
    BadLength(usize),
    TooLong(usize),
}

impl Fault {
    /// 1 cut short, 2 left over, 3 bad length, 4 too long.
    pub fn reason(self) -> u8 {
        match self {
            Fault::CutShort(_) => 1,
            Fault::LeftOver(_) => 2,
            Fault::BadLength(_) => 3,
            Fault::TooLong(_) => 4,
        }
    }

    pub fn place(self) -> usize {
        match self {
            Fault::CutShort(place)
            | Fault::LeftOver(place)
            | Fault::BadLength(place)
            | Fault::TooLong(place) => place,
        }
    }
}

/// The refusals, in the order of their numbers, of which 8 is none.
#[derive(Clone, Copy, Debug, PartialEq, Eq)]
pub enum Refusal {
    /// The limit is not 1 to 255.
    Limit,
    /// The apex is not well formed.
    Apex(Fault),
    /// The apex is longer than the limit.
    ApexAboveLimit,
    /// The name (in a comparison, the first name) is not well formed.
    Name(Fault),
    /// The name is longer than the limit (a wildcard, than 255 octets).
    NameAboveLimit,
    /// The name is not at or under the apex.
    NotUnderApex,
    /// Modified neighbours only: the depth is not 1 to 3, or the apex and so many labels of 63
    /// octets do not fit in the limit.
    NoLabelToSpare,
    /// The answer is longer than the space.
    NoRoom,
    /// The bytes are no name's key; the place is where they part from every key.
    NoKey(usize),
    /// The second name of a comparison is not well formed.
    SecondName(Fault),
    /// A label of the name above the apex has an octet that is not in the alphabet.
    NotInAlphabet,
    /// In a batch: this is no question, or one that no batch can hold.
    NoQuestion,
    /// The characters are no name's text; the place is where they part from every such text.
    NoText(usize),
    /// The octets are no type bitmap; the place is where they part from every bitmap. Or the types
    /// do not rise; the place is the first index where they don't.
    NoTypes(usize),
    /// The list is none of this zone's owners; the index is that of the first owner to break it. In
    /// a lookup: an owner looked at is no name, and the index is its own; or the list is too large.
    NoOwners(usize),
    /// The octets are no hash, or the characters no hash's owner label.
    NoHash,
    /// In a denial: the encloser is no well formed proper ancestor of the query that is at or under
    /// the apex.
    NoEncloser,
}

impl Refusal {
    pub fn number(self) -> u8 {
        match self {
            Refusal::Limit => 1,
            Refusal::Apex(_) => 2,
            Refusal::ApexAboveLimit => 3,
            Refusal::Name(_) => 4,
            Refusal::NameAboveLimit => 5,
            Refusal::NotUnderApex => 6,
            Refusal::NoLabelToSpare => 7,
            Refusal::NoRoom => 9,
            Refusal::NoKey(_) => 10,
            Refusal::SecondName(_) => 11,
            Refusal::NotInAlphabet => 12,
            Refusal::NoQuestion => 13,
            Refusal::NoText(_) => 14,
            Refusal::NoTypes(_) => 15,
            Refusal::NoOwners(_) => 16,
            Refusal::NoHash => 17,
            Refusal::NoEncloser => 18,
        }
    }

    /// The fault's reason for 2, 4 and 11, otherwise 0.
    pub fn reason(self) -> u8 {
        self.fault().map_or(0, Fault::reason)
    }

    /// The place for 2, 4, 10, 11, 14 and 15 (for types that do not rise, the index), the index
    /// for 16, otherwise 0.
    pub fn place(self) -> usize {
        match self {
            Refusal::NoKey(place) | Refusal::NoText(place) | Refusal::NoTypes(place) => place,
            Refusal::NoOwners(index) => index,
            other => other.fault().map_or(0, Fault::place),
        }
    }

    fn fault(self) -> Option<Fault> {
        match self {
            Refusal::Apex(fault) | Refusal::Name(fault) | Refusal::SecondName(fault) => Some(fault),
            _ => None,
        }
    }
}
