//! Refusals, and the packed result that they are read from.

use crate::raw;
use core::error::Error;
use core::fmt;

/// Why there is no answer. If several reasons apply, the one with the lowest number is given, but
/// [`NoRoom`](Refusal::NoRoom) only when no other applies.
#[derive(Clone, Copy, Debug, PartialEq, Eq, Hash)]
#[non_exhaustive]
pub enum Refusal {
    /// 1: the limit is not 1 to 255.
    BadLimit,
    /// 2: the apex is not well formed.
    BadApex(Fault),
    /// 3: the limit leaves no room for a name under the apex: the length of the apex plus 2 is above
    /// it.
    ApexTooLong,
    /// 4: the name (in a comparison, the first name) is not well formed.
    BadName(Fault),
    /// 5: the name is longer than the limit; a wildcard, than 255 octets.
    NameTooLong,
    /// 6: the name is not at or under the apex.
    NotUnderApex,
    /// 7, modified neighbours only: the apex and a label of 63 octets for each label of depth are
    /// longer than the limit, or the depth is not 1 to 3.
    NoFullLabel,
    // 8 is reserved: no function gives it.
    /// 9: the answer is longer than the space.
    NoRoom,
    /// 10: the octets are no name's sorting key. Holds the place: the length of the longest
    /// beginning of the octets that some key also begins with.
    NotAKey(usize),
    /// 11: the second name of a comparison is not well formed.
    BadSecondName(Fault),
    /// 12: a label of the name above the apex has an octet, folded, that is not in the alphabet.
    NotInAlphabet,
    /// 14: the octets are no name's text. Holds the place: the length of the longest beginning of
    /// the octets that some text also begins with.
    NotAText(usize),
    /// 15: the octets are no type bitmap. Holds the place: the length of the longest beginning of
    /// the octets that some bitmap also begins with. Or a list of types does not strictly rise: holds
    /// the index of the first type that is not above the one before it.
    NotASet(usize),
    /// 16: the list is none of owners. Holds the index of the first owner that breaks it, or that is
    /// looked at and is no name; 0 for too large a list, and in a check for an empty one and where
    /// the first owner does not start at 0.
    NotAList(usize),
    /// 17: the octets are not 20, so they are no hash, or the characters are no hash's owner label.
    NotAHash,
    /// 18: the encloser is no proper ancestor of the query at or under the apex.
    NotAnEncloser,
}

/// Why octets are not one well formed name. Each holds its place, an index into the octets, which
/// are read from the left.
#[derive(Clone, Copy, Debug, PartialEq, Eq, Hash)]
pub enum Fault {
    /// The octets end before the name does. The place is their length.
    CutShort(usize),
    /// Octets follow the zero octet that ends the name. The place is the first of them.
    LeftOver(usize),
    /// A length octet is above 63 (a compression pointer, for one). The place is its own.
    BadLength(usize),
    /// A label would make the name longer than 255 octets. The place is its length octet.
    TooLong(usize),
}

impl Refusal {
    /// The number that the exported C functions give. None has the number 8, which is reserved.
    #[must_use]
    pub const fn number(self) -> u8 {
        match self {
            Refusal::BadLimit => 1,
            Refusal::BadApex(_) => 2,
            Refusal::ApexTooLong => 3,
            Refusal::BadName(_) => 4,
            Refusal::NameTooLong => 5,
            Refusal::NotUnderApex => 6,
            Refusal::NoFullLabel => 7,
            Refusal::NoRoom => 9,
            Refusal::NotAKey(_) => 10,
            Refusal::BadSecondName(_) => 11,
            Refusal::NotInAlphabet => 12,
            Refusal::NotAText(_) => 14,
            Refusal::NotASet(_) => 15,
            Refusal::NotAList(_) => 16,
            Refusal::NotAHash => 17,
            Refusal::NotAnEncloser => 18,
        }
    }

    /// The fault of the apex or the name that is not well formed.
    #[must_use]
    pub const fn fault(self) -> Option<Fault> {
        match self {
            Refusal::BadApex(fault) | Refusal::BadName(fault) | Refusal::BadSecondName(fault) => {
                Some(fault)
            }
            _ => None,
        }
    }

    /// The place in the octets that are not well formed, or are no key, no text or no bitmap, or the
    /// index into types that do not rise, or into the owners of a list.
    #[must_use]
    pub const fn place(self) -> Option<usize> {
        match self {
            Refusal::NotAKey(place)
            | Refusal::NotAText(place)
            | Refusal::NotASet(place)
            | Refusal::NotAList(place) => Some(place),
            _ => match self.fault() {
                Some(fault) => Some(fault.place()),
                None => None,
            },
        }
    }
}

impl Fault {
    /// The index into the octets.
    #[must_use]
    pub const fn place(self) -> usize {
        match self {
            Fault::CutShort(place)
            | Fault::LeftOver(place)
            | Fault::BadLength(place)
            | Fault::TooLong(place) => place,
        }
    }

    /// The number of the reason, 1 to 4, that the exported C functions give.
    #[must_use]
    pub const fn reason(self) -> u8 {
        match self {
            Fault::CutShort(_) => 1,
            Fault::LeftOver(_) => 2,
            Fault::BadLength(_) => 3,
            Fault::TooLong(_) => 4,
        }
    }
}

impl Refusal {
    /// What there is to say but the place: the sentence that `qorshudan_strerror` has in the C
    /// header.
    const fn sentence(self) -> &'static str {
        match self {
            Refusal::BadLimit => "the limit is not 1 to 255",
            Refusal::BadApex(_) => "the apex is not well formed",
            Refusal::ApexTooLong => {
                "the limit leaves no room for a name under the apex: the length of the apex plus 2 is above it"
            }
            Refusal::BadName(_) => "the name is not well formed",
            Refusal::NameTooLong => "the name is longer than the limit",
            Refusal::NotUnderApex => "the name is not at or under the apex",
            Refusal::NoFullLabel => {
                "the limit leaves less than 64 octets for each label of depth, or the depth is not 1 to 3"
            }
            Refusal::NoRoom => "the answer is longer than the space",
            Refusal::NotAKey(_) => "the octets are no name's sorting key",
            Refusal::BadSecondName(_) => "the second name is not well formed",
            Refusal::NotInAlphabet => {
                "a label above the apex has an octet that is not in the alphabet"
            }
            Refusal::NotAText(_) => "the octets are no name's text",
            Refusal::NotASet(_) => "the octets are no type bitmap, or the types do not rise",
            Refusal::NotAList(_) => "the list is none of owners",
            Refusal::NotAHash => "the octets are no hash, or no hash's owner label",
            Refusal::NotAnEncloser => {
                "the encloser is no proper ancestor of the query at or under the apex"
            }
        }
    }
}

impl Fault {
    /// What there is to say but the place: the sentence that `qorshudan_reason_string` has in the C
    /// header.
    const fn sentence(self) -> &'static str {
        match self {
            Fault::CutShort(_) => "it is cut short",
            Fault::LeftOver(_) => "octets are left over behind its end",
            Fault::BadLength(_) => "a length octet is above 63",
            Fault::TooLong(_) => "a label makes it longer than 255 octets",
        }
    }
}

impl fmt::Display for Refusal {
    fn fmt(&self, f: &mut fmt::Formatter<'_>) -> fmt::Result {
        f.write_str(self.sentence())?;
        match (self.fault(), self.place()) {
            (Some(fault), _) => write!(f, ": {fault}"),
            (None, Some(place)) if matches!(self, Refusal::NotASet(_) | Refusal::NotAList(_)) => {
                write!(f, ", at {place}")
            }
            (None, Some(place)) => write!(f, ", at octet {place}"),
            (None, None) => Ok(()),
        }
    }
}

impl fmt::Display for Fault {
    fn fmt(&self, f: &mut fmt::Formatter<'_>) -> fmt::Result {
        write!(f, "{}, at octet {}", self.sentence(), self.place())
    }
}

impl Error for Refusal {}

impl Error for Fault {}

/// The value of an answer in a result of the library, or the refusal.
pub(crate) fn unpack(packed: u64) -> Result<usize, Refusal> {
    let value = raw::value(packed) as usize;
    let fault = || match raw::reason(packed) {
        1 => Fault::CutShort(value),
        2 => Fault::LeftOver(value),
        3 => Fault::BadLength(value),
        4 => Fault::TooLong(value),
        _ => unknown(packed),
    };
    Err(match raw::number(packed) {
        0 => return Ok(value),
        1 => Refusal::BadLimit,
        2 => Refusal::BadApex(fault()),
        3 => Refusal::ApexTooLong,
        4 => Refusal::BadName(fault()),
        5 => Refusal::NameTooLong,
        6 => Refusal::NotUnderApex,
        7 => Refusal::NoFullLabel,
        9 => Refusal::NoRoom,
        10 => Refusal::NotAKey(value),
        11 => Refusal::BadSecondName(fault()),
        12 => Refusal::NotInAlphabet,
        14 => Refusal::NotAText(value),
        15 => Refusal::NotASet(value),
        16 => Refusal::NotAList(value),
        17 => Refusal::NotAHash,
        18 => Refusal::NotAnEncloser,
        _ => unknown(packed),
    })
}

fn unknown(packed: u64) -> ! {
    panic!("libqorshudan.a is not the one this crate was written for: it returned {packed:#x}")
}

#[cfg(test)]
mod tests {
    extern crate std;

    use super::*;
    use std::string::ToString;

    #[test]
    fn each_number_with_its_values() {
        let expected = [
            (1, Refusal::BadLimit),
            (2, Refusal::BadApex(Fault::CutShort(7))),
            (3, Refusal::ApexTooLong),
            (4, Refusal::BadName(Fault::LeftOver(7))),
            (5, Refusal::NameTooLong),
            (6, Refusal::NotUnderApex),
            (7, Refusal::NoFullLabel),
            (9, Refusal::NoRoom),
            (10, Refusal::NotAKey(7)),
            (11, Refusal::BadSecondName(Fault::TooLong(7))),
            (12, Refusal::NotInAlphabet),
            (14, Refusal::NotAText(7)),
            (15, Refusal::NotASet(7)),
            (16, Refusal::NotAList(7)),
            (17, Refusal::NotAHash),
            (18, Refusal::NotAnEncloser),
        ];
        for (number, refusal) in expected {
            let reason = refusal.fault().map_or(0, Fault::reason);
            let place = refusal.place().unwrap_or(0);
            let packed = number + (u64::from(reason) << 8) + ((place as u64) << 16);
            assert_eq!(unpack(packed), Err(refusal));
            assert_eq!(u64::from(refusal.number()), number);
        }
        assert_eq!(unpack(255 << 16), Ok(255));
    }

    #[test]
    fn each_reason() {
        for (reason, fault) in (1..).zip([
            Fault::CutShort(9),
            Fault::LeftOver(9),
            Fault::BadLength(9),
            Fault::TooLong(9),
        ]) {
            assert_eq!(u64::from(fault.reason()), reason);
            let packed = 4 + (reason << 8) + (9 << 16);
            assert_eq!(unpack(packed), Err(Refusal::BadName(fault)));
        }
    }

    #[test]
    #[should_panic = "it returned 0xff"]
    fn another_library() {
        let _ = unpack(255);
    }

    #[test]
    #[should_panic = "it returned 0x8"]
    fn reserved() {
        let _ = unpack(8);
    }

    #[test]
    fn sentences() {
        for (refusal, expected) in [
            (
                &Refusal::BadApex(Fault::BadLength(8)) as &dyn Error,
                "the apex is not well formed: a length octet is above 63, at octet 8",
            ),
            (&Refusal::NoRoom, "the answer is longer than the space"),
            (
                &Refusal::NotAText(3),
                "the octets are no name's text, at octet 3",
            ),
            (
                &Refusal::NotASet(2),
                "the octets are no type bitmap, or the types do not rise, at 2",
            ),
            (&Fault::CutShort(0), "it is cut short, at octet 0"),
        ] {
            assert_eq!(refusal.to_string(), expected);
        }
    }

    /// Expects that the C header gives a constant this number, and returns this sentence for it.
    fn expect_in_header(constant: &str, number: u8, sentence: &str) {
        let header = include_str!("../../../include/qorshudan.h");
        let given = std::format!("    QORSHUDAN_{constant} = {number}");
        let is_given = header
            .lines()
            .any(|line| line.trim_end_matches(',') == given);
        assert!(is_given, "{constant} is not {number}");
        let returned =
            std::format!("    case QORSHUDAN_{constant}:\n        return \"{sentence}\";\n");
        assert!(header.contains(&returned), "{constant}: not '{sentence}'");
    }

    #[test]
    fn numbers_and_sentences_of_the_header() {
        let fault = Fault::CutShort(0);
        for (constant, refusal) in [
            ("BAD_LIMIT", Refusal::BadLimit),
            ("BAD_APEX", Refusal::BadApex(fault)),
            ("APEX_TOO_LONG", Refusal::ApexTooLong),
            ("BAD_NAME", Refusal::BadName(fault)),
            ("NAME_TOO_LONG", Refusal::NameTooLong),
            ("NOT_UNDER_APEX", Refusal::NotUnderApex),
            ("NO_FULL_LABEL", Refusal::NoFullLabel),
            ("NO_ROOM", Refusal::NoRoom),
            ("NOT_A_KEY", Refusal::NotAKey(0)),
            ("BAD_SECOND_NAME", Refusal::BadSecondName(fault)),
            ("NOT_IN_ALPHABET", Refusal::NotInAlphabet),
            ("NOT_A_TEXT", Refusal::NotAText(0)),
            ("NOT_A_SET", Refusal::NotASet(0)),
            ("NOT_A_LIST", Refusal::NotAList(0)),
            ("NOT_A_HASH", Refusal::NotAHash),
        ] {
            expect_in_header(constant, refusal.number(), refusal.sentence());
        }
        for (constant, fault) in [
            ("REASON_CUT_SHORT", Fault::CutShort(0)),
            ("REASON_LEFT_OVER", Fault::LeftOver(0)),
            ("REASON_BAD_LENGTH", Fault::BadLength(0)),
            ("REASON_TOO_LONG", Fault::TooLong(0)),
        ] {
            expect_in_header(constant, fault.reason(), fault.sentence());
        }
    }
}
