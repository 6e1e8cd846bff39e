//! The neighbours that the papers tell: every case of document 01's "Names to try", the apex as
//! document 02's request Four has it, and every example of RFC 4471 section 5. What is expected is
//! copied from them. Names are in the papers' notation, under the apex `example.com.`

/// Which neighbour is asked for.
#[derive(Clone, Copy, Debug, PartialEq, Eq)]
pub enum Way {
    Predecessor,
    Successor,
    ModifiedPredecessor,
    ModifiedSuccessor,
}

impl Way {
    /// Its sign in RFC 4471.
    pub fn sign(self) -> &'static str {
        match self {
            Way::Predecessor => "P",
            Way::Successor => "S",
            Way::ModifiedPredecessor => "P'",
            Way::ModifiedSuccessor => "S'",
        }
    }
}

pub const WAYS: [Way; 4] = [P, S, MP, MS];

const P: Way = Way::Predecessor;
const S: Way = Way::Successor;
const MP: Way = Way::ModifiedPredecessor;
const MS: Way = Way::ModifiedSuccessor;

/// What the papers say: an answer, or a refusal by its number.
#[derive(Clone, Copy, Debug, PartialEq, Eq)]
pub enum Says {
    Answer(&'static str),
    Refusal(u8),
}
use Says::{Answer, Refusal};

/// The paper and its number, the way, the limit, the name, and what the paper says.
pub type Case = (&'static str, Way, u64, &'static str, Says);

#[rustfmt::skip]
pub const NEIGHBOURS: &[Case] = &[
    ("01, 1", P, 255, "foo", Answer(r"\255{49}.\255{63}.\255{63}.fon\255{60}")),
    ("01, 2", P, 255, r"\000.foo", Answer("foo")),
    ("01, 3", P, 255, r"foo\000", Answer(r"\255{45}.\255{63}.\255{63}.\255{63}.foo")),
    ("01, 3", S, 255, r"\255{45}.\255{63}.\255{63}.\255{63}.foo", Answer(r"foo\000")),
    ("01, 4", S, 255, "foo", Answer(r"\000.foo")),
    ("01, 5", S, 255, "fo{47}.o{63}.o{63}.o{63}", Answer(r"fo{47}\000.o{63}.o{63}.o{63}")),
    ("01, 5", S, 255, "fo{48}.o{63}.o{63}.o{63}", Answer("fo{47}p.o{63}.o{63}.o{63}")),
    ("01, 6", S, 255, r"\255{49}.o{63}.o{63}.o{63}", Answer("o{62}p.o{63}.o{63}")),
    ("01, 7", P, 255, "", Answer(r"\255{49}.\255{63}.\255{63}.\255{63}")),
    ("01, 7", S, 255, r"\255{49}.\255{63}.\255{63}.\255{63}", Answer("")),
    ("01, 8; 02, Thirteen", P, 14, "", Refusal(3)),
    ("01, 8; 02, Thirteen", S, 14, "", Refusal(3)),
    ("01, 8", P, 12, "", Refusal(3)),
    ("01, 8", S, 12, "", Refusal(3)),
    ("01, 9", S, 15, r"\@", Answer(r"\[")),
    ("01, 9", P, 15, r"\[", Answer(r"\@")),
    ("01, 9", S, 15, r"\255", Answer("")),
    ("01, 10", MP, 255, "bar.foo", Answer("foo")),
    ("01, 10", MS, 255, "bar.foo", Answer(r"foo\000")),
    ("01, 10", MP, 255, r"\000", Answer("")),
    ("01, 11", MP, 77, "foo", Answer(r"fon\255{60}")),
    ("01, 11", MP, 76, "foo", Refusal(7)),
    ("01, 11", MS, 76, "foo", Refusal(7)),
    ("02, Four", MP, 77, "", Answer(r"\255{63}")),
    ("02, Four", MS, 77, "", Answer(r"\000")),
    ("02, Four", MS, 255, "", Answer(r"\000")),
    ("02, Four", MP, 76, "", Refusal(7)),
    ("02, Four", MS, 76, "", Refusal(7)),
    ("01, under the apex by labels", P, 255, r"x\007example.com.", Refusal(6)),
    ("01, under the apex by labels", S, 255, r"x\007example.com.", Refusal(6)),
    ("RFC 4471, 5.1", P, 255, "foo", Answer(r"\255{49}.\255{63}.\255{63}.fon\255{60}")),
    ("RFC 4471, 5.1", P, 255, r"\000.foo", Answer("foo")),
    ("RFC 4471, 5.1", P, 255, r"foo\000", Answer(r"\255{45}.\255{63}.\255{63}.\255{63}.foo")),
    ("RFC 4471, 5.1", P, 255, r"fo\[", Answer(r"\255{49}.\255{63}.\255{63}.fo\@\255{60}")),
    ("RFC 4471, 5.1", P, 255, "", Answer(r"\255{49}.\255{63}.\255{63}.\255{63}")),
    ("RFC 4471, 5.2", S, 255, "foo", Answer(r"\000.foo")),
    ("RFC 4471, 5.2", S, 255, "fo{47}.o{63}.o{63}.o{63}", Answer(r"fo{47}\000.o{63}.o{63}.o{63}")),
    ("RFC 4471, 5.2", S, 255, "fo{48}.o{63}.o{63}.o{63}", Answer("fo{47}p.o{63}.o{63}.o{63}")),
    ("RFC 4471, 5.2", S, 255, r"\255{49}.o{63}.o{63}.o{63}", Answer("o{62}p.o{63}.o{63}")),
    ("RFC 4471, 5.2", S, 255, r"fo{40}\255{8}.o{63}.o{63}.o{63}", Answer("fo{39}p.o{63}.o{63}.o{63}")),
    ("RFC 4471, 5.2", S, 255, r"fo{47}\@.o{63}.o{63}.o{63}", Answer(r"fo{47}\[.o{63}.o{63}.o{63}")),
    ("RFC 4471, 5.2", S, 255, r"\255{49}.\255{63}.\255{63}.\255{63}", Answer("")),
    ("RFC 4471, 5.3", MP, 255, "foo", Answer(r"fon\255{60}")),
    ("RFC 4471, 5.3", MP, 255, "bar.foo", Answer("foo")),
    ("RFC 4471, 5.3", MP, 255, r"foo\000", Answer("foo")),
    ("RFC 4471, 5.3", MP, 255, r"\000", Answer("")),
    ("RFC 4471, 5.3", MP, 255, "", Answer(r"\255{63}")),
    ("RFC 4471, 5.4", MS, 255, "foo", Answer(r"foo\000")),
    ("RFC 4471, 5.4", MS, 255, "bar.foo", Answer(r"foo\000")),
    ("RFC 4471, 5.4", MS, 255, r"\255{63}", Answer("")),
];
