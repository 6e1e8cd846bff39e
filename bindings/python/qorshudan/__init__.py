r"""Proved DNS name arithmetic for signers: the canonical order, sorting keys, names as text, the names next to a name in a zone
(RFC 4471), whole denials, closest enclosers and wildcards, type bitmaps, lists of owners, and the hashes of NSEC3 zones.

    >>> import qorshudan
    >>> qorshudan.successor("foo.example.com.", apex="example.com.")
    '\\000.foo.example.com.'
    >>> sorted(["b.example.", "a.b.example.", "a.example."], key=qorshudan.key)
    ['a.example.', 'b.example.', 'a.b.example.']

A name is `str` (text, with its final dot), `bytes` (wire format) or dnspython's `dns.name.Name`, and an answer comes in the kind that was
given. What cannot be answered raises `Refused`, a ValueError with number, reason and place, and a subclass for each number:

    >>> qorshudan.fold("a..example.")
    Traceback (most recent call last):
        ...
    qorshudan.NotAText: name: refused 14 at 2: the octets are no name's text: an empty label

Every answer comes from the library, whose code is proved; this module hands octets to it and back, which is tested. Any number of threads
may call any function at once.
"""

from qorshudan._denial import DENIAL_MAX, Denial, Gap, covers, denial, next_closer, subtree_successor
from qorshudan._encloser import closest_encloser, wildcard
from qorshudan._hashes import (
    HASH_LABEL_LENGTH,
    HASH_LENGTH,
    hash_after,
    hash_before,
    hash_between,
    read_hash_label,
    write_hash_label,
)
from qorshudan._kinds import NAME_MAX, TEXT_MAX, Name
from qorshudan._library import version
from qorshudan._names import KEY_MAX, LABELS_MAX, check, compare, fold, from_key, key, label_places, labels, text, wire
from qorshudan._neighbours import neighbours, predecessor, successor
from qorshudan._owners import OWNER_OCTETS_MAX, OWNERS_MAX, Found, Owners
from qorshudan._refused import (
    ApexTooLong,
    BadApex,
    BadLimit,
    BadName,
    BadSecondName,
    NameTooLong,
    NoFullLabel,
    NoRoom,
    NotAHash,
    NotAKey,
    NotAList,
    NotAnEncloser,
    NotASet,
    NotAText,
    NotInAlphabet,
    NotUnderApex,
    Refused,
)
from qorshudan._types import (
    BITMAP_MAX,
    count_types,
    has_type,
    largest_type,
    read_types,
    smallest_type,
    write_types,
)
from qorshudan._version import __version__

__all__ = [
    "__version__",
    "ApexTooLong",
    "BadApex",
    "BadLimit",
    "BadName",
    "BadSecondName",
    "BITMAP_MAX",
    "check",
    "closest_encloser",
    "compare",
    "count_types",
    "covers",
    "Denial",
    "denial",
    "DENIAL_MAX",
    "fold",
    "Found",
    "from_key",
    "Gap",
    "has_type",
    "hash_after",
    "hash_before",
    "hash_between",
    "HASH_LABEL_LENGTH",
    "HASH_LENGTH",
    "key",
    "KEY_MAX",
    "label_places",
    "labels",
    "LABELS_MAX",
    "largest_type",
    "Name",
    "NAME_MAX",
    "NameTooLong",
    "neighbours",
    "next_closer",
    "NoFullLabel",
    "NoRoom",
    "NotAHash",
    "NotAKey",
    "NotAList",
    "NotAnEncloser",
    "NotASet",
    "NotAText",
    "NotInAlphabet",
    "NotUnderApex",
    "Owners",
    "OWNERS_MAX",
    "OWNER_OCTETS_MAX",
    "predecessor",
    "read_hash_label",
    "read_types",
    "Refused",
    "smallest_type",
    "subtree_successor",
    "successor",
    "text",
    "TEXT_MAX",
    "version",
    "wildcard",
    "wire",
    "write_hash_label",
    "write_types",
]

# A traceback names an exception where users import it from.
for _refusal in [Refused] + Refused.__subclasses__():
    _refusal.__module__ = __name__
del _refusal
