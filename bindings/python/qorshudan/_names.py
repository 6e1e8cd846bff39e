"""Names: checked, folded, compared, as text, as wire octets, by their labels and by their sorting keys."""

import ctypes
from typing import Any, List, Type, overload

from qorshudan._kinds import N, Name, Octets, filled, octets, of_kind, to_wire, write_text
from qorshudan._library import library
from qorshudan._refused import value

KEY_MAX = 504
LABELS_MAX = 127

_KeySpace = ctypes.c_char * KEY_MAX
_Places = ctypes.c_char * LABELS_MAX


def check(name: Name) -> int:
    """Checks that this is one well formed name, and answers its length in wire octets.

    >>> check("example.com.")
    13
    """
    wire_octets = to_wire(name, "name")
    return value(library.check(wire_octets, len(wire_octets)))


def wire(name: Name) -> bytes:
    """The wire octets of a name, in its own letter case.

    >>> wire("Example.com.")
    b'\\x07Example\\x03com\\x00'
    """
    wire_octets = to_wire(name, "name")
    value(library.check(wire_octets, len(wire_octets)))
    return wire_octets


def text(name: Name) -> str:
    """The text of a name (RFC 1035 section 5.1): folded, a dot after each label, other octets escaped.

    >>> text(b"\\x04A.b\\xff\\x03com\\x00")
    'a\\\\.b\\\\255.com.'
    """
    return write_text(to_wire(name, "name"))


def fold(name: N) -> N:
    """The name with A to Z as a to z.

    >>> fold("Example.COM.")
    'example.com.'
    """
    return of_kind(type(name), filled(library.fold, to_wire(name, "name")))


def _places(wire_octets: bytes) -> bytes:
    places = _Places()
    return places[: value(library.label_places(wire_octets, len(wire_octets), places, LABELS_MAX))]


def label_places(name: Name) -> List[int]:
    """Where the labels of a name begin: the places of their length octets in its wire octets, from the left.

    >>> label_places("foo.example.com.")
    [0, 4, 12]
    """
    return list(_places(to_wire(name, "name")))


def labels(name: Name) -> List[bytes]:
    """The labels of a name, from the left, in its own letter case; the root has none.

    >>> labels("Foo.example.com.")
    [b'Foo', b'example', b'com']
    """
    wire_octets = to_wire(name, "name")
    return [wire_octets[place + 1 :][: wire_octets[place]] for place in _places(wire_octets)]


def compare(first: Name, second: Name) -> int:
    """Compares two names in the canonical order (RFC 4034 section 6.1): 0 for names that differ in letter case at most, otherwise 1
    plus the number of labels that they share from the right, negative where the first sorts earlier.

    >>> compare("bar.example.com.", "FOO.example.com.")
    -3
    """
    one, other = to_wire(first, "first"), to_wire(second, "second")
    return value(library.compare(one, len(one), other, len(other))) - 128


def key(name: Name) -> bytes:
    """The sorting key of a name: keys sort as their names do in the canonical order, and two names have the same key exactly when
    they differ in letter case at most.

    >>> sorted(["b.example.", "example.", "Z.a.example."], key=key)
    ['example.', 'Z.a.example.', 'b.example.']
    """
    wire_octets = to_wire(name, "name")
    space: Any = _KeySpace()
    answer: bytes = space[: value(library.write_key(wire_octets, len(wire_octets), space, KEY_MAX))]
    return answer


@overload
def from_key(key: Octets) -> str: ...


@overload
def from_key(key: Octets, kind: Type[N]) -> N: ...


def from_key(key: Octets, kind: Any = str) -> Any:
    """The one folded name that has this key, in a kind: str, bytes or dns.name.Name.

    >>> from_key(b"com\\0example\\0")
    'example.com.'
    """
    return of_kind(kind, filled(library.read_key, octets(key, "key")))
