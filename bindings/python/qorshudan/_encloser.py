"""The closest encloser of a missing name, read off the two ends of its gap, and the wildcard above it (RFC 4592)."""

from typing import Optional

from qorshudan._kinds import N, Name, filled, of_kind, to_wire
from qorshudan._library import library
from qorshudan._refused import value


def closest_encloser(query: N, owner: Name, next: Name) -> Optional[N]:
    """The closest encloser of a query that does not exist, from the owner and the next name of its gap: the longest ancestor that it
    shares with either. None where the query is not in the gap, or one of the three is not well formed. It comes in the query's kind,
    spelled as the owner or the next name spells it; a text is folded, as all texts are.

    >>> closest_encloser("a.shop.example.com.", owner="bar.example.com.", next="z.shop.example.com.")
    'shop.example.com.'
    """
    wires = to_wire(query, "query"), to_wire(owner, "owner"), to_wire(next, "next")
    told = value(library.closest_encloser(*(part for wire in wires for part in (wire, len(wire)))))
    of, length = wires[2] if told & 256 else wires[1], told & 255
    return of_kind(type(query), of[len(of) - length :]) if length else None


def wildcard(encloser: N) -> N:
    """The wildcard name of an encloser: the label * and then the encloser.

    >>> wildcard("example.com.")
    '*.example.com.'
    """
    return of_kind(type(encloser), filled(library.wildcard, to_wire(encloser, "encloser")))
