"""The denial of a missing name, and what it is made of: where the gap of a missing name ends, what the denial is about, and whether a
record covers a name."""

import ctypes
from dataclasses import dataclass
from typing import Generic, Iterator, Optional, Tuple

from qorshudan._kinds import NAME_MAX, N, Name, NameSpace, number, of_kind, to_wire
from qorshudan._library import library
from qorshudan._refused import value

# Four names.
DENIAL_MAX = 1020

_Space = ctypes.c_char * DENIAL_MAX


@dataclass(frozen=True)
class Gap(Generic[N]):
    """The two ends of an NSEC record, which says that nothing lies between them: `owner, next = gap`."""

    owner: N
    next: N

    def __iter__(self) -> Iterator[N]:
        return iter((self.owner, self.next))


@dataclass(frozen=True)
class Denial(Generic[N]):
    """The gaps that deny a name: that of its next closer name and, where it is another one, that of the wildcard."""

    gaps: Tuple[Gap[N], ...]


def denial(name: N, *, apex: Name, encloser: Optional[Name] = None, limit: int = NAME_MAX) -> Denial[N]:
    """The denial of a name that is missing below its closest encloser, which is the apex unless told: the gaps of its next closer name and
    of the wildcard above the encloser, in one gap where they touch. The gaps cover these two names and all names under them, and no other.

    >>> denial("b.example.", apex="example.", limit=11).gaps
    (Gap(owner='a.example.', next='c.example.'), Gap(owner='\\\\).example.', next='+.example.'))
    """
    zone, query, space = to_wire(apex, "apex"), to_wire(name, "name"), _Space()
    above = zone if encloser is None else to_wire(encloser, "encloser")
    result = library.denial(zone, len(zone), number(limit, "limit"), above, len(above), query, len(query), space, DENIAL_MAX)
    lengths, at, names = value(result), 0, []
    while lengths:
        length = lengths & 0xFF
        names.append(of_kind(type(name), space[at : at + length]))
        lengths, at = lengths >> 8, at + length
    return Denial(tuple(Gap(*pair) for pair in zip(names[::2], names[1::2])))


def subtree_successor(name: N, apex: Name, limit: int = NAME_MAX, *, hostnames: bool = False) -> N:
    """The first name of the zone after a name and all names under it, or the apex where there is none: where the gap ends that denies the
    name and all names under it.

    >>> subtree_successor("a.foo.example.com.", apex="example.com.")
    'a\\\\000.foo.example.com.'
    """
    apex_octets, octets, space = to_wire(apex, "apex"), to_wire(name, "name"), NameSpace()
    result = library.subtree_successor(
        1 if hostnames else 0, apex_octets, len(apex_octets), number(limit, "limit"), octets, len(octets), space, NAME_MAX
    )
    return of_kind(type(name), space[: value(result)])


def next_closer(encloser: Name, query: N) -> Optional[N]:
    """The ancestor of a query, or the query itself, that has one label more than an encloser. None where the encloser is no ancestor of the
    query or the query itself, or one of the two is not well formed.

    >>> next_closer("example.com.", "a.b.example.com.")
    'b.example.com.'
    """
    above, octets = to_wire(encloser, "encloser"), to_wire(query, "query")
    length = value(library.next_closer(above, len(above), octets, len(octets)))
    return of_kind(type(query), octets[len(octets) - length :]) if length else None


def covers(owner: Name, next: Name, name: Name) -> bool:
    """Whether an NSEC record with these two ends covers a name, as a resolver reads it.

    >>> covers("a.example.com.", "c.example.com.", "b.example.com.")
    True
    """
    wires = to_wire(owner, "owner"), to_wire(next, "next"), to_wire(name, "name")
    return bool(value(library.covers(*(part for wire in wires for part in (wire, len(wire))))))
