"""Lists of a zone's owners, for zones that are signed ahead: checked, and searched for the gap that a query lies in."""

import ctypes
from typing import Generic, Iterable, List, NamedTuple, Optional

from qorshudan._kinds import NAME_MAX, N, Name, number, of_kind, to_wire
from qorshudan._library import library
from qorshudan._refused import refusal, value

OWNERS_MAX = 16384
OWNER_OCTETS_MAX = 4194304


class Found(NamedTuple):
    """What a lookup finds: the index of the last owner that it found not after the query, or None, and how many owners it looked at."""

    owner: Optional[int]
    looks: int


class Owners(Generic[N]):
    """The owners of a zone as a checked list: the apex, and then folded names of the zone, each after the one before it.

    >>> owners = Owners(["example.com.", "a.example.com.", "www.example.com."], apex="example.com.")
    >>> owners.find("b.example.com.")
    Found(owner=1, looks=2)
    >>> owners[1], owners.next(1)
    ('a.example.com.', 'www.example.com.')
    """

    def __init__(self, names: Iterable[N], apex: Name, limit: int = NAME_MAX) -> None:
        """Checks names in the order in which they come. Texts are folded; names of another kind must be."""
        wires: List[bytes] = []
        kind: type = bytes
        for name in names:
            kind = type(name)
            wire = to_wire(name, "names")
            wires.append(to_wire(of_kind(str, wire), "names") if isinstance(name, str) else wire)
        self._kind = kind
        self._wires = wires
        self._names = b"".join(wires)
        starts, at = [], 0
        for wire in wires:
            # A start beyond 32 bits belongs to a list that is refused as too large, whatever its starts are.
            starts.append(at & 0xFFFFFFFF)
            at += len(wire)
        self._starts = (ctypes.c_uint32 * len(starts))(*starts)
        zone = to_wire(apex, "apex")
        result = library.check_owners(
            zone, len(zone), number(limit, "limit"), self._names, len(self._names), self._starts, len(starts)
        )
        if result & 0xFF:
            raise refusal(result)

    def __len__(self) -> int:
        return len(self._wires)

    def __getitem__(self, index: int) -> N:
        owner: N = of_kind(self._kind, self._wires[index])
        return owner

    def next(self, index: int) -> N:
        """The owner after that of an index, and after the last one the first, which is the apex."""
        return self[(index + 1) % len(self)]

    def find(self, query: Name) -> Found:
        """The last owner that is not after a query, letter case aside. A query of the zone is this owner, or lies in the gap from it to
        the next one."""
        wire = to_wire(query, "query")
        told = value(library.find_owner(self._names, len(self._names), self._starts, len(self), wire, len(wire)))
        return Found(told // 256 - 1 if told >= 256 else None, told % 256)
