"""Names that exist, from a file: one a line, and behind it its types where they are known. Whether they are a zone's owners, and where a
query lies among them, the library tells; this finds the line of a fault, and words for it."""

import functools
from typing import Dict, Iterator, List, NamedTuple, Optional, Sequence, Tuple

import qorshudan
from qorshudan._answer import Refusal, refusal_of
from qorshudan._lines import numbered, place
from qorshudan._mnemonics import number_of
from qorshudan._owners import OWNER_OCTETS_MAX, OWNERS_MAX
from qorshudan._refused import NotAList, Refused
from qorshudan._show import shortened


class Line(NamedTuple):
    """A name of the list, with the number of its line, 0 for an apex that the file lacks."""

    number: int
    wire: bytes
    types: Tuple[str, ...]


class Place(NamedTuple):
    """Where a query of the zone lies in a list."""

    owner: int  # the index of the last name that is not after it
    looks: int  # how many names were looked at
    is_owner: bool  # that name is the query, letter case aside
    exists: bool  # the query is a name of the list, or an ancestor of one
    encloser: bytes  # its longest ancestor that exists, which may be itself
    wildcard: Optional[bytes]  # of a query that does not exist, the wildcard above the encloser, if that exists


class Existing:
    """The names of a zone that exist."""

    def __init__(self, lines: Sequence[Line], apex: bytes, limit: int) -> None:
        self.lines, self.apex = lines, apex
        self.owners = qorshudan.Owners([line.wire for line in lines], apex, limit)

    def encloser(self, name: bytes) -> Tuple[int, int, bytes]:
        """The index of the last name that is not after a name of the zone, the looks, and the longest ancestor that exists."""
        index, looks = self.owners.find(name)
        assert index is not None  # the apex is the first of the list, and not after a name of its zone
        owner = self.owners[index]
        if qorshudan.compare(owner, name) == 0:
            return index, looks, owner
        encloser = qorshudan.closest_encloser(name, owner, self.owners.next(index))
        assert encloser is not None  # the name lies in this gap
        return index, looks, encloser

    def exists(self, name: bytes) -> bool:
        """Whether a name of the zone is one of the list or an ancestor of one."""
        return len(self.encloser(name)[2]) == len(name)

    def index(self, name: bytes) -> Optional[int]:
        """The index of a name of the zone, if the list has it."""
        index = self.encloser(name)[0]
        return index if qorshudan.compare(self.owners[index], name) == 0 else None

    def find(self, query: bytes) -> Place:
        """Where a name of the zone lies."""
        index, looks, encloser = self.encloser(query)
        if len(encloser) == len(query):
            return Place(index, looks, self.index(query) is not None, True, encloser, None)
        wildcard = qorshudan.wildcard(encloser)
        return Place(index, looks, False, False, encloser, wildcard if self.exists(wildcard) else None)

    def around(self, name: bytes) -> Tuple[bytes, bytes]:
        """The last name of the list that is not after a name of the zone, and the one after that."""
        index = self.encloser(name)[0]
        return self.owners[index], self.owners.next(index)

    def types(self, name: bytes) -> Optional[Tuple[str, ...]]:
        """The types of a name that exists, or None where the list does not tell them. An empty non-terminal has none."""
        index = self.index(name)
        return () if index is None else self.lines[index].types or None


# A list, or else what is refused of it.
Outcome = Tuple[Optional[Existing], List[Refusal]]


def _at(path: str, line: Optional[Line], refusal: Refusal) -> Refusal:
    """A refusal at a line of a file."""
    if line is None or not line.number:
        return refusal
    return refusal._replace(line=line.number, where=place(path, line.number))


# A file is read once, since it may be standard input.
@functools.lru_cache(maxsize=None)
def _read(path: str, of: str) -> Tuple[List[Line], List[Refusal]]:
    """The names of a file as they stand there, and what is refused of it."""
    lines, refusals = [], []
    for number, (text, *types) in numbered(path):
        try:
            lines.append(Line(number, qorshudan.wire(text), tuple(types)))
        except Refused as refused:
            refusals.append(_at(path, Line(number, b"", ()), refusal_of(of, refused, text)))
    return lines, refusals


def _too_large(lines: Sequence[Line]) -> Optional[str]:
    if len(lines) > OWNERS_MAX:
        return f"it has {len(lines)} names, and {OWNERS_MAX} are the most"
    octets = sum(len(line.wire) for line in lines)
    return f"its names have {octets} octets, and {OWNER_OCTETS_MAX} are the most" if octets > OWNER_OCTETS_MAX else None


def _fault(lines: Sequence[Line], index: int, apex: bytes, limit: int) -> str:
    """Why a list breaks at an index, in words."""
    if not lines:
        return "it has no name"
    wire, shown = lines[index].wire, [shortened(qorshudan.text(line.wire)) for line in lines[max(index - 1, 0) : index + 1]]
    name = shown[-1]
    if qorshudan.fold(wire) != wire:
        return f"it is not written in lower case: {name}"
    if index == 0:
        return f"the first name is not the apex, {shortened(qorshudan.text(apex))}"
    try:
        qorshudan.successor(wire, apex, limit)
    except Refused as refused:
        return f"{name} is no name of the zone: {refused.sentence}"
    if qorshudan.compare(lines[index - 1].wire, wire) == 0:
        return f"{name} stands twice"
    return f"{name} sorts before {shown[0]}, which stands before it"


def _checked(path: str, of: str, lines: Sequence[Line], apex: bytes, limit: int) -> Outcome:
    try:
        return Existing(lines, apex, limit), []
    except NotAList as refused:
        index, large = refused.place or 0, _too_large(lines)
        at = lines[index] if lines and large is None else None
        sentence = f"{refused.why}: {large or _fault(lines, index, apex, limit)}"
        return None, [_at(path, at, refusal_of(of, refused)._replace(sentence=sentence))]
    except Refused as refused:
        return None, [refusal_of(of, refused)]


@functools.lru_cache(maxsize=None)
def as_it_stands(path: str, of: str, apex: Optional[bytes], limit: int) -> Outcome:
    """A list that must be in canonical order, the apex first: this one, or whatever the first name is."""
    lines, refusals = _read(path, of)
    if refusals:
        return None, refusals
    if apex is None:
        apex = qorshudan.fold(lines[0].wire) if lines else b"\0"
    return _checked(path, of, lines, apex, limit)


def _outside(line: Line, of: str, apex: bytes, limit: int) -> Iterator[Refusal]:
    """Why a line is none of a zone's names with its types."""
    try:
        qorshudan.successor(line.wire, apex, limit)
    except Refused as refused:
        yield refusal_of(of, refused)
    for one in line.types:
        try:
            number_of(one)
        except ValueError as wrong:
            yield Refusal(of, 0, None, None, str(wrong))


@functools.lru_cache(maxsize=None)
def sorted_here(path: str, of: str, apex: bytes, limit: int) -> Outcome:
    """A list in any order and any letter case, in which names may stand twice, and the apex need not."""
    lines, refused = _read(path, of)
    refused = refused + [_at(path, line, why) for line in lines for why in _outside(line, of, apex, limit)]
    if refused:
        return None, sorted(refused, key=lambda refusal: refusal.line or 0)
    by_key: Dict[bytes, Line] = {qorshudan.key(apex): Line(0, qorshudan.fold(apex), ())}
    for line in lines:
        known = by_key.setdefault(qorshudan.key(line.wire), Line(0, qorshudan.fold(line.wire), ()))
        by_key[qorshudan.key(line.wire)] = Line(known.number or line.number, known.wire, known.types + line.types)
    return _checked(path, of, [by_key[key] for key in sorted(by_key)], apex, limit)
