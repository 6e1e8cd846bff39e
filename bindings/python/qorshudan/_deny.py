"""The command `deny`: the NSEC records that deny a name, or a type of it."""

from typing import Any, Dict, List, NamedTuple, Optional, Sequence, Set, Tuple, Union

import qorshudan
from qorshudan import _lists
from qorshudan._answer import Answer, WrongUsage
from qorshudan._mnemonics import mnemonic_of, number_of
from qorshudan._refused import Refused
from qorshudan._show import Row, rows, shortened

# What each kind of denial says, for its first line.
KINDS = {
    "nxdomain": "NXDOMAIN: {name} is missing",
    "nodata": "NODATA: {name} exists, and has no types but those below",
    "compact": "NODATA (RFC 9824): {name} is missing, which its type NXNAME tells",
    "wildcard": "beside an answer for {name} from {wildcard}: {next_closer} is missing",
}
ALWAYS = frozenset(map(number_of, ("RRSIG", "NSEC")))


class Some:
    """Names that exist, where there is no list: the apex, and what the question tells."""

    def __init__(self, *names: bytes) -> None:
        self.names = names

    def exists(self, name: bytes) -> bool:
        return name in self.names

    def around(self, name: bytes) -> Tuple[bytes, ...]:
        return self.names

    def types(self, name: bytes) -> None:
        return None


class Denied(NamedTuple):
    """A question that can be answered: the records' ends, what they deny with all names under it, what is known, and its parts by name."""

    kind: str
    apex: bytes
    gaps: Sequence[Tuple[bytes, bytes]]
    denied: Set[bytes]
    known: Union[Some, _lists.Existing]
    parts: Dict[str, bytes]

    def existing(self) -> List[bytes]:
        """The owners that are known to exist."""
        return [owner for owner, _ in self.gaps if self.known.exists(owner)]


def _shown(wire: bytes) -> str:
    return shortened(qorshudan.text(wire))


def _why_not(kind: str, name: bytes, found: _lists.Place) -> Optional[str]:
    """Why a name is not denied, of which a list tells where it lies."""
    shown, answers = _shown(name), "" if found.wildcard is None else _shown(found.wildcard)
    if kind == "nodata" and not found.exists:
        return f"{shown} is missing" + (f", and {answers} answers for it" if answers else "")
    if kind != "nodata" and found.exists:
        return f"{shown} exists{'' if found.is_owner else ', as an empty non-terminal'}: --nodata denies a type of it"
    if kind == "wildcard" and not answers:
        return f"no wildcard of the list answers for {shown}"
    if kind in ("nxdomain", "compact") and answers:
        return f"{answers} exists, and answers for {shown}: --wildcard denies the name beside such an answer"
    return None


def _denial(answer: Answer, kind: str, apex: bytes, name: bytes, encloser: Optional[bytes]) -> Optional[Denied]:
    """What a question is about, or None where it is not denied. All names come from the library."""
    limit, known = answer.options.limit, None
    after = qorshudan.successor(name, apex, limit)  # refuses what is no name of the zone, before a list is looked at
    if answer.options.names is not None:
        known, refusals = _lists.sorted_here(answer.options.names, "names", apex, limit)
        answer.refusals += refusals
        if known is None:
            return None
        found = known.find(name)
        why_not = _why_not(kind, name, found)
        if why_not is not None:
            answer.decline("name", why_not)
            return None
        encloser = found.encloser
    if kind == "compact" and name == apex:
        answer.decline("name", f"{_shown(name)} exists: --nodata denies a type of it")
        return None
    if kind in ("nodata", "compact"):
        return Denied(kind, apex, [(name, after)], set(), known or Some(*{apex, name} if kind == "nodata" else {apex}), {"name": name})
    encloser = apex if encloser is None else encloser
    gaps = [(gap.owner, gap.next) for gap in qorshudan.denial(name, apex=apex, encloser=encloser, limit=limit).gaps]
    closer, wildcard = qorshudan.next_closer(encloser, name), qorshudan.wildcard(encloser)
    assert closer is not None  # else the denial is refused
    parts = {"name": name, "encloser": encloser, "next_closer": closer, "wildcard": wildcard}
    if kind == "nxdomain":
        return Denied(kind, apex, gaps, {closer, wildcard}, known or Some(*{apex, encloser}), parts)
    if closer == wildcard:
        answer.decline("name", f"{_shown(name)} is at or under {_shown(wildcard)}, which answers for no name there")
        return None
    gaps = [(qorshudan.predecessor(closer, apex, limit), qorshudan.subtree_successor(closer, apex, limit))]
    return Denied(kind, apex, gaps, {closer}, known or Some(*{apex, encloser, wildcard}), parts)


def _numbers(types: Sequence[str]) -> List[int]:
    try:
        return [number_of(one) for one in types]
    except ValueError as wrong:
        raise WrongUsage(str(wrong)) from None


def _records(answer: Answer, denial: Denied) -> Optional[List[Dict[str, Any]]]:
    """The records, as JSON has them, or None where the types of one are not known."""
    told = None if answer.options.types is None else [one for one in answer.options.types.split(",") if one]
    existing = denial.existing()
    if told is not None and len(existing) > 1:
        answer.decline("gaps", "two owners exist, and --types is for one: write their types behind them in the list")
        return None
    records = []
    for owner, next in denial.gaps:
        # An owner that is made up has no other types (RFC 4470).
        types: Optional[Sequence[str]] = ["NXNAME"] if denial.kind == "compact" else []
        if owner in existing:
            types = denial.known.types(owner) if told is None else told
        if types is None:
            why = "exists, so that its record has its types: --types names them (NSEC, if there is no other)"
            answer.decline("gaps", f"{_shown(owner)} {why}")
            return None
        bitmap = qorshudan.write_types(ALWAYS.union(_numbers(types)))
        shown = [mnemonic_of(number) for number in sorted(qorshudan.read_types(bitmap))]
        records.append({"owner": qorshudan.text(owner), "next": qorshudan.text(next), "types": shown, "bitmap": bitmap.hex()})
    return records


def _picture(denial: Denied) -> List[str]:
    """The names around the records in canonical order: the ends, what is denied between them, and what exists."""
    found, name, encloser = [], denial.parts["name"], denial.parts.get("encloser")
    ends = {end for gap in denial.gaps for end in gap}
    exists = {one for gap in denial.gaps for one in denial.known.around(gap[0])}.union([] if encloser is None else [encloser])

    def words(one: bytes) -> str:
        if one == encloser:
            return " (the closest encloser)"
        return " (exists)" if one in ends and denial.known.exists(one) else ""

    for owner, next in denial.gaps:
        found.append(Row((0, qorshudan.key(owner), 2), "owner", "+- " + _shown(owner) + words(owner)))
        # The last record of a zone ends at the apex, where the order begins again.
        found.append(Row((1 if next == denial.apex else 0, qorshudan.key(next), 0), "next", "+- " + _shown(next) + words(next)))
    found += [Row((0, qorshudan.key(one), 1), "exists", "   " + _shown(one) + words(one)) for one in exists - ends]
    found += [Row((0, qorshudan.key(one), 1), "missing", "|  " + _shown(one) + " and all under it") for one in denial.denied]
    if name not in ends | denial.denied:
        found.append(Row((0, qorshudan.key(name), 1), "query", "|  " + _shown(name)))
    return rows(found)


def deny(answer: Answer) -> None:
    options, kind = answer.options, answer.options.kind or "nxdomain"
    if options.encloser is not None and kind in ("nodata", "compact"):
        raise WrongUsage(f"--{kind} has no encloser")
    if options.types is not None and kind == "compact":
        raise WrongUsage("--compact has its own types")
    answer.comment = "; "
    answer.question.update(limit=options.limit, kind=kind)
    answer.values.update(encloser=None, next_closer=None, wildcard=None, gaps=None)
    fields = ["apex", "name"]
    if options.encloser is not None:
        answer.question["encloser"] = options.encloser
        fields.append("encloser")
    wires = answer.names(*fields)
    if wires is None:
        return
    try:
        apex, name, *told = map(qorshudan.fold, wires)
        denial = _denial(answer, kind, apex, name, told[0] if told else None)
        records = None if denial is None else _records(answer, denial)
    except Refused as refused:
        answer.refuse("gaps", refused)
        return
    if denial is None or records is None:
        return
    answer.values.update({part: qorshudan.text(wire) for part, wire in denial.parts.items() if part != "name"}, gaps=records)
    shown = {part: _shown(wire) for part, wire in denial.parts.items()}
    answer.tell("; " + KINDS[kind].format(**shown))
    if denial.denied and options.encloser is None and options.names is None and shown["next_closer"] != shown["name"]:
        answer.tell(f"; the apex is taken for the closest encloser, so that nothing at or under {shown['next_closer']} may exist")
    if options.types is not None and not denial.existing():
        answer.tell("; --types is for an owner that exists; those that are made up have RRSIG and NSEC alone (RFC 4470)")
    for line in _picture(denial):
        answer.tell(";   " + line)
    for (owner, next), record in zip(denial.gaps, records):
        answer.tell(f"{answer.name(owner)} IN NSEC {answer.name(next)} {' '.join(record['types'])}")
