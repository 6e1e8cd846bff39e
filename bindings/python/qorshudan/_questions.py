"""The questions that the command answers. Each takes what a person writes and fills an `Answer`, for people and for programs."""

import re
from typing import Any, Callable, Dict, List, NamedTuple, Optional, Tuple

import qorshudan
from qorshudan._answer import Answer, WrongUsage
from qorshudan._deny import deny
from qorshudan._lookup import lookup
from qorshudan._mnemonics import mnemonic_of
from qorshudan._refused import Refused


def octets(digits: str) -> bytes:
    """Octets in hex."""
    if not re.fullmatch("([0-9A-Fa-f]{2})*", digits):
        raise WrongUsage(f"'{digits}' is no octets in hex: two digits for each")
    return bytes.fromhex(digits)


def neighbours(answer: Answer) -> None:
    options = answer.options
    answer.question["limit"], answer.question["hostnames"] = options.limit, options.hostnames
    answer.question["depth"] = options.depth
    wires = answer.names("apex", "name")
    under = None
    for kind in ("", "modified_"):
        for side in ("predecessor", "successor"):
            of = kind + side
            answer.values[of] = None
            if wires is None:
                continue
            more: Dict[str, Any] = {"modified": True, "depth": options.depth} if kind else {}
            try:
                wire = getattr(qorshudan, side)(wires[1], wires[0], options.limit, hostnames=options.hostnames, **more)
            except Refused as refused:
                answer.refuse(of, refused)
                continue
            answer.values[of] = qorshudan.text(wire)
            answer.tell(f"{of.replace('_', ' ')}: {answer.name(wire)}")
            if side == "successor" and wire[:1] == b"\1" and wire[2:] == qorshudan.fold(wires[1]):
                under = under or wire
    if under is not None and wires is not None:
        name, below = answer.name(qorshudan.fold(wires[1])), answer.name(under)
        answer.tell(f"note: {below} lies under {name}, so a record that ends there says NODATA of {name}, and not NXDOMAIN")


def compare(answer: Answer) -> None:
    answer.values.update(comparison=None, shared_labels=None)
    wires = answer.names("first", "second")
    if wires is None:
        return
    number = qorshudan.compare(*wires)
    answer.values["comparison"] = number
    if number == 0:
        answer.tell("0: the same name, letter case aside")
        return
    shared = answer.values["shared_labels"] = abs(number) - 1
    labels = "no label" if shared == 0 else "1 label" if shared == 1 else f"{shared} labels"
    answer.tell(f"{number}: first sorts {'earlier' if number < 0 else 'later'}; {labels} shared")


def _of_octets(answer: Answer, value: str, read: Callable[[bytes], bytes]) -> None:
    """A name that is read from octets in hex."""
    answer.values[value] = None
    given = answer.question["octets"]
    try:
        wire = read(octets(given))
        answer.values[value] = qorshudan.text(wire)
        answer.tell(answer.name(wire))
    except Refused as refused:
        answer.refuse("octets", refused, given, 2)


def key(answer: Answer) -> None:
    if answer.options.read:
        _of_octets(answer, "name", lambda given: qorshudan.from_key(given, bytes))
        return
    answer.values["key"] = None
    wires = answer.names("name")
    if wires is not None:
        name = wires[0]
        answer.one("key", lambda: qorshudan.key(name).hex())


def fold(answer: Answer) -> None:
    answer.values["folded"] = None
    wires = answer.names("name")
    if wires is not None:
        folded = qorshudan.fold(wires[0])
        answer.values["folded"] = qorshudan.text(folded)
        answer.tell(answer.name(folded))


def text(answer: Answer) -> None:
    _of_octets(answer, "text", qorshudan.wire)


def wire(answer: Answer) -> None:
    answer.values["wire"] = None
    wires = answer.names("name")
    if wires is not None:
        name = wires[0]
        answer.one("wire", lambda: name.hex())


def types(answer: Answer) -> None:
    if answer.options.read:
        answer.values["types"] = None
        given = answer.question["octets"]
        try:
            numbers = sorted(qorshudan.read_types(octets(given)))
            answer.values["types"] = [mnemonic_of(number) for number in numbers]
            answer.tell(" ".join(answer.values["types"]))
        except Refused as refused:
            answer.refuse("octets", refused, given, 2)
        return
    try:
        answer.one("bitmap", lambda: qorshudan.write_types(set(answer.question["types"])).hex())
    except ValueError as wrong:
        raise WrongUsage(str(wrong)) from None


def _hash_octets(answer: Answer, field: str, given: str) -> Optional[bytes]:
    """A hash that is written as its owner label, or as 40 digits in hex."""
    try:
        return bytes.fromhex(given) if re.fullmatch("[0-9A-Fa-f]{40}", given) else qorshudan.read_hash_label(given)
    except Refused as refused:
        answer.refuse(field, refused)
        return None


def hash(answer: Answer) -> None:
    answer.values.update(octets=None, label=None, before=None, after=None)
    given = _hash_octets(answer, "hash", answer.question["hash"])
    ends: List[Optional[bytes]] = []
    if answer.options.between:
        answer.values["between"] = None
        for field, end in zip(("first", "second"), answer.options.between):
            answer.question[field] = end
            ends.append(_hash_octets(answer, field, end))
    if given is None or None in ends:
        return
    answer.values["octets"] = given.hex()
    for value, octets_ in (("label", given), ("before", qorshudan.hash_before(given)), ("after", qorshudan.hash_after(given))):
        answer.values[value] = qorshudan.write_hash_label(octets_)
    for value in ("octets", "label", "before", "after"):
        answer.tell(f"{value}: {answer.values[value]}")
    if ends:
        answer.values["between"] = qorshudan.hash_between(ends[0], given, ends[1])  # type: ignore[arg-type]
        answer.tell(f"between: {'yes' if answer.values['between'] else 'no'}")


def encloser(answer: Answer) -> None:
    answer.values.update(encloser=None, wildcard=None)
    wires = answer.names("query", "owner", "next")
    if wires is None:
        return
    found = qorshudan.closest_encloser(*wires)
    if found is None:
        answer.decline("encloser", "the query does not lie between owner and next")
        return
    answer.values["encloser"] = qorshudan.text(found)
    answer.tell(f"encloser: {answer.name(found)}")
    try:
        above = qorshudan.wildcard(found)
        answer.values["wildcard"] = qorshudan.text(above)
        answer.tell(f"wildcard: {answer.name(above)}")
    except Refused as refused:
        answer.refuse("wildcard", refused)


class Command(NamedTuple):
    """A command: the words that a question of it has, what it is for, and the function that answers. Where `read` is given, the option
    --read has octets in hex instead, and does that. So many of the words come before the questions of a file, and hold for all of them."""

    answer: Callable[[Answer], None]
    fields: Tuple[str, ...]
    purpose: str
    read: str = ""
    before: int = 0


COMMANDS = {
    "deny": Command(deny, ("apex", "name"), "the NSEC records that deny NAME in the zone of APEX, and the order around them"),
    "neighbours": Command(neighbours, ("apex", "name"), "the names next to NAME in the zone of APEX: the ends of a gap"),
    "compare": Command(compare, ("first", "second"), "which of two names sorts earlier, and how many labels they share"),
    "key": Command(key, ("name",), "the sorting key of a name, in hex", "the name that has this key"),
    "fold": Command(fold, ("name",), "the name in lower case"),
    "text": Command(text, ("octets",), "the text of a name that is given in wire format, in hex"),
    "wire": Command(wire, ("name",), "the wire format of a name, in hex"),
    "types": Command(types, ("types",), "the type bitmap of some types, in hex", "the types of this bitmap"),
    "hash": Command(hash, ("hash",), "the hashes next to an NSEC3 hash (an owner label, or 40 digits in hex)"),
    "encloser": Command(encloser, ("query", "owner", "next"), "the closest encloser of a missing name, and the wildcard above it"),
    "lookup": Command(lookup, ("list", "name"), "where NAME lies in a sorted list of a zone's names, one a line", before=1),
}
