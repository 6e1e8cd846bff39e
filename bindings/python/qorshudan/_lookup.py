"""The command `lookup`: where a name lies in a sorted list of a zone's names."""

import qorshudan
from qorshudan import _lists
from qorshudan._answer import Answer
from qorshudan._refused import Refused

VALUES = "owner owner_line next next_line is_owner exists encloser wildcard wildcard_exists looks".split()


def lookup(answer: Answer) -> None:
    options = answer.options
    answer.question["apex"], answer.question["limit"] = options.apex, options.limit
    answer.values.update(dict.fromkeys(VALUES))
    wires = answer.names("name", *(["apex"] if options.apex is not None else []))
    if wires is None:
        return
    query, *told = wires
    existing, refusals = _lists.as_it_stands(answer.question["list"], "list", told[0] if told else None, options.limit)
    answer.refusals += refusals
    if existing is None:
        return
    answer.question["apex"] = qorshudan.text(existing.apex)
    try:
        qorshudan.successor(query, existing.apex, options.limit)  # refuses what is no name of the zone
    except Refused as refused:
        answer.refuse("name", refused)
        return
    found = existing.find(query)
    values, ends = answer.values, (found.owner, (found.owner + 1) % len(existing.owners))
    values.update(is_owner=found.is_owner, exists=found.exists, looks=found.looks, encloser=qorshudan.text(found.encloser))
    for value, index in zip(("owner", "next"), ends):
        values[value], values[value + "_line"] = qorshudan.text(existing.owners[index]), existing.lines[index].number
        answer.tell(f"{value}: {answer.name(existing.owners[index])} (line {existing.lines[index].number})")
    if found.exists:
        answer.tell("query: " + ("an owner" if found.is_owner else "an empty non-terminal: it exists, without types"))
    else:
        answer.tell("query: missing")
    answer.tell(f"encloser: {answer.name(found.encloser)}")
    if not found.exists:
        above = qorshudan.wildcard(found.encloser)
        values.update(wildcard=qorshudan.text(above), wildcard_exists=found.wildcard is not None)
        answer.tell(f"wildcard: {answer.name(above)} ({'exists, and answers for the query' if found.wildcard else 'missing'})")
    answer.tell(f"looks: {found.looks}")
