"""What the command shows people: texts with their repeated octets counted, a caret under the place of a fault, and rows in order."""

import re
from typing import Iterable, List, NamedTuple, Tuple

# How much of a line is shown around a place.
_WIDTH = 72


def shortened(text: str) -> str:
    """A text in which an octet that comes four times or more in a row is written once, with its number in braces: \\255{60}."""
    repeated = r"(\\[0-9]{3}|\\.|[^\\.])\1{3,}"
    return re.sub(repeated, lambda run: f"{run.group(1)}{{{len(run.group()) // len(run.group(1))}}}", text)


def caret(given: str, place: int) -> List[str]:
    """Two lines: what was given, and a caret under a place in it. Of a long line there is a part. What is no printable ASCII is
    shown as a question mark, so that every character has one column and none moves the cursor."""
    start = max(0, min(place - _WIDTH // 2, len(given) - _WIDTH + 1))
    part = "".join(one if " " <= one <= "~" else "?" for one in given[start : start + _WIDTH])
    before, behind = "... " if start else "", " ..." if start + _WIDTH < len(given) else ""
    return [f"  {before}{part}{behind}", "  " + " " * (len(before) + place - start) + "^"]


class Row(NamedTuple):
    """A row of a picture: where it stands, a word in front of it, and the rest."""

    order: Tuple[int, bytes, int]
    word: str
    rest: str


def rows(found: Iterable[Row]) -> List[str]:
    """The lines of a picture, from above, with their words in a column."""
    found = sorted(found)
    width = max(len(row.word) for row in found)
    return [f"{row.word:{width}} {row.rest}" for row in found]
