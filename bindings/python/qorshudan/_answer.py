"""What a command answers: lines for people, values for programs, and what is refused."""

import argparse
from typing import Any, Callable, Dict, List, NamedTuple, Optional

import qorshudan
from qorshudan._refused import Refused
from qorshudan._show import shortened


class WrongUsage(Exception):
    """What was written is no question."""


class Refusal(NamedTuple):
    """What is refused, and why; where it can be seen, what was given and the place in it; and of a list, the line of a file."""

    of: str
    number: int
    reason: Optional[int]
    place: Optional[int]
    sentence: str
    given: Optional[str] = None
    column: int = 0
    line: Optional[int] = None
    where: str = ""


def refusal_of(of: str, refused: Refused, given: Optional[str] = None, width: int = 1) -> Refusal:
    """A refusal of the library; its place, if there is one, is to be seen in what was given, which has so many characters for an octet."""
    shown, column = (None, 0) if refused.place is None else (given, width * refused.place)
    return Refusal(of, refused.number, refused.reason, refused.place, refused.why, shown, column)


class Answer:
    """The answer to one question."""

    def __init__(self, question: Dict[str, Any], words: List[str], options: argparse.Namespace) -> None:
        self.question, self.words, self.options = question, words, options
        self.lines: List[str] = []
        self.values: Dict[str, Any] = {}
        self.refusals: List[Refusal] = []
        self.comment = ""  # what stands before a line that is no answer

    def name(self, wire: bytes) -> str:
        text = qorshudan.text(wire)
        return shortened(text) if self.options.short else text

    def tell(self, line: str) -> None:
        self.lines.append(line)

    def refuse(self, of: str, refused: Refused, given: Optional[str] = None, width: int = 1) -> None:
        self.refusals.append(refusal_of(of, refused, given, width))

    def decline(self, of: str, sentence: str) -> None:
        """A refusal that is no number of the library's."""
        self.refusals.append(Refusal(of, 0, None, None, sentence))

    def names(self, *fields: str) -> Optional[List[bytes]]:
        """The wire octets of the names of a question, or None where a text is refused."""
        wires = []
        for field in fields:
            try:
                wires.append(qorshudan.wire(self.question[field]))
            except Refused as refused:
                self.refuse(field, refused, self.question[field])
        return wires if len(wires) == len(fields) else None

    def one(self, value: str, ask: Callable[[], str]) -> None:
        """One value, on a line by itself."""
        self.values[value] = None
        try:
            self.values[value] = ask()
            self.tell(self.values[value])
        except Refused as refused:
            self.refuse(value, refused)
