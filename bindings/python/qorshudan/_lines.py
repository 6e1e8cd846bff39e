"""Lines of words in a file, or in standard input."""

import sys
from typing import Iterator, List, Tuple


class Failed(Exception):
    """Input or output that failed."""


def numbered(path: str) -> Iterator[Tuple[int, List[str]]]:
    """The lines of a file that are not empty, in words, each with its number; - is standard input."""
    try:
        if path == "-" and sys.stdin is None:
            raise Failed("standard input is closed")
        with sys.stdin.buffer if path == "-" else open(path, "rb") as source:
            for number, line in enumerate(source, 1):
                # Octets that are no UTF-8 stay what they are, and are refused at their place.
                words = line.decode("utf-8", "surrogateescape").replace("\t", " ").strip(" \r\n").split(" ")
                words = [word for word in words if word]
                if words:
                    yield number, words
    except OSError as error:
        raise Failed(f"{path}: {error.strerror}") from error


def place(path: str, number: int) -> str:
    """Where a line is, for what is said of it."""
    return f"{'standard input' if path == '-' else path}:{number}: "
