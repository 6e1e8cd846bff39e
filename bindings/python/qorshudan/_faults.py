"""What is wrong with a text that is refused, in words. The place comes from the library; these words only help to see it."""

from typing import Tuple

LABEL_MAX = 63
NAME_MAX = 255


def _read(text: bytes) -> Tuple[int, int, str]:
    """Of the beginning of a text: the octets of the labels that are done, with their length octets, those of the label that
    is not, and the escape at its end that is not whole."""
    done, label, at = 0, 0, 0
    while at < len(text):
        if text[at] == ord("."):
            done, label, at = done + 1 + label, 0, at + 1
        elif text[at] == ord("\\"):
            length = 4 if text[at + 1 : at + 2].isdigit() else 2
            if at + length > len(text):
                return done, label, text[at:].decode("latin-1")
            label, at = label + 1, at + length
        else:
            label, at = label + 1, at + 1
    return done, label, ""


def _in_escape(escape: str) -> str:
    if escape == "\\":
        return "a backslash stands before three digits up to 255, or before one character of 33 to 126"
    return f"after {escape} an escape does not go on like this: it has three digits, up to 255"


def of_text(text: bytes, place: int) -> str:
    """Why no name's text goes on as this one does at the place."""
    done, label, escape = _read(text[:place])
    if place == len(text):
        if escape:
            return f"the text ends within the escape {escape}"
        return "the name must end with a dot" if text else "the text is empty (the root is a single dot)"
    octet = text[place]
    if escape:
        return _in_escape(escape)
    if text[:place] == b".":
        return "an empty label: only the root begins with a dot, and it is that dot alone"
    if octet == ord("."):
        return "an empty label"
    if octet > 126:
        return f"octet {octet} is above 126: use the xn-- form of the name, or write it \\{octet:03d}"
    if octet < 33:
        return f"octet {octet} is below 33: write it \\{octet:03d}"
    if done + 1 + label + 2 > NAME_MAX:
        return "a name of 256 octets (255 is the most, with a length octet for each label and one for the root)"
    if label == LABEL_MAX:
        return "a label of 64 octets (63 is the most)"
    return "no name's text goes on like this"
