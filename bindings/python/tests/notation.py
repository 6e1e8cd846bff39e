"""Names for the tests, made without the module: texts of digits alone, the octets of a text, and the papers' notation."""

import re

APEX = b"\7example\3com\0"


def labels(wire):
    """The labels of a well formed name."""
    out = []
    while wire[0]:
        out.append(wire[1 : 1 + wire[0]])
        wire = wire[1 + wire[0] :]
    return out


def assembled(parts):
    return b"".join(bytes([len(part)]) + part for part in parts) + b"\0"


def in_digits(wire):
    """A text of a well formed name, every octet in three digits."""
    return "".join("".join("\\%03d" % octet for octet in label) + "." for label in labels(wire)) or "."


def of_text(text):
    """The octets of a text that is right."""
    parts, label = [], bytearray()
    for piece in re.findall(r"\\[0-9]{3}|\\.|.", text):
        if piece == ".":
            parts.append(bytes(label))
            label = bytearray()
        elif len(piece) == 4:
            label.append(int(piece[1:]))
        else:
            label += piece[-1].encode("ascii")
    return assembled([part for part in parts if part])


def paper(text):
    """The octets of a name in the papers' notation: under example.com. unless a dot ends it, {n} behind an octet for n of it."""
    whole = re.sub(r"(\\[0-9]{3}|\\.|.)\{([0-9]+)\}", lambda found: found.group(1) * int(found.group(2)), text)
    if not whole:
        return APEX
    return of_text(whole) if whole.endswith(".") else of_text(whole + ".example.com.")


def folded(wire):
    return bytes(octet + 32 if 65 <= octet <= 90 else octet for octet in wire)


def is_broken(wire):
    """Whether octets are no name."""
    at = 0
    while at < len(wire) and 0 < wire[at] < 64:
        at += 1 + wire[at]
    return at >= len(wire) or wire[at] != 0 or at + 1 != len(wire) or len(wire) > 255
