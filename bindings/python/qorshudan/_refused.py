"""Refusals: one exception for each number that the library gives."""

from typing import Dict, Optional, Type

# Why octets are not well formed, by the reason.
REASONS = {
    1: "it is cut short",
    2: "octets are left over behind its end",
    3: "a length octet is above 63",
    4: "a label makes it longer than 255 octets",
}


class Refused(ValueError):
    """There is no answer, and this says why.

    number     which refusal it is; each has its own subclass
    reason     for octets that are not well formed (2, 4 and 11) why not, 1 to 4; otherwise None
    place      where: an index into the octets or the text, or into types that do not rise; otherwise None
    argument   which argument is at fault, where the number alone does not tell; otherwise None
    fault      of a text, what is wrong with it in words; otherwise None
    sentence   the library's sentence for the number
    """

    number = 0
    sentence = "this version has no such number"
    _has_place = False

    def __init__(
        self, reason: Optional[int] = None, place: Optional[int] = None, argument: Optional[str] = None, fault: Optional[str] = None
    ) -> None:
        super().__init__(reason, place, argument, fault)
        self.reason, self.place, self.argument, self.fault = reason, place, argument, fault

    @property
    def why(self) -> str:
        """The sentence, and what else is known but the place."""
        parts = [self.sentence]
        if self.reason is not None:
            parts.append(REASONS[self.reason])
        if self.fault is not None:
            parts.append(self.fault)
        return ": ".join(parts)

    def __str__(self) -> str:
        whose = "" if self.argument is None else f"{self.argument}: "
        place = "" if self.place is None else f" at {self.place}"
        return f"{whose}refused {self.number}{place}: {self.why}"


class BadLimit(Refused):
    number, sentence = 1, "the limit is not 1 to 255"


class BadApex(Refused):
    number, sentence, _has_place = 2, "the apex is not well formed", True


class ApexTooLong(Refused):
    number = 3
    sentence = "the limit leaves no room for a name under the apex: the length of the apex plus 2 is above it"


class BadName(Refused):
    number, sentence, _has_place = 4, "the name is not well formed", True


class NameTooLong(Refused):
    number, sentence = 5, "the name is longer than the limit"


class NotUnderApex(Refused):
    number, sentence = 6, "the name is not at or under the apex"


class NoFullLabel(Refused):
    number, sentence = 7, "the limit leaves less than 64 octets for each label of depth, or the depth is not 1 to 3"


class NoRoom(Refused):
    """Not raised here: every space has room for the longest answer."""

    number, sentence = 9, "the answer is longer than the space"


class NotAKey(Refused):
    number, sentence, _has_place = 10, "the octets are no name's sorting key", True


class BadSecondName(Refused):
    number, sentence, _has_place = 11, "the second name is not well formed", True


class NotInAlphabet(Refused):
    number, sentence = 12, "a label above the apex has an octet that is not in the alphabet"


class NotAText(Refused):
    number, sentence, _has_place = 14, "the octets are no name's text", True


class NotASet(Refused):
    number, sentence, _has_place = 15, "the octets are no type bitmap, or the types do not rise", True


class NotAList(Refused):
    number, sentence, _has_place = 16, "the list is none of owners", True


class NotAHash(Refused):
    number, sentence = 17, "the octets are no hash, or no hash's owner label"


class NotAnEncloser(Refused):
    number, sentence = 18, "the encloser is no proper ancestor of the query at or under the apex"


BY_NUMBER: Dict[int, Type[Refused]] = {kind.number: kind for kind in Refused.__subclasses__()}


def refusal(result: int, argument: Optional[str] = None, fault: Optional[str] = None) -> Refused:
    """The refusal that a packed result is: number + 2^8 * reason + 2^16 * value."""
    kind = BY_NUMBER.get(result & 0xFF, Refused)
    reason = result >> 8 & 0xFF
    return kind(reason or None, result >> 16 if kind._has_place else None, argument, fault)


def value(result: int) -> int:
    """The value of a packed result that is answered; what is refused is raised."""
    if result & 0xFF:
        raise refusal(result)
    return result >> 16
