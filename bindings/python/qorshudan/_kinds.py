"""Names in three kinds: `str` is text, `bytes` is wire format, and there is dnspython's `dns.name.Name`. An answer comes in the
kind that was given. dnspython is never imported here: whoever has a name of its kind has imported it."""

import ctypes
import sys
from typing import TYPE_CHECKING, Any, Type, TypeVar, Union

from qorshudan import _faults
from qorshudan._library import library
from qorshudan._refused import refusal, value

if TYPE_CHECKING:
    import dns.name

# A name in any of the kinds. Octets may come as bytearray or memoryview too; their answers are bytes.
Octets = Union[bytes, bytearray, memoryview]
Name = Union[str, Octets, "dns.name.Name"]
N = TypeVar("N", str, bytes, "dns.name.Name")

NAME_MAX = 255
TEXT_MAX = 1004

NameSpace = ctypes.c_char * NAME_MAX
TextSpace = ctypes.c_char * TEXT_MAX


def _is_dnspython(name: object) -> bool:
    module: Any = sys.modules.get("dns.name")
    return module is not None and isinstance(name, module.Name)


def octets(given: object, argument: str, what: str = "octets are bytes, bytearray or memoryview") -> bytes:
    """Octets that are given as such."""
    if isinstance(given, bytes):
        return given
    if isinstance(given, (bytearray, memoryview)):
        return bytes(given)
    raise TypeError(f"{argument}: {what}, not {type(given).__name__}")


def characters_of(text: str) -> bytes:
    """The octets of a text. Octets that Python took in as surrogates, as of an argument that is no UTF-8, are themselves again."""
    try:
        return text.encode("utf-8", "surrogateescape")
    except UnicodeEncodeError:
        return text.encode("utf-8", "surrogatepass")


def read_text(text: str, argument: str) -> bytes:
    """The wire octets of a text."""
    # Any character that is not ASCII is refused at its first octet, so that places in the octets are places in the text.
    characters = characters_of(text)
    space: Any = NameSpace()
    result = library.read_text(characters, len(characters), space, NAME_MAX)
    if result & 0xFF:
        raise refusal(result, argument, _faults.of_text(characters, result >> 16))
    answer: bytes = space[: result >> 16]
    return answer


def write_text(wire: bytes) -> str:
    space: Any = TextSpace()
    answer: bytes = space[: value(library.write_text(wire, len(wire), space, TEXT_MAX))]
    return answer.decode("ascii")


def to_wire(name: Name, argument: str) -> bytes:
    """The octets of a name of any kind. Those that are given as octets, or as labels without a root, may be no name."""
    if isinstance(name, str):
        return read_text(name, argument)
    if _is_dnspython(name):
        return b"".join(bytes([len(label)]) + label for label in name.labels)  # type: ignore[union-attr]
    return octets(name, argument, "a name is str (text), bytes (wire format) or dns.name.Name")


def of_kind(kind: Type[N], wire: bytes) -> N:
    """A name, given by its wire octets, in a kind."""
    answer: Any = None
    if issubclass(kind, str):
        answer = write_text(wire)
    elif issubclass(kind, (bytes, bytearray, memoryview)):
        answer = wire
    else:
        module: Any = sys.modules.get("dns.name")
        if module is not None and issubclass(kind, module.Name):
            answer = module.from_wire(wire, 0)[0]
    if answer is not None:
        return answer  # type: ignore[no-any-return]
    raise TypeError(f"kind: names are of kind str, bytes or dns.name.Name, not {kind.__name__}")


def filled(function: Any, wire: bytes) -> bytes:
    """What a function answers that takes octets and a space for a name."""
    space: Any = NameSpace()
    answer: bytes = space[: value(function(wire, len(wire), space, NAME_MAX))]
    return answer


def number(given: int, argument: str) -> int:
    """A number as the library takes it. What has more than 64 bits is as wrong as 0, where 0 is no answer."""
    if not isinstance(given, int):
        raise TypeError(f"{argument}: a whole number, not {type(given).__name__}")
    return given if 0 <= given < 1 << 64 else 0
