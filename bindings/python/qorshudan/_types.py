"""Type bitmaps (RFC 4034 section 4.1.2), and the sets of types that they stand for."""

import ctypes
from typing import AbstractSet, Any, FrozenSet, Iterable, List, Optional

from qorshudan._kinds import Octets, octets
from qorshudan._library import library
from qorshudan._mnemonics import Type, number_of
from qorshudan._refused import value

BITMAP_MAX = 8704


def write_types(types: Iterable[Type]) -> bytes:
    """The one bitmap of a set of types. A type is a number or a mnemonic. A set is sorted first; of any other iterable the order
    counts, and types that do not rise are refused.

    >>> write_types({"A", "MX", "RRSIG", "NSEC"}).hex()
    '0006400100000003'
    """
    if isinstance(types, (str, bytes, bytearray, memoryview)):
        raise TypeError(f"types: a set or a list of types, not {type(types).__name__}")
    numbers: List[int] = [number_of(one) for one in types]
    if isinstance(types, AbstractSet):
        numbers = sorted(set(numbers))
    space: Any = (ctypes.c_char * BITMAP_MAX)()
    listed = (ctypes.c_uint16 * len(numbers))(*numbers)
    answer: bytes = space[: value(library.write_types(listed, len(numbers), space, BITMAP_MAX))]
    return answer


def read_types(bitmap: Octets) -> FrozenSet[int]:
    """The types of a bitmap.

    >>> sorted(read_types(bytes.fromhex("0006400100000003")))
    [1, 15, 46, 47]
    """
    wire = octets(bitmap, "bitmap")
    # A count that is refused has the same place as the reading would have.
    count = value(library.count_types(wire, len(wire)))
    listed = (ctypes.c_uint16 * count)()
    return frozenset(listed[: value(library.read_types(wire, len(wire), listed, count))])


def has_type(bitmap: Octets, type: Type) -> bool:
    """Whether a bitmap has a type.

    >>> has_type(bytes.fromhex("0006400100000003"), "MX")
    True
    """
    wire = octets(bitmap, "bitmap")
    return value(library.has_type(wire, len(wire), number_of(type))) == 1


def count_types(bitmap: Octets) -> int:
    """How many types a bitmap has."""
    wire = octets(bitmap, "bitmap")
    return value(library.count_types(wire, len(wire)))


def smallest_type(bitmap: Octets) -> Optional[int]:
    """The smallest type of a bitmap, or None where it has none."""
    wire = octets(bitmap, "bitmap")
    told = value(library.smallest_type(wire, len(wire)))
    return told - 1 if told else None


def largest_type(bitmap: Octets) -> Optional[int]:
    """The largest type of a bitmap, or None where it has none."""
    wire = octets(bitmap, "bitmap")
    told = value(library.largest_type(wire, len(wire)))
    return told - 1 if told else None
