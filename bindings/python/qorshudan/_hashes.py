"""Hashes of NSEC3 zones (RFC 5155): `bytes` of 20 octets, or `str` for the owner label, 32 characters of base32hex. An answer comes in
the kind that was given. No hash is computed here."""

import ctypes
from typing import Any, TypeVar, Union

from qorshudan._kinds import Octets, characters_of, octets
from qorshudan._library import library
from qorshudan._refused import value

HASH_LENGTH = 20
HASH_LABEL_LENGTH = 32

# A hash in either kind. Octets may come as bytearray or memoryview too; their answers are bytes.
Hash = Union[str, Octets]
H = TypeVar("H", str, bytes)

_Space = ctypes.c_char * HASH_LABEL_LENGTH


def _filled(function: Any, given: bytes) -> bytes:
    space: Any = _Space()
    answer: bytes = space[: value(function(given, len(given), space, HASH_LABEL_LENGTH))]
    return answer


def _to_octets(given: Hash, argument: str) -> bytes:
    if isinstance(given, str):
        return read_hash_label(given)
    return octets(given, argument, "a hash is str (its owner label) or bytes")


def _alike(given: H, answer: bytes) -> H:
    return write_hash_label(answer) if isinstance(given, str) else answer


def hash_after(hash: H) -> H:
    """The hash after this one on the ring: one more as a number of 160 bits, and 0 after the greatest.

    >>> hash_after("00000000000000000000000000000000")
    '00000000000000000000000000000001'
    """
    return _alike(hash, _filled(library.hash_after, _to_octets(hash, "hash")))


def hash_before(hash: H) -> H:
    """The hash before this one on the ring: one less as a number of 160 bits, and the greatest before 0.

    >>> hash_before("00000000000000000000000000000000")
    'vvvvvvvvvvvvvvvvvvvvvvvvvvvvvvvv'
    """
    return _alike(hash, _filled(library.hash_before, _to_octets(hash, "hash")))


def hash_between(first: Hash, hash: Hash, second: Hash) -> bool:
    """Whether a hash lies strictly between two others on the ring, going up from the first. Where these are equal, every other hash does.

    >>> hash_between(b"\\0" * 20, b"\\1" * 20, b"\\2" * 20)
    True
    """
    one, inner, other = _to_octets(first, "first"), _to_octets(hash, "hash"), _to_octets(second, "second")
    return value(library.hash_between(one, len(one), inner, len(inner), other, len(other))) == 1


def write_hash_label(hash: Octets) -> str:
    """The owner label of a hash: base32hex, lower case, no padding. Labels sort as their hashes do.

    >>> write_hash_label(bytes(19) + b"\\x1f")
    '0000000000000000000000000000000v'
    """
    return _filled(library.write_hash_label, octets(hash, "hash")).decode("ascii")


def read_hash_label(label: str) -> bytes:
    """The hash that has this owner label, in either letter case."""
    if not isinstance(label, str):
        raise TypeError(f"label: an owner label is str, not {type(label).__name__}")
    return _filled(library.read_hash_label, characters_of(label))
