"""The shared library: where it is found, what its functions take, and that it is of this version."""

import ctypes
import os
from typing import Callable, Iterator, Tuple

from qorshudan._version import __version__

# What a function takes: octets that it reads and a space that it fills, each a pointer and then a
# length; the same of types and of starts, which are numbers of 16 bits; and single numbers.
_OCTETS = (ctypes.c_char_p, ctypes.c_size_t)
_SPACE = (ctypes.c_void_p, ctypes.c_size_t)
_TYPES = (ctypes.c_void_p, ctypes.c_size_t)
_NUMBER = (ctypes.c_uint64,)
_TYPE = (ctypes.c_uint16,)
_NEIGHBOUR = _OCTETS + _NUMBER + _OCTETS + _SPACE

# Every function of include/qorshudan.h, without the `qorshudan_` before its name.
_FUNCTIONS = {
    "version": (),
    "check": _OCTETS,
    "fold": _OCTETS + _SPACE,
    "label_places": _OCTETS + _SPACE,
    "compare": _OCTETS + _OCTETS,
    "write_key": _OCTETS + _SPACE,
    "read_key": _OCTETS + _SPACE,
    "write_text": _OCTETS + _SPACE,
    "read_text": _OCTETS + _SPACE,
    "predecessor": _NEIGHBOUR,
    "successor": _NEIGHBOUR,
    "modified_predecessor": _NEIGHBOUR,
    "modified_successor": _NEIGHBOUR,
    "predecessor_in": _NUMBER + _NEIGHBOUR,
    "successor_in": _NUMBER + _NEIGHBOUR,
    "modified_predecessor_in": _NUMBER + _NUMBER + _NEIGHBOUR,
    "modified_successor_in": _NUMBER + _NUMBER + _NEIGHBOUR,
    "hash_after": _OCTETS + _SPACE,
    "hash_before": _OCTETS + _SPACE,
    "write_hash_label": _OCTETS + _SPACE,
    "read_hash_label": _OCTETS + _SPACE,
    "hash_between": _OCTETS + _OCTETS + _OCTETS,
    "closest_encloser": _OCTETS + _OCTETS + _OCTETS,
    "wildcard": _OCTETS + _SPACE,
    "subtree_successor": _NUMBER + _NEIGHBOUR,
    "next_closer": _OCTETS + _OCTETS,
    "covers": _OCTETS + _OCTETS + _OCTETS,
    "denial": _OCTETS + _NUMBER + _OCTETS + _OCTETS + _SPACE,
    "read_types": _OCTETS + _TYPES,
    "write_types": _TYPES + _SPACE,
    "has_type": _OCTETS + _TYPE,
    "count_types": _OCTETS,
    "smallest_type": _OCTETS,
    "largest_type": _OCTETS,
    "check_owners": _OCTETS + _NUMBER + _OCTETS + _TYPES,
    "find_owner": _OCTETS + _TYPES + _OCTETS,
}

_SONAME = "libqorshudan.so." + __version__.split(".")[0]


def _places() -> Iterator[str]:
    """Where the library may be, the first that is there: inside this package, as a wheel has it; what
    the environment variable names; where `make install` put it; and where the loader finds it."""
    here = os.path.dirname(os.path.abspath(__file__))
    yield os.path.join(here, _SONAME)
    named = os.environ.get("QORSHUDAN_LIBRARY")
    if named:
        yield os.path.abspath(named)
    try:
        # Written by `make install`: the way from this package to the library.
        from qorshudan._installed import LIBRARY  # type: ignore[import]
    except ImportError:
        return
    yield os.path.normpath(os.path.join(here, LIBRARY))


def _open() -> Tuple[str, ctypes.CDLL]:
    looked = []
    for path in _places():
        looked.append(path)
        if os.path.exists(path):
            try:
                return path, ctypes.CDLL(path)
            except OSError as error:
                raise ImportError(f"{path} is there, and cannot be loaded: {error}") from error
    try:
        return _SONAME, ctypes.CDLL(_SONAME)
    except OSError:
        raise ImportError(
            f"no shared library of Qorshudan: neither {' nor '.join(looked)} is there, and the loader finds no "
            f"{_SONAME}. `make install` installs it; the environment variable QORSHUDAN_LIBRARY names another."
        ) from None


def _spelled(version: int) -> str:
    return f"{version >> 16}.{version >> 8 & 0xFF}.{version & 0xFF}"


def _load() -> Tuple[str, ctypes.CDLL]:
    path, library = _open()
    try:
        # Its form is the same in every version, so that it can be asked first.
        tell: Callable[[], int] = library.qorshudan_version
        tell.restype = ctypes.c_uint64  # type: ignore[attr-defined]
        tell.argtypes = ()  # type: ignore[attr-defined]
        version = _spelled(tell())
        # A new minor version may change what functions take or return.
        if version.split(".")[:2] != __version__.split(".")[:2]:
            raise ImportError(f"{path} is version {version} of Qorshudan, and this module is for {__version__}")
        for name, takes in _FUNCTIONS.items():
            function = getattr(library, "qorshudan_" + name)
            function.argtypes = takes
            function.restype = ctypes.c_uint64
            setattr(library, name, function)
    except AttributeError as missing:
        raise ImportError(f"{path} is no library of Qorshudan {__version__}: {missing}") from None
    return path, library


path, library = _load()


def version() -> str:
    """The version of the library, as MAJOR.MINOR.PATCH."""
    return _spelled(library.version())
