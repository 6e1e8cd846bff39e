"""The names next to a name in a zone (RFC 4471), which are the ends of a gap."""

from typing import Any, Optional, Tuple

from qorshudan._kinds import NAME_MAX, N, Name, NameSpace, number, of_kind, to_wire
from qorshudan._library import library
from qorshudan._refused import value


def _neighbour(side: str, name: N, apex: Name, limit: int, modified: bool, depth: Optional[int], hostnames: bool) -> N:
    apex_octets, octets = to_wire(apex, "apex"), to_wire(name, "name")
    numbers: Tuple[int, ...] = (1 if hostnames else 0,)
    if modified:
        numbers += (1 if depth is None else number(depth, "depth"),)
        side = "modified_" + side
    elif depth is not None:
        raise TypeError("depth: only modified neighbours have one; say modified=True")
    space: Any = NameSpace()
    function = getattr(library, side + "_in")
    result = function(
        *numbers, apex_octets, len(apex_octets), number(limit, "limit"), octets, len(octets), space, NAME_MAX
    )
    return of_kind(type(name), space[: value(result)])


def predecessor(
    name: N, apex: Name, limit: int = NAME_MAX, *, modified: bool = False, depth: Optional[int] = None, hostnames: bool = False
) -> N:
    """The name before this one in the zone: of all folded names at or under the apex with at most `limit` octets, the last before it
    in the canonical order. The zone is a ring: before the apex comes its last name.

    modified    look only among the apex and the names with at most `depth` labels more
    depth       1 to 3, and 1 where it is left out
    hostnames   look only among names whose labels above the apex have letters, digits and hyphens alone

    >>> predecessor("foo.example.com.", apex="example.com.", limit=17)
    'fon.example.com.'
    >>> predecessor("bar.foo.example.com.", apex="example.com.", modified=True)
    'foo.example.com.'
    """
    return _neighbour("predecessor", name, apex, limit, modified, depth, hostnames)


def successor(
    name: N, apex: Name, limit: int = NAME_MAX, *, modified: bool = False, depth: Optional[int] = None, hostnames: bool = False
) -> N:
    """The name after this one in the zone, as `predecessor` has the one before it. After the last name comes the apex.

    >>> successor("foo.example.com.", apex="example.com.")
    '\\\\000.foo.example.com.'
    """
    return _neighbour("successor", name, apex, limit, modified, depth, hostnames)


def neighbours(
    name: N, apex: Name, limit: int = NAME_MAX, *, modified: bool = False, depth: Optional[int] = None, hostnames: bool = False
) -> Tuple[N, N]:
    """The predecessor and the successor: the ends of the smallest gap around the name.

    >>> neighbours("@.example.", apex="example.", limit=11)
    ('?.example.', '[.example.')
    """
    return (
        predecessor(name, apex, limit, modified=modified, depth=depth, hostnames=hostnames),
        successor(name, apex, limit, modified=modified, depth=depth, hostnames=hostnames),
    )
