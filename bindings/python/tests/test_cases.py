"""Every function beside the second program: its answers and its refusals, in each kind of name."""

import os
import unittest

import notation
import qorshudan

CASES = os.environ.get("QORSHUDAN_CASES")

# Which arguments of an operation are names, and whether its answer is one that comes in the kind of the first.
NAMES = {
    "check": 1, "fold": 1, "label_places": 1, "compare": 2, "key": 1, "text": 1, "wildcard": 1, "closest_encloser": 3,
    "subtree_successor": 2, "next_closer": 2, "covers": 3, "denial": 3,
    "predecessor": 2, "successor": 2, "modified_predecessor": 2, "modified_successor": 2,
}  # fmt: skip
ALIKE = {"fold", "wildcard", "closest_encloser", "subtree_successor", "next_closer", "predecessor", "successor", "modified_predecessor", "modified_successor"}


def octets(field):
    return b"" if field == "-" else bytes.fromhex(field)


def types(field):
    return [] if field == "-" else [int(one) for one in field.split(",")]


def neighbour(side, modified):
    def ask(name, apex, limit, hostnames, *depth):
        more = {"modified": True, "depth": depth[0]} if modified else {}
        return getattr(qorshudan, side)(name, apex, limit, hostnames=bool(hostnames), **more)

    return ask


def label_places(name):
    """The places; and the labels, put behind their lengths one after another, are the name."""
    places = qorshudan.label_places(name)
    wire = qorshudan.wire(name)
    labels = qorshudan.labels(name)
    assert b"".join(bytes([len(label)]) + label for label in labels) + b"\0" == wire, name
    assert [wire[place] for place in places] == [len(label) for label in labels], name
    return places


def denial(query, apex, encloser, limit):
    """The names of the gaps."""
    return [end for gap in qorshudan.denial(query, apex=apex, encloser=encloser, limit=limit).gaps for end in gap]


def octets_in_a_row(field):
    return [] if field == "-" else [octets(one) for one in field.split(",")]


def find_owner(names, apex, limit, query):
    """The owner and the looks, and the closest encloser in the gap of that owner."""
    owners = qorshudan.Owners(names, apex, limit)
    index, looks = owners.find(query)
    return index, looks, None if index is None else qorshudan.closest_encloser(query, owners[index], owners.next(index))


def found(field):
    index, looks, encloser = field.split(",")
    return None if index == "-" else int(index), int(looks), octets(encloser) or None


def ends(bitmap):
    return qorshudan.count_types(bitmap), qorshudan.smallest_type(bitmap), qorshudan.largest_type(bitmap)


# How an operation's arguments are read, how it is asked, and how its answer is read.
NEIGHBOUR = (octets, octets, int, int)
OPERATIONS = {
    "check": ((octets,), qorshudan.check, int),
    "fold": ((octets,), qorshudan.fold, octets),
    "label_places": ((octets,), label_places, lambda field: list(octets(field))),
    "compare": ((octets, octets), qorshudan.compare, int),
    "key": ((octets,), qorshudan.key, octets),
    "from_key": ((octets,), lambda key: qorshudan.from_key(key, bytes), octets),
    "text": ((octets,), lambda name: qorshudan.text(name).encode("ascii"), octets),
    "wire": ((octets,), lambda text: qorshudan.wire(text.decode("utf-8", "surrogateescape")), octets),
    "predecessor": (NEIGHBOUR, neighbour("predecessor", False), octets),
    "successor": (NEIGHBOUR, neighbour("successor", False), octets),
    "modified_predecessor": (NEIGHBOUR + (int,), neighbour("predecessor", True), octets),
    "modified_successor": (NEIGHBOUR + (int,), neighbour("successor", True), octets),
    "hash_after": ((octets,), qorshudan.hash_after, octets),
    "hash_before": ((octets,), qorshudan.hash_before, octets),
    "write_hash_label": ((octets,), lambda hash: qorshudan.write_hash_label(hash).encode("ascii"), octets),
    "read_hash_label": ((octets,), lambda label: qorshudan.read_hash_label(label.decode("utf-8", "surrogateescape")), octets),
    "hash_between": ((octets, octets, octets), qorshudan.hash_between, lambda field: field == "1"),
    "closest_encloser": ((octets, octets, octets), qorshudan.closest_encloser, lambda field: octets(field) or None),
    "wildcard": ((octets,), qorshudan.wildcard, octets),
    "subtree_successor": (
        NEIGHBOUR,
        lambda name, apex, limit, hostnames: qorshudan.subtree_successor(name, apex, limit, hostnames=bool(hostnames)),
        octets,
    ),
    "next_closer": ((octets, octets), lambda query, encloser: qorshudan.next_closer(encloser, query), lambda field: octets(field) or None),
    "covers": ((octets, octets, octets), qorshudan.covers, lambda field: field == "1"),
    "denial": ((octets, octets, octets, int), denial, octets_in_a_row),
    "find_owner": ((octets_in_a_row, octets, int, octets), find_owner, found),
    "read_types": ((octets,), lambda bitmap: sorted(qorshudan.read_types(bitmap)), types),
    "write_types": ((types,), qorshudan.write_types, octets),
    "has_type": ((octets, int), qorshudan.has_type, lambda field: field == "1"),
    "ends": ((octets,), ends, lambda field: tuple(None if one == "-" else int(one) for one in field.split(","))),
}


def outcome(ask, *arguments):
    """An answer, or a refusal's number, reason and place as the second program tells them."""
    try:
        return "=", ask(*arguments)
    except qorshudan.Refused as refused:
        return "!", (refused.number, refused.reason or 0, refused.place or 0)


@unittest.skipUnless(CASES, "QORSHUDAN_CASES names no file of cases")
class Cases(unittest.TestCase):
    def cases(self, operation):
        reads, ask, read = OPERATIONS[operation]
        answered = refused = 0
        with open(CASES, encoding="ascii") as file:
            for line in file:
                name, *fields = line.rstrip("\n").split("\t")
                if name != operation:
                    continue
                arguments = [of(field) for of, field in zip(reads, fields)]
                mark, *told = fields[len(reads) :]
                expected = (mark, read(told[0]) if mark == "=" else tuple(map(int, told)))
                answered, refused = answered + (mark == "="), refused + (mark == "!")
                yield line, ask, arguments, expected
        self.assertGreaterEqual(answered, 100, operation)
        if operation not in ("closest_encloser", "next_closer", "covers"):
            self.assertGreaterEqual(refused, 10, operation)

    def one(self, operation):
        names = NAMES.get(operation, 0)
        for line, ask, arguments, expected in self.cases(operation):
            self.assertEqual(outcome(ask, *arguments), expected, line)
            # octets in the other two types that have them
            others = [bytearray(one) if isinstance(one, bytes) else one for one in arguments]
            if operation not in ("wire", "read_hash_label"):
                self.assertEqual(outcome(ask, *others), expected, line)
                views = [memoryview(one) if isinstance(one, bytes) else one for one in arguments]
                self.assertEqual(outcome(ask, *views), expected, line)
            # as text, where all names have one
            if names and not any(map(notation.is_broken, arguments[:names])):
                texts = [notation.in_digits(one) for one in arguments[:names]] + arguments[names:]
                mark, told = outcome(ask, *texts)
                if mark == "=" and operation == "denial":
                    told = [notation.of_text(end) for end in told]
                elif mark == "=" and operation in ALIKE and told is not None:
                    self.assertIsInstance(told, str)
                    told = notation.of_text(told)
                    expected = (expected[0], notation.folded(expected[1]))
                self.assertEqual((mark, told), expected, line)

    def test_every_operation_has_cases(self):
        with open(CASES, encoding="ascii") as file:
            self.assertEqual({line.split("\t")[0] for line in file}, set(OPERATIONS))


for _operation in OPERATIONS:
    setattr(Cases, "test_" + _operation, lambda self, operation=_operation: self.one(operation))


if __name__ == "__main__":
    unittest.main()
