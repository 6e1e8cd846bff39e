"""Names of dnspython, in and out; its order, its bitmaps and its mnemonics beside ours. Left out where it is not installed."""

import json
import random
import unittest

import qorshudan
from command import run
from notation import assembled, labels
from qorshudan import _mnemonics

try:
    import dns.name
    import dns.rdata
    import dns.rdatatype
except ImportError:
    raise unittest.SkipTest("dnspython is not installed") from None


def some_names(count):
    draw = random.Random(4471)
    octets = [0, 1, 45, 46, 48, 64, 65, 90, 91, 92, 97, 122, 127, 128, 255]
    for _ in range(count):
        parts = [bytes(draw.choices(octets, k=draw.randint(1, 5))) for _ in range(draw.randint(0, 4))]
        yield dns.name.Name(parts + [b"example", b""])


class Dnspython(unittest.TestCase):
    def test_kinds(self):
        apex, name = dns.name.from_text("Example.com."), dns.name.from_text("Foo.Example.com.")
        after = qorshudan.successor(name, apex)
        self.assertIsInstance(after, dns.name.Name)
        self.assertEqual(after, dns.name.from_text(r"\000.foo.example.com."))
        self.assertEqual(qorshudan.successor(name, "example.com."), after)
        self.assertEqual(qorshudan.fold(name).labels, (b"foo", b"example", b"com", b""))
        self.assertEqual(qorshudan.wire(name), b"\3Foo\7Example\3com\0")
        self.assertEqual(qorshudan.wildcard(name).labels, (b"*", b"Foo", b"Example", b"com", b""))
        self.assertEqual(qorshudan.from_key(qorshudan.key(name), dns.name.Name), name)
        self.assertEqual(qorshudan.wire(dns.name.root), b"\0")
        gap = qorshudan.denial(name, apex=apex).gaps[0]
        self.assertEqual(gap.next, dns.name.from_text(r"foo\000.example.com."))
        owner, following = dns.name.from_text("bar.example.com."), dns.name.from_text("z.Shop.example.com.")
        encloser = qorshudan.closest_encloser(dns.name.from_text("a.shop.example.com."), owner, following)
        self.assertEqual(encloser.labels, (b"Shop", b"example", b"com", b""))

    def test_relative(self):
        """A name without its root is cut short."""
        for name in (dns.name.from_text("foo", None), dns.name.empty):
            with self.assertRaises(qorshudan.BadName) as raised:
                qorshudan.fold(name)
            self.assertEqual(raised.exception.reason, 1)

    def test_order(self):
        """dnspython compares names in the same order, and tells as many shared labels."""
        names = list(some_names(600))
        self.assertEqual(sorted(names, key=qorshudan.key), sorted(names))
        for one, other in zip(names, reversed(names)):
            relation, order, shared = one.fullcompare(other)
            number = qorshudan.compare(one, other)
            self.assertEqual((number > 0) - (number < 0), (order > 0) - (order < 0))
            if number:
                self.assertEqual(abs(number), shared)  # dnspython counts the root as a label

    def test_texts(self):
        for name in some_names(600):
            wire = name.to_wire()
            self.assertEqual(qorshudan.wire(name.to_text()), wire)
            self.assertEqual(dns.name.from_text(qorshudan.text(name)), name)
            self.assertEqual(assembled(labels(wire)), wire)

    def test_bitmaps(self):
        """An NSEC record that dnspython writes has our bitmap behind its next name."""
        for types in (["A"], ["A", "MX", "RRSIG", "NSEC", "TYPE1234"], ["CAA", "NS", "DS", "TYPE65280"]):
            record = dns.rdata.from_text("IN", "NSEC", ". " + " ".join(types))
            self.assertEqual(record.to_wire()[1:], qorshudan.write_types(set(types)))

    def test_records(self):
        """The records of `deny`, read by dnspython, have the octets of our names and bitmaps."""
        for limit in ("17", "18", "255"):
            out = run("deny", "--limit", limit, "example.com.", "foo.example.com.")[1]
            told = json.loads(run("deny", "--json", "--limit", limit, "example.com.", "foo.example.com.")[1])
            lines = [line.split(" ", 3) for line in out.splitlines() if not line.startswith(";")]
            self.assertEqual(len(lines), len(told["gaps"]))
            for (owner, of_class, of_type, rest), gap in zip(lines, told["gaps"]):
                self.assertEqual(dns.name.from_text(owner).to_wire(), qorshudan.wire(gap["owner"]))
                record = dns.rdata.from_text(of_class, of_type, rest)
                self.assertEqual(record.to_wire(), qorshudan.wire(gap["next"]) + bytes.fromhex(gap["bitmap"]))

    def test_mnemonics(self):
        for mnemonic, number in _mnemonics._MNEMONICS.items():
            known = dns.rdatatype.RdataType.__members__.get(mnemonic)
            if known is not None:
                self.assertEqual(int(known), number, mnemonic)
        self.assertEqual(qorshudan.write_types(["AXFR"]), qorshudan.write_types([252]))


if __name__ == "__main__":
    unittest.main()
