"""The papers' names to try (document 01), under example.com. and with a limit of 255 unless said; {n} repeats an octet."""

import unittest

import qorshudan
from notation import APEX, paper

# The name, its predecessor and its successor; None where the papers have none.
ABSOLUTE = [
    ("foo", r"\255{49}.\255{63}.\255{63}.fon\255{60}", r"\000.foo"),
    (r"\000.foo", "foo", None),
    (r"foo\000", r"\255{45}.\255{63}.\255{63}.\255{63}.foo", None),
    (r"\255{45}.\255{63}.\255{63}.\255{63}.foo", None, r"foo\000"),
    ("fo{47}.o{63}.o{63}.o{63}", None, r"fo{47}\000.o{63}.o{63}.o{63}"),
    ("fo{48}.o{63}.o{63}.o{63}", None, "fo{47}p.o{63}.o{63}.o{63}"),
    (r"\255{49}.o{63}.o{63}.o{63}", None, "o{62}p.o{63}.o{63}"),
    ("", r"\255{49}.\255{63}.\255{63}.\255{63}", r"\000"),
    (r"\255{49}.\255{63}.\255{63}.\255{63}", None, ""),
]
OF_15_OCTETS = [(r"\@", None, "["), ("[", r"\@", None), (r"\255", None, "")]
MODIFIED = [("bar.foo", "foo", r"foo\000"), (r"\000", "", None), ("foo", r"fon\255{60}", None), ("", r"\255{63}", r"\000")]


class Papers(unittest.TestCase):
    def table(self, rows, **options):
        for name, before, after in rows:
            with self.subTest(name=name):
                if before is not None:
                    self.assertEqual(qorshudan.predecessor(paper(name), APEX, **options), paper(before))
                if after is not None:
                    self.assertEqual(qorshudan.successor(paper(name), APEX, **options), paper(after))

    def test_absolute(self):
        self.table(ABSOLUTE)

    def test_limit_15(self):
        self.table(OF_15_OCTETS, limit=15)

    def test_modified(self):
        self.table(MODIFIED, modified=True)
        self.table(MODIFIED[:1], modified=True, depth=1)
        self.table([("foo", r"fon\255{60}", None)], modified=True, limit=77)

    def test_limits(self):
        for limit, refused in ((12, qorshudan.ApexTooLong), (14, qorshudan.ApexTooLong), (0, qorshudan.BadLimit), (256, qorshudan.BadLimit)):
            with self.assertRaises(refused):
                qorshudan.successor(paper("a") if limit == 12 else b"\3broken", APEX, limit)
        with self.assertRaises(qorshudan.NoFullLabel):
            qorshudan.predecessor(paper("foo"), APEX, 76, modified=True)

    def test_keys(self):
        self.assertEqual(qorshudan.key("foo.example.com.").hex(" "), "63 6f 6d 00 65 78 61 6d 70 6c 65 00 66 6f 6f 00")
        self.assertEqual(qorshudan.key("."), b"")
        self.assertEqual(qorshudan.from_key(b""), ".")
        for key, place in ((b"\0", 0), (b"a", 1)):
            with self.assertRaises(qorshudan.NotAKey) as refused:
                qorshudan.from_key(key)
            self.assertEqual(refused.exception.place, place)

    def test_tail_octets_only(self):
        with self.assertRaises(qorshudan.NotUnderApex):
            qorshudan.successor(rb"x\007example.com.".decode(), "example.com.")

    def test_types(self):
        bitmap = bytes.fromhex("00 06 40 01 00 00 00 03 04 1b" + "00" * 26 + "20")
        self.assertEqual(qorshudan.write_types({"A", "MX", "RRSIG", "NSEC", "TYPE1234"}), bitmap)
        self.assertEqual(qorshudan.read_types(bitmap), {1, 15, 46, 47, 1234})
        self.assertEqual(qorshudan.count_types(bitmap), 5)

    def test_hostnames(self):
        """Request Eight: the hyphen is the least of the alphabet and z the greatest."""
        self.assertEqual(qorshudan.successor("foo.example.com.", "example.com.", hostnames=True), "-.foo.example.com.")
        before = qorshudan.predecessor(paper("foo"), APEX, hostnames=True)
        self.assertEqual(before, paper("z{49}.z{63}.z{63}.fonz{60}"))
        with self.assertRaises(qorshudan.NotInAlphabet):
            qorshudan.successor("f_o.example.com.", "example.com.", hostnames=True)

    def test_depth(self):
        """Request Ten: at depth 2 the successor of a name with one label more has \\000 in front."""
        self.assertEqual(qorshudan.successor(paper("foo"), APEX, modified=True, depth=2), paper(r"\000.foo"))
        for depth in (0, 4, -1, 1 << 64, (1 << 64) + 1):
            with self.assertRaises(qorshudan.NoFullLabel):
                qorshudan.successor(paper("foo"), APEX, modified=True, depth=depth)


if __name__ == "__main__":
    unittest.main()
