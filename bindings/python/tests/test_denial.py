"""Whole denials beside the papers: the ends of their gaps, the kinds of names, and what is refused."""

import pickle
import unittest

import qorshudan
from notation import APEX, of_text, paper
from qorshudan import Denial, Gap

BEFORE_STAR = r"\255{49}.\255{63}.\255{63}.\)\255{62}"


class Papers(unittest.TestCase):
    """The ends are those of document 01's table: the predecessor, and the first name after all under it."""

    def gaps(self, name, **options):
        return [tuple(gap) for gap in qorshudan.denial(paper(name), apex=APEX, **options).gaps]

    def test_two_gaps(self):
        self.assertEqual(
            self.gaps("foo"),
            [(paper(r"\255{49}.\255{63}.\255{63}.fon\255{60}"), paper(r"foo\000")), (paper(BEFORE_STAR), paper(r"*\000"))],
        )
        # At the limit a label ends with the octet after its last one, and 65 to 90 are none.
        self.assertEqual(self.gaps(r"\@", limit=15), [(paper("?"), paper("[")), (paper(r"\)"), paper("+"))])

    def test_the_encloser(self):
        """The gap is that of the next closer name, whatever lies in front of it."""
        for query in ("x.shop", "q.x.shop", r"\000.\255.x.Shop"):
            owner = paper(r"\255{44}.\255{63}.\255{63}.w\255{62}.shop")
            star = paper(r"\255{44}.\255{63}.\255{63}.\)\255{62}.shop")
            expected = [(owner, paper(r"x\000.shop")), (star, paper(r"*\000.shop"))]
            self.assertEqual(self.gaps(query, encloser="SHOP.example.com."), expected)
            self.assertEqual(self.gaps(query), self.gaps("shop"))

    def test_one_gap(self):
        """The wildcard itself, and names whose gap touches that of the wildcard, behind it and before it."""
        self.assertEqual(self.gaps("*"), [(paper(BEFORE_STAR), paper(r"*\000"))])
        self.assertEqual(self.gaps(r"a.*\000"), [(paper(BEFORE_STAR), paper(r"*\000\000"))])
        self.assertEqual(self.gaps("+", limit=15), [(paper(r"\)"), paper(","))])
        self.assertEqual(self.gaps(r"\)", limit=15), [(paper(r"\("), paper("+"))])

    def test_the_ends_of_a_zone(self):
        self.assertEqual(self.gaps(r"\000")[0], (APEX, paper(r"\000\000")))
        self.assertEqual(self.gaps(r"\255{63}")[0], (paper(r"\255{49}.\255{63}.\255{63}.\255{62}\254"), APEX))

    def test_kinds(self):
        text = qorshudan.denial("Foo.Example.com.", apex=APEX)
        self.assertEqual(text.gaps[0].next, r"foo\000.example.com.")
        wire = qorshudan.denial(bytearray(paper("Foo")), apex="Example.com.", encloser=memoryview(APEX))
        self.assertEqual([[of_text(end) for end in gap] for gap in text.gaps], [list(gap) for gap in wire.gaps])
        self.assertIs(type(wire.gaps[0].owner), bytes)
        owner, next_name = text.gaps[1]
        self.assertEqual(text.gaps[1], Gap(owner, next_name))
        self.assertEqual(text, Denial(text.gaps))
        self.assertEqual(pickle.loads(pickle.dumps(text)), text)
        self.assertEqual(len({text, qorshudan.denial("foo.example.com.", apex=APEX)}), 1)
        with self.assertRaises(AttributeError):
            text.gaps = ()
        self.assertTrue(qorshudan.covers(*text.gaps[0], "q.foo.example.com."))
        self.assertFalse(qorshudan.covers(*text.gaps[0], "example.com."))

    def test_refused(self):
        for number, name, options in (
            (1, "foo.example.com.", {"limit": 0}),
            (1, "foo.example.com.", {"limit": (1 << 64) + 255}),
            (2, "foo.example.com.", {"apex": b"\1"}),
            (3, "foo.example.com.", {"limit": 12}),
            (4, b"\3foo", {}),
            (5, "foo.example.com.", {"limit": 16}),
            (6, "foo.example.", {}),
            (6, "foo.example.", {"encloser": b""}),
            (14, "foo.example.com", {}),
            (14, "foo.example.com.", {"encloser": "example.com"}),
            (18, "example.com.", {}),
            (18, "foo.example.com.", {"encloser": "FOO.example.com."}),
            (18, "foo.example.com.", {"encloser": "com."}),
            (18, "foo.example.com.", {"encloser": "bar.example.com."}),
            (18, "foo.example.com.", {"encloser": b"\x07example\x03com"}),
            (18, "foo.example.com.", {"encloser": b""}),
        ):
            with self.subTest(name=name, options=options):
                with self.assertRaises(qorshudan.Refused) as raised:
                    qorshudan.denial(name, **{"apex": APEX, **options})
                self.assertEqual(raised.exception.number, number)
        with self.assertRaises(qorshudan.NotAnEncloser):
            qorshudan.denial(APEX, apex=APEX)
        for arguments, options in ((("a.",), {}), (("a.", "."), {}), ((5,), {"apex": "."}), (("a.",), {"apex": ".", "encloser": 5})):
            with self.assertRaises(TypeError):
                qorshudan.denial(*arguments, **options)


if __name__ == "__main__":
    unittest.main()
