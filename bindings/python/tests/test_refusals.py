"""Refusals are those of README's table, number by number, and the module has every function of the C header."""

import doctest
import os
import re
import unittest

import qorshudan
from qorshudan import _denial, _encloser, _faults, _hashes, _library, _names, _neighbours, _owners, _refused, _types

ROOT = os.path.normpath(os.path.join(os.path.dirname(os.path.abspath(__file__)), "..", "..", ".."))


def text(path):
    with open(os.path.join(ROOT, path), encoding="utf-8") as file:
        return file.read()


class Refusals(unittest.TestCase):
    def test_table(self):
        """README's sentence of each number; what stands in brackets there, and the numbers of a batch and of nothing, left out."""
        rows = re.findall(r"^\| ([0-9]+) \| ([^|]*) \|", text("README.md"), re.M)
        table = {int(number): re.sub(r" \(.*\)$", "", sentence) for number, sentence in rows}
        self.assertEqual({number for number in table if number not in _refused.BY_NUMBER}, {8, 13})
        for number, kind in _refused.BY_NUMBER.items():
            self.assertEqual(kind.sentence, table[number])
            self.assertTrue(issubclass(kind, qorshudan.Refused) and issubclass(kind, ValueError))
            self.assertIs(getattr(qorshudan, kind.__name__), kind)
            self.assertIn(kind.sentence, str(kind()))
        self.assertEqual(len(_refused.BY_NUMBER), len(qorshudan.Refused.__subclasses__()))

    def test_reasons(self):
        for reason, sentence in _refused.REASONS.items():
            self.assertIn(f"{reason} ({sentence})", " ".join(text("README.md").split()))

    def test_header(self):
        """The functions of the C header, with the number of their arguments."""
        declared = re.findall(r"^(?:QORSHUDAN_RESULT|uint64_t) qorshudan_(\w+)\(([^;]*)\);", text("include/qorshudan.h"), re.M)
        self.assertGreaterEqual(len(declared), 29)
        counts = {name: 0 if takes == "void" else takes.count(",") + 1 for name, takes in declared}
        self.assertEqual({name: len(takes) for name, takes in _library._FUNCTIONS.items()}, counts)

    def test_constants(self):
        header = text("include/qorshudan.h")
        names = "NAME_MAX KEY_MAX TEXT_MAX DENIAL_MAX BITMAP_MAX HASH_LENGTH HASH_LABEL_LENGTH OWNERS_MAX OWNER_OCTETS_MAX"
        for name in names.split():
            self.assertIn(f"#define QORSHUDAN_{name} {getattr(qorshudan, name)}\n", header)

    def test_version(self):
        self.assertEqual(qorshudan.version(), qorshudan.__version__)
        self.assertEqual(text("VERSION").strip(), qorshudan.__version__)

    def test_public(self):
        self.assertEqual([name for name in qorshudan.__all__ if not hasattr(qorshudan, name)], [])

    def test_examples(self):
        for module in (qorshudan, _names, _neighbours, _encloser, _denial, _types, _hashes, _owners):
            failed, tried = doctest.testmod(module, optionflags=doctest.IGNORE_EXCEPTION_DETAIL)
            self.assertEqual(failed, 0)
            self.assertGreaterEqual(tried, 2)


class Faults(unittest.TestCase):
    def test_sentences(self):
        """What is wrong with a text, beside the place that the second program has for it."""
        for given, place, words in (
            ("", 0, "the text is empty"),
            ("a", 1, "the name must end with a dot"),
            ("a..", 2, "an empty label"),
            (".a.", 1, "an empty label"),
            ("..", 1, "an empty label"),
            ("a" * 64 + ".", 63, "a label of 64 octets"),
            (r"\097" * 64 + ".", 252, "a label of 64 octets"),
            ("a." * 127 + "a.", 254, "a name of 256 octets"),
            (("a" * 63 + ".") * 3 + "a" * 62 + ".", 253, "a name of 256 octets"),
            ("a\\", 2, "the text ends within the escape \\"),
            ("a\\25", 4, "the text ends within the escape \\25"),
            ("\\256.", 3, "after \\25 an escape"),
            ("\\3000.", 1, "a backslash stands before three digits"),
            ("\\2a.", 2, "after \\2 an escape"),
            ("\\ .", 1, "a backslash stands before three digits"),
            ("b\xfccher.", 1, "use the xn-- form"),
            ("a b.", 1, "write it \\032"),
            ("a\x7f.", 1, "write it \\127"),
        ):
            with self.subTest(given=given[:20]):
                with self.assertRaises(qorshudan.NotAText) as raised:
                    qorshudan.wire(given)
                self.assertEqual(raised.exception.place, place)
                self.assertIn(words, raised.exception.fault)
                self.assertIn(words, str(raised.exception))

    def test_any_place(self):
        """Whatever the octets and the place, there is a sentence."""
        for octet in range(256):
            for before in (b"", b"a", b"a.", b"\\", b"\\1", b"\\12", b".", b"a" * 63):
                given = before + bytes([octet])
                for place in range(len(given) + 1):
                    self.assertTrue(_faults.of_text(given, place))


if __name__ == "__main__":
    unittest.main()
