"""The command `deny`: its records and its picture, beside the papers and the second program."""

import concurrent.futures
import json
import os
import tempfile
import unittest

from command import run
from denying import Denying
from notation import folded, in_digits, is_broken, of_text, paper

CASES = os.environ.get("QORSHUDAN_CASES")
BEFORE_STAR = r"\255{49}.\255{63}.\255{63}.\)\255{62}"


class Deny(Denying):
    def test_nxdomain(self):
        lines = self.deny("--short", "example.com.", "Foo.Example.com.")
        self.assertEqual(
            lines,
            [
                "; NXDOMAIN: foo.example.com. is missing",
                ";   exists     example.com. (the closest encloser)",
                r";   owner   +- \255{49}.\255{63}.\255{63}.\)\255{62}.example.com.",
                ";   missing |  *.example.com. and all under it",
                r";   next    +- *\000.example.com.",
                r";   owner   +- \255{49}.\255{63}.\255{63}.fon\255{60}.example.com.",
                ";   missing |  foo.example.com. and all under it",
                r";   next    +- foo\000.example.com.",
                r"\255{49}.\255{63}.\255{63}.fon\255{60}.example.com. IN NSEC foo\000.example.com. RRSIG NSEC",
                r"\255{49}.\255{63}.\255{63}.\)\255{62}.example.com. IN NSEC *\000.example.com. RRSIG NSEC",
            ],
        )
        # What is pasted is written out, and the picture is not.
        long = self.deny("example.com.", "foo.example.com.")
        self.assertEqual(long[:-2], lines[:-2])
        for line, expected in zip(long[-2:], (r"\255{49}.\255{63}.\255{63}.fon\255{60}", BEFORE_STAR)):
            self.assertEqual(of_text(line.split()[0]), paper(expected))
        self.assertEqual(
            self.deny("--limit", "15", "example.com.", "+.example.com.")[1:],
            [
                ";   exists     example.com. (the closest encloser)",
                r";   owner   +- \).example.com.",
                ";   missing |  *.example.com. and all under it",
                ";   missing |  +.example.com. and all under it",
                ";   next    +- ,.example.com.",
                r"\).example.com. IN NSEC ,.example.com. RRSIG NSEC",
            ],
        )
        lines = self.deny("--limit", "19", "example.com.", "q.x.example.com.")
        self.assertEqual(lines[1], "; the apex is taken for the closest encloser, so that nothing at or under x.example.com. may exist")
        self.assertIn(";   query   |  q.x.example.com.", lines)
        lines = self.deny("--limit", "19", "--encloser", "x.example.com.", "example.com.", "q.x.example.com.")
        self.assertIn(";   exists     x.example.com. (the closest encloser)", lines)
        ends = [(r"p\255\255", r"q\000"), (r"\)\255\255", r"*\000")]
        self.assertEqual(lines[-2:], [f"{owner}.x.example.com. IN NSEC {end}.x.example.com. RRSIG NSEC" for owner, end in ends])
        # The last gap of a zone ends at the apex, which stands below it.
        lines = self.deny("--limit", "15", "example.com.", r"\255.example.com.")
        self.assertEqual(lines[-3], ";   next    +- example.com. (the closest encloser)")

    def test_an_owner_that_exists(self):
        """It has its own types, and is refused without them."""
        needs = "example.com. exists, so that its record has its types"
        self.refused(needs, "example.com.", r"\000.example.com.")
        self.refused(needs, "--nodata", "example.com.", "Example.com.")
        records = self.records("--short", "--types", "ns,SOA,TYPE1234", "example.com.", r"\000.example.com.")
        self.assertEqual(records[0], r"example.com. IN NSEC \000\000.example.com. NS SOA RRSIG NSEC TYPE1234")
        self.assertTrue(records[1].endswith(r" IN NSEC *\000.example.com. RRSIG NSEC"))
        records = self.records("--names", self.zone, "example.com.", r"\000.example.com.")
        self.assertEqual(records[0], r"example.com. IN NSEC \000\000.example.com. NS SOA RRSIG NSEC DNSKEY")
        # An empty non-terminal has none, and an owner that is made up no more than two.
        records = self.records("--names", self.zone, "example.com.", r"\000.shop.example.com.")
        self.assertEqual(records[0], r"shop.example.com. IN NSEC \000\000.shop.example.com. RRSIG NSEC")
        lines = self.deny("--short", "--types", "A", "example.com.", "foo.example.com.")
        self.assertIn("--types is for an owner that exists", lines[1])
        self.assertEqual([line.split()[-2:] for line in lines[-2:]], [["RRSIG", "NSEC"]] * 2)
        with tempfile.NamedTemporaryFile("w") as file:
            file.write("a.example.\n\\).example.\n")
            file.flush()
            limited = ("--limit", "11", "--names", file.name, "example.", "b.example.")
            self.refused("a.example. exists, so that its record has its types", *limited)
            self.refused("two owners exist, and --types is for one", "--types", "A", *limited)
            file.write("\\).example. MX\nA.example. TXT A\n")
            file.flush()
            self.assertEqual(
                self.records(*limited),
                ["a.example. IN NSEC c.example. A TXT RRSIG NSEC", r"\).example. IN NSEC +.example. MX RRSIG NSEC"],
            )

    def test_nodata(self):
        self.assertEqual(
            self.deny("--nodata", "--types", "A", "example.com.", "Bar.example.com."),
            [
                "; NODATA: bar.example.com. exists, and has no types but those below",
                ";   exists    example.com.",
                ";   owner  +- bar.example.com. (exists)",
                r";   next   +- \000.bar.example.com.",
                r"bar.example.com. IN NSEC \000.bar.example.com. A RRSIG NSEC",
            ],
        )
        for name, record in (
            ("Z.shop.example.com.", r"z.shop.example.com. IN NSEC \000.z.shop.example.com. A MX RRSIG NSEC"),
            ("shop.example.com.", r"shop.example.com. IN NSEC \000.shop.example.com. RRSIG NSEC"),
            ("example.com.", r"example.com. IN NSEC \000.example.com. NS SOA RRSIG NSEC DNSKEY"),
            ("*.dyn.example.com.", r"*.dyn.example.com. IN NSEC \000.*.dyn.example.com. A RRSIG NSEC TYPE1234"),
        ):
            self.assertEqual(self.records("--nodata", "--names", self.zone, "example.com.", name), [record])
        self.refused("name: refused: foo.example.com. is missing", "--nodata", "--names", self.zone, "example.com.", "foo.example.com.")
        self.refused(
            "name: refused: w.dyn.example.com. is missing, and *.dyn.example.com. answers for it",
            *("--nodata", "--names", self.zone, "example.com.", "w.dyn.example.com."),
        )

    def test_compact(self):
        """RFC 9824 section 3.1: the name, its successor, and the types RRSIG, NSEC and NXNAME."""
        told = self.told("--compact", "example.com.", "a.Foo.example.com.")
        self.assertEqual(
            told["gaps"],
            [
                {
                    "owner": "a.foo.example.com.",
                    "next": r"\000.a.foo.example.com.",
                    "types": ["RRSIG", "NSEC", "NXNAME"],
                    "bitmap": "0011" + "0000000000030000000000000000000080",
                }
            ],
        )
        self.assertEqual(
            self.deny("--compact", "example.com.", "foo.example.com.")[-1], r"foo.example.com. IN NSEC \000.foo.example.com. RRSIG NSEC NXNAME"
        )
        self.refused("name: refused: example.com. exists", "--compact", "example.com.", "example.com.")
        self.refused("name: refused: shop.example.com. exists, as an empty", "--compact", "--names", self.zone, "example.com.", "shop.example.com.")
        self.refused(
            "name: refused: *.dyn.example.com. exists, and answers for w.dyn.example.com.",
            *("--compact", "--names", self.zone, "example.com.", "w.dyn.example.com."),
        )

    def test_wildcard(self):
        expected = [r"\255{45}.\255{63}.\255{63}.v\255{62}.dyn.example.com. IN NSEC w\000.dyn.example.com. RRSIG NSEC"]
        self.assertEqual(self.records("--short", "--wildcard", "--names", self.zone, "example.com.", "a.w.dyn.example.com."), expected)
        self.assertEqual(self.records("--short", "--wildcard", "--encloser", "dyn.example.com.", "example.com.", "w.dyn.example.com."), expected)
        self.refused("no wildcard of the list answers for a.b.", "--wildcard", "--names", self.zone, "example.com.", "a.b.example.com.")
        self.refused("a.*.b. is at or under *.b., which answers for no name there", "--wildcard", "b.", "a.*.b.")
        self.refused("refused 18", "--wildcard", "b.", "b.")

    def test_json(self):
        told = self.told("--limit", "15", "Example.com.", "B.example.com.")
        self.assertEqual(list(told), "apex name limit kind encloser next_closer wildcard gaps refused".split())
        self.assertEqual((told["apex"], told["name"], told["limit"], told["kind"]), ("Example.com.", "B.example.com.", 15, "nxdomain"))
        self.assertEqual([list(gap) for gap in told["gaps"]], [["owner", "next", "types", "bitmap"]] * 2)
        told = self.told("--encloser", "b.example.com.", "example.com.", "b.example.com.", status=1)
        self.assertEqual([told["gaps"], told["encloser"]], [None, None])
        self.assertEqual([(one["of"], one["number"], one["line"]) for one in told["refused"]], [("gaps", 18, None)])
        told = self.told("--encloser", "b", "example.com.", "b.example.com.", status=1)
        self.assertEqual([(one["of"], one["number"], one["place"]) for one in told["refused"]], [("encloser", 14, 1)])

    def test_files(self):
        given = b"example.com. a.example.com.\n\nexample.com. sub.example.com.\nexample.com.\ncom. b.com.\n"
        status, out, err = run("deny", "--short", "-f", "-", given=given)
        self.assertEqual(status, 2)
        questions = [line for line in out.splitlines() if "question" in line]
        asked = ("example.com. a.example.com.", "example.com. sub.example.com.", "com. b.com.")
        self.assertEqual(questions, [f"; question: {words}" for words in asked])
        self.assertEqual(len([line for line in out.splitlines() if " IN NSEC " in line]), 6)
        self.assertIn("standard input:4: 2 words wanted (APEX NAME), and 1 given", err)
        with tempfile.NamedTemporaryFile() as file:
            file.write(given)
            file.flush()
            status, out, err = run("deny", "--short", "--names", self.zone, "-f", file.name)
            self.assertEqual(status, 2)
            self.assertIn(f"{file.name}:3: name: refused: sub.example.com. exists", err)
        status, out, err = run("deny", "--names", self.zone, "-f", "-", given=b"shop.example.com. a.shop.example.com.\n")
        self.assertEqual((status, out), (1, ""))
        self.assertIn(f"qorshudan: standard input:1: {self.zone}:2: names: refused 6: ", err)

    def test_usage(self):
        for arguments in (
            ["example.com."], ["--encloser", "b.", "--names", self.zone, "b.", "a.b."], ["--nodata", "--compact", "b.", "a.b."],
            ["--nodata", "--encloser", "b.", "b.", "a.b."], ["--compact", "--encloser", "b.", "b.", "a.b."], ["--types", "NOSUCH", "--nodata", "b.", "a.b."],
            ["--compact", "--types", "A", "b.", "a.b."], ["--names", "-", "-f", "-"], ["--limit", "x", "b.", "a.b."], ["-f", "-", "b."],
        ):  # fmt: skip
            self.refused("usage: qorshudan deny [options] APEX NAME\n", *arguments, status=2)

    @unittest.skipUnless(CASES, "QORSHUDAN_CASES names no file of cases")
    def test_second_program(self):
        """Its denials through the command: the ends in JSON, and a line a record with nothing else that is no comment."""
        asked = []
        with open(CASES, encoding="ascii") as file:
            for line in file:
                operation, *fields = line.rstrip("\n").split("\t")
                if operation != "denial":
                    continue
                names = [b"" if field == "-" else bytes.fromhex(field) for field in fields[:3]]
                if not any(map(is_broken, names)):
                    asked.append(([in_digits(name) for name in names], fields[3], fields[4], fields[5:]))
        found = {"=": 0, "!": 0}
        with concurrent.futures.ThreadPoolExecutor(os.cpu_count()) as pool:
            for (words, limit, mark, expected), (status, out, err) in zip(asked[:120], pool.map(self.ask, asked[:120])):
                told = json.loads(out)
                if mark == "!":
                    self.assertEqual((status, [one["number"] for one in told["refused"]]), (1, [int(expected[0])]), words)
                elif status == 0:
                    ends = [of_text(gap[end]) for gap in told["gaps"] for end in ("owner", "next")]
                    self.assertEqual(ends, [bytes.fromhex(one) for one in expected[0].split(",")], words)
                else:
                    # The encloser exists, and its own record would need its types.
                    self.assertIn("exists, so that its record has its types", told["refused"][0]["sentence"])
                    self.assertIn(folded(of_text(words[2])), [bytes.fromhex(one) for one in expected[0].split(",")][::2])
                found[mark] += 1
        self.assertGreaterEqual(min(found.values()), 20, found)

    @staticmethod
    def ask(case):
        (query, apex, encloser), limit, _, _ = case
        return run("deny", "--json", "--limit", limit, "--encloser", encloser, "--", apex, query)


if __name__ == "__main__":
    unittest.main()
