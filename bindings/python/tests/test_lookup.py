"""The command `lookup`: where a name lies in a sorted list, beside the second program, and where a list breaks."""

import json
import os
import tempfile
import unittest

import qorshudan
from command import run
from notation import folded, in_digits, is_broken, of_text

CASES = os.environ.get("QORSHUDAN_CASES")
ZONE = """\
example.com. SOA NS

bar.example.com.
*.dyn.example.com. A
z.shop.example.com.
sub.example.com.
"""


def octets(field):
    return b"" if field == "-" else bytes.fromhex(field)


class Lookup(unittest.TestCase):
    def setUp(self):
        folder = tempfile.TemporaryDirectory()
        self.addCleanup(folder.cleanup)
        self.list = folder.name + "/list"
        self.write(ZONE)

    def write(self, text):
        with open(self.list, "w") as file:
            file.write(text)

    def lookup(self, *arguments, **options):
        status, out, err = run("lookup", *arguments, **options)
        self.assertEqual((status, err), (0, ""), arguments)
        return out.splitlines()

    def test_gap(self):
        self.assertEqual(
            self.lookup(self.list, "q.X.shop.example.com."),
            [
                "owner: *.dyn.example.com. (line 4)",
                "next: z.shop.example.com. (line 5)",
                "query: missing",
                "encloser: shop.example.com.",
                "wildcard: *.shop.example.com. (missing)",
                "looks: 3",
            ],
        )
        for query, line, more in (
            ("SUB.example.com.", "query: an owner", ["owner: sub.example.com. (line 6)", "next: example.com. (line 1)"]),
            ("shop.example.com.", "query: an empty non-terminal: it exists, without types", ["encloser: shop.example.com."]),
            ("w.dyn.example.com.", "query: missing", ["wildcard: *.dyn.example.com. (exists, and answers for the query)"]),
            (r"\255.example.com.", "query: missing", ["owner: sub.example.com. (line 6)", "next: example.com. (line 1)"]),
            ("example.com.", "query: an owner", ["next: bar.example.com. (line 3)"]),
        ):
            told = self.lookup(self.list, query)
            self.assertEqual(told[2], line)
            self.assertEqual([one for one in more if one not in told], [], query)
        self.assertEqual(self.lookup("-", "q.x.shop.example.com.", given=ZONE.encode()), self.lookup(self.list, "q.x.shop.example.com."))

    def test_breaks(self):
        """The line, the index, and why in words."""
        most = qorshudan.OWNERS_MAX
        many = "example.\n" + "".join(f"{index}.example.\n" for index in range(most))
        for text, at, index, why in (
            ("example.\nb.example.\n\na.example.\n", 4, 2, "a.example. sorts before b.example., which stands before it"),
            ("example.\nB.example.\n", 2, 1, "it is not written in lower case: b.example."),
            ("Example.\nb.example.\n", 1, 0, "it is not written in lower case: example."),
            ("example.\nb.example.\nb.example.\n", 3, 2, "b.example. stands twice"),
            ("example.\ncom.\n", 2, 1, "com. is no name of the zone: the name is not at or under the apex"),
            ("", None, 0, "it has no name"),
            (many, None, 0, f"it has {most + 1} names, and {most} are the most"),
        ):
            self.write(text)
            status, out, err = run("lookup", self.list, "a.example.")
            self.assertEqual((status, out), (1, ""))
            where = "" if at is None else f"{self.list}:{at}: "
            self.assertEqual(err, f"qorshudan: {where}list: refused 16 at {index}: the list is none of owners: {why}\n")
        self.write("example.\na..example.\n")
        status, out, err = run("lookup", self.list, "a.example.")
        self.assertEqual((status, out), (1, ""))
        self.assertTrue(err.startswith(f"qorshudan: {self.list}:2: list: refused 14 at 2: the octets are no name's text: an empty label\n"), err)
        self.write("example.\na.example.\n")
        status, out, err = run("lookup", "--apex", "com.", self.list, "a.example.")
        self.assertEqual((status, out), (1, ""))
        self.assertIn(f"{self.list}:1: list: refused 16 at 0: the list is none of owners: the first name is not the apex, com.", err)
        self.assertEqual(self.lookup("--apex", "Example.", self.list, "a.example.")[2], "query: an owner")
        self.write("example.\nlong.example.\n")
        status, out, err = run("lookup", "--limit", "13", self.list, "a.example.")
        self.assertEqual((status, out), (1, ""))
        self.assertIn("long.example. is no name of the zone: the name is longer than the limit", err)

    def test_refused(self):
        for name, told in (("com.", "name: refused 6: "), ("a", "name: refused 14 at 1: ")):
            status, out, err = run("lookup", self.list, name)
            self.assertEqual((status, out), (1, ""))
            self.assertTrue(err.startswith("qorshudan: " + told), err)
        self.assertEqual(run("lookup", "/no/such/file", "a.")[0], 3)
        for arguments in (["a."], [self.list, "a.", "b."], [self.list, "a.", "-f", "-"], ["-f", "-"], ["-", "-f", "-"]):
            status, out, err = run("lookup", *arguments)
            self.assertEqual((status, out), (2, ""), arguments)
            self.assertTrue(err.startswith("usage: qorshudan lookup [options] LIST NAME\n       qorshudan lookup [options] LIST -f FILE\n"), err)

    def test_files(self):
        given = b"q.x.shop.example.com.\n\nsub.example.com.\ncom.\na. b.\n"
        status, out, err = run("lookup", self.list, "-f", "-", given=given)
        self.assertEqual(status, 2)
        self.assertEqual([line for line in out.splitlines() if "question" in line], ["question: q.x.shop.example.com.", "question: sub.example.com."])
        self.assertEqual(err.splitlines()[-1], "qorshudan: standard input:5: 1 word wanted (NAME), and 2 given")

    def test_json(self):
        [line] = self.lookup("--json", self.list, "q.X.shop.example.com.")
        self.assertEqual(
            json.loads(line),
            {
                "list": self.list,
                "name": "q.X.shop.example.com.",
                "apex": "example.com.",
                "limit": 255,
                "owner": "*.dyn.example.com.",
                "owner_line": 4,
                "next": "z.shop.example.com.",
                "next_line": 5,
                "is_owner": False,
                "exists": False,
                "encloser": "shop.example.com.",
                "wildcard": "*.shop.example.com.",
                "wildcard_exists": False,
                "looks": 3,
                "refused": [],
            },
        )
        self.write("example.\na.b.example.\nc.example.\nb.example.\n")
        status, out, err = run("lookup", "--json", self.list, "a.example.")
        self.assertEqual((status, err), (1, ""))
        [refused] = json.loads(out)["refused"]
        self.assertEqual((refused["of"], refused["number"], refused["place"], refused["line"]), ("list", 16, 3, 4))

    @unittest.skipUnless(CASES, "QORSHUDAN_CASES names no file of cases")
    def test_second_program(self):
        """Its lookups and its refusals of lists through the command, as far as texts can say them."""
        found = {"=": 0, "!": 0}
        with open(CASES, encoding="ascii") as file:
            for line in file:
                operation, *fields = line.rstrip("\n").split("\t")
                if operation != "find_owner" or min(found.values()) >= 30 or found.get(fields[4], 0) >= 60:
                    continue
                names, apex, query = [octets(one) for one in fields[0].split(",")], octets(fields[1]), octets(fields[3])
                if any(map(is_broken, names + [apex, query])):
                    continue
                self.write("".join(in_digits(name) + "\n" for name in names))
                status, out, err = run("lookup", "--json", "--apex", in_digits(apex), "--limit", fields[2], self.list, in_digits(query))
                told, mark = json.loads(out), fields[4]
                found[mark] += 1
                if mark == "!":
                    self.assertEqual([(one["number"], one["place"] or 0) for one in told["refused"]], [(int(fields[5]), int(fields[7]))], line)
                    continue
                index, looks, encloser = fields[5].split(",")
                if status:
                    # The second program looks up what is no name of the zone as well.
                    self.assertIn(told["refused"][0]["number"], (5, 6))
                    continue
                owner, following = int(index), (int(index) + 1) % len(names)
                self.assertEqual((told["owner_line"], told["next_line"], told["looks"]), (owner + 1, following + 1, int(looks)), line)
                self.assertEqual((of_text(told["owner"]), of_text(told["next"])), (names[owner], names[following]))
                self.assertEqual(told["is_owner"], names[owner] == folded(query))
                self.assertEqual(of_text(told["encloser"]), names[owner] if told["is_owner"] else octets(encloser))
                self.assertEqual(told["exists"], of_text(told["encloser"]) == folded(query))
        self.assertGreaterEqual(min(found.values()), 30, found)


if __name__ == "__main__":
    unittest.main()
