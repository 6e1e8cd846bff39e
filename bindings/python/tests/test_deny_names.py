"""The command `deny` with the names that exist: what it finds in a list, where one is refused, and zones in plain Python."""

import json
import random
import unittest

import qorshudan
from command import run
from denying import Denying
from notation import folded, labels, of_text


class Names(Denying):
    def test_names(self):
        """The encloser is found in the list, and what exists is not denied."""
        told = self.told("--names", self.zone, "example.com.", "q.x.shop.example.com.")
        parts = {part: told[part] for part in ("encloser", "next_closer", "wildcard")}
        self.assertEqual(parts, {"encloser": "shop.example.com.", "next_closer": "x.shop.example.com.", "wildcard": "*.shop.example.com."})
        lines = self.deny("--short", "--names", self.zone, "example.com.", "q.x.shop.example.com.")
        order = [line[4:11].strip() for line in lines if line.startswith(";   ")]
        self.assertEqual(order, "exists exists owner missing next owner missing query next exists".split())
        self.assertEqual([line.split()[-1] for line in lines if "exists  " in line], ["*.dyn.example.com.", "encloser)", "z.shop.example.com."])
        for name, why in (
            ("SUB.example.com.", "sub.example.com. exists: --nodata"),
            ("shop.example.com.", "shop.example.com. exists, as an empty non-terminal: --nodata"),
            ("w.dyn.example.com.", "*.dyn.example.com. exists, and answers for w.dyn.example.com.: --wildcard"),
            ("a.b.dyn.example.com.", "*.dyn.example.com. exists, and answers for a.b.dyn.example.com."),
        ):
            self.refused(f"qorshudan: name: refused: {why}", "--names", self.zone, "example.com.", name)
            self.assertIsNone(self.told("--names", self.zone, "example.com.", name, status=1)["gaps"])
        self.assertEqual(len(self.records("--names", self.zone, "example.com.", "a.*.dyn.example.com.")), 2)
        status, out, err = run("deny", "--names", "-", "example.com.", "b.example.com.", given=b"a.b.example.com.\n")
        self.assertEqual((status, out), (1, ""))
        # A list without names is one of the apex alone.
        self.assertEqual(self.records("--names", "/dev/null", "example.com.", "x.y.example.com."), self.records("example.com.", "y.example.com."))

    def test_wildcard_without_types(self):
        """A wildcard that is an empty non-terminal answers too, with nothing (RFC 4592 section 4.9), and what is under it is not denied."""
        given = b"a.*.example.com.\n"
        status, out, err = run("deny", "--names", "-", "example.com.", "b.example.com.", given=given)
        self.assertEqual((status, out), (1, ""))
        self.assertIn("*.example.com. exists, and answers for b.example.com.", err)

    def test_names_that_break(self):
        for given, lines in (
            (b"example.com.\n\na..example.com.\nb.com.\n", ["3: names: refused 14 at 2: ", "4: names: refused 6: the name is not at or under the apex"]),
            (b"a.example.com. NOSUCH\n", ["1: names: refused: type: no type is called 'NOSUCH'"]),
            (b"a.example.com. A\nlonger.example.com.\n", ["2: names: refused 5: the name is longer than the limit"]),
        ):
            status, out, err = run("deny", "--limit", "18", "--names", "-", "example.com.", "b.example.com.", given=given)
            self.assertEqual((status, out), (1, ""))
            told = [line for line in err.splitlines() if line.startswith("qorshudan: ")]
            self.assertEqual(len(told), len(lines))
            for line, expected in zip(told, lines):
                self.assertTrue(line.startswith("qorshudan: standard input:" + expected), line)
        many = "".join(f"{index}.example.com.\n" for index in range(qorshudan.OWNERS_MAX)).encode()
        status, out, err = run("deny", "--names", "-", "example.com.", "b.example.com.", given=many)
        self.assertEqual((status, out), (1, ""))
        most = qorshudan.OWNERS_MAX
        self.assertIn(f"names: refused 16 at 0: the list is none of owners: it has {most + 1} names, and {most} are the most", err)
        self.assertEqual(run("deny", "--names", "/no/such/file", "example.com.", "a.example.com.")[0], 3)

    def test_zones(self):
        """Random zones: what is denied is what plain Python finds missing, and no record covers a name that exists."""
        draw = random.Random(4470)
        kinds = {"exists": 0, "wildcard": 0, "missing": 0}
        few = ["a", "b", "*", "a\\000", "\\255", "ab", "\\("]
        for _ in range(25):
            deep = [[draw.choice(few) for _ in range(draw.randint(1, 4))] for _ in range(draw.randint(0, 9))]
            names = [".".join(parts) + ".example.com." for parts in deep] + ["example.com."]
            queries = [".".join(draw.choice(few) for _ in range(draw.randint(1, 5))) + ".example.com." for _ in range(40)]
            with open(self.zone, "w") as file:
                file.write("".join(f"{name} A\n" for name in names))
            given = "".join(f"example.com. {query}\n" for query in queries).encode()
            status, out, err = run("deny", "--json", "--names", self.zone, "-f", "-", given=given)
            self.assertEqual(err, "")
            there = {order[:count] for order in map(self.order, names) for count in range(2, len(order) + 1)}
            for query, line in zip(queries, out.splitlines()):
                told, order = json.loads(line), self.order(query)
                encloser = max((one for one in there if order[: len(one)] == one), key=len)
                kind = "exists" if order in there else "wildcard" if encloser + (b"*",) in there else "missing"
                kinds[kind] += 1
                if kind != "missing":
                    self.assertIsNone(told["gaps"])
                    self.assertIn("answers for" if kind == "wildcard" else "exists", told["refused"][0]["sentence"])
                    continue
                self.assertEqual(self.order(told["encloser"]), encloser)
                gaps = [(self.order(gap["owner"]), self.order(gap["next"])) for gap in told["gaps"]]
                covered = [one for one in there | {order, encloser + (b"*",)} if any(self.covers(gap, one) for gap in gaps)]
                self.assertEqual(set(covered), {order, encloser + (b"*",)})
        self.assertGreaterEqual(min(kinds.values()), 50, kinds)

    @staticmethod
    def order(text):
        """The labels from the right, which compare as the names do in canonical order."""
        return tuple(reversed(labels(folded(of_text(text)))))

    @staticmethod
    def covers(gap, name):
        owner, following = gap
        return owner < name < following if owner < following else owner < name or name < following


if __name__ == "__main__":
    unittest.main()
