"""The command: its answers, refusals with their carets, JSON, questions from files, exit statuses, and outputs that fail."""

import json
import os
import subprocess
import sys
import tempfile
import unittest

import qorshudan
from command import COMMAND, run

APEX, NAME = "example.com.", "foo.example.com."


class Command(unittest.TestCase):
    def test_neighbours(self):
        status, out, err = run("neighbours", "--limit", "18", APEX, NAME)
        self.assertEqual(status, 1)
        self.assertEqual(out, "predecessor: fon\\255.example.com.\nsuccessor: foo\\000.example.com.\n")
        self.assertEqual(
            err.splitlines()[0],
            "qorshudan: modified predecessor: refused 7: the limit leaves less than 64 octets for each label of depth, or the depth is not 1 to 3",
        )
        status, out, err = run("neighbours", "--short", APEX, "Foo.Example.com.")
        self.assertEqual((status, err), (0, ""))
        self.assertEqual(
            out.splitlines(),
            [
                r"predecessor: \255{49}.\255{63}.\255{63}.fon\255{60}.example.com.",
                r"successor: \000.foo.example.com.",
                r"modified predecessor: fon\255{60}.example.com.",
                r"modified successor: foo\000.example.com.",
                r"note: \000.foo.example.com. lies under foo.example.com., so a record that ends there says NODATA of foo.example.com., "
                "and not NXDOMAIN",
            ],
        )
        status, out, err = run("neighbours", "--hostnames", "--depth", "2", "--short", APEX, NAME)
        self.assertEqual(
            out.splitlines()[2:4],
            [r"modified predecessor: z{63}.fonz{60}.example.com.", r"modified successor: -.foo.example.com."],
        )

    def test_others(self):
        for arguments, expected in (
            (["compare", "Bar." + APEX, NAME], "-3: first sorts earlier; 2 labels shared\n"),
            (["key", NAME], "636f6d006578616d706c6500666f6f00\n"),
            (["key", "--read", "636F6D006578616d706c6500666f6f00"], "foo.example.com.\n"),
            (["key", "."], "\n"),
            (["fold", "A\\.B."], "a\\.b.\n"),
            (["wire", "A\\.B."], "03412e4200\n"),
            (["text", "03412e4200"], "a\\.b.\n"),
            (["types", "MX", "A", "rrsig", "NSEC", "TYPE1234"], "0006400100000003041b" + "00" * 26 + "20\n"),
            (["types", "--read", "0006400100000003041b" + "00" * 26 + "20"], "A MX RRSIG NSEC TYPE1234\n"),
            (["types", "--read", "0001400101C0"], "A URI CAA\n"),
            (["hash", "V" * 32], "octets: " + "f" * 40 + f"\nlabel: {'v' * 32}\nbefore: {'v' * 31}u\nafter: {'0' * 32}\n"),
            (["encloser", "a.shop." + APEX, "bar." + APEX, "z.Shop." + APEX], "encloser: shop.example.com.\nwildcard: *.shop.example.com.\n"),
            (["fold", "--", "-A.example."], "-a.example.\n"),
        ):
            status, out, err = run(*arguments)
            self.assertEqual((status, err), (0, ""), arguments)
            self.assertEqual(out, expected)
        for between, told in ((["f" * 40, "0" * 31 + "1"], "yes"), (["0" * 32, "1" * 32], "no")):
            status, out, err = run("hash", "0" * 40, "--between", *between)
            self.assertEqual((status, err, out.splitlines()[-1]), (0, "", f"between: {told}"))

    def test_refusals(self):
        """A sentence that names the fault, and a caret under its place."""
        for arguments, expected in (
            (
                ["fold", "a..example."],
                "qorshudan: name: refused 14 at 2: the octets are no name's text: an empty label\n  a..example.\n    ^\n",
            ),
            (
                ["wire", "bücher.example."],
                "qorshudan: name: refused 14 at 1: the octets are no name's text: octet 195 is above 126: use the xn-- form of the name, "
                "or write it \\195\n  b?cher.example.\n   ^\n",
            ),
            (
                ["text", "03412e42"],
                "qorshudan: octets: refused 4 at 4: the name is not well formed: it is cut short\n  03412e42\n          ^\n",
            ),
            (["key", "--read", "00"], "qorshudan: octets: refused 10 at 0: the octets are no name's sorting key\n  00\n  ^\n"),
            (
                ["types", "--read", "000140000140"],
                "qorshudan: octets: refused 15 at 3: the octets are no type bitmap, or the types do not rise\n  000140000140\n        ^\n",
            ),
            (["hash", "0" * 31], "qorshudan: hash: refused 17: the octets are no hash, or no hash's owner label\n"),
            (["encloser", "a.", "b.", "c."], "qorshudan: encloser: refused: the query does not lie between owner and next\n"),
        ):
            status, out, err = run(*arguments)
            self.assertEqual((status, out, err), (1, "", expected), arguments)
        status, out, err = run("compare", "a", b"\xff.")
        self.assertEqual((status, out), (1, ""))
        self.assertEqual([line.split(": ")[1] for line in err.splitlines() if line.startswith("qorshudan")], ["first", "second"])
        self.assertIn("octet 255 is above 126", err)
        status, out, err = run("fold", "a" * 100_000 + ".")
        self.assertEqual(status, 1)
        given, caret = err.splitlines()[1:]
        self.assertTrue(given.endswith("aaa ...") and len(given) < 100 and given[caret.index("^")] == "a")

    def test_usage(self):
        for arguments in (
            [], ["nosuch"], ["deny"], ["fold"], ["fold", "a.", "b."], ["--nosuch"], ["fold", "--nosuch", "a."],
            ["neighbours", APEX], ["neighbours", "--limit", "x", APEX, NAME], ["neighbours", "--limit=-1", APEX, NAME],
            ["neighbours", "--lim", "9", APEX, NAME], ["text", "0"], ["text", "0g"], ["types"], ["types", "NOSUCH"],
            ["types", "TYPE65536"], ["key", "--read"], ["fold", "-f", "-", "a."], ["hash", "0" * 32, "--between", "1"],
        ):  # fmt: skip
            status, out, err = run(*arguments)
            self.assertEqual((status, out), (2, ""), arguments)
            self.assertTrue(err.startswith("usage: qorshudan"), err)
        self.assertEqual(run("neighbours", "--limit", "9" * 5000, APEX, NAME)[0], 1)
        self.assertEqual(run("neighbours", "--limit", "0" * 5000 + "255", APEX, NAME)[0], 0)

    def test_help(self):
        status, out, err = run("--help")
        self.assertEqual((status, err), (0, ""))
        for command in ("deny", "neighbours", "compare", "key", "fold", "text", "wire", "types", "hash", "encloser", "lookup"):
            self.assertIn(f"\n    {command}", out)
            status, one, err = run(command, "--help")
            self.assertEqual((status, err), (0, ""))
            self.assertTrue(one.startswith(f"usage: qorshudan {command} [options] "))
            self.assertIn("exit status: 0 answered, 1 refused, 2 wrong usage, 3 input or output failed", one)
        self.assertEqual(run("--version"), (0, f"qorshudan {qorshudan.__version__}\n", ""))

    def test_json(self):
        def told(*arguments, status=0, **options):
            got, out, err = run(*arguments, "--json", **options)
            self.assertEqual((got, err), (status, ""))
            return [json.loads(line) for line in out.splitlines()]

        self.assertEqual(
            told("compare", "Bar." + APEX, NAME),
            [{"first": "Bar." + APEX, "second": NAME, "comparison": -3, "shared_labels": 2, "refused": []}],
        )
        [one] = told("neighbours", "--limit", "18", APEX, NAME, status=1)
        self.assertEqual(list(one), "apex name limit hostnames depth predecessor successor modified_predecessor modified_successor refused".split())
        self.assertEqual((one["successor"], one["modified_successor"]), (r"foo\000.example.com.", None))
        self.assertEqual([(each["of"], each["number"]) for each in one["refused"]], [("modified_predecessor", 7), ("modified_successor", 7)])
        [one] = told("fold", "a..", status=1)
        self.assertEqual(one["refused"][0]["place"], 2)
        self.assertEqual(list(one["refused"][0]), ["of", "number", "reason", "place", "sentence", "line"])
        for arguments, values in (
            (["key", NAME], ["key"]), (["key", "--read", "6100"], ["name"]), (["fold", NAME], ["folded"]), (["text", "00"], ["text"]),
            (["wire", NAME], ["wire"]), (["types", "A"], ["bitmap"]), (["types", "--read", "000140"], ["types"]),
            (["hash", "0" * 32], ["octets", "label", "before", "after"]), (["encloser", "b.", "a.", "c."], ["encloser", "wildcard"]),
        ):  # fmt: skip
            [one] = told(*arguments)
            self.assertEqual([value for value in values if one[value] is None], [], arguments)
        two = told("fold", "-f", "-", given=b"A.\n\n\xff.\n", status=1)
        self.assertEqual([one["folded"] for one in two], ["a.", None])

    def test_files(self):
        given = b"b.example.\n\n  A.example. \r\nbroken\n.\n"
        status, out, err = run("key", "-f", "-", given=given)
        self.assertEqual((status, out), (1, "6578616d706c65006200\n6578616d706c65006100\n\n"))
        self.assertTrue(err.startswith("qorshudan: standard input:4: name: refused 14 at 6: "))
        with tempfile.NamedTemporaryFile() as file:
            file.write(b"example. a.example.\nexample. b.example.\nexample.\n")
            file.flush()
            status, out, err = run("neighbours", "--short", "-f", file.name)
            self.assertEqual(status, 2)
            self.assertEqual([line for line in out.splitlines() if "question" in line], ["question: example. a.example.", "question: example. b.example."])
            self.assertIn(f"{file.name}:3: 2 words wanted (APEX NAME), and 1 given", err)
        self.assertEqual(run("compare", "-f", "-", given=b"a. b.\na. a.\n")[1], "-1: first sorts earlier; no label shared\n0: the same name, letter case aside\n")
        self.assertEqual(run("types", "-f", "-", given=b"A\nMX A\n")[1], "000140\n00024001\n")

    def test_input_that_fails(self):
        for path, why in (("/no/such/file", "No such file"), ("/", "Is a directory")):
            status, out, err = run("fold", "-f", path)
            self.assertEqual((status, out), (3, ""))
            self.assertIn(why, err)
        self.assertEqual(subprocess.run([*COMMAND, "fold", "-f", "-"], preexec_fn=lambda: os.close(0), capture_output=True).returncode, 3)

    def test_input_that_fails_late(self):
        """What was answered before is printed."""
        code = """
import qorshudan._command as command
def lines(path):
    yield "file:1: ", ["A.example."]
    raise command.Failed("file: Input/output error")
command.lines = lines
command.main(["fold", "-f", "file"])
"""
        done = subprocess.run([sys.executable, "-c", code], capture_output=True)
        self.assertEqual((done.returncode, done.stdout, done.stderr), (3, b"a.example.\n", b"qorshudan: file: Input/output error\n"))

    def test_output_that_fails(self):
        for arguments in (["fold", "a."], ["--help"], ["neighbours", APEX, NAME], ["key", "--json", "a."], ["deny", APEX, NAME]):
            with open("/dev/full", "w") as full:
                done = subprocess.run([*COMMAND, *arguments], stdout=full, stderr=subprocess.PIPE)
            self.assertEqual(done.returncode, 3, arguments)
            self.assertEqual(done.stderr, b"qorshudan: standard output: No space left on device\n", arguments)
            closed = subprocess.run([*COMMAND, *arguments], preexec_fn=lambda: os.close(1), stderr=subprocess.PIPE)
            self.assertEqual((closed.returncode, closed.stderr), (3, b"qorshudan: standard output is closed\n"), arguments)
        with open("/dev/full", "w") as full:
            self.assertEqual(subprocess.run([*COMMAND, "fold", "a.."], stderr=full).returncode, 1)
        self.assertEqual(subprocess.run([*COMMAND, "fold", "a.."], preexec_fn=lambda: os.close(2)).returncode, 1)

    def test_closed_pipe(self):
        """Whoever reads may stop at any time; nothing is said about it."""
        given = b"a.example.\n" * 50_000
        reading, writing = os.pipe()
        command = subprocess.Popen([*COMMAND, "key", "-f", "-"], stdin=subprocess.PIPE, stdout=writing, stderr=subprocess.PIPE)
        os.close(writing)
        os.close(reading)
        err = command.communicate(given, timeout=60)[1]
        self.assertEqual((command.returncode, err), (3, b""))


if __name__ == "__main__":
    unittest.main()
