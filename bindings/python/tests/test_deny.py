"""The stored cases of tests/deny, whose expected lines the second program writes, through the command: those of the form APEX NAME [LIMIT]
are `deny`, `neighbours` and `key`, the others `compare`, `key` and `fold`."""

import concurrent.futures
import glob
import os
import re
import unittest

from command import run

FOLDER = os.path.join(os.path.dirname(os.path.abspath(__file__)), "..", "..", "..", "tests", "deny")
WORDS = ("compare", "key", "fold")


def cases():
    for path in sorted(glob.glob(os.path.join(FOLDER, "*.args"))):
        with open(path, "rb") as file:
            arguments = file.read().split(b"\n")[:-1]
        with open(path[: -len("args")] + "out", encoding="ascii") as file:
            yield os.path.basename(path), arguments, file.read().splitlines()


def places(lines):
    """What is refused, with number and place."""
    return re.findall(r"(?m)^(?:qorshudan: )?([a-z ]+): refused ([0-9]+)(?: at ([0-9]+))?", "\n".join(lines))


class Deny(unittest.TestCase):
    def expect(self, cases, least):
        """Of each case its answers on standard output, its refusals on standard error, and the exit status; several at a time."""
        self.assertGreaterEqual(len(cases), least)
        with concurrent.futures.ThreadPoolExecutor(os.cpu_count()) as pool:
            for case, told in zip(cases, pool.map(lambda case: run(*case[1]), cases)):
                (name, _, answers, refusals), (status, out, err) = case, told
                lines = [line for line in out.splitlines() if not line.startswith(("note: ", "; "))]
                self.assertEqual(lines, answers, name)
                self.assertEqual(places(err.splitlines()), refusals, name)
                self.assertEqual(status, 1 if refusals else 0, name)

    def test_gaps(self):
        found = []
        for name, arguments, lines in cases():
            if not arguments or os.fsdecode(arguments[0]) in WORDS + ("--help",) or lines[0].startswith(("usage", "an argument")):
                continue
            apex, asked, *limit = arguments
            more = [b"--limit", limit[0]] if limit else []
            neighbours = [line for line in lines if not line.startswith(("gap: ", "key: "))]
            answers = [line for line in neighbours if ": refused " not in line]
            found.append((name, [b"neighbours", *more, b"--", apex, asked], answers, places(neighbours)))
            if lines[-1].startswith("key: "):
                found.append((name, [b"key", b"--", asked], [lines[-1][len("key: ") :]], []))
            # The apex is the encloser; where it is an owner as well, its types are told.
            gaps = [line[len("gap: ") :] for line in lines if line.startswith("gap: ") and ": refused " not in line]
            refused = [line.replace("gap: ", "gaps: ") for line in lines if re.match("gap: refused|apex: |name: ", line)]
            records = [line.replace(" NSEC ", " IN NSEC ") + " RRSIG NSEC" for line in gaps]
            found.append((name, [b"deny", b"--types", b"NSEC", *more, b"--", apex, asked], records, places(refused)))
        self.expect(found, 200)

    def test_words(self):
        found = []
        for name, arguments, lines in cases():
            if not arguments or os.fsdecode(arguments[0]) not in WORDS or lines[0].startswith(("usage", "an argument")):
                continue
            word, *names = arguments
            refused = [line if line.startswith(("first", "second")) else "name: " + line for line in lines if "refused " in line]
            answers = [line for line in lines if "refused " not in line]
            found.append((name, [word, b"--", *names], answers, places(refused)))
        self.expect(found, 40)

    def test_wrong_usage(self):
        """But for -h, which this command has, and what stands beside --help."""
        count = 0
        for name, arguments, lines in cases():
            if not lines[0].startswith("usage") or arguments and arguments[0] in (b"-h", b"--help"):
                continue
            if len(arguments) == 3 and os.fsdecode(arguments[0]) not in WORDS:
                apex, asked, limit = arguments
                arguments = [b"neighbours", b"--limit=" + limit, b"--", apex, asked]
            status, out, err = run(*arguments)
            self.assertEqual((status, out), (2, ""), name)
            self.assertIn("usage: ", err, name)
            count += 1
        self.assertGreaterEqual(count, 20)


if __name__ == "__main__":
    unittest.main()
