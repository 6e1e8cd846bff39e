"""What README.md and docs/OPERATORS.md show: each line that begins with `$` is run by a shell, and prints what stands under it; what is
printed by `cat` is the file that others take; and README's lines of Python do what is said beside them."""

import contextlib
import io
import json
import os
import re
import subprocess
import tempfile
import unittest

from command import COMMAND

ROOT = os.path.join(os.path.dirname(os.path.abspath(__file__)), "..", "..", "..")


def page(path):
    with open(os.path.join(ROOT, path), encoding="utf-8") as file:
        return file.read()


def examples(path):
    """The commands of a page, each with its line and with what must be printed."""
    lines = page(path).splitlines()
    for at, line in enumerate(lines):
        found = re.match(r"( {4,})\$ (.*)", line)
        if found:
            printed = []
            for after in lines[at + 1 :]:
                if not after.startswith(found.group(1)) or after.startswith(found.group(1) + "$"):
                    break
                printed.append(after[len(found.group(1)) :])
            yield at + 1, found.group(2), printed


class Operators(unittest.TestCase):
    def commands(self, path, least):
        count = 0
        with tempfile.TemporaryDirectory() as folder:
            with open(folder + "/qorshudan", "w") as file:
                file.write("#!/bin/sh\nexec " + " ".join(f"'{word}'" for word in COMMAND) + ' "$@"\n')
            os.chmod(folder + "/qorshudan", 0o755)
            environment = dict(os.environ, PATH=folder + os.pathsep + os.environ["PATH"])
            for line, command, printed in examples(path):
                if command.startswith("cat "):
                    with open(f"{folder}/{command[4:]}", "w") as file:
                        file.write("".join(line + "\n" for line in printed))
                done = subprocess.run(["/bin/sh", "-c", command], cwd=folder, env=environment, capture_output=True, timeout=60)
                self.assertEqual(done.stdout.decode().splitlines(), printed, f"{path}:{line}: {command}\n{done.stderr.decode()}")
                count += 1
        self.assertGreaterEqual(count, least)

    def test_operators(self):
        self.commands("docs/OPERATORS.md", 30)

    def test_readme(self):
        self.commands("README.md", 2)

    def test_readme_python(self):
        """A value stands behind its expression, and what is printed behind the print."""
        block = re.search(r"```python\n(.*?)```", page("README.md"), re.S).group(1)
        told, known = io.StringIO(), {}
        with contextlib.redirect_stdout(told):
            exec(block, known)
        self.assertEqual(told.getvalue().splitlines(), re.findall(r"print\(.*\)  # (.*)", block))
        expressions = re.findall(r"(?m)^(qorshudan\..*)  # ([^:\n]*)", block)
        self.assertEqual([repr(eval(expression, known)) for expression, _ in expressions], [value for _, value in expressions])
        self.assertEqual(len(expressions), 2)
        self.assertEqual(known["names"], ["a.example.", "b.example.", "a.b.example."])

    def test_manual_json(self):
        """qorshudan(1) has every field of the objects of every command, and no command that is not there."""
        part = page("man/qorshudan.1").split("\n.SH JSON\n")[1].split("\n.PP\n")[0]
        items = re.findall(r"\.TP\n\.B (.+)\n((?:[^.].*\n?)+)", part)
        told = {command.replace("\\-", "-"): set(re.findall("[a-z_]+", words)) for command, words in items}
        with tempfile.NamedTemporaryFile("w") as file:
            file.write(".\na.\n")
            file.flush()
            asked = {
                "deny": [".", "b."], "lookup": [file.name, "b."], "neighbours": [".", "b."], "compare": ["a.", "b."], "key": ["b."],
                "key --read": ["6100"], "fold": ["b."], "wire": ["b."], "text": ["016100"], "types": ["A"], "types --read": ["000140"],
                "hash": ["0" * 32, "--between", "0" * 32, "1" * 32], "encloser": ["b.", "a.", "c."],
            }  # fmt: skip
            for command, words in asked.items():
                done = subprocess.run([*COMMAND, *command.split(), *words, "--json"], capture_output=True, timeout=60, check=True)
                fields = set(json.loads(done.stdout)) - {"refused"}
                self.assertEqual(fields - told[command], set(), command)
        self.assertEqual(set(told), set(asked))


if __name__ == "__main__":
    unittest.main()
