#!/usr/bin/env python3
"""Spells this repository's own definitions, lemmas, fields and constructors in snake case: in specs/ and proofs/, in clauses, in edits, and in
the code spans of documents. It was run once, behind the kit's own port script; docs/PORT.md says when.

A lemma that would meet the definition that it speaks of gets `_lem`. Walks (Proof.antt) keep the labels that they declare, and take only the
names that they import from here. usage: tools/respell.py [--dry]
"""
import os
import re
import sys

ROOT = os.path.dirname(os.path.dirname(os.path.realpath(__file__)))
WORD = r'[^\s(){}.;,@"«»]+'
DECLARED = re.compile(
    r"^( *)(?:(?:unfoldable|abbrev|opaque|pub|record|data|type) )*([^\s(){}.;,@\"«»:]+)(?: \{[^{}\n]*\}| \([^()\n]*\))* :"
)
USE = re.compile(r"\buse (Rattle\.([\w'+-]+)\.(specs|proofs)\.([^\s{;]+?))\.\{([^}]*)\}")
WALK = re.compile(r"/proofs/(.*/)?Proof(\.antt|/)")
# a lemma that the kit's script had spelled like a definition already
MET = {"size-at": "size_at_lem"}
MET_IN = {"crates/types/proofs/ReaderFinds.antt": {"read_number": "read_number_lem", "read_count": "read_count_lem"}}


def snake(name):
    return re.sub(r"(?<=[a-z0-9])[A-Z]", lambda m: "_" + m[0].lower(), name).replace("-", "_").replace("′", "'")


def files(*ends):
    for folder, dirs, names in os.walk(ROOT):
        dirs[:] = sorted(d for d in dirs if d not in ("out", ".git", "target"))
        for name in sorted(names):
            if name.endswith(ends):
                yield os.path.relpath(os.path.join(folder, name), ROOT)


def read(path):
    with open(os.path.join(ROOT, path), encoding="utf-8") as f:
        return f.read()


def declared(text):
    for line in text.split("\n"):
        m = DECLARED.match(line)
        if m and m[2] not in ("where", "--", "|"):
            yield m[2]


def table():
    names = set()
    for path in files(".antt"):
        if path.startswith("crates/") and not WALK.search("/" + path):
            names |= set(declared(read(path)))
    turn = {}
    humps = {snake(n) for n in names if not n[0].isupper() and re.search(r"[a-z0-9][A-Z]", n)}
    for n in sorted(names):
        if n[0].isupper() or not n[0].isalpha() or not re.search(r"[a-z0-9]-[a-z0-9A-Z]|[a-z0-9][A-Z]|′", n):
            continue
        to = snake(n)
        if "-" in n and to in humps:
            to += "_lem"
        turn[n] = MET.get(n, to)
    return turn


def by_words(text, turn):
    return re.sub(WORD, lambda m: turn.get(m[0], m[0]), text)


def antt_line(line, turn):
    code, mark, comment = line, "", ""
    m = re.search(r"(^|\s)(--\s.*)$", line)
    if m:
        code, comment = line[: m.start(2)], m[2]
    return by_words(code, turn) + prose(comment, turn)


def prose(text, turn):
    text = re.sub(r"`[^`\n]+`", lambda m: by_words(m[0][1:-1], turn).join("``"), text)
    humps = {k: v for k, v in turn.items() if re.search(r"[a-z0-9][A-Z]", k)}
    return re.sub(r"[A-Za-z][\w']*", lambda m: humps.get(m[0], m[0]), text)


def imported(text, own):
    found = set()
    for m in USE.finditer(text):
        if m[2] in own and not m[4].split(".")[0].startswith("declared") and re.search(r"(^|\.)[A-Z]", m[4]) and "Proof" not in m[4]:
            found |= {x.strip() for x in m[5].split(",")}
    return found


def lent(text, own):
    """Names that a file imports from the kit."""
    found = set()
    for m in re.finditer(r"\buse ([^\s{;]+)\.\{([^}]*)\}", text):
        steps = m[1].split(".")
        if steps[0] != "Rattle" or steps[1] not in own:
            found |= {x.strip() for x in m[2].split(",")}
    return found


def main():
    turn = table()
    own = set(os.listdir(os.path.join(ROOT, "crates")))
    said = []
    for path in files(".antt", ".rt", ".edit", ".md"):
        if path == "docs/PORT.md":
            continue
        before = text = read(path)
        if path.endswith(".antt"):
            mine = turn
            if WALK.search("/" + path):
                mine = {k: v for k, v in turn.items() if k in imported(text, own)}
            else:
                there = set(re.findall(WORD, text))
                for k, v in mine.items():
                    if k in there and v in there:
                        said.append(f"meet: {path}: {k} and {v}")
            local = {k: v for k, v in mine.items() if k not in lent(text, own)}
            said.extend(f"lent: {path}: {k}" for k in set(mine) & lent(text, own))
            for at, more in MET_IN.items():
                crate = at.split("/")[1]
                module = f"Rattle.{crate}.proofs.{os.path.basename(at)[:-5]}."
                if path == at or module in text:
                    local |= more
            text = "\n".join(antt_line(l, local) for l in text.split("\n"))
        elif path.endswith(".rt"):
            lines = []
            for l in text.split("\n"):
                m = re.search(r"//.*$", l)
                code, comment = (l[: m.start()], m[0]) if m else (l, "")
                lines.append(by_words(code, turn) + prose(comment, turn))
            text = "\n".join(lines)
        elif path.endswith(".edit"):
            text = "\n".join(by_words(l, turn) if l.startswith(("old:", "new:")) else prose(l, turn) for l in text.split("\n"))
        else:
            asked = set(re.findall(r"[a-z]+(?:-[a-z]+)+", read("bindings/python/qorshudan/_questions.py")))
            spoken = {k: v for k, v in turn.items() if k not in asked}
            text = prose(text, spoken) if path.startswith(("docs/", "README", "CONTRIBUTING")) else text
        if text != before and "--dry" not in sys.argv:
            with open(os.path.join(ROOT, path), "w", encoding="utf-8") as f:
                f.write(text)
    print("\n".join(said))
    print(len(turn), "names")


main()
