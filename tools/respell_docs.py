#!/usr/bin/env python3
"""Spells the names in the code spans of documents as the sources have them: where a name is declared nowhere, and its spelling in snake case
is (or that with `_lem`, as tools/respell.py made it), the latter is written. Where a file is given with the name, its names decide. It was
run once, behind tools/respell.py, for the names that the kit's own port script had turned; it may be run again. usage:
tools/respell_docs.py [--dry]
"""
import os
import re
import sys

ROOT = os.path.dirname(os.path.dirname(os.path.realpath(__file__)))
sys.dont_write_bytecode = True
sys.path.insert(0, os.path.join(ROOT, "tests"))

from documents import naming
from documents.repository import DECLARED, FILES, INNER, KNOWN, text

NAME = r"(?<![\w`])_[^\s\w`]+_(?!\w)|[^\W\d](?:[\w'′]|-(?=\w))*"


def snake(name):
    if re.fullmatch(r"_[^\s\w]+_", name):
        return "◌" + name[1:-1] + "◌"
    return re.sub(r"(?<=[a-z0-9])[A-Z]", lambda m: "_" + m[0].lower(), name).replace("-", "_").replace("′", "'")


def turned(name, homes):
    """Today's spelling of a name, where it has another; homes are the files that are given with it."""
    if name[0].isupper() or any(name in DECLARED[file] for file in homes):
        return name
    for to in (snake(name), snake(name) + "_lem"):
        if to != name and any(to in DECLARED[file] for file in homes):
            return to
    if homes or name in KNOWN | naming.WORDS or snake(name) == name:
        return name
    return next((to for to in (snake(name), snake(name) + "_lem") if to in INNER), name)


def homes_of(path, source):
    """For the place of each code span, the files of crates that are given with it: as tests/docs.py reads them."""
    words, found = naming.prose(source), {}
    for given in re.finditer(r"\(([\w./*+-]+(?:, [\w./*+-]+)*)\)", words):
        homes = [naming.resolve(word, path) for word in given[1].split(", ")]
        files = [file for home in homes for file in home or [] if file in DECLARED]
        before = words[: given.start()]
        start = 1 + max(before.rfind(mark) for mark in (";", "|", "(", ")", ". ", ".\n", ": ", "\n\n", "\n- "))
        for name in re.finditer(r"`([^`]+)`", before[start:]):
            found[start + name.start()] = files
    return found


def main():
    count = 0
    for path in sorted(FILES):
        if not re.match(r"(README|CONTRIBUTING)\.md$|docs/.*\.md$", path) or path == "docs/PORT.md":
            continue
        before = text(path)
        homes = homes_of(path, before)

        def mended(span):
            files = homes.get(span.start(), [])
            if "/" in span[1] or re.match(r"(rt|cargo|make|git) ", span[1]) or span.start() not in places:
                return span[0]
            return "`" + re.sub(NAME, lambda m: turned(m[0], files), span[1]) + "`"

        places = {place for place, _ in naming.spans(before)}
        after = re.sub(r"`([^`\n]+)`", mended, before)
        for old, new in zip(before.split("\n"), after.split("\n")):
            if old != new:
                count += 1
                print("%s: %s" % (path, " ".join("%s > %s" % it for it in zip(re.findall(r"`[^`]+`", old), re.findall(r"`[^`]+`", new)) if it[0] != it[1])))
        if after != before and "--dry" not in sys.argv:
            with open(os.path.join(ROOT, path), "w", encoding="utf-8") as file:
                file.write(after)
    print(count, "lines")


main()
