#!/usr/bin/env python3
"""Whether the must-fail edits fit the text that they change: a line for each that does not, and exit status 1 if there is one.

    tools/edits_fit.py [CRATE..]    in the repository; CRATE: the edits of these crates alone

An edit has lines `file:`, and behind each of them pairs of `old:` and `new:`. Each old text stands in its file exactly once, in what the
pairs before it have made of the file. It proves nothing: `rt must-fail` says whether the prover refuses the edit, and for what.
"""
import glob
import os
import re
import sys

ROOT = os.path.dirname(os.path.dirname(os.path.realpath(__file__)))


def fault(edit, crate):
    """Why the edit does not fit, or None where it does."""
    texts, file, old, pairs = {}, None, None, 0
    with open(edit, encoding="utf-8") as f:
        lines = f.read().split("\n")
    if not lines[0].startswith("# "):
        return "its first line does not say what is true"
    for line in lines[1:]:
        if line.startswith("file: "):
            file = line[6:].strip()
            if not os.path.isfile(f"{crate}/{file}"):
                return f"there is no file {file}"
            if file not in texts:
                with open(f"{crate}/{file}", encoding="utf-8") as f:
                    texts[file] = f.read()
        elif line.startswith("old: ") and file and old is None:
            old = line[5:]
        elif line.startswith("new:") and old is not None:
            found = texts[file].count(old)
            if found != 1:
                return f"{file} has it {found} times: {old.strip()}"
            new = re.sub(r"\A ", "", line[4:])
            if new == old:
                return f"it changes nothing: {old.strip()}"
            texts[file], old, pairs = texts[file].replace(old, new), None, pairs + 1
        elif line:
            return f"this line is out of place: {line}"
    if old is not None or not pairs:
        return "a pair of `old:` and `new:` is not whole"
    return None


def main():
    crates = [f"{ROOT}/crates/{name}" for name in sys.argv[1:]] or sorted(glob.glob(f"{ROOT}/crates/*"))
    edits = [(crate, edit) for crate in crates for edit in sorted(glob.glob(f"{crate}/must-fail/*.edit"))]
    faults = [(edit, why) for crate, edit in edits for why in [fault(edit, crate)] if why]
    for edit, why in faults:
        print(f"{os.path.relpath(edit, ROOT)}: {why}")
    print(f"{len(edits)} edits, {len(faults)} of which do not fit")
    return 1 if faults else 0


if __name__ == "__main__":
    sys.exit(main())
