#!/usr/bin/env python3
"""Checks that the documents are true of the repository, and says each fault in one line.

The documents are README.md, CONTRIBUTING.md, docs/*.md but docs/PORT.md and docs/DESIGN-*.md, which name what is gone, and, of docs/changes,
the notes with the highest number: older notes tell of their own time. Files of the repository are read, and nothing is run. It checks that

 1. every name in backticks is there: a definition or a field in specs/, a law in proofs/, a function, type, field or constant in Rattle or
    Rust, an exported function or a constant of the C header, a function, class or constant of the Python module, a crate, a command of rt,
    or a must-fail edit, written `crate/edit`;
 2. a name stands where it is said to stand: in "`a`, `b` (name/specs/Wire)" both are declared in crates/name/specs/Wire.antt; and in
    TRACE.md and GLOSSARY.md each name is given with its file at least once;
 3. every path, link and file name is there, a `*` or a word in capitals (crates/NAME/src) standing for anything;
 4. every must-fail edit is named in docs/TRACE.md, and so is every exported function;
 5. the sentences of docs/PAPERS.md are numbered without a gap, every one that is landed is met by a row of docs/TRACE.md, every row there
    begins with the numbers that it meets, and no document and no comment of a crate cites a number or a title that PAPERS.md lacks;
 6. docs/ARCHITECTURE.md has a row for every crate of crates.txt, with the crates that it is over, and for no other, and README.md names
    each; docs/GLOSSARY.md has each term once, in order.

It does not check: that a sentence about a name is right; whether a name stands in the crate that is meant where no file is given; words in
backticks that are WORDS (tests/documents/naming.py), or have a hyphen and stand in a script; names in the papers' notation, octets in hex,
and code that is more than a name (of that, only the words that have a hyphen, an underscore or a capital inside); file names without a
folder in blocks of code; names in documents other than those of NAMED; what stands in target/ and out/.
"""

import sys

sys.dont_write_bytecode = True

from documents import naming, numbering
from documents.repository import COUNTS, EDITS, FAULTS, documents, text


def main():
    numbers, titles = numbering.sentences()
    numbering.check_order(numbers)
    numbering.check_trace(numbers)
    numbering.check_citations(numbers, titles)
    numbering.check_crates()
    terms = numbering.check_terms()
    for path in documents():
        naming.check(path, text(path))
    for path, line, words in sorted(set(FAULTS)):
        print("docs: %s:%d: %s" % (path, line, words) if line else "docs: %s: %s" % (path, words))
    if FAULTS:
        return 1
    landed = sum(numbers.values())
    counts = (len(documents()), COUNTS["names"], COUNTS["paths"], len(EDITS), landed, len(numbers) - landed, terms)
    print("docs: ok: %d documents, %d names, %d paths, %d edits, %d sentences met and %d ahead, %d terms" % counts)
    return 0


if __name__ == "__main__":
    try:
        sys.exit(main())
    except FileNotFoundError as missing:
        sys.exit("docs: %s is not there" % missing.filename)
