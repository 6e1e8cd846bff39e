"""The sentences of PAPERS.md and the rows of TRACE.md that meet them; the crates of ARCHITECTURE.md and the terms of GLOSSARY.md."""

import re

from documents.repository import CRATES, EDITS, FAULTS, FILES, documents, fault, rows, text

NUMBER = r"(?:0[0-2]\.\d+\.\d+|R\.\d+)"


def sentences():
    """Every numbered sentence, whether it is landed, and the titles of the sections."""
    numbers, titles, ahead = {}, set(), False
    for item in re.split(r"\n(?=#|- |\*\*|\n)", text("docs/PAPERS.md")):
        item = item.strip()
        heading = re.match(r"#+ (?:0\d\.\d+ )?(.*)", item)
        if heading:
            ahead = "not yet landed" in heading.group(1)
            titles.update(re.findall(r"\"([^\"]+)\"", heading.group(1)))
            titles.add(heading.group(1))
        titles.update(re.findall(r"^\*\*([^*]+?)\.\*\*", item))
        found = re.match(r"- \*\*(%s)\*\*" % NUMBER, item)
        if found:
            number = found.group(1)
            if number in numbers:
                FAULTS.append(("docs/PAPERS.md", 0, "%s stands there twice" % number))
            numbers[number] = not ahead and "not yet landed" not in item
    return numbers, titles


def check_order(numbers):
    """The numbers of a section rise by one, from 0 or 1."""
    last = {}
    for number in numbers:
        section, place = number.rsplit(".", 1)
        if int(place) != last.get(section, int(place) - 1) + 1 or section not in last and int(place) > 1:
            FAULTS.append(("docs/PAPERS.md", 0, "%s is out of order" % number))
        last[section] = int(place)


def check_trace(numbers):
    """Every row begins with numbers; every landed sentence, every edit and every exported function is there."""
    met, edits = set(), set()
    for line, cells in rows("docs/TRACE.md"):
        cited = re.findall(NUMBER, cells[0])
        if not cited or re.sub(NUMBER, "", cells[0]).strip(" ,"):
            FAULTS.append(("docs/TRACE.md", line, "the row does not begin with the numbers that it meets"))
        met.update(cited)
        edits.update(re.findall(r"`([a-z_]+/[a-z0-9_]+)`", " ".join(cells)))
    for number, landed in numbers.items():
        if landed and number not in met:
            FAULTS.append(("docs/TRACE.md", 0, "no row meets %s" % number))
    for edit in EDITS - edits:
        FAULTS.append(("docs/TRACE.md", 0, "the edit `%s` is not named" % edit))
    source = text("docs/TRACE.md")
    for name in re.findall(r"^QORSHUDAN_RESULT (\w+)\(", text("include/qorshudan.h"), re.M):
        if "`%s`" % name not in source:
            FAULTS.append(("docs/TRACE.md", 0, "the exported function `%s` is not named" % name))


def check_citations(numbers, titles):
    """Numbers and titles that documents and comments cite: in a comment, 01.2 alone may be another number."""
    sections = {number.rsplit(".", 1)[0] for number in numbers}
    for path in FILES:
        comments = re.match(r"crates/.*\.(antt|rt)$|(reference|comparison|bench|bindings)/.*\.rs$", path)
        if not comments and path not in documents():
            continue
        source = text(path)
        for found in re.finditer(r"(?<![\w.\\])(0[0-2]\.\d+(?:\.\d+)?|R\.\d+)(?![\w%]|\.\d)", source):
            number = found.group(1)
            if number not in numbers and number not in sections and (not comments or number.count(".") == 2):
                fault(path, source, found.start(), "cites %s, which docs/PAPERS.md lacks" % number)
        for found in re.finditer(r"[Dd]ocument 0[0-2](?:, |'s )((?:\"[^\"]+\"(?:, )?)+)", source):
            for title in re.findall(r"\"([^\"]+)\"", found.group(1)):
                title = re.sub(r"\s*\n(?:--|//[/!]?)?\s*", " ", title)
                if title not in titles:
                    fault(path, source, found.start(), 'cites "%s", which is no title of docs/PAPERS.md' % title)


def reached(drawn, over):
    """The crates that others stand over, directly or through another."""
    found, left = set(), list(over)
    while left:
        one = left.pop()
        if one not in found:
            found.add(one)
            left += drawn.get(one, (0, ()))[1]
    return found


def check_crates():
    drawn = {}
    for line, cells in rows("docs/ARCHITECTURE.md"):
        if len(cells) == 3 and re.fullmatch(r"`\w+`", cells[0]):
            drawn[cells[0].strip("`")] = (line, set(re.findall(r"`(\w+)`", cells[1])))
    for name in set(CRATES) - set(drawn):
        FAULTS.append(("docs/ARCHITECTURE.md", 0, "no row for the crate %s" % name))
    for name, (line, over) in drawn.items():
        if name not in CRATES:
            FAULTS.append(("docs/ARCHITECTURE.md", line, "no crate %s in crates.txt" % name))
            continue
        for other in set(CRATES[name]) & set(CRATES) - reached(drawn, over):
            FAULTS.append(("docs/ARCHITECTURE.md", line, "%s is over %s too, by crates.txt" % (name, other)))
        for other in over - set(CRATES[name]):
            FAULTS.append(("docs/ARCHITECTURE.md", line, "%s is not over %s, by crates.txt" % (name, other)))
    first = " ".join(cells[0] for _, cells in rows("README.md"))
    for name in CRATES:
        if not re.search(r"\b%s\b" % name, first):
            FAULTS.append(("README.md", 0, "no row for the crate %s" % name))


def check_terms():
    """The first table of the glossary has each term once, in order."""
    seen = []
    end = text("docs/GLOSSARY.md").split("\n## ")[0].count("\n") + 1
    for line, cells in rows("docs/GLOSSARY.md"):
        if line > end:
            break
        term = cells[0].strip("*` ").lower()
        if term in seen:
            FAULTS.append(("docs/GLOSSARY.md", line, "the term %s stands there twice" % term))
        elif seen and term < seen[-1]:
            FAULTS.append(("docs/GLOSSARY.md", line, "the term %s is out of order" % term))
        seen.append(term)
    return len(seen)
