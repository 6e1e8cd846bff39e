"""What is in the repository: its files, crates and must-fail edits, the names that each file declares, and the documents."""

import os
import re

ROOT = os.path.dirname(os.path.dirname(os.path.dirname(os.path.abspath(__file__))))

# Each fault as its document, its line (0 for none) and its words; and how much was looked at.
FAULTS = []
COUNTS = {"names": 0, "paths": 0}


def fault(path, source, place, words):
    FAULTS.append((path, source.count("\n", 0, place) + 1, words))


def text(path):
    with open(os.path.join(ROOT, path), encoding="utf-8") as file:
        return file.read()


def listed():
    """Every file of the repository, and every folder, as paths from its root."""
    files, folders = set(), set()
    for folder, inner, names in os.walk(ROOT):
        here = os.path.relpath(folder, ROOT)
        inner[:] = [name for name in inner if name not in (".git", "target") and not (name == "out" and here.startswith("crates/"))]
        folders.add(here)
        files.update(os.path.normpath(os.path.join(here, name)) for name in names)
    return files, folders


FILES, FOLDERS = listed()
TOPS = {path.split("/")[0] for path in FILES}


def crates():
    """The crates of crates.txt, each with those that it is over."""
    over = {}
    for line in text("crates.txt").splitlines():
        line = line.split("#")[0].strip()
        if line:
            name, rest = line.split(":")
            # NAME, or NAME staticlib
            over[name.split()[0]] = rest.split()
    return over


CRATES = crates()
EDITS = {
    "%s/%s" % (path.split("/")[1], os.path.basename(path)[: -len(".edit")])
    for path in FILES
    if re.fullmatch(r"crates/[^/]+/must-fail/[^/]+\.edit", path)
}


def documents():
    """The documents that are checked: of the notes on changes, those with the highest number, and not docs/PORT.md and docs/DESIGN-*.md,
    which name what is gone."""
    notes = sorted(path for path in FILES if re.match(r"docs/changes/\d+-", path))
    newest = max((os.path.basename(note).split("-")[0] for note in notes), default="")
    wanted = ["README.md", "CONTRIBUTING.md"] + sorted(path for path in FILES if re.fullmatch(r"docs/(?!PORT\.|DESIGN-)[^/]+\.md", path))
    return [path for path in wanted if path in FILES] + [note for note in notes if os.path.basename(note).startswith(newest + "-")]


def rows(path):
    """Each row of a document's tables, by its line number and its cells; heads and rules are left out."""
    lines = text(path).splitlines()
    for i, line in enumerate(lines):
        if not line.startswith("|") or re.fullmatch(r"[|:\s-]+", line):
            continue
        if i + 1 < len(lines) and re.fullmatch(r"\|[|:\s-]*-[|:\s-]*", lines[i + 1]):
            continue
        yield i + 1, [cell.strip() for cell in re.split(r"(?<!\\)\|", line)[1:-1]]


# ---- the names that files declare

MODIFIERS = r"\s*(?:(?:abbrev|unfoldable|opaque|private|pub)\s+)*"


def antt_names(source):
    """Definitions, types, constructors, fields and laws of an antt file."""
    names = set()
    for line in source.splitlines():
        if line.lstrip().startswith("--"):
            continue
        found = re.match(MODIFIERS + r"(?:data|record)\s+([^\s(){}:]+)", line)
        found = found or re.match(MODIFIERS + r"([^\s(){}:=.,;]+)(?:\s+\{[^}]*\})*\s+:\s", line)
        if found and re.search(r"[\w◌]", found.group(1)):
            names.add(found.group(1))
    return names


def code_names(source):
    """Functions, types, modules, constants, fields and variants of a Rattle or Rust file."""
    names = set(re.findall(r"\bfn\s+(\w+)", source))
    names.update(re.findall(r"\b(?:struct|enum|trait|type|mod)\s+(\w+)", source))
    names.update(re.findall(r"\bconst\s+(\w+)\s*:", source))
    names.update(re.findall(r"^\s+pub\s+(\w+):", source, re.M))
    for body in re.findall(r"\benum\s+\w+[^{;]*\{(.*?)^\s*\}", source, re.M | re.S):
        names.update(re.findall(r"^\s+([A-Z]\w*)\s*[({,=]", body, re.M))
    return names


def python_names(source):
    """Functions, classes, constants and type aliases of a Python file, and the names that start with two underscores."""
    names = set(re.findall(r"\b(?:def|class)\s+(\w+)", source))
    names.update(re.findall(r"^([A-Z]\w*) *(?::[^=]*)?=", source, re.M))
    names.update(re.findall(r"\b__\w+__\b", source))
    names.update(re.findall(r"\bself\.(\w+)", source))
    return names


def header_names(source):
    """Functions, constants and enums of the C header."""
    names = set(re.findall(r"\b(qorshudan_\w+)\s*\(", source))
    names.update(re.findall(r"#define\s+(\w+)", source))
    names.update(re.findall(r"^\s+(QORSHUDAN_\w+)\s*=", source, re.M))
    names.update(re.findall(r"\benum\s+(\w+)", source))
    return names


def declared():
    names = {}
    for path in FILES:
        if re.match(r"crates/[^/]+/(specs|proofs)/.*\.antt$", path):
            names[path] = antt_names(text(path))
        elif path.endswith((".rt", ".rs")):
            names[path] = code_names(text(path))
        elif path.startswith("include/"):
            names[path] = header_names(text(path))
        elif re.match(r"bindings/python/.*\.py$", path):
            names[path] = python_names(text(path))
    return names


DECLARED = declared()
EXPORTED = header_names(text("include/qorshudan.h"))
# what the crates declare
INNER = set().union(*(names for path, names in DECLARED.items() if path.startswith("crates/")))
KNOWN = set().union(*DECLARED.values()) | set(CRATES) | TOPS | {edit.split("/")[1] for edit in EDITS}
# variables of the environment, which the tests and the packages read
KNOWN.update(re.findall(r"\bQORSHUDAN_[A-Z_]+\b", "".join(text(path) for path in FILES if path.endswith((".rs", ".sh", ".h", ".py")))))
# words with a hyphen that scripts, manual pages and packages have, as the names of programs
SCRIPTS = [path for path in FILES if re.search(r"^Makefile$|^\.ci/|^man/|\.(sh|mk|toml)$", path)]
KNOWN.update(re.findall(r"\b\w+(?:-\w+)+\b", "".join(text(path) for path in SCRIPTS)))
