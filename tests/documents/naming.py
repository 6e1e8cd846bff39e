"""The names and paths of a document: that they are there, and that a name stands in the file that is given with it."""

import glob
import os
import re

from documents.repository import COUNTS, CRATES, DECLARED, EDITS, EXPORTED, FILES, FOLDERS, INNER, KNOWN, ROOT, TOPS, fault

# Words in backticks that are no names of this repository: of the language and its kit, of tools, of C and of Rust, and placeholders.
WORDS = set(
    """
    requires ensures ghost use unfolding abbrev unfoldable mutual where record cond omega refl search drop take now Need
    rt cargo rustc gcc clang cc make valgrind nm ldconfig pkg-config python3 python3-dnspython apt
    read write memset memcpy memcmp errno stdin stdout Vec Result Error usize u8 u16 u32 u64 i16 i32 struct enum match
    str bytes bytearray memoryview import pip setuptools PYTHON PYTHONDIR PYTHONPATH
    non_exhaustive no_mangle CRATE NAME FILE LABEL CC CXX PREFIX DESTDIR fop
    """.split()
)

# The commands of rt, as `rt help` has them.
COMMANDS = set("ci must-fail selftest doc version help new check verdict lib run test try fmt tidy plant all expand lemma seed names".split())

# Documents whose names are checked, beside the notes of docs/changes; of others, which may tell of the past or of other libraries, only
# the paths.
NAMED = ["README.md", "CONTRIBUTING.md"] + ["docs/%s.md" % name for name in "PAPERS TRACE GLOSSARY ARCHITECTURE DECISIONS".split()]

# Documents in which every name of a crate has its file at least once.
HOMED = ["docs/TRACE.md", "docs/GLOSSARY.md"]

# Suffixes by which a word is known to be the name of a file.
SUFFIXES = "md antt rt rs c h sh py toml txt edit in out".split()

# The folders of a crate.
PARTS = ("specs", "proofs", "src", "must-fail")

IDENTIFIER = r"[^\W\d](?:[\w'·]|-(?=\w))*|◌\S+◌"
PATH = r"(?<![\w/\\$.<-])\.{0,2}/?[\w*][\w.*-]*(?:/[\w.*+-]*)+|(?<![\w/\\.*-])[\w-]+\.(?:%s)\b(?!/)" % "|".join(SUFFIXES)

# Where a name was found to stand in another file, by its document and place: it is told once.
MISPLACED = set()


def blank(found):
    return re.sub(r"[^\n]", " ", found.group(0))


def prose(source):
    """The document without its blocks of code, every other character at its own place."""
    source = re.sub(r"^```.*?^```$", blank, source, flags=re.M | re.S)
    return re.sub(r"(?:(?<=\n\n)|(?<=\A))(?:    .*\n|\n(?=    ))+", blank, source)


def spans(source):
    """Each backticked piece with its place."""
    for found in re.finditer(r"`([^`\n]+(?:\n[^`\n]+)?)`", prose(source)):
        yield found.start(), " ".join(found.group(1).split())


# ---- paths


def resolve(word, document):
    """The files and folders that a word names, or None where it is no path."""
    word = word.rstrip(".,:;")
    if word.startswith(("http:", "https:", "/", "-", "~")) or "//" in word or {"target", "out"} & set(word.split("/")):
        return None
    if word.startswith("c."):
        return None  # a fact that is known at a goal of a proof
    parts = [part for part in word.split("/") if part]
    suffix = parts[-1].rsplit(".", 1)[-1] if parts and "." in parts[-1] else ""
    if len(parts) < 2:
        if suffix in SUFFIXES and re.fullmatch(r"[\w-]+\.\w+", word):
            return [path for path in FILES if os.path.basename(path) == word]
        if word.endswith("/"):
            return [folder for folder in FOLDERS if os.path.basename(folder) == word[:-1]]
        return None
    if parts[0] not in TOPS | set(CRATES) | set(PARTS) | {".", ".."} and suffix not in SUFFIXES:
        return None
    if len(parts) == 2 and parts[0] in CRATES and parts[1] not in PARTS and not suffix and not word.endswith("/"):
        return None  # an edit, if it stands in backticks
    pattern = "/".join("*" if re.fullmatch(r"[A-Z]+", part.split(".")[0]) and part not in FILES else part for part in parts)
    here = os.path.dirname(document)
    tries = [pattern, os.path.join(here, pattern), "crates/" + pattern, "crates/" + pattern + ".antt", "bench/" + pattern]
    if parts[0] in PARTS:
        rest = pattern.split("/", 1)[1]
        tries = ["crates/*/" + pattern, "crates/*/" + pattern + ".antt", "crates/*/%s/**/%s" % (parts[0], rest)]
    for one in map(os.path.normpath, tries):
        if "*" in one:
            found = glob.glob(os.path.join(glob.escape(ROOT), one), recursive=True)
            if found:
                return sorted(os.path.relpath(file, ROOT) for file in found)
        elif one in FILES or one in FOLDERS:
            return [one]
    return []


def check_paths(path, source):
    for found in re.finditer(r"\[[^\]]*\]\(([^)#\s]+)[^)]*\)", source):
        COUNTS["paths"] += 1
        target = found.group(1)
        if "://" not in target and not os.path.exists(os.path.join(ROOT, os.path.dirname(path), target)):
            fault(path, source, found.start(), "a link to %s, which is not there" % target)
    source = re.sub(r"\]\([^)]*\)", blank, source)
    words = prose(source)
    for found in re.finditer(PATH, source):
        word = found.group(0)
        names = resolve(word, path)
        if names is None or "/" not in word and words[found.start()].isspace():
            continue
        COUNTS["paths"] += 1
        if not names:
            fault(path, source, found.start(), "%s is not there" % word.rstrip(".,:;"))


# ---- names


def is_known(word):
    if word.endswith("_") and any(name.startswith(word) for name in KNOWN):
        return True  # the beginning of several
    return word in (EXPORTED | set(CRATES) if word.startswith("qorshudan_") else KNOWN | WORDS)


def check_name(path, source, place, owners, name):
    """A name, or one that stands in a type or a module."""
    COUNTS["names"] += 1
    if not is_known(name):
        fault(path, source, place, "nothing is called `%s`" % name)
    elif owners:
        owner = owners.split("::")[-2]
        homes = [file for file, names in DECLARED.items() if name in names]
        if not any(owner in DECLARED[file] or owner in re.split(r"[./]", file) for file in homes):
            fault(path, source, place, "`%s` is not in `%s`" % (name, owner))


def check_module(path, source, place, piece, crate, kind, file):
    """A module of antt: Rattle.CRATE.specs.FILE."""
    COUNTS["names"] += 1
    crate, file = ("*" if word.isupper() else word.replace(".", "/") for word in (crate, file))
    if not glob.glob(os.path.join(glob.escape(ROOT), "crates", crate, kind, file + ".antt")):
        fault(path, source, place, "no module `%s`" % piece)


def check_span(path, source, place, piece):
    """One backticked piece: an edit, a command, a module, a name, or code, of which only words that look like names are taken."""
    if (path, place) in MISPLACED or len(piece) == 1:
        return
    if re.search(r"[\\{]|^\S*\.$|^\W+$", piece) or re.fullmatch(r"[0-9a-f ]+", piece):
        return
    edit = re.fullmatch(r"([a-z_]+)/[a-z0-9_]+", piece)
    if edit and edit.group(1) in CRATES:
        COUNTS["names"] += 1
        if piece not in EDITS:
            fault(path, source, place, "no edit %s" % piece)
        return
    # a note tells of its own time
    command = path in NAMED and re.fullmatch(r"rt ([a-z-]+)(?: ([a-z_]+)\b.*|\b.*)", piece)
    if command and command.group(1) not in COMMANDS:
        fault(path, source, place, "`%s`, but rt has no command %s" % (piece, command.group(1)))
    if command and command.group(1) in ("ci", "must-fail") and command.group(2) and command.group(2) not in CRATES:
        fault(path, source, place, "`%s`, but no crate %s" % (piece, command.group(2)))
    if re.match(r"(rt|rattle-kit|cargo|cc|make|git|od|printf|core::|std::|import|dns\.)\b", piece) or "/" in piece:
        return
    module = re.fullmatch(r"Rattle\.(\w+)\.(specs|proofs)\.([\w.]+)", piece)
    if module:
        check_module(path, source, place, piece, *module.groups())
        return
    whole = re.fullmatch(r"((?:\w+::)*)(%s)(?:\(.*\)|<.*>|=\w+)?" % IDENTIFIER, piece)
    if whole:
        check_name(path, source, place, *whole.groups())
        return
    for word in re.findall(IDENTIFIER, piece):
        if re.search(r"\w[-_A-Z]", word) and not word.isupper():
            check_name(path, source, place, "", word)


def check_homes(path, source):
    """Names that are said to stand in a file: those in backticks before "(file)", back to the last semicolon, bar, bracket or full stop.
    In a document of HOMED, every name of a crate has its file at least once."""
    words = prose(source)
    homed = set()
    for found in re.finditer(r"\(([\w./*+-]+(?:, [\w./*+-]+)*)\)", words):
        homes = [resolve(word, path) for word in found.group(1).split(", ")]
        files = [file for home in homes for file in home or [] if file in DECLARED]
        if not files and [] not in homes:
            continue
        before = words[: found.start()]
        start = 1 + max(before.rfind(mark) for mark in (";", "|", "(", ")", ". ", ".\n", ": ", "\n\n", "\n- "))
        for name in re.finditer(r"`([^`]+)`", before[start:]):
            word = name.group(1).split("::")[-1].split("(")[0]
            if not re.fullmatch(IDENTIFIER, word):
                continue
            homed.add(word)
            if files and not any(word in DECLARED[file] for file in files):
                MISPLACED.add((path, start + name.start()))
                others = sorted(file for file, names in DECLARED.items() if word in names and file.startswith(files[0].split("/")[0]))
                hint = ", but in %s" % " and ".join(others) if 0 < len(others) < 4 else ""
                fault(path, source, start + name.start(), "`%s` is not in %s%s" % (word, ", ".join(files), hint))
    if path in HOMED:
        for place, piece in spans(source):
            word = piece.split("::")[-1]
            if word in INNER and word not in homed | WORDS | set(CRATES) and not word.startswith("qorshudan_"):
                fault(path, source, place, "`%s` is nowhere given with its file" % word)


def check(path, source):
    check_paths(path, source)
    if path in NAMED or path.startswith("docs/changes/"):
        check_homes(path, source)
        for place, piece in spans(source):
            check_span(path, source, place, piece)
