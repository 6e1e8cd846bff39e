#!/usr/bin/env python3
"""The rules that the sources of crates/ keep (.rt and .antt): a line for each fault and exit status 1, or one line of counts.

    tests/house.py [--fix] [--only RULE,..] [PATH..]    in the repository; PATH: only what begins so; --fix: mend what is mechanical

imports  Nothing is imported that is not used. A `pub use` passes a name on, which is a use; a binder, a variable of a pattern, a
         record's field or a named argument of the same spelling is none. --fix takes the names out, and the prover judges that.
width    No line is over 140 characters. `rt fmt` lays code out within 100, and keeps a line break between the parts of a signature
         (before an arrow), of an application, of a chain or of a clause, and indents what follows; but a list in brackets gets a
         line for each element, so a long `use` becomes two of the same module. --fix breaks lines so; then comes `rt fmt`, in the
         crate's folder.
length   No file is over 300 lines: over that it is two concepts.
idea     Each file of a function's proof (Answers.antt, Invariants.antt, Proof.antt) opens with a comment that says the idea of the
         proof, not only that it meets its contract.
places   No comment of a proof points at a line of the source, since lines move. --fix drops comments that are such a place alone.
history  A proof names its history once: in a file of a function's proof, no path has more than three of the same named field in a
         row (as `.before` in a walk by hand), but in a line that names a place: a `let`, or an `abbrev` above the answers.
laws     Every law and definition is used: a chain of citations leads to it from a contract, a tactic that a source asks for
         (`using`, `unfolding`), a function's proof, an example (a file Examples.antt), or a name that stands in backticks in a
         document.
"""
import argparse
import collections
import functools
import glob
import os
import re
import sys
import textwrap

WIDTH, LENGTH, CHAIN = 140, 300, 3

# ---- antt's text: its tokens, and its items by their layout

Token = collections.namedtuple('Token', 'text at end')
ANTT = re.compile(r'--[^\n]*|\{-.*?-\}|"(?:[^"\\]|\\.)*"|«[^»]*»|[(){}.;,@⟦⟧⌜⌝]|[^\s(){}.;,@"«»⟦⟧⌜⌝]+', re.S)
OPEN, CLOSE = set('({[⟦⌜'), set(')}]⟧⌝')
MARKS = {'pub', 'unfoldable', 'abbrev', 'axiom'}
WORDS = set('. : = → ← ↦ × _ elim record where do as unfold Type'.split())
# a trait of the kit that code imports is used where one of its methods is called
TRAITS = {'Read': r'\.read\w*\(', 'Write': r'\.(?:write|flush)\w*\('}
# the kit's constructors, beside those that begin with a capital; another name of the kit is a variable in a pattern
KIT_CONSTRUCTORS = set('[] ∷ zero suc true false some none inl inr refl tt yes no pos negsuc'.split())
# the files of a function's proof
PROOFS = ('Answers.antt', 'Invariants.antt', 'Proof.antt')


def tokens(text, start=0):
    found = (Token(m.group(), m.start() + start, m.end() + start) for m in ANTT.finditer(text))
    return [t for t in found if not t.text.startswith(('--', '{-', '"'))]


def deeper(token):
    return (token.text in OPEN) - (token.text in CLOSE)


def at_top(toks, what):
    """The index of the first `what` that stands in no bracket."""
    depth = 0
    for i, t in enumerate(toks):
        depth += deeper(t)
        if depth == 0 and t.text == what:
            return i
    return None


class Item:
    """A signature, a clause or a heading, with the lines that go on with it; `below` are the items of its block."""

    def __init__(self, column):
        self.column, self.tokens, self.below = column, [], []

    @functools.cached_property
    def head(self):
        """The index of the first token that is no mark."""
        return next((i for i, t in enumerate(self.tokens) if t.text not in MARKS), 0)

    @property
    def first(self):
        return self.tokens[self.head].text

    @functools.cached_property
    def equals(self):
        """The place of a clause's `=`, and None for a signature."""
        colon, equals = at_top(self.tokens, ':'), at_top(self.tokens, '=')
        return equals if equals is not None and (colon is None or equals < colon) else None

    @functools.cached_property
    def colon(self):
        return at_top(self.tokens, ':') if self.equals is None else None


def items(text, start):
    """The items below a file's header: a line at the column of its block begins one, a line right of it goes on with the last."""
    root = Item(-1)
    stack, depth, opens, last_row = [root], 0, True, -1
    starts = [m.start() for m in re.finditer(r'^', text, re.M)]
    row = 0
    for token in tokens(text[start:], start):
        while row + 1 < len(starts) and starts[row + 1] <= token.at:
            row += 1
        column = token.at - starts[row]
        if row != last_row and depth == 0 and (opens or column <= stack[-1].column):
            while stack[-1].column >= column:
                stack.pop()
            item = Item(column)
            stack[-1].below.append(item)
            stack.append(item)
        last_row = row
        depth += deeper(token)
        opens = token.text in ('where', 'mutual')
        stack[-1].tokens.append(token)
    return root.below


# ---- which names a text uses and does not bind itself


class Uses:
    def __init__(self, is_constructor):
        self.is_constructor, self.found = is_constructor, set()

    def block(self, block, bound=frozenset()):
        for item in block:
            toks, inner = item.tokens, bound
            if item.first in ('data', 'record', 'module'):
                inner = self.term(toks[item.head + 2:], bound)
            elif item.first == 'unfolding' or item.first.startswith('infix'):
                self.term(toks[item.head + 1:], bound)
            elif item.equals is not None:
                helpers = {h.tokens[0].text for h in item.below}
                inner = bound | self.pattern(toks[item.head:item.equals], bound, True) | helpers
                self.term(toks[item.equals + 1:], inner)
            elif item.colon is not None:
                self.term(toks[item.colon + 1:], bound)
            elif item.first not in ('mutual', 'where'):
                self.term(toks, bound)
            self.block(item.below, inner)
        return self.found

    def use(self, token, bound):
        if token.text not in bound:
            self.found.add(token.text)

    @staticmethod
    def is_member(toks, i):
        """Whether it stands right behind a dot: a field, or a name behind its module."""
        return i > 0 and toks[i - 1].text == '.' and toks[i - 1].end == toks[i].at

    def pattern(self, toks, bound, is_clause=False):
        """The variables of a pattern; the first name of a clause is what it defines."""
        new = set()
        for i, t in enumerate(toks):
            after = toks[i + 1].text if i + 1 < len(toks) else ''
            if t.text in '(){}.,;@_→' or t.text[0].isdigit() or self.is_member(toks, i):
                continue
            if after == '=' and i and toks[i - 1].text == '{':
                continue
            if self.is_constructor(t.text) or after == '.' and toks[i + 1].at == t.end:
                self.use(t, bound)
            elif not (is_clause and i == 0):
                new.add(t.text)
        return frozenset(new)

    def term(self, toks, bound):
        """Walks a term or a type, and gives the names bound where it ends (those of a telescope)."""
        # for each open bracket: itself, the names bound at its start, those bound now, and those that it binds for what follows
        frames = [['', bound, bound, frozenset()]]
        lets, i, n = [], 0, len(toks)
        while i < n:
            t, frame = toks[i], frames[-1]
            if t.text in OPEN:
                frames.append([t.text, frame[2], frame[2], frozenset()])
                i += 1
                if t.text in '({':
                    j = i
                    while j < n and toks[j].text not in OPEN | CLOSE | set('.,;=:'):
                        j += 1
                    if i < j < n and toks[j].text == ':':
                        frames[-1][3], i = frozenset(x.text for x in toks[i:j]), j + 1
                elif t.text == '[':
                    i = self.case(toks, i, frames[-1])
                continue
            if t.text in CLOSE:
                if len(frames) > 1:
                    binds = frames.pop()[3]
                    frames[-1][2] |= binds
            elif t.text in ',;|' and (t.text != '|' or frame[0] == '['):
                frame[2] = frame[1]
                if t.text == '|':
                    i = self.case(toks, i + 1, frame)
                    continue
            elif t.text in 'λ∀':
                i = self.binders(toks, i + 1, frame)
                continue
            elif t.text == 'let':
                end = next((j for j in range(i + 1, n) if toks[j].text in ':='), n)
                lets.append({x.text for x in toks[i + 1:end] if x.text not in '(){},'})
                i = end
            elif t.text == 'in' and lets:
                frame[2] |= lets.pop()
            elif t.text in WORDS or self.is_member(toks, i):
                pass
            elif i + 1 < n and toks[i + 1].text == '=' and frame[0] == '{' and toks[i - 1].text in '{;':
                pass  # a record's field, or a named argument
            elif i + 1 < n and toks[i + 1].text == '←':
                frame[2] |= {t.text}
            else:
                self.use(t, frame[2])
            i += 1
        return frames[0][2]

    def binders(self, toks, i, frame):
        """Goes past a λ's binders and its dot."""
        depth, new = 0, set()
        while i < len(toks) and not (depth == 0 and toks[i].text == '.'):
            depth += deeper(toks[i])
            if toks[i].text == ':':
                end, level = i + 1, 0
                while end < len(toks) and level + deeper(toks[end]) >= 0:
                    level += deeper(toks[end])
                    end += 1
                self.term(toks[i + 1:end], frame[2] | new)
                i = end
                continue
            if toks[i].text not in '(){},_':
                new.add(toks[i].text)
            i += 1
        frame[2] |= new
        return i + 1

    def case(self, toks, i, frame):
        """Goes past the pattern of a case of `elim` and its ↦, if this is one."""
        depth, j = 0, i
        while j < len(toks) and not (depth == 0 and (toks[j].text in '↦|' or toks[j].text in CLOSE)):
            depth += deeper(toks[j])
            j += 1
        if j == len(toks) or toks[j].text != '↦':
            return i
        frame[2] |= self.pattern(toks[i:j], frame[2])
        return j + 1


def names(local, found):
    """Whether a name is among those found: itself, or every part of an operator (of `◌≡◌` that is `≡`)."""
    parts = [p for p in local.split('◌') if p] if '◌' in local else []
    return local in found or local.startswith('syntax ') or (
        bool(parts) and all(any(x in found for x in (p, '◌' + p, p + '◌', '◌' + p + '◌')) for p in parts))


# ---- the files

Import = collections.namedtuple('Import', 'module name local line span passes_on is_rust')
USE = re.compile(r'^(?P<marks>(?:pub |unfoldable |ghost )*)use (?P<path>[^{;\n]*?)'
                 r'(?:(?:\.|::)\{(?P<list>[^}]*)\}|(?: as (?P<alias>[^\s;]+)))?;?[ \t]*$', re.M)


class Source:
    def __init__(self, path):
        self.path, self.is_rust = path, path.endswith('.rt')
        self.is_proof = os.path.basename(path) in PROOFS and '/proofs/' in path
        self.is_example = os.path.basename(path) == 'Examples.antt'
        with open(path, encoding='utf-8') as file:
            self.text = file.read()
        self.lines = self.text.split('\n')

    def line(self, at):
        return self.text.count('\n', 0, at) + 1

    @functools.cached_property
    def imports(self):
        out = []
        for m in USE.finditer(self.text):
            rust = self.is_rust and 'ghost' not in m.group('marks')
            path, line, passes_on = m.group('path').strip(), self.line(m.start()), 'pub' in m.group('marks')
            if m.group('list') is not None:
                brought = [p.strip() for p in m.group('list').split(',') if p.strip()]
            elif rust:
                brought = [path.split('::')[-1] + (f" as {m.group('alias')}" if m.group('alias') else '')]
            else:
                out.append(Import(path, None, m.group('alias') or path.split('.')[-1], line, m.span(), passes_on, False))
                continue
            for name in brought:
                name, _, alias = name.partition(' as ')
                out.append(Import(path, name, alias or name, line, m.span(), passes_on, rust))
        return out

    @functools.cached_property
    def items(self):
        return [] if self.is_rust else items(self.text, max((m.end() for m in USE.finditer(self.text)), default=0))

    @functools.cached_property
    def declared(self):
        """Each name that an .antt file declares, with its items."""
        out, last = collections.OrderedDict(), ['']

        def declare(block):
            for item in block:
                if item.first in ('module', 'mutual'):
                    declare(item.below)
                elif not item.first.startswith('infix') and item.first != 'mod':
                    if item.first in ('data', 'record'):
                        last[0] = item.tokens[item.head + 1].text
                    elif item.colon is not None:
                        last[0] = item.first
                    out.setdefault(last[0], []).append(item)

        declare(self.items)
        return out

    @functools.cached_property
    def constructors(self):
        """The constructors that an .antt file declares, each with its type."""
        return {c.first: name for name, its in self.declared.items() for c in its[0].below if its[0].first == 'data'}

    @functools.cached_property
    def clauses(self):
        """Of a .rt file: what the braces of each requires, ensures and ghost item hold (each may have a name), with the parameters
        that hide names there, and the rest of the text."""
        text = re.sub(r'//[^\n]*', '', USE.sub('', self.text))
        out, rest, at = [], '', 0
        for m in re.finditer(r'^\s*(?:requires|ensures|ghost|invariant|decreases)\b[^{}();\n]*\{', text, re.M):
            end, depth = m.end(), 1
            while depth and end < len(text):
                depth += (text[end] == '{') - (text[end] == '}')
                end += 1
            head = text[:m.start()].rpartition('fn ')[2]
            body = text[m.end():end - 1]
            out.append((body, frozenset(re.findall(r'(\w+)\s*:', head)) | {'self', 'result'}))
            rest, at = rest + text[at:m.start()], end
        return out, rest + text[at:]

    @functools.cached_property
    def asked(self):
        """The names that the tactics of a .rt file are told: in `using(..)` and `unfolding(..)`."""
        return {word for m in re.finditer(r'\btactic\((.*)\)\]', self.text) for word in re.findall(r"[\w']+", m.group(1))} if self.is_rust else set()


def home(module):
    """(crate, 'specs.Fold') for a module of the repository, None for one of the kit."""
    m = re.match(r'Rattle\.(\w+)\.((?:specs|proofs)\..*)$', module)
    return m.groups() if m and os.path.isdir(f'crates/{m.group(1)}') else None


class Repository:
    def __init__(self):
        paths = [p for part in ('src', 'specs', 'proofs') for e in ('rt', 'antt') for p in glob.glob(f'crates/*/{part}/**/*.{e}', recursive=True)]
        self.sources = [Source(p) for p in sorted(paths)]
        self.modules = {}
        for source in self.sources:
            crate, *rest = source.path.split('/')[1:]
            self.modules[crate, '.'.join(rest)[:-5]] = source
        self.is_constructor = functools.cache(self.is_constructor)
        self.used = functools.cache(self.used)
        self.constructors_in = functools.cache(self.constructors_in)

    def is_constructor(self, module, name):
        where = home(module)
        if where is None:
            return name.strip('◌') in KIT_CONSTRUCTORS or name[0].isupper()
        if '.declared.' in module or module.endswith('.Goals'):
            return True
        source = self.modules.get(where)
        return source is not None and (name in source.constructors or any(
            i.passes_on and i.name and i.local == name and self.is_constructor(i.module, i.name) for i in source.imports))

    def constructors_in(self, source):
        """What a pattern of this file takes as a constructor."""
        known = KIT_CONSTRUCTORS | set(source.constructors if not source.is_rust else ())
        for i in source.imports:
            if i.name and not i.is_rust and self.is_constructor(i.module, i.name):
                known |= {i.local, *i.local.strip('◌').split('◌')}
        return known.__contains__

    def used(self, source):
        """The names of antt that a file uses and does not bind, apart from its `use` lines."""
        uses = Uses(self.constructors_in(source))
        if source.is_rust:
            for body, parameters in source.clauses[0]:
                uses.term(tokens(body), parameters)
        return uses.block(source.items)

    def unused(self, source):
        code = source.clauses[1] if source.is_rust else ''
        for i in source.imports:
            if i.is_rust:
                # a module, a function or a struct of C's is used by what follows its name, since a variable may have the same
                found = re.search(rf'\b{i.local}\b' + (r'(?=::|\(| \{)' if i.local[0].islower() else ''), code)
                found = found or i.local in TRAITS and re.search(TRAITS[i.local], code)
            else:
                found = names(i.local, self.used(source))
            if not found and not i.passes_on:
                yield i


# ---- the rules, as (path, line, fault), and their mending


def rule_imports(repo):
    for source in repo.sources:
        for i in repo.unused(source):
            yield source.path, i.line, f'`{i.local}` is imported and not used'


def fix_imports(repo, source):
    gone = collections.defaultdict(set)
    for i in repo.unused(source):
        gone[i.span].add(i.local)

    def mended(m):
        listed = m.group('list')
        kept = [p.strip() for p in (listed or '').split(',') if p.strip() and p.split(' as ')[-1].strip() not in gone[m.span()]]
        if not gone[m.span()]:
            return m.group()
        return m.group().replace('{' + listed + '}', '{' + ', '.join(kept) + '}') if kept else '\0'

    return USE.sub(mended, source.text).replace('\0\n', '').replace('\0', '')


def rule_width(repo):
    for source in repo.sources:
        for n, line in enumerate(source.lines, 1):
            if len(line) > WIDTH:
                yield source.path, n, f'{len(line)} characters'


def breaks(line):
    """Where a line may be broken: how many lists it breaks up, how deep in brackets, how well it reads there (0 best), the place."""
    toks, opened, lists, out = tokens(line), [], set(), []
    for i, t in enumerate(toks):
        if t.text in OPEN:
            opened.append(i)
        elif t.text in CLOSE and opened:
            opened.pop()
        elif t.text in (',', ';', '↦') and opened:
            lists.add(opened[-1])
    opened, tight = [], set('→ ∙ × ⊎ ≡ ++ ∷ ≤ < + - * && || = : λ ⊛ ∗ $ ← omega rw simp search cc elim at ⌜ ‵ ! ∵'.split())
    for i, t in enumerate(toks):
        if t.text in CLOSE and opened:
            opened.pop()
        before = toks[i - 1] if i else None
        if before and before.end < t.at and t.text not in CLOSE and t.text not in ('in', ',', ';', '|'):
            if t.text in ('→', 'let') or before.text in ('in', ',', ';'):
                worth = 0
            elif t.text in ('∙', '×', '⊎') or before.text == '$' or before.text == '=' and not opened:
                worth = 1
            elif t.text in ('≡', '++', '≤', '⊛', '&&', '||'):
                worth = 2
            elif before.text == '.':  # a λ's
                worth = 4
            elif before.text in tight or t.text in tight:
                worth = None
            elif t.text == '(' or before.text == ')':
                worth = 3
            elif t.text[0].isalpha() and before.text[-1].isalnum():
                worth = 4
            else:
                worth = None
            if worth is not None:
                out.append((len(lists.intersection(opened)), len(opened), worth, t.at))
        if t.text in OPEN:
            opened.append(i)
    return out


def broken(line, is_rust):
    """A long line of code in two, broken in as few brackets as may be, not far left unless all the rest then fits."""
    margin = len(line) - len(line.lstrip())
    indent = margin + (8 if is_rust else 4)
    toks = tokens(line)
    equals, colon = at_top(toks, '='), at_top(toks, ':')
    if not is_rust and equals is not None and (colon is None or equals < colon or toks[0].text == 'let'):
        end = toks[equals].end
        if end <= WIDTH and len(line) - end + indent <= WIDTH:
            return line[:end] + '\n' + ' ' * indent + line[end:].lstrip()
    # a list is broken at all its commas, so that one far to the right does as well
    found = [b for b in breaks(line) if margin + 8 < b[3] and (b[3] <= WIDTH or line[:b[3]].rstrip()[-1] in ',;')]
    for group in sorted({b[:3] for b in found}):
        places = [b[3] for b in found if b[:3] == group]
        far = [p for p in places if p - margin >= (WIDTH - margin) * 0.4]
        fits = [p for p in places if len(line) - p + indent <= WIDTH]
        if far or fits:
            at = min(set(far) & set(fits), default=max(far or fits)) if is_rust else max(far or fits)
            return line[:at].rstrip() + '\n' + ' ' * indent + line[at:]
    return line


def fix_width(repo, source):
    out, lines = [], source.lines[:]
    while lines:
        line = lines.pop(0)
        comment, use = re.match(r'\s*(?:--|//) (?!----)', line), USE.match(line)
        if len(line) <= WIDTH:
            out.append(line)
        elif comment:
            # the paragraph is filled anew
            mark, paragraph = comment.group(), [line]
            while out and out[-1].startswith(mark) and not out[-1].startswith(mark + '----'):
                paragraph.insert(0, out.pop())
            while lines and lines[0].startswith(mark) and not lines[0].startswith(mark + '----'):
                paragraph.append(lines.pop(0))
            words = ' '.join(p[len(mark):] for p in paragraph)
            fills = [textwrap.wrap(words, width, initial_indent=mark, subsequent_indent=mark, break_on_hyphens=False)
                     for width in range(WIDTH, 100, -1)]
            # no line more than are needed, and no word or two alone on the last
            out += next((f for f in fills if len(f) == len(fills[0]) and len(f[-1]) > 50), fills[0])
        elif use and use.group('list'):
            head, tail, row = line[:use.start('list')], line[use.end('list'):], ''
            for name in (p.strip() for p in use.group('list').split(',')):
                if row and len(head + row + ', ' + name + tail) > WIDTH:
                    out.append(head + row + tail)
                    row = ''
                row += ', ' * bool(row) + name
            out.append(head + row + tail)
        else:
            out += broken(line, source.is_rust).split('\n')
    return '\n'.join(out)


def rule_length(repo):
    for source in repo.sources:
        if len(source.lines) - 1 > LENGTH:
            yield source.path, LENGTH + 1, f'{len(source.lines) - 1} lines'


def rule_idea(repo):
    for source in repo.sources:
        said = re.sub(r'^-- .{0,60}? meets? (its|their) contracts?[.:,]?', '--', source.lines[0])
        if source.is_proof and (not said.startswith('--') or len(said.split()) < 4):
            yield source.path, 1, 'the first line does not say the idea of the proof'


PLACE = re.compile(r'\bsrc/|\.rt\b|\blines? [0-9]{2}')


def rule_places(repo):
    for source in repo.sources:
        if not source.is_rust and '/proofs/' in source.path:
            for n, line in enumerate(source.lines, 1):
                comment = re.search(r'(?:^|\s)--\s.*', line)
                if comment and PLACE.search(comment.group()):
                    yield source.path, n, f'points at a place of the source: {comment.group().strip()}'


def fix_places(repo, source):
    return source.text if source.is_rust else re.sub(r'^\s*-- \S*\.rt:[0-9:]+\n', '', source.text, flags=re.M)


def rule_history(repo):
    for source in repo.sources:
        if source.is_proof:
            for n, line in enumerate(source.lines, 1):
                for m in re.finditer(r'\.([A-Za-z][\w-]*)(?: ?\.\1(?![\w-]))+', line):
                    many = m.group().count('.')
                    if many > CHAIN and not re.fullmatch(r'\S+ (\w+) = \1(?: ?\.[\w-]+)+', line):
                        yield source.path, n, f'{many} times `.{m.group(1)}` in a row'


def rule_laws(repo):
    declared = {s.path: {**{d: d for d in s.declared}, **s.constructors} for s in repo.sources if not s.is_rust}

    def meant(source, found):
        """The declarations, as (path, name), that these names mean in this file."""
        for local, name in declared.get(source.path, {}).items():
            if names(local, found):
                yield source.path, name
        for i in source.imports:
            other = repo.modules.get(home(i.module)) if i.name else None
            if other and names(i.local, found):
                if i.name in declared[other.path]:
                    yield other.path, declared[other.path][i.name]
                else:  # what the other passes on
                    yield from meant(other, {i.name})

    cites, todo, reached = collections.defaultdict(set), [], set()
    told = set().union(*(source.asked for source in repo.sources))
    # but those that say what is gone, or left out for a time
    pages = {'README.md', 'CONTRIBUTING.md', *glob.glob('docs/**/*.md', recursive=True)} - {'docs/PORT.md', 'docs/DESIGN-PASS.md', 'docs/DESIGN-PLACES.md'}
    quoted = set()
    for page in pages:
        with open(page, encoding='utf-8') as file:
            for quote in re.findall(r'`([^`\n]+)`', file.read()):
                quoted.update(re.split(r'[\s(),.]+', quote))
    for source in repo.sources:
        if source.is_rust:
            todo += meant(source, repo.used(source))
            continue
        of = repo.constructors_in(source)

        def cite(block, around):
            for item in block:
                if item.first in ('module', 'mutual'):
                    heading = Uses(of)
                    heading.term(item.tokens[item.head + 1:], frozenset())
                    cite(item.below, around | heading.found)
                else:
                    inside[id(item)] = around

        inside = {}
        cite(source.items, frozenset())
        for name, its in source.declared.items():
            found = Uses(of).block(its).union(*(inside.get(id(item), ()) for item in its))
            cites[source.path, name] |= set(meant(source, found))
            # what a function's proof shows to the kit: the answers and invariants, and the statement that a walk ends with
            shows = source.is_proof and any(t.text == 'pub' for item in its for t in item.tokens[:item.head])
            if source.is_example or name in quoted or name in told or shows:
                todo.append((source.path, name))
    while todo:
        at = todo.pop()
        if at not in reached:
            reached.add(at)
            todo += cites[at]
    for source in repo.sources:
        for name, its in source.declared.items():
            if (source.path, name) not in reached:
                yield source.path, source.line(its[0].tokens[0].at), f'`{name}` is used nowhere, nor named in a document'


RULES = dict(imports=rule_imports, width=rule_width, length=rule_length, idea=rule_idea, places=rule_places, history=rule_history, laws=rule_laws)
FIXES = dict(imports=fix_imports, places=fix_places, width=fix_width)


def main():
    parser = argparse.ArgumentParser(description=__doc__, formatter_class=argparse.RawDescriptionHelpFormatter)
    parser.add_argument('--fix', action='store_true')
    parser.add_argument('--only', default=','.join(RULES), metavar='RULE,..')
    parser.add_argument('path', nargs='*')
    asked = parser.parse_args()
    rules = asked.only.split(',')
    begins = tuple(asked.path or ['crates/'])
    if asked.fix:
        for rule in FIXES:
            repo = Repository()
            for source in repo.sources if rule in rules else []:
                text = FIXES[rule](repo, source) if source.path.startswith(begins) else source.text
                if text != source.text:
                    with open(source.path, 'w', encoding='utf-8') as file:
                        file.write(text)
    repo = Repository()
    counts = {}
    for rule in rules:
        faults = [f for f in RULES[rule](repo) if f[0].startswith(begins)]
        counts[rule] = len(faults)
        for path, line, fault in faults:
            print(f'{path}:{line}: {rule}: {fault}')
    print('house: ' + ', '.join(f'{rule} {n}' for rule, n in counts.items()) + f' faults in {len(repo.sources)} files')
    return 1 if any(counts.values()) else 0


if __name__ == '__main__':
    sys.exit(main())
