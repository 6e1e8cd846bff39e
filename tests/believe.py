#!/usr/bin/env python3
"""What a reader must believe: every definition that the promises of the public operations, the demands and the theorem rest on.

usage: tests/believe.py [--list | --check]

Without a word it prints the files with the number of their definitions and lines, and the sum. --list names the definitions too. --check
holds three things, prints one line for each that fails, and ends with status 1 if one does:
 - what the other functions promise each other, and no such promise or demand rests on, stands in specs/Private/ (a definition that laws
   alone speak of may stand beside the believed ones);
 - no believed definition stands in specs/Private/;
 - the list in README.md, between the lines `<!-- believe -->` and `<!-- /believe -->`, is what this prints.

The closure begins with the contracts of the exported functions (crates/qorshudan, qorshudan_c) and of the operations in OPERATIONS, and
with every definition of crates/demands/specs and crates/existing/specs. A definition uses another where its text names it and its file
defines or imports it; a type of the code (an enum or a struct that a definition speaks of) is counted too."""
import os
import re
import sys

# the public operations: the file, and their names
OPERATIONS = {
    'crates/name/src/lib.rt': {'check', 'fold'},
    'crates/name/src/starts.rt': {'label_places'},
    'crates/order/src/lib.rt': {'compare'},
    'crates/tokey/src/lib.rt': {'write_key'},
    'crates/fromkey/src/lib.rt': {'read_key'},
    'crates/totext/src/lib.rt': {'write_text'},
    'crates/fromtext/src/lib.rt': {'read_text'},
    'crates/reader/src/lib.rt': {'new', 'moved', 'read', 'read_at'},
    'crates/alphabet/src/lib.rt': {'least', 'greatest', 'next', 'previous', 'includes'},
    'crates/enclosing/src/lib.rt': {'encloser_of', 'closest_encloser'},
    'crates/wildcard/src/lib.rt': {'wildcard'},
    'crates/hash/src/steps.rt': {'hash_after', 'hash_before'},
    'crates/hashlabel/src/lib.rt': {'write_label', 'read_label'},
    'crates/hash/src/intervals.rt': {'hash_between'},
    'crates/hash/src/slices.rt': {'after', 'before', 'between'},
    'crates/fromtypes/src/reading.rt': {'read_types'},
    'crates/fromtypes/src/counting.rt': {'count_types'},
    'crates/asktypes/src/members.rt': {'has_type'},
    'crates/asktypes/src/extremes.rt': {'smallest_type', 'largest_type'},
    'crates/totypes/src/lib.rt': {'write_types'},
    'crates/checkowners/src/lib.rt': {'check_owners'},
    'crates/findowner/src/lib.rt': {'find_owner'},
    'crates/neighbour/src/predecessor.rt': {'predecessor'},
    'crates/neighbour/src/successor.rt': {'successor'},
    'crates/neighbour/src/modified.rt': {'modified_predecessor', 'modified_successor'},
    'crates/subtree/src/lib.rt': {'subtree_successor'},
    'crates/covering/src/lib.rt': {'covers', 'next_closer'},
    'crates/denial/src/lib.rt': {'denial'},
    'crates/toquestion/src/lib.rt': {'write_question'},
    'crates/answering/src/batch.rt': {'batch'},
}

TOKEN = re.compile(r'[^\s(){},;λ.⌜⌝"]+')


def read(path):
    with open(path, encoding='utf-8') as file:
        return file.read()


def uses(text):
    """The names that a file imports from the crates: name here -> (module, name there)."""
    found = {}
    for crate, module, names in re.findall(r'^(?:ghost |pub )*use Rattle\.(\w+)\.specs\.([^\n{]*)\.\{([^}]*)\}', text, re.M):
        if not os.path.isdir(f'crates/{crate}/src'):
            continue  # the kit's
        for name in filter(None, map(str.strip, names.split(','))):
            there, _, here = name.partition(' as ')
            found[here or there] = (crate, module, there)
    return found


class File:
    """A file of definitions: where each begins and what its text is."""

    def __init__(self, path):
        self.path = path
        self.text = read(path)
        self.uses = uses(self.text)
        self.definitions = {}
        lines = self.text.split('\n')
        kept = []
        fields = None  # the indent of the record or data type whose parts follow
        for number, line in enumerate(lines):
            if not line.strip() or line.lstrip().startswith('--') or line.startswith(('use ', 'pub use ', 'pub mod ')):
                continue
            indent = len(line) - len(line.lstrip())
            if fields is not None and indent <= fields:
                fields = None
            head = re.match(r'\s*((?:abbrev|unfoldable) )?(pub )?(data |record )?(\S+)(.*)$', line)
            mark, pub, kind, name, rest = head.groups()
            if pub and fields is None and (kind or re.match(r'( *[({][^)}]*[)}])* :', rest)):
                kept.append((number, indent, name, kind))
                if kind:
                    fields = indent
        for index, (number, indent, name, kind) in enumerate(kept):
            end = kept[index + 1][0] if index + 1 < len(kept) else len(lines)
            body = []
            for line in lines[number:end]:
                if re.match(r'\s*(--|module _|infix|unfoldable mutual)', line):
                    continue
                body.append(line)
            self.definitions[name] = '\n'.join(body).strip('\n')

    def constructors(self):
        """Constructor -> its data type."""
        found = {}
        for name, body in self.definitions.items():
            if body.lstrip().startswith('pub data'):
                for line in body.split('\n')[1:]:
                    head = re.match(r'\s+(\S+) :', line)
                    if head:
                        found[head.group(1)] = name
        return found


def module_path(crate, module):
    """The file of a module, or the type of the code that it stands for, and whether it is one."""
    if module.startswith('declared.'):
        names = module.split('.')[1:]
        if names[-1] == 'TheVariants':
            names = names[:-1]
        return 'type', names[-1]
    return 'file', f'crates/{crate}/specs/{module.replace(".", "/")}.antt'


def type_file(crate, name):
    folder = f'crates/{crate}/src'
    for file in sorted(os.listdir(folder)):
        path = os.path.join(folder, file)
        # with the comments above it, and without the attributes
        head = r'^(?:(?:// |#\[)[^\n]*\n)*^(?:pub(?:\(crate\))? )?(?:enum|struct) '
        found = re.search(head + name + r'\b(?:(?:\([^\n]*\))?;|[^{;]*\{.*?^\})', read(path), re.M | re.S)
        if found:
            return path, re.sub(r'^#\[.*\n', '', found.group(0), flags=re.M)
    raise SystemExit(f'believe: no type {name} in {folder}')


def main():
    files = {}
    for top, _, names in os.walk('crates'):
        if re.match(r'crates/[^/]+/specs', top):
            for name in names:
                if name.endswith('.antt') and name != 'Lib.antt':
                    path = os.path.join(top, name)
                    files[path] = File(path)
    believed = {}

    def visit(path, name):
        if path.endswith('.rt'):
            return
        file = files[path]
        if name not in file.definitions:
            constructors = file.constructors()
            if name in constructors:
                name = constructors[name]
            elif name in file.uses:
                return follow(*file.uses[name])
            else:
                raise SystemExit(f'believe: {path} has no {name}')
        if (path, name) in believed:
            return
        body = file.definitions[name]
        believed[path, name] = body
        names(file, body)

    def follow(crate, module, name):
        kind, what = module_path(crate, module)
        if kind == 'type':
            path, body = type_file(crate, what)
            if (path, what) not in believed:
                believed[path, what] = body
                for other in re.findall(r'\b([A-Z]\w+)\b', body):
                    if other != what and re.search(r'(?:enum|struct) ' + other + r'\b', '\n'.join(
                            read(f'crates/{crate}/src/{f}') for f in os.listdir(f'crates/{crate}/src'))):
                        follow(crate, f'declared.{other}', other)
                # what its ghost fields say
                tokens = set(TOKEN.findall(re.sub(r'//.*', '', body)))
                for name, given in uses(read(path)).items():
                    if said(name, tokens):
                        follow(*given)
        else:
            visit(what, name)

    def names(file, body):
        text = re.sub(r'--.*', '', body)
        tokens = set(TOKEN.findall(text)) | set(re.findall(r'[^\s(){},;]+', text))
        for name in list(file.definitions) + list(file.constructors()):
            if said(name, tokens):
                visit(file.path, name)
        for name, given in file.uses.items():
            if said(name, tokens):
                follow(*given)

    def said(name, tokens):
        # an operator is named by its parts
        return all(part in tokens for part in name.split('◌') if part)

    def contracts(path, wanted):
        """Visits what the contracts of these functions of a source file name."""
        text = read(path)
        imported = uses(text)
        for function, clauses in re.findall(r'fn (\w+)\b[^{]*?((?:requires|ensures)(?: \w+)? \{.*?)\n\s*\{\}?\n', text, re.S):
            if wanted(function):
                tokens = set(TOKEN.findall(clauses))
                for name, given in imported.items():
                    if said(name, tokens):
                        follow(*given)

    sources = sorted(os.path.join(top, name) for top, _, names_ in os.walk('crates') for name in names_
                     if name.endswith('.rt') and '/src' in top)
    for path in sources:
        if path.startswith(('crates/qorshudan/', 'crates/qorshudan_c/')):
            contracts(path, lambda function: function.startswith('qorshudan_'))
    for path, functions in OPERATIONS.items():
        contracts(path, lambda function: function in functions)
    for path, file in files.items():
        if path.startswith(('crates/demands/specs/', 'crates/existing/specs/')) and '/Private/' not in path:
            for name in file.definitions:
                visit(path, name)

    rest = dict(believed)
    for path in sources:
        contracts(path, lambda function: True)
    promised, believed = believed, rest

    rows = {}
    for (path, name), body in believed.items():
        rows.setdefault(path, []).append((name, len(body.split('\n'))))
    report = []
    for path in sorted(rows):
        count, lines = len(rows[path]), sum(n for _, n in rows[path])
        report.append(f'| {path} | {count} | {lines} |')
    total = f'{sum(len(r) for r in rows.values())} definitions and types, {sum(n for r in rows.values() for _, n in r)} lines, {len(rows)} files'
    if '--list' in sys.argv:
        for path in sorted(rows):
            print(path + ': ' + ', '.join(name for name, _ in rows[path]))
        print(total)
        return 0
    if '--check' not in sys.argv:
        print('\n'.join(report))
        print(total)
        return 0
    faults = []
    for path, file in sorted(files.items()):
        for name in file.definitions:
            inside = (path, name) in believed
            if '/Private/' in path and inside:
                faults.append(f'{path}: {name} is believed, and stands in Private')
            if '/Private/' not in path and not inside and (path, name) in promised:
                faults.append(f'{path}: {name} is promised by private functions alone: it belongs in specs/Private')
    readme = re.search(r'<!-- believe -->\n(.*?)<!-- /believe -->', read('README.md'), re.S)
    wanted = '| file | definitions | lines |\n|---|---:|---:|\n' + '\n'.join(report) + f'\n\n{total}.\n'
    if not readme or readme.group(1).strip() != wanted.strip():
        faults.append('README.md: its list of files to believe is not what tests/believe.py prints')
    if '--fix' in sys.argv and readme:
        text = read('README.md').replace(readme.group(1), wanted)
        with open('README.md', 'w', encoding='utf-8') as out:
            out.write(text)
    print('\n'.join('believe: ' + fault for fault in faults) if faults else f'believe: {total}')
    return 1 if faults else 0


sys.exit(main())
