#!/usr/bin/env python3
"""What refused each must-fail edit: a line for each, and exit status 1 where one shows nothing. Without --write it writes nothing.

    tests/edits.py [--table | --write] [--log FILE] [CRATE..]

It is called in the repository. FILE is what `rt ci` or `rt must-fail` printed: target/rt-ci.log where none is named, which the gate keeps.
CRATE: the edits of these crates alone.

The kit prints one line for each edit, crates/CRATE/must-fail/LABEL.edit, with the first words of the first error of the check that refused
it, passing over those of a proof file that names what the edit took away, and of what rests on that proof. For each edit this prints its
name, what is true (the edit's first line), and of that error the file, the line, the goal or law that is refused there, and in short why.

An edit is at fault where it has no line, or the lines are older than the edit; where it was not refused, not tried, or could not be applied
or read; where the line says that only a proof file was refused which names what the edit took away, or the error speaks of a name that is
unknown: then the edit only made a proof unfit for the code, and no fact refused it. It is at fault too where the line or the error says that
the prover stopped at a limit of its own, which tells nothing of the fact.

--table prints the same as a table in markdown: edit, what it tries, the fact that refuses it. --write puts it into docs/EDITS.md, in the
place of the table there, where none is at fault.
"""
import argparse
import glob
import os
import re
import sys

# what an error says that speaks of names and of no fact
NAMES = re.compile(r'can be named|is not in scope|not in the scope|unknown[- ]name|no module|has no (?:field|module|declaration|`)|is no name')
# what it says where the prover gave up
LIMITS = re.compile(r'stopped at (?:a bound of its own|the step limit)|gave up at one of its limits?|ran out of|outgrew the memory')
# the line of an edit, with its crate and label
TRIED = re.compile(r'^rt: must-fail (?P<crate>[\w.-]+)/(?P<label>[\w.-]+)\.edit: (?P<said>.*)$')
REFUSED = re.compile(r'^refused, as it must be(?P<only> \(only .*?\))?(?:: (?P<error>.*))?$')
# an error or a note, with its place
ERROR = re.compile(r'^(?:note: )?(?:\./)?(?P<file>[^\s:]+):(?P<line>\d+):\d+: (?:error(?:\[[\w-]+\])?: )?(?P<words>.*)$')
SHORT = 110
PAGE = 'docs/EDITS.md'


def short(words, most=SHORT):
    """Words without the long names of modules, cut where they go on."""
    words = re.sub(r'\b(?:Rattle|borrow|denote|lib|mir|native|mathlib|Prim)(?:\.\w[\w-]*)*\.([^\s.)`]+)', r'\1', ' '.join(words.split()))
    if len(words) <= most:
        return words
    words = words[:most].rsplit(' ', 1)[0]
    return words + ('` …' if words.count('`') % 2 else ' …')


def why(message):
    """Why a fact is refused, in short."""
    if message.startswith('`omega`'):
        return '`omega`: the goal does not follow'
    if message.startswith('`search`'):
        return '`search` finds no proof'
    if message.startswith('expected type'):
        return 'it shows another fact than is asked'
    return short(message)


def fact_of(error):
    """Where an error stands, what it refuses, and what it says."""
    found = ERROR.match(error)
    if not found:
        return None
    words, goal = found['words'], ''
    named = re.match(r'`([^`]+)`: (.*)', words)
    noted = re.match(r'(it is not proved that .*) \(`([^`]+)`\)', words)
    if named:
        goal, words = named[1], named[2]
    elif noted:
        goal, words = noted[2], noted[1]
    return f"{found['file']}:{found['line']}", goal, words


def read(path):
    with open(path, encoding='utf-8', errors='replace') as file:
        return file.read()


def main():
    words = argparse.ArgumentParser(description='What refused each must-fail edit.')
    words.add_argument('--table', action='store_true')
    words.add_argument('--write', action='store_true')
    words.add_argument('--log', default='target/rt-ci.log')
    words.add_argument('crates', nargs='*')
    asked = words.parse_args()
    if not os.path.isfile(asked.log):
        print(f'edits: no {asked.log}: the gate keeps there what rt ci printed; --log names another file')
        return 1
    lines = {}
    for line in read(asked.log).split('\n'):
        found = TRIED.match(line)
        if found:
            lines[found['crate'], found['label']] = found['said']
    rows, faults = [], []
    for path in sorted(glob.glob('crates/*/must-fail/*.edit')):
        crate, label = path.split('/')[1], os.path.basename(path)[:-len('.edit')]
        if asked.crates and crate not in asked.crates:
            continue
        name = f'{crate}/{label}'
        said = read(path).split('\n')[0]
        if not said.startswith('# '):
            faults.append(f'{name}: its first line does not say what is true')
        told = lines.get((crate, label))
        if told is None:
            faults.append(f'{name}: no line in {asked.log}')
            continue
        if os.path.getmtime(asked.log) < os.path.getmtime(path):
            faults.append(f'{name}: {asked.log} is older than the edit')
        refused = REFUSED.match(told)
        if not refused:
            faults.append(f'{name}: {told}')
            continue
        if refused['only']:
            faults.append(f"{name}: shows no fact: refused{refused['only']}")
        fact = fact_of(refused['error'] or '')
        if not fact:
            faults.append(f'{name}: no error with its place: {told}')
            continue
        if not refused['only'] and (NAMES.search(fact[2]) or LIMITS.search(fact[2])):
            faults.append(f'{name}: {fact[0]}: shows no fact: {short(fact[2])}')
        rows.append((name, said[2:], fact))
    table = ['| edit | what it tries | the fact that refuses it |', '|---|---|---|']
    for name, said, (place, refused, message) in rows:
        cell = f'`{refused}`, ' if refused else ''
        fact = f'{cell}{re.sub(":[0-9]+$", "", place)}: {why(message)}'.replace('|', '\\|')
        table.append(f'| `{name}` | {said} | {fact} |')
    if asked.write and not faults and not asked.crates:
        page = read(PAGE)
        with open(PAGE, 'w', encoding='utf-8') as file:
            file.write(re.sub(re.escape(table[0]) + r'\n(?:\|.*\n?)*', lambda m: '\n'.join(table) + '\n', page, count=1))
    if asked.table:
        print('\n'.join(table))
    else:
        for name, said, (place, refused, message) in rows:
            print(f'edits: {name}: {said}: {place}: {refused + ": " if refused else ""}{why(message)}')
    for fault in faults:
        print(f'edits: {fault}', file=sys.stderr if asked.table else sys.stdout)
    if not asked.table:
        print(f'edits: {len(rows)} refused, {len(faults)} faults')
    return 1 if faults else 0


if __name__ == '__main__':
    sys.exit(main())
