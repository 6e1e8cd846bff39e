#!/usr/bin/env python3
"""Pairs of functions in src/ whose bodies are alike once names and numbers are blotted out: a line for each pair, and their number.

    tools/clones.py [RATIO] [TOKENS]    at the top of the repository; RATIO: how alike, .85; TOKENS: bodies of so many at least, 30
"""
import difflib
import glob
import itertools
import re
import sys

WORDS = set('let mut if else while for in return match loop as true false fn self'.split())
TOKEN = re.compile(r"b?'[^']*'|b?\"[^\"]*\"|\w+|[^\s\w]")
NUMBER = re.compile(r"b?'|0x|\d|b?\"")


def shape(body):
    """The tokens of a body: its words and signs, and N or I for each number or text and each name."""
    return [
        'N' if NUMBER.match(token) else token if token in WORDS or not re.match(r'\w', token) else 'I'
        for token in TOKEN.findall(re.sub(r'//[^\n]*', '', body))
    ]


def functions(tokens):
    for path in sorted(glob.glob('crates/*/src/*.rt')):
        # the exports are those of crate qorshudan, one by one
        if '/qorshudan_c/' in path:
            continue
        with open(path, encoding='utf-8') as file:
            text = file.read()
        for head in re.finditer(r'^( *)(?:pub(?:\(crate\))? )?fn (\w+)', text, re.M):
            rest = text[head.start():]
            whole = rest[:re.search(r'^' + head.group(1) + r'\}', rest, re.M).end()]
            body = re.search(r'^' + head.group(1) + r'\{\n(.*)', whole, re.M | re.S)
            found = shape(body.group(1) if body else whole)
            if len(found) >= tokens:
                yield path.replace('crates/', '').replace('/src', ''), head.group(2), found


def main():
    ratio = float(sys.argv[1]) if len(sys.argv) > 1 else .85
    tokens = int(sys.argv[2]) if len(sys.argv) > 2 else 30
    pairs = []
    for (file, name, a), (other, twin, b) in itertools.combinations(functions(tokens), 2):
        if min(len(a), len(b)) / max(len(a), len(b)) < ratio * .8:
            continue
        match = difflib.SequenceMatcher(None, a, b, autojunk=False)
        if match.real_quick_ratio() >= ratio and match.quick_ratio() >= ratio and match.ratio() >= ratio:
            pairs.append((match.ratio(), len(a), f'{file}:{name} ~ {other}:{twin}'))
    for found, size, text in sorted(pairs, reverse=True):
        print(f'{found:.2f} {size:4} {text}')
    print(len(pairs), 'pairs')


if __name__ == '__main__':
    main()
