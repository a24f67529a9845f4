#!/usr/bin/env python3
"""Counts the places in src/ that may read like an older language, point by point.

    python3 tools/places.py [--list] [COMMIT]

The tree of COMMIT is read, or without it the files as they lie here. Each point's count is of lines, functions or pairs
that a pattern finds; whether a place should change is for a reader to say (docs/DESIGN-PASS.md).
"""
import difflib
import itertools
import re
import subprocess
import sys

# What is looked for line by line, each with the point that it belongs to.
LINES = [
    (1, 'own enums', r'^\s*(pub(\(crate\))? )?enum '),
    (1, 'flags as parameters, fields or results', r'(\w: bool\b|-> Result<bool|-> Option<bool)'),
    (1, 'numbers told apart by a match', r'^\s*(b?\'?[0-9A-Z]\'?) => '),
    (1, 'arms that stand for a case that cannot come', r'unreachable\(\)'),
    (4, 'options and slices compared by a match or a loop', r'\(Some\(\w+\), Some\(\w+\)\) =>|\.iter\(\)\.eq\('),
    (4, 'functions that convert or print by hand', r'fn (name|number|position|numbered|of_letter|words|from_words|on_line|same|verdict|of|related)\b'),
    (6, 'arrays as fields', r'^\s+(pub )?\w+: \[[^\]]*; ?\w+\],'),
    (6, 'lengths and places beside a buffer', r'^\s*(pub )?(mut )?(at|count|standing|len|place): usize,|, (mut )?at: usize\b'),
    (7, 'choices between calls', r'^\s*\w+::\w+(\(\w+\)| \{[^}]*\})? => \w+(\.|::|\()'),
    (7, 'function pointers and dyn', r'\bfn\(|\bdyn '),
]


def sources(commit):
    """The files of src/ with their text."""
    if commit:
        names = subprocess.run(['git', 'ls-tree', '-r', '--name-only', commit], capture_output=True, text=True, check=True).stdout.split()
    else:
        names = subprocess.run(['git', 'ls-files'], capture_output=True, text=True, check=True).stdout.split()
    for name in names:
        if re.match(r'crates/\w+/src/.*\.rt$', name):
            if commit:
                text = subprocess.run(['git', 'show', f'{commit}:{name}'], capture_output=True, text=True, check=True).stdout
            else:
                text = open(name).read()
            yield name, text


def functions(text):
    """Each function: its line, its name, its head with the clauses, its body."""
    lines = text.split('\n')
    for start, line in enumerate(lines):
        m = re.match(r'(\s*)(?:pub(?:\(crate\))? )?fn (\w+)', line)
        if not m:
            continue
        opening = start
        while opening < len(lines) and not lines[opening].endswith(('{', ';')) and lines[opening] != m.group(1) + '{':
            opening += 1
        if opening < len(lines) and lines[opening].endswith('{'):
            closing = lines.index(m.group(1) + '}', opening) if m.group(1) + '}' in lines[opening:] else opening
            yield start + 1, m.group(2), '\n'.join(lines[start:opening + 1]), lines[opening + 1:closing]


def shape(body):
    """A body with its names and numbers taken out."""
    words = []
    for line in body:
        line = re.sub(r'//.*', '', line)
        for word in re.findall(r'\w+|[^\w\s]', line):
            words.append('x' if re.match(r'[a-z_]\w*$', word) and word not in KEPT else 'X' if re.match(r'[A-Z]\w*$', word) else word)
    return words


def counting_loops(files):
    """Loops that go on by hand, and loops whose number, of a range or of `enumerate`, is an index or is turned into one."""
    for name, text in files:
        lines = text.split('\n')
        for i, line in enumerate(lines):
            if line.strip().startswith('//'):
                continue
            if re.search(r'\bwhile (?!let\b)|\bloop \{', line):
                yield f'{name}:{i + 1}: {line.strip()}'
            loop = re.match(r'(\s*)for (\w+) in [^{]*\.\.', line)
            told = re.match(r'(\s*)for \((\w+), .*enumerate\(\)', line)
            if loop or told:
                indent, number = (loop or told).group(1, 2)
                body = '\n'.join(itertools.takewhile(lambda l: l != indent + '}', lines[i + 1:]))
                turned = rf'\b{number} as |' if loop else ''
                if re.search(rf'{turned}[\w)\]]\[[^\]]*\b{number}\b', body):
                    yield f'{name}:{i + 1}: {line.strip()}'


def calls(files):
    """Loops that are no place, but told: over numbers that are no index, and over what a set or a reader gives next."""
    counted = set(counting_loops(files))
    for name, text in files:
        for i, line in enumerate(text.split('\n'), 1):
            if re.match(r'\s*(for \w+ in [^{]*\.\.|while let )', line) and f'{name}:{i}: {line.strip()}' not in counted:
                yield f'{name}:{i}: {line.strip()}'


KEPT = {'let', 'mut', 'if', 'else', 'for', 'in', 'while', 'match', 'return', 'as', 'self', 'true', 'false'}


def twins(files):
    """Pairs of functions whose bodies have nearly one shape."""
    all_functions = []
    for name, text in files:
        for line, function, head, body in functions(text):
            words = shape(body)
            if len(words) >= 24:
                all_functions.append((f'{name}:{line} {function}', words))
    for (a, x), (b, y) in itertools.combinations(all_functions, 2):
        if min(len(x), len(y)) / max(len(x), len(y)) >= 0.8:
            if difflib.SequenceMatcher(None, x, y, autojunk=False).ratio() >= 0.9:
                yield f'{a} | {b}'


def facts(files):
    """Facts that three or more functions require, and parameters that three or more functions of a crate take together."""
    required, together = {}, {}
    for name, text in files:
        crate = name.split('/')[1]
        for line, function, head, body in functions(text):
            where = f'{name}:{line} {function}'
            for fact in set(re.findall(r'requires \w* ?\{ (.*) \}$', head, re.M)):
                required.setdefault((crate, re.sub(r'\b(self\.entry\.|self\.|c\.)', '', fact)), set()).add(where)
            taken = re.search(r'\((.*?)\)\s*(->|\n|$|requires|ensures|\{)', head.replace('\n', ' '), re.S)
            parameters = re.findall(r'(\w+: &?(?:mut )?[\w<>\[\]&]+)', taken.group(1)) if taken else []
            for pair in itertools.combinations(sorted(set(parameters) - {'rt: &HostRuntime'}), 2):
                together.setdefault((crate,) + pair, set()).add(where)
    for key, places in sorted(required.items()):
        if len(places) >= 3:
            yield f'{key[0]}: requires {key[1]}', places
    for key, places in sorted(together.items()):
        if len(places) >= 3:
            yield f'{key[0]}: {key[1]} with {key[2]}', places


def main():
    arguments = [a for a in sys.argv[1:] if a != '--list']
    listed = '--list' in sys.argv
    files = list(sources(arguments[0] if arguments else None))
    rows = []
    for point, what, pattern in LINES:
        found = [f'{name}:{i}: {line.strip()}' for name, text in files for i, line in enumerate(text.split('\n'), 1)
                 if re.search(pattern, line) and not line.strip().startswith('//')]
        rows.append((point, what, found))
    rows.append((2, 'pairs of functions of nearly one shape', list(twins(files))))
    rows.append((3, 'loops that count by hand', list(counting_loops(files))))
    rows.append((3, '(beside these, loops over numbers that are no index, and `while let`)', list(calls(files))))
    for what, places in facts(files):
        rows.append((5, what, sorted(places)))
    for point, what, found in sorted(rows, key=lambda row: row[0]):
        print(f'{point}  {len(found):3}  {what}')
        if listed:
            for line in found:
                print(f'        {line}')


main()
