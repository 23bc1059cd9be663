#!/usr/bin/env python3
"""Brings the definitions and lemmas of this repository to snake case, as the library's are.

Run once at the top of the repository, after /opt/rattle/port/port.py. It goes by text: it turns the names that specs/ and proofs/ declare,
and their local names, wherever they stand in .antt files, in clauses and ghost imports of .rt files, in must-fail edits and, between
backticks, in the pages. Functions of src/, fields of structs, exported names, strings, inputs and outputs are left as they are, and so is
each name of the library's.
"""
import collections
import glob
import os
import re
import sys

KIT = '/opt/rattle/rattle/'
KIT_FOLDERS = ['core', 'std', 'std_alloc', 'std_collections', 'std_heap', 'std_io', 'logic', 'antt', 'io', 'libc', 'os']
WORD = re.compile(r"[^\s()\[\]{},.;:\"`|]+")
DECLARED = re.compile(r"\s*(?:pub |abbrev |unfoldable |data |record )*([^\s()\[\]{},.;:\"`|]+) :(?:\s|$)")

# names that would fall together, and what each becomes
APART = {
    'length-holds': 'length_holds_lem',
    'next-over': 'next_over_lem',
    'drop-long': 'drop_long_lem',
    'drop-worse': 'drop_worse_lem',
    'pop-worse': 'pop_worse_lem',
    'front-next': 'front_next_lem',
    'front-best': 'front_best_lem',
    'edition-limits': 'edition_limits_lem',
    'pages-in': 'pages_row',
    'lines-in': 'lines_row',
    'left-entry': 'left_entry_lem',
    'right-entry': 'right_entry_lem',
    'by-rest': 'by_rest_lem',
    'tooShort': 'below_least',
    'to_G': 'to_curve',
    'getD-entries': 'get_or_entries',
    'getD-sums': 'get_or_sums',
    'isSteps': 'is_steps',
    'isJumps': 'is_jumps',
    'refusedRow': 'refused_row',
    'has?': 'has_cost',
    'gives?': 'gives_cost',
    'same?': 'same_or_not',
    'jobG1': 'job_G1',
    'jobP1': 'job_P1',
}


def snake(name):
    if name in APART:
        return APART[name]
    if name[0].islower():
        name = re.sub(r'(?<=[a-z0-9])([A-Z])(?=[a-z]|$)', lambda m: '_' + m.group(1).lower(), name)
    return name.replace('-', '_')


def ours(pattern):
    return [f for f in glob.glob(pattern, recursive=True) if '/out/' not in f]


def code_of(line):
    return re.split(r'--|//', line)[0]


def kit_words():
    words = set()
    for folder in KIT_FOLDERS:
        for d, _, files in os.walk(KIT + folder):
            for f in files:
                if f.endswith(('.antt', '.rt')):
                    for line in open(os.path.join(d, f), errors='replace'):
                        words.update(WORD.findall(code_of(line)))
    return words


def wants(name):
    return re.search('[A-Za-z]', name) and ('-' in name or re.match('[a-z].*[A-Z]', name)) or name in APART


def gather(files):
    """Names to turn everywhere; names that the library has too, with the modules that declare them; fields."""
    kit = kit_words()
    seen, declared, fields = set(), collections.defaultdict(set), set()
    for f in files:
        module = 'Rattle.' + f[len('crates/'):-len('.antt')].replace('/', '.')
        for line in open(f):
            line = code_of(line)
            seen.update(WORD.findall(line))
            m = DECLARED.match(line)
            if m:
                declared[m.group(1)].add(module)
                if line.startswith('  '):
                    fields.add(m.group(1))
    turn = {n for n in seen | set(APART) if wants(n) and n not in kit}
    shared = {n: declared[n] for n in seen if wants(n) and n in kit and n in declared}
    print('the library has these names too:', shared)
    return turn, shared, fields & (turn | set(shared))


def turn_line(line, names, fields, bare):
    def put(m):
        name, before = m.group(0), line[:m.start()]
        if name not in names and not (before.endswith('.') and name in fields) and not line[m.end():].startswith(' = '):
            return name
        if name not in names and name not in fields:
            return name
        if before.endswith('.') and not (bare or name in fields or re.search(r'[A-Z]\w*\.$', before)):
            return name
        return snake(name)
    return WORD.sub(put, line)


def turn_file(f, turn, shared, fields):
    module = 'Rattle.' + f[len('crates/'):-len('.antt')].replace('/', '.')
    text = open(f).read()
    here = set(turn)
    for n, modules in shared.items():
        uses = [m.group(1) for m in re.finditer(r'use (\S+)\.\{([^}]*)\}', text) if n in re.split(r'[\s,]+', m.group(2))]
        if module in modules or any(u in modules for u in uses):
            here.add(n)
    turned = ''.join(turn_line(line, here, fields, False) for line in text.splitlines(True))
    if turned != text:
        open(f, 'w').write(turned)


def turn_source(f, turn, fields):
    """Only ghost parts have such names: no name of src/ has a dash or a capital inside."""
    text = open(f).read()
    turned = ''.join(turn_line(line, {n for n in turn if '-' not in n or '//' in line}, fields, True) for line in text.splitlines(True))
    if turned != text:
        open(f, 'w').write(turned)


def turn_page(f, turn):
    text = open(f).read()

    def put(m):
        return m.group(1) + turn_line(m.group(2), turn, set(), True) + m.group(1)
    turned = re.sub(r'(`)([^`\n]+)`', put, text)
    if turned != text:
        open(f, 'w').write(turned)


def main():
    specs = ours('crates/*/specs/**/*.antt') + ours('crates/*/proofs/*.antt')
    turn, shared, fields = gather(specs)
    taken = collections.defaultdict(set)
    for n in turn | set(shared):
        taken[snake(n)].add(n)
    clashes = {n: o for n, o in taken.items() if len(o) > 1}
    if clashes:
        sys.exit(f'names that would fall together: {clashes}')
    for f in ours('crates/**/*.antt'):
        turn_file(f, turn, shared, fields)
    for f in ours('crates/*/src/**/*.rt') + ours('crates/*/must-fail/*.edit'):
        turn_source(f, turn, fields)
    for f in ['README.md'] + glob.glob('docs/**/*.md', recursive=True) + ['tests/README.md']:
        turn_page(f, turn)
    print(f'{len(turn)} names turned')


main()
