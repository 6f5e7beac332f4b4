#!/usr/bin/env python3
"""Whether each crate is as small as it is to be, and those that are not are no larger than docs/DECISIONS.md states.

    scripts/lint/sizes.py           a line for each finding, and status 1 if there is one
    scripts/lint/sizes.py --list    the sizes of all crates: lines of src, and functions

A crate has at most LINES lines of `src`, comments among them, and FUNCTIONS functions, laws among them. One that has more has a
row of a table of docs/DECISIONS.md, with its most of each and the reason. A row that is not needed is a finding, and one that
leaves more than SPARE lines too.
"""
from __future__ import annotations

import pathlib
import re
import sys

TOP = pathlib.Path(__file__).resolve().parents[2]
LINES, FUNCTIONS, SPARE = 1500, 100, 100
HEAD = re.compile(r'(?m)^\| Crate \| Lines of `src`[^|]*\| At most \| Functions, at most \| Why it is one crate \|\n\|[-|: ]+\|\n'
                  r'((?:\|.*\n)*)')
ROW = re.compile(r'\| `(\w+)` \| [\d,]+ \| ([\d,]+) \| ([\d,]+) \| \S.* \|')
FUNCTION = re.compile(r'(?m)^ *(?:pub(?:\([a-z]+\))? )?(?:const )?(?:unsafe )?(?:extern "C" )?fn \w+')


def sizes() -> dict[str, tuple[int, int]]:
    """The lines and the functions of each crate."""
    found = {}
    for folder in sorted((TOP / 'crates').iterdir()):
        texts = [path.read_text(encoding='utf-8') for path in sorted((folder / 'src').rglob('*.rt'))]
        found[folder.name] = (sum(text.count('\n') for text in texts), sum(len(FUNCTION.findall(text)) for text in texts))
    return found


def number(text: str) -> int:
    return int(text.replace(',', ''))


def main() -> int:
    """Compares the sizes with the table."""
    if sys.argv[1:] not in ([], ['--list']):
        print(__doc__, file=sys.stderr)
        return 2
    found = sizes()
    if sys.argv[1:]:
        for name, (lines, functions) in sorted(found.items(), key=lambda it: it[1], reverse=True):
            print(f'{name} {lines} {functions}')
        return 0
    page = (TOP / 'docs' / 'DECISIONS.md').read_text(encoding='utf-8')
    table, stated, faults = HEAD.search(page), {}, []
    for line in table[1].splitlines() if table else []:
        row = ROW.fullmatch(line)
        if not row or row[1] not in found or row[1] in stated:
            faults.append(f'docs/DECISIONS.md: this row is not of a crate with two numbers and a reason: {line}')
        else:
            stated[row[1]] = (number(row[2]), number(row[3]))
    for name, (lines, functions) in found.items():
        most, most_functions = stated.get(name, (LINES, FUNCTIONS))
        if lines > most:
            faults.append(f'{name} has {lines} lines, more than {most}')
        if functions > most_functions:
            faults.append(f'{name} has {functions} functions, more than {most_functions}')
        if name in stated and lines <= LINES and functions <= FUNCTIONS:
            faults.append(f'docs/DECISIONS.md: {name} needs no row: it has {lines} lines and {functions} functions')
        elif name in stated and most > max(lines + SPARE, LINES):
            faults.append(f'docs/DECISIONS.md: {name} has {lines} lines: a most of {most} leaves more than {SPARE}')
    for fault in faults:
        print(fault)
    print(f'sizes: {len(found)} crates, {len(stated)} with a most of their own, {len(faults)} findings')
    return 1 if faults else 0


if __name__ == '__main__':
    sys.exit(main())
