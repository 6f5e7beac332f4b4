#!/usr/bin/env python3
"""Whether names and lines of the sources are such that a reader isn't misled.

    scripts/lint/check_names.py    a line for each finding, and status 1 if there is one

A finding is a type (struct, enum, trait or type) whose name another type has too, in whatever crate; a public word of definitions
that another file of definitions has too, worked values apart; a line of more than 132 columns below crates/*/src or crates/*/specs;
or a module of definitions or proofs whose name says nothing of what it defines. ALLOWED lists the names that several types share
with one meaning, and why. An entry that excuses nothing is a finding too.
"""
from __future__ import annotations

import pathlib
import re
import sys
from typing import Iterator

TOP = pathlib.Path(__file__).resolve().parents[2]
MOST = 132
TYPE = re.compile(r'^\s*(?:pub(?:\([a-z]+\))? )?(?:struct|enum|trait|type|union) ([A-Z]\w*)')
# A word of definitions, as `pub IsBodyOf : ..`, `abbrev pub cost : ..` or `pub record Kept (..)`.
WORD = re.compile(r"^(?:abbrev |unfoldable |opaque )?pub (?:record |abbrev |unfoldable )?([A-Za-z_][\w'-]*)(?= :|\s*\{| \()")
WORKED = re.compile(r'(?:Vectors|Recordings|\w*Cases)\.antt$')
EMPTY = {'Told', 'Found', 'Standing', 'Behind', 'Asking', 'Telling', 'Kept', 'Left', 'Looked', 'Ways', 'Made', 'Knowing'}
# An associated type of a trait or an impl is no type of its own name.
INSIDE = re.compile(r'^\s+type ')

ALLOWED = {
    'AnySource': 'a boxed source, named where it is used and where it is handed out',
    'BeginFault': 'why a file was not begun: of the multiplexer, and of the open file over it',
    'Civil': 'a civil time, and the same for C',
    'Entry': "an entry of a file, and of a directory: each is its format's word",
    'ListSource': 'a source that gives what is in a list: of the program, and of tests',
    'Recorder': 'the recorder, and its handle in C',
}


def sources() -> Iterator[tuple[str, list[str]]]:
    """Each file of code, with its lines."""
    for path in sorted(TOP.glob('crates/*/src/**/*.rt')):
        yield str(path.relative_to(TOP)), path.read_text(encoding='utf-8').split('\n')


def definitions() -> Iterator[str]:
    """What is found in definitions, and in the names of their modules and of those of proofs."""
    places: dict[str, list[str]] = {}
    for path in sorted(TOP.glob('crates/*/specs/**/*.antt')):
        name = str(path.relative_to(TOP))
        for number, line in enumerate(path.read_text(encoding='utf-8').split('\n'), 1):
            if len(line) > MOST:
                yield f'{name}:{number}: {len(line)} columns'
            if (it := WORD.match(line)) and not WORKED.search(name):
                places.setdefault(it.group(1), []).append(f'{name}:{number}')
    for word, where in sorted(places.items()):
        if len(where) > 1:
            yield f'{word} is defined {len(where)} times: ' + ', '.join(where)
    for path in sorted(TOP.glob('crates/*/*/**/*.antt')):
        if path.stem in EMPTY:
            yield f'{path.relative_to(TOP)}: this name says nothing of what is in it'


def main() -> int:
    """Prints what is found."""
    places: dict[str, list[str]] = {}
    found = [*definitions()]
    for name, lines in sources():
        for number, line in enumerate(lines, 1):
            if len(line) > MOST:
                found.append(f'{name}:{number}: {len(line)} columns')
            it = TYPE.match(line)
            if it and not INSIDE.match(line):
                places.setdefault(it.group(1), []).append(f'{name}:{number}')
    for name, where in sorted(places.items()):
        if len(where) > 1 and name not in ALLOWED:
            found.append(f'{name} has {len(where)} meanings: ' + ', '.join(where))
    for name in sorted(ALLOWED):
        if len(places.get(name, [])) < 2:
            found.append(f'ALLOWED: {name} is no name of several types')
    print('\n'.join([*found, f'check_names: {len(found)} findings']))
    return 1 if found else 0


if __name__ == '__main__':
    sys.exit(main())
