#!/usr/bin/env python3
"""Writes the copyright file of an installation: that no licence is decided for r10, and the licences of what is built into it.

    scripts/tools/copyright.py TOOLCHAIN [CRATE..] > copyright

TOOLCHAIN is its folder: the crates of it that r10 stands on have their licence texts there, and one that has none is named.
Each CRATE is the folder of a crate in Rust that r10d is built of, with its Cargo.toml; its licence is what that says, with the
texts in the folder. A text that several have stands once. Of the Apache licence, which each Debian has, its place stands. The form
is that of Debian's machine-readable copyright files.
"""
from __future__ import annotations

import pathlib
import re
import sys

sys.dont_write_bytecode = True

TOP = pathlib.Path(__file__).resolve().parents[2]
sys.path[1:1] = map(str, [TOP, *(TOP / 'scripts').iterdir()])  # modules of the other folders

from quick_build import LIBRARY, PROGRAM, below  # noqa: E402
from toolchain import tool  # noqa: E402

# Where Debian has it.
COMMON = pathlib.Path('/usr/share/common-licenses/Apache-2.0')

HEAD = '''Format: https://www.debian.org/doc/packaging-manuals/copyright-format/1.0/
Upstream-Name: r10
Comment: No licence is decided for r10 itself. Who wants to copy it or hand it on asks its authors.

Files: *
Copyright: the authors of r10
License: none-decided
 No licence is decided: nobody may copy it or hand it on without leave of its authors.
'''


def used(toolchain: pathlib.Path) -> list[str]:
    """The crates of the toolchain that the program and the library stand on, by name, with those that these stand on."""
    listed = {}
    for line in (TOP / 'crates.txt').read_text(encoding='utf-8').splitlines():
        head, _, deps = line.partition('#')[0].partition(':')
        if head.strip():
            listed[head.split()[0]] = deps.split()
    named = {it for name in (PROGRAM, LIBRARY) for crate in below(name) for it in listed[crate]} - set(listed)
    words = tool(toolchain).kit_sources(sorted(named))
    return sorted({it.partition('=')[0].partition(':')[0] for it in words if '=' in it})


def texts_in(folder: pathlib.Path) -> list[str]:
    """The licence texts in a folder."""
    names = sorted(it for it in folder.iterdir() if re.match(r'(?i)(licen[cs]e|copying)', it.name) and it.is_file())
    return [it.read_text(encoding='utf-8', errors='replace').strip() for it in names]


def kind_of(text: str) -> str:
    """What a licence text is called."""
    for form, name in ((r'Apache License', 'Apache-2.0'), (r'Boost Software License', 'BSL-1.0'),
                       (r'free and unencumbered software', 'Unlicense'), (r'Redistribution and use', 'BSD'),
                       (r'Permission is hereby granted', 'MIT'), (r'Mozilla Public License', 'MPL-2.0'),
                       (r'UNICODE', 'Unicode')):
        if re.search(form, text):
            return name
    return 'other'


def authors_of(texts: list[str], name: str) -> str:
    """The lines of copyright in licence texts."""
    found = [line.strip() for text in texts for line in text.splitlines() if re.match(r'\s*Copyright\s.*(\d{4}|author)', line)
             and '[yyyy]' not in line]
    return '; '.join(dict.fromkeys(re.sub(r'(?i)^copyright\s+(\(c\)\s*)?', '', it) for it in found)) or 'the authors of ' + name


def shown(text: str) -> str:
    """A licence text, or where it is."""
    if kind_of(text) == 'Apache-2.0' and COMMON.is_file():
        return 'The Apache License, Version 2.0, is in %s.' % COMMON
    return text


def indented(text: str) -> str:
    """A text as a field of several lines."""
    return ''.join(' %s\n' % (line.rstrip() if line.strip() else '.') for line in text.split('\n'))


def main(words: list[str]) -> int:
    """Prints the file."""
    if not words or words[0].startswith('-'):
        print(__doc__, file=sys.stderr)
        return 2
    toolchain = pathlib.Path(words[0])
    known: dict[str, str] = {}  # a name for each text
    made = [HEAD]
    entries = [('rattle/' + name, toolchain / 'rattle' / name, '') for name in used(toolchain)]
    for folder in map(pathlib.Path, words[1:]):
        text = (folder / 'Cargo.toml').read_text(encoding='utf-8')
        field = {it: (re.search(r'(?m)^%s\s*=\s*"([^"]*)"' % it, text) or ['', ''])[1] for it in ('name', 'version', 'license')}
        entries.append(('crates/%s-%s' % (field['name'], field['version']), folder, field['license']))
    for place, folder, said in entries:
        texts = texts_in(folder)
        names = []
        for text in texts:
            if text not in known:
                count = sum(it.rpartition('-text-')[0] == kind_of(text) for it in known.values())
                known[text] = '%s-text-%d' % (kind_of(text), count + 1)
            names.append(known[text])
        made.append('Files: %s/*\nCopyright: %s\nLicense: %s\n%s' % (
            place, authors_of(texts, folder.name), ' or '.join(names) or (said or 'not-stated').replace('/', ' or '),
            'Comment: its Cargo.toml says %s\n' % said if said else '' if texts else 'Comment: it has no licence text.\n'))
    made += ['License: %s\n%s' % (name, indented(shown(text))) for text, name in known.items()]
    sys.stdout.buffer.write('\n'.join(made).encode('utf-8'))
    return 0


if __name__ == '__main__':
    sys.exit(main(sys.argv[1:]))
