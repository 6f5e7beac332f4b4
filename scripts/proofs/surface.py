#!/usr/bin/env python3
"""Writes docs/surface.txt: what each crate shows to others, a line for each function, type and constant.

    scripts/proofs/surface.py            writes it
    scripts/proofs/surface.py --check    fails if it is not what would be written, and says what differs

So no name, argument or answer that another crate can use changes unseen. A line is the item as the source has it, without what
contracts say of it: of a struct its public fields, of an enum its variants, of a trait its functions. What can be derived of a type
stands after it. Of a type of faults, which `thiserror` prints, each text has a line. scripts/proofs/conditions.py says which
functions are public. Crates of tests and programs have no surface.
"""
from __future__ import annotations

import difflib
import re
import sys
from collections.abc import Iterator
from pathlib import Path

sys.dont_write_bytecode = True

from conditions import FUNCTION, TOP, blocks_of, crates, exported  # noqa: E402

PAGE = TOP / 'docs' / 'surface.txt'
HEAD = '# What each crate shows to others. Made by scripts/proofs/surface.py, which also compares it with the sources.\n'
ITEM = re.compile(r'^pub (?P<kind>struct|enum|type|const|trait|union) (?P<name>\w+)', re.M)
DERIVED = re.compile(r'#\[derive\(([^)]*)\)\]\n(?:#\[[^\n]*\]\n|///[^\n]*\n|//[^\n]*\n)*$')
# The text of a fault, before a variant or a type.
TEXT = re.compile(r'#\[error\(\s*(?P<text>"(?:[^"\\]|\\.)*"|transparent)[^\]]*\)\]\n'
                  r'(?:\s*(?:#\[[^\n]*\]|//[^\n]*)\n)*\s*(?P<name>\w+)')
END = re.compile(r'\n\s*(?:requires|ensures|ghost|where)\b|{|;(?=\s*\n)')
REMARK = re.compile(r'^\s*//.*$|\s//.*$|^\s*#\[.*\]$', re.M)


def closed(text: str, at: int) -> int:
    """The place after the bracket that closes the one at this place."""
    pairs, depth = {'{': '}', '(': ')'}, 0
    opening = text[at]
    while at < len(text):
        depth += (text[at] == opening) - (text[at] == pairs[opening])
        at += 1
        if not depth:
            break
    return at


def on_a_line(text: str) -> str:
    """A text on one line, without the comma that ends a list over several lines."""
    line = ' '.join(REMARK.sub('', text).split())
    return re.sub(r',? ([)}\]])', r' \1', line).replace('( ', '(').replace(' )', ')').strip()


def signature(text: str, start: int) -> str:
    """A function without its contract and its body."""
    at = text.index('(', start)
    while text[start:at].count('<') > text[start:at].count('>') - text[start:at].count('->'):
        at = text.index('(', at + 1)
    after = closed(text, at)
    end = END.search(text, after)
    line = on_a_line(text[start:end.start() if end else after])
    return re.sub(r'^(?:pub )?(?:const )?(?:unsafe )?(?:extern "C" )?fn ', '', line)


def fields(text: str, kind: str, start: int, end: int) -> str:
    """What a struct or an enum shows of what is in its braces or brackets."""
    inside = text[start + 1:end - 1]
    if kind != 'struct':
        return on_a_line(text[start:end])
    # (what only proofs read stands after the fields)
    lines = [on_a_line(it).removesuffix(',') for it in inside.splitlines()] if '\n' in inside else inside.split(',')
    shown = [it.strip()[4:] for it in lines if it.strip().startswith('pub ')]
    hidden = any(re.match(r'(?:pub\([a-z]+\) )?\w', it.strip()) and not it.strip().startswith('pub ') for it in lines)
    return '%s %s %s' % (text[start], ', '.join(shown + ['..'] * hidden), text[end - 1])


def texts(text: str, name: str, start: int, end: int) -> Iterator[str]:
    """The texts of a type of faults between these places: its own, which stands before `pub`, or those of its variants."""
    for found in TEXT.finditer(text, start, end):
        yield 'text %s %s' % (name if found['name'] == 'pub' else name + '::' + found['name'], found['text'])


def items(text: str, names: set[str], is_out: bool) -> Iterator[str]:
    """Each public type and constant of a file."""
    for found in ITEM.finditer(text):
        kind, name = found['kind'], found['name']
        if not (is_out or name in names):
            continue
        derived = DERIVED.search(text, 0, found.start())
        after = '; ' + ', '.join(sorted(it.strip() for it in derived[1].split(',') if it.strip())) if derived else ''
        stop = re.compile(r'[{;=]|\((?=[^)]*\);)').search(text, found.end())
        line = on_a_line(text[found.start():stop.start() if stop else found.end()]).removeprefix('pub ')
        if stop and kind in ('struct', 'enum', 'union') and stop.group() in '{(':
            line += ' ' + fields(text, kind, stop.start(), closed(text, stop.start()))
        elif stop and kind == 'type' and stop.group() == '=':
            line += ' ' + on_a_line(text[stop.start():text.index(';', stop.start())])
        yield line + after
        if derived and 'Error' in after:
            has_parts = stop and stop.group() in '{('
            yield from texts(text, name, derived.start(), closed(text, stop.start()) if has_parts else found.end())


def functions(text: str, names: set[str], is_out: bool) -> Iterator[str]:
    """Each public function of a file."""
    blocks = blocks_of(text)
    for found in FUNCTION.finditer(text):
        block = next((it for it in blocks if it[0] < found.start() < it[1]), None)
        of = ''
        if block is None:
            if not found['public'] or found['within'] or not (is_out or found['name'] in names):
                continue
        else:
            _, _, kind, name, public = block
            if not (name in names or is_out) or not (
                    (kind == 'type' and found['public'] and not found['within'])
                    or (kind == 'trait' and public and len(found['indent']) == 4)):
                continue
            of = name + '::'
        yield 'fn ' + of + signature(text, found.start() + len(found['indent']))


def handed_on(root: Path) -> Iterator[str]:
    """What the crate's root brings out of other crates."""
    if root.is_file():
        for crate, rest in re.findall(r'^pub use (r10_\w+)::([^;]+);', root.read_text(encoding='utf-8'), re.M):
            for name in re.findall(r'(\w+)\s*(?=[,}]|$)', rest):
                yield 'use %s of %s' % (name, crate)


def surface() -> str:
    """All that is shown."""
    page = HEAD
    for crate in crates():
        names, modules = exported(crate)
        if not names and not modules and not (TOP / 'crates' / crate / 'src' / 'lib.rt').is_file():
            continue
        lines = [*handed_on(TOP / 'crates' / crate / 'src' / 'lib.rt')]
        for path in sorted((TOP / 'crates' / crate / 'src').rglob('*.rt')):
            text = path.read_text(encoding='utf-8')
            is_out = path.stem in modules or path.stem == 'lib'
            lines += [*items(text, names, is_out), *functions(text, names, is_out)]
        page += '\n[%s]\n%s' % (crate, ''.join(it + '\n' for it in sorted(lines)))
    return page


def main(words: list[str]) -> int:
    """Writes the page, or checks it."""
    made = surface()
    if not words:
        PAGE.write_text(made, encoding='utf-8')
        return 0
    if words != ['--check']:
        print(__doc__, file=sys.stderr)
        return 2
    kept = PAGE.read_text(encoding='utf-8') if PAGE.is_file() else ''
    compared = difflib.unified_diff(kept.splitlines(), made.splitlines(), lineterm='', n=0)
    changed = [it for it in compared if it[:2] not in ('--', '++', '@@')]
    for it in changed:
        print('surface: ' + it, file=sys.stderr)
    if changed:
        print('surface: docs/surface.txt is not what the crates show. If that is meant, run scripts/proofs/surface.py',
              file=sys.stderr)
    return int(bool(changed))


if __name__ == '__main__':
    sys.exit(main(sys.argv[1:]))
