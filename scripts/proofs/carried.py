#!/usr/bin/env python3
"""Carries verdicts about wrong bodies over a change of names and of lines.

    scripts/proofs/carried.py OLD NAMES     OLD is the commit before the change, NAMES a file with these lines:

        word OLD NEW       a definition, a field, a label or a variable has another name
        file OLD NEW       a file of crates/ has another path
        new FILE           a file of crates/ that was not there, and that no other file of its crate needs
        line TEXT          a line of sources that was not there, such as that which names a new module

A verdict is of the sources over which it came to be (wrong_bodies.py). Where a crate's sources are the same but for these names,
for comments, for how lines are broken and for how imports are listed, its verdicts hold: they get the new sums, and keep the commit
and the day at which they were tried. A crate of which anything else is another keeps the old sums: its verdicts are stale.
Within a file each word has one new name or none. Verdicts of slips and of mutants are carried.
"""
from __future__ import annotations

import dataclasses
import json
import re
import subprocess
import sys
import tempfile
from collections import defaultdict
from pathlib import Path
from typing import Optional

import mutants
import slips
import wrong_bodies
from wrong_bodies import Results, Sums

TOP = Path(__file__).resolve().parents[2]
FILES = ('scripts/proofs/slips.txt', 'scripts/proofs/mutants.txt')
IMPORT = re.compile(r'^[ \t]*(?:pub |ghost )*use (Rattle\.[^{;\n]*?)(?:\.\{([^}]*)\}| as (\S+?))?;?$', re.M)
TOKEN = re.compile(r'''"(?:[^"\\\n]|\\.)*"|[\w'#◌-]+|\S''')
# (of a checkout: the sums of each crate, and those of its changes in their order)
ASKED = '''
import dataclasses, json, sys
sys.path.insert(0, 'scripts/proofs')
import mutants, slips, wrong_bodies
graph = wrong_bodies.crates()
print(json.dumps({it: [dataclasses.astuple(wrong_bodies.Sums.of(it, graph)), [one.key() for one in slips.slips_of(it)],
                       [one.key() for _, own in mutants.mutants_of(it) for one in own]] for it in graph}))
'''


class Names:
    """What may be another name, by its old one."""

    def __init__(self, path: Path):
        self.words: dict[str, set[str]] = defaultdict(set)
        self.files: dict[str, str] = {}
        self.added: set[str] = set()
        self.lines: set[str] = set()
        for line in path.read_text(encoding='utf-8').splitlines():
            kind, *rest = line.split(' ', 1)
            parts = rest[0].split() if rest else []
            if kind == 'word':
                self.words[parts[0]].add(parts[1])
            elif kind == 'file':
                self.files[parts[0]] = parts[1]
            elif kind == 'new':
                self.added.add(parts[0])
            elif kind == 'line':
                self.lines.add(rest[0])
            elif line and kind != '#':
                sys.exit(f'carried: {path}: {line}')
        # (a module is named by its path, and in the list of its folder by its own name)
        self.modules = {module(old): module(new) for old, new in self.files.items()}
        # (and what is made of a source file has its path, in a folder of proofs/)
        self.folders = {str(Path(old).parent): str(Path(new).parent) for old, new in self.files.items()
                        if Path(old).parent != Path(new).parent}
        for old, new in self.files.items():
            self.words[Path(old).stem].add(Path(new).stem)

    def is_same(self, old: str, new: str) -> bool:
        """Whether the second word may stand for the first one: whole, or part by part."""
        if old == new or new in self.words.get(old, ()):
            return True
        one, two = old.split('-'), new.split('-')
        return len(one) == len(two) > 1 and all(a == b or b in self.words.get(a, ()) for a, b in zip(one, two))


    def module(self, path: str) -> str:
        """The path of a module then."""
        for old, new in self.folders.items():
            one = module(f'{old}/x')[:-1]
            if path.startswith(one):
                return module(f'{new}/x')[:-1] + path[len(one):]
        return self.modules.get(path, path)


def module(path: str) -> str:
    """The path of a module: `Rattle.r10_x.specs.Y` of `crates/r10_x/specs/Y.antt`."""
    return 'Rattle.' + path[len('crates/'):].rsplit('.', 1)[0].replace('/', '.')


def parts_of(text: str, sign: str, added: set[str]) -> tuple[set[tuple[str, str]], list[str]]:
    """The imports of a file, each as module and word, and the tokens of all else, without comments."""
    lines = [it for it in text.split('\n') if not it.strip().startswith(sign) and it.strip() not in added]
    text = '\n'.join(lines)
    imports = {(it[1], word.strip()) for it in IMPORT.finditer(text) for word in (it[2] or it[3] or '').split(',')
               if word.strip() or not it[2]}
    return imports, TOKEN.findall(IMPORT.sub('', text))


def difference(old: str, new: str, sign: str, names: Names) -> Optional[str]:
    """What of a file is another, if anything is."""
    (imports, tokens), (now, others) = parts_of(old, sign, set()), parts_of(new, sign, names.lines)
    left = set(now)
    for path, word in imports:
        one = names.module(path)
        fit = next(((p, w) for p, w in left if p in (path, one) and same_words(word, w, names)), None)
        if fit is None:
            return f'import {path} {word}'
        left.discard(fit)
    if left:
        return f'imports {sorted(left)[:2]}'
    # (a word after a dot is what it is in the module or of the value before the dot)
    known: dict[tuple[str, ...], str] = {}
    tokens, others = [tidy(it) for it in (tokens, others)]
    for at, (a, b) in enumerate(zip(tokens, others)):
        word = (*tokens[at - 2:at], a) if at > 1 and tokens[at - 1] == '.' else (a,)
        if not names.is_same(a, b) or known.setdefault(word, b) != b:
            return f'{a} and {b}'
    return None if len(tokens) == len(others) else 'its length'


def tidy(tokens: list[str]) -> list[str]:
    """The tokens without those that the formatter sets where what stands in brackets stands in several lines."""
    return [it for before, it, after in zip(['', *tokens], tokens, [*tokens[1:], ''])
            if not (it in (';', ',') and after in ('}', ')', ']')) and not (it == '|' and before == '[')]


def same_words(old: str, new: str, names: Names) -> bool:
    one, two = old.split(' as '), new.split(' as ')
    return len(one) == len(two) and all(names.is_same(a.strip(), b.strip()) for a, b in zip(one, two))


def crate_difference(crate: str, old: Path, names: Names) -> Optional[str]:
    """What of a crate is another, but for names and lines."""
    def files(top: Path) -> set[str]:
        return {str(it.relative_to(top)) for folder in ('src', 'specs', 'proofs')
                for it in (top / 'crates' / crate / folder).rglob('*') if it.is_file()}

    def moved(path: str) -> str:
        return next((new + path[len(was):] for was, new in names.files.items() if path == was or path.startswith(f'{was}/')), path)

    there, now = files(old), files(TOP) - names.added
    pairs = {it: moved(it) for it in there}
    if set(pairs.values()) != now:
        return f'files {sorted(set(pairs.values()) ^ now)[:2]}'
    for was, path in sorted(pairs.items()):
        why = difference((old / was).read_text(encoding='utf-8'), (TOP / path).read_text(encoding='utf-8'),
                         '//' if path.endswith('.rt') else '--', names)
        if why:
            return f'{path}: {why}'
    return None


def main() -> int:
    if len(sys.argv) != 3:
        sys.exit(__doc__)
    names = Names(Path(sys.argv[2]))
    with tempfile.TemporaryDirectory() as folder:
        old = Path(folder) / 'old'
        subprocess.run(['git', 'worktree', 'add', '-q', '--detach', str(old), sys.argv[1]], cwd=TOP, check=True)
        try:
            before = json.loads(subprocess.run([sys.executable, '-c', ASKED], cwd=old, check=True, stdout=subprocess.PIPE).stdout)
            graph = wrong_bodies.crates()
            carried, keys, sums = [], {}, {}
            for crate in graph:
                if crate not in before:
                    continue
                own, *old_keys = before[crate]
                new_keys = [[one.key() for one in slips.slips_of(crate)],
                            [one.key() for _, found in mutants.mutants_of(crate) for one in found]]
                why = crate_difference(crate, old, names)
                for was, now in zip(old_keys, new_keys):
                    if len(was) == len(now):
                        keys.update(zip(was, now))
                    elif not why:
                        why = 'how many changes it has'
                if why:
                    print(f'carried: {crate} is another: {why}')
                else:
                    carried.append(crate)
                    sums[crate] = (own, Sums.of(crate, graph))
        finally:
            subprocess.run(['git', 'worktree', 'remove', '--force', str(old)], cwd=TOP, check=True)
    for name in FILES:
        results = Results(TOP / name)

        def change(lines: dict) -> None:
            for line in list(lines.values()):
                was, now = sums.get(line.crate, (('', ''), None))
                new = {'key': keys.get(line.key, line.key)}
                if now and line.own == was[0]:
                    new |= {'own': now.own, 'below': now.below if line.below == was[1] else line.below}
                del lines[line.key]
                lines[new['key']] = dataclasses.replace(line, **new)

        results.write(change)
    print(f'carried: {len(carried)} of {len(graph)} crates are the same but for names and lines')
    return 0


if __name__ == '__main__':
    sys.exit(main())
