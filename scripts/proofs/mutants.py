#!/usr/bin/env python3
"""Makes small changes in the bodies of functions, and tells which ones no contract refuses.

    scripts/proofs/mutants.py [CRATE..]    tries those mutants that have no verdict yet, or a stale one, cheap crates first
    scripts/proofs/mutants.py --list       lists them with their sums and what is known of each
    scripts/proofs/mutants.py --crates     prints a row for each crate
    scripts/proofs/mutants.py --table      writes the table of docs/SLIPS.md from the results
    scripts/proofs/mutants.py --check      fails where the two do not agree, or the page says nothing of a mutant that is let
                                           through

The changes are those that tools of mutation make: a comparison turned, a bound one off, a branch that is never or always taken, a
call left out, a constant changed, two arguments exchanged, a refusal swallowed, a sum turned into a difference. `--count` of them
(600) are drawn from `--seed`, spread over the crates by the lines of their bodies; crates of tests, trials and measures have none.
A change of one function leaves most of the mutants of the others as they are. Those that do not compile are left out of the
figures.

Prints a line for each, and how many of a hundred are refused by their own crate. What was tried stands in
scripts/proofs/mutants.txt (wrong_bodies.py says how), so a run goes on where one was stopped. A line stays while its change can be
made, drawn or not: `--table` leaves out the others. What survives is to be closed by a clause, or explained in docs/SLIPS.md.
Status 1 where fewer than 95 of 100 are refused.
"""
from __future__ import annotations

import argparse
import collections
import hashlib
import itertools
import re
import sys
from pathlib import Path
from typing import Callable, Iterator

sys.dont_write_bytecode = True
sys.path.insert(0, str(Path(__file__).resolve().parent))
import wrong_bodies  # noqa: E402
from wrong_bodies import MUTANTS, TOP, Change, Function, Results  # noqa: E402

RESULTS = TOP / 'scripts' / 'proofs' / 'mutants.txt'

WITHOUT = re.compile(r'_tests$|^r10_(rows|trials|bench|cli)$')
# (lines of a body that are no code which runs)
GHOST = re.compile(
    r'^\s*(?:prove!|ghost\b|#\[|//|requires\b|ensures\b|invariant\b|measure\b|decreases\b|use )|\bghost\b|\b(?:requires|ensures) '
    r'\{')

TURNS: list[tuple[str, str, Callable[[re.Match], str]]] = [
    ('comparison', r' (<=|>=|<|>|==|!=) ',
     lambda it: {'<': ' <= ', '<=': ' < ', '>': ' >= ', '>=': ' > ', '==': ' != ', '!=': ' == '}[it[1]]),
    ('bound', r'\.\.=', lambda it: '..'),
    ('bound', r' \+ 1\b', lambda it: ''),
    ('constant', r'(?<![\w.\'])(\d[\d_]*)(?=(?:u8|u16|u32|u64|usize)?\b)(?!\.\d)', lambda it: str(int(it[1].replace('_', '')) + 1)),
    ('sum', r' (\+|-) (?=\w)', lambda it: ' - ' if it[1] == '+' else ' + '),
    ('both', r' (&&|\|\|) ', lambda it: ' || ' if it[1] == '&&' else ' && '),
    ('branch', r'\bif (?!let\b)([^{}]+) \{$', lambda it: f'if !({it[1]}) {{'),
    ('branch', r'\bif (?!let\b)([^{}]+) \{$', lambda it: f'if ({it[1]}) && false {{'),
    ('call', r'^( *)(?:self|\w+)(?:\.\w+)+\([^{}]*\)\??;$', lambda it: it[1]),
    ('call', r'^( *)\w+(?:::\w+)*\([^{}]*\)\??;$', lambda it: it[1]),
    ('write', r'^( *)(?:self\.)?\w+(?:\.\w+)* (?:\+|-)?= [^{}]*;$', lambda it: it[1]),
    ('refusal', r'^( *)((?:\w+(?:\.|::))*\w+\([^{}]*\))\?;$', lambda it: f'{it[1]}let _ = {it[2]};'),
    ('arguments', r'\((\w+), (\w+)\)', lambda it: f'({it[2]}, {it[1]})'),
    ('value', r'\b(true|false)\b', lambda it: {'true': 'false', 'false': 'true'}[it[1]]),
    ('value', r'\.(min|max)\(', lambda it: '.max(' if it[1] == 'min' else '.min('),
    ('value', r'\bSome\((\w+)\)(?=[,;]?$)', lambda it: 'None'),
    ('value', r'\b(first|last)\(\)', lambda it: 'last()' if it[1] == 'first' else 'first()'),
    ('value', r'\.is_(some|none)\(\)', lambda it: '.is_none()' if it[1] == 'some' else '.is_some()'),
]


def lines_of(text: str, it: Function) -> Iterator[tuple[int, str]]:
    """The lines of a function's body that run, each with its place."""
    code, at, in_ghost = wrong_bodies.blanked(text), it.body, 0
    for line in text[it.body:it.end].splitlines(True):
        bare = code[at:at + len(line)]
        if in_ghost or GHOST.search(bare):
            # (a clause over several lines ends where its brackets do)
            in_ghost = max(0, in_ghost + sum(bare.count(sign) for sign in '([{') - sum(bare.count(sign) for sign in ')]}'))
            if GHOST.search(bare) and bare.rstrip().endswith(('{', ';', ',')):
                in_ghost = 0
        else:
            yield at, bare.rstrip('\n')
        at += len(line)


def mutants_of(crate: str) -> list[tuple[Function, list[Change]]]:
    """Each function of a crate that has mutants, with them."""
    made = []
    for path in sorted((TOP / 'crates' / crate / 'src').rglob('*.rt')):
        file, text = str(path.relative_to(TOP / 'crates' / crate)), path.read_text(encoding='utf-8')
        for it in wrong_bodies.functions_of(file, text, {}):
            own, seen = [], collections.Counter()
            for at, line in lines_of(text, it):
                for kind, pattern, turn in TURNS:
                    for found in re.finditer(pattern, line):
                        old = text[at + found.start():at + found.end()]
                        if old == found[0] and turn(found) != old:
                            new = turn(found)
                            seen[kind, old, new] += 1
                            own.append(Change(crate, file, at + found.start(), old, new, f'{it.path()}:{kind}',
                                              place=f'{it.path()} {seen[kind, old, new]}'))
            if own:
                made.append((it, own))
    return made


def drawn(seed: int, *words: str) -> str:
    """A place in a drawing, which depends on the seed and on these words alone."""
    return hashlib.sha256('\0'.join([str(seed), *words]).encode()).hexdigest()


def in_turn(own: list[Change], seed: int) -> list[Change]:
    """The mutants of a function in the order in which they are drawn: a kind first, so that constants do not crowd out the rest."""
    kinds: dict[str, list[Change]] = {}
    for it in sorted(own, key=lambda it: drawn(seed, it.crate, it.place, it.old, it.new)):
        kinds.setdefault(it.kind, []).append(it)
    some = [kinds[it] for it in sorted(kinds, key=lambda it: drawn(seed, own[0].crate, it))]
    return [it for turn in itertools.zip_longest(*some) for it in turn if it]


def sample(count: int, seed: int, names: list[str]) -> list[Change]:
    """So many mutants, spread over the crates by the lines of their bodies, first one in each function."""
    found, lines = {}, {}
    for name in names:
        found[name] = mutants_of(name)
        texts = {it.file: (TOP / 'crates' / name / it.file).read_text(encoding='utf-8') for it, _ in found[name]}
        lines[name] = sum(texts[it.file].count('\n', it.body, it.end) for it, _ in found[name])
    whole, made = sum(lines.values()) or 1, []
    for name in names:
        functions = sorted(found[name], key=lambda pair: drawn(seed, name, pair[0].path()))
        turns = itertools.zip_longest(*(in_turn(own, seed) for _, own in functions))
        made += [it for turn in turns for it in turn if it][:round(count * lines[name] / whole)]
    return made


def main() -> int:
    words = argparse.ArgumentParser(description=__doc__, formatter_class=argparse.RawDescriptionHelpFormatter)
    wrong_bodies.add_options(words)
    words.add_argument('--count', type=int, default=600)
    words.add_argument('--seed', type=int, default=1)
    it = words.parse_args()
    names = [name for name in wrong_bodies.crates() if not WITHOUT.search(name)]
    unknown = [name for name in it.crates if name not in names]
    if unknown:
        sys.exit(f'mutants: crates.txt has no {unknown[0]} with bodies to change')
    changes, results = sample(it.count, it.seed, names), Results(RESULTS)
    if it.by_crate:
        print(wrong_bodies.table(changes, results.lines, wrong_bodies.explained(wrong_bodies.PAGE.read_text(encoding='utf-8'))))
        return 0
    if it.table:
        # (a change that no body has any more goes)
        known = {one.key() for name in names for _, own in mutants_of(name) for one in own}
        results.write(lambda lines: [lines.pop(key) for key in list(lines) if key not in known])
        wrong_bodies.write_page(MUTANTS, changes, results)
        return 0
    if it.check:
        found = wrong_bodies.faults(MUTANTS, changes, results)
        print(''.join(f'mutants: {one}\n' for one in found), end='', file=sys.stderr)
        return 1 if found else 0
    if it.crates:
        changes = [one for one in changes if one.crate in it.crates]
    if it.list:
        wrong_bodies.listed(changes, results, 'mutants')
        return 0
    wrong_bodies.run(changes, wrong_bodies.options_of(it), results)
    tried = [results.lines[one.key()].word for one in changes if one.key() in results.lines]
    real = [one for one in tried if one != 'unread']
    passed = sum(one == 'passed' for one in real)
    print(f'{len(real) - passed} of {len(real)} refused')
    return 1 if len(tried) < len(changes) or 100 * passed > 5 * len(real) else 0


if __name__ == '__main__':
    sys.exit(main())
