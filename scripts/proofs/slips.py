#!/usr/bin/env python3
"""Tries wrong bodies that somebody wrote, each by itself, so that no clause that refuses one can be lost unseen.

    scripts/proofs/slips.py [CRATE..]   tries those slips that have no verdict yet, or a stale one, cheap crates first
    scripts/proofs/slips.py --gate      tries the edits of the gate, and wants each refused by the clause that it names; then
                                        stale slips, as long as 20 minutes of a processor go
    scripts/proofs/slips.py --edits     prints the edits of the gate, with what each does wrong
    scripts/proofs/slips.py --list      lists the slips with their sums and what is known of each
    scripts/proofs/slips.py --crates    prints a row for each crate
    scripts/proofs/slips.py --table     writes the tables of docs/SLIPS.md from the edits and the results
    scripts/proofs/slips.py --check     fails where they do not agree, where the page says nothing of a slip that is let through,
                                        or where more slips are stale than slips_stale.txt allows

An edit is a file with a line `file: ..`, then pairs of lines `old: ..` and `new: ..`. Each pair is a wrong body. A line `in: NAME`
before a pair has it looked for in the function of that name alone. Edits of the gate stand in crates/*/must-fail, which `rt ci`
tries too, each as a whole, and in crates/*/guards. Before each pair of theirs a line `says: ..` says what is wrong, and
`refused: FUNCTION CLAUSE` which clause has to refuse it (`-` for the only one of a function). Slips stand in crates/*/slips.
Libraries have to be built (`rt lib`, `rt ci`, or scripts/build.sh), and what is changed below crates/ committed.

Prints a line for each: refused, with the goal that refuses it; refused by names (a proof names what the slip took away, which shows
nothing of a contract); refused by a limit; LET THROUGH; or that it does not compile. What was tried of slips stands in
slips.txt (wrong_bodies.py says how), so a run goes on where one was stopped. A line is stale where the crate or what is stated
below it is another now. The gate keeps what it found of its edits beside its clones, in git's folder. Status 1 where a slip is let
through or does not compile, or an edit of the gate is not refused by its clause.
"""
from __future__ import annotations

import argparse
import collections
import re
import sys
from dataclasses import dataclass
from pathlib import Path
from typing import Iterable

sys.dont_write_bytecode = True
sys.path.insert(0, str(Path(__file__).resolve().parent))
import wrong_bodies  # noqa: E402
from wrong_bodies import BAD, PASSED, SLIPS, TOP, Change, Results, functions_of  # noqa: E402

RESULTS = TOP / 'scripts' / 'proofs' / 'slips.txt'
# The most slips that may be stale: a number of the tree, which --table lowers and nobody raises.
STALE = TOP / 'scripts' / 'proofs' / 'slips_stale.txt'
# What the gate spends on stale slips, in minutes of a processor.
MINUTES = 20
EDITS = wrong_bodies.Section('Edits of the gate', 'scripts/proofs/slips.py', ())


@dataclass(frozen=True)
class Pair:
    """A pair of an edit: file, the function in which alone it is looked for, what stands there, what is put there. An edit of the
    gate also says what is wrong, and which clause of which function has to refuse it."""
    file: str
    inside: str
    old: str
    new: str
    says: str = ''
    by: str = ''


def pairs_of(path: Path) -> list[Pair]:
    """The pairs of an edit."""
    known, made = {}, []
    for line in path.read_text(encoding='utf-8').split('\n'):
        word, _, rest = line.partition(': ')
        if word in ('file', 'says', 'refused'):
            known[word] = rest.strip()
            known['in'] = ''
        elif word == 'in':
            known[word] = rest.strip()
        elif word == 'old':
            known[word] = rest
        elif line.startswith('new:'):
            made.append(Pair(known.get('file', ''), known.get('in', ''), known.get('old', ''), line[len('new: '):],
                             known.get('says', ''), known.get('refused', '')))
    return made


def edits_of(crate: str, folders: tuple[str, ...]) -> list[Path]:
    """The edits of a crate in these folders."""
    return [it for folder in folders for it in sorted((TOP / 'crates' / crate / folder).glob('*.edit'))]


def place_in(text: str, pair: Pair) -> tuple[int, str]:
    """Where the pair's text stands, and the function's name where it stands elsewhere too; -1 where it does not stand once."""
    if text.count(pair.old) == 1 and not pair.inside:
        return text.index(pair.old), ''
    bodies = [(it.body, it.end) for it in functions_of(pair.file, text, {}) if it.name == pair.inside]
    if len(bodies) != 1 or text.count(pair.old, *bodies[0]) != 1:
        return -1, ''
    return text.index(pair.old, *bodies[0]), '' if text.count(pair.old) == 1 else pair.inside


def slips_of(crate: str, folders: tuple[str, ...] = ('slips',)) -> list[Change]:
    """Each slip of a crate's edits, once: without those that the gate tries, if nothing else is said."""
    made, seen = [], set()
    for edit in edits_of(crate, folders):
        texts, earlier = {}, []
        for pair in pairs_of(edit):
            path = TOP / 'crates' / crate / pair.file
            if not path.is_file():
                sys.exit(f'slips: {edit.relative_to(TOP)}: there is no {pair.file}')
            text = texts.setdefault(pair.file, path.read_text(encoding='utf-8'))
            if (pair.file, pair.inside, pair.old, pair.new) not in seen:
                seen.add((pair.file, pair.inside, pair.old, pair.new))
                at, place = place_in(text, pair)
                if at >= 0:
                    made.append(Change(crate, pair.file, at, pair.old, pair.new, edit.stem, (), place, pair.says, pair.by))
                else:
                    # (it slips what an earlier pair made: both together)
                    before = [it for it in earlier if it.file == pair.file and text.replace(it.old, it.new).count(pair.old) == 1]
                    if not before or text.count(before[-1].old) != 1:
                        sys.exit(f'slips: {edit.relative_to(TOP)}: this does not stand once in {pair.file}: {pair.old}')
                    first = before[-1]
                    made.append(Change(crate, pair.file, text.index(first.old), first.old, first.new, edit.stem,
                                       ((pair.file, pair.old, pair.new),), '', pair.says, pair.by))
            earlier.append(pair)
    return made


def texts_of(crate: str) -> dict[str, str]:
    """The sources of a crate, by their files."""
    folder = TOP / 'crates' / crate
    return {str(it.relative_to(folder)): it.read_text(encoding='utf-8') for it in sorted((folder / 'src').rglob('*.rt'))}


@dataclass(frozen=True)
class Guard:
    """An edit of the gate: where it stands, and the clause that has to refuse it."""
    change: Change
    function: str
    clause: str
    alone: bool

    def says(self) -> str:
        return f'{self.change.crate} {self.function}, {f"clause {self.clause}" if self.clause != "-" else "its one clause"}: ' + (
            self.change.says or f'{self.change.old.strip()} -> {self.change.new.strip()}')


def guard_of(change: Change, texts: dict[str, str], homes: dict[str, str]) -> Guard:
    """An edit of the gate, as it says; the script ends where it does not say right."""
    function, _, clause = change.by.partition(' ')
    owner, _, name = function.rpartition('::')
    there = change.function(functions_of(change.file, texts.get(change.file, ''), homes)) if change.file in texts else None
    who = f'slips: {change.crate} {change.kind}: {change.says or change.old.strip()}'
    if not there:
        sys.exit(f'{who}: it stands in no body')
    if not function or there.name != name or owner not in there.owner:
        sys.exit(f'{who}: it stands in {there.said()}, and says "refused: {change.by}"')
    header = wrong_bodies.blanked(texts[change.file])[there.start:there.body]
    named = re.findall(r'\bensures\*?\s*(\w*)\s*\{', header)
    # (a function of a trait has its clauses there)
    if named and clause not in named and (clause != '-' or named != ['']):
        sys.exit(f'{who}: {function} has no clause {clause}: it has {", ".join(named)}')
    return Guard(change, function, clause, len(named) == 1)


def guards_of(names: Iterable[str]) -> list[Guard]:
    """The edits of the gate, of these crates."""
    made = []
    for name in names:
        texts = texts_of(name)
        homes = wrong_bodies.homes_of(texts)
        made += [guard_of(it, texts, homes) for it in slips_of(name, ('must-fail', 'guards'))]
    return made


def edits_table(guards: list[Guard]) -> str:
    """The edits of the gate as the page has them: by crate, function and clause, with how many they are."""
    counts: dict[str, collections.Counter] = {}
    for it in guards:
        clause = f'`{it.function}{f".{it.clause}" if it.clause != "-" else ""}`'
        counts.setdefault(it.change.crate, collections.Counter())[clause] += 1
    rows = ['- `%s`: %s' % (crate, ', '.join(clause + (f' {count}' if count > 1 else '') for clause, count in own.items()))
            for crate, own in counts.items()]
    return '\n'.join([f'{len(guards)} wrong bodies. Made by `scripts/proofs/slips.py --table` from the edits.', '', *rows, ''])


def most_stale() -> int:
    """How many slips may be stale."""
    return int(STALE.read_text(encoding='utf-8').split()[0]) if STALE.is_file() else 0


def page_with_edits(page: str, guards: list[Guard]) -> str:
    """The page with the table of the gate's edits as it has to be."""
    start = page.find(f'\n## {EDITS.heading}\n')
    at = re.compile(r'^\d+ wrong bodies\. Made by ', re.M).search(page, max(start, 0))
    if start < 0 or not at:
        sys.exit(f'docs/SLIPS.md has no "## {EDITS.heading}" with a line ".. wrong bodies. Made by .." after it')
    end = page.find('\n## ', at.start())
    return page[:at.start()] + edits_table(guards) + page[len(page) if end < 0 else end:]


def gate(names: list[str], how: wrong_bodies.Options) -> int:
    """Tries the edits of the gate. Status 1 where one is not refused by the clause that it names. What was refused so is kept in
    the folder of clones, for as long as its crate and what is stated below it stay."""
    def noted(guard: Guard) -> str:
        return ' '.join([guard.function, guard.clause])

    guards = {it.change.key(): it for it in guards_of(names)}
    kit = wrong_bodies.kit()
    how.work.mkdir(parents=True, exist_ok=True)
    results = Results(how.work / f'gate-{kit}.txt')
    results.write(lambda lines: [lines.pop(key) for key, line in list(lines.items())
                                 if key in guards and line.note != noted(guards[key])])

    def is_right(verdict: wrong_bodies.Verdict) -> bool:
        guard = guards[verdict.change.key()]
        return verdict.came == wrong_bodies.REFUSED and wrong_bodies.is_by(verdict.goals, guard.clause, guard.alone)

    def line(verdict: wrong_bodies.Verdict) -> str:
        guard, goals = guards[verdict.change.key()], ', '.join(sorted(verdict.goals)) or verdict.goal
        if is_right(verdict):
            return f'refused: {guard.says()} ({goals})'
        return f'NOT REFUSED by its clause: {guard.says()}: {verdict.came}{f" by {goals}" if goals else ""}'

    how.keeps, how.notes, how.says = is_right, lambda it: noted(guards[it.change.key()]), line
    verdicts = wrong_bodies.run([it.change for it in guards.values()], how, results)
    known = results.read()
    graph = wrong_bodies.crates()
    sums = {name: wrong_bodies.Sums.of(name, graph) for name in {it.change.crate for it in guards.values()}}
    bad = [it for key, it in guards.items() if key not in known or not known[key].is_now(sums[it.change.crate])]
    tried = {it.change.key() for it in verdicts}
    print(''.join(f'slips: NOT TRIED: {it.says()}\n' for it in bad if it.change.key() not in tried), end='')
    print(f'slips: {len(guards) - len(bad)} edits of the gate are refused by the clause that each names, {len(bad)} are not; '
          f'{sum(it.seconds for it in verdicts):.0f} seconds of a processor', flush=True)
    passed = gate_stale(names, how, results) if not bad else 0
    return 1 if bad or passed else 0


def gate_stale(names: list[str], how: wrong_bodies.Options, kept: Results) -> int:
    """Tries slips whose crate is another now than when they were tried, as long as the gate's minutes of a processor go. Returns
    how many are let through or do not compile. What was tried is kept with the edits of the gate, and changes no page."""
    changes = [it for name in names for it in slips_of(name)]
    old = set(wrong_bodies.stale(changes, Results(RESULTS).lines))
    changes = [it for it in changes if it.key() in old]
    if not changes:
        return 0
    # (one check after the other, none over 300 seconds: so the minutes are kept)
    how = wrong_bodies.Options(how.work, 1, 300, yields=how.yields, behind_ci=how.behind_ci, most=60 * MINUTES,
                               keeps=lambda it: it.came == wrong_bodies.REFUSED)
    verdicts = wrong_bodies.run(changes, how, kept)
    known, graph = kept.read(), wrong_bodies.crates()
    sums = {name: wrong_bodies.Sums.of(name, graph) for name in {it.crate for it in changes}}
    left = [it for it in changes if it.key() not in known or not known[it.key()].is_now(sums[it.crate])]
    tried = {it.change.key(): it.came for it in verdicts}
    others = ', '.join(f'{it.key()} {tried[it.key()]}' for it in left if it.key() in tried)
    print(f'slips: of {len(changes)} stale slips {len(changes) - len(left)} are refused by a goal over these sources'
          f'{f"; {others}" if others else ""}; not tried in {MINUTES} minutes of a processor: '
          f'{" ".join(it.key() for it in left if it.key() not in tried) or "none"}')
    why = wrong_bodies.explained(wrong_bodies.PAGE.read_text(encoding='utf-8'))
    return sum(it.came == BAD or it.came == PASSED and it.change.key() not in why for it in verdicts)


def main() -> int:
    words = argparse.ArgumentParser(description=__doc__, formatter_class=argparse.RawDescriptionHelpFormatter)
    wrong_bodies.add_options(words)
    words.add_argument('--gate', action='store_true', help='tries the edits of the gate, and wants each refused by its clause')
    words.add_argument('--edits', action='store_true', help='prints the edits of the gate, with what each does wrong')
    words.add_argument('--behind-ci', action='store_true', help='the libraries are those that rt ci has just left here')
    it = words.parse_args()
    names = list(wrong_bodies.crates())
    unknown = [name for name in it.crates if name not in names]
    if unknown:
        sys.exit(f'slips: crates.txt has no {unknown[0]}')
    if it.gate:
        how = wrong_bodies.options_of(it)
        how.behind_ci = it.behind_ci
        return gate(it.crates or names, how)
    if it.edits:
        print('\n'.join(one.says() for one in guards_of(it.crates or names)))
        return 0
    changes = [change for name in it.crates or names for change in slips_of(name)]
    results = Results(RESULTS)
    if it.by_crate:
        print(wrong_bodies.table(changes, results.lines, wrong_bodies.explained(wrong_bodies.PAGE.read_text(encoding='utf-8'))))
        return 0
    if it.list:
        wrong_bodies.listed(changes, results, 'slips')
        return 0
    if it.table or it.check:
        changes = [change for name in names for change in slips_of(name)]
        known = {change.key() for change in changes}
        gone = [key for key in results.lines if key not in known]
        if it.table:
            results.write(lambda lines: [lines.pop(key, None) for key in gone])
            wrong_bodies.write_page(SLIPS, changes, results)
            page = wrong_bodies.PAGE.read_text(encoding='utf-8')
            wrong_bodies.PAGE.write_text(page_with_edits(page, guards_of(names)), encoding='utf-8')
            STALE.write_text(f'{min(most_stale(), len(wrong_bodies.stale(changes, results.lines)))}\n', encoding='utf-8')
            return 0
        found = wrong_bodies.faults(SLIPS, changes, results)
        old = wrong_bodies.stale(changes, results.lines)
        if len(old) > most_stale():
            whose = ', '.join(sorted({it.crate for it in changes if it.key() in old}))
            found.append(f'{len(old)} slips of {whose} were tried over other sources, or never; '
                         f'{STALE.relative_to(TOP)} allows {most_stale()}: scripts/proofs/slips.py CRATE.., then --table')
        page = wrong_bodies.PAGE.read_text(encoding='utf-8')
        if page != page_with_edits(page, guards_of(names)):
            found.append(f'docs/SLIPS.md, "{EDITS.heading}", is not what scripts/proofs/slips.py --table writes: run it')
        if gone:
            found.append(f'{len(gone)} lines of scripts/proofs/slips.txt are of no slip: run scripts/proofs/slips.py --table')
        print(''.join(f'slips: {one}\n' for one in found), end='', file=sys.stderr)
        return 1 if found else 0
    verdicts = wrong_bodies.run(changes, wrong_bodies.options_of(it), results)
    return 1 if any(one.came in (PASSED, BAD) for one in verdicts) else 0


if __name__ == '__main__':
    sys.exit(main())
