#!/usr/bin/env python3
"""Which proofs above need a clause that the table of docs/PROMISES.md names: tried by taking the clause out.

    scripts/proofs/above.py [CRATE..]      tries each clause of these crates, or of all
    scripts/proofs/above.py --list         lists what would be tried, and tries nothing

A clause is emptied (emptied.py says how). Then functions of the crates that list its crate are proved again, if they may cite
it: those with a proof that names the call's contract, else all in whose text its name is called. The crate of the clause, and
those between, are given to the prover as sources, so no library is made. A function that has a proof with the clause, and none
without it, needs it. Results stand in scripts/proofs/above.txt, a line for each clause: crate, function, clause, sums of the crate,
date, and the functions above that fail without it, or `-` where none does. A clause with `-` is guarded by its edit alone.
"""
from __future__ import annotations

import argparse
import datetime
import os
import re
import shutil
import subprocess
import sys
from pathlib import Path

sys.dont_write_bytecode = True
sys.path[:0] = [str(Path(__file__).resolve().parent), str(Path(__file__).resolve().parents[1] / 'build')]
import emptied  # noqa: E402
import promises  # noqa: E402
import toolchain  # noqa: E402
import wrong_bodies  # noqa: E402
from reads import Tree, clauses_of, without_comments  # noqa: E402
from wrong_bodies import TOP  # noqa: E402

RESULTS = TOP / 'scripts' / 'proofs' / 'above.txt'
# Of a crate above so many functions are tried.
MOST = 12
# Crates of tests and measures say nothing of a promise.
WITHOUT = ('r10_tests', 'r10_trials', 'r10_bench')


def functions_in(crate: str) -> list[tuple[wrong_bodies.Function, str]]:
    """The functions of a crate, with their texts."""
    folder = TOP / 'crates' / crate
    texts = {str(it.relative_to(folder)): it.read_text(encoding='utf-8') for it in sorted((folder / 'src').rglob('*.rt'))}
    homes = wrong_bodies.homes_of(texts)
    return [(it, text[it.body:it.end]) for file, text in texts.items() for it in wrong_bodies.functions_of(file, text, homes)]


def citing(crate: str, promise: promises.Promise, alone: bool) -> list[str]:
    """The functions of a crate that may need a clause: those with a proof that names it, else those that call such a function."""
    name = promise.function.rpartition('::')[2]
    words = rf'\b{name}\.ensures' + (rf'\.{promise.clause}\b' if promise.clause and not alone else r'\b')
    found, calls = [], []
    for it, body in functions_in(crate):
        proof = TOP / 'crates' / crate / 'proofs' / it.path()
        if any(re.search(words, one.read_text(encoding='utf-8')) for one in proof.glob('*.antt')):
            found.append(it.said())
        elif re.search(rf'(?:[.:]|\b){name}(?:::<[^;()]*>)?\(', wrong_bodies.blanked(body)):
            calls.append(it.said())
    return (found or calls)[:MOST]


def words_of(tool, lane: Path, crate: str, changed: set[str]) -> list[str]:
    """The words of a check of a crate, with these crates as sources."""
    os.chdir(lane)
    it = next(one for one in tool.rtlib.crates_below(str(lane)) if one.name == crate)
    words = ['--crate-name', it.name, 'src/main.rt' if it.is_program else 'src/lib.rt']
    below = it.below()
    kit = dict.fromkeys([*it.of_kit, *(name for one in below if one.name in changed for name in ('core', *one.of_kit))])
    for name in kit:
        words += ['--extern', f'{name}={tool.rtlib.KIT}/rlibs/{name}.rlib']
    words += ['-L', f'dependency={tool.rtlib.KIT}/rlibs']
    near = {one.name for one in it.deps} | {dep.name for one in below if one.name in changed for dep in one.deps}
    for one in below:
        if one.name in changed:
            uses = dict.fromkeys(['core', *one.of_kit, *(dep.name for dep in one.deps)])
            words += ['--lib', f'{one.name}:{",".join(uses)}={one.folder}/src/lib.rt']
        else:
            words += ['--extern', f'{one.name}={one.rlib}'] if one.name in near else []
            words += ['-L', f'dependency={os.path.dirname(one.rlib)}']
    return [*words, '--antt-project', f'{tool.rtlib.KIT}/rattle/logic/antt-project.json', '--logic-built',
            f'{tool.rtlib.KIT}/logic_built', '--jobs', '1']


def proved(tool, lane: Path, crate: str, changed: set[str], functions: list[str]) -> tuple[set[str], str]:
    """Which of these functions have a proof, and what the check said."""
    words = [tool.rtlib.RATTLE, 'check', *words_of(tool, lane, crate, changed), *(w for it in functions for w in ('--only', it))]
    ran = subprocess.run(words, cwd=lane / 'crates' / crate, stdout=subprocess.PIPE, stderr=subprocess.STDOUT, check=False)
    said = ran.stdout.decode(errors='replace')
    return {it for it in functions if re.search(rf'(?m)^fn {crate}::{re.escape(it)}: proved', said)}, said


def main() -> int:
    words = argparse.ArgumentParser(description=__doc__, formatter_class=argparse.RawDescriptionHelpFormatter)
    words.add_argument('crates', nargs='*', metavar='CRATE')
    words.add_argument('--list', action='store_true')
    words.add_argument('--work', type=Path)
    it = words.parse_args()
    graph = wrong_bodies.crates()
    found = emptied.unique(promises.promises_of(Tree(TOP)))
    tool = toolchain.loaded(os.path.realpath(shutil.which('rt') or 'rt'))
    lane = None
    for promise in found:
        own = promise.item.crate
        if it.crates and own not in it.crates:
            continue
        alone = sum(not one[1].startswith('requires') for one in clauses_of(without_comments(promise.item.text))) == 1
        above = {name: citing(name, promise, alone) for name in graph
                 if own in graph[name] and name not in WITHOUT}
        above = {name: some for name, some in above.items() if some}
        print(f'{promise.function}, {promise.clause or "-"}: {above or "no crate above calls it"}', flush=True)
        if it.list:
            continue
        needs = []
        if above:
            work = (it.work or Path(wrong_bodies.git('rev-parse', '--absolute-git-dir')) / 'r10-above').resolve()
            lane = lane or wrong_bodies.Lane(work)
            path = lane.folder / promise.item.path
            text = path.read_text(encoding='utf-8')
            for name, some in above.items():
                changed = {own} | {one for one in wrong_bodies.all_below(name, graph) if own in wrong_bodies.all_below(one, graph)}
                path.write_text(emptied.emptied(text, emptied.header_of(text, promise), promise), encoding='utf-8')
                try:
                    still, said = proved(tool, lane.folder, name, changed, some)
                finally:
                    path.write_text(text, encoding='utf-8')
                fail = sorted(set(some) - still)
                if fail:
                    # (it has a proof with the clause, or says nothing)
                    with_it, other = proved(tool, lane.folder, name, changed, fail)
                    needs += [f'{name}::{one}' for one in fail if one in with_it]
                    if set(fail) - with_it:
                        print(f'{name}: not proved with the clause either: {sorted(set(fail) - with_it)}\n{other[-1500:]}')
        sums = wrong_bodies.Sums.of(own, graph)
        date = datetime.datetime.now(datetime.timezone.utc).strftime('%Y-%m-%dT%H:%M')
        line = ' '.join([own, promise.function, promise.clause or '-', sums.own, sums.below, date, ','.join(needs) or '-'])
        lines = emptied.lines_of(RESULTS)
        lines[tuple(line.split(' ')[:3])] = line
        RESULTS.write_text(''.join(f'{one}\n' for _, one in sorted(lines.items())), encoding='utf-8')
        print(f'    needed by {", ".join(needs) or "none"}', flush=True)
    return 0


if __name__ == '__main__':
    sys.exit(main())
