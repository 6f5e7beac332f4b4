#!/usr/bin/env python3
"""Empties each clause that the table of docs/PROMISES.md names, one after the other, and shows that the gate fails each time.

    scripts/proofs/emptied.py --check      in a copy: the page of promises sees each; each clause has an edit of the gate. Seconds
    scripts/proofs/emptied.py [CRATE..]    tries, with the prover, an edit of the gate for each clause over the emptied clause
    scripts/proofs/emptied.py --table      writes the table of docs/SLIPS.md from the results of this script and of above.py

A clause is emptied by `result ≡ result` in its place; the answers that prove it go with it. What stays of the contract is proved
then, so a weakened promise would go through the prover in silence. Two things see it: docs/PROMISES.md has another contract
(promises.py --check), and the edit that this clause refuses is refused by it no longer (slips.py --gate). Results stand in
emptied.txt, a line for each clause: crate, function, clause, sum of the edit, sums of the crate as wrong_bodies.py has them, date,
and what else refuses the edit then, or `through`.
"""
from __future__ import annotations

import argparse
import datetime
import re
import shutil
import sys
import tempfile
from pathlib import Path

sys.dont_write_bytecode = True
sys.path[:0] = [str(Path(__file__).resolve().parent), str(Path(__file__).resolve().parents[1] / 'build')]
import promises  # noqa: E402
import slips  # noqa: E402
import wrong_bodies  # noqa: E402
from promises import Promise  # noqa: E402
from reads import Tree, clauses_of  # noqa: E402
from wrong_bodies import TOP  # noqa: E402

RESULTS = TOP / 'scripts' / 'proofs' / 'emptied.txt'
ABOVE = TOP / 'scripts' / 'proofs' / 'above.txt'
HEADING = 'Emptied clauses'
TRUTH = 'result ≡ result'
# Laws: they run nothing, so no body of theirs is wrong. Here it is said what refuses instead.
LAWS = {('one_verdict', 'one'): 'a law, whose body is empty: the page alone',
        ('Outlet::rest_len', 'few'): 'about the state before the call: no body of it can be wrong'}
# Clauses without an edit of the gate, which is owed: until then the page alone refuses a weaker one.
OWED = (('end_session', 'settled'), ('end_failed_held', 'settled'), ('run_session', 'whole'), ('run_session', 'gives'))


def emptied(text: str, header: str, promise: Promise) -> str:
    """The text of a file of code with a clause emptied of the function that has this header in it."""
    start = text.index(header)
    for name, clause in clauses_of(header):
        if not clause.startswith('requires') and name == (promise.clause or 'ensures'):
            at = text.index(clause, start)
            head = clause[:clause.index('{')]
            made = text[:at] + f'{head}{{ {TRUTH} }}' + text[at + len(clause):]
            return made if re.search(r'ghost use .*◌≡◌', text) else with_equality(made)
    raise promises.Fault(f'{promise.function} has no clause {promise.clause}')


def with_equality(text: str) -> str:
    """The text with an import of the sign for what is equal."""
    at = text.index('ghost use ')
    return text[:at] + 'ghost use Rattle.std.specs.Prelude.{◌≡◌};\n' + text[at:]


def header_of(text: str, promise: Promise) -> str:
    """A function's part of a file, from its name to the end of its contract: in the file of a trait, or where it has a body."""
    owner, _, name = promise.function.rpartition('::')
    there = [it for it in wrong_bodies.functions_of(promise.item.path.split('/', 2)[2], text, {})
             if it.name == name and owner in it.owner]
    if there:
        return text[there[0].start:there[0].body].rstrip()
    whole = '\n'.join(text.split('\n')[promise.item.line - 1:])
    last = promise.item.text.rstrip().split('\n')[-1].strip()
    return whole[:whole.index(last) + len(last)]


def unique(found: list[Promise]) -> list[Promise]:
    """The clauses, each once."""
    return list({(it.function, it.clause): it for it in found}.values())


def seen_by_page(copy: Path, found: list[Promise]) -> list[str]:
    """What the page does not see of the clauses, each emptied in the copy."""
    tree, made = Tree(copy), []
    sums = promises.Sums(tree)
    for it in unique(found):
        path = copy / it.item.path
        text = path.read_text(encoding='utf-8')
        item = next(one for one in tree.source(path).functions if one.name == it.item.name)
        its = [one for one in found if one.item == it.item]
        before = promises.section_of(sums, item, its)
        # (all but the changed file is read once)
        other = Tree(copy)
        other.modules = tree.modules
        other.sources = {file: source for file, source in tree.sources.items() if file != path}
        path.write_text(emptied(text, header_of(text, it), it), encoding='utf-8')
        item = next(one for one in other.source(path).functions if one.name == it.item.name)
        path.write_text(text, encoding='utf-8')
        if before == promises.section_of(promises.Sums(other), item, its):
            made.append(f'docs/PROMISES.md does not change where clause {it.clause or "-"} of {it.function} is emptied')
    return made


def without_edit(found: list[Promise], guards: list[slips.Guard]) -> list[str]:
    """What clauses have no edit of the gate."""
    there = {(it.change.crate, it.function, it.clause) for it in guards}
    return [f'no edit of the gate is to be refused by clause {it.clause or "-"} of {it.function} ({it.item.crate})'
            for it in unique(found) if (it.function, it.clause) not in (*LAWS, *OWED) and not any(
                function == it.function and clause == (it.clause or '-') for _, function, clause in there)]


def check() -> int:
    """The quick form."""
    tree = Tree(TOP)
    found = promises.promises_of(tree)
    with tempfile.TemporaryDirectory() as room:
        for crate in tree.crates:
            for folder in ('src', 'specs'):
                if (TOP / 'crates' / crate / folder).is_dir():
                    shutil.copytree(TOP / 'crates' / crate / folder, Path(room, 'crates', crate, folder))
        faults = seen_by_page(Path(room), found)
    faults += without_edit(found, slips.guards_of(wrong_bodies.crates()))
    page = wrong_bodies.PAGE.read_text(encoding='utf-8')
    if page != page_with(page, unique(found)):
        faults.append(f'docs/SLIPS.md, "{HEADING}", is not what scripts/proofs/emptied.py --table writes: run it')
    print(''.join(f'emptied: {it}\n' for it in faults), end='', file=sys.stderr)
    return 1 if faults else 0


def row_of(it: Promise, own: dict, above: dict) -> str:
    """A clause's row of the table."""
    key = (it.item.crate, it.function, it.clause or '-')
    tried, needed = own.get(key, '').split(' '), above.get(key, '').split(' ')
    law = LAWS.get((it.function, it.clause))
    then = law or ('an edit is owed' if (it.function, it.clause) in OWED else 'not tried' if len(tried) < 8 else
                   'let through' if tried[7] == 'through' else 'refused by ' + ', '.join(f'`{one}`' for one in tried[7].split(',')))
    needs = ('not tried' if len(needed) < 7 else 'none' if needed[6] == '-' else
             ', '.join(f'`{one}`' for one in needed[6].split(',')))
    dates = sorted(one[at][:10] for one, at in ((tried, 6), (needed, 5)) if len(one) > at)
    return f'| `{it.function}` | {f"`{it.clause}`" if it.clause else "its one"} | {then} | {needs} | {dates[-1] if dates else ""} |'


# (what a row has of which nothing was tried)
UNTRIED = ' | not tried | not tried | '


def page_with(page: str, found: list[Promise]) -> str:
    """The page with the table of emptied clauses as it has to be."""
    at = re.compile(rf'(?m)^## {HEADING}\n(?:.*\n)*?(?=Made by `scripts/proofs/emptied.py)').search(page)
    if not at:
        raise promises.Fault(f'docs/SLIPS.md has no "## {HEADING}" with a line "Made by .." after it')
    end = page.find('\n## ', at.end())
    own, above = lines_of(RESULTS), lines_of(ABOVE)
    rows = {it: row_of(it, own, above) for it in found}
    untried: dict[str, list[str]] = {}
    for it, row in rows.items():
        if UNTRIED in row:
            untried.setdefault(it.item.crate, []).append(f'`{it.function}{f".{it.clause}" if it.clause else ""}`')
    lines = ['Made by `scripts/proofs/emptied.py --table`.', '',
             '| Function | Clause | Its edit, over the emptied clause | Proofs above that need the clause | On |',
             '|---|---|---|---|---|', *(row for row in rows.values() if UNTRIED not in row), '',
             'Neither was tried of these:', '', *(f'- {", ".join(its)}' for its in untried.values()), '']
    return page[:at.end()] + '\n'.join(lines) + page[len(page) if end < 0 else end:]


def write_table() -> int:
    """Writes the table of the page."""
    found = unique(promises.promises_of(Tree(TOP)))
    page = wrong_bodies.PAGE.read_text(encoding='utf-8')
    wrong_bodies.PAGE.write_text(page_with(page, found), encoding='utf-8')
    return 0


# ---- with the prover

def answers_without(text: str, clause: str, alone: bool) -> str:
    """A proof file without its answers about a clause."""
    parts = re.split(r'(?m)^(?=(?:pub )?[^\W\d][\w-]* :)', text)
    gone = [it for it in parts[1:] if wrong_bodies.is_by([re.match(r'(?:pub )?([\w-]+)', it)[1]], clause, alone)]
    return ''.join(it for it in parts if it not in gone)


class Emptying(wrong_bodies.Trial):
    """A trial of edits, each over a source in which the clause is emptied that has to refuse it."""

    def put(self, pairs: list[tuple[slips.Guard, Promise]]) -> None:
        """Puts the edits into the lane, and empties their clauses."""
        self.lane.put(self.crate, [guard.change for guard, _ in pairs], self.texts)
        for guard, promise in pairs:
            path = self.lane.folder / promise.item.path
            text = path.read_text(encoding='utf-8')
            path.write_text(emptied(text, header_of(text, promise), promise), encoding='utf-8')
            folder = path.parents[len(Path(promise.item.path).parts) - 3] / 'proofs' / self.path_of(guard)
            for proof in folder.glob('Answers.antt'):
                proof.write_text(answers_without(proof.read_text(encoding='utf-8'), guard.clause, guard.alone), encoding='utf-8')

    def path_of(self, guard: slips.Guard) -> str:
        """The folder of the proof of the function that an edit stands in."""
        return guard.change.function(self.functions).path()

    def round(self, pairs: list[tuple[slips.Guard, Promise]]) -> list[tuple[slips.Guard, Promise, str]]:
        """What becomes of edits of different functions: what else refuses each, if anything does."""
        self.put(pairs)
        status, said = self.check([guard.change for guard, _ in pairs],
                                  [guard.change.function(self.functions).said() for guard, _ in pairs])
        made = wrong_bodies.outcome(status, said)
        came = []
        for guard, promise in pairs:
            path = self.path_of(guard)
            goals = self.goals_of(made, path)
            proved = re.search(rf'(?m)^fn {self.crate}::{re.escape(guard.change.function(self.functions).said())}: proved', said)
            if not proved and not goals:
                print(f'{promise.function}, {promise.clause or "-"}: neither proved nor refused by a goal:\n{said[-3000:]}')
            still = wrong_bodies.is_by(goals, guard.clause, guard.alone)
            came.append((guard, promise, 'STILL ' + ','.join(sorted(goals)) if still else
                         'through' if proved else ','.join(sorted(goals)) or 'UNKNOWN'))
        self.lane.put(self.crate, [], self.texts)
        return came


def lines_of(path: Path) -> dict[tuple[str, str, str], str]:
    """The results, by crate, function and clause."""
    lines = path.read_text(encoding='utf-8').splitlines() if path.is_file() else []
    return {tuple(it.split(' ')[:3]): it for it in lines}


def keep(line: str) -> None:
    """Adds a line to the results, in place of the one about the same clause."""
    lines = lines_of(RESULTS)
    lines[tuple(line.split(' ')[:3])] = line
    RESULTS.write_text(''.join(f'{it}\n' for _, it in sorted(lines.items())), encoding='utf-8')


def tried(names: list[str], work: Path) -> int:
    """The whole form: an edit for each clause over the emptied clause."""
    found = unique(promises.promises_of(Tree(TOP)))
    graph, bad = wrong_bodies.crates(), 0
    lane = wrong_bodies.Lane(work)
    for name in graph:
        own = [it for it in found if it.item.crate == name]
        if not own or names and name not in names:
            continue
        guards, pairs = slips.guards_of([name]), []
        for it in own:
            mine = [one for one in guards if one.function == it.function and one.clause == (it.clause or '-')]
            pairs += [(mine[0], it)] if mine and (it.function, it.clause) not in LAWS else []
        trial = Emptying(lane, name, [guard.change for guard, _ in pairs], lambda _: None, wrong_bodies.Options(work))
        lane.take_work(name)
        sums = wrong_bodies.Sums.of(name, graph)
        while pairs:
            group, taken = [], set()
            for guard, promise in pairs:
                if trial.path_of(guard) not in taken:
                    taken.add(trial.path_of(guard))
                    group.append((guard, promise))
            pairs = [it for it in pairs if it not in group]
            for guard, promise, what in trial.round(group):
                bad += what.startswith(('STILL', 'UNKNOWN'))
                date = datetime.datetime.now(datetime.timezone.utc).strftime('%Y-%m-%dT%H:%M')
                keep(' '.join([name, promise.function, promise.clause or '-', guard.change.key(), sums.own, sums.below, date,
                               what]))
                print(f'{promise.function}, {promise.clause or "its one clause"}: {what}', flush=True)
    return 1 if bad else 0


def main() -> int:
    words = argparse.ArgumentParser(description=__doc__, formatter_class=argparse.RawDescriptionHelpFormatter)
    words.add_argument('crates', nargs='*', metavar='CRATE')
    words.add_argument('--check', action='store_true', help='the quick form: tries nothing with the prover')
    words.add_argument('--table', action='store_true', help='writes the table of docs/SLIPS.md')
    words.add_argument('--work', type=Path, help="where a clone is kept: in git's folder, where it is not said")
    it = words.parse_args()
    try:
        if it.check:
            return check()
        if it.table:
            return write_table()
        return tried(it.crates, (it.work or Path(wrong_bodies.git('rev-parse', '--absolute-git-dir')) / 'r10-emptied').resolve())
    except promises.Fault as fault:
        print(f'emptied: {fault}', file=sys.stderr)
        return 1


if __name__ == '__main__':
    sys.exit(main())
