#!/usr/bin/env python3
"""Runs the trials of the filters that the gate runs, and measures which lines of Python they run; compares with covered.txt.

    scripts/measure/covered.py                    the trials: a number for the package ch10
    scripts/measure/covered.py --all              with what else the gate calls in Python: a number for scripts/ too
    scripts/measure/covered.py --lines FILE       also the lines of FILE that nothing ran, as ch10/load.py
    scripts/measure/covered.py --keep             also writes the numbers into covered.txt

What the trials print is printed. A number is how many of 100 lines were run. It is rounded down, and may not fall: status 1, as
where a trial fails. Counted is what runs in the process of a trial: not what runs in a further program, and not what the tests of
scripts/tests run in copies of the tree. Without Debian's package python3-coverage the trials run as they do, and a line says that
nothing was measured.
"""
from __future__ import annotations

import argparse
import concurrent.futures
import json
import os
import pathlib
import re
import subprocess
import sys
import tempfile

TOP = pathlib.Path(__file__).resolve().parents[2]
KEPT = pathlib.Path(__file__).with_suffix('.txt')
PYTHON = '/usr/bin/python3'  # which has Debian's packages
TRIALS = [['scripts/trials/%s.py' % it, 'check'] for it in ('ch10_trials', 'range_trials', 'ch10_mend')]
# (a file that nothing runs is counted where its folder is named here)
FOLDERS = ['ch10', 'scripts', *sorted({'scripts/' + it.parent.name for it in TOP.glob('scripts/*/*.py')})]
SETTINGS = '[run]\nparallel = true\ndata_file = {room}/data\nsource =\n    {folders}\n'


def others() -> list[list[str]]:
    """The words of each other script in Python that the gate calls."""
    lines = (TOP / '.ci' / 'run').read_text(encoding='utf-8').splitlines()
    return [line.split() for line in lines if re.match(r'scripts/\S+\.py( |$)', line) and line.split() not in TRIALS]


def run(words: list[str], before: list[str]) -> bool:
    """Runs a script with these words before it, and prints what it prints. Whether it ended well."""
    done = subprocess.run([*before, *words], cwd=TOP, stdin=subprocess.DEVNULL, stdout=subprocess.PIPE, stderr=subprocess.STDOUT)
    sys.stdout.buffer.write(done.stdout)
    sys.stdout.flush()
    if done.returncode:
        print('covered: %s ended with status %d' % (' '.join(words), done.returncode), flush=True)
    return not done.returncode


def measured(room: str) -> dict[str, dict]:
    """What was run: of each file its numbers, and the lines that were not."""
    for words in (['combine', '-q'], ['json', '-q', '-o', room + '/json']):
        subprocess.run([PYTHON, '-m', 'coverage', words[0], '--rcfile=' + room + '/settings', *words[1:]], cwd=TOP, check=True)
    files = json.loads(pathlib.Path(room, 'json').read_text(encoding='utf-8'))['files']
    return {os.path.relpath(TOP / name, TOP): it for name, it in files.items()}


def percent(files: dict[str, dict], part: str) -> int:
    """How many of 100 lines were run of a folder's files."""
    found = [it['summary'] for name, it in files.items() if name.startswith(part + '/')]
    return int(100 * sum(it['covered_lines'] for it in found) / max(1, sum(it['num_statements'] for it in found)))


def main() -> int:
    """Runs, measures and compares."""
    parser = argparse.ArgumentParser(description=__doc__, formatter_class=argparse.RawDescriptionHelpFormatter)
    parser.add_argument('--all', action='store_true')
    parser.add_argument('--lines', metavar='FILE')
    parser.add_argument('--keep', action='store_true')
    given = parser.parse_args()
    called = [*TRIALS, *(others() if given.all else ())]
    is_there = not subprocess.run([PYTHON, '-c', 'import coverage, numpy'], stderr=subprocess.DEVNULL).returncode
    with tempfile.TemporaryDirectory() as room:
        pathlib.Path(room, 'settings').write_text(
            SETTINGS.format(room=room, folders='\n    '.join(str(TOP / it) for it in FOLDERS)), encoding='utf-8')
        before = [PYTHON, '-m', 'coverage', 'run', '--rcfile=' + room + '/settings'] if is_there else []
        with concurrent.futures.ThreadPoolExecutor(os.cpu_count()) as pool:
            is_good = all(list(pool.map(lambda words: run(words, before), called)))
        if not is_there:
            print('covered: NOT TRIED: %s has no coverage and numpy (python3-coverage and python3-numpy of Debian)' % PYTHON)
            return 0 if is_good else 1
        files = measured(room)
    if given.lines:
        print('%s: not run: %s' % (given.lines, files[given.lines]['missing_lines'] if given.lines in files else 'the whole file'))
    kept = {name: int(number) for name, number in (it.split() for it in KEPT.read_text(encoding='utf-8').splitlines())}
    for part in ('ch10', 'scripts') if given.all else ('ch10',):
        found = percent(files, part)
        has_fallen = found < kept.setdefault(part, 0)
        print('covered: %s: %d of 100 lines of Python are run, %s %d' % (part, found, 'FALLEN from' if has_fallen else 'at least',
                                                                       kept[part]))
        is_good = is_good and (given.keep or not has_fallen)
        kept[part] = found if given.keep else kept[part]
    if given.keep and is_good:
        KEPT.write_text(''.join('%s %d\n' % it for it in kept.items()), encoding='utf-8')
    return 0 if is_good else 1


if __name__ == '__main__':
    sys.exit(main())
