#!/usr/bin/env python3
"""Runs the lines of docs/RANGE.md that begin with `$`, as they stand, one after the other in one folder, and compares what stands
below them.

    scripts/trials/range_documents.py              # each line that does not end as it has to is printed; status 1 if there is one
    scripts/trials/range_documents.py --show       # prints each line with what it writes

A line below which nothing stands only has to end well. The folder has the repository's scripts, and `r10` on the PATH: the program,
or a stand-in where no build is kept. A server of PostgreSQL and a remote of rclone are made for it. A line whose program is not
there is NOT TRIED.
"""
from __future__ import annotations

import contextlib
import os
import pathlib
import shutil
import subprocess
import sys
import tempfile
from typing import Dict, Iterator, List, Tuple

sys.dont_write_bytecode = True
TOP = pathlib.Path(__file__).resolve().parents[2]
sys.path[1:1] = map(str, [TOP, *(TOP / 'scripts').iterdir()])  # modules of the other folders

from postgres_server import NotThere, running_server  # noqa: E402
from range_calls import program  # noqa: E402
from range_limits import ends_on_term  # noqa: E402

PAGE = TOP / 'docs' / 'RANGE.md'
MOST = 300  # seconds for a line
SERVER = ('createdb', 'psql', '--db dbname')  # lines that need a server
SYSTEM = '/usr/bin/python3'


def calls(page: str) -> Iterator[Tuple[str, str]]:
    """Each line that begins with `$`, and what stands below it; all are set off by four spaces or more, those of a call by as many
    as it has."""
    call, space, below = '', 0, []  # type: ignore
    for line in page.splitlines() + ['']:
        depth = len(line) - len(line.lstrip(' '))
        is_call = depth >= 4 and line.lstrip(' ').startswith('$ ')
        if call and (is_call or not line or depth < space):
            yield call, '\n'.join(below)
            call = ''
        if is_call:
            call, space, below = line.strip()[2:], depth, []
        elif call:
            below.append(line[space:])


def missing(call: str, has_server: bool) -> str:
    """Why a line cannot be tried here; else ''."""
    words = call.split(' ')
    if any(word in call for word in SERVER) and not has_server:
        return 'no server of PostgreSQL'
    # (what psql asks for was loaded by a line that needs the driver)
    if words[0] in (SYSTEM, 'psql') and subprocess.run([SYSTEM, '-c', 'import psycopg2'], stderr=subprocess.DEVNULL).returncode:
        return 'no driver of PostgreSQL'
    return '' if shutil.which(words[0]) or os.path.exists(TOP / words[0]) else 'no %s here' % words[0]


def run(call: str, folder: str, more: Dict[str, str]) -> Tuple[int, str, str]:
    environment = {name: value for name, value in os.environ.items() if not name.startswith(('PG', 'CH10', 'RCLONE'))}
    done = subprocess.run(['bash', '-c', 'set -o pipefail; ' + call], cwd=folder, env=dict(environment, **more),
                          stdin=subprocess.DEVNULL,
                          stdout=subprocess.PIPE, stderr=subprocess.PIPE, timeout=MOST)
    return done.returncode, done.stdout.decode(errors='replace'), done.stderr.decode(errors='replace')


def main(words: List[str]) -> int:
    if words not in ([], ['--show']):
        print(__doc__)
        return 2
    ends_on_term()
    bad = tried = 0
    with contextlib.ExitStack() as held:
        folder = held.enter_context(tempfile.TemporaryDirectory(prefix='ch10-page-'))
        for name in ('scripts', 'ch10', 'examples'):
            os.symlink(TOP / name, os.path.join(folder, name))
        os.mkdir(os.path.join(folder, 'bin'))
        os.symlink(program(folder), os.path.join(folder, 'bin', 'r10'))
        more = {'PATH': os.path.join(folder, 'bin') + ':' + os.environ['PATH'],
                'RCLONE_CONFIG': os.path.join(folder, 'rclone.conf'),
                'RCLONE_CONFIG_RANGE_TYPE': 'alias', 'RCLONE_CONFIG_RANGE_REMOTE': os.path.join(folder, 'store')}
        try:
            server = held.enter_context(running_server(['fsync=off']))
            more.update(PGHOST=server.folder, PGUSER='postgres')
        except NotThere as why:
            print('NOT TRIED: PostgreSQL: %s' % why)
        for call, wanted in calls(PAGE.read_text(encoding='utf-8')):
            why = missing(call, 'PGHOST' in more)
            if why:
                print('NOT TRIED: %s (%s)' % (call, why))
                continue
            status, said, errors = run(call, folder, more)
            tried += 1
            if words:
                print('$ %s\n%s%s' % (call, said, errors))
            if status or wanted and said.rstrip('\n') != wanted:
                bad += 1
                print('%s: ends with %d\n%s%sand not\n%s' % (call, status, said, errors, wanted))
    print('range_documents: %d lines of docs/RANGE.md; %d of them do not as it says' % (tried, bad))
    return 1 if bad else 0


if __name__ == '__main__':
    sys.exit(main(sys.argv[1:]))
