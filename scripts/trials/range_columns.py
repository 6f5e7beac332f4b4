"""Files of columns in a catalogue: what it says of those that are there, missing or changed. `range_trials.py check` calls it for
each database, where h5py is installed."""
from __future__ import annotations

import hashlib
import json
import os
import pathlib
import tempfile
from typing import List

from ch10 import command
from ch10.range_words import place
from ch10_types import run
from range_calls import Bad, agree, ch10, settled


def made(folder: str, dsn: str, source: str, name: str, form: str = 'hdf5') -> str:
    """A file of columns of a recording."""
    path = os.path.join(folder, name)
    status, _, line = run([form, '--out', path], pathlib.Path(source).read_bytes())
    if status:
        raise Bad('%s ends with %d: %s' % (form, status, line))
    return path


def check_columns(room: str, dsn: str, source: str) -> None:
    """Files of a recording, of which one is removed, one cut, one changed with its size, one with its size and its
    time, and one touched alone."""
    folder, sum_ = tempfile.mkdtemp(dir=room), hashlib.sha256(pathlib.Path(source).read_bytes()).hexdigest()
    names = ('plain.h5', 'gone.h5', 'cut.h5', 'other.h5', 'hidden.h5', 'touched.h5', 'c\udcff\\x.mat')
    paths = [made(folder, dsn, source, name, 'mat' if name.endswith('mat') else 'hdf5') for name in names]
    agree(ch10(['catalogue', 'attach', '--db', dsn, *paths[:4]]), '4 attached\n', 'what attach says')
    ch10(['catalogue', 'attach', '--db', dsn, *paths[3:]])  # one of them once more
    agree(states(dsn, sum_), [None] * 7, 'files that were attached')
    agree(ch10(['catalogue', 'check', '--db', dsn]), '7 of 7 files of columns are as they were attached\n', 'files as they were')
    os.remove(paths[1])
    os.truncate(paths[2], 100)
    for path, is_hidden in ((paths[3], False), (paths[4], True)):
        before = os.stat(path)
        octets = bytearray(pathlib.Path(path).read_bytes())
        octets[-1] ^= 1
        pathlib.Path(path).write_bytes(octets)
        if is_hidden:
            os.utime(path, ns=(before.st_atime_ns, before.st_mtime_ns))
        else:
            os.utime(path, ns=(before.st_atime_ns, before.st_mtime_ns + 1))
    os.utime(paths[5], ns=(0, 0))
    wanted = dict(zip(names, (None, 'missing', 'changed: it has 100 bytes', 'changed: it has other bytes', None, None, None)))
    agree(states(dsn, sum_), [wanted[name] for name in sorted(names, key=place)], 'files that were changed')
    shown = [line for line in ch10(['catalogue', 'show', '--db', dsn, sum_]).splitlines() if line.startswith('columns in ')]
    agree([line.partition(' UTC): ')[2] for line in shown],
          [wanted[name] or 'as it was attached' for name in sorted(names, key=place)], 'what show says of them')
    wanted['hidden.h5'] = 'changed: it has other bytes'  # by its bytes alone
    lines = ch10(['catalogue', 'check', '--db', dsn], 1).splitlines()
    agree(lines, ['%s: %s' % (os.path.join(folder, name), wanted[name]) for name in sorted(names, key=place) if wanted[name]]
          + ['3 of 7 files of columns are as they were attached'], 'what check says of them')
    refused(folder, dsn, source)


def states(dsn: str, sum_: str) -> List[object]:
    """What is wrong with the files of a recording, by their places."""
    rows = map(json.loads, ch10(['catalogue', 'show', '--db', dsn, '--json', sum_]).splitlines())
    return [row['state'] for row in rows if row['row'] == 'columns']


def refused(folder: str, dsn: str, source: str) -> None:
    """No file of columns, one of no recording, one of a recording that is not there, and none at all: a line, and nothing kept."""
    before = settled(ch10(['catalogue', 'check', '--db', dsn], 1))
    other, empty = os.path.join(folder, 'other.ch10'), os.path.join(folder, 'empty.h5')
    data = pathlib.Path(source).read_bytes()
    pathlib.Path(other).write_bytes(data[:-len(data) // 3])
    run(['hdf5', '--keep-going', '--out', os.path.join(folder, 'unknown.h5')], pathlib.Path(other).read_bytes())
    import h5py  # type: ignore
    h5py.File(empty, 'w').close()
    for path, status in ((source, 1), (empty, 1), (os.path.join(folder, 'unknown.h5'), 1), (os.path.join(folder, 'none.h5'), 3)):
        ch10(['catalogue', 'attach', '--db', dsn, os.path.join(folder, 'plain.h5'), path], status)
    agree(settled(ch10(['catalogue', 'check', '--db', dsn], 1)), before, 'the catalogue after what was refused')
    agree(command.answer(['catalogue', 'attach', '--db', dsn], lambda: b'', lambda: None)[0], 2, 'no file')  # type: ignore
