"""Calls of ch10 for the trials of the catalogue: in this process or in one of their own, with what they write."""
from __future__ import annotations

import contextlib
import ctypes
import io
import os
import pathlib
import re
import signal
import subprocess
import sys
from typing import Any, Callable, Dict, Optional, Sequence, Tuple

from ch10 import command
from ch10.standard import Wrong
from ch10.store import open_store
from ch10.store_schema import ENTRIES


TOP = pathlib.Path(__file__).resolve().parents[2]


STAND_IN = r"""#!%s
import sys
sys.path.insert(0, %r)
from judge_image import answer, listed
from judge_recording import verdict
data = b'' if sys.argv[1] == '--version' else sys.stdin.buffer.read()
if sys.argv[1] == '--version':
    print('r10 stand-in')
elif sys.argv[1] == 'check':
    print(verdict(data))
else:
    found, status = answer(listed, data)
    print('\n'.join(found) if status else '')
"""


class Bad(Exception):
    """What does not agree."""


def agree(found: Any, wanted: Any, what: str) -> None:
    if found != wanted:
        raise Bad('%s: %.500r, wanted %.500r' % (what, found, wanted))


def ch10(words: Sequence[str], status: int = 0) -> str:
    """What a call writes, made in this process."""
    to = Stream()
    ended, line = command.answer(list(words), lambda: b'', lambda: to)
    if ended != status:
        raise Bad('ch10 %s ends with %d: %s' % (' '.join(words)[:200], ended, line))
    return to.getvalue().decode()


def answered(words: Sequence[str]) -> Tuple[int, str]:
    """The status and the line that a call ends with."""
    ended, line = command.answer(list(words), lambda: b'', Stream)
    return ended, line or ''


def settled(text: str) -> str:
    """What a call writes, without what is of the moment."""
    return re.sub(r'(added "?|"(?:added|seen)": ")\d{4}-\d\d-\d\d \d\d:\d\d:\d\d', r'\1MOMENT', text)


def line_of(words: Sequence[str], status: int) -> str:
    """The line that a call ends with, which has to end so."""
    ended, line = answered(words)
    if ended != status:
        raise Bad('ch10 %s ends with %d: %s' % (' '.join(words)[:200], ended, line))
    return line


class Stream(io.BytesIO):
    def isatty(self) -> bool:
        return False


def child(words: Sequence[str], prepare: Optional[Callable[[], None]] = None, says: bool = False) -> int:
    """Makes a call in a process of its own, which begins at once, and answers its number. What is wrong may be said on standard
    error."""
    sys.stdout.flush()
    number = os.fork()
    if number == 0:
        try:
            os.setsid()
            ends_with_parent()
            if prepare:
                prepare()
            status, line = command.answer(list(words), lambda: b'', Stream)
            if says and line:
                print(line, file=sys.stderr, flush=True)
            os._exit(status)
        finally:
            os._exit(99)
    return number


def ends_with_parent() -> None:
    """So that no call is left where its trial is killed."""
    with contextlib.suppress(OSError, AttributeError):
        ctypes.CDLL(None).prctl(1, signal.SIGKILL)


HALVES = (
    'SELECT count(*) FROM recording r WHERE packets <> (SELECT coalesce(sum(packets), 0) FROM channel c WHERE c.recording = r.id)',
    'SELECT count(*) FROM recording r WHERE entries <> (SELECT coalesce(sum(entries), 0) FROM channel c WHERE c.recording = r.id)',
    'SELECT count(*) FROM recording r WHERE damaged <> (SELECT count(*) FROM damage d WHERE d.recording = r.id)',
    'SELECT count(*) FROM recording r WHERE NOT EXISTS (SELECT 1 FROM place p WHERE p.recording = r.id)')


def state(dsn: str) -> Dict[str, int]:
    """How many recordings there are, how many halves of them, and how many entries."""
    try:
        store = open_store(dsn, make=False)
    except Wrong:
        return dict(recordings=0, halves=0, entries=0, loaded=0)
    with contextlib.closing(store), store.snapshot():  # what a call that was killed has begun may yet be done, all of it
        def one(text: str) -> int:
            return int(store.rows(text)[0][0])
        agree(one('SELECT count(DISTINCT sha256) FROM recording'), one('SELECT count(*) FROM recording'), 'recordings, each once')
        halves = sum(map(one, HALVES))
        entries = 0
        for kind, (name, _) in ENTRIES.items():
            there = store.rows('SELECT recording, channel, count(*) FROM %s GROUP BY recording, channel ORDER BY recording, channel'
                               % name)
            told = store.rows('SELECT recording, channel, entries FROM loaded WHERE data_type = ? ORDER BY recording, channel',
                              (kind,))
            agree(there, told, 'entries that are there, and those that were noted, of ' + name)
            entries += sum(number for _, _, number in there)
        return dict(recordings=one('SELECT count(*) FROM recording'), halves=halves, entries=entries,
                    loaded=one('SELECT count(DISTINCT recording) FROM loaded'))


def program(folder: str) -> str:
    """The program r10: of R10 in the environment, the build that is kept, or else a stand-in in a folder, which judges by the same
    rules."""
    if os.environ.get('R10'):
        return os.environ['R10']
    kept = subprocess.run([str(TOP / 'scripts' / 'build' / 'quick_build.py'), '--current'], stdout=subprocess.PIPE,
                          stderr=subprocess.DEVNULL)
    if kept.returncode == 0:
        return kept.stdout.decode().strip()
    path = os.path.join(folder, 'r10-stand-in')
    pathlib.Path(path).write_text(STAND_IN % (sys.executable, str(TOP / 'scripts' / 'tools')))
    os.chmod(path, 0o755)
    return path
