#!/usr/bin/env python3
"""Trials of the catalogue, the load of entries and the report, in SQLite and in PostgreSQL.

    scripts/trials/range_trials.py check [--times]                               # in seconds, for the gate: a small range, both
                                                                                 # databases, some kills, one page
    scripts/trials/range_trials.py all [SEED]                                    # in minutes: more interrupts and mutants, files
                                                                                 # that change in each way, 10,000 files
    scripts/trials/range_trials.py kills COUNT [SEED]                            # so many kills amid add and load in each database,
                                                                                 # and of the server
    scripts/trials/range_trials.py figures FOLDER [--program PATH] [--jobs N]    # what adding, finding and loading the recordings
                                                                                 # of FOLDER
    takes

Recordings are those of scripts/trials/range_recordings.py. The server is one of its own (scripts/trials/postgres_server.py); where
there is none, or no driver, or no browser, a line says what was NOT TRIED. Where no program r10 is there, verdicts are those of
scripts/tools/judge_recording.py, which says them by the same rules. Each trial is bounded (scripts/trials/range_limits.py): one
that loops or waits too long is ended, and what it was at is printed.
"""
from __future__ import annotations

import argparse
import contextlib
import csv
import datetime
import importlib.util
import io
import itertools
import json
import os
import pathlib
import random
import re
import resource
import signal
import subprocess
import sys
import tempfile
import time
from typing import Any, Callable, Dict, Iterator, List, Optional, Sequence, Tuple

sys.dont_write_bytecode = True
TOP = pathlib.Path(__file__).resolve().parents[2]
sys.path[1:1] = map(str, [TOP, *(TOP / 'scripts').iterdir()])  # modules of the other folders

from ch10.python import with_numpy  # noqa: E402

with_numpy()
import ch10_tables  # noqa: E402
import play_cases  # noqa: E402
import range_hostile  # noqa: E402
import range_queue  # noqa: E402
from ch10 import catalogue, command, find, load  # noqa: E402
from ch10.entry_rows import TABLES  # noqa: E402
from ch10.facts import StrictSurvey  # noqa: E402
from ch10.standard import Wrong  # noqa: E402
from ch10.store import StoreError, open_store  # noqa: E402
from ch10.store_schema import ENTRIES  # noqa: E402
from ch10.survey import Row, Survey  # noqa: E402
from made_kinds import BY_NAME, FEW, text_body  # noqa: E402
from postgres_server import NotThere, running_server, server  # noqa: E402
from range_calls import Bad, Stream, agree, ch10, child, program, settled, state  # noqa: E402
from range_columns import check_columns  # noqa: E402
from range_limits import Hung, bounded, ends_on_term  # noqa: E402
from range_page import check_report  # noqa: E402
from range_recordings import packet, recording, time_body  # noqa: E402

def to_other_python() -> None:
    """Goes on in the system's Python, where that one sees a driver of PostgreSQL and this one does not."""
    system = '/usr/bin/python3'
    if not has_driver() and os.path.exists(system) and os.path.realpath(system) != os.path.realpath(sys.executable):
        if subprocess.run([system, '-c', 'import psycopg2'], stderr=subprocess.DEVNULL).returncode == 0:
            os.execv(system, [system] + sys.argv)


def has_driver() -> bool:
    return any(importlib.util.find_spec(name) for name in ('psycopg2', 'psycopg'))


# ---- a small range

def small_range(folder: str, count: int, size: int = 30000) -> List[str]:
    """Some recordings, an image with two files, an image without a directory, and an empty file. Number 7 is damaged."""
    os.makedirs(folder)
    for number in range(count):
        pathlib.Path(folder, 'r%03d.ch10' % number).write_bytes(recording(5, number, size, FEW))
    image = play_cases.PAIR
    pathlib.Path(folder, 'pair.img').write_bytes(image)
    pathlib.Path(folder, 'broken.img').write_bytes(image[:522] + b'\xff\xff' + image[524:])
    pathlib.Path(folder, 'empty.ch10').write_bytes(b'')
    pathlib.Path(folder, 'notes.txt').write_text('no recording')
    return sorted(os.listdir(folder))


QUESTIONS = (
    [], ['--verdict', 'faulty'], ['--verdict', 'lenient', '--type', '1553'], ['--damaged'], ['--losses', '1'],
    ['--losses', '1', '--type', 'arinc'],
    ['--name', 'nav*'], ['--name', '*1553*', '--from', '2025-01-01'], ['--from', '2024-06-01', '--to', '2025-03-01 12:00'],
    ['--to', '2024-08-11'],
    ['--channel', '1', '--verdict', 'strict'],
    ['--type', 'uart', '--type', 'video-40', '--from', '2025-01-01', '--to', '2025-12-31'], ['--volume', 'VOL'],
    ['--place', '*r00[0]?*'], ['--place', '*R001.CH10'], ['--attribute', 'G\\TA=TAIL 03'], ['--jumps', '1'], ['--limit', '3'],
    ['--from', '060'])


def answers(dsn: str) -> List[str]:
    """What a catalogue answers to the questions, without what is of the moment."""
    made = []
    for question in QUESTIONS:
        has_channel = any(word in question for word in ('--name', '--type', '--channel', '--losses', '--jumps'))
        for more in ([], ['--json'], ['--channels'], ['--channels', '--json'])[:4 if has_channel else 2]:
            made.append(settled(ch10(['catalogue', 'find', '--db', dsn] + question + more)))
    for line in ch10(['catalogue', 'find', '--db', dsn, '--json']).splitlines()[::3]:
        sum_ = json.loads(line)['sha256']
        made += [settled(ch10(['catalogue', 'show', '--db', dsn, sum_])),
                 settled(ch10(['catalogue', 'show', '--db', dsn, '--json', sum_[:20]]))]
    return made


def check_facts(folder: str, dsn: str, made: str) -> None:
    """What the catalogue says of each recording, against the verdict by itself and the summary of the filters."""
    said = {place['path']: facts
            for facts in map(json.loads, ch10(['catalogue', 'find', '--db', dsn, '--json', '--channels']).splitlines())
            for place in facts['places'] if place['file_number'] < 0}
    agree(sorted(map(os.path.basename, said)), sorted(name for name in os.listdir(folder) if name not in ('pair.img', 'notes.txt')),
          'recordings')
    agree(any(facts['verdict'] == 'strict' and facts['losses'] for facts in said.values()), True, 'a strict recording with losses')
    for path, facts in sorted(said.items()):
        data = pathlib.Path(path).read_bytes()
        if facts['kind'] == 'image':
            agree((facts['verdict'], facts['fault'], facts['fault_offset']), ('faulty', 'BadDirectory', 512),
                  'an image without a directory')
            continue
        done = subprocess.run([made, 'check'], input=data, stdout=subprocess.PIPE)
        agree(find.verdict_text(dict(facts, damaged=0)), done.stdout.decode().strip(), 'the verdict on ' + path)
        survey = Survey(data, 0, len(data))
        agree([(one.offset, one.length) for one in survey.damage], damage_of(dsn, facts['sha256']), 'damaged stretches of ' + path)
        rows = [(row.channel, row.packets, row.entries if row.has_entries() else None, row.bytes, *row.counts(),
                 row.losses, row.lost, row.untold,
                 row.jumps, row.opaque, row.bad, survey.names.channel(row.channel) or None) for row in survey.rows]
        keys = ('channel', 'packets', 'entries', 'bytes', 'first_count', 'last_count', 'losses', 'lost', 'untold', 'jumps',
                'opaque', 'bad', 'name')
        agree([tuple(row[key] for key in keys) for row in facts['channels']], rows, 'channels of ' + path)
        if survey.rows:
            agree(facts['channels'][0]['first_time'], survey.clock and survey.clock.text(survey.rows[0].first()),
                  'first time of ' + path)
        if facts['verdict'] == 'strict':
            short = StrictSurvey(data, 0, len(data))
            agree([[getattr(row, name) for name in Row.__slots__] for row in short.rows],
                  [[getattr(row, name) for name in Row.__slots__] for row in survey.rows],
                  'the pass over strict ' + path)


def damage_of(dsn: str, sum_: str) -> List[Tuple[int, int]]:
    lines = map(json.loads, ch10(['catalogue', 'show', '--db', dsn, '--json', sum_]).splitlines())
    return [(line['byte_offset'], line['byte_length']) for line in lines if line['row'] == 'damage']


def check_again(folder: str, dsn: str, made: str, count: int) -> None:
    """The same once more is no second one; what moved has its new place, and what was replaced is no longer there."""
    words = ['catalogue', 'add', '--db', dsn, '--program', made, '--jobs', '2', folder]
    lines = ch10(words).splitlines()
    agree([line.split(' ')[0] for line in lines[:-1]], ['known'] * (count + 4), 'a second add')
    other = os.path.join(folder, 'r000.ch10')
    kept = pathlib.Path(other).read_bytes()
    pathlib.Path(other).write_bytes(pathlib.Path(folder, 'r001.ch10').read_bytes())
    ch10(words)
    shown = ch10(['catalogue', 'find', '--db', dsn, '--json']).splitlines()
    places = sorted(len(json.loads(line)['places']) for line in shown)
    agree((places[0], places[-1], len(shown)), (0, 2, count + 4), 'places after one file took the place of another')
    pathlib.Path(other).write_bytes(kept)
    ch10(words)


# ---- entries

def check_entries(folder: str, dsn: str, made: str, names: Sequence[str]) -> int:
    """The rows of the tables, against what `ch10 csv` says of the same recordings."""
    paths = [os.path.join(folder, name) for name in names]
    said = ch10(['load', '--db', dsn, '--program', made, '--jobs', '2'] + paths)
    total = 0
    for path in paths:
        to = Stream()
        command.answer(['csv', '--keep-going'], lambda: pathlib.Path(path).read_bytes(), lambda: to)
        wanted = sorted(map(line_of_csv, csv.DictReader(io.StringIO(to.getvalue().decode()))))
        found = sorted(rows_in(dsn, path))
        for one, other in itertools.zip_longest(found, wanted):
            agree(one, other, 'an entry of %s' % path)
        total += len(found)
    agree(said.splitlines()[-1], '%d entries of %d recordings loaded' % (total, len(paths)), 'what load says')
    again = ch10(['load', '--db', dsn, '--program', made, '--jobs', '1'] + paths)
    agree(again.splitlines()[-1], '0 entries of 0 recordings loaded', 'a second load')
    return total


def line_of_csv(row: Dict[str, str]) -> Tuple:
    """An entry of the CSV as a tuple of texts, with the columns that tables have too."""
    kind = row['type']
    front = (kind, int(row['channel']), int(row['count']), row['time'][:26], row['lost'])
    if kind in BY_NAME:
        return front + tuple(row[key] for key in BY_NAME[kind].compared)
    return front + ((row['number'], row['occurrence']) if kind == 'event' else (row['value'],))


FORMS = {'status1': '%04x', 'status2': '%04x', 'word': '%08x', 'states': '%08x', 'high': '%d', 'gap1': '%.1f', 'gap2': '%.1f'}
LEFT_OUT = ('recording', 'count', 'time', 'lost', 'channel', 'words', 'block_status', 'changed')


def rows_in(dsn: str, path: str) -> Iterator[Tuple]:
    """The rows of a recording in the tables, as texts."""
    with contextlib.closing(open_store(dsn, make=False)) as store:
        (number,), = store.rows('SELECT recording FROM place WHERE path = ?', (path,))
        for table in TABLES.values():
            for values in store.rows('SELECT %s FROM %s WHERE recording = ?' % (', '.join(table.names), table.name), (number,)):
                row = dict(zip(table.names, values))
                moment = str(row['time']) if '.' in str(row['time']) else str(row['time']) + '.'
                front = (table.name[6:], row['channel'], row['count'], moment[:26].ljust(26, '0'),
                         '1+' if row['lost'] is None else str(row['lost']))
                yield front + tuple(text_in(key, value) for key, value in row.items() if key not in LEFT_OUT)


def text_in(key: str, value: Any) -> str:
    """A value of a table as the CSV has it."""
    if value is None:
        return ''
    return bytes(value).hex() if isinstance(value, (bytes, memoryview)) else FORMS.get(key, '%s') % value


# ---- days, which PostgreSQL keeps apart

def timed(moments: Sequence[Tuple[int, datetime.datetime]], between: int) -> bytes:
    """A recording with a time at each of some counts, and after each some UART entries."""
    parts = []
    for place, (count, moment) in enumerate(moments):
        parts.append(packet(1, place, 0x11, count, time_body(moment)))
        parts.append(packet(5, place, 0x50, count + 1, text_body([(2, b'ab')] * between, count + 1, 1 << 31)))
    return b''.join(parts)


def check_days(room: str, dsn: str) -> None:
    """Only the days that entries lie on have tables, also where a clock was set on the way; where they are too many nothing of the
    recording is loaded."""
    folder = os.path.join(room, 'days')
    os.makedirs(folder)
    day, start = datetime.timedelta(days=1), datetime.datetime(1970, 1, 1)
    early = packet(5, 0, 0x50, 1, text_body([(2, b'ab')] * 800, 1, 1 << 31)) + packet(1, 0, 0x11, 6 * 10 ** 6,
                                                                                      time_body(datetime.datetime(1, 1, 1)))
    made = {'set': timed([(10 ** 7, start), (10 ** 8, datetime.datetime(2033, 5, 6, 23, 59, 59))], 800),  # 1.2 s: over midnight
            'early': early,  # 0.6 s before the first day that the calendar has
            'many': timed([(10 ** 7 * number, start + 3 * number * day) for number in range(1001)], 1)}
    for name, data in made.items():
        pathlib.Path(folder, name + '.ch10').write_bytes(data)
    said = ch10(['load', '--db', dsn, '--unjudged', '--jobs', '2', folder], 3)
    agree([line for line in said.splitlines() if line.startswith('unread')],
          ['unread %s: %s' % (os.path.join(folder, 'many.ch10'), load.SPREAD)], 'what is not loaded')
    with contextlib.closing(open_store(dsn, make=False)) as store:
        held = store.rows('SELECT e.tableoid::regclass::text, count(*) FROM entry_uart e JOIN place p ON p.recording = e.recording '
                          'WHERE p.path LIKE ? GROUP BY 1 ORDER BY 1', (folder + '%',))
        agree(held, [('entry_uart_00010101', 400), ('entry_uart_19700101', 800), ('entry_uart_20330506', 667),
                     ('entry_uart_20330507', 133),
                     ('entry_uart_undated', 400)], 'the entries of days')
        tables = [name for name, in store.rows(
            "SELECT inhrelid::regclass::text FROM pg_inherits WHERE inhparent = 'entry_uart'::regclass ORDER BY 1")]
        others = [name for name in tables if not re.search('_(202[4-6]|2100)', name)]  # those are of the small range
        agree(others, [name for name, _ in held], 'tables of days')


# ---- kills

def killed_after(words: Sequence[str], seconds: float) -> bool:
    """Whether a call was still at work when it was killed after some time."""
    number = child(words)
    time.sleep(seconds)
    with contextlib.suppress(ProcessLookupError):
        os.kill(number, signal.SIGKILL)
    _, status = os.waitpid(number, 0)
    return os.WIFSIGNALED(status)


def killed_at(words: Sequence[str], statement: int) -> bool:
    """Whether a call was killed at its so-many-th statement: before it was made, or amid its rows."""
    def prepare() -> None:
        made = itertools.count(1)

        def deadly(call: Callable) -> Callable:
            def one(store: Any, *words: Any) -> Any:
                if next(made) == statement:
                    if call.__name__ == 'insert' and statement % 2:
                        words = words[:2] + (dying(words[2]),)
                    else:
                        os.kill(os.getpid(), signal.SIGKILL)
                return call(store, *words)
            return one

        def dying(rows: Any) -> Iterator[Any]:
            for row in rows:
                yield row
                os.kill(os.getpid(), signal.SIGKILL)
            os.kill(os.getpid(), signal.SIGKILL)

        from ch10.store_postgres import Postgres
        from ch10.store_sqlite import Sqlite
        for engine in (Sqlite, Postgres):
            for name in ('rows', 'insert', 'insert_new'):
                setattr(engine, name, deadly(getattr(engine, name)))

    _, status = os.waitpid(child(words, prepare), 0)
    if os.WIFEXITED(status) and os.WEXITSTATUS(status):
        raise Bad('%s ends with %d' % (' '.join(words)[:100], os.WEXITSTATUS(status)))
    return os.WIFSIGNALED(status)


def kill_words(name: str, dsn: str, folder: str, jobs: int) -> List[str]:
    return (['catalogue', 'add'] if name == 'add' else ['load']) + ['--db', dsn, '--unjudged', '--jobs', str(jobs), folder]


def unharmed(before: Dict[str, int], dsn: str, name: str) -> Dict[str, int]:
    """What a database has after a kill: no half, and nothing less than before."""
    after = state(dsn)
    agree(after['halves'], 0, 'halves after a kill of ' + name)
    if any(after[key] < before[key] for key in before):
        raise Bad('a kill of %s took something away: %r, %r' % (name, before, after))
    return after


def kill_each(folder: str, dsn: str, step: int, count: int) -> int:
    """Kills add and load at each step-th of their statements, from an empty database on, until they come to their end; answers how
    many kills there were."""
    kills = 0
    for name in ('add', 'load'):
        before, statement = state(dsn), 1
        while killed_at(kill_words(name, dsn, folder, 1), statement):
            before = unharmed(before, dsn, name)
            kills, statement = kills + 1, statement + step
        agree(unharmed(before, dsn, name)['recordings' if name == 'add' else 'loaded'] >= count, True,
              'what %s has done at its end' % name)
    return kills


def kill_some(folder: str, dsn: str, number: int, draw: random.Random, count: int) -> Dict[str, int]:
    """Kills add, and then load, so many times at random moments of their work by two processes; then each does the rest."""
    seen = dict(add=0, load=0, amid=0)
    for name in ('add', 'load'):
        key = 'recordings' if name == 'add' else 'loaded'
        words, span, before = kill_words(name, dsn, folder, 2), 0.5, state(dsn)
        while seen[name] < number:
            was_killed = killed_after(words, draw.random() * span)
            after = unharmed(before, dsn, name)
            seen[name] += was_killed
            seen['amid'] += was_killed and after[key] > before[key]
            span = span * 1.2 if was_killed and after[key] == before[key] else max(span * 0.8, 0.1)
            before = after
            if after[key] >= count:  # all is there: begin anew
                empty(dsn, name)
                before = state(dsn)
        ch10(words)
        agree(unharmed(before, dsn, name)[key] >= count, True, 'what the next %s does' % name)
    return seen


def kill_server(folder: str, number: int, draw: random.Random, count: int) -> int:
    """Kills the server, so many times amid add and as many amid load, and starts it again each time: no half, and the next call
    does the rest."""
    amid = 0
    with running_server() as one:
        for name in ('add', 'load'):
            key = 'recordings' if name == 'add' else 'loaded'
            words, span = kill_words(name, one.dsn, folder, 2), 1.0
            for _ in range(number):
                before = state(one.dsn)
                call = child(words)
                time.sleep(draw.random() * span)
                one.kill()
                ended = os.waitstatus_to_exitcode(os.waitpid(call, 0)[1])
                one.start()
                after = unharmed(before, one.dsn, name)
                agree(ended in (0, 3), True, 'the status of %s whose server is killed' % name)
                agree(ended == 3 or after[key] >= count, True, 'what is done where %s ends well' % name)
                amid += ended == 3 and after[key] > before[key]
                span = span * 0.7 if ended == 0 else span * 1.2 if after[key] == before[key] else span
                if after[key] >= count:
                    empty(one.dsn, name)
            ch10(words)
            agree(unharmed(state(one.dsn), one.dsn, name)[key] >= count, True, 'what the next %s does' % name)
    return amid


def empty(dsn: str, name: str) -> None:
    """Takes out what load has done, or add too."""
    with contextlib.closing(open_store(dsn)) as store:
        for table in ['loaded'] + [table for table, _ in ENTRIES.values()] + (['recording'] if name == 'add' else []):
            store.rows('DELETE FROM ' + table)


# ---- all of it, small

# A statement that takes longer, or waits longer for others, is ended by the server, and the trial with it.
BOUNDS = ['statement_timeout=1200s', 'lock_timeout=1200s', 'idle_in_transaction_session_timeout=1200s']


@contextlib.contextmanager
def both(room: str) -> Iterator[Tuple[str, Optional[str]]]:
    """The DSNs of the two databases; of one alone where there is no server."""
    with contextlib.ExitStack() as held:
        dsn = None
        try:
            if not has_driver():
                raise NotThere('no driver of PostgreSQL here (Debian: python3-psycopg2)')
            dsn = held.enter_context(server(['fsync=off'] + BOUNDS))
        except NotThere as why:
            print('NOT TRIED: PostgreSQL: %s' % why)
        yield os.path.join(room, 'range.sqlite'), dsn


def check(say: Callable[[str], Any]) -> int:
    count = 9
    check_bounds()  # which ends all that runs below this process
    with tempfile.TemporaryDirectory(prefix='ch10-range-') as room, both(room) as (lite, postgres):
        def trial(what: str) -> Any:
            return bounded(what, postgres, say=say)

        folder = os.path.join(room, 'flights')
        with trial('the recordings'):
            small_range(folder, count)
        made = program(room)
        found = {}
        for dsn in filter(None, (lite, postgres)):
            with trial('add, load and find in %s' % ('SQLite' if dsn == lite else 'PostgreSQL')):
                lines = ch10(['catalogue', 'add', '--db', dsn, '--program', made, '--jobs', '2', folder]).splitlines()
                agree(lines[-1], '%d added, 0 judged anew, 0 known before; 3 of them faulty; 1 others in the folders are no '
                                 'recordings' % (count + 4), 'what add says')
                check_again(folder, dsn, made, count)
                total = check_entries(folder, dsn, made, ['r001.ch10', 'r007.ch10'])
                found[dsn] = answers(dsn)
            if ch10_tables.has('h5py'):
                with trial('files of columns'):
                    check_columns(room, dsn, os.path.join(folder, 'r001.ch10'))
        with trial('answers by the other way'), range_hostile.in_place_of(find, 'MANY', 1):
            agree(answers(lite), found[lite], 'what SQLite answers where many channels fit')
        with trial('facts'):
            check_facts(folder, lite, made)
        if postgres:
            for one, other in zip(*found.values()):
                agree(other, one, 'the answer of PostgreSQL beside that of SQLite')
        with trial('two calls of add at a time'):
            check_two_at_once(folder, os.path.join(room, 'two.sqlite'), 'add', count + 4)
        with trial('two calls of load at a time'):
            check_two_at_once(folder, postgres or os.path.join(room, 'two.sqlite'), 'load', count + 2)
        if postgres:
            with trial('days of entries'):
                check_days(room, postgres)
            range_queue.check_queue(room, another_database(postgres, 'queue'), made, trial)
        with trial('kills'):
            kills = kill_each(folder, os.path.join(room, 'killed.sqlite'), 7, count + 2)
        with trial('statuses'):
            check_statuses(folder, lite, made)
        with trial('the report'):
            check_report(folder, room, made)
        dsns = [os.path.join(room, 'hostile.sqlite')] + ([another_database(postgres)] if postgres else [])
        for hostile in range_hostile.TRIALS:
            with trial('hostile: ' + hostile.__name__):
                hostile(room, dsns, made)
        print('range: %d answers of %s agree, %d entries loaded, %d kills' % (
            len(found[lite]), 'both databases' if postgres else 'SQLite', total, kills))
    return 0


def check_bounds() -> None:
    """A trial that loops, itself or in a process below it, or that waits, is ended, and said to be."""
    def loop() -> None:
        while True:
            pass
    for what, act, bounds in (('a loop', loop, (0.2, 60)), ('a loop below', lambda: os.waitpid(child([], loop), 0), (0.2, 60)),
                              ('a wait', lambda: time.sleep(60), (60, 0.2))):
        try:
            with bounded(what, None, *bounds):
                act()
                time.sleep(60)
        except Hung as hung:
            agree(str(hung).startswith('%s: ended after ' % what), True, 'what is said of ' + what)
        else:
            raise Bad('%s was not ended' % what)


def another_database(dsn: str, name: str = 'other') -> str:
    """An empty database of the same server."""
    with contextlib.closing(open_store(dsn, make=False)) as store:
        store.rows('CREATE DATABASE ' + name)
    return dsn.replace('dbname=postgres', 'dbname=' + name)


def everything(seed: int) -> int:
    """What takes minutes."""
    with tempfile.TemporaryDirectory(prefix='ch10-range-') as room, both(room) as (lite, postgres):
        dsns = [lite] + ([postgres] if postgres else [])
        for name, act in range_hostile.LONG_TRIALS:
            with bounded(name, postgres, work=600, passed=3600, say=print):
                act(room, dsns, program(room), seed)
    return 0


def check_statuses(folder: str, dsn: str, made: str) -> None:
    """What is wrong ends with a line, and leaves the database as it was."""
    before = state(dsn)
    ch10(['catalogue', 'find', '--db', '/nowhere/at.all'], 2)
    ch10(['catalogue', 'show', '--db', dsn, '0000'], 1)
    ch10(['catalogue', 'find', '--db', dsn, '--from', 'noon'], 2)
    ch10(['catalogue', 'find', '--db', dsn, '--from', '2024-01-01', '--to', '060'], 2)
    ch10(['catalogue', 'find', '--db', 'mysql://host/range'], 2)
    ch10(['catalogue', 'add', '--db', dsn, '--program', made, os.path.join(folder, 'not-there')], 3)
    ch10(['catalogue', 'add', '--db', dsn, '--program', '/bin/true', os.path.join(folder, 'r001.ch10')], 2)
    ch10(['catalogue', 'add', '--db', os.path.join(folder, 'notes.txt'), '--program', made, os.path.join(folder, 'r001.ch10')], 3)
    agree(state(dsn), before, 'the catalogue after calls that were refused')


def check_two_at_once(folder: str, dsn: str, name: str, wanted: int) -> None:
    """Two calls at a time do the work once."""
    both_made = [child(kill_words(name, dsn, folder, 1)) for _ in range(2)]
    agree([os.waitpid(number, 0)[1] for number in both_made], [0, 0], 'two calls of %s at a time' % name)
    found = state(dsn)
    agree((found['halves'], found['recordings' if name == 'add' else 'loaded']), (0, wanted),
          'what two calls of %s have done' % name)


MANY = 150


def kills(number: int, seed: int) -> int:
    """Kills, at each statement with transactions as they are, and at random moments with smaller ones, so that some of the work is
    kept."""
    with tempfile.TemporaryDirectory(prefix='ch10-range-') as room, both(room) as (lite, postgres):
        folder, few = os.path.join(room, 'flights'), os.path.join(room, 'few')
        small_range(few, 3, 8000)
        os.makedirs(folder)
        for place in range(MANY):
            pathlib.Path(folder, 'r%03d.ch10' % place).write_bytes(recording(seed, place, 20000, FEW))
        each = {dsn: kill_each(few, dsn, 1, 3) for dsn in (lite, postgres) if dsn}
        catalogue.MOST_TOGETHER, load.TOGETHER, load.SHARE = 16, 1 << 19, 1 << 17
        for dsn in each:
            name = 'SQLite' if dsn == lite else 'PostgreSQL'
            empty(dsn, 'add')
            with bounded('kills in ' + name, postgres, work=3600, passed=7200):
                seen = kill_some(folder, dsn, number, random.Random(seed), MANY)
            print('%s: killed at each of %d statements, and at random moments %d times in add and %d in load, %d of them after '
                  'something was kept: '
                  'no half, no double' % (name, each[dsn], seen['add'], seen['load'], seen['amid']), flush=True)
    if postgres:
        with tempfile.TemporaryDirectory(prefix='ch10-range-') as room, bounded('kills of the server', None, work=3600,
                                                                                passed=7200):
            folder = os.path.join(room, 'flights')
            os.makedirs(folder)
            for place in range(MANY):
                pathlib.Path(folder, 'r%03d.ch10' % place).write_bytes(recording(seed, place, 20000, FEW))
            times = max(number // 10, 1)
            amid = kill_server(folder, times, random.Random(seed), MANY)
            print('PostgreSQL: the server was killed %d times amid add and %d amid load, %d of them after something was kept: no '
                  'half, no double' % (
                times, times, amid))
    return 0


# ---- figures

def spent() -> Tuple[float, float]:
    """Seconds that passed, and seconds of processors of this process and its children."""
    own, others = resource.getrusage(resource.RUSAGE_SELF), resource.getrusage(resource.RUSAGE_CHILDREN)
    return time.monotonic(), own.ru_utime + own.ru_stime + others.ru_utime + others.ru_stime


def figures(folder: str, made: str, jobs: int, loads: int) -> int:
    """What adding, finding and loading takes, in both databases."""
    paths = sorted(str(path) for path in pathlib.Path(folder).iterdir())
    size = sum(os.path.getsize(path) for path in paths)
    print('%d recordings, %.0f MB; load of the machine %.1f' % (len(paths), size / 1e6, os.getloadavg()[0]))
    found, sizes = {}, {}
    with tempfile.TemporaryDirectory(prefix='ch10-range-') as room, contextlib.ExitStack() as held:
        postgres = held.enter_context(server(['shared_buffers=256MB', 'max_wal_size=4GB']))
        for name, dsn in (('SQLite', os.path.join(room, 'range.sqlite')), ('PostgreSQL', postgres)):
            start, work = spent()
            ch10(['catalogue', 'add', '--db', dsn, '--program', made, '--jobs', str(jobs), folder])
            passed, used = (now - then for now, then in zip(spent(), (start, work)))
            print('%s: added at %.0f MB/s, %.1f ms of a processor for each MB' % (name, size / 1e6 / passed,
                                                                                  used * 1000 / (size / 1e6)))
            print_finds(name, dsn)
            found[name], sizes[name] = dsn, bytes_of(dsn)
            print('%s: the catalogue has %.2f MB' % (name, sizes[name] / 1e6))
        print('%d answers of both databases agree' % same_answers(list(found.values())), flush=True)
        some = paths[:loads]
        for name, dsn in found.items():
            start, work = spent()
            said = ch10(['load', '--db', dsn, '--program', made, '--jobs', str(jobs)] + some).splitlines()[-1]
            passed, used = (now - then for now, then in zip(spent(), (start, work)))
            entries = int(said.split(' ')[0])
            print('%s: %d entries loaded at %.0f a second, %.2f microseconds of a processor for each beside the server; %.0f bytes '
                  'for each' % (
                name, entries, entries / passed, used * 1e6 / entries, (bytes_of(dsn) - sizes[name]) / max(entries, 1)))
    return 0


def same_answers(dsns: Sequence[str]) -> int:
    """Sees that databases answer alike: each two conditions, the channels of some, and all that is kept of each damaged recording
    and each tenth of the others."""
    asked = [['find', '--json'] + one + other for one, other in itertools.combinations(CONDITIONS, 2)]
    asked += [['find', '--channels'] + question[2:] for question in asked[::5]]
    shown = [json.loads(line) for line in ch10(['catalogue', 'find', '--db', dsns[0], '--json']).splitlines()]
    asked += [['show', '--json', facts['sha256']] for place, facts in enumerate(shown) if facts['damaged'] or place % 10 == 0]
    for words in asked:
        said = [settled(ch10(['catalogue'] + words + ['--db', dsn])) for dsn in dsns]
        agree(said[1:], said[:-1], 'the answers to ' + ' '.join(words))
    return len(asked)


def bytes_of(dsn: str) -> int:
    """How many bytes a database has on the disk."""
    with contextlib.closing(open_store(dsn, make=False)) as store:
        if store.engine == 'sqlite':
            return int(store.rows('PRAGMA page_count')[0][0]) * int(store.rows('PRAGMA page_size')[0][0])
        return int(store.rows('SELECT pg_database_size(current_database())')[0][0])


CONDITIONS = (['--from', '2024-06-01', '--to', '2024-06-30'], ['--channel', '77'], ['--name', 'NAV 1553 12'], ['--type', '1553'],
              ['--verdict', 'faulty'],
              ['--losses', '1'], ['--place', '*r01*'], ['--attribute', 'G\\TA=TAIL 07'], ['--name', 'nav*'],
              ['--verdict', 'strict'], ['--damaged'])


def print_finds(name: str, dsn: str) -> None:
    """What each two conditions take, from the question to the answer: the least time that passed, and the time of processors."""
    store = open_store(dsn, make=False)
    rows = store.rows('SELECT count(*) FROM channel')[0][0]
    server_id = store.rows('SELECT pg_backend_pid()')[0][0] if store.engine == 'postgresql' else None
    taken = []
    for one, other in itertools.combinations(CONDITIONS, 2):
        if one[0] == other[0]:
            continue
        question = find.Question(command.words_of(['catalogue', 'find'] + one + other))
        passed, work = [], worked(server_id)
        for _ in range(5):
            start = time.perf_counter()
            answer = find.found(store, question, None, False)
            passed.append(time.perf_counter() - start)
        taken.append((min(passed) * 1000, (worked(server_id) - work) * 200, ' '.join(one + other), len(answer)))
    store.close()
    for what, place in (('passed', 0), ('of processors', 1)):
        taken.sort(key=lambda one: one[place])
        print('%s: %d channel rows; %d pairs of conditions, ms that %s: %.1f at the median, %.1f at most (%s: %d)' % (
            name, rows, len(taken), what, taken[len(taken) // 2][place], taken[-1][place], *taken[-1][2:]))


def worked(server_id: Optional[int]) -> float:
    """Seconds of processors of this process and of a server's."""
    if server_id is None:
        return time.process_time()
    fields = pathlib.Path('/proc/%d/stat' % server_id).read_text().rsplit(')', 1)[1].split()
    return time.process_time() + (int(fields[11]) + int(fields[12])) / os.sysconf('SC_CLK_TCK')


def main(words: List[str]) -> int:
    to_other_python()
    ends_on_term()
    if words[:1] == ['check'] and words[1:] in ([], ['--times']):
        return check(print if words[1:] else lambda line: None)
    if words[:1] == ['all'] and len(words) <= 2:
        return everything(int(words[1]) if words[1:] else 1)
    if len(words) in (2, 3) and words[0] == 'kills':
        return kills(int(words[1]), int(words[2]) if len(words) == 3 else 1)
    if words[:1] == ['figures']:
        parser = argparse.ArgumentParser()
        parser.add_argument('folder')
        parser.add_argument('--program', default=os.environ.get('R10'))
        parser.add_argument('--jobs', type=int, default=4)
        parser.add_argument('--loads', type=int, default=200)
        asked = parser.parse_args(words[1:])
        return figures(asked.folder, asked.program, asked.jobs, asked.loads)
    print(__doc__)
    return 2


if __name__ == '__main__':
    try:
        sys.exit(main(sys.argv[1:]))
    except (Bad, Hung, Wrong, StoreError) as bad:
        print('range_trials: %s' % bad, file=sys.stderr)
        sys.exit(1)
