"""The catalogue in PostgreSQL, by psycopg2 or psycopg (3), whichever the distribution has here."""
from __future__ import annotations

import datetime
import importlib
import os
import subprocess
import sys
from typing import Dict, Iterable, Iterator, List, Sequence, Set, Tuple

from .arrays import Foreign
from .standard import Value, Wrong
from .store import Store, StoreError, partition_of, shown_dsn
from .store_schema import ENTRIES

SYSTEM = '/usr/bin/python3'
LOCK = 0x63683130  # of an advisory lock: the letters ch10
NUMBERS = {name: number for number, (name, _) in ENTRIES.items()}  # of tables, for a lock of each
MOST_DAYS = 100  # partitions that a transaction makes, for each takes some locks
LAST_DAY = datetime.date.max.toordinal()
# So that a network that is gone ends a session within some two minutes, in place of hours: what a DSN says of these goes first.
NETWORK = {'connect_timeout': 120, 'keepalives_idle': 30, 'keepalives_interval': 10, 'keepalives_count': 6,
           'tcp_user_timeout': 90000}


def driver() -> Foreign:
    """The module that speaks to PostgreSQL."""
    for name in ('psycopg2', 'psycopg'):
        try:
            return importlib.import_module(name)
        except ImportError:
            pass
    more = 'install python3-psycopg2'
    if os.path.exists(SYSTEM) and os.path.realpath(SYSTEM) != os.path.realpath(sys.executable):
        if subprocess.run([SYSTEM, '-c', 'import psycopg2'], stderr=subprocess.DEVNULL).returncode == 0:
            more = '%s sees the distribution\'s: %s scripts/ch10.py ..' % (SYSTEM, SYSTEM)
    raise Wrong('a database of PostgreSQL needs psycopg2, which %s does not see; %s' % (sys.executable, more))


class Postgres(Store):
    engine = 'postgresql'
    begin_snapshot = 'BEGIN ISOLATION LEVEL REPEATABLE READ, READ ONLY'
    for_update = ' FOR NO KEY UPDATE'  # others may still refer to the row
    words = {'identity': 'BIGINT GENERATED ALWAYS AS IDENTITY PRIMARY KEY', 'text': 'TEXT COLLATE "C"', 'bytes': 'BYTEA',
             'time': 'TIMESTAMP(6)'}

    def __init__(self, dsn: str) -> None:
        self.driver = driver()
        try:
            self.base = self.driver.connect(dsn, **{name: value for name, value in NETWORK.items() if name not in dsn})
            self.base.autocommit = True
            self.cursor = self.driver.ClientCursor(self.base) if hasattr(self.driver, 'ClientCursor') else self.base.cursor()
            self.cursor.execute("SET client_encoding = 'UTF8'")
        except self.driver.Error as error:
            raise StoreError('the database %s: %s' % (shown_dsn(dsn), one_line(error)))

    def rows(self, statement: str, values: Sequence[Value] = ()) -> List[Tuple]:
        try:
            if values:
                self.cursor.execute(statement.replace('%', '%%').replace('?', '%s'), values)
            else:
                self.cursor.execute(statement)
            return self.cursor.fetchall() if self.cursor.description else []
        except (self.driver.Error, UnicodeError) as error:
            raise StoreError('the database: %s' % one_line(error))

    def insert(self, table: str, columns: Sequence[str], rows: Iterable[Sequence[Value]]) -> None:
        """By COPY, which takes many rows in one go."""
        self.copy('COPY %s (%s) FROM STDIN' % (table, ', '.join(columns)), lines_of(rows))

    def insert_new(self, table: str, columns: Sequence[str], rows: Sequence[Sequence[Value]], keys: int) -> Set[Tuple]:
        if not rows:
            return set()
        one, front = '(%s)' % ', '.join('?' * len(columns)), ', '.join(columns[:keys])
        return set(self.rows('INSERT INTO %s (%s) VALUES %s ON CONFLICT (%s) DO NOTHING RETURNING %s' % (
            table, ', '.join(columns), ', '.join([one] * len(rows)), front, front), [value for row in rows for value in row]))

    def copy(self, statement: str, parts: Iterable[bytes]) -> None:
        """Does a COPY FROM STDIN with these bytes."""
        try:
            if hasattr(self.cursor, 'copy_expert'):
                self.cursor.copy_expert(statement, Parts(parts), 1 << 16)
            else:
                with self.cursor.copy(statement) as to:
                    for part in parts:
                        to.write(part)
        except self.driver.Error as error:
            raise StoreError('the database: %s' % one_line(error))

    def make_days(self, wanted: Iterable[Tuple[str, str]], first: int = 0) -> None:
        """A partition for each table and day, as entry_1553_20240229. It is made by itself and then attached, which waits for
        no reader and no writer of other days; each table's in transactions of their own, so that two programs never wait for
        each other."""
        by_table: Dict[str, List[str]] = {}
        for table, day in sorted(wanted):
            by_table.setdefault(table, []).append(day)
        tables = sorted(by_table)
        for place in range(len(tables)):
            table = tables[(place + first) % len(tables)]
            days = by_table[table]
            missing = self.without(table, days)
            for at in range(0, len(missing), MOST_DAYS):
                with self.transaction():
                    self.rows('SELECT pg_advisory_xact_lock(%d, %d)' % (LOCK, NUMBERS[table]))
                    made = [day_made(table, day) for day in self.without(table, missing[at:at + MOST_DAYS])]
                    if made:
                        self.rows(';\n'.join(made))  # all in one go: an answer for each would have to be waited for

    def without(self, table: str, days: Sequence[str]) -> List[str]:
        """Those of some days that a table has no partition for."""
        there = {name for name, in self.rows(
            'SELECT c.relname::text FROM pg_inherits i JOIN pg_class c ON c.oid = i.inhrelid WHERE i.inhparent = to_regclass(?)',
            (table,))}
        return [day for day in days if partition_of(table, day) not in there]

    def settle(self) -> None:
        self.rows('VACUUM (ANALYZE, SKIP_LOCKED) recording, place, channel, damage, attribute')  # then an index answers by itself

    def begin(self) -> None:
        self.rows('BEGIN')

    def end(self, how: str) -> None:
        try:
            self.rows(how)
        except StoreError:
            if how == 'COMMIT':
                raise  # a rollback that cannot be asked for was made by the server

    def lock_for_migrations(self) -> None:
        self.rows('SELECT pg_advisory_xact_lock(%d)' % LOCK)

    def tables(self) -> List[str]:
        return [name for name, in self.rows('SELECT tablename::text FROM pg_tables WHERE schemaname = current_schema()')]

    def close(self) -> None:
        self.base.close()


def day_made(table: str, day: str) -> str:
    """The statements that make the partition of a day."""
    name, following = partition_of(table, day), datetime.date.fromisoformat(day).toordinal() + 1
    end = "'%s'" % datetime.date.fromordinal(following) if following <= LAST_DAY else 'MAXVALUE'
    return "CREATE TABLE %s (LIKE %s INCLUDING ALL);\nALTER TABLE %s ATTACH PARTITION %s FOR VALUES FROM ('%s') TO (%s)" % (
        name, table, table, name, day, end)


def one_line(error: BaseException) -> str:
    """An error of the driver in one line."""
    return ' '.join(str(error).split()) or type(error).__name__


class Parts:
    """Parts of bytes as a file to read, for psycopg2."""

    def __init__(self, parts: Iterable[bytes]) -> None:
        self.parts: Iterator[bytes] = iter(parts)
        self.left = memoryview(b'')

    def read(self, size: int = -1) -> bytes:
        """So many bytes of the parts, one after the other."""
        while not self.left:
            part = next(self.parts, None)
            if part is None:
                return b''
            self.left = memoryview(part)
        if size < 0:
            size = len(self.left)
        given, self.left = self.left[:size], self.left[size:]
        return bytes(given)


ESCAPES = str.maketrans({'\\': '\\\\', '\t': '\\t', '\n': '\\n', '\r': '\\r'})


def cell(value: Value) -> str:
    """A value as the text form of COPY has it."""
    if value is None:
        return '\\N'
    if isinstance(value, bool):
        return 't' if value else 'f'
    if isinstance(value, str):
        return value.translate(ESCAPES)
    if isinstance(value, (bytes, bytearray, memoryview)):
        return '\\\\x' + bytes(value).hex()
    return repr(value)


def lines_of(rows: Iterable[Sequence[Value]]) -> Iterator[bytes]:
    """Rows in the text form of COPY, in parts of some size."""
    held: List[str] = []
    for row in rows:
        held.append('\t'.join(map(cell, row)))
        if len(held) == 1000:
            yield ('\n'.join(held) + '\n').encode()
            held = []
    if held:
        yield ('\n'.join(held) + '\n').encode()
