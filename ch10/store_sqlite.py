"""The catalogue in SQLite: one file, by Python's own sqlite3."""
from __future__ import annotations

import os
import sqlite3
from time import monotonic, sleep as pause
from typing import Iterable, List, Sequence, Set, Tuple
from urllib.parse import quote

from .standard import Value, Wrong
from .store import Store, StoreError

WAIT = 300  # seconds for another program that writes
LAST_WAIT = 3  # and at the end, for one that reads
FAULTS = (sqlite3.Error, OverflowError, UnicodeError)  # what sqlite3 raises of a database, and of a value that none takes


class Sqlite(Store):
    """While something is added it has a log beside it, so that questions need not wait. Who closes it last leaves one file, which
    can be read where nothing can be written."""

    engine = 'sqlite'
    words = {'identity': 'INTEGER PRIMARY KEY AUTOINCREMENT', 'text': 'TEXT', 'bytes': 'BLOB', 'time': 'TEXT'}

    def __init__(self, path: str, make: bool) -> None:
        self.writes = make
        if not make and not os.path.exists(path):
            raise Wrong('there is no database %r; ch10 catalogue add makes one, and --db names another' % path[:200])
        if os.path.exists(path) and not os.path.isfile(path):  # a pipe would be waited for
            raise StoreError('the database %r: it is no regular file' % path[:200])
        try:
            if make:
                self.base = sqlite3.connect(path, timeout=WAIT, isolation_level=None)
                self.turn_to('WAL', WAIT)
                self.base.execute('PRAGMA synchronous = NORMAL')
                self.base.execute('PRAGMA foreign_keys = ON')
            else:
                self.base = sqlite3.connect('file://%s?mode=ro' % quote(os.fsencode(os.path.abspath(path))), timeout=WAIT,
                                            isolation_level=None, uri=True)
            self.tables()
        except FAULTS as error:
            raise StoreError('the database %r: %s' % (path[:200], error))

    def turn_to(self, mode: str, wait: float) -> None:
        """Makes the log beside it, or takes it away. That is refused at once while another program is at work, so it is tried
        again."""
        end = monotonic() + wait
        while True:
            try:
                self.base.execute('PRAGMA journal_mode = ' + mode)
                return
            except sqlite3.OperationalError as error:
                if 'locked' not in str(error) or monotonic() > end:
                    raise
            pause(0.02)

    def rows(self, statement: str, values: Sequence[Value] = ()) -> List[Tuple]:
        try:
            return self.base.execute(statement, values).fetchall()
        except FAULTS as error:
            raise StoreError('the database: %s' % error)

    def insert(self, table: str, columns: Sequence[str], rows: Iterable[Sequence[Value]]) -> None:
        try:
            self.base.executemany('INSERT INTO %s (%s) VALUES (%s)' % (table, ', '.join(columns), ', '.join('?' * len(columns))),
                                  rows)
        except FAULTS as error:
            raise StoreError('the database: %s' % error)

    def insert_new(self, table: str, columns: Sequence[str], rows: Sequence[Sequence[Value]], keys: int) -> Set[Tuple]:
        statement = 'INSERT INTO %s (%s) VALUES (%s) ON CONFLICT (%s) DO NOTHING' % (
            table, ', '.join(columns), ', '.join('?' * len(columns)), ', '.join(columns[:keys]))
        try:
            return {tuple(row[:keys]) for row in rows if self.base.execute(statement, row).rowcount == 1}
        except FAULTS as error:
            raise StoreError('the database: %s' % error)

    def settle(self) -> None:
        self.rows('PRAGMA analysis_limit = 1000')
        self.rows('ANALYZE')

    def begin(self) -> None:
        self.rows('BEGIN IMMEDIATE')

    def end(self, how: str) -> None:
        if how == 'COMMIT' or self.base.in_transaction:  # which SQLite ends by itself where its disk is full
            self.rows(how)

    def tables(self) -> List[str]:
        return [name for name, in self.rows("SELECT name FROM sqlite_master WHERE type = 'table'")]

    def close(self) -> None:
        if self.writes:
            try:
                self.base.execute('PRAGMA busy_timeout = 0')
                self.turn_to('DELETE', LAST_WAIT)
            except sqlite3.Error:
                pass  # another program adds to it, and closes it later
        self.base.close()
