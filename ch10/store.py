"""A database for the catalogue and the entries: SQLite or PostgreSQL, by its DSN, with the same tables and the same answers.

    path, sqlite:///path                         one file, by Python's own sqlite3
    postgresql://user@host/name, postgres://..   a server, by the distribution's psycopg2 or psycopg
    host=/run/postgresql dbname=range            the same in the form of libpq

A `Store` has the calls that the commands need: `rows` for a query, `insert` for many rows, `transaction` around what belongs
together. Statements are written once, with `?` for each value; what differs between the engines stands in `store_sqlite` and
`store_postgres`.
"""
from __future__ import annotations

import os
import re
from contextlib import contextmanager
from typing import Iterable, Iterator, List, Optional, Sequence, Set, Tuple

from .standard import Value, Wrong
from .store_schema import MIGRATIONS

DEFAULT = 'ch10.sqlite'


class StoreError(OSError):
    """What a database answered in place of doing its work."""


class Store:
    """One open database. Each engine has a class of its own below this one."""

    engine = ''
    begin_snapshot = 'BEGIN'
    for_update = ''  # what keeps others from a row that is read, until the transaction ends
    words: dict = {}  # what stands in a schema's statements in place of {identity}, {text} and {bytes}

    def rows(self, statement: str, values: Sequence[Value] = ()) -> List[Tuple]:
        """The rows that a statement answers; none for one that answers nothing."""
        raise NotImplementedError

    def insert(self, table: str, columns: Sequence[str], rows: Iterable[Sequence[Value]]) -> None:
        """Adds many rows to a table."""
        raise NotImplementedError

    def copy(self, statement: str, parts: Iterable[bytes]) -> None:
        """Adds rows that are given in the engine's own form, where it has one."""
        raise NotImplementedError

    def insert_new(self, table: str, columns: Sequence[str], rows: Sequence[Sequence[Value]], keys: int) -> Set[Tuple]:
        """Adds those rows whose first columns, so many, no row has yet, and answers what these have there. Inside a transaction."""
        raise NotImplementedError

    def make_days(self, wanted: Iterable[Tuple[str, str]], first: int = 0) -> None:
        """Makes room in tables for the entries of days, where an engine keeps days apart. Programs at a time begin with different
        tables."""

    def settle(self) -> None:
        """After much was added: lets the engine look at what there is, so that it answers the next questions by the right index."""

    def begin(self) -> None:
        """Begins a transaction."""
        raise NotImplementedError

    def lock_for_migrations(self) -> None:
        """Inside a transaction: waits until no other program changes the tables' form."""

    def tables(self) -> List[str]:
        """The tables that are there."""
        raise NotImplementedError

    def close(self) -> None:
        """Closes the database."""
        raise NotImplementedError

    @contextmanager
    def transaction(self) -> Iterator[None]:
        """All that is done inside, or nothing of it."""
        self.begin()
        try:
            yield
        except BaseException:
            self.end('ROLLBACK')
            raise
        self.end('COMMIT')

    @contextmanager
    def snapshot(self) -> Iterator[None]:
        """All that is read inside is of one moment, whatever others write meanwhile."""
        self.rows(self.begin_snapshot)
        try:
            yield
        finally:
            self.end('ROLLBACK')

    def end(self, how: str) -> None:
        """Ends a transaction: COMMIT or ROLLBACK."""
        self.rows(how)

    def statement(self, text: str) -> str:
        """A schema's statement in the words of this engine."""
        return re.sub(r'\{(\w+)\}\d?', lambda found: self.words[found[1]], text)


def partition_of(table: str, day: str) -> str:
    """The table of a day, where an engine keeps days apart."""
    return '%s_%s' % (table, day.replace('-', ''))


LIBPQ = (r'\s*(host|hostaddr|dbname|service|user|port|password|passfile|options|sslmode|connect_timeout|application_name|'
         r'target_session_attrs)\s*=')


def is_postgresql(dsn: str) -> bool:
    """Whether a DSN is that of a server of PostgreSQL."""
    return dsn.startswith(('postgresql://', 'postgres://')) or re.match(LIBPQ, dsn) is not None


def shown_dsn(dsn: str) -> str:
    """A DSN as it may be shown: without its password."""
    dsn = re.sub(r'(//[^/@:]*):[^/@]*@', r'\1:***@', dsn)
    return re.sub(r'(password\s*=\s*)(\'(?:[^\'\\]|\\.)*\'|[^\s&]*)', r'\1***', dsn)


def path_of(dsn: str) -> str:
    """The file that a DSN of SQLite names."""
    if dsn.startswith('sqlite://'):
        rest = dsn[len('sqlite://'):]
        if not rest.startswith('/') or len(rest) == 1:
            raise Wrong('%r names no file: write sqlite:///name, or sqlite:////folder/name from the root on' % dsn[:60])
        return rest[1:]
    scheme = re.match(r'([a-z][a-z0-9+.-]*)://', dsn)
    if scheme:
        raise Wrong('no database of the kind %r is known: sqlite:///path and postgresql://.. are' % scheme[1][:60])
    if not dsn:
        raise Wrong('--db has no name of a database')
    return dsn


def file_of(dsn: Optional[str]) -> Optional[str]:
    """The file of a database of SQLite; None of a server."""
    dsn = dsn or os.environ.get('CH10_DB') or DEFAULT
    return None if is_postgresql(dsn) else path_of(dsn)


def open_store(dsn: Optional[str] = None, make: bool = True) -> Store:
    """The database of a DSN (else of CH10_DB, else ch10.sqlite in this folder), with its tables as this version has them.

    Without `make` the database has to be there already, with these tables: nothing is written by a question.
    """
    dsn = dsn or os.environ.get('CH10_DB') or DEFAULT
    if is_postgresql(dsn):
        from .store_postgres import Postgres
        store: Store = Postgres(dsn)
    else:
        from .store_sqlite import Sqlite
        store = Sqlite(path_of(dsn), make)
    try:
        migrate(store, dsn, make)
    except BaseException:
        store.close()
        raise
    return store


def migrate(store: Store, dsn: str, make: bool) -> None:
    """Brings the tables to the form that this version has, each step in a transaction of its own, by one program at a time."""
    done = applied(store)
    if done and done[-1] > MIGRATIONS[-1].number:
        raise Wrong('the database %s has tables of a newer version (step %d, this one knows %d)' % (
            shown_dsn(dsn), done[-1], MIGRATIONS[-1].number))
    if len(done) == len(MIGRATIONS):
        return
    if not make:
        raise Wrong('the database %s has no catalogue of this version; ch10 catalogue add makes one' % shown_dsn(dsn))
    for step in MIGRATIONS:
        with store.transaction():
            store.lock_for_migrations()
            if 'ch10_migration' not in store.tables():
                others = [name for name in store.tables() if name in ('recording', 'place', 'channel')]
                if others:
                    raise Wrong('the database %s has a table %s that is none of a catalogue' % (shown_dsn(dsn), others[0]))
                store.rows(store.statement(HISTORY))
            if step.number in applied(store):
                continue
            for text in step.statements_for(store.engine):
                store.rows(store.statement(text))
            store.insert('ch10_migration', ('number', 'name'), [(step.number, step.name)])


def applied(store: Store) -> List[int]:
    """The steps that were done, in order."""
    if 'ch10_migration' not in store.tables():
        return []
    return [number for number, in store.rows('SELECT number FROM ch10_migration ORDER BY number')]


HISTORY = """CREATE TABLE ch10_migration (
    number INTEGER PRIMARY KEY,
    name {text} NOT NULL,
    applied {text} NOT NULL DEFAULT (CURRENT_TIMESTAMP)
)"""
