"""The tables, step by step. A step that has been in a release does not change: what comes after it is a step of its own.

{identity}, {text}, {bytes} and {time} stand for what the two engines call by different names; all else is the same text for both.
"""
from __future__ import annotations

from typing import List, NamedTuple, Sequence

from .kinds import KINDS

MOST_NUMBER = (1 << 63) - 1  # that a BIGINT takes
CASE = str.maketrans('ABCDEFGHIJKLMNOPQRSTUVWXYZ', 'abcdefghijklmnopqrstuvwxyz')  # as lower() of both engines, for no other letters

# What is kept of a recording and of a channel, but for the recording's number.
RECORDING_COLUMNS = ('sha256', 'kind', 'size', 'verdict', 'opaque', 'fault_offset', 'fault', 'judge', 'first_time', 'last_time',
                     'first_count', 'last_count', 'packets', 'entries', 'losses', 'lost', 'untold', 'jumps', 'damaged',
                     'damaged_bytes', 'added')
CHANNEL_COLUMNS = ('channel', 'data_type', 'type', 'name', 'packets', 'entries', 'bytes', 'first_count', 'last_count', 'first_time',
                   'last_time', 'rate', 'losses', 'lost', 'untold', 'jumps', 'opaque', 'bad')


class Migration(NamedTuple):
    """One step: its number, its name, and its statements, some of them for one engine alone."""

    number: int
    name: str
    statements: Sequence[str]
    postgresql: Sequence[str] = ()
    sqlite: Sequence[str] = ()

    def statements_for(self, engine: str) -> List[str]:
        """The statements for an engine."""
        return list(self.statements) + list(self.postgresql if engine == 'postgresql' else self.sqlite)


RECORDING = """CREATE TABLE recording (
    id {identity},
    sha256 {text} NOT NULL UNIQUE CHECK (length(sha256) = 64),
    kind {text} NOT NULL CHECK (kind IN ('recording', 'image')),
    size BIGINT NOT NULL CHECK (size >= 0),
    verdict {text} NOT NULL CHECK (verdict IN ('strict', 'lenient', 'faulty', 'unjudged')),
    opaque BIGINT CHECK (opaque >= 0),
    fault_offset BIGINT CHECK (fault_offset >= 0),
    fault {text},
    judge {text},
    first_time {text} CHECK (length(first_time) IN (27, 20)),
    last_time {text} CHECK (length(last_time) IN (27, 20)),
    first_count BIGINT,
    last_count BIGINT,
    packets BIGINT NOT NULL CHECK (packets >= 0),
    entries BIGINT NOT NULL CHECK (entries >= 0),
    losses BIGINT NOT NULL CHECK (losses >= 0),
    lost BIGINT NOT NULL CHECK (lost >= 0),
    untold BIGINT NOT NULL CHECK (untold >= 0),
    jumps BIGINT NOT NULL CHECK (jumps >= 0),
    damaged BIGINT NOT NULL CHECK (damaged >= 0),
    damaged_bytes BIGINT NOT NULL CHECK (damaged_bytes >= 0),
    added {text} NOT NULL,
    CHECK ((verdict = 'faulty') = (fault_offset IS NOT NULL)),
    CHECK ((fault_offset IS NULL) = (fault IS NULL)),
    CHECK ((verdict = 'lenient') = (opaque IS NOT NULL)),
    CHECK ((first_time IS NULL) = (last_time IS NULL)),
    CHECK ((first_count IS NULL) = (last_count IS NULL))
)"""

PLACE = """CREATE TABLE place (
    path {text} NOT NULL,
    file_number INTEGER NOT NULL DEFAULT -1 CHECK (file_number >= -1),
    recording BIGINT NOT NULL REFERENCES recording (id) ON DELETE CASCADE,
    volume {text},
    file_name {text},
    closed BOOLEAN,
    listed_size BIGINT,
    seen {text} NOT NULL,
    PRIMARY KEY (path, file_number),
    CHECK ((file_number = -1) = (file_name IS NULL))
)"""

CHANNEL = """CREATE TABLE channel (
    recording BIGINT NOT NULL REFERENCES recording (id) ON DELETE CASCADE,
    channel INTEGER NOT NULL CHECK (channel BETWEEN 0 AND 65535),
    data_type INTEGER NOT NULL CHECK (data_type BETWEEN 0 AND 256),
    type {text} NOT NULL,
    name {text},
    packets BIGINT NOT NULL CHECK (packets >= 0),
    entries BIGINT CHECK (entries >= 0),
    bytes BIGINT NOT NULL CHECK (bytes >= 0),
    first_count BIGINT NOT NULL,
    last_count BIGINT NOT NULL CHECK (last_count >= first_count),
    first_time {text},
    last_time {text},
    rate DOUBLE PRECISION,
    losses BIGINT NOT NULL CHECK (losses >= 0),
    lost BIGINT NOT NULL CHECK (lost >= 0),
    untold BIGINT NOT NULL CHECK (untold >= 0),
    jumps BIGINT NOT NULL CHECK (jumps >= 0),
    opaque BIGINT NOT NULL CHECK (opaque >= 0),
    bad BIGINT NOT NULL CHECK (bad >= 0),
    PRIMARY KEY (recording, channel, data_type)
)"""

DAMAGE = """CREATE TABLE damage (
    recording BIGINT NOT NULL REFERENCES recording (id) ON DELETE CASCADE,
    byte_offset BIGINT NOT NULL CHECK (byte_offset >= 0),
    byte_length BIGINT NOT NULL CHECK (byte_length > 0),
    reason {text} NOT NULL,
    PRIMARY KEY (recording, byte_offset)
)"""

ATTRIBUTE = """CREATE TABLE attribute (
    recording BIGINT NOT NULL REFERENCES recording (id) ON DELETE CASCADE,
    code {text} NOT NULL,
    value {text} NOT NULL,
    PRIMARY KEY (recording, code)
)"""

INDEXES = (
    'CREATE INDEX recording_by_time ON recording (first_time, last_time)',
    'CREATE INDEX recording_by_verdict ON recording (verdict)',
    'CREATE INDEX place_by_recording ON place (recording)',
    'CREATE INDEX place_by_volume ON place (volume)',
    'CREATE INDEX channel_by_number ON channel (channel, type, first_time, last_time, recording)',
    'CREATE INDEX channel_by_type ON channel (type, first_time, last_time, recording)',
    'CREATE INDEX channel_by_name ON channel (lower(name), recording)',
    'CREATE INDEX channel_by_type_and_name ON channel (type, lower(name), recording)',
    'CREATE INDEX channel_by_loss ON channel (type, channel, recording) WHERE losses > 0',
    'CREATE INDEX attribute_by_code ON attribute (code, substr(value, 1, 100))',  # a whole text may be longer than an index takes
)

LOADED = """CREATE TABLE loaded (
    recording BIGINT NOT NULL REFERENCES recording (id) ON DELETE CASCADE,
    channel INTEGER NOT NULL,
    data_type INTEGER NOT NULL,
    entries BIGINT NOT NULL CHECK (entries > 0),
    loaded {text} NOT NULL,
    PRIMARY KEY (recording, channel, data_type)
)"""

# What every table of entries has before its own columns. {text}3 is a text of three letters.
COMMON = (('recording', 'BIGINT NOT NULL'), ('count', 'BIGINT NOT NULL'), ('time', '{time}'), ('lost', 'BIGINT'),
          ('channel', 'INTEGER NOT NULL'))

# By data type the table and its own columns, with the names of `ch10 csv` where they are the same.
ENTRIES = {kind.type: (kind.table, kind.own) for kind in KINDS}


def entry_tables(step: int, partitioned: bool) -> List[str]:
    """The statements of a step that make its tables of entries; in PostgreSQL with a partition for entries without a date, beside
    those of days."""
    made = []
    for name, columns in [(kind.table, kind.own) for kind in KINDS if kind.step == step]:
        made.append('CREATE TABLE %s (%s)%s' % (
            name, ', '.join('%s %s' % column for column in COMMON + columns), ' PARTITION BY RANGE (time)' if partitioned else ''))
        if partitioned:
            made.append('CREATE TABLE %s_undated PARTITION OF %s (CHECK (time IS NULL)) DEFAULT' % (name, name))
            made.append('CREATE INDEX %s_by_time ON %s USING brin (time, recording) WITH (pages_per_range = 32)' % (name, name))
        else:
            made.append('CREATE INDEX %s_by_time ON %s (recording, channel, count)' % (name, name))
    return made


# What could not be read, and what of its times is doubtful, in the words that the filters say it in.
REMARKS = (
    """CREATE TABLE unread (
    recording BIGINT NOT NULL REFERENCES recording (id) ON DELETE CASCADE,
    channel INTEGER NOT NULL,
    data_type INTEGER NOT NULL,
    packets BIGINT NOT NULL CHECK (packets > 0),
    why {text} NOT NULL,
    PRIMARY KEY (recording, channel, data_type, why)
)""",
    """CREATE TABLE remark (
    recording BIGINT NOT NULL REFERENCES recording (id) ON DELETE CASCADE,
    number INTEGER NOT NULL,
    remark {text} NOT NULL,
    PRIMARY KEY (recording, number)
)""")

# Questions are answered from the indexes alone: each has what conditions on channels ask for. Those of rows that few recordings
# have hold these rows alone.
QUESTIONS = (
    'ALTER TABLE channel ADD COLUMN lower_name {text}',
    'UPDATE channel SET lower_name = lower(name) WHERE name IS NOT NULL',
    'DROP INDEX channel_by_number',
    'DROP INDEX channel_by_type',
    'DROP INDEX channel_by_name',
    'DROP INDEX channel_by_type_and_name',
    'CREATE INDEX channel_by_number ON channel (channel, recording, type, lower_name, first_time, last_time)',
    'CREATE INDEX channel_by_type ON channel (type, recording, first_time, last_time)',
    'CREATE INDEX channel_by_name ON channel (lower_name, type, recording, first_time, last_time)',
    'CREATE INDEX channel_by_jump ON channel (recording) WHERE jumps > 0',
)

# Recordings that wait for a worker, that one has taken, or that are set apart (`ch10.work_queue`).
QUEUE = (
    """CREATE TABLE queue (
    id {identity},
    path {text} NOT NULL UNIQUE,
    place {text} NOT NULL UNIQUE,
    folder {text} NOT NULL,
    state {text} NOT NULL DEFAULT 'waiting' CHECK (state IN ('waiting', 'taken', 'apart')),
    tries INTEGER NOT NULL DEFAULT 0 CHECK (tries >= 0),
    returns INTEGER NOT NULL DEFAULT 0 CHECK (returns >= 0),
    due TIMESTAMPTZ NOT NULL DEFAULT now(),
    worker {text},
    why {text},
    CHECK ((state = 'taken') = (worker IS NOT NULL)),
    CHECK (state <> 'apart' OR why IS NOT NULL)
)""",
    "CREATE INDEX queue_by_due ON queue (due, id) WHERE state <> 'apart'",
    "CREATE INDEX queue_taken ON queue (due) WHERE state = 'taken'",
)

# Files of columns that were made of recordings: where they lie, and what they were when that was noted.
COLUMN_FILES = (
    """CREATE TABLE column_file (
    path {text} NOT NULL PRIMARY KEY,
    recording BIGINT NOT NULL REFERENCES recording (id) ON DELETE CASCADE,
    form {text} NOT NULL CHECK (form IN ('hdf5', 'mat')),
    size BIGINT NOT NULL CHECK (size >= 0),
    changed BIGINT NOT NULL,
    file_sha256 {text} NOT NULL CHECK (length(file_sha256) = 64),
    attached {text} NOT NULL
)""",
    'CREATE INDEX column_file_by_recording ON column_file (recording)')

MIGRATIONS = tuple(sorted((
    Migration(1, 'catalogue', (RECORDING, PLACE, CHANNEL, DAMAGE, ATTRIBUTE) + INDEXES),
    Migration(2, 'entries', (LOADED,), postgresql=entry_tables(2, True), sqlite=entry_tables(2, False)),
    Migration(3, 'questions', QUESTIONS),
    Migration(4, 'remarks', REMARKS),
    Migration(9, 'queue', (), postgresql=QUEUE),
    Migration(10, 'column files', COLUMN_FILES),
) + tuple(  # of each kind that is newer its table
    Migration(kind.step, kind.table, (), postgresql=entry_tables(kind.step, True), sqlite=entry_tables(kind.step, False))
    for kind in KINDS if kind.step > 4)))
