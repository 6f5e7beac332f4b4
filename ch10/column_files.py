"""`ch10 catalogue attach` and `check`: files of columns that `ch10 hdf5` and `ch10 mat` made of recordings of a catalogue.

Such a file has the sum of its recording in it, by which it is found. The catalogue keeps where it lies, its size, when it was
written, and a sum of its own. A file that is not there or was changed is said wherever it is shown.
"""
from __future__ import annotations

import hashlib
import os
import re
import stat
from typing import Iterator, List, NamedTuple, Optional

from .inputs import Output, printable
from .standard import SUM_OF_RECORDING, Fault, Words
from .store import Store, open_store

COLUMNS = ('path', 'form', 'size', 'changed', 'file_sha256', 'attached')
PART = 1 << 20


class ColumnFile(NamedTuple):
    """A file of columns, as the catalogue keeps it: its place, `hdf5` or `mat`, its bytes, when it was written to in nanoseconds
    since 1970, its sum, and when it was attached."""
    path: str
    form: str
    size: int
    changed: int
    file_sha256: str
    attached: str

    def state(self, is_whole: bool) -> Optional[str]:
        """What is wrong with the file, or None. Its bytes are looked at where its size is right and the time is not, or where all
        are asked for."""
        path = path_of(self.path)
        try:
            found = os.stat(path)
            if not stat.S_ISREG(found.st_mode):
                return 'no regular file'
            if found.st_size != self.size:
                return 'changed: it has %d bytes' % found.st_size
            if (is_whole or found.st_mtime_ns != self.changed) and sum_of_file(path) != self.file_sha256:
                return 'changed: it has other bytes'
        except FileNotFoundError:
            return 'missing'
        except OSError as error:
            return 'not readable: %s' % (error.strerror or error)
        return None

    def text(self, is_whole: bool = False) -> str:
        """A line with all of that."""
        return 'columns in %s (%s, %d bytes, attached %s UTC): %s' % (
            printable(self.path), self.form, self.size, self.attached, self.state(is_whole) or 'as it was attached')


def path_of(place: str) -> bytes:
    """The path that a place is the text of (`ch10.range_words.place`)."""
    return re.sub(rb'\\x([0-9a-f]{2})', lambda found: bytes([int(found[1], 16)]), place.encode())


def sum_of_file(path: bytes) -> str:
    """The SHA-256 of a file, in bounded memory."""
    made = hashlib.sha256()
    with open(path, 'rb') as file:
        for part in iter(lambda: file.read(PART), b''):
            made.update(part)
    return made.hexdigest()


def files_of(store: Store, number: Optional[int] = None) -> Iterator[ColumnFile]:
    """The files of a recording by its id, or of all, by their places."""
    where, values = ('', ()) if number is None else (' WHERE recording = ?', (number,))
    for row in store.rows('SELECT %s FROM column_file%s ORDER BY path' % (', '.join(COLUMNS), where), values):
        yield ColumnFile(*row)


def recording_in(path: str) -> str:
    """The sum of the recording that a file of columns was made of. A Fault where it does not say that."""
    from .hdf5 import h5py  # read when it is asked for: questions do without
    try:
        with h5py.File(path, 'r') as file:
            said = file.attrs.get(SUM_OF_RECORDING)
    except OSError:
        raise Fault('%s is no file of HDF5' % printable(path))
    said = said.decode('ascii', 'replace') if isinstance(said, bytes) else said
    if not isinstance(said, str) or not re.fullmatch('[0-9a-f]{64}', said):
        raise Fault('%s does not say which recording it was made of: ch10 hdf5 and ch10 mat write that' % printable(path))
    return said


def attach(asked: Words, _: None, out: Output) -> None:
    """`ch10 catalogue attach`: notes files of columns at the recordings that they were made of; one at a place that had another has
    that one's place."""
    from .catalogue import need_file, now, placed
    store, known = open_store(asked.db), []
    try:
        for path in asked.files:
            need_file(path)
            there, sum_ = os.stat(path), recording_in(path)
            rows = store.rows('SELECT id FROM recording WHERE sha256 = ?', (sum_,))
            if not rows:
                raise Fault('%s was made of a recording that is not in the catalogue: its sum begins with %s' % (
                    printable(path), sum_[:12]))
            with open(path, 'rb') as file:
                form = 'mat' if file.read(6) == b'MATLAB' else 'hdf5'
            known.append((rows[0][0], ColumnFile(placed(path, os.path.basename(path), None), form, there.st_size,
                                                 there.st_mtime_ns, sum_of_file(os.fsencode(path)), now())))
        with store.transaction():
            for number, one in known:
                store.rows('DELETE FROM column_file WHERE path = ?', (one.path,))
                store.insert('column_file', ('recording',) + COLUMNS, [(number, *one)])
    finally:
        store.close()
    out.line('%d attached' % len(known))


def check(asked: Words, _: None, out: Output) -> None:
    """`ch10 catalogue check`: reads all files of columns. A Fault where one is missing, or is not what it was."""
    store = open_store(asked.db, make=False)
    try:
        files = list(files_of(store))
    finally:
        store.close()
    bad: List[str] = []
    for one in files:
        why = one.state(True)
        if why:
            bad.append(one.path)
            out.line('%s: %s' % (printable(one.path), why))
    out.line('%d of %d files of columns are as they were attached' % (len(files) - len(bad), len(files)))
    if bad:
        raise Fault('%d of %d files of columns are missing or changed, first %s' % (len(bad), len(files), printable(bad[0])))
