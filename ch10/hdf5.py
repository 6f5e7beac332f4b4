"""`ch10 hdf5` and `ch10 mat`: the entries of a recording as columns in a file of HDF5, or of MATLAB in its form 7.3, which is one.

A group for each kind, named as its table of `ch10 sqlite`, a data set for each column of `ch10.tables`, chunked and compressed,
written part by part. These columns are different:

    time        whole numbers of 100 ns since 1970-01-01 00:00:00, the smallest number of 64 bits where there is none
    quality     how good the time is, as `--quality` has it
    texts       numbers; the texts stand beside them as NAME_texts, the first of which is number 0
    bytes       all of them one after the other, with columns of where each entry's begin, from 0 on, and how many there are; words
                likewise

The file has the SHA-256 of its recording as an attribute, by which a catalogue knows of what it was made.

In MATLAB a group is a struct, a column a vector of it, and texts are a matrix of letters, a row for each.
"""
from __future__ import annotations

from argparse import Namespace
import os
from typing import Dict, List, Optional

from .arrays import Array, Foreign, Later, numpy
from .clocks import asked_of
from .doubts import KINDS_READ, judge
from .facts import sum_of
from .inputs import Output, one_part
from .kinds import BUS, BY_NAME, KINDS, TIME, WEAPONS, Kind
from .standard import SUM_OF_RECORDING, Data, Value, Wrong
from .tables import NO_TIME, Recording, Table

h5py: Foreign = Later('h5py', 'python3-h5py')
CHUNK = 1 << 14  # items of a chunk
CLASSES = {'u1': 'uint8', 'u2': 'uint16', 'u4': 'uint32', 'u8': 'uint64', 'i2': 'int16', 'i4': 'int32', 'i8': 'int64',
           'f4': 'single'}
WIDE = {(BUS, 'words'): 'u2', (WEAPONS, 'words'): 'u4'}
MAT_HEAD = b'MATLAB 7.3 MAT-file, written by ch10'


class Texts:
    """Texts by numbers, from 0 on, as they come."""

    def __init__(self) -> None:
        self.numbers: Dict[str, int] = {}

    def of(self, values: Value) -> Array:
        """The numbers of some texts."""
        return numpy.array([self.numbers.setdefault(value, len(self.numbers)) for value in values], 'u4')


class Columns:
    """The data sets of one kind."""

    def __init__(self, group: Foreign, is_mat: bool) -> None:
        self.group, self.is_mat = group, is_mat
        self.texts: Dict[str, Texts] = {}
        self.sizes: Dict[str, int] = {}

    def add(self, name: str, values: Array) -> None:
        """Adds values to a column."""
        if name not in self.sizes:
            shape = (1, 0) if self.is_mat else (0,)
            made = self.group.create_dataset(name, shape, values.dtype, maxshape=(1, None) if self.is_mat else (None,),
                                             chunks=(1, CHUNK) if self.is_mat else (CHUNK,), compression='gzip', compression_opts=4)
            if self.is_mat:
                named(made, CLASSES[values.dtype.str[1:]])
            self.sizes[name] = 0
        begin = self.sizes[name]
        self.sizes[name] = end = begin + len(values)
        held = self.group[name]
        held.resize(end, axis=1 if self.is_mat else 0)
        if len(values):
            held[(0, slice(begin, end)) if self.is_mat else slice(begin, end)] = values

    def add_texts(self, name: str, values: Value) -> None:
        """Adds texts to a column of numbers."""
        self.add(name, self.texts.setdefault(name, Texts()).of(values))

    def add_many(self, name: str, values: Value, form: str) -> None:
        """Adds what has several items for each entry: all items, and of each entry where they begin and how many they are."""
        sizes = numpy.array(list(map(len, values)), 'u8')
        begin = self.sizes.get(name, 0)
        self.add(name, numpy.concatenate([numpy.asarray(one, form) for one in values] or [numpy.empty(0, form)]))
        self.add(name + '_first', (begin + numpy.cumsum(sizes) - sizes).astype('u8'))
        self.add(name + '_number', sizes)

    def close(self) -> None:
        """Writes the texts of numbers beside them."""
        for name, texts in self.texts.items():
            rows = list(texts.numbers)
            if not self.is_mat:
                self.group.create_dataset(name + '_texts', data=numpy.array(rows, object), dtype=h5py.string_dtype())
                continue
            wide = max(map(len, rows), default=0)
            letters = numpy.array([[ord(letter) for letter in row.ljust(wide)] for row in rows], 'u2').reshape(len(rows), wide)
            made = self.group.create_dataset(name + '_texts', data=letters.T if wide else numpy.zeros((1, len(rows)), 'u2') + 32)
            named(made, 'char')
            made.attrs['MATLAB_int_decode'] = numpy.int32(2)


def named(made: Foreign, kind: str) -> None:
    """Gives a data set or group its class of MATLAB."""
    made.attrs['MATLAB_class'] = numpy.bytes_(kind)


def add_part(columns: Columns, kind: Kind, table: Table) -> None:
    """Adds some entries of a kind."""
    columns.add('count', table['count'])
    columns.add('time', table.ticks)
    columns.add_texts('quality', table['quality'])
    columns.add('lost', table['lost'])
    columns.add('channel', table['channel'])
    for name, form in kind.own:
        values = table[name]
        if (kind.type, name) in WIDE:
            columns.add_many(name, values, WIDE[kind.type, name])
        elif form == '{bytes}':
            columns.add_many(name, [numpy.frombuffer(one, 'u1') for one in values], 'u1')
        elif kind.type == TIME:
            columns.add_many(name, [numpy.frombuffer(one.encode(), 'u1') for one in values], 'u1')
        elif form.startswith('{'):
            columns.add_texts(name, values)
        elif form == 'BOOLEAN':
            columns.add(name, values.astype('u1'))
        else:
            columns.add(name, values)


def written(path: str, recording: Recording, kinds: List[Kind], is_mat: bool) -> None:
    """Writes the entries of a recording into a new file."""
    with h5py.File(path, 'w', userblock_size=512 if is_mat else 0) as file:
        with memoryview(recording.data)[recording.begin:recording.end] as view:
            file.attrs[SUM_OF_RECORDING] = sum_of(view)
        if not is_mat:
            file.attrs['times'] = '100 ns since 1970-01-01 00:00:00; %d: none' % NO_TIME
        for kind in kinds:
            columns: Optional[Columns] = None
            for table in recording.parts(kind.name):
                if columns is None:
                    group = file.create_group(kind.word)
                    if is_mat:
                        named(group, 'struct')
                    columns = Columns(group, is_mat)
                add_part(columns, kind, table)
            if columns is not None:
                columns.close()
    if is_mat:
        with open(path, 'r+b') as held:
            held.write(MAT_HEAD.ljust(116) + bytes(8) + b'\x00\x02IM')


def into_file(asked: Namespace, data: Data, out: Output, is_mat: bool) -> None:
    """Writes the file that a call asks for: beside its place first, so that what stands there is whole."""
    command = 'mat' if is_mat else 'hdf5'
    if not asked.out:
        raise Wrong('%s takes --out FILE; see ch10 %s --help' % (command, command))
    for path, what in ((asked.out, 'give --out another name'), (asked.out + '.part', 'remove it, or give --out another name')):
        if os.path.exists(path):
            raise Wrong('%r is there already: %s' % (path[:60], what))
    title, begin, end = one_part(data, asked.file)
    recording = Recording(data, begin, end, title, asked_of(asked), asked.keep_going)
    if not recording.survey.lows:
        recording.survey.judge()
    kinds = [kind for kind in KINDS if asked.kind in (None, kind.name)]
    try:
        written(asked.out + '.part', recording, kinds, is_mat)
    except BaseException:
        if os.path.exists(asked.out + '.part'):
            os.remove(asked.out + '.part')
        raise
    os.replace(asked.out + '.part', asked.out)
    judge(recording.survey, out, KINDS_READ, None, BY_NAME[asked.kind].type if asked.kind else None)


def as_hdf5(asked: Namespace, data: Data, out: Output) -> None:
    """`ch10 hdf5`."""
    into_file(asked, data, out, False)


def as_mat(asked: Namespace, data: Data, out: Output) -> None:
    """`ch10 mat`."""
    into_file(asked, data, out, True)
