"""The words of the commands that name files, and read no standard input: catalogue, load and report, which go over many recordings,
mend and rescue."""
from __future__ import annotations

import argparse
import importlib
import os
import re
from typing import Callable, Tuple, Type, TypeVar, TYPE_CHECKING

from .kinds import KINDS
from .standard import Data, Value, Words

if TYPE_CHECKING:
    from .inputs import Output

Made = TypeVar('Made', bound=argparse.ArgumentParser)

VERDICTS = ('strict', 'lenient', 'faulty', 'unjudged')

DATABASE = """The database is a file of SQLite (--db range.sqlite) or a server of PostgreSQL
(--db postgresql://user@host/range, or 'host=.. dbname=..'); without --db it is
that of CH10_DB in the environment, else ch10.sqlite in this folder. A server
needs the package python3-psycopg2."""
ADD_MORE = """Of each recording, or each file of an image, it keeps sum, size, places,
verdict, times, channels, damaged stretches and setup attributes. A recording is
known by its sum: given again, or at another place, it is no second one. What a
run that was stopped had not kept yet, the next one adds. Of a folder it takes
what ends in .ch10, .c10 or .img, or begins as a recording or an image does. It
enters the folders below it, but by no symbolic link.
"""
FIND_MORE = """All conditions have to hold; of one that is given several times, any. Those of a
channel hold for one and the same channel, and with them the times are that
channel's. PATTERN may have * and ?, and looks at no case. A and B are times as
'2024-02-29 12:34:56.78', 2024-02-29 (the whole day), or '060 12:34:56' for
recordings whose times have no date; both ends are taken in.
"""
ATTACH_MORE = """Each file says of which recording it was made, which has to be in the catalogue. It
keeps place, size, time and sum of the file: catalogue show says where one is
missing or changed, by size and time. catalogue check reads them whole.
"""


class Moment:
    """A civil time as it was given: a day alone is the whole of it."""

    def __init__(self, word: str) -> None:
        from .times import civil, ticks_of  # read when it is asked for
        day, _, clock = word.replace('T', ' ').partition(' ')
        try:
            if re.fullmatch(r'\d\d:\d\d', clock):
                clock += ':00'
            ticks = ticks_of('%s %s' % (day, clock or '00:00:00'))
        except ValueError:
            raise argparse.ArgumentTypeError("%r is no time such as '2024-02-29 12:34:56.78', 2024-02-29, '060 12:34:56.78' or 060"
                                             % word[:60])
        self.dated = '-' in day
        self.first = '%s.%07d' % (civil(ticks, self.dated), ticks % 10 ** 7)
        self.last = self.first if clock else '%s 23:59:59.9999999' % self.first.split(' ')[0]


def run_of(module: str, name: str) -> Callable[..., None]:
    """What does a command; its module is read when it is asked for, so that the filters begin as fast as before."""
    def run(asked: Words, data: Data, out: Output) -> None:
        getattr(importlib.import_module('ch10.' + module), name)(asked, data, out)
    return run


QUEUE_MORE = """What is queued waits for ch10 catalogue work, which may run on many machines; all
have to see the files at the same paths. What is in the queue, or as it lies there
in the catalogue, is passed over; so is what is set apart. --again takes these
too. Without an INPUT it lists what is set apart, and how many wait.
"""
WORK_MORE = """It takes recordings from the queue until none waits and none is taken. The try
counts before anything is read. A worker has a recording for its lease, and puts
that off while it lives; of one that ended, another takes it after the lease. What
has had all its tries is set apart with its reason, and tried no more. docs/RANGE.md
says what happens where a disk, a worker or the database is gone.
"""
LOAD_MORE = """What is not in the catalogue is added first. The entries of a channel of a
recording are loaded once: given again they are no second ones, and what a run
that was stopped had not loaded whole it had not loaded at all. The tables:
%s.
"""


def load_more() -> str:
    """The end of the help of `load`."""
    return filled(LOAD_MORE % ', '.join(kind.table for kind in KINDS)) + DATABASE


def filled(text: str) -> str:
    """A text in lines as those of other help."""
    import textwrap  # read when it is asked for
    return textwrap.fill(text, 80) + '\n'


REPORT_MORE = """As in: ch10 report flight/*.ch10 > report.html. It has an overview, a time line
of the files, and of each recording its verdict, a picture of rates and losses,
channels, damaged stretches, clocks, what its buses carried, and its setup.
Where the program r10 is not there, it says that nothing was judged. The status
is 1 if a recording is faulty or damaged, and if there is none.
"""


MEND_MORE = """Messages, their times and their order stay as they are, byte for byte. Headers,
sums, sequence numbers, event counts and the index are made anew. What r10 has no
place for is left out: other types of data, other forms, counts that go back.
The report on standard output has a line for each: what is left out, where
messages are missing, and what is made anew. Where messages are missing the next
packet of the channel has a gap, with their number where it is known. The status
is 1 where something is missing, and the file is written all the same. The input
is opened for reading alone, and FILE has its name when it is whole.
"""


RESCUE_MORE = """Setup packets at the start of blocks begin files; packet after packet shows
what belongs to each. Older recordings that were written over in part are kept
apart. Each file has its place in its name, as block-3.ch10, and is written as it
stands; ch10 mend makes a strict one of it. The report on standard output has a
line for each. IMAGE is opened for reading alone.
"""


def text(word: str) -> str:
    """A word of a call as text: bytes that are no UTF-8 are escaped."""
    return os.fsencode(word).decode('utf-8', 'backslashreplace')


def place(word: str) -> str:
    """A path as text, as places are kept. No two paths have the same: a path may have what stands for a byte that is no UTF-8 in
    its own letters."""
    return os.fsencode(word).replace(b'\\x', b'\\x5cx').decode('utf-8', 'backslashreplace')


def input_path(word: str) -> str:
    """The path of an input. An empty word, as of a shell's variable that is not set, names none."""
    if not word:
        raise argparse.ArgumentTypeError("'' names no file and no folder")
    return word


def positive(word: str) -> int:
    """A whole number from 1 on, as a word of a call."""
    if not (word.isascii() and word.isdigit()) or not 1 <= len(word) <= 15 or int(word) == 0:
        raise argparse.ArgumentTypeError('%r is no number from 1 on' % word[:60])
    return int(word)


def pair(word: str) -> Tuple[str, str]:
    """A code and its value, as CODE=VALUE."""
    code, equals, value = text(word).partition('=')
    if not equals:
        raise argparse.ArgumentTypeError('%r is not CODE=VALUE, as G\\TA=TAIL 07' % word[:60])
    return code, value


def sum_front(word: str) -> str:
    """The front of a sum: hex digits."""
    if not re.fullmatch('[0-9a-fA-F]{1,64}', word):
        raise argparse.ArgumentTypeError('%r is no front of a sum: hex digits' % word[:70])
    return word.lower()


def add_words(commands: argparse._SubParsersAction[Made], Parser: Type[Made], channel_number: Callable[[str], int],
              file_number: Callable[[str], int], with_clock: Callable[[argparse.ArgumentParser], None],
              with_jobs: Callable[[argparse.ArgumentParser], None]) -> None:
    """Registers the commands with those of a call."""
    def command(of: argparse._SubParsersAction[Made], name: str, run: Callable[..., None], about: str, more: Value) -> Made:
        made = of.add_parser(name.split(' ')[-1], prog='ch10 ' + name, allow_abbrev=False, description=about, epilog=more,
                             formatter_class=argparse.RawDescriptionHelpFormatter)
        made.set_defaults(run=run, opens=True)
        return made

    def with_database(made: argparse.ArgumentParser) -> None:
        made.add_argument('--db', metavar='DSN', help='the database')

    def with_inputs(made: argparse.ArgumentParser) -> None:
        made.add_argument('inputs', nargs='+', type=input_path, metavar='INPUT', help='a recording, an image, or a folder')

    def judging(made: argparse.ArgumentParser) -> None:
        made.add_argument('--jobs', type=positive, metavar='N',
                          help='so many at a time, up to 64 (without it: one for each processor)')
        made.add_argument('--memory', type=positive, metavar='MIB',
                          help='memory for what the program holds while it judges (without it: half of what is free); '
                          'what is larger is not judged')
        made.add_argument('--program', metavar='PATH',
                          help='the program r10 (without it: R10 in the environment, the proved build, or r10 on the PATH)')
        made.add_argument('--unjudged', action='store_true', help='without a verdict, which a later add gives')

    top = commands.add_parser('catalogue', prog='ch10 catalogue', allow_abbrev=False,
                              description='A catalogue of recordings, and questions to it.',
                              epilog=DATABASE, formatter_class=argparse.RawDescriptionHelpFormatter)
    inner = top.add_subparsers(metavar='add|find|show|attach|check|queue|work', dest='inner', required=True, parser_class=Parser)

    made = command(inner, 'catalogue add', run_of('catalogue', 'add'), 'Adds recordings, or the files of images, to the catalogue.',
                   ADD_MORE + DATABASE)
    with_inputs(made)
    with_database(made)
    made.add_argument('--place', type=place, metavar='BASE',
                      help='where they are to be found: BASE/NAME, as s3://bucket/flights, in place of the path')
    judging(made)
    with_clock(made)
    made.add_argument('--anew', action='store_true', help='judges and counts what is there already once more')

    made = command(inner, 'catalogue find', run_of('find', 'find'), 'Finds recordings in the catalogue.', FIND_MORE + DATABASE)
    with_database(made)
    made.add_argument('--from', dest='first', type=Moment, metavar='A', help='that have something from this time on')
    made.add_argument('--to', dest='last', type=Moment, metavar='B', help='that have something up to this time')
    made.add_argument('--channel', type=channel_number, action='append', metavar='C', help='with this channel')
    made.add_argument('--name', type=text, metavar='PATTERN', help='with a channel of this name')
    made.add_argument('--type', type=text, action='append', metavar='T',
                      help='with a channel of this type, as 1553, arinc or video-40')
    made.add_argument('--losses', type=positive, metavar='N', help='with a channel of N losses or more')
    made.add_argument('--jumps', type=positive, metavar='N', help='with a channel of N jumps or more')
    made.add_argument('--verdict', action='append', choices=VERDICTS, metavar='V', help='with this verdict: ' + ', '.join(VERDICTS))
    made.add_argument('--damaged', action='store_true', help='with damaged stretches')
    made.add_argument('--volume', type=text, action='append', metavar='NAME', help='from a medium of this volume name')
    made.add_argument('--place', type=place, metavar='PATTERN', help='that lies there')
    made.add_argument('--attribute', type=pair, action='append', metavar='CODE=VALUE', help='with this attribute in its setup text')
    made.add_argument('--sum', type=sum_front, metavar='HEX', help='whose sum begins so')
    made.add_argument('--limit', type=positive, metavar='N', help='at most so many')
    made.add_argument('--channels', action='store_true', help='their channels, those that are asked for')
    made.add_argument('--json', action='store_true', help='a JSON object for each recording, with all that is kept of it')

    made = command(inner, 'catalogue show', run_of('find', 'show'), 'Shows all that is kept of one recording.', DATABASE)
    made.add_argument('sum', metavar='SUM', help='its sum, or 4 hex digits of its front or more')
    with_database(made)
    made.add_argument('--json', action='store_true',
                      help='JSON lines: one each for the recording, its places, channels, damaged stretches and attributes')

    made = command(inner, 'catalogue attach', run_of('column_files', 'attach'),
                   'Takes note of files of columns, as ch10 hdf5 and ch10 mat make them.', ATTACH_MORE + DATABASE)
    made.add_argument('files', nargs='+', type=input_path, metavar='FILE', help='a file of HDF5, or of MATLAB')
    with_database(made)

    made = command(inner, 'catalogue check', run_of('column_files', 'check'),
                   'Reads all files of columns, and says which are missing or changed.', DATABASE)
    with_database(made)

    made = command(inner, 'catalogue queue', run_of('queue_worker', 'queue_up'),
                   'Puts recordings and images into the queue of a database of PostgreSQL.', QUEUE_MORE + DATABASE)
    made.add_argument('inputs', nargs='*', type=input_path, metavar='INPUT', help='a recording, an image, or a folder')
    with_database(made)
    made.add_argument('--place', type=place, metavar='BASE', help='where they are to be found: BASE/NAME, in place of the path')
    made.add_argument('--again', action='store_true', help='also what is set apart, and what the catalogue has')

    made = command(inner, 'catalogue work', run_of('queue_worker', 'work_on'),
                   'Takes recordings from the queue, and adds them to the catalogue.', WORK_MORE + DATABASE)
    with_database(made)
    made.add_argument('--load', action='store_true', help='loads their entries too, as ch10 load does')
    made.add_argument('--channel', type=channel_number, metavar='C', action='append',
                      help='loads the entries of this channel alone; may be given again for another')
    made.add_argument('--stay', action='store_true', help='waits for more when the queue is empty')
    for name, default, about in (('tries', 3, 'a recording is set apart after so many tries'),
                                 ('lease', 60, 'seconds that a worker has a recording without a sign of life'),
                                 ('pause', 60, 'seconds between two tries of a recording'),
                                 ('longest', 3600, 'seconds that the reading of one recording may take'),
                                 ('patience', 600, 'seconds that the database may be away')):
        made.add_argument('--' + name, type=positive, default=default, metavar='N', help='%s (without it: %d)' % (about, default))
    judging(made)
    with_clock(made)

    made = command(commands, 'load', run_of('load', 'load'),
                   'Puts the entries of recordings into tables of a database, one for each kind.', load_more)
    with_inputs(made)
    with_database(made)
    made.add_argument('--channel', type=channel_number, metavar='C', action='append',
                      help='this channel alone; may be given again for another')
    made.add_argument('--place', type=place, metavar='BASE', help='where they are to be found: BASE/NAME, in place of the path')
    judging(made)
    with_clock(made)

    made = command(commands, 'report', run_of('report', 'report'),
                   'Writes one page about recordings: HTML with all that it needs in it.', REPORT_MORE)
    with_inputs(made)
    made.add_argument('--program', metavar='PATH', help='the program r10, for the verdicts')
    made.add_argument('--unjudged', action='store_true', help='without verdicts')
    with_clock(made)
    with_jobs(made)

    made = command(commands, 'mend', run_of('mend', 'mend'),
                   'Writes a strict file out of a damaged or foreign recording, as far as its packets allow.', MEND_MORE)
    made.add_argument('input', type=input_path, metavar='FILE', help='a recording, or an image')
    made.add_argument('--out', type=input_path, metavar='FILE', help='where the strict file is to be; there must be none')
    made.add_argument('--file', type=file_number, metavar='N', help='a file of an image, by its number from 0 on')
    made.add_argument('--json', action='store_true', help='the report as a JSON object for each line')

    made = command(commands, 'rescue', run_of('rescue', 'rescue'),
                   'Finds the recordings on a medium whose directory is gone or damaged.', RESCUE_MORE)
    made.add_argument('image', type=input_path, metavar='IMAGE', help='a disk, or its image')
    made.add_argument('folder', type=input_path, metavar='FOLDER', help='where a file for each is to be; empty, or not there')
    made.add_argument('--json', action='store_true', help='the report as a JSON object for each line')
