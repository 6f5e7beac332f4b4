"""The words of a call, and what comes of it."""
from __future__ import annotations

import argparse
from argparse import Namespace
import datetime
import gc
import os
import re
import sys
from typing import BinaryIO, Callable, List, NoReturn, Optional, Tuple, TYPE_CHECKING

from .inputs import MOST_FRONT, Front, Output, Source, date_given, given, listed, source_given
from .kinds import BY_NAME, KINDS
from .range_words import add_words, filled, run_of
from .standard import Data, Fault, Value, Words, Wrong

if TYPE_CHECKING:
    from .times import Bound


class Help(Exception):
    """The text of help, or of the version, which was asked for."""


class Version(argparse.Action):
    def __call__(self, *_: object) -> None:
        raise Help('ch10 ' + version())


NO_VERSION = 'of no number: there is no file VERSION beside its folder'


def version() -> str:
    """The number in the file VERSION beside the package's folder."""
    try:
        with open(os.path.join(os.path.dirname(os.path.dirname(os.path.realpath(__file__))), 'VERSION'), encoding='ascii') as held:
            return held.read().strip()
    except (OSError, UnicodeError):
        pass
    try:  # of a package that is installed
        from importlib.metadata import PackageNotFoundError, version as installed
    except ImportError:  # before Python 3.8
        return NO_VERSION
    try:
        return installed('ch10')
    except PackageNotFoundError:
        return NO_VERSION


ABOUT = """Answers what a crew asks of a recording, or of the image of a medium, by the
public standard alone.

  ch10 summary < INPUT        what each channel has: packets, entries, losses ..
  ch10 csv < INPUT            the entries as CSV, by count, channel and place
  ch10 json < INPUT           the same as JSON lines
  ch10 svg < INPUT            a picture of rates and losses over time
  ch10 setup < INPUT          the setup text, or --tree
  ch10 index < INPUT          the index, and whether it leads where it says
  ch10 range < INPUT          a range of time (--from, --to) as a recording
  ch10 file NAME < IMAGE      one file of an image, as a recording
  ch10 export --as FORM < INPUT   Ethernet, video, analog or PCM as a file
  ch10 values --icd DOC < INPUT   measurements in their units; plot NAME draws them
  ch10 sqlite < INPUT         the entries as a database of SQLite (--out FILE)
  ch10 hdf5, ch10 mat < INPUT     the entries as columns of HDF5, of MATLAB (--out FILE)
  ch10 tmats < SCRIPT         a setup text for the channels of a script of r10, or of r10d's settings
  ch10 catalogue add|find|show    a catalogue of many recordings
  ch10 catalogue queue|work       the same by workers on many machines
  ch10 load INPUT ..          entries of many recordings into a database
  ch10 report INPUT ..        one HTML page about recordings
  ch10 mend FILE --out FILE   a strict file out of a damaged or foreign recording
  ch10 rescue IMAGE FOLDER    the recordings on a medium without its directory

The last five name files. All others read standard input and write standard
output. With --media PATH, a medium or a folder of media in a row, given as often
as there are, they read these in place of it, as one image. Other recorders' files are read too: packets of a type that is not known
are passed over, and counted as opaque. The one packet of r10's own is the loss
report.
summary goes on after damage. The other commands answer what comes before the
first fault, and the status is 1; with --keep-going they go on too.
"""


# ---- the words of a call

COMMANDS: List[str] = []


class Parser(argparse.ArgumentParser):
    def format_help(self) -> str:
        """The text of help; a text at its end that is a function is made now."""
        if callable(self.epilog):  # a text that is made when it is asked for
            self.epilog = self.epilog()
        return argparse.ArgumentParser.format_help(self)

    def print_help(self, file: object = None) -> None:
        """Ends the call with that text."""
        raise Help(self.format_help())

    def error(self, message: str) -> NoReturn:
        """Ends the call as a wrong one."""
        raise Wrong('%s; see %s --help' % (message, self.prog))


def number(word: str) -> int:
    """A whole number in decimal digits, as a word of a call."""
    if len(word) > 20 or not (word.isascii() and word.isdigit()) or word != str(int(word)):
        raise argparse.ArgumentTypeError('%r is no decimal number' % word[:60])
    return int(word)


def file_number(word: str) -> int:
    """The number of a file of an image, from 0 on."""
    if re.search('[^0-9]', word):
        raise argparse.ArgumentTypeError('%r is no number of a file, from 0 on: ch10 summary < IMAGE lists the files' % word[:60])
    return number(word)


def channel_number(word: str) -> int:
    """The ID of a channel, of 16 bits."""
    if number(word) > 0xFFFF:
        raise argparse.ArgumentTypeError('%s is not in 0..=65535' % word[:60])
    return number(word)


def year_number(word: str) -> int:
    """A year of the calendar, with one before and one after it."""
    if not 1 <= number(word) <= 9998:
        raise argparse.ArgumentTypeError('%s is not in 1..=9998' % word[:60])
    return number(word)


def bound(word: str) -> Bound:
    """An end of a range of time: a civil time, or a count."""
    from .times import Bound  # read when it is asked for, as the modules of the commands are: a call begins in a third of the time
    return Bound(word)


TIMES = """A and B are civil times, as '2024-02-29 12:34:56.78', with none to seven places
after the second. 12:34:56 is of the day of the recording's first time.
'060 12:34:56' is a day of the year, for a recording without dates. 1000 is a
count. Both ends are taken in."""


def parser_of() -> 'Parser':
    """The words of all commands."""
    top = Parser(prog='ch10', allow_abbrev=False, formatter_class=argparse.RawDescriptionHelpFormatter,
                 description=ABOUT, add_help=True, usage='ch10 COMMAND [WORDS] < INPUT',
                 epilog='ch10 COMMAND --help says more of each.')
    top.add_argument('--version', action=Version, nargs=0, help='print the version')
    commands = top.add_subparsers(metavar='COMMAND', dest='command', required=True, parser_class=Parser, help=argparse.SUPPRESS)

    def command(name: str, run: Callable, about: str, more: Value = '') -> argparse.ArgumentParser:
        made = commands.add_parser(name, prog='ch10 ' + name, allow_abbrev=False, description=about, epilog=more,
                                   formatter_class=argparse.RawDescriptionHelpFormatter)
        made.set_defaults(run=run)
        if name != 'tmats':  # (whose input is a script)
            made.add_argument('--front', type=number, metavar='MIB',
                              help='a recording whose first packets are within so many MiB from its front (without it: 16)')
            made.add_argument('--file', type=file_number, metavar='N', help='a file of an image, by its number from 0 on'
                              + (' (without it: each)' if name in ('summary', 'sqlite') else '' if name == 'file'
                                 else ' (without it: 0)'))
        return made

    def with_channels(made: argparse.ArgumentParser) -> None:
        made.add_argument('--channel', type=channel_number, metavar='C', action='append',
                          help='this channel alone; may be given again for another')

    def with_measurements(made: argparse.ArgumentParser) -> None:
        made.add_argument('--icd', metavar='DOCUMENT', help='a column more for each measurement of a document: CSV, or DBC')
        made.add_argument('--measurements', action='store_true', help="the same by the recording's own setup text")

    def with_forms(made: argparse.ArgumentParser) -> None:
        made.add_argument('--kind', choices=sorted(BY_NAME), metavar='K',
                          help='the entries of this kind alone, with its columns: ' + ', '.join(sorted(BY_NAME)))
        made.add_argument('--raw', action='store_true', help='the values as they stand in the packets, as r10 play prints them')
        made.add_argument('--turned-labels', action='store_true',
                          help='labels of ARINC 429 whose first bit on the bus is the lowest of the word')
        made.add_argument('--quality', action='store_true',
                          help='a column more, quality: how good the time is, as locked, free or guessed year')
        with_jobs(made)

    def with_jobs(made: argparse.ArgumentParser) -> None:
        made.add_argument('--jobs', type=number, metavar='J',
                          help='so many processes (without it: as many as there are processors, to eight)')

    def going_on(made: argparse.ArgumentParser) -> argparse.ArgumentParser:
        made.add_argument('--keep-going', action='store_true',
                          help='go on after damage; each stretch that is passed over is a line, and the status 1')
        return made

    def with_clock(made: argparse.ArgumentParser) -> None:
        made.add_argument('--time-channel', type=channel_number, metavar='C',
                          help='times by this channel (without it: by one whose clock was locked, of an external source first)')
        made.add_argument('--year', type=year_number, metavar='Y',
                          help='the year of the first time, where times have none (without it: by a time channel that has years, '
                          'else guessed by the dates of setup and file)')
        made.add_argument('--time-from-end', action='store_true',
                          help='times before the last jump of the clock are counted back from what comes after it')

    def with_index(made: argparse.ArgumentParser) -> None:
        made.add_argument('--walk', action='store_true',
                          help='with --from or --to: walk the whole recording, and neither read nor make the index beside it')

    def with_times(made: argparse.ArgumentParser) -> None:
        with_clock(made)
        made.add_argument('--from', dest='first', type=bound, metavar='A', help='the first time')
        made.add_argument('--to', dest='last', type=bound, metavar='B', help='the last time')

    made = command('summary', run_of('table', 'summary'),
                   'Says what each channel of a recording, or of each file of an image, has.', SUMMARY_MORE)
    made.add_argument('--json', action='store_true', help='a JSON object for each line of the table, with whole times')
    with_clock(made)
    with_jobs(made)
    for name, run, about, more in (('csv', run_of('lines', 'as_csv'), 'Writes the entries as CSV.', CSV_MORE),
                                   ('json', run_of('lines', 'as_json'), 'Writes the entries as JSON lines.', JSON_MORE),
                                   ('svg', run_of('picture', 'as_svg'), 'Draws rates and losses over time, as SVG.', SVG_MORE)):
        made = going_on(command(name, run, about, more + TIMES))
        with_channels(made)
        with_times(made)
        if name != 'svg':
            with_index(made)
            with_forms(made)
            with_measurements(made)
    made = going_on(command('setup', run_of('cuts', 'setup'),
                            'Writes the setup text, byte for byte; several packets one after the other.'))
    made.add_argument('--streaming', action='store_true', help='the configuration of a stream (computer-generated data, format 4)')
    made.add_argument('--tree', action='store_true', help='the attributes of chapter 9 as a tree, '
                      'and which channels of the recording they do not name or name otherwise')
    with_clock(going_on(command('index', run_of('index', 'index'), 'Writes the entries of the index as CSV.', INDEX_MORE)))
    made = command('tmats', run_of('script', 'as_tmats'),
                   'Writes a setup text of chapter 9 for the channels of a script, or of settings of r10d.',
                   'As in: ch10 tmats --hex < SCRIPT, which is what setup = "..." takes.')
    made.add_argument('--hex', action='store_true', help='as hex digits')
    made = going_on(command('sqlite', run_of('database', 'as_sqlite'), 'Writes the entries into a new database of SQLite.',
                            sqlite_more))
    made.add_argument('--out', metavar='FILE', help='where the database is to be; there must be none')
    with_channels(made)
    with_clock(made)
    with_measurements(made)
    with_jobs(made)
    made.add_argument('--turned-labels', action='store_true',
                      help='labels of ARINC 429 whose first bit on the bus is the lowest of the word')
    for name, run, about in (('hdf5', run_of('hdf5', 'as_hdf5'), 'Writes the entries as columns into a new file of HDF5.'),
                             ('mat', run_of('hdf5', 'as_mat'), 'Writes them into a new file of MATLAB, in its form 7.3.')):
        made = going_on(command(name, run, about, HDF5_MORE))
        made.add_argument('--out', metavar='FILE', help='where the file is to be; there must be none')
        made.add_argument('--kind', choices=sorted(BY_NAME), metavar='K', help='the entries of this kind alone')
        with_clock(made)
    made = going_on(command('range', run_of('cuts', 'as_range'), 'Writes the packets of a range of time as a recording.',
                            RANGE_MORE + TIMES))
    with_times(made)
    with_index(made)
    with_jobs(made)
    made = command('file', run_of('cuts', 'as_file'), 'Writes one file of an image, byte for byte.',
                   'As in: ch10 file FLT1 < medium.img | r10 check')
    made.add_argument('name', nargs='?', metavar='NAME', help='its name, as r10 files prints it')
    made = going_on(command('export', run_of('exports', 'export'), 'Writes what channels carry as a file of other programs.',
                            EXPORT_MORE))
    made.add_argument('--as', dest='form', required=True, choices=('pcapng', 'ts', 'wav', 'samples', 'frames'), metavar='FORM',
                      help='pcapng, ts, wav, samples or frames')
    made.add_argument('--channel', type=channel_number, metavar='C', help='this channel alone')
    made.add_argument('--bits', type=number, metavar='N', help='frames: the bits of a minor frame, where the setup text has none')
    made.add_argument('--signed', action='store_true', help="wav: samples are of two's complement")
    with_clock(made)
    made = going_on(command('values', run_of('values', 'values'), 'Writes measurements by name, in their units, as CSV.',
                            VALUES_MORE + TIMES))
    made.add_argument('--icd', metavar='DOCUMENT', help='where measurements stand: CSV, or DBC; else the setup text')
    made.add_argument('--json', action='store_true', help='as JSON lines')
    made.add_argument('--out', metavar='FILE', help='into a new database of SQLite')
    with_times(made)
    made = going_on(command('plot', run_of('values', 'plot'), 'Draws measurements over time, as SVG.', VALUES_MORE + TIMES))
    made.add_argument('names', nargs='+', metavar='NAME', help='a measurement of the document, or of the setup text')
    made.add_argument('--icd', metavar='DOCUMENT', help='where measurements stand: CSV, or DBC; else the setup text')
    with_times(made)
    add_words(commands, Parser, channel_number, file_number, with_clock, with_jobs)
    COMMANDS.extend(commands.choices)
    return top


SUMMARY_MORE = """Of each channel and type of data:
  packets, bytes  all of them, headers and checksums taken in
  entries         '-' if the type has none, or none that is read
  entries/s       entries but one, over the time from the first to the last
  losses          packets that are flagged: messages were lost before them
  lost            how many messages, by the loss reports before those packets;
                  3+ if a loss has no report: it counts as one. Those after the
                  last message are taken in where the recorder has a log channel
  jumps           packets whose sequence number does not follow that of the
                  channel's packet before
  opaque          packets that are not read: stamps of another clock, a type
                  or a form of it that is not known
  bad             packets that were passed over, where the header says of which
                  channel; in the row all every damaged stretch
  first, last     the lowest and highest count of its entries, or else of its
                  packets' headers
  first time ..   the same as civil times, by the last time of the session that
                  isn't later; '-' if there is none
Where the counter went back a session begins: each has a line. What is doubtful
of times has one, and each channel with packets that were not read."""
CSV_MORE = """The first line names the columns. time has seven places after the second; lost
is how many messages were lost right before an entry, 1+ if the recording has no
number; value is the message in hex digits, or the civil time of a time; what a
type does not have is empty. docs/USING.md lists the columns of each kind.
"""
JSON_MORE = """Each line is an object with the columns of csv as keys, those of the entry's
kind alone. lost is how many messages were lost right before it, "1+" if the
recording has no number; a value that is not there is null. With --raw the keys
of a kind are those of a script, but that a message's data error is data_error.
"""
SVG_MORE = """A strip for each channel: bars of entries a second (of packets, in grey, if no
entry is read), with the highest beside it, and below them in red where messages
were lost. Damaged stretches are shaded, and jumps of the clock marked.
"""
SQLITE_MORE = """A table for each kind: %s,
with the columns of csv --kind and the file's number before them (0 of a
recording); lost is NULL if the recording has no number. Beside them: files,
channels, losses, damage, clocks, clock_jumps and setup.
"""
RANGE_MORE = """Packets stand as they are, each one whole that has an entry in the range (or,
where it is not read, its own count), and the loss report before it; before them
stand the setup and the last time before the range. The index is left out, for
it would name other places.
"""


HDF5_MORE = """A group for each kind, a data set for each column, written part by part. It takes
python3-h5py. docs/RANGE.md has the columns.
"""
INDEX_MORE = """A line for each entry: where its packet stands, whether it is a root or a node,
count and time, channel and type, the place that it names, and whether a packet
of that channel and type, of a root an index packet, begins there.
"""
VALUES_MORE = """Without --icd the setup text says where measurements stand: its groups C, B, D
and P. DOCUMENT says of each measurement where it stands and what it is counted in. A
CSV has a line for each, and names its columns in the first one:
  name,kind,channel,rt,tr,sa,word,bits,signed,scale,unit
  HEADING,1553,7,5,T,3,2,0-15,yes,0.0054931640625,deg
docs/USING.md has all columns. A DBC file of a controller area network has them
for CAN.
"""
EXPORT_MORE = """FORM is one of these; the packets stay in their order in the recording.
  pcapng   Ethernet frames (format 0), an interface for each channel
  ts       the transport stream of a video channel (formats 0 to 2)
  wav      the samples of an analog channel (format 1), 16 bits each
  samples  the same as CSV, a line for each sample
  frames   PCM (format 1) as CSV: minor frames, packed or unpacked, and throughput
"""


def sqlite_more() -> str:
    """The end of the help of `sqlite`, with its tables."""
    names = [kind.word for kind in KINDS]
    return filled(SQLITE_MORE % ' and '.join((', '.join(names[:-1]), names[-1])))


def hint(words: List[str]) -> str:
    """What is said of a word that looks like a file."""
    for word in words:
        if re.search(r'[./]', word) and not word.startswith('-') and not word[:1].isdigit():
            return '; a recording or an image comes from standard input: < FILE'
    return ''


# Words that other programs have, each with the command that does the same here.
LIKE_OTHERS = {'ls': 'summary', 'list': 'summary', 'files': 'summary', 'info': 'summary', 'check': 'summary', 'dump': 'csv',
               'play': 'csv', 'cat': 'csv', 'cut': 'range', 'extract': 'file', 'db': 'sqlite'}


def unknown(word: str) -> str:
    """What is said of a first word that is no command: the nearest one, and all of them."""
    import difflib  # read when it is asked for
    known = list(COMMANDS)
    nearest = [LIKE_OTHERS[word]] if word in LIKE_OTHERS else difflib.get_close_matches(word, known, 1)
    near = "; the nearest is '%s'" % nearest[0] if nearest else ''
    return 'there is no command %r%s%s; the commands are %s and %s; see ch10 --help' % (
        word[:60], hint([word]), near, ', '.join(known[:-1]), known[-1])


def words_of(words: List[str]) -> Namespace:
    """The words of a call, read. A Wrong where they are none."""
    if words and not words[0].startswith('-') and words[0] not in COMMANDS:
        raise Wrong(unknown(words[0]))
    asked, left = PARSER.parse_known_args(words)
    if left:
        raise Wrong('unexpected argument %r%s; see ch10 %s --help' % (left[0][:60], hint(left), asked.command))
    return asked


def media_of(words: List[str]) -> Tuple[List[str], List[str]]:
    """The words of a call without --media, and the media that it names."""
    left: List[str] = []
    media: List[str] = []
    rest = iter(words)
    for word in rest:
        if word == '--':
            return left + [word, *rest], media
        if word == '--media':
            path = next(rest, None)
            if path is None:
                raise Wrong('--media wants a path: a medium, or a folder of media')
            media.append(path)
        elif word.startswith('--media='):
            media.append(word[len('--media='):])
        else:
            left.append(word)
    return left, media


# Of an image that is a row these commands go over all files, where a call names none.
EACH_FILE = ('csv', 'json')
ALL_FILES = ('summary', 'sqlite', 'file')


def over_media(asked: Words, media: List[str], out: Output) -> List[str]:
    """Does what a call asks for of media in a row. The faults, a line each."""
    from .row import image_of  # read when it is asked for
    if getattr(asked, 'opens', False):
        raise Wrong('%s names its inputs itself: give it the media without --media' % asked.command)
    data = image_of(media, out.notes)
    count = len(listed(data)[1])
    if asked.file is not None or asked.command in ALL_FILES or count < 2:
        asked.run(asked, data, out)
        return []
    if asked.command not in EACH_FILE:
        raise Wrong('the media have %d files: give --file N, from 0 on; summary lists them' % count)
    said: List[str] = []
    for number in range(count):
        asked.file, asked.goes_on = number, number > 0
        try:
            asked.run(asked, data, out)
        except Fault as fault:
            said += ['file %d: %s' % (number, it) for it in fault.lines()]
            if not asked.keep_going:
                break
    return said


def answer(words: List[str], source: Callable[[], Data], to: Callable[[], BinaryIO],
           date: Optional[Callable[[], Optional[datetime.date]]] = None,
           file: Optional[Callable[[], Optional[Source]]] = None) -> Tuple[int, Optional[str]]:
    """Does what the words of a call ask for, from what source() gives to the stream that to() gives. date() gives the date of the
    file that source() reads, or None; file() the file, beside which an index may be kept, or None.

    The exit status, and the lines that are said of it, or None: 1 of an input that is judged bad, 2 of a wrong call, 3 where a read
    or a write failed. A reader that has gone is no line.
    """
    try:
        out = Output(to())
        line: List[str] = []
        try:
            words, media = media_of(words)
            asked = words_of(words)
            asked.date = date() if date else None
            asked.source = file() if file else None
            Front.most = asked.front << 20 if getattr(asked, 'front', None) else MOST_FRONT
            if media:
                asked.date = asked.source = None
                line = over_media(asked, media, out)
            else:
                asked.run(asked, None if getattr(asked, 'opens', False) else source(), out)
        except Help as text:
            out.line(str(text).rstrip())
        except Fault as fault:
            line = fault.lines()
        out.flush()
        return (1 if line else 0), '\n'.join(out.notes + line) or None
    except Wrong as wrong:
        return 2, str(wrong)
    except BrokenPipeError:
        return 3, None
    except OSError as error:
        return 3, 'a read or a write failed: %s' % (error.strerror or error)
    except MemoryError:
        return 3, 'out of memory'


PARSER = parser_of()


def standard_output() -> BinaryIO:
    """Where bytes are written. An OSError where it is closed."""
    if sys.stdout is None:
        raise OSError('standard output is closed')
    return sys.stdout.buffer


def say(line: str) -> None:
    """Each line on standard error, whatever stands in it."""
    lines = (''.join(letter if letter.isprintable() else '?' for letter in part[:400]) for part in line.split('\n'))
    try:
        print('\n'.join('ch10: ' + part for part in lines), file=sys.stderr, flush=True)
    except (OSError, AttributeError, UnicodeError):
        pass


def main(words: List[str]) -> int:
    """Does a call with standard input and output, and answers the status of the process."""
    gc.disable()  # what is made here leads to itself nowhere, and there is much of it
    try:
        status, line = answer(words, given, standard_output, date_given, source_given)
    except KeyboardInterrupt:
        status, line = 130, None
    if line:
        say(line)
    if status >= 3 and sys.stdout is not None:
        os.dup2(os.open(os.devnull, os.O_WRONLY), sys.stdout.fileno())  # so that nothing is said of it when Python ends
    return status
