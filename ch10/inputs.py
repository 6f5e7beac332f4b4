"""What a call reads, and what it writes to."""
from __future__ import annotations

import datetime
import mmap
import os
import re
import select
import stat
import sys
from typing import BinaryIO, List, NamedTuple, Optional, Tuple, Union

from .medium import File, bytes_of, directory
from .standard import PATTERN, Data, Fault


MOST_HELD = 64 << 20
MOST_FRONT = 16 << 20  # bytes in which a recording whose first bytes are damaged has its first packets, if a call says no more


def given() -> Data:
    """Standard input: read whole, or mapped where it is a file or a disk of more than 64 MiB."""
    if sys.stdin is None:
        raise OSError('standard input is closed')
    source = sys.stdin.buffer
    size = size_of(source.fileno())
    if size > MOST_HELD and os.lseek(source.fileno(), 0, os.SEEK_CUR) == 0:
        return mmap.mmap(source.fileno(), size, access=mmap.ACCESS_READ)
    return whole(source)


def date_given() -> Optional[datetime.date]:
    """The date when the file that is standard input was last written to; None of anything else."""
    try:
        state = os.fstat(sys.stdin.fileno())
        return date_of(state) if stat.S_ISREG(state.st_mode) else None
    except (OSError, AttributeError, ValueError):
        return None


class Source(NamedTuple):
    """The file that an input is: its path, its size, and when it was last written to, in nanoseconds."""
    path: str
    size: int
    changed: int

    def beside(self, number: Optional[int], is_whole: bool) -> str:
        """Where the index of a recording is, or of a file of an image by its number; of a walk to its end, or to a fault."""
        return '%s%s%s.idx' % (self.path, '' if number is None else '.%d' % number, '' if is_whole else '.until')


def source_given() -> Optional[Source]:
    """The file that is standard input; None of anything else, and where the system does not say its path."""
    try:
        state, path = os.fstat(sys.stdin.fileno()), os.readlink('/proc/self/fd/%d' % sys.stdin.fileno())
        there = os.stat(path)
    except (OSError, AttributeError, ValueError):
        return None
    if not stat.S_ISREG(state.st_mode) or (there.st_dev, there.st_ino) != (state.st_dev, state.st_ino):
        return None
    return Source(path, state.st_size, state.st_mtime_ns)


def date_of(state: os.stat_result) -> Optional[datetime.date]:
    """The date when a file was last written to, by UTC."""
    try:
        return datetime.datetime.fromtimestamp(state.st_mtime, datetime.timezone.utc).date()
    except (OSError, OverflowError, ValueError):
        return None


def size_of(file: int) -> int:
    """The bytes of a file, or of a disk, of which the system says them at its end alone; 0 of anything else."""
    state = os.fstat(file)
    if not stat.S_ISBLK(state.st_mode):
        return state.st_size if stat.S_ISREG(state.st_mode) else 0
    place = os.lseek(file, 0, os.SEEK_CUR)
    size = os.lseek(file, 0, os.SEEK_END)
    os.lseek(file, place, os.SEEK_SET)
    return size


def whole(source: BinaryIO) -> bytes:
    """All that an input has. One that is set not to wait, as another program may leave it, gives what it has by now: it is asked
    again until its end."""
    if os.get_blocking(source.fileno()):
        return source.read()
    parts: List[bytes] = []
    while True:
        part = source.read()
        if part:
            parts.append(part)
        elif part is None:
            select.select([source], [], [])
        else:
            return b''.join(parts)


class Front:
    """In how many bytes from the front on packets are looked for, by the call that is at work (--front)."""
    most = MOST_FRONT


def is_recording(data: Data) -> bool:
    """Whether an input is a recording: where it begins as one, or where it is no image, and has packets that follow one another
    after a damaged front."""
    if data[:2] == PATTERN:
        return True
    from .packets import Resync  # read when it is asked for: questions to a catalogue do without
    return data[512:520] != b'FORTYtwo' and Resync(data, 0, min(len(data), Front.most)).first() is not None


def listed(data: Data) -> Tuple[str, List[File]]:
    """The volume and the files of an image."""
    if len(data) == 0:
        raise Fault('an empty input')
    try:
        return directory(data)
    except Fault as fault:
        if data[512:520] == b'FORTYtwo':
            raise
        raise Fault('neither a recording (no sync pattern at offset 0) nor an image of a medium (%s)' % fault)


def the_file(files: List[File], number: int) -> File:
    """The file of this number. A Fault where there is none."""
    if not 0 <= number < len(files):
        raise Fault('no file has the number %d: the image has %d' % (number, len(files)))
    return files[number]


def one_part(data: Data, number: Optional[int]) -> Tuple[str, int, int]:
    """Of a recording all its bytes, of an image one file: its title, its first place, and the place behind it."""
    if is_recording(data):
        if number is not None:
            raise Fault('the input is a recording and no image: it has no files')
        return 'recording', 0, len(data)
    volume, files = listed(data)
    number = number or 0
    file = the_file(files, number)
    return ('%s, file %d of %s' % (shown(file.name), number, shown(volume)),) + bytes_of(data, file)


Bytes = Union[bytes, bytearray, memoryview]
HELD = 1 << 18


class Output:
    """What is written to a stream of bytes, by large writes. What has HELD bytes or more is written before the call ends."""

    def __init__(self, to: BinaryIO) -> None:
        self.held: List[Bytes] = []
        self.size, self.to = 0, to
        self.notes: List[str] = []  # of what is written, for standard error

    def write(self, data: Bytes) -> None:
        """Writes bytes, now or later."""
        if len(data) >= HELD:
            self.flush()
            self.to.write(data)
            return
        self.held.append(data)
        self.size += len(data)
        if self.size >= HELD:
            self.flush()

    def note(self, text: str) -> None:
        """Says something of what is written, once, on standard error, when all is written."""
        if text not in self.notes:
            self.notes.append(text)

    def line(self, text: str) -> None:
        """Writes a line in ASCII; other letters are question marks."""
        self.write(text.encode('ascii', 'replace') + b'\n')

    def flush(self) -> None:
        """Writes what is held."""
        self.to.write(b''.join(self.held))
        self.to.flush()
        self.held, self.size = [], 0


def shown(name: str) -> str:
    """A name as `r10 files` prints it."""
    return re.sub('[^A-Za-z0-9._-]', '?', name)


def printable(text: str) -> str:
    """A text as a line takes it: what does not print is a question mark."""
    return text if text.isprintable() else ''.join(letter if letter.isprintable() else '?' for letter in text)


def unread_text(channel: int, name: str, packets: int, why: str) -> str:
    """What is said of packets that were not read."""
    return 'channel %d, %s: %s packet%s not read: %s' % (channel, name, '{:,}'.format(packets), '' if packets == 1 else 's', why)
