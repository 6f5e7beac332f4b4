"""What the other modules share: what a fault is, numbers in bytes, and those types of data of IRIG 106-17, chapter 11, that are no
kinds of channels (`ch10.kinds`), or more than that."""
from __future__ import annotations

import mmap
from typing import Any, Dict, List, Optional, Tuple, Union

Data = Union[bytes, mmap.mmap]  # what a call reads
Value = Any  # of an entry, of a cell, or of JSON: a number, a text, bytes, a list of such, or None
Facts = Dict[str, Value]  # what is known of a recording, by its name: as a row of a database, or as JSON
Words = Any  # of a call, as argparse gives them
Key = Tuple[int, int]  # a channel and a data type
Whose = Tuple[int, int, int, int]  # of a packet: channel, data type, sequence number, counter


class Fault(Exception):
    """What the standard does not allow, and where: at which offset, and of a packet whose header is right its
    length, and its channel, type, sequence number and counter."""

    def __init__(self, what: str, offset: Optional[int] = None, length: Optional[int] = None,
                 whose: Optional[Whose] = None) -> None:
        Exception.__init__(self, what)
        self.what, self.offset, self.length, self.whose = what, offset, length, whose

    def __str__(self) -> str:
        return self.what if self.offset is None else '%s at offset %d' % (self.what, self.offset)

    def lines(self) -> List[str]:
        """What is said of it, a line each."""
        return [str(self)]


class Damaged(Fault):
    """A recording of which some stretches were passed over, of each a line."""

    def __init__(self, lines: List[str]) -> None:
        Fault.__init__(self, '%d stretches were passed over' % len(lines))
        self.said = lines

    def lines(self) -> List[str]:
        """A line for each stretch."""
        return self.said


class Wrong(Exception):
    """What is wrong in the words of a call."""


def let_go(data: Data, begin: int, end: int) -> None:
    """Gives back the memory that some bytes of a mapped file take. They are read again where they are asked for again. From Python
    3.8 on."""
    begin = -(-begin // mmap.PAGESIZE) * mmap.PAGESIZE
    if begin < end and isinstance(data, mmap.mmap) and hasattr(data, 'madvise'):
        data.madvise(mmap.MADV_DONTNEED, begin, end - begin)


SPAN = 16 << 20  # bytes after which that is done


def find(data: Data, what: bytes, begin: int, end: int) -> int:
    """The first place of some bytes from one place on and before another, or -1: as data.find, and memory is given back on the
    way."""
    while begin < end:
        last = min(begin + SPAN, end)
        place = data.find(what, begin, min(last + len(what) - 1, end))
        if place >= 0 or last == end:
            return place
        let_go(data, begin, last)
        begin = last
    return -1


def need(held: bool, offset: int, what: str) -> None:
    """Raises a Fault at an offset unless something holds."""
    if not held:
        raise Fault(what, offset)


def little(data: Data, at: int, size: int) -> int:
    """A number of so many bytes, the low one first."""
    return int.from_bytes(data[at:at + size], 'little')


def big(data: Data, at: int, size: int) -> int:
    """A number of so many bytes, the high one first."""
    return int.from_bytes(data[at:at + size], 'big')


def text(data: bytes) -> str:
    """Bytes as ASCII, without zeros and spaces at the end."""
    return data.rstrip(b'\x00 ').decode('ascii', 'replace')


def digits(data: bytes) -> str:
    """Bytes as hex digits; - where there are none."""
    return data.hex() or '-'


SYNC = 0xEB25
PATTERN = b'\x25\xeb'  # its bytes
LOSS, SETUP, EVENT, INDEX, STREAMING, TIME, NETWORK_TIME = 0x00, 0x01, 0x02, 0x03, 0x04, 0x11, 0x12
REPORT = bytes(4) + b'LOSS'  # what the body of a loss report begins with
WIDTHS = (0, 1, 2, 4)
SUMS = (None, 'B', 'H', 'I')
COUNT_BITS = (1 << 48) - 1
SUM_OF_RECORDING = 'recording_sha256'  # an attribute of a file of columns: of what it was made
NONE_LATER = (1 << 64) - 1
