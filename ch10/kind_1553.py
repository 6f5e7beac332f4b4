"""MIL-STD-1553 (IRIG 106-17, 11.2.4, data type 0x19, format 1): messages of words of 16 bits, after a stamp, a block status word,
gap times and their length in bytes."""
from __future__ import annotations

from functools import lru_cache
from typing import Dict, List, Tuple, TYPE_CHECKING

from .arrays import Array, numpy
from .buses import RT_TO_RT, block_1553, command_1553, flags_1553
from .columns import NO_WORD, Batch, Blobs, Block, Coded, Group, HexWords, Hexed, Octets, Places, of_own_size
from .standard import Data

if TYPE_CHECKING:
    from .fields import Reader

LESS = 'less than its entries in a body'
NUMBER = 0xFFFFFF
LAST = (1 << 63) - 1


def find(batch: Batch) -> Places:
    """The places of the messages: so many in each packet as its word says."""
    found = of_own_size(batch, 14, 12, False, batch.words & NUMBER)
    batch.kept['is even'] = not (found[0] & 1).any()
    return found


def count(batch: Batch, at: Array, of: Array) -> Array:
    """The count of each message's stamp."""
    return batch.stamps(at, of)


def number_in(data: Data, at: int, size: int, word: int) -> int:
    """How many messages a packet has, by its word."""
    return word & NUMBER


# ---- words with the high byte first

def turned(batch: Batch, at: int) -> bytes:
    """The bytes from a place on, each two of them turned."""
    octets = batch.octets[at:]
    return octets[:len(octets) & -2].view('<u2').byteswap().tobytes()


def both(batch: Batch) -> bytes:
    """The bytes with each two turned: from the first one on, then from the second one on, as words stand at odd places too."""
    return batch.held('turned', lambda: turned(batch, 0) + (b'' if batch.kept['is even'] else turned(batch, 1)))


def places_in(batch: Batch, at: Array) -> Array:
    """Where in `both` the bytes from these places on are."""
    return at + (at & 1) * ((len(batch.octets) & -2) - 1)


# ---- what the words are

def layout(command: Array, number: Array, status: Array) -> Tuple[Array, Array, Array]:
    """Where, of so many words from a command word on, the second command word and the status words stand, or -1."""
    places, lasts = by_command()
    one, second, two = places[command], numpy.full(len(command), -1), numpy.full(len(command), -1)
    one[one >= number] = -1
    between = numpy.flatnonzero((status & RT_TO_RT != 0) & (number > 1))
    if len(between):
        number, last = number[between], lasts[command[between]]
        second[between] = 1
        one[between] = numpy.where(number > 2, 2, -1)
        two[between] = numpy.where(number > last, last, -1)
    return second, one, two


@lru_cache(maxsize=None)
def by_command() -> Tuple[Array, Array]:
    """By the command word where the status word stands, and where the second one of a message between terminals does; `LAST` where
    no terminal answers."""
    every = numpy.arange(1 << 16)
    rt, sends, sa, low = every >> 11, every >> 10 & 1, every >> 5 & 31, every & 31
    size = numpy.where(low == 0, 32, low)
    one = numpy.where(sends == 1, 1, 1 + numpy.where((sa == 0) | (sa == 31), low >> 4, size))
    return numpy.where(rt == 31, LAST, one), numpy.where(rt == 31, LAST, 3 + size)


class Words:
    """Of each message how many words it has, its command word, the places of the other words of its frame or -1, and these words or
    NO_WORD."""

    def __init__(self, block: Block) -> None:
        self.status, self.gap = block.numbers(8, 2), block.numbers(10, 2)
        self.number = block.numbers(12, 2) >> 1
        self.at, self.batch = block.at + 14, block.batch
        self.has = self.number > 0
        self.command = self.word(numpy.where(self.has, 0, -1))
        self.places = layout(self.command * self.has, self.number, self.status)
        self.other, self.one, self.two = map(self.word, self.places)

    def word(self, place: Array) -> Array:
        """The word at this place of each message, or NO_WORD."""
        found, some = numpy.full(len(place), NO_WORD), numpy.flatnonzero(place >= 0)
        found[some] = self.batch.numbers(self.at[some] + 2 * place[some], 2)
        return found

    def data(self) -> Octets:
        """The data words: those that are no command word and no status word. They are one stretch, or two with a status word
        between."""
        number, (second, one, two) = self.number, self.places
        first = 1 + (one == 1)
        between = second == 1
        first[between] = 2 + (number[between] > 2)
        hole = numpy.where(two >= 0, two, numpy.where(one >= first, one, number))
        many, rest = hole - first * self.has, numpy.maximum(number - hole - 1, 0)
        start, source = places_in(self.batch, self.at), self.batch.hexed('hex of words', lambda: both(self.batch))
        return Octets(source, 2 * start + 4 * first, 4 * many, 2 * start + 4 * (hole + 1), 4 * rest)


def raw(block: Block) -> Dict[str, Group]:
    """The columns of `r10 play`: status, gaps and words."""
    source = block.batch.hexed('hex of words', lambda: both(block.batch))
    size = block.numbers(12, 2) & -2
    return {'status': Hexed(block.numbers(8, 2), 4), 'gap': Hexed(block.numbers(10, 2), 4),
            'words': Octets(source, 2 * places_in(block.batch, block.at + 14), 2 * size)}


def meant(block: Block, reader: Reader) -> List[Group]:
    """The columns of csv: what command, status and errors mean. Gaps are in microseconds."""
    words = Words(block)
    is_mode = (words.command >> 5 & 31 == 0) | (words.command >> 5 & 31 == 31)
    flags = words.one % NO_WORD | words.two % NO_WORD

    def bus(key: int) -> tuple:
        side, errors = block_1553((key & 0x7FF) << 3)
        return side, reader.bus_name(reader.numbering.channels[key >> 11], None), errors

    return [
        words.data(), Coded(block.channel << 11 | words.status >> 3 & 0x7FF, bus, 3),
        Coded(words.command >> 5, lambda key: command_1553(key << 5)[:3] if key < 2048 else (None, None, None), 3),
        Coded(numpy.where(words.has, words.command & 31 | is_mode.astype(numpy.int64) << 5, 64),
              lambda key: command_1553((1 - (key >> 5)) << 5 | key & 31)[3:] if key < 64 else (None, None), 2),
        Coded(numpy.where(words.other < NO_WORD, words.other >> 6 & 0x3E0 | words.other >> 5 & 31, 1024),
              lambda key: (key >> 5, key & 31) if key < 1024 else (None, None), 2),
        HexWords(words.one), HexWords(words.two),
        Coded(flags & 0x7FF, flags_1553),
        Coded(words.gap, lambda key: ((key & 0xFF) / 10, (key >> 8) / 10), 2)]


def own(block: Block) -> List[Group]:
    """The columns of its table in a database."""
    words = Words(block)

    def status(pair: int) -> tuple:
        first, second = pair >> 17, pair & 0x1FFFF
        return None if first == NO_WORD else first, None if second == NO_WORD else second

    def frame(pair: int) -> tuple:
        bus, errors = block_1553(pair & 0xFFFF)
        return bus, errors or None, pair & 0xFFFF, (pair >> 16 & 0xFF) / 10, (pair >> 24) / 10

    return [Coded(words.command, lambda word: command_1553(None if word == NO_WORD else word), 5),
            Coded(words.other, lambda word: command_1553(None if word == NO_WORD else word)[0:3:2], 2),
            Coded(words.one << 17 | words.two, status, 2), Coded(words.gap << 16 | words.status, frame, 5),
            Blobs(both(block.batch), places_in(block.batch, words.at), 2 * words.number)]
