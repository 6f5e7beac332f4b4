"""ARINC 429 (IRIG 106-17, 11.2.8, data type 0x38, format 0): words of 32 bits, each after a header with the time since the one
before."""
from __future__ import annotations

from typing import Dict, List, TYPE_CHECKING

from .arrays import Array, numpy
from .buses import ERRORS_429, ODD, label_of
from .columns import Batch, Block, Coded, Group, Hexed, Number, Places, of_one_size
from .standard import Data

if TYPE_CHECKING:
    from .fields import Reader

LESS = 'less than its entries in a body'
NUMBER = 0xFFFF
GAP = 0xFFFFF  # of a header: the time since the word before, or in the first of a packet since its counter


def find(batch: Batch) -> Places:
    """The places of the words: so many in each packet as its word says."""
    return of_one_size(batch, 8, batch.words & NUMBER)


def count(batch: Batch, at: Array, of: Array) -> Array:
    """The count of each word: that of its packet with the gaps before it, of 0.1 microseconds each."""
    if not len(at):
        return at
    gaps = batch.numbers(at, 4) & GAP
    steps = numpy.cumsum(gaps)
    first = numpy.flatnonzero(numpy.concatenate(([True], of[1:] != of[:-1])))
    base = numpy.zeros(len(batch.counters), numpy.int64)
    base[of[first]] = batch.counters[of[first]] - steps[first] + gaps[first]
    return base[of] + steps


def number_in(data: Data, at: int, size: int, word: int) -> int:
    """How many words a packet has, by its word."""
    return word & NUMBER


def raw(block: Block) -> Dict[str, Group]:
    """The columns of `r10 play`: bus, flags and data."""
    head = block.numbers(0, 4)
    return {'bus': Number(head >> 24), 'format': Number(head >> 23 & 1), 'parity': Number(head >> 22 & 1),
            'high': Number(head >> 21 & 1), 'data': Hexed(block.numbers(4, 4), 8)}


def errors(head: Array, word: Array) -> Array:
    """The errors of words, as the places in ERRORS_429: what the headers say of their reception, and whether they have even
    parity."""
    odd = numpy.frombuffer(ODD, numpy.uint8)
    return (head >> 22 & 3) << 1 | 1 ^ (odd[word & 0xFFFF] ^ odd[word >> 16]).astype(numpy.int64)


def meant(block: Block, reader: Reader) -> List[Group]:
    """The columns of csv: label, SDI, data, SSM and parity."""
    head, word = block.numbers(0, 4), block.numbers(4, 4)

    def bus(key: int) -> tuple:
        number = key >> 3 & 0xFF
        return number, reader.bus_name(reader.numbering.channels[key >> 11], number), ERRORS_429[key & 7]

    return [Hexed(word, 8), Coded(block.channel << 11 | (head >> 24) << 3 | errors(head, word), bus, 3),
            Coded(word & 0x3FF, lambda key: (label_of(key & 0xFF, reader.turned), key >> 8), 2), Number(word >> 10 & 0x7FFFF),
            Coded((word >> 29) << 1 | head >> 21 & 1, lambda key: (key >> 1 & 3, key >> 3, key & 1), 3)]


def own(block: Block) -> List[Group]:
    """The columns of its table in a database."""
    head, word = block.numbers(0, 4), block.numbers(4, 4)
    return [Number(word), Number(word >> 10 & 0x7FFFF), Number(head >> 24), Number(word >> 8 & 3), Number(word >> 29 & 3),
            Number(word >> 31), Number(head >> 21 & 1 == 1), Coded(word & 0xFF, lambda label: label_of(label, False)),
            Coded(errors(head, word), lambda bits: ERRORS_429[bits] or None)]
