"""16PP194 bus (IRIG 106-17, 11.2.4, data type 0x1A, format 2): messages of words of 32 bits, after a stamp, their length in bytes
and a status. Bits 31 to 0 of the packet's word say how many messages there are.

What the words are is not of chapter 11, but of the bus: they are given as they stand.
"""
from __future__ import annotations

from typing import Dict, List, TYPE_CHECKING

from .arrays import Array, numpy
from .buses import named
from .columns import Batch, Blobs, Block, Coded, Group, Hexed, Octets, Places, of_own_size
from .standard import Data

if TYPE_CHECKING:
    from .fields import Reader

LESS = 'less than its entries in a body'
ERRORS = ((15, 'transaction error'), (14, 'reset'), (13, 'message timeout'), (6, 'status error'), (3, 'echo error'))


def find(batch: Batch) -> Places:
    """The messages; one whose length is no whole number of words does not fit."""
    at, number, bad = of_own_size(batch, 12, 8, False, batch.words)
    of = numpy.repeat(numpy.arange(len(number)), number)
    bad[of[batch.numbers(at + 8, 2) & 3 != 0]] = True
    return at, number, bad


def count(batch: Batch, at: Array, of: Array) -> Array:
    """The counts of the messages' stamps."""
    return batch.stamps(at, of)


def number_in(data: Data, at: int, size: int, word: int) -> int:
    """How many messages a body's word says."""
    return word


def turned(batch: Batch) -> bytes:
    """The bytes with each four turned, so that words have their high byte first: from each of the first four places on."""
    def make() -> bytes:
        parts = [batch.octets[at:] for at in range(4)]
        return b''.join(part[:len(part) & -4].view('<u4').byteswap().tobytes() for part in parts)

    return batch.held('turned', make)


def places_in(batch: Batch, at: Array) -> Array:
    """Where in `turned` the bytes from these places on are."""
    sizes = [len(batch.octets) - first & -4 for first in range(4)]
    return at - (at & 3) + numpy.concatenate(([0], numpy.cumsum(sizes)[:3]))[at & 3]


def raw(block: Block) -> Dict[str, Group]:
    """Status and words, both as hex digits."""
    source = block.batch.hexed('hex of words', lambda: turned(block.batch))
    start, size = places_in(block.batch, block.at + 12), block.numbers(8, 2)
    return {'status': Hexed(block.numbers(10, 2), 4), 'words': Octets(source, 2 * start, 2 * size)}


def meant(block: Block, reader: Reader) -> List[Group]:
    """The words, the errors by name, and the status."""
    found, status = raw(block), block.numbers(10, 2)
    return [found['words'], Coded(status, lambda bits: named(bits, ERRORS)), found['status']]


def own(block: Block) -> List[Group]:
    """Status, errors, and the words as bytes, the high one first."""
    status = block.numbers(10, 2)
    return [Coded(status, lambda bits: bits), Coded(status, lambda bits: named(bits, ERRORS) or None),
            Blobs(turned(block.batch), places_in(block.batch, block.at + 12), block.numbers(8, 2))]
