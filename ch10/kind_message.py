"""Messages (IRIG 106-17, 11.2.9, data type 0x30, format 0): as entries of UART, but for their header, and that the word has their
number. One that stands in segments is the one entry of its first packet, whose body is joined (`ch10.segments`)."""
from __future__ import annotations

from typing import Dict, List, TYPE_CHECKING

from .arrays import Array, numpy
from .columns import Batch, Block, Coded, Group, Number, Places, Printed, blobs_of, octets_of, of_own_size, with_singles
from .standard import Data

if TYPE_CHECKING:
    from .fields import Reader

LESS = 'less than its entries in a body'
NUMBER = 0xFFFF
ERRORS = ('', 'format error', 'data error', 'data error+format error')  # by bits 31 and 30 of a header


SEGMENTS = 0x30000


def is_other_form(word: int, size: int) -> bool:
    """Whether a packet has a segment of a message, which by itself is not read."""
    return word & SEGMENTS != 0


def find(batch: Batch) -> Places:
    """The messages, one of a packet whose body is joined."""
    is_joined = batch.words & SEGMENTS != 0
    found = of_own_size(batch, 12, 8, True, numpy.where(is_joined, 0, batch.words & NUMBER))
    return with_singles(batch, is_joined, batch.ends - batch.starts < 12, found) if is_joined.any() else found


def size_of(block: Block) -> Array:
    """How many bytes each message has."""
    return numpy.where(block.words & SEGMENTS != 0, (block.batch.ends - block.batch.starts)[block.of] - 12, block.numbers(8, 2))


def count(batch: Batch, at: Array, of: Array) -> Array:
    """The count of each message's stamp."""
    return batch.stamps(at, of)


def number_in(data: Data, at: int, size: int, word: int) -> int:
    """How many messages a packet has, by its word."""
    return word & NUMBER


def raw(block: Block) -> Dict[str, Group]:
    """The columns of `r10 play`: flags, subchannel and bytes."""
    head = block.numbers(8, 4)
    return {'data_error': Number(head >> 31), 'format': Number(head >> 30 & 1), 'sub': Number(head >> 16 & 0x3FFF),
            'bytes': octets_of(block, 12, size_of(block))}


def meant(block: Block, reader: Reader) -> List[Group]:
    """The columns of csv: bytes, text, subchannel and errors."""
    head, size = block.numbers(8, 4), size_of(block)
    return [octets_of(block, 12, size), Printed(block, 12, size),
            Coded(head >> 16, lambda high: (high & 0x3FFF, ERRORS[high >> 14]), 2)]


def own(block: Block) -> List[Group]:
    """The columns of its table in a database."""
    head = block.numbers(8, 4)
    return [Number(head >> 16 & 0x3FFF), Coded(head >> 30, lambda bits: ERRORS[bits] or None), blobs_of(block, 12, size_of(block))]
