"""Frames of a controller area network (IRIG 106-17, 11.2.17, data type 0x78, format 0): after a stamp a header as that of messages,
then a word with the identifier, then the frame's bytes, 8 at most.

Bits 15 to 0 of the packet's word say how many frames there are. Of a header bit 31 is a data error, bit 30 a format error; bits 29
to 16 are the subchannel, and bits 15 to 0 say how many bytes follow, 4 to 12. Of the identifier's word bit 31 says that it has 29
bits and not 11, and bit 30 that the frame asks for one.
"""
from __future__ import annotations

from typing import Dict, List, Tuple, TYPE_CHECKING

from .arrays import Array, numpy
from .columns import Batch, Block, Coded, Group, Number, Places, blobs_of, octets_of, of_own_size
from .kind_message import ERRORS
from .standard import Data

if TYPE_CHECKING:
    from .fields import Reader

LESS = 'less than its entries in a body'
NUMBER = 0xFFFF


def find(batch: Batch) -> Places:
    """The places of the frames, each as long as its header says."""
    at, number, bad = of_own_size(batch, 12, 8, True, batch.words & NUMBER)
    of = numpy.repeat(numpy.arange(len(number)), number)
    bad[of[batch.numbers(at + 8, 2) < 4]] = True  # no room for an identifier
    return at, number, bad


def count(batch: Batch, at: Array, of: Array) -> Array:
    """The count of each frame's stamp."""
    return batch.stamps(at, of)


def number_in(data: Data, at: int, size: int, word: int) -> int:
    """How many frames a packet has, by its word."""
    return word & NUMBER


def fields(block: Block) -> Tuple[Coded, Number, Number, Number]:
    """Subchannel and errors together, identifier, whether that is long, whether the frame asks for one."""
    head, mark = block.numbers(8, 4), block.numbers(12, 4)
    identifier = numpy.where(mark >> 31 != 0, mark & 0x1FFFFFFF, mark & 0x7FF)
    return (Coded(head >> 16, lambda high: (high & 0x3FFF, ERRORS[high >> 14]), 2), Number(identifier), Number(mark >> 31),
            Number(mark >> 30 & 1))


def size_of(block: Block) -> Array:
    """How many bytes of data each frame has."""
    return block.numbers(8, 2) - 4


def raw(block: Block) -> Dict[str, Group]:
    """The columns of `r10 play`: flags, subchannel and bytes."""
    head = block.numbers(8, 4)
    return {'data_error': Number(head >> 31), 'format': Number(head >> 30 & 1), 'sub': Number(head >> 16 & 0x3FFF),
            'bytes': octets_of(block, 12, head & 0xFFFF)}


def meant(block: Block, reader: Reader) -> List[Group]:
    """The columns of csv: data, subchannel, errors and identifier."""
    return [octets_of(block, 16, size_of(block)), *fields(block)]


def own(block: Block) -> List[Group]:
    """The columns of its table in a database."""
    head, (_, identifier, is_long, is_asking) = block.numbers(8, 4), fields(block)
    return [Number(head >> 16 & 0x3FFF), identifier, Number(is_long.array == 1), Number(is_asking.array == 1),
            Coded(head >> 30, lambda bits: ERRORS[bits] or None), blobs_of(block, 16, size_of(block))]
