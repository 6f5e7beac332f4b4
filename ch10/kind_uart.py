"""UART (IRIG 106-17, 11.2.12, data type 0x50, format 0): bytes after a stamp and a header, and one more where their number is odd.

Bit 31 of the word says whether entries have stamps. Without one an entry begins with the four bytes of its header. It is counted at
the packet's counter, which is all that is known of its time.
"""
from __future__ import annotations

from typing import Dict, List, Tuple, Union, TYPE_CHECKING

from .arrays import Array, numpy
from .columns import Batch, Block, Coded, Group, Number, Places, Printed, blobs_of, octets_of, of_own_size
from .standard import Data

if TYPE_CHECKING:
    from .fields import Reader

LESS = 'less than its entries in a body'


def find(batch: Batch) -> Places:
    """The places of the entries, each as long as its header says."""
    stamped = batch.words >> 31 != 0
    if stamped.all():
        return of_own_size(batch, 12, 8, True, None)
    return of_own_size(batch, numpy.where(stamped, 12, 4), numpy.where(stamped, 8, 0), True, None)


def count(batch: Batch, at: Array, of: Array) -> Array:
    """The count of each entry's stamp, or of its packet where stamps are not there."""
    stamped = batch.words[of] >> 31 != 0
    return batch.stamps(at, of) if stamped.all() else numpy.where(stamped, batch.stamps(numpy.where(stamped, at, 0), of),
                                                                  batch.counters[of])


def number_in(data: Data, at: int, size: int, word: int) -> int:
    """How many entries a packet has."""
    number, at, end = 0, at + 4, at + size
    while at < end:
        at += 13 + (data[at + 8] | data[at + 9] << 8) & -2
        number += 1
    return number


def head_of(block: Block) -> Tuple[Array, Union[int, Array]]:
    """The header of each entry, and how many bytes after its begin the entry's own stand."""
    stamped = block.words >> 31 != 0
    if stamped.all():
        return block.numbers(8, 4), 12
    return block.numbers(numpy.where(stamped, 8, 0), 4), numpy.where(stamped, 12, 4)


def raw(block: Block) -> Dict[str, Group]:
    """The columns of `r10 play`: parity, subchannel and bytes."""
    head, front = head_of(block)
    return {'parity': Number(head >> 31), 'sub': Number(head >> 16 & 0x3FFF), 'bytes': octets_of(block, front, head & 0xFFFF)}


def error(parity: int) -> str:
    """What a bit of parity means."""
    return 'parity error' if parity else ''


def meant(block: Block, reader: Reader) -> List[Group]:
    """The columns of csv: bytes, text, subchannel and errors."""
    head, front = head_of(block)
    return [octets_of(block, front, head & 0xFFFF), Printed(block, front, head & 0xFFFF),
            Coded(head >> 16, lambda high: (high & 0x3FFF, error(high >> 15)), 2)]


def own(block: Block) -> List[Group]:
    """The columns of its table in a database."""
    head, front = head_of(block)
    return [Number(head >> 16 & 0x3FFF), Coded(head >> 31, lambda parity: error(parity) or None),
            blobs_of(block, front, head & 0xFFFF)]
