"""IEEE 1394 of the physical layer (IRIG 106-17, 11.2.13, data type 0x59, format 1): so many packets of the bus as bits 15 to 0 of
the word say, each after a stamp and a word of 32 bits: the status (bits 31 to 24), the speed (23 to 20), overflows of the transfer
(19 and 18) and of the recorder's buffer (17), and the length in bytes (15 to 0)."""
from __future__ import annotations

from typing import Dict, List, TYPE_CHECKING

from .arrays import Array
from .columns import Batch, Block, Coded, Group, Hexed, Number, Places, blobs_of, octets_of, of_own_size
from .standard import Data

if TYPE_CHECKING:
    from .fields import Reader

LESS = 'less than its entries in a body'
NUMBER = 0xFFFF
ERRORS = tuple('+'.join(['buffer overflow'] * (bits & 1) + ['transfer overflow'] * (bits > 1)) for bits in range(8))


def find(batch: Batch) -> Places:
    """The packets of the bus."""
    return of_own_size(batch, 12, 8, True, batch.words & NUMBER)


def count(batch: Batch, at: Array, of: Array) -> Array:
    """The counts of their stamps."""
    return batch.stamps(at, of)


def number_in(data: Data, at: int, size: int, word: int) -> int:
    """How many a body's word says."""
    return word & NUMBER


def raw(block: Block) -> Dict[str, Group]:
    """Status as hex digits, speed, and the bytes."""
    head = block.numbers(8, 4)
    return {'status': Hexed(head >> 24, 2), 'speed': Number(head >> 20 & 15), 'bytes': octets_of(block, 12, head & 0xFFFF)}


def meant(block: Block, reader: Reader) -> List[Group]:
    """The bytes, the errors by name, status and speed."""
    found = raw(block)
    return [found['bytes'], Coded(block.numbers(8, 4) >> 17 & 7, ERRORS.__getitem__), found['status'], found['speed']]


def own(block: Block) -> List[Group]:
    """Status, speed, errors or None, and the bytes as they are."""
    head = block.numbers(8, 4)
    return [Number(head >> 24), Number(head >> 20 & 15), Coded(head >> 17 & 7, lambda bits: ERRORS[bits] or None),
            blobs_of(block, 12, head & 0xFFFF)]
