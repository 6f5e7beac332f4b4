"""IEEE 1394 (IRIG 106-17, 11.2.13, data type 0x58, format 0). Bits 31 to 29 of the packet's word say what its body is:

    0    an event of the bus: a word of 32 bits, whose bit 31 is a reset
    1    one block of a data stream, as it stands; bits 28 to 25 of the word are its synchronization code
    2    so many transactions as bits 15 to 0 say, each a stamp, a word with its length in bits 15 to 0, and its bytes

The first two have no stamp: they are at the packet's counter.
"""
from __future__ import annotations

from typing import Dict, List, TYPE_CHECKING

from .arrays import Array, numpy
from .columns import Batch, Block, Coded, Group, Number, Places, blobs_of, octets_of, of_own_size, with_singles
from .standard import Data

if TYPE_CHECKING:
    from .fields import Reader

LESS = 'less than its entries in a body'
NUMBER = 0xFFFF
EVENT, STREAM, GENERAL = 0, 1, 2


def is_other_form(word: int, size: int) -> bool:
    """Whether the kind of body is one that is reserved."""
    return word >> 29 > GENERAL


def find(batch: Batch) -> Places:
    """The transactions, or the one event or block of a packet; an event that is no word of 32 bits does not fit."""
    form = batch.words >> 29
    found = of_own_size(batch, 12, 8, True, numpy.where(form == GENERAL, batch.words & NUMBER, 0))
    return with_singles(batch, form != GENERAL, (form == EVENT) & (batch.ends - batch.starts != 4), found)


def count(batch: Batch, at: Array, of: Array) -> Array:
    """The counts of the transactions' stamps; of what has none that of its packet."""
    found, plain = batch.counters[of], batch.words[of] >> 29 == GENERAL
    found[plain] = batch.stamps(at[plain], of[plain])
    return found


def number_in(data: Data, at: int, size: int, word: int) -> int:
    """How many entries a body's word says."""
    return word & NUMBER if word >> 29 == GENERAL else 1


def parts(block: Block) -> List[Array]:
    """Of each entry the kind of its body, where its bytes begin after its own begin, and how many they are."""
    form, batch = block.words >> 29, block.batch
    whole = batch.ends[block.of] - batch.starts[block.of]
    size = numpy.where(form == GENERAL, block.numbers(numpy.where(form == GENERAL, 8, 0), 2), whole)
    return [form, numpy.where(form == GENERAL, 12, 0), size]


def raw(block: Block) -> Dict[str, Group]:
    """The kind of body, the synchronization code, and the bytes."""
    form, more, size = parts(block)
    return {'form': Number(form), 'sync': Number(block.words >> 25 & 15), 'bytes': octets_of(block, more, size)}


def event(block: Block) -> Array:
    """1 for a reset of the bus, else 0."""
    form, _, _ = parts(block)
    return numpy.where(form == EVENT, block.numbers(numpy.where(form == EVENT, 3, 0), 1) >> 7, 0)


def meant(block: Block, reader: Reader) -> List[Group]:
    """The bytes, the event by name, the kind of body, and the synchronization code."""
    found = raw(block)
    return [found['bytes'], Coded(event(block), lambda bit: 'bus reset' if bit else ''), found['form'], found['sync']]


def own(block: Block) -> List[Group]:
    """The kind of body, the synchronization code, the event or None, and the bytes as they are."""
    form, more, size = parts(block)
    return [Number(form), Number(block.words >> 25 & 15), Coded(event(block), lambda bit: 'bus reset' if bit else None),
            blobs_of(block, more, size)]
