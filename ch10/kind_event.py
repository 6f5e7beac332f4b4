"""Events (IRIG 106-17, 11.2.7.3, data type 0x02): a stamp, then number and occurrence. Other recorders may have a data header of 8
bytes between them, as bit 31 of the word says."""
from __future__ import annotations

from typing import Dict, List, TYPE_CHECKING

from .arrays import Array, numpy
from .columns import Batch, Block, Group, Number, Places, of_one_size
from .standard import Data

if TYPE_CHECKING:
    from .fields import Reader

LESS = 'less than its entries in a body'
NUMBER = 0xFFF


def is_other_form(word: int, size: int) -> bool:
    """Whether a body is too short for entries with the data that its word says."""
    return word >> 31 != 0 and size < 4 + 20 * (word & NUMBER)


def find(batch: Batch) -> Places:
    """The places of the events: so many in each packet as its word says."""
    return of_one_size(batch, numpy.where(batch.words >> 31 != 0, 20, 12), batch.words & NUMBER)


def count(batch: Batch, at: Array, of: Array) -> Array:
    """The count of each event's stamp."""
    return batch.stamps(at, of)


def number_in(data: Data, at: int, size: int, word: int) -> int:
    """How many events a packet of r10 has: one."""
    return 1


def marks(block: Block) -> List[Group]:
    """Number and occurrence of each event."""
    mark = block.numbers(numpy.where(block.words >> 31 != 0, 16, 8), 4)
    return [Number(mark & 0xFFF), Number(mark >> 12 & 0xFFFF)]


def raw(block: Block) -> Dict[str, Group]:
    """The columns of `r10 play`: those."""
    return dict(zip(('number', 'occurrence'), marks(block)))


def meant(block: Block, reader: Reader) -> List[Group]:
    """The columns of csv: those."""
    return marks(block)


def own(block: Block) -> List[Group]:
    """The columns of its table in a database: those."""
    return marks(block)
