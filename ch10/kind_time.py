"""Times (IRIG 106-17, 11.2.3, data type 0x11, format 1): of a packet its counter, and the civil time of that."""
from __future__ import annotations

from typing import Dict, List, TYPE_CHECKING

from .arrays import Array, numpy
from .columns import Batch, Block, Each, Group, Places
from .standard import Data
from .times import time

if TYPE_CHECKING:
    from .fields import Reader

LESS = 'less than a time in a body'


def is_other_form(word: int, size: int) -> bool:
    """Whether a body's word says a form that is not read."""
    return not word & 0x200 and size < 10


def find(batch: Batch) -> Places:
    """The places of the times: one in each packet that is long enough."""
    bad = batch.ends - batch.starts < numpy.where(batch.words & 0x200 != 0, 8, 6)
    return batch.starts[~bad], (~bad).astype(numpy.int64), bad


def count(batch: Batch, at: Array, of: Array) -> Array:
    """The count of each: that of its packet."""
    return batch.counters[of]


def number_in(data: Data, at: int, size: int, word: int) -> int:
    """How many times a packet has: one."""
    return 1


def civil(block: Block) -> Group:
    """Each time as text."""
    data = block.batch.octets
    return Each([time(data[at - 4:at + 8].tobytes(), word).said for at, word in zip(block.at.tolist(), block.words.tolist())])


def raw(block: Block) -> Dict[str, Group]:
    """The column of `r10 play`: that."""
    return {'civil': civil(block)}


def meant(block: Block, reader: Reader) -> List[Group]:
    """The column of csv: that."""
    return [civil(block)]


def own(block: Block) -> List[Group]:
    """The column of its table in a database: that."""
    return [civil(block)]
