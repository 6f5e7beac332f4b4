"""Discretes (IRIG 106-17, 11.2.6, data type 0x29, format 1): a stamp and 32 bits of states. What changed is told by the states
before, which stand in the channel's packet before where they are a packet's first.

Bits 7 to 3 of the word say how many discretes there are, 0 for 32. Where bit 1 is set they stand at the top of the 32 bits, and
else at the bottom; number 0 is the lowest of them in both.
"""
from __future__ import annotations

from typing import Dict, List, Optional, Tuple, TYPE_CHECKING

from .arrays import Array, numpy
from .columns import NONE, Batch, Bits, Block, Changed, Each, Group, Hexed, Number, Places, of_one_size
from .standard import COUNT_BITS, Data, little

if TYPE_CHECKING:
    from .fields import Reader

LESS = 'less than an entry in a body'


def number_of(word: Array) -> Array:
    """How many discretes a channel has."""
    return (word >> 3 & 31) + 32 * (word >> 3 & 31 == 0)


def up(word: Array) -> Array:
    """How many bits above the bottom number 0 stands."""
    return (32 - number_of(word)) * (word >> 1 & 1)


def find(batch: Batch) -> Places:
    """The places of the states: as many as fit, of 12 bytes each."""
    size = batch.ends - batch.starts
    return of_one_size(batch, 12, size // 12, size % 12)


def count(batch: Batch, at: Array, of: Array) -> Array:
    """The count of each state's stamp."""
    return batch.stamps(at, of)


def number_in(data: Data, at: int, size: int, word: int) -> int:
    """How many states a packet has, by its size."""
    return (size - 4) // 12


def last_count(body: bytes) -> int:
    """The count of a body's last state."""
    return little(body, len(body) - 12, 8) & COUNT_BITS


def last_state(body: bytes) -> Optional[int]:
    """The states of the last entry, number 0 at the bottom."""
    return little(body, len(body) - 4, 4) >> up(little(body, 0, 4)) if len(body) > 4 else None


def states_of(block: Block) -> Tuple[Array, Array]:
    """The states of each entry, and those before, or NONE, which it is told by its place, for an entry before may be left out."""
    above = up(block.words)
    states, before = block.numbers(8, 4) >> above, numpy.full(len(block), NONE)
    is_first = block.at == block.batch.starts[block.of]
    before[~is_first] = block.batch.numbers(block.at[~is_first] - 4, 4) >> above[~is_first]
    if block.batch.before is not None:
        before[is_first] = block.batch.before[block.of[is_first]]
    return states, before


def raw(block: Block) -> Dict[str, Group]:
    """The column of `r10 play`: the states as hex digits."""
    return {'states': Hexed(block.numbers(8, 4), 8)}


def meant(block: Block, reader: Reader) -> List[Group]:
    """The columns of csv: states as bits, and what changed."""
    states, before = states_of(block)
    bits = number_of(block.words)
    return [Hexed(block.numbers(8, 4), 8), Bits(states, bits), Changed(states, before, bits)]


def own(block: Block) -> List[Group]:
    """The columns of its table in a database."""
    states, before = states_of(block)
    changed = [None if was == NONE else was ^ now for was, now in zip(before.tolist(), states.tolist())]
    return [Number(states), Each(changed)]
