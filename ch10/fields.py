"""The columns of entries, the same in CSV, JSON lines and SQLite, and what stands in them.

COLUMNS are those of all kinds together, behind the ones that every entry has: FRONT. First come those that several kinds have, then
those of one kind after the other.
"""
from __future__ import annotations

from typing import Dict, Iterator, Optional, Tuple

from .bodies import MEANT, read
from .columns import NONE, Numbering, rows_of
from .kinds import KINDS
from .packets import Packet
from .tmats import Names

FRONT = ('channel', 'name', 'count', 'time', 'lost', 'type')
SHARED = ('value', 'text', 'sub', 'bus', 'bus_name', 'errors')
COLUMNS = tuple(dict.fromkeys(FRONT + SHARED + tuple(
    column for kind in KINDS if not kind.is_later for column in kind.column_names)))


class Reader:
    """Reads entries with what they mean.

    Names are those of the setup text; labels of ARINC 429 are read in the other order where that is asked for. The last state of a
    channel before a packet tells what changed, where a kind has one.
    """

    def __init__(self, names: Names, turned: bool = False) -> None:
        self.names, self.turned = names, turned
        self.buses: Dict[Tuple[int, Optional[int]], Optional[str]] = {}
        self.numbering = Numbering()

    def bus_name(self, channel: int, number: Optional[int]) -> Optional[str]:
        """The name of a bus, if the setup text has one."""
        key = channel, number
        if key not in self.buses:
            self.buses[key] = self.names.bus(channel, number) or None
        return self.buses[key]

    def entries(self, packet: Packet, before: Optional[int] = None) -> Iterator[Tuple[int, tuple]]:
        """The entries of a packet: of each its count and the columns of its kind."""
        if packet.word is None or packet.kind not in MEANT:
            return iter(())
        block, _ = read([packet], self.numbering, [NONE if before is None else before])
        return zip(block.count.tolist(), rows_of(MEANT[packet.kind](block, self)))
