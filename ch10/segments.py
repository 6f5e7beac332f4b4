"""Messages in segments (IRIG 106-17, 11.2.9): a message that is too long for one packet stands in several, each with one segment of
it and in bits 17 and 16 of its word which: 1 its beginning, 2 what is between, 3 its end.

A message is joined where all its segments are there: packets of one channel with one subchannel, whose sequence numbers follow one
another, and before none of which messages were lost. What is left of others is not read.
"""
from __future__ import annotations

from typing import Dict, Iterable, Iterator, List, NamedTuple, Optional, Tuple

from .kinds import MESSAGE
from .packets import Packet, front_of, is_of_another_clock
from .standard import Data, little

BEGINNING, MIDDLE, END = 1, 2, 3
FRONT = 16  # bytes of a body before a segment's own: the word, a stamp and a header
ERRORS = 3 << 30  # of a header
WHY = 'a segment of a message that is not whole'


class Segment(NamedTuple):
    """A segment: what it is of its message, its header, and where its bytes begin and end in the data."""
    part: int
    head: int
    start: int
    end: int


def is_segment(packet: Packet) -> bool:
    """Whether a packet has a segment of a message."""
    return (packet.kind == MESSAGE and packet.word is None and not is_of_another_clock(packet.flags) and len(packet.body) >= 4
            and packet.body[2] & 3 != 0)


class Segments:
    """The messages of a recording that stand in segments, as they are found in one pass over it.

    .whole    of each that is whole the places of its packets, by the place of the first one; all count from the recording's begin
    .firsts   of each of those packets the place of the first one
    """

    def __init__(self, data: Data, begin: int) -> None:
        self.data, self.begin = data, begin
        self.whole: Dict[int, Tuple[int, ...]] = {}
        self.firsts: Dict[int, int] = {}
        self.open: Dict[int, Tuple[List[int], int, int]] = {}  # of each channel places, subchannel, and the next sequence number

    def segment(self, offset: int) -> Optional[Segment]:
        """The segment of the packet at a place, or None where the packet has more or less than one."""
        at = self.begin + offset
        first = at + front_of(self.data[at + 14])
        size = little(self.data, at + 8, 4)
        if size < FRONT or little(self.data, first, 2) != 1:
            return None
        head = little(self.data, first + 12, 4)
        if FRONT + (head & 0xFFFF) > size:
            return None
        return Segment(self.data[first + 2] & 3, head, first + FRONT, first + FRONT + (head & 0xFFFF))

    def note(self, packet: Packet) -> Tuple[int, ...]:
        """Takes note of a packet. Answers the places of a message's packets where this one is the last of them."""
        if packet.kind != MESSAGE:
            return ()
        before = self.open.pop(packet.channel, None)
        found = self.segment(packet.offset) if is_segment(packet) else None
        if found is None:
            return ()
        following, sub = packet.sequence + 1 & 0xFF, found.head >> 16 & 0x3FFF
        if found.part == BEGINNING:
            self.open[packet.channel] = [packet.offset], sub, following
            return ()
        if before is None or before[1:] != (sub, packet.sequence) or packet.flags & 0x10:
            return ()
        places = before[0] + [packet.offset]
        if found.part == MIDDLE:
            self.open[packet.channel] = places, sub, following
            return ()
        self.whole[places[0]] = tuple(places)
        self.firsts.update(dict.fromkeys(places, places[0]))
        return self.whole[places[0]]

    def joined(self, packet: Packet) -> Packet:
        """A packet as it is; where it is the first one of a message that is whole, with all of that as its body. The word keeps its
        bits, the header has the errors of all segments, and its length is not to be read."""
        places = self.whole.get(packet.offset)
        if places is None:
            return packet
        some = [one for one in map(self.segment, places) if one]
        errors = 0
        for one in some:
            errors |= one.head & ERRORS
        front = bytes(packet.body[:12]) + (some[0].head | errors).to_bytes(4, 'little')
        return packet._replace(body=front + b''.join(bytes(self.data[one.start:one.end]) for one in some),
                               word=little(front, 0, 4))

    def among(self, some: Iterable[Packet]) -> Iterator[Packet]:
        """The same of each of some packets."""
        if not self.whole:
            return iter(some)
        return map(self.joined, some)
