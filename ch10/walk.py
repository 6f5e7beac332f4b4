"""What is found of all packets of some megabytes at once: their headers, how many entries each has, and the lowest and highest
count of these; which of them have a right data checksum; and which need no look at each by itself.

A packet is plain where its header and its data checksum are right (or, without one, the header after it is), its kind is one whose
entries are read, it has some, and its flags say nothing of losses, of another clock or of a counter out of step. What plain packets
that follow one another add to a survey is added at once.
"""
from __future__ import annotations

import struct
from typing import Dict, List, Optional, Tuple

from .arrays import Array, numpy
from .bodies import FIND, counts, found_in
from .columns import Batch, second_of, wide_view
from .packets import FORMS, MOST, Packet, front_of, is_of_another_clock
from .standard import SYNC, TIME, WIDTHS, Data

AHEAD = 8 << 20  # bytes of a recording that are gone over at once
RUN = 4  # plain packets that follow one another below which each is looked at by itself
HOP = struct.Struct('<HHI')
FIELDS = [('sync', '<u2'), ('channel', '<u2'), ('length', '<u4'), ('size', '<u4'), ('version', 'u1'), ('sequence', 'u1'),
          ('flags', 'u1'), ('kind', 'u1'), ('low', '<u4'), ('high', '<u2'), ('total', '<u2')]
NOT_PLAIN = 0xF0  # flags of a packet that is looked at by itself


class Ahead:
    """What is found ahead of the packet that is asked for. What is at fault is left, and found again by itself.

    .offsets    where the packets begin; .heads, their headers, as FIELDS; .counters
    .number, .lows, .highs    how many entries each has, and their lowest and highest count; 0 where that is not known
    .summed     whether its data checksum is known to be right
    .runs       up to which packet those from this one on are plain; itself where it is not
    .limit      the place before which the packets begin that it goes over
    """

    def __init__(self, data: Data, end: int) -> None:
        self.data, self.end, self.until, self.limit = data, end, 0, end
        self.index: Dict[int, int] = {}  # which packet begins at a place

    def place(self, at: int) -> int:
        """The number of the packet at a place, of those that were gone over, or -1."""
        if at >= self.until:
            self.fill(at)
        return self.index.get(at, -1)

    def is_summed(self, at: int) -> bool:
        """Whether the packet at a place has a data checksum that is known to be right."""
        place = self.place(at)
        return place >= 0 and bool(self.summed[place])

    def measure(self, packet: Packet, at: int) -> Tuple[int, int, int]:
        """How many entries the packet at a place has, and their lowest and highest count. A Fault where it has less than it
        says."""
        place = self.index.get(at, -1)
        if place >= 0 and self.number[place]:
            return int(self.number[place]), int(self.lows[place]), int(self.highs[place])
        found = counts(packet)
        return (len(found), min(found), max(found)) if found else (0, 0, 0)

    def fill(self, begin: int) -> None:
        """Goes over the packets from a place on."""
        at, end, data, last = begin, min(begin + AHEAD, self.limit), self.data, self.end
        places: List[int] = []
        hop, add = HOP.unpack_from, places.append
        while at + 28 <= end:
            sync, _, length = hop(data, at)
            if sync != SYNC or length & 3 or length < 24 or at + length > last:
                break
            add(at)
            at += length
        self.offsets = numpy.array(places, numpy.int64)
        octets = numpy.frombuffer(data, numpy.uint8, at - begin, begin)
        heads = wide_view(octets, 24)[self.offsets - begin].view(FIELDS)
        wrong = numpy.flatnonzero(24 + heads['size'].astype(numpy.int64) > heads['length'])
        if len(wrong):
            at = places[wrong[0]]
            del places[wrong[0]:]
            self.offsets, heads = self.offsets[:wrong[0]], heads[:wrong[0]]
        self.index, self.heads, self.until = dict(zip(places, range(len(places)))), heads, max(at, begin + 24)
        self.counters = heads['low'].astype(numpy.int64) | heads['high'].astype(numpy.int64) << 32
        self.kinds = heads['kind']
        self.keys = heads['channel'].astype(numpy.int64) << 8 | self.kinds
        self.number, self.lows, self.highs = (numpy.zeros(len(places), numpy.int64) for _ in range(3))
        self.summed = numpy.zeros(len(places), bool)
        if not places:
            self.runs: List[int] = []
            return
        flags, sizes = heads['flags'].astype(numpy.int64), heads['size'].astype(numpy.int64)
        lengths = heads['length'].astype(numpy.int64)
        fronts = numpy.where(flags & 0x80, front_of(0x80), 24)
        self.find(octets, begin, flags, fronts, sizes, lengths)
        for check in (1, 2, 3):
            some = numpy.flatnonzero((flags & 3 == check) & (fronts + sizes + WIDTHS[check] <= lengths))
            if len(some):
                self.sums(octets, begin, WIDTHS[check], some, fronts, lengths)
        words = heads.view('<u2').reshape(-1, 12)
        right = (words[:, :11].sum(1, dtype=numpy.uint32) & 0xFFFF == words[:, 11]) & (lengths <= MOST)
        behind = numpy.append(right[1:], at == last)
        plain = right & (flags & NOT_PLAIN == 0) & (self.number > 0) & (self.kinds != TIME)
        plain &= numpy.where(flags & 3, self.summed, behind)
        breaks = numpy.append(numpy.flatnonzero(~plain), len(plain))
        ends = breaks[numpy.searchsorted(breaks, numpy.arange(len(plain)))]
        self.runs = ends.tolist()

    def sums(self, octets: Array, begin: int, width: int, some: Array, fronts: Array, lengths: Array) -> None:
        """Takes note of those packets whose data checksum, of so many bytes, is right."""
        words = octets[:len(octets) // width * width].view('<u%d' % width)
        at = self.offsets[some] - begin
        places = numpy.stack([at + fronts[some], at + lengths[some] - width], 1) // width
        found = numpy.add.reduceat(words, places.reshape(-1), dtype=words.dtype)[::2]
        found[places[:, 0] == places[:, 1]] = 0  # which has no word
        self.summed[some[found == words[places[:, 1]]]] = True

    def find(self, octets: Array, begin: int, flags: Array, fronts: Array, sizes: Array, lengths: Array) -> None:
        """Finds the entries of those packets that have some that are read."""
        able = (sizes >= 4) & (fronts + sizes <= lengths)
        if (flags & 0x40).any():
            able &= ~numpy.array([is_of_another_clock(one) for one in flags.tolist()])
        at = self.offsets - begin + fronts
        for kind in numpy.unique(self.kinds).tolist():
            if kind not in FIND:
                continue
            some = numpy.flatnonzero(able & (self.kinds == kind))
            if not len(some):
                continue
            word = wide_view(octets, 4)[at[some]].view('<u4').astype(numpy.int64)
            if kind in FORMS:
                is_read = numpy.array([not FORMS[kind](*one) for one in zip(word.tolist(), sizes[some].tolist())])
                some, word = some[is_read], word[is_read]
            if len(some):
                seconds = None
                if (flags[some] & 0x40).any():
                    seconds = [self.second(place, int(flags[place])) for place in some.tolist()]
                self.entries(kind, some, Batch(octets, at[some] + 4, at[some] + sizes[some], word, self.counters[some], seconds))

    def second(self, place: int, flags: int) -> Optional[Tuple[int, int]]:
        """Format and time of a packet's secondary header, where its stamps have that."""
        at = int(self.offsets[place])
        return second_of(flags, bytes(self.data[at + 24:at + front_of(flags)]))

    def entries(self, kind: int, some: Array, batch: Batch) -> None:
        """Takes note of the entries of some packets of a kind."""
        block, number, bad = found_in(kind, batch)
        has = numpy.flatnonzero((number > 0) & ~bad)
        if not len(has):
            return
        first, filled = numpy.cumsum(number) - number, numpy.flatnonzero(number)
        lows, highs = numpy.zeros(len(number), numpy.int64), numpy.zeros(len(number), numpy.int64)
        lows[filled] = numpy.minimum.reduceat(block.count, first[filled])
        highs[filled] = numpy.maximum.reduceat(block.count, first[filled])
        self.number[some[has]], self.lows[some[has]], self.highs[some[has]] = number[has], lows[has], highs[has]
