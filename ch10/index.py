"""`ch10 index`: the entries of recording indexes (IRIG 106-17, 11.2.7, computer-generated data, format 3) as CSV, and whether each
leads to what it names.

Bit 31 of a packet's word says that it has nodes, which name packets, and else roots, which name index packets. Bit 30 says that the
file's size stands before the entries, bit 29 that a header of 8 bytes follows each stamp; bits 15 to 0 say how many entries there
are. Of a node the word after that has the data type (bits 23 to 16) and the channel (15 to 0); then, and of a root at once, comes
the place of the packet in the file.
"""
from __future__ import annotations

from argparse import Namespace
from bisect import bisect_left
from typing import Iterator, Optional, Tuple

from .clocks import BITS, asked_of
from .doubts import judge
from .inputs import Output, one_part
from .packets import HEADER, front_of, packets
from .standard import COUNT_BITS, INDEX, Data, Fault, little
from .survey import Survey, name_of

NODES, SIZE, HEADERS = 1 << 31, 1 << 30, 1 << 29


def entries_of(body: bytes) -> Iterator[Tuple[bool, int, Optional[int], Optional[int], int]]:
    """Of each entry whether it is a node, its count, channel and data type, which a root has not, and the place. A Fault where the
    body has less than it says."""
    word = little(body, 0, 4) if len(body) >= 4 else 0
    is_node, inner = word & NODES != 0, 8 if word & HEADERS else 0
    at, step = 12 if word & SIZE else 4, 16 + inner + 4 * is_node
    if len(body) < at + step * (word & 0xFFFF):
        raise Fault('less than its entries in a body')
    for place in range(at, at + step * (word & 0xFFFF), step):
        what = little(body, place + 8 + inner, 4) if is_node else None
        yield (is_node, little(body, place, 8) & COUNT_BITS, None if what is None else what & 0xFFFF,
               None if what is None else what >> 16 & 0xFF, little(body, place + step - 8, 8))


def index(asked: Namespace, data: Data, out: Output) -> None:
    """A line for each entry: where its packet stands, whether it is a root or a node, count and time, channel and type, the place
    that it names, and whether a packet of that channel and type, of a root an index packet, begins there."""
    _, begin, end = one_part(data, asked.file)
    survey = Survey(data, begin, end, asked.keep_going, asked=asked_of(asked))
    out.line('packet,kind,count,time,channel,type,offset,agrees')
    places, left, found = survey.places, 0, 0
    for number, packet in enumerate(packets(data, begin, begin + survey.size, False, survey.passed)):
        if packet.kind != INDEX:
            continue
        at, size = begin + packet.offset + front_of(packet.flags), little(data, begin + packet.offset + 8, 4)
        found += 1
        try:
            for is_node, count, channel, kind, offset in entries_of(bytes(data[at:at + size])):
                place = bisect_left(places, offset)
                agrees = place < len(places) and places[place] == offset
                if agrees:
                    _, its_channel, _, _, _, _, _, its_kind, _, _, _ = HEADER.unpack_from(data, begin + offset)
                    agrees = (its_channel, its_kind) == (channel, kind) if is_node else its_kind == INDEX
                when = survey.clock.text(count + (survey.of[number] << BITS)) if survey.clock else None
                out.line('%d,%s,%d,%s,%s,%s,%d,%s' % (
                    packet.offset, 'node' if is_node else 'root', count, when or '', '' if channel is None else channel,
                    '' if kind is None else name_of(kind), offset, 'yes' if agrees else 'no'))
        except Fault:
            left += 1
    judge(survey, out)
    if left:
        raise Fault('%d index packet%s not read: less than its entries in a body' % (left, 's' * (left > 1)))
    if not found:
        raise Fault('the recording has no index packet')
