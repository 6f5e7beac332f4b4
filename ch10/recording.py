"""The interface for other programs: what stands in an input, as data.

`recordings(data)` gives the recordings of an input: the one that it is, or each file of an image. Of a `Recording`

    .name, .closed           of a file of an image; None and None of a recording by itself
    .begin, .end             where it stands in the data, the place after its last byte too
    .survey()                a `ch10.survey.Survey`, which goes on after damage: .rows (one for each channel and data type),
                             .damage, .fault, .clock, .times, .names,
                             .setup, .span()
    .packets()               each `ch10.packets.Packet` that was not passed over: offset, channel, kind (the data type), length,
                             sequence, flags, counter, body, word
    .bytes_of(packet)        the packet as it stands, header and checksum included
    .entries_of(packet)      the entries of one packet, as `Entry`
    .entries(channels)       all entries by session, then count, then channel, then place, as `Entry`

An `Entry` has count, channel, kind (the data type), lost (messages lost right before it; -1 where it is not told how many) and
value: a named tuple by its kind, as `ch10.bodies.BODIES[kind].record`. `ch10.fields.Reader(survey.names).entries(packet)` gives the
columns of csv instead. What is wrong with an input is a `ch10.standard.Fault`.
"""
from __future__ import annotations

from collections import namedtuple
from typing import Iterator, List, Optional, Tuple

from .bodies import BODIES, entries
from .inputs import is_recording, listed
from .medium import File, bytes_of
from .packets import Packet, lost_before, packets
from .replay import replayed
from .standard import COUNT_BITS, Data
from .survey import Survey

Entry = namedtuple('Entry', 'count channel kind lost value')


class Recording:
    """One recording within some bytes."""

    def __init__(self, data: Data, begin: int, end: int, number: Optional[int] = None, file: Optional[File] = None) -> None:
        self.data, self.begin, self.end, self.number = data, begin, end, number
        self.name = file and file.name
        self.closed = file and file.closed
        self.kept: Optional[Survey] = None

    def survey(self) -> Survey:
        """What one pass over the recording finds, kept for the next call."""
        if self.kept is None:
            self.kept = Survey(self.data, self.begin, self.end)
        return self.kept

    def packets(self) -> Iterator[Packet]:
        """The packets; the first one of a message in segments has all of it as its body."""
        survey = self.survey()
        return survey.segments.among(packets(self.data, self.begin, self.begin + survey.size, False, survey.passed))

    def bytes_of(self, packet: Packet) -> bytes:
        """The bytes of a packet."""
        at = self.begin + packet.offset
        return bytes(self.data[at:at + packet.length])

    def entries_of(self, packet: Packet, report: Optional[Tuple[int, int]] = None) -> Iterator[Entry]:
        """The entries of a packet, after this loss report (as `ch10.packets.loss_of` gives it) or none."""
        lost = lost_before(packet, report)
        for count, values in entries(packet):
            yield Entry(count, packet.channel, packet.kind, lost, BODIES[packet.kind].record(*values))
            lost = 0

    def entries(self, channels: Optional[List[int]] = None) -> Iterator[Entry]:
        """The entries of all channels or of some, in the order of a replay."""
        for some in replayed(self.data, self.begin, self.survey(), channels):
            for instant, channel, _, kind, lost, values in some:
                yield Entry(instant & COUNT_BITS, channel, kind, lost, BODIES[kind].record(*values))


def recordings(data: Data) -> List[Recording]:
    """The recordings of an input. A Fault where it is neither a recording nor an image, or where a file lies outside the image."""
    if is_recording(data):
        return [Recording(data, 0, len(data))]
    _, files = listed(data)
    return [Recording(data, *bytes_of(data, file), number=number, file=file) for number, file in enumerate(files)]
