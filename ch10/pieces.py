"""A recording as packets and holes, in order, in bounded memory: what `ch10 mend` reads.

After a fault it goes on as the filters do (`ch10.packets.Resync`). What that passes over is looked through once more for packets
that stand by themselves between damaged ones. Such a packet is taken where it is in all that r10 writes (`ch10.strict.is_own`), and
where counter and sequence number fit the channel's packets before and after it. What stands within a damaged packet whose header
is right may be a copy that it carries, and is not taken.
"""
from __future__ import annotations

from typing import Dict, Iterator, NamedTuple, Optional, Tuple, Union

from .packets import HEADER, MOST, PATTERN, Packet, Resync, head_at, packet_at
from .standard import COUNT_BITS, INDEX, LOSS, SETUP, SPAN, SYNC, Data, Fault, Whose, find, let_go
from .strict import LEAST, READ, NotKept, body_of, is_own

LONGEST = 16 << 20  # bytes of a packet that is read at all, whatever its header says
AHEAD = 400  # packets that are looked at for the next one of a channel
LATER = 10 ** 8  # counts that a packet may be later than those after it, of other channels
ROOM = 256 * LEAST  # bytes in which as many packets of a channel may be lost as its sequence numbers count


class Hole(NamedTuple):
    """Bytes without a packet that is right: from which offset on, how many, and why; and of a packet at fault whose header is right
    its channel, type, sequence number and counter."""
    offset: int
    length: int
    why: str
    whose: Optional[Whose] = None


Piece = Union[Packet, Hole]
Known = Tuple[int, int, int, int]  # of a channel's last packet: type, counter, sequence number, place


def read_at(data: Data, at: int, begin: int, end: int) -> Packet:
    """The packet at a place, whose header, sums and entries are right, or its fault."""
    if end - at >= 24:
        sync, _, length, _, _, _, _, kind, _, _, _ = HEADER.unpack_from(data, at)
        if sync == SYNC and length > (LONGEST if kind == SETUP else MOST):
            raise Fault('a packet that is too long', at - begin)
    packet = packet_at(data, at, begin, end, True, True)
    if packet.kind in READ and packet.word is not None:
        try:
            body_of(packet)
        except NotKept:
            pass
        except Fault as fault:
            raise Fault(fault.what, at - begin, packet.length, (packet.channel, packet.kind, packet.sequence, packet.counter))
    return packet


class Pieces:
    """The pieces of a recording that stands between two places of some bytes."""

    def __init__(self, data: Data, begin: int, end: int) -> None:
        self.data, self.begin, self.end = data, begin, end
        self.resync = Resync(data, begin, end)
        self.known: Dict[int, Known] = {}
        self.ahead: Dict[int, int] = {}  # after a stretch the counter of each channel's next packet
        self.after, self.latest = -1, 0  # where that stretch ends, and the highest counter of the packets after it

    def __iter__(self) -> Iterator[Piece]:
        at = gone = self.begin
        while at < self.end:
            try:
                packet = self.whole_at(at)
            except Fault as fault:
                if fault.whose:
                    self.resync.note(*fault.whose[:3])
                    self.note(*fault.whose, at)
                following = self.resync.after(at, fault.length)
                yield from self.stretch(at, following, fault)
                at = following
            else:
                self.resync.note(packet.channel, packet.kind, packet.sequence)
                self.note(packet.channel, packet.kind, packet.sequence, packet.counter, at)
                yield packet
                at += packet.length
            if at - gone >= SPAN:
                let_go(self.data, gone, at)
                gone = at

    def note(self, channel: int, kind: int, sequence: int, counter: int, at: int) -> None:
        """Takes note of a channel's last packet."""
        self.known[channel] = kind, counter, sequence, at

    def whole_at(self, at: int) -> Packet:
        """The packet at a place, unless one that stands within it shows that its rest is gone."""
        packet = read_at(self.data, at, self.begin, self.end)
        inner = self.resync.within(at, packet.length) if packet.flags & 0x83 not in (1, 2, 3) else None
        if inner is not None:
            raise Fault('another packet within it', at - self.begin, inner - at,
                        (packet.channel, packet.kind, packet.sequence, packet.counter))
        return packet

    def stretch(self, at: int, following: int, fault: Fault) -> Iterator[Piece]:
        """The pieces of a stretch that was passed over from a fault on."""
        whose, why, place = fault.whose, fault.what, at
        reached = at + 1 if fault.length is None else min(at + fault.length, following)
        place = find(self.data, PATTERN, reached, following)
        while place >= 0:
            packet = self.lone(place, following)
            if packet is None:
                place = find(self.data, PATTERN, place + 1, following)
                continue
            if place > at:
                yield Hole(at - self.begin, place - at, why, whose)
                whose, why = None, 'no packet'
            self.note(packet.channel, packet.kind, packet.sequence, packet.counter, place)
            self.resync.note(packet.channel, packet.kind, packet.sequence)
            yield packet
            at = place + packet.length
            place = find(self.data, PATTERN, at, following)
        if following > at:
            yield Hole(at - self.begin, following - at, why, whose)

    def lone(self, place: int, following: int) -> Optional[Packet]:
        """The packet at a place in a stretch that was passed over, where it is one of this recording."""
        head = head_at(self.data, place, following)
        if head is None or head.length > MOST:
            return None
        try:
            packet = read_at(self.data, place, self.begin, following)
        except Fault:
            return None
        return packet if is_own(packet, self.data, place) and self.fits(packet, place, following) else None

    def fits(self, packet: Packet, place: int, following: int) -> bool:
        """Whether sequence number and counter lie between those of the packets before and after it."""
        before = self.known.get(packet.channel)
        last, room = (before[2], place - before[3]) if before else (-1, place - self.begin)
        if room < ROOM and LEAST * ((packet.sequence - last - 1) & 0xFF) > room:
            return False
        if packet.kind in (SETUP, INDEX, LOSS):
            return True
        if before and (before[0] != packet.kind or before[1] > packet.counter):
            return False
        self.look_ahead(following)
        if packet.channel in self.ahead:
            return packet.counter <= self.ahead[packet.channel]
        return not self.ahead or packet.counter <= self.latest + LATER

    def look_ahead(self, following: int) -> None:
        """Takes note of the counters of some packets after a stretch."""
        if self.after == following:
            return
        self.after, self.ahead, self.latest, at = following, {}, 0, following
        for _ in range(AHEAD):
            head = head_at(self.data, at, self.end)
            if head is None:
                break
            if head.kind not in (SETUP, INDEX, LOSS):
                _, _, _, _, _, _, _, _, low, high, _ = HEADER.unpack_from(self.data, at)
                self.ahead.setdefault(head.channel, (low | high << 32) & COUNT_BITS)
                self.latest = max(self.latest, low | high << 32)
            at += head.length
