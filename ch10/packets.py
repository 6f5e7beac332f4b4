"""Chapter 11: the packets of a recording, and how a reader goes on after damage."""
from __future__ import annotations

import struct
from collections import namedtuple
from typing import Dict, Iterator, List, NamedTuple, Optional, Set, Tuple

from .kinds import KINDS, by_type
from .standard import (INDEX, LOSS, PATTERN, REPORT, SETUP, SPAN, STREAMING, SUMS, SYNC, WIDTHS, Data, Fault, Key, Whose, find,
                       let_go, little)

HEADER = struct.Struct('<HHIIBBBBIHH')
HEADER_WORDS = struct.Struct('<11H')
ONE_WORD = struct.Struct('<I')
MOST = 524288  # bytes of a packet but one of setup

SECOND = 12  # bytes of a secondary header
SECOND_WORDS = struct.Struct('<6H')

Packet = namedtuple('Packet', 'offset channel kind length sequence flags counter body word second')
Packet.__new__.__defaults__ = (None,)
Packet.__doc__ = """A packet: its offset, channel, type, length, sequence number, flags and counter, its body with the word at its
front, and the 12 bytes of its secondary header, or None. The word is None where the packet is opaque: then the body is all that
stands after the headers."""

Stretch = namedtuple('Stretch', 'offset length why channel kind')
Stretch.__doc__ = """Bytes that were passed over: from which offset on, how many, and why. Channel and type are those of the \
packet that begins there where its
header is right, else None."""


def packet_at(data: Data, at: int, begin: int, end: int, judged: bool = True, opaque: bool = False, summed: bool = False) -> Packet:
    """The packet that begins at a place, or its fault. Its offset counts from the first place; a fault has its length where its
    header is right.

    Where it is not judged, which is for bytes that were read before, no checksum is looked at. The data checksum of an opaque
    packet is looked at only where that is asked for, and not after a secondary header. Of a packet that was summed already its data
    checksum is known to be right.
    """
    here = at - begin
    if end - at < 24:
        raise Fault('less than a header', here)
    sync, channel, length, size, _, sequence, flags, kind, low, high, total = HEADER.unpack_from(data, at)
    if sync != SYNC:
        raise Fault('no sync pattern', here)
    if judged and sum(HEADER_WORDS.unpack_from(data, at)) & 0xFFFF != total:
        raise Fault('a wrong header checksum', here)
    if length & 3 or 24 + size > length:
        raise Fault('lengths that do not fit', here)
    whose = channel, kind, sequence, low | high << 32
    if at + length > end:
        raise Fault('less than its packet', here, length, whose)
    front, word, second = front_of(flags), None, None
    fits = front + size <= length
    if front > 24 and fits:
        second = bytes(data[at + 24:at + front])
        if judged and not is_second(second):
            raise Fault('a wrong checksum of the secondary header', here, length, whose)
    if not is_of_another_clock(flags) and fits and (kind in KNOWN or kind == LOSS and size == 20
                                      and data[at + front:at + front + 8] == REPORT):
        if size < 4:
            raise Fault('a body without its word', here, length, whose)
        word, = ONE_WORD.unpack_from(data, at + front)
        if kind in FORMS and FORMS[kind](word, size):
            word = None
    if word is None:
        if opaque and not summed and flags & 3 and fits and front + size + WIDTHS[flags & 3] <= length:
            need_sum(data, at, length, size, flags, here, whose)
        body = data[at + (front if fits else 24):at + length]
    else:
        if judged and not summed and flags & 3:
            need_sum(data, at, length, size, flags, here, whose)
        body = data[at + front:at + front + size]
    return Packet(here, channel, kind, length, sequence, flags, low | high << 32, body, word, second)


def front_of(flags: int) -> int:
    """How many bytes stand before a packet's body: its header, and the secondary header that bit 7 of its flags says
    (IRIG 106-17, 11.2.1.2)."""
    return 24 + SECOND if flags & 0x80 else 24


def is_of_another_clock(flags: int) -> bool:
    """Whether stamps are times that cannot be counted: of the format of a secondary header (bit 6) that is not there, or that is
    reserved."""
    return flags & 0x40 != 0 and (not flags & 0x80 or flags & 0x0C == 0x0C)


def is_second(second: bytes) -> bool:
    """Whether the last of the six words of a secondary header is the sum of the others."""
    words = SECOND_WORDS.unpack(second)
    return sum(words[:5]) & 0xFFFF == words[5]


def packets(data: Data, begin: int = 0, end: Optional[int] = None, judged: bool = True,
            passed: Optional[Dict[int, int]] = None, first: Optional[int] = None) -> Iterator[Packet]:
    """Each packet from one place of some bytes to another, or from a packet between them on; what is passed over has its length by
    its offset. The first fault ends them."""
    at, end = begin if first is None else first, len(data) if end is None else end
    gone = at
    while at < end:
        if at - gone >= SPAN:
            let_go(data, gone, at)
            gone = at
        if passed and at - begin in passed:
            at += passed[at - begin]
            continue
        packet = packet_at(data, at, begin, end, judged)
        yield packet
        at += packet.length


def need_sum(data: Data, at: int, length: int, size: int, flags: int, here: int, whose: Optional[Whose]) -> None:
    """That a data checksum of the kind that these flags say has room, and is right. It is the sum of all that stands between the
    headers, the secondary one too, and itself."""
    width, front = WIDTHS[flags & 3], front_of(flags)
    end = at + length - width
    if at + front + size > end:
        raise Fault('no room for the checksum', here, length, whose)
    words = struct.unpack_from('<%d%s' % ((end - at - front) // width, SUMS[flags & 3]), data, at + front)
    if sum(words) % 256 ** width != little(data, end, width):
        raise Fault('a wrong data checksum', here, length, whose)


# The types that are read, and of some of them whether a body's word selects a form that is not.
KNOWN = frozenset([SETUP, INDEX, STREAMING] + [kind.type for kind in KINDS])
FORMS = {INDEX: lambda word, size: word & 0x60000000, **by_type('is_other_form')}


# ---- going on after damage

Head = namedtuple('Head', 'channel kind length sequence')


def head_at(data: Data, at: int, end: int) -> Optional[Head]:
    """The header at a place, where it is one: sync pattern, checksum, lengths that fit, and room for its packet."""
    if end - at < 24 or data[at:at + 2] != PATTERN:
        return None
    _, channel, length, size, _, sequence, _, kind, _, _, total = HEADER.unpack_from(data, at)
    if sum(HEADER_WORDS.unpack_from(data, at)) & 0xFFFF != total or length & 3 or 24 + size > length or at + length > end:
        return None
    return Head(channel, kind, length, sequence) if length <= MOST or kind == SETUP else None


# Packets that follow one another which are no copy within a packet: a copy of so many seldom fits into one body, and by the
# checksums of 24 headers it is no accident.
ROW = 24
# The same where no sequence number among them speaks against it: eight headers of 16 bits of checksum each.
FIRST_ROW = 8
# Right headers that are compared before a row that is known to be of the recording, so that a search ends in seconds where a body
# is full of copies.
MOST_ROWS = 4000
# And after its first one: two sequence numbers of each channel, of some thirty channels.
MORE = 64
# Bytes of a packet that are neither its header nor its data: a secondary header of 12, a checksum of 4, and up to 4 to fill it up.
AROUND = 20
# Packets of its channel that may be missing before one that is near. Sequence numbers are of 8 bits: by chance one of 32 is near.
NEAR = 8
# Bytes of the least packet with something in it: a header, a word, and an entry's 4. So a stretch has no more packets than that.
LEAST = 32
# Packets of a row whose sequence numbers go on exactly, or nearly, that show it to be of the recording: by chance one of 256 does.
GO_ON = 2
# Packets of such a row, or of one that the length of a right header leads to: one by itself may be a copy.
SHORT_ROW = 3
# Points of a row's kinship for each side of a channel: its sequence numbers follow one another, are near, or are neither, which
# takes away as much as the first gives.
FOLLOWS, IS_NEAR, IS_FAR = 2, 1, -2
# Points of a row's kinship (`Resync.kinship`) that make it one of the recording: a packet by itself, whose checksum nothing shows
# to be right, wants those of both its sides; else those of one are enough.
ALONE, TOGETHER = 3, 2


def sum_of(data: Data, at: int) -> Optional[bool]:
    """Whether the data checksum of the packet with a right header at a place is right. None where it has none, or is not looked
    at."""
    _, _, length, size, _, _, flags, _, _, _, _ = HEADER.unpack_from(data, at)
    if not flags & 3 or front_of(flags) + size > length:
        return None
    try:
        need_sum(data, at, length, size, flags, at, None)
    except Fault:
        return False
    return True


def missing(before: int, after: int) -> int:
    """How many packets of a channel are missing between two sequence numbers."""
    return (after - before - 1) & 0xFF


class Placed(NamedTuple):
    """A header and its place."""
    place: int
    head: Head

    def end(self) -> int:
        """The place behind the packet."""
        return self.place + self.head.length

    def key(self) -> Tuple[int, int]:
        """Its channel and type."""
        return self.head.channel, self.head.kind


class Resync:
    """Where the next packet begins after a fault.

    It is a sync pattern whose header is right, and which is no copy of a packet within another's body. Packets that follow one
    another are a row. A row is of this recording where it leads to the last byte, or is long, or where its sequence numbers go on
    from those of packets that are known to be of it; or where the lengths of the packet at fault lead to it. A row within the
    packet at fault, as far as that one's length is known, has to lead over its end.
    """

    def __init__(self, data: Data, begin: int, end: int) -> None:
        self.data, self.begin, self.end = data, begin, end
        self.last: Dict[int, int] = {}  # the last sequence number of each channel
        self.before: Dict[int, int] = {}  # how many bytes had been passed over by then
        self.passed = 0  # and have been by now
        self.seen: Set[Tuple[int, int]] = set()  # channels with types

    def note(self, channel: int, kind: int, sequence: int) -> None:
        """Takes note of a packet that was read, or that is at fault after a right header."""
        self.last[channel], self.before[channel] = sequence, self.passed
        self.seen.add((channel, kind))

    def after(self, at: int, length: Optional[int]) -> int:
        """Where to go on after a fault at a place, of a packet of this length where its header is right."""
        following = self.place_after(at, length)
        self.passed += following - at
        return following

    def place_after(self, at: int, length: Optional[int]) -> int:
        """The place where reading goes on after a fault."""
        data, end = self.data, self.end
        limit = None if length is None else at + length
        if limit == end:
            return end
        claimed = self.claimed(at) if limit is None else limit if self.is_claimed(at, limit) else None
        anchor = end if claimed is None else claimed
        place, has_others = find(data, PATTERN, at + 1, anchor), False
        while place >= 0:
            head = head_at(data, place, end)
            if head:
                has_others = True
                if claimed is None and (limit is None or place + head.length > limit) and self.goes_on(place, place - at):
                    anchor = place
                    break
            place = find(data, PATTERN, place + 1, anchor)
        return self.first_row(at, anchor, limit or claimed or at) if has_others else anchor

    def is_claimed(self, at: int, limit: int) -> bool:
        """Whether the next packet begins right after the one at fault, whose header is right."""
        return self.goes_on(limit, limit - at, not self.is_led_over(at, limit)) or self.is_next(at, limit)

    def claimed(self, at: int) -> Optional[int]:
        """Where the next packet begins by the lengths in a header that is wrong. None where they do not show it."""
        if not self.is_like(at):
            return None
        _, _, length, size, _, _, _, _, _, _, _ = HEADER.unpack_from(self.data, at)
        place = at + length
        if length & 3 == 0 and 24 < length and place <= self.end and (place == self.end or self.goes_on(place, length)):
            return place
        if length & 3 == 0 and 0 <= length - 24 - size <= AROUND and self.is_next(at, place):
            return place
        first = at + 24 + (size + 3 & -4)
        return next((place for place in range(first, first + AROUND + 1, 4) if self.is_next(at, place)), None)

    def is_like(self, at: int) -> bool:
        """Whether the bytes at a place are a header, but for some that were changed: its sync pattern is right, or its checksum, of
        a right one."""
        if self.end - at < 24:
            return False
        words = HEADER_WORDS.unpack_from(self.data, at)
        return words[0] == SYNC or (SYNC + sum(words[1:])) & 0xFFFF == little(self.data, at + 22, 2) and any(words[1:])

    def is_next(self, at: int, place: int) -> bool:
        """Whether a packet begins at a place that one at fault leads to: its header and data checksum are right, none before it
        leads over that place, and what comes after it, and after those that follow it, is like a header."""
        if place >= self.end or self.is_led_over(at, place):
            return False
        run, head = 0, head_at(self.data, place, self.end)
        while head and run < FIRST_ROW and sum_of(self.data, place):
            place, run = place + head.length, run + 1
            head = head_at(self.data, place, self.end)
        return run > 0 and (run == FIRST_ROW or place == self.end or head is not None or self.is_like(place))

    def is_led_over(self, at: int, limit: int) -> bool:
        """Whether a packet begins before a limit and ends after it."""
        place = find(self.data, PATTERN, at + 1, limit)
        while place >= 0:
            head = head_at(self.data, place, self.end)
            if head and place + head.length > limit and sum_of(self.data, place) is not False:
                return True
            place = find(self.data, PATTERN, place + 1, limit)
        return False

    def first(self) -> Optional[int]:
        """Where the first row of packets begins that shows a recording. None where there is none."""
        place = find(self.data, PATTERN, self.begin, self.end)
        while place >= 0:
            if head_at(self.data, place, self.end) and self.goes_on(place, place - self.begin):
                return place
            place = find(self.data, PATTERN, place + 1, self.end)
        return None

    def goes_on(self, place: int, passed: int, is_next: bool = False) -> bool:
        """Whether a row from a place on, after so many bytes that were passed over, is of this recording, as it shows and the
        packets before it do.

        Less of it is enough where it is next by the length of a right header.
        """
        head, run, exact, near, against, first = head_at(self.data, place, self.end), 0, 0, 0, 0, set()
        passed += self.passed
        while head and run < ROW:
            key = head.channel, head.kind
            if key in self.seen and key not in first:
                gone = missing(self.last[head.channel], head.sequence)
                most = max(min((passed - self.before[head.channel]) // LEAST, NEAR), 1)
                exact += gone == 0
                near += 0 < gone <= most
                against += gone > most
            first.add(key)
            run += 1
            if sum_of(self.data, place) is False:
                break
            place += head.length
            head = head_at(self.data, place, self.end)
        if place == self.end and run or run >= ROW or run >= FIRST_ROW and against == 0:
            return True
        return against == 0 and (exact >= GO_ON or exact + near >= GO_ON and run >= SHORT_ROW
                                 or is_next and (exact > 0 or run >= SHORT_ROW))

    def first_row(self, at: int, anchor: int, limit: int) -> int:
        """The first packet of the first row after a fault that is of this recording, as rows that are known to be of it show; or
        else the anchor.

        The packet at fault may reach to the limit. What is within it, or within another one that may be at fault, is a row by
        itself.
        """
        rows = self.rows(at, anchor, limit)
        known: Dict[Tuple[int, int], List[Placed]] = {key: [Placed(at, Head(*key, 0, self.last[key[0]]))] for key in self.seen}
        found, certain = anchor, [row for row in rows if row[0].place == anchor]
        while True:
            rows = [row for row in rows if row not in certain]
            for row in certain:
                found = min(found, row[0].place)
                for one in row:
                    known.setdefault(one.key(), []).append(one)
            certain = [row for row in rows if self.kinship(row, known) >= self.enough(row)]
            if not certain:
                return found

    def enough(self, row: List[Placed]) -> int:
        """How much a row has to agree with packets that are known. A packet by itself needs more, unless its data checksum shows
        that it is one.

        What begins after the row as a header does, with some bytes changed, is no rest of a packet that the row is a copy in.
        """
        behind = row[-1].end()
        if sum_of(self.data, row[-1].place) and head_at(self.data, behind, self.end) is None and self.is_like(behind):
            return 1
        return TOGETHER if len(row) > 1 or sum_of(self.data, row[0].place) else ALONE

    def rows(self, at: int, anchor: int, limit: int) -> List[List[Placed]]:
        """The rows between a fault and the anchor, and some after that; but not those within a packet whose end or whose data
        checksum is right. A packet whose data checksum is wrong ends a row."""
        data, end, number, most, broken = self.data, self.end, 0, MOST_ROWS, -1
        rows: List[List[Placed]] = []
        place = find(data, PATTERN, at + 1, end)
        while 0 <= place and number < most:
            head, step = head_at(data, place, end if place >= anchor else anchor), 1
            if head:
                if place == anchor:
                    most = number + MORE
                number += 1
                one = Placed(place, head)
                if rows and rows[-1][-1].end() == place and place not in (anchor, broken) and not place <= limit < one.end():
                    rows[-1].append(one)
                else:
                    rows.append([one])
                has_sum = sum_of(data, place)
                if has_sum is False:
                    broken = one.end()
                if has_sum or has_sum is None and (one.end() in (end, anchor) or head_at(data, one.end(), end)):
                    step = head.length
                else:
                    limit = max(limit, one.end())
            place = find(data, PATTERN, place + step, end)
        return rows

    @staticmethod
    def kinship(row: List[Placed], known: Dict[Tuple[int, int], List[Placed]]) -> int:
        """How much a row agrees with packets that are known, by the sequence numbers of each channel and type: two for each side
        where they follow one another, one where they are near, and less by two where they are neither."""
        points = 0
        ends: Dict[Key, Tuple[Placed, Placed]] = {}
        for one in row:
            ends[one.key()] = ends.get(one.key(), (one, one))[0], one
        for key, (first, last) in ends.items():
            before = max((one for one in known.get(key, ()) if one.place < first.place), default=None)
            after = min((one for one in known.get(key, ()) if one.place > last.place), default=None)
            sides: Tuple[Tuple[Optional[Placed], Optional[Placed]], ...] = (before, first), (last, after)
            for early, late in sides:
                if early and late:
                    gone = missing(early.head.sequence, late.head.sequence)
                    is_near = gone <= min((late.place - early.end()) // LEAST, NEAR)
                    points += FOLLOWS if gone == 0 else IS_NEAR if is_near else IS_FAR
        return points

    def within(self, at: int, length: int) -> Optional[int]:
        """Where, within a packet at whose end no header stands, another begins from which a row leads over its end. None where
        there is none."""
        data, end, behind = self.data, self.end, at + length
        if behind == end or head_at(data, behind, end):
            return None
        begin = find(data, PATTERN, at + 24, behind + 1)
        while begin >= 0:
            place, head = begin, head_at(data, begin, end)
            while head and place + head.length <= behind:
                place += head.length
                head = head_at(data, place, end) if place < behind else None
            if head and (place + head.length == end or head_at(data, place + head.length, end)):
                return begin
            begin = find(data, PATTERN, begin + 1, behind + 1)
        return None


# ---- loss reports

def loss_of(packet: Packet) -> Optional[Tuple[int, int]]:
    """Of a loss report the channel and how many messages it lost; else None."""
    if packet.kind == LOSS and packet.word is not None:
        return little(packet.body, 8, 2), little(packet.body, 12, 8)
    return None


UNTOLD = -1


def lost_before(packet: Packet, report: Optional[Tuple[int, int]]) -> int:
    """How many messages were lost before a packet's first entry, after this report or none. UNTOLD where none says how many: at
    least one."""
    if not packet.flags & 0x10:
        return 0
    return report[1] if report and report[0] == packet.channel else UNTOLD


def lost_text(lost: int) -> str:
    """How many messages were lost, as text; 1+ where nothing says."""
    return '1+' if lost == UNTOLD else str(lost)
