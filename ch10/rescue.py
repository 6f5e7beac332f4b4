"""`ch10 rescue`: the recordings on a medium whose directory is gone or damaged.

One pass over the medium. A setup packet at the start of a block begins a file, and packet after packet is its own. It ends where
its index does, or where the last block's rest is zeros. After a hole it goes on with packets that continue it, by their channels'
sequence numbers and counters. Other packets are of another recording: an older one that was written over, as a rule. So are those
that stand where no file goes on, and they make a part of their own. A part may be continued after another one that lies within it.

Each is written as it stands. What belongs to another one within it is zeros. `ch10 mend` makes strict files of them.
"""
from __future__ import annotations

from argparse import Namespace
import json
import os
from typing import Dict, Iterator, List, NamedTuple, Optional, Tuple

from .inputs import Output, shown
from .new_file import NewFile, Opened, copy
from .packets import HEADER, PATTERN, head_at
from .pieces import ROOM, read_at
from .standard import INDEX, SETUP, SPAN, Data, Facts, Fault, Wrong, big, find, let_go, text
from .strict import LEAST, is_own

BLOCK = 512
MOST_DIRECTORY = 64  # blocks that a directory has at most
ROW = 24  # packets by which it is seen whether they continue a recording
RECENT = 4  # recordings that may go on after another one
ZEROS = bytes(1 << 20)


class Head(NamedTuple):
    """A packet's header: where it stands, its channel, type, length, sequence number and counter, and where its packet ends."""
    place: int
    channel: int
    kind: int
    length: int
    sequence: int
    counter: int
    end: int


def heads(data: Data, place: int, end: int) -> Iterator[Head]:
    """The headers that follow one another from a place on."""
    while head_at(data, place, end):
        _, channel, length, _, _, sequence, _, kind, low, high, _ = HEADER.unpack_from(data, place)
        yield Head(place, channel, kind, length, sequence, low | high << 32, place + length)
        place += length


class Found:
    """A recording on the medium: its stretches, and what is known of its channels so far."""

    def __init__(self, place: int, has_front: bool, after: Optional['Found']) -> None:
        self.spans: List[List[int]] = [[place, place]]
        self.has_front, self.after = has_front, after
        self.packets = self.holes = 0
        self.how = 'not closed'
        self.is_done = False
        self.last: Dict[int, Tuple[int, int, int]] = {}  # of each channel type, sequence number and counter of its last packet

    @property
    def begin(self) -> int:
        """The first byte."""
        return self.spans[0][0]

    @property
    def end(self) -> int:
        """The byte behind the last one."""
        return self.spans[-1][1]

    def add(self, head: Head) -> None:
        """Takes in a packet by its header."""
        self.spans[-1][1] = head.end
        self.packets += 1
        self.last[head.channel] = head.kind, head.sequence, head.counter

    def go_on(self, place: int, is_apart: bool) -> None:
        """Goes on at a place after a hole, which another recording may have."""
        self.holes += 1
        if is_apart:
            self.spans.append([place, place])
        else:
            self.spans[-1][1] = place

    def done(self, how: str) -> None:
        """Takes note of how it ends."""
        self.how, self.is_done, self.last = how, True, {}

    def is_continued(self, row: List[Head], hole: int) -> bool:
        """Whether packets after a hole of so many bytes are of this recording, by the first of each channel."""
        for_it, seen = 0, set()
        for head in row:
            if head.kind == SETUP:
                break
            if head.channel in seen:
                continue
            seen.add(head.channel)
            last = self.last.get(head.channel)
            gone = (head.sequence - (last[1] if last else -1) - 1) & 0xFF
            room = hole if last or not self.has_front else self.end - self.begin + hole
            if (last or self.has_front) and room < ROOM and gone * LEAST > room:
                return False
            if last and head.channel and (last[0] != head.kind or head.counter < last[2]):
                return False
            for_it += bool(last) or self.has_front
        return for_it > 0


class Medium:
    """The pass over a medium."""

    def __init__(self, data: Data) -> None:
        self.data, self.end = data, len(data)
        self.found: List[Found] = []
        self.place = 0  # of the last packet

    def go(self) -> List[Found]:
        """Goes over the medium, and answers the recordings on it."""
        at, gone = 0, 0
        here: Optional[Found] = None
        while at < self.end:
            if here is None:
                head = self.next_head(at, self.end)
                if head is None:
                    break
                here = self.begun(head)
                at = head.end
            else:
                here, at = self.step(here, at)
            if at - gone >= SPAN:
                let_go(self.data, gone, at)
                gone = at
        return self.found

    def begun(self, head: Head) -> Found:
        """A recording that begins with this packet."""
        found = Found(head.place, head.kind == SETUP and head.place % BLOCK == 0, self.found[-1] if self.found else None)
        found.add(head)
        self.found.append(found)
        self.place = head.place
        return found

    def step(self, here: Found, at: int) -> Tuple[Optional[Found], int]:
        """What comes after the packets so far: the recording that goes on, and where."""
        head = next(heads(self.data, at, self.end), None)
        if here.last.get(0, (0,))[0] == INDEX and self.is_root(here) and (head is None or head.kind != INDEX):
            here.done('closed')
            return None, at
        if head and head.kind == SETUP and at % BLOCK == 0 and here.packets:
            here.done('not closed')
            return None, at
        if head and (at % BLOCK or here.is_continued(self.row(at), 0)):
            here.add(head)
            self.place = head.place
            return here, head.end
        block = -(-at // BLOCK) * BLOCK
        if at % BLOCK and not self.data[at:block].strip(b'\x00'):
            here.done('not closed')
            return None, min(block, self.end)
        following = self.within(here, at) or head or self.next_head(at + 1, self.end)
        if following is None:
            return None, self.end
        here.spans[-1][1] = min(here.end, following.place)
        if following.kind == SETUP and following.place % BLOCK == 0:
            return None, following.place
        row = self.row(following.place)
        for one in [here] + [one for one in reversed(self.found[-RECENT:]) if one is not here]:
            if not one.is_done and one.is_continued(row, following.place - one.end):
                one.go_on(following.place, one is not here)
                one.add(following)
                self.place = following.place
                return one, following.end
        return self.begun(following), following.end

    def is_root(self, here: Found) -> bool:
        """Whether the last packet is a root of an index."""
        at = self.place
        return self.data[at + 15] == INDEX and not self.data[at + 27] & 0x80

    def row(self, place: int) -> List[Head]:
        """Some of the packets from a place on."""
        return [head for head, _ in zip(heads(self.data, place, self.end), range(ROW))]

    def head_of(self, place: int) -> Optional[Head]:
        """The header of the packet at a place, or None."""
        return next(heads(self.data, place, self.end), None)

    def within(self, here: Found, at: int) -> Optional[Head]:
        """The packet that begins within the last one, if that is not whole: a setup at the start of a block, or one that leads over
        its end."""
        begin = self.place
        if begin < here.begin or begin >= at:
            return None
        try:
            packet = read_at(self.data, begin, 0, self.end)
            if packet.flags & 3 or is_own(packet, self.data, begin):
                return None
        except Fault:
            pass
        place = find(self.data, PATTERN, begin + 1, at)
        while place >= 0:
            head = self.head_of(place)
            if head and (head.kind == SETUP and place % BLOCK == 0 or head.end > at and self.is_packet(head)):
                return head
            place = find(self.data, PATTERN, place + 1, at)
        return None

    def next_head(self, at: int, end: int) -> Optional[Head]:
        """The next packet from a place on that is one: a setup at the start of a block, one of r10, or one before another."""
        place = find(self.data, PATTERN, at, end)
        while place >= 0:
            head = self.head_of(place)
            if head and (head.kind == SETUP and place % BLOCK == 0 or self.is_packet(head)):
                return head
            place = find(self.data, PATTERN, place + 1, end)
        return None

    def is_packet(self, head: Head) -> bool:
        """Whether what has a right header shows otherwise too that it is a packet."""
        try:
            packet = read_at(self.data, head.place, 0, self.end)
        except Fault:
            return False
        return head_at(self.data, head.end, self.end) is not None or is_own(packet, self.data, head.place)


# ---- what is written

def entries_of(data: Data) -> Dict[int, Tuple[str, int]]:
    """Names and sizes by their first blocks, of what can be read of the directory."""
    found: Dict[int, Tuple[str, int]] = {}
    for at in range(BLOCK, min((MOST_DIRECTORY + 1) * BLOCK, len(data) - BLOCK + 1), BLOCK):
        if data[at:at + 8] == b'FORTYtwo':
            for entry in range(at + 64, at + 64 + 112 * min(big(data, at + 10, 2), 4), 112):
                found.setdefault(big(data, entry + 56, 8), (text(data[entry:entry + 56]), big(data, entry + 72, 8)))
    return found


def name_of(found: Found) -> str:
    """The name of a recording's file."""
    block, byte = divmod(found.begin, BLOCK)
    return 'block-%d.ch10' % block if byte == 0 else 'block-%d-byte-%d.ch10' % (block, byte)


def write(data: Data, found: Found, path: str) -> None:
    """Writes a recording as it stands, with zeros for what another one has within it."""
    with NewFile(path) as new:
        at = found.begin
        for begin, end in found.spans:
            while at < begin:
                new.held.write(ZEROS[:min(len(ZEROS), begin - at)])
                at += min(len(ZEROS), begin - at)
            copy(data, begin, end, new.held, let_go)
            at = end
        new.keep()


def said_of(found: Found, known: Dict[int, Tuple[str, int]]) -> Tuple[str, Facts]:
    """What is said of a recording: a line, and its fields."""
    name, size = known.get(found.begin // BLOCK, ('', 0)) if found.has_front else ('', 0)
    words = ['%s: block %d, byte %d: %d bytes, %d packets, %s' % (
        name_of(found), found.begin // BLOCK, found.begin, found.end - found.begin, found.packets, found.how)]
    if name:
        words.append('%s in the directory, of %d bytes' % (shown(name), size))
    if not found.has_front:
        words.append('without its front')
    if found.after and not found.has_front and found.after.is_done:
        words.append('after the end of %s: an older recording that was written over, or one whose front is damaged' % name_of(
            found.after))
    if found.holes:
        words.append('%d hole%s' % (found.holes, '' if found.holes == 1 else 's'))
    if len(found.spans) > 1:
        words.append('another recording lies within it, and is zeros in it')
    return ', '.join(words), {
        'what': 'recording', 'file': name_of(found), 'block': found.begin // BLOCK, 'offset': found.begin,
        'bytes': found.end - found.begin, 'packets': found.packets, 'closed': found.how == 'closed', 'front': found.has_front,
        'name': name or None, 'holes': found.holes, 'spans': found.spans}


def rescue(asked: Namespace, _: None, out: Output) -> None:
    """`ch10 rescue IMAGE FOLDER`."""
    folder = asked.folder
    if os.path.isdir(folder):
        if os.listdir(folder):
            raise Wrong('%r is a folder with files: give an empty one, or none' % folder[:60])
    else:
        os.mkdir(folder)
    opened = Opened(asked.image, folder)
    if len(opened.data) == 0:
        raise Fault('an empty input')
    for offset, length in opened.unread:
        out.line(json.dumps({'what': 'unread', 'offset': offset, 'length': length}) if asked.json
                 else 'unread: offset %d, length %d: the disk does not give it' % (offset, length))
    found, known = Medium(opened.data).go(), entries_of(opened.data)
    for one in found:
        write(opened.data, one, os.path.join(folder, name_of(one)))
        line, fields = said_of(one, known)
        out.line(json.dumps(fields) if asked.json else line)
    if not found:
        raise Fault('no recording is found')
