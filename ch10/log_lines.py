"""The log channel of r10d: what the recorder said of a file in lines that are messages of it. docs/RECORDER.md has their form."""
from __future__ import annotations

import json
import re
from typing import Callable, Dict, List, NamedTuple, Optional, Tuple, TYPE_CHECKING

from .kinds import BY_NAME
from .packets import HEADER
from .standard import SYNC, Data, Key

if TYPE_CHECKING:
    from .survey import Row

MESSAGE = BY_NAME['message'].type
LETTERS = b'r10log '
LINE = re.compile(r'r10log ([a-z_]+)((?: [a-z_]+=(?:"(?:[^"\\]|\\.)*"|[^" ]+))*)')
KEY = re.compile(r' ([a-z_]+)=("(?:[^"\\]|\\.)*"|[^" ]+)')
MOST_SAID = 10  # changes of the clock that are named


class Line(NamedTuple):
    """A line: the count of its message, its word, and its keys with their values as texts."""
    count: int  # type: ignore[assignment]
    word: str
    keys: Dict[str, str]

    def number(self, key: str) -> int:
        """The value of a key as a whole number; 0 where it is none."""
        value = self.keys.get(key, '')
        return int(value) if re.fullmatch('[0-9]{1,20}', value) else 0


def line_of(count: int, text: str) -> Optional[Line]:
    """The line that a text is, or None."""
    found = LINE.fullmatch(text)
    if not found:
        return None
    keys: Dict[str, str] = {}
    for key, value in KEY.findall(found[2]):
        if value.startswith('"'):
            try:
                value = json.loads(value)
            except ValueError:
                return None
        keys.setdefault(key, value)
    return Line(count, found[1], keys)


def messages_in(body: bytes) -> List[Tuple[int, bytes]]:
    """The counts and the bytes of the messages in the body of a packet of messages, as far as they are whole."""
    number, at, found = int.from_bytes(body[:2], 'little'), 4, []
    for _ in range(number):
        if at + 12 > len(body):
            break
        size = int.from_bytes(body[at + 8:at + 10], 'little')
        found.append((int.from_bytes(body[at:at + 6], 'little'), bytes(body[at + 12:at + 12 + size])))
        at += 12 + size + (size & 1)
    return found


class Log:
    """The lines of a recording's log channel, in their order. Another channel may hold such lines too, as those of another recorder
    that were sent to it: a line of its own log names the channel that it stands in."""

    def __init__(self) -> None:
        self.lines: Dict[int, List[Line]] = {}
        self.others: set = set()

    def add(self, channel: int, body: bytes) -> None:
        """Takes a packet of messages of a channel. One whose first message is no line is no log channel."""
        if channel in self.others:
            return
        if channel not in self.lines:
            if bytes(body[16:16 + len(LETTERS)]) != LETTERS:
                self.others.add(channel)
                return
            self.lines[channel] = []
        for count, octets in messages_in(body):
            line = line_of(count, octets.decode('utf-8', 'replace'))
            if line:
                self.lines[channel].append(line)

    def own(self) -> List[Line]:
        """The lines of the log channel; none where there is no such channel."""
        for channel, lines in sorted(self.lines.items(), reverse=True):
            if any(line.word in ('start', 'file') and line.number('log') == channel for line in lines):
                return lines
        return []

    def file(self) -> Optional[Line]:
        """The line with which the file says its number and name, or None. Where the disk failed, the lines of the file before that
        were not durable come first."""
        return next((line for line in reversed(self.own()) if line.word == 'file'), None)

    def since(self) -> List[Line]:
        """That line and those after it."""
        lines = self.own()
        return lines[max((at for at, line in enumerate(lines) if line.word == 'file'), default=len(lines)):]

    def totals(self, more: Optional['Log'] = None) -> Dict[int, Line]:
        """By channel the last line with what it has of this file; of those of the next file too, where these are given."""
        file = self.file()
        if file is None:
            return {}
        lines = self.own() + (more.own() if more else [])
        return {line.number('channel'): line for line in lines if line.word == 'total'
                and line.number('file') == file.number('number') and line.keys.get('name') == file.keys.get('name')}

    def told(self) -> Dict[int, int]:
        """By channel how many of the losses before its first message an earlier file has told of."""
        return {line.number('channel'): line.number('told') for line in self.since() if line.word == 'before'}

    def clock(self) -> List[str]:
        """What clock the time packets had: a line, and one for each change."""
        said: List[str] = []
        for line in self.since():
            if line.word in ('file', 'clock') and 'sync' in line.keys:
                text = clock_text(line)
                if not said or said[-1].partition(' of its times: ')[2] != text:
                    said.append('clock%s of its times: %s' % (' from %s on' % line.keys.get('at', '-') if said else '', text))
            elif line.word == 'step':
                said.append('clock: it stepped at %s by %s s' % (line.keys.get('at', '-'), line.keys.get('by_s', '-')))
        if len(said) > MOST_SAID:
            said[MOST_SAID:] = ['clock: %d changes more' % (len(said) - MOST_SAID)]
        return said


def clock_text(line: Line) -> str:
    """What a line says of the clock, in words."""
    word = {'yes': 'in sync', 'no': 'not in sync'}.get(line.keys.get('sync', ''), 'in sync or not, nobody knows')
    error = line.keys.get('error_ns', '')
    most = 'off by at most %.3f ms' % (int(error) / 1e6) if re.fullmatch('[0-9]{1,18}', error) else 'off by an unknown time'
    return "the system's, %s, %s, says %s" % (word, most, line.keys.get('source', '-'))


def use(rows: Dict[Key, Row], log: Log, new_row: Callable[[int, int], Row], more: Optional[Log] = None) -> List[str]:
    """Puts what the log says of losses into the rows of channels: those after a channel's last message are lost too, and those that
    an earlier file has told of are not this one's. What is not told is a line."""
    lines, remarks = log.own(), []
    file, totals = log.file(), log.totals(more)
    for channel, told in sorted(log.told().items()):
        row = row_for(rows, channel)
        if row is not None and told:
            told = min(told, row.lost)
            row.lost -= told
            row.told = told
            row.losses -= row.losses > 0 and row.lost == 0
    for channel, total in sorted(totals.items()):
        row = row_for(rows, channel)
        missing = total.number('recorded') - (row.entries if row else 0)
        after = total.number('after') + max(missing, 0)
        if after and row is None and total.keys.get('kind') in BY_NAME:
            row = new_row(channel, BY_NAME[total.keys['kind']].type)
            row.at(max(line.count for line in lines))
        if row is not None and after:
            row.lost += after
            row.losses += 1
            row.after = after
    if file is not None and not totals:
        remarks.append('log: nothing says how this file ended: what was lost after the last message of a channel is not known')
    return remarks


def row_for(rows: Dict[Key, Row], channel: int) -> Optional[Row]:
    """The row of a channel's messages, if it has one: that of the loss reports and of what is damaged is none."""
    found = [row for (number, kind), row in rows.items() if number == channel and row.entries]
    return found[0] if found else None


def log_of(data: Data, begin: int, end: int) -> Log:
    """The log of a recording within some bytes, as far as its packets stand one after the other."""
    log, at = Log(), begin
    while at + 24 <= end:
        sync, channel, length, size, _, _, flags, kind, _, _, _ = HEADER.unpack_from(data, at)
        if sync != SYNC or length < 24 or at + length > end:
            break
        if kind == MESSAGE and not flags & 0x80:
            log.add(channel, data[at + 24:at + 24 + size])
        at += length
    return log
