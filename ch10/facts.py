"""What the catalogue keeps of a recording: its sum, its verdict by the program, and what one pass over it finds."""
from __future__ import annotations

import hashlib
import os
import re
import subprocess
from typing import Callable, Dict, List, Optional, Tuple

from .bodies import counts
from .clocks import NOTHING, Asked, Timing
from .doubts import NO_SETUP, doubts_of, has_no_setup, log_said, unread_in
from .kinds import by_type
from .log_lines import MESSAGE, Log, use
from .packets import HEADER, ONE_WORD, packet_at
from .standard import LOSS, SETUP, TIME, Data, Facts, Fault, Wrong, little
from .store_schema import MOST_NUMBER
from .survey import REPORT_ROW, Row, Survey, Surveyed, counts_of, name_of
from .times import civil, time
from .tmats import Names

PART = 1 << 20
MOST_IN_MEMORY = 1 << 24  # bytes
SUMS = ('losses', 'lost', 'untold', 'jumps')
NUMBERS, LAST_COUNTS = by_type('number_in'), by_type('last_count')
MOST_CODE = 200
NUMBERED = re.compile(r'-[0-9]+$').search


# ---- the verdict, by the program

def program_of(given: Optional[str]) -> str:
    """Where the program r10 is: as given, else by R10, else the proved build of this repository, else on the PATH."""
    top = os.path.dirname(os.path.dirname(os.path.realpath(__file__)))
    proved = os.path.join(top, 'crates', 'r10_cli', 'out', 'r10_cli')
    for path in (given, os.environ.get('R10')):
        if path:
            return path
    if os.path.exists(proved):
        return proved
    for folder in os.environ.get('PATH', '').split(os.pathsep):
        if os.access(os.path.join(folder, 'r10'), os.X_OK):
            return os.path.join(folder, 'r10')
    raise Wrong('the verdict needs the program r10: scripts/build.sh makes the proved one, --program names another, --unjudged '
                'does without')


def version_of(program: str) -> str:
    """What the program says of its version."""
    try:
        done = subprocess.run([program, '--version'], stdin=subprocess.DEVNULL, stdout=subprocess.PIPE, stderr=subprocess.PIPE)
    except OSError as error:
        raise Wrong('the program %r cannot be run: %s' % (program[:200], error.strerror))
    said = done.stdout.decode('ascii', 'replace').strip()
    if done.returncode or not said.startswith('r10 '):
        raise Wrong('%r is not the program r10' % program[:200])
    return said[:100]


def said_of(program: str, command: str, data: memoryview) -> Tuple[int, str]:
    """The status and the line of a command of the program that reads these bytes."""
    held = in_memory(data)
    try:
        source = subprocess.PIPE if held is None else held
        with subprocess.Popen([program, command], stdin=source, stdout=subprocess.PIPE, stderr=subprocess.PIPE, bufsize=0) as made:
            try:
                if made.stdin is not None:
                    write_all(made.stdin.write, data)
                    made.stdin.close()
            except BrokenPipeError:
                pass
            said = next(filter(None, (stream.read().decode('ascii', 'replace').strip()
                                      for stream in (made.stdout, made.stderr) if stream)), '')
    finally:
        if held is not None:
            os.close(held)
    return made.returncode, said


def in_memory(data: memoryview) -> Optional[int]:
    """A file in memory that has these bytes, for who reads them then waits for nobody; None where they are many, or where there is
    no such file."""
    if len(data) > MOST_IN_MEMORY or not hasattr(os, 'memfd_create'):
        return None
    try:
        held = os.memfd_create('recording')
    except OSError:
        return None
    try:
        write_all(lambda part: os.write(held, part), data)
        os.lseek(held, 0, os.SEEK_SET)
    except OSError:
        os.close(held)
        return None
    return held


def write_all(write: Callable[[memoryview], int], data: memoryview) -> None:
    """Writes all bytes, in parts, however many a call takes."""
    for at in range(0, len(data), PART):
        part = data[at:at + PART]
        while part:
            part = part[write(part):]


def verdict_of(program: Optional[str], data: memoryview) -> Facts:
    """The verdict on a recording and its place. It is `unjudged` where no program is given, or where it ended without one, as for
    want of memory."""
    found: Facts = dict(verdict='unjudged', opaque=None, fault_offset=None, fault=None)
    if program is None:
        return found
    _, said = said_of(program, 'check', data)
    words = said.split(' ')
    if said == 'strict':
        found['verdict'] = 'strict'
    elif re.fullmatch(r'lenient \d+', said):
        found.update(verdict='lenient', opaque=int(words[1]))
    elif re.fullmatch(r'faulty \d+ \w+', said):
        found.update(verdict='faulty', fault_offset=int(words[1]), fault=words[2])
    return found


def verdict_of_image(program: Optional[str], data: memoryview, fault: Fault) -> Facts:
    """The verdict on an image whose directory this reader cannot take."""
    place = re.search(r'at offset (\d+)$', str(fault))
    found = dict(verdict='faulty', opaque=None, fault_offset=int(place[1]) if place else 0, fault='BadDirectory')
    if program is not None:
        _, said = said_of(program, 'files', data)
        if re.fullmatch(r'refused 26 BadDirectory \d+', said):
            found['fault_offset'] = 512 * int(said.split(' ')[3])
    return found


# ---- what one pass finds

def text_of(ticks: int, dated: bool) -> Optional[str]:
    """A civil time with seven places after the second."""
    said = civil(ticks, dated)
    return said and '%s.%07d' % (said, ticks % 10 ** 7)


class StrictSurvey(Surveyed):
    """What `Survey` finds of a recording that the program calls strict, in a tenth of its time.

    The rules of a strict file stand for what is not looked at: its sums are right, no sequence number is missing, and the counts of
    a channel rise from its first packet's counter to the last entry of its last packet. So packets are counted by their headers and
    words, and one packet of each channel is read.
    """

    def __init__(self, data: Data, begin: int, end: int, asked: Asked = NOTHING, more: Optional[Log] = None) -> None:
        rows: Dict[Tuple[int, int], Row] = {}
        last: Dict[Tuple[int, int], int] = {}
        self.timing, self.log = Timing(), Log()
        self.damage = []
        self.fault, self.out_of_step, self.begins_with_setup = None, 0, True
        self.setup = None
        at, report = begin, None
        head, one_word = HEADER.unpack_from, ONE_WORD.unpack_from
        while at < end:
            _, channel, length, size, _, _, flags, kind, low, high, _ = head(data, at)
            counter, word = low | high << 32, one_word(data, at + 24)[0]
            told = None
            if kind == LOSS:
                told, kind = (little(data, at + 32, 2), little(data, at + 36, 8)), REPORT_ROW
            elif kind == TIME:
                self.timing.add(channel, counter, time(data[at + 24:at + 24 + size], word), at - begin, flags)
            elif kind == SETUP:
                self.setup = bytes(data[at + 28:at + 24 + size])
            key = channel, kind
            row = rows.get(key)
            if row is None:
                row = rows[key] = Row(channel, kind)
            row.packets += 1
            row.bytes += length
            if flags & 0x10:
                row.losses += 1
                if report and report[0] == channel:
                    row.lost += report[1]
                else:
                    row.lost += 1
                    row.untold += 1
            number = NUMBERS[kind](data, at + 24, size, word) if kind in NUMBERS else 0
            if kind == MESSAGE:
                self.log.add(channel, data[at + 24:at + 24 + size])
            if number:
                row.entries += number
                if not row.entered:
                    row.entered[0] = [counter, counter]
                last[key] = at
            row.at(counter)
            report = told
            at += length
        for key, place in last.items():
            rows[key].entered[0][1] = last_count(data, place, begin, end)
        self.log_remarks = use(rows, self.log, lambda channel, kind: rows.setdefault((channel, kind), Row(channel, kind)), more)
        self.rows = [rows[key] for key in sorted(rows)]
        self.names = Names(self.setup)
        self.times = list(self.timing.lines.values())
        self.sessions = self.timing.sessions
        self.clock = self.timing.clock(asked, self.names.attributes)


def last_count(data: Data, at: int, begin: int, end: int) -> int:
    """The count of the last entry of a packet of a strict recording."""
    packet = packet_at(data, at, begin, end, False)
    return LAST_COUNTS[packet.kind](packet.body) if packet.kind in LAST_COUNTS else counts(packet)[-1]


def attributes_of(names: Names) -> List[Tuple[str, str]]:
    """The attributes of the setup text that are of the whole: of the general group all, of others those without a number of their
    own, for channels have rows. A code that is longer than any of chapter 9 is left out, and a NUL, which not every database takes,
    is a question mark."""
    found: Dict[str, str] = {}
    for code, value in names.attributes.items():
        if len(code) <= MOST_CODE and (code.startswith('G\\') or not (code[-1].isdigit() and NUMBERED(code))):
            found.setdefault(code.replace('\0', '?'), value.replace('\0', '?'))
    return list(found.items())


def damage_of(survey: Surveyed) -> List[Tuple[int, int, str]]:
    """The stretches that were passed over: offset, length, and why."""
    return [(stretch.offset, stretch.length, stretch.why) for stretch in survey.damage]


# ---- all of it

def facts_of(data: Data, begin: int, end: int, program: Optional[str], survey: Optional[Survey] = None,
             asked: Asked = NOTHING) -> Facts:
    """What the catalogue keeps of one recording within some bytes, but for its sum and its place; by the pass that was made, where
    one was."""
    with memoryview(data)[begin:end] as view:
        found = verdict_of(program, view)
    made: Surveyed
    if survey is not None:
        made = survey
    elif found['verdict'] == 'strict':
        made = StrictSurvey(data, begin, end, asked)
    else:
        made = Survey(data, begin, end, asked=asked)
    found.update(kept_of(made, end - begin))
    return found


def kept_of(survey: Surveyed, size: int) -> Facts:
    """What the catalogue keeps of a pass over so many bytes."""
    clock, rows = survey.clock, []
    for row in survey.rows:
        times = clock.ends(row.ends()) if clock else (None, None)
        rows.append((row.channel, row.kind, name_of(row.kind), survey.names.channel(row.channel) or None, row.packets,
                     row.entries if row.has_entries() else None, row.bytes) + row.counts() + times
                    + (row.rate(), row.losses, most(row.lost), row.untold, row.jumps, row.opaque, row.bad))
    ends = survey.ends() if survey.rows else []
    first, last = clock.ends(ends) if clock else (None, None)
    low, high = counts_of(ends) if ends else (None, None)
    found: Facts = dict(kind='recording', size=size, first_time=first, last_time=last, first_count=low, last_count=high,
                 packets=sum(row.packets for row in survey.rows), entries=sum(row.entries for row in survey.rows),
                 channels=rows, damage=damage_of(survey), attributes=attributes_of(survey.names),
                 unread=[(one.channel, one.kind, one.packets, one.why) for one in unread_in(survey)],
                 remarks=list(enumerate(doubts_of(survey) + log_said(survey) + ([NO_SETUP] if has_no_setup(survey) else []), 1)))
    for name in SUMS:
        found[name] = most(sum(getattr(row, name) for row in survey.rows))
    found.update(damaged=len(found['damage']), damaged_bytes=sum(length for _, length, _ in found['damage']))
    return found


def most(number: int) -> int:
    """A number as a column takes it: a loss report may have any number of 64 bits."""
    return min(number, MOST_NUMBER)


def nothing_in(size: int) -> Facts:
    """What is kept of an input that no pass went over."""
    found: Facts = dict.fromkeys(('first_time', 'last_time', 'first_count', 'last_count'))
    found.update(dict.fromkeys(('packets', 'entries', 'damaged', 'damaged_bytes') + SUMS, 0), kind='image', size=size, channels=[],
                 damage=[], attributes=[], unread=[], remarks=[])
    return found


def sum_of(view: memoryview) -> str:
    """The SHA-256 of some bytes, as hex digits."""
    return hashlib.sha256(view).hexdigest()
