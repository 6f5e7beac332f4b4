#!/usr/bin/env python3
"""Damages recordings and media, and sees what `ch10 mend` and `ch10 rescue` make of them.

    scripts/trials/ch10_mend.py check [PROGRAM]        # in seconds, for the gate: recordings of every kind, of other recorders,
                                                       # and what PROGRAM records of random scripts; without it the build that is
                                                       # kept
    scripts/trials/ch10_mend.py random COUNT [SEED]    # so many damaged recordings that are made here
    scripts/trials/ch10_mend.py large PROGRAM [COUNT [SEED]]    # so many media, else 1,000, that are mangled or torn
    scripts/trials/ch10_mend.py only TRIAL [PROGRAM]    # one of the trials of `check`
    scripts/trials/ch10_mend.py slips                  # plants wrong bodies, one at a time, and sees the trials fail

Each output has to be strict and closed by scripts/tools/judge_recording.py, and by PROGRAM. Each packet that nothing touched is in
it, once and in its channel's order, with its messages and times byte for byte; what else is in it has a header that was there.
Where a packet of a channel is missing, the next one is flagged; where a loss report stands, its number is what is missing. The
input stays as it is, byte for byte.
"""
from __future__ import annotations

import collections
import io
import json
import os
import pathlib
import random
import shutil
import subprocess
import sys
import tempfile
from concurrent.futures import ProcessPoolExecutor
from typing import Dict, List, Optional, Sequence, Tuple

sys.dont_write_bytecode = True
TOP = pathlib.Path(__file__).resolve().parents[2]
sys.path[1:1] = map(str, [TOP, *(TOP / 'scripts').iterdir()])  # modules of the other folders

from ch10.python import with_numpy  # noqa: E402

if __name__ == '__main__':
    with_numpy()
from ch10 import command, medium  # noqa: E402
from ch10.standard import Fault  # noqa: E402
import ch10_recordings  # noqa: E402
import check_cases  # noqa: E402
import judge_image  # noqa: E402
import judge_recording  # noqa: E402
import made_kinds  # noqa: E402
from check_cases import number  # noqa: E402

SETUP, EVENT, INDEX, TIME, LOSS = 0x01, 0x02, 0x03, 0x11, 0x00
ROOM = 256 * 36  # bytes in which a channel may lose as many packets as its sequence numbers count
SECTOR = 512
QUICK = '/dev/shm' if os.path.isdir('/dev/shm') else None  # where a sync costs nothing


class Bad(Exception):
    """What does not agree."""


def agree(said, wanted, what):
    if said != wanted:
        raise Bad('%s: %.400r, wanted %.400r' % (what, said, wanted))


# ---- recordings as r10 writes them

class Maker(ch10_recordings.Maker):
    """Makes the packets of a strict recording."""

    def lose(self, channel: int, lost: int, time: int) -> None:
        """A loss report before the next packet of a channel."""
        self.put(0, LOSS, time, bytes(4) + b'LOSS' + number(channel, 2) + bytes(2) + number(lost, 8))

    def index(self, time: int) -> None:
        self.parts += check_cases.index_of(list(self.parts), time, self.places[0] + 1, 1 + len(self.parts) % 2)


def strict(draw: random.Random, packets: int) -> List[bytes]:
    """The packets of a strict recording with all kinds, losses and events."""
    make, count, step = Maker(), draw.choice((1000, draw.randrange(1 << 46))), ch10_recordings.SECOND // 20
    checks = {kind.channel: draw.choice((0, 1, 2, 3)) for kind in made_kinds.KINDS}
    make.put(0, SETUP, count, number(0x0C, 4) + ch10_recordings.SETUP_TEXT[:draw.randrange(400)])
    events: Dict[int, int] = collections.Counter()
    time = 0
    while len(make.parts) < packets:
        if time == 0 or draw.random() < 0.08:
            make.put(1, TIME, count, bytes.fromhex('010300007856341229022420'))
            time = count
        channel = draw.choice(ch10_recordings.CHANNELS + (2,))
        some = sorted(draw.randrange(count, count + step) for _ in range(draw.randint(1, 12)))
        if channel == 2:
            which = draw.randrange(3)
            make.put(2, EVENT, some[0], number(1, 4) + number(some[0], 8) + number(1 << 28 | events[which] << 12 | which, 4))
            events[which] += 1
        else:
            kind, flags = ch10_recordings.BY_CHANNEL[channel], 0
            if draw.random() < 0.05:
                flags = 0x10
                if draw.random() < 0.8:
                    make.lose(channel, draw.randint(1, 40), time)
            body = kind.flight_body(draw, some)
            first = int.from_bytes(body[4:10], 'little') if kind.name != 'arinc' else some[0]
            make.put(channel, kind.data_type, first, body, checks[channel], flags=flags)
        count += step
    if draw.random() < 0.8:
        make.index(time)
    return make.parts


# ---- damage in place

def damaged(draw: random.Random, data: bytes) -> bytes:
    """Some bytes with bits turned, sectors of garbage or of zeros, or the end cut off."""
    made = bytearray(data)
    for _ in range(draw.choice((1, 1, 1, 2, 3, 6))):
        which, at = draw.randrange(8), draw.randrange(len(made))
        if which < 4:
            made[at] ^= 1 << draw.randrange(8)
        elif which < 6:
            begin = at // SECTOR * SECTOR
            size = min(SECTOR * draw.choice((1, 1, 2, 8, 24)), len(made) - begin)
            made[begin:begin + size] = draw.getrandbits(8 * size).to_bytes(size, 'little') if which == 4 else bytes(size)
        elif which == 6:
            made[at:at + 16] = draw.getrandbits(8 * 16).to_bytes(16, 'little')[:len(made) - at]
        elif draw.random() < 0.4 and at > 100:
            del made[at:]
    return bytes(made)


# ---- what is compared

Key = Tuple[int, int, int, bytes]


def parts_of(data: bytes) -> List[bytes]:
    at, found = 0, []
    while at < len(data):
        size = int.from_bytes(data[at + 4:at + 8], 'little')
        found.append(data[at:at + size])
        at += size
    return found


def channel_of(part: bytes) -> int:
    return int.from_bytes(part[2:4], 'little')


def key_of(part: bytes) -> Key:
    """Of a packet its channel, type, counter and entries; events without how many come before them."""
    size = int.from_bytes(part[8:12], 'little')
    entries = part[28:24 + size]
    if part[15] == EVENT:
        value = int.from_bytes(entries[8:12], 'little')
        entries = entries[:8] + number(value & ~0x0FFFF000, 4)
    return channel_of(part), part[15], int.from_bytes(part[16:22], 'little'), bytes(entries)


def entries_in(part: bytes) -> int:
    """How many messages a packet has."""
    size, kind, word = int.from_bytes(part[8:12], 'little'), part[15], int.from_bytes(part[24:28], 'little')
    if kind == 0x29:
        return (size - 4) // 12
    if kind != 0x50:
        return word & 0xFFFF
    at, found = 28, 0
    while at < 24 + size:
        at += 12 + (int.from_bytes(part[at + 8:at + 10], 'little') + 1 & -2)
        found += 1
    return found


def is_data(part: bytes) -> bool:
    return part[15] not in (SETUP, INDEX, LOSS)


NO_DATE = bytes(4) + b'\x01\x01\x01\x00'  # the body of the time that is made where none is there


def is_of(key: Key, part: bytes) -> bool:
    """Whether a packet may have entries of one that was changed, which no checksum shows."""
    channel, kind, counter, _ = key_of(part)
    return key[:2] == (channel, kind) and counter <= key[2] <= counter + 10 ** 6


def gaps_of(parts: Sequence[bytes]) -> List[Optional[int]]:
    """Of each packet how many messages were lost before it, as the packets tell: None where they give no number."""
    found: List[Optional[int]] = []
    for place, part in enumerate(parts):
        before = parts[place - 1] if place else b''
        told = len(before) == 44 and before[15] == LOSS and before[28:32] == b'LOSS' and before[32:34] == part[2:4]
        found.append((int.from_bytes(before[36:44], 'little') if told else None) if part[14] & 0x10 else 0)
    return found


def compare(parts: List[bytes], data: bytes, out: bytes, is_own: bool = True) -> None:
    """Compares what was mended out of damaged bytes with the packets that were there."""
    agree(judge_recording.first_fault(out, True), 'none', 'the first fault')
    agree(judge_recording.verdict(out), 'strict', 'the verdict')
    starts, at = [], 0
    for part in parts:
        starts.append(at)
        at += len(part)
    whole = [data[at:at + len(part)] == part for at, part in zip(starts, parts)]
    places: Dict[Key, List[int]] = {}  # those of whole packets first: two may be the same but for their sequence numbers
    for place in sorted(range(len(parts)), key=lambda place: not whole[place]):
        if is_data(parts[place]):
            places.setdefault(key_of(parts[place]), []).append(place)
    made = parts_of(out)
    agree([made[0][15], made[1][15], made[-1][15]], [SETUP, TIME, INDEX], 'setup, time and index')
    if parts[0][15] == SETUP and whole[0]:
        agree(made[0][24:], parts[0][24:], 'the setup packet')
    changed = [part for part, is_whole in zip(parts, whole) if not is_whole]
    got: List[Tuple[int, int]] = []  # places in the input and in the output
    seen = collections.Counter()
    for number_of, part in enumerate(made):
        if is_data(part):
            key = key_of(part)
            if key in places:
                seen[key] += 1
                if not places[key]:
                    raise Bad('a packet twice, of channel %d, type %02x' % (channel_of(part), part[15]))
                got.append((places[key].pop(0), number_of))
            elif is_own and not any(is_of(key, one) for one in changed) and part[28:] != NO_DATE:
                raise Bad('a packet that was not there, of channel %d, type %02x' % (channel_of(part), part[15]))
    there = {place for place, _ in got}
    missing = [place for place, part in enumerate(parts) if is_data(part) and whole[place] and place not in there]
    agree([(place, channel_of(parts[place]), parts[place][15]) for place in missing], [], 'whole packets that are missing')
    for channel in {channel_of(part) for part in parts if is_data(part)}:
        line = [place for place, _ in got if channel_of(parts[place]) == channel]
        agree(line, sorted(line), 'the order of channel %d' % channel)
    if is_own:
        compare_gaps(parts, starts, whole, made, got, data)


def compare_gaps(parts: List[bytes], starts: List[int], whole: List[bool], made: List[bytes], got: List[Tuple[int, int]],
                 data: bytes) -> None:
    """Compares the gaps in the output with what is missing in it."""
    before, after = gaps_of(parts), gaps_of(made)
    of = {place: number_of for place, number_of in got}
    changed = len(made) - len(got)
    for channel in {channel_of(part) for part in parts if is_data(part) and part[15] not in (TIME, EVENT)}:
        lost: Optional[int] = 0
        is_missing, touched, unseen = False, 0, False
        line = [number_of for number_of, part in enumerate(made) if is_data(part) and channel_of(part) == channel]
        last = -1
        for place, part in enumerate(parts):
            touched += 0 if whole[place] else len(part)
            if channel_of(part) != channel or not is_data(part):
                continue
            lost = None if lost is None or before[place] is None else lost + before[place]
            if place not in of:
                is_missing = True
                lost = None if lost is None else lost + entries_in(part)
                continue
            number_of = of[place]
            unseen = line.index(number_of) != last + 1  # a changed packet that no checksum shows stands between
            last = line.index(number_of)
            flag = after[number_of]
            if not unseen:
                if is_missing and flag == 0:
                    raise Bad('channel %d has gap 0 after a hole, at packet %d' % (channel, place))
                if flag not in (None, lost) and whole[max(place - 1, 0)]:
                    raise Bad('channel %d has gap %r, wanted %r' % (channel, flag, lost))
                if not is_missing and lost == 0 and flag != 0 and touched < ROOM:
                    raise Bad('channel %d has a gap where nothing is missing, at packet %d' % (channel, place))
            lost, is_missing, touched = 0, False, 0
    if changed < 0:
        raise Bad('too few packets')


# ---- calls

def run(words: Sequence[str]) -> Tuple[int, str, str]:
    """The status, the output and the line of a call, made here."""
    to = io.BytesIO()
    status, line = command.answer(list(words), lambda: b'', lambda: to)
    return status, to.getvalue().decode(), line or ''


class Room:
    """A folder for inputs and outputs."""

    def __init__(self) -> None:
        self.held = tempfile.TemporaryDirectory(dir=QUICK)
        self.folder = pathlib.Path(self.held.name)
        self.number = 0

    def mended(self, data: bytes, words: Sequence[str] = ()) -> Tuple[Optional[bytes], int, str, str]:
        """What `ch10 mend` makes of some bytes, its status, its report and its line."""
        self.number += 1
        source, to = self.folder / ('in%d' % self.number), self.folder / ('out%d' % self.number)
        source.write_bytes(data)
        state = os.stat(source)
        status, report, line = run(['mend', str(source), '--out', str(to), *words])
        agree((source.read_bytes() == data, os.stat(source).st_mtime_ns), (True, state.st_mtime_ns), 'the input')
        agree(sorted(os.listdir(self.folder)), sorted(['in%d' % self.number] + ['out%d' % self.number] * to.exists()),
              'the files beside it')
        out = to.read_bytes() if to.exists() else None
        for one in (source, to):
            if one.exists():
                one.unlink()
        return out, status, report, line


def one_made(room: Room, seed: int, which: int) -> str:
    """Damages one recording that is made here. What came of it."""
    draw = random.Random('mend %d %d' % (seed, which))
    parts = strict(draw, draw.choice((4, 12, 60, 150)))
    data = damaged(draw, b''.join(parts))
    out, status, report, line = room.mended(data)
    if out is None:
        agree((status, line), (1, 'no packet of a kind that r10 has: nothing is written'), 'a call')
        whole = [part for part, at in placed(parts) if data[at:at + len(part)] == part and part[15] != INDEX]
        agree(whole, [], 'whole packets of a recording that is not mended')
        return 'nothing'
    compare(parts, data, out)
    agree(status, int(any(line.startswith(('left out: ', 'gap: ', 'made: ')) for line in report.splitlines())), 'the status')
    return 'mended'


def placed(parts: Sequence[bytes]):
    at = 0
    for part in parts:
        yield part, at
        at += len(part)


# ---- trials

def untouched() -> None:
    """A strict recording comes out as it is."""
    room = Room()
    for which in range(8):
        draw = random.Random('whole %d' % which)
        parts = strict(draw, 40 * which + 4)
        data = b''.join(parts)
        out, status, report, _ = room.mended(data)
        if parts[-1][15] == INDEX:
            agree((out == data, status, report.count('\n')), (True, 0, 1), 'a closed recording')
        else:
            agree((out[:len(data)] == data, status, report.count('\n')), (True, 0, 1), 'a recording without an index')
            compare(parts, data, out)


def made_here(count: int = 150, seed: int = 1) -> None:
    """Recordings that are made here, with bits turned, sectors lost, and ends cut off."""
    room, bad, came = Room(), [], collections.Counter()
    for which in range(count):
        try:
            came[one_made(room, seed, which)] += 1
        except Bad as said:
            bad.append('recording %d: %s' % (which, said))
    if bad:
        raise Bad('\n'.join(bad[:10] + ['(%d)' % len(bad)]))
    if came['mended'] < count * 0.8:
        raise Bad('too few were mended: %s' % came)


def others() -> None:
    """Recordings of another recorder: what r10 has no place for is named, and the rest is strict."""
    room = Room()
    parts = ch10_recordings.foreign()
    out, status, report, _ = room.mended(b''.join(parts), ['--json'])
    lines = [json.loads(line) for line in report.splitlines()]
    agree(judge_recording.verdict(out), 'strict', 'a foreign recording')
    left = collections.Counter(line['channel'] for line in lines if line['what'] == 'left out')
    agree(left, {1: 10, 20: 40, 21: 40, 22: 40, 23: 40}, 'what is left out')
    agree(status, 1, 'the status')
    kept = [key_of(part) for part in parts_of(out) if part[15] == 0x50]
    # (its packets on channel 24 have a secondary header, which is left out)
    texts = [(key_of(part), part[40:40 + 18]) for part in parts if part[15] == 0x50]
    agree(kept, [(24, 0x50, key[2], after) if key[0] == 24 else key for key, after in texts], 'its messages')
    agree([line['what'] for line in lines if line['what'] == 'made'], ['made'], 'the time that is made')
    for which in range(6):
        draw = random.Random('flight %d' % which)
        parts = ch10_recordings.flight(draw, 60, draw.choice((0, 250)))
        out = room.mended(b''.join(parts))[0]
        agree(judge_recording.first_fault(out, True), 'none', 'a flight')
        said = [(key_of(part)[0], key_of(part)[3]) for part in parts_of(out) if is_data(part) and part[15] not in (EVENT, TIME)]
        agree(said, [(key_of(part)[0], key_of(part)[3]) for part in parts if is_data(part) and part[15] not in (EVENT, TIME)],
              'the messages of a flight')


def known_numbers() -> None:
    """A loss whose number is known has a report; a packet that stands twice is kept once; a known loss is added to it."""
    room = Room()
    first, time = check_cases.packet(0, 0, SETUP, 5, number(0x0C, 4)), check_cases.packet(1, 0, TIME, 5, check_cases.CIVIL)

    def words(sequence: int, count: int, check: int = 0, **more) -> bytes:
        body = number(3, 4) + b''.join(number(100 if place else 0, 4) + number(7, 4) for place in range(3))
        return ch10_recordings.summed(8, sequence, 0x38, count, body, check, **more)

    broken = bytearray(words(1, 1000, 2))
    broken[40] ^= 1
    loss = check_cases.packet(0, 1, LOSS, 5, bytes(4) + b'LOSS' + number(8, 2) + bytes(2) + number(4, 8))
    for data, gap, kept in (
            ([words(0, 500), bytes(broken), words(2, 2000)], 3, 2),
            ([words(0, 500), words(0, 500), words(1, 2000)], 0, 2),
            ([words(0, 500), bytes(broken), loss, words(2, 2000, flags=0x10)], 7, 2),
            ([words(0, 500), words(2, 2000)], None, 2),
            ([words(0, 500), words(1, 400), words(2, 2000)], 3, 2)):
        out = room.mended(b''.join([first, time] + data))[0]
        agree(judge_recording.first_fault(out, True), 'none', 'a loss')
        made = parts_of(out)
        places = [place for place, part in enumerate(made) if part[15] == 0x38]
        agree([gaps_of(made)[place] for place in places], [0, gap], 'the gaps')
        agree(len(places), kept, 'the packets')


def refused() -> None:
    """An output that is there, the input itself, a damaged directory, and a stop leave everything as it was."""
    room = Room()
    source = room.folder / 'a'
    source.write_bytes(check_cases.FIRST)
    there = room.folder / 'b'
    there.write_bytes(b'x')
    os.symlink('a', room.folder / 'c')
    for to in ('a', 'b', 'c'):
        status, _, line = run(['mend', str(source), '--out', str(room.folder / to)])
        agree((status, 'is there already' in line), (2, True), 'an output that is there')
    agree((source.read_bytes(), there.read_bytes()), (check_cases.FIRST, b'x'), 'what was there')
    agree(run(['mend', str(source)])[0], 2, 'no output')
    agree(run(['mend', str(room.folder / 'none'), '--out', str(room.folder / 'd')])[0], 3, 'no input')
    agree(run(['mend', str(room.folder), '--out', str(room.folder / 'd')])[0], 2, 'a folder as the input')
    source.write_bytes(b'')
    agree(run(['mend', str(source), '--out', str(room.folder / 'd')])[::2], (1, 'an empty input'), 'an empty input')
    source.write_bytes(bytes(512) + b'FORTYtwo' + bytes(4000))
    agree('ch10 rescue' in run(['mend', str(source), '--out', str(room.folder / 'd')])[2], True, 'a damaged directory')
    agree(sorted(os.listdir(room.folder)), ['a', 'b', 'c'], 'the files')


class Stopped(BaseException):
    """In the place of an interrupt."""


def interrupted() -> None:
    """A stop amid a call, at each of its writes, leaves no file; nor does a kill."""
    import ch10.mend as module
    room = Room()
    source, to = room.folder / 'a', room.folder / 'b'
    source.write_bytes(b''.join(strict(random.Random(3), 60)))
    put, left = module.Writer.put, [0]

    def stopping(*words):
        left[0] -= 1
        if left[0] < 0:
            raise Stopped
        return put(*words)

    module.Writer.put = stopping
    try:
        for after in (0, 1, 20, 50):
            left[0] = after
            try:
                run(['mend', str(source), '--out', str(to)])
                raise Bad('a call was not stopped')
            except Stopped:
                pass
            agree(os.listdir(room.folder), ['a'], 'what a stop leaves')
    finally:
        module.Writer.put = put
    agree(run(['mend', str(source), '--out', str(to)])[0], 0, 'the next call')


def unreadable() -> None:
    """Sectors that a disk does not give are zeros in what is read, and are named."""
    import ch10.new_file as module
    room, real = Room(), os.pread
    data = b''.join(strict(random.Random(5), 150))
    bad = (2048, 2560)

    def failing(file, size, at):
        if at < bad[1] and at + size > bad[0]:
            raise OSError(5, 'Input/output error')
        return real(file, size, at)

    module.os.pread = failing
    try:
        for most in (module.MOST_HELD, 0):  # read whole, and mapped
            held, module.MOST_HELD = module.MOST_HELD, most
            try:
                source = room.folder / 'a'
                source.write_bytes(data)
                opened = module.Opened(str(source), str(room.folder))
            finally:
                module.MOST_HELD = held
            agree(opened.unread, [(2048, 512)], 'what is not read')
            agree(bytes(opened.data[:]) == data[:2048] + bytes(512) + data[2560:], True, 'what is read')
    finally:
        module.os.pread = real


def by_program(program: str, count: int = 12) -> None:
    """Files of the media that the program records of random scripts: damaged, mended, and judged by the program."""
    import ch10_trials
    import play_cases
    room, bad = Room(), []
    for which in range(count):
        draw = random.Random('script %d' % which)
        script, _, reserved = ch10_trials.script_of(draw)
        image = subprocess.run([program, 'sim', '--image'], input=script.encode(), capture_output=True, check=True).stdout
        begin = 512 * (1 + reserved)
        for line in subprocess.run([program, 'files'], input=image, capture_output=True, check=True).stdout.decode().splitlines():
            size, blocks = map(int, line.split(' ')[3:5])
            whole = image[begin:begin + size]
            begin += 512 * blocks
            data = damaged(draw, whole)
            out = room.mended(data)[0]
            if out is None:
                continue
            try:
                compare(parts_of(whole), data, out)
                said = subprocess.run([program, 'check'], input=out, capture_output=True).stdout.decode().strip()
                agree(said, 'strict', 'what the program says')
                played = subprocess.run([program, 'play'], input=play_cases.alone(out), capture_output=True)
                agree((played.returncode, played.stdout[:6]), (0, b'entry '), 'what it plays')
            except Bad as wrong:
                bad.append('script %d: %s' % (which, wrong))
    if bad:
        raise Bad('\n'.join(bad[:10]))


# ---- media

class Origin:
    """A file as it was recorded: where it begins on the medium, its packets, and whether it was erased later."""

    def __init__(self, start: int, data: bytes, is_erased: bool = False) -> None:
        self.start, self.parts, self.is_erased = start, parts_of(data), is_erased

    def has_front(self, image: bytes) -> bool:
        return image[self.start:self.start + len(self.parts[0])] == self.parts[0]

    def whole(self, image: bytes) -> List[bytes]:
        """Its packets of data that nothing has changed on a medium."""
        return [part for part, at in placed(self.parts)
                if is_data(part) and image[self.start + at:self.start + at + len(part)] == part]


def files_of(image: bytes, reserved: int) -> Optional[List[Tuple[int, int]]]:
    """Place and size of each file, or None where a mount refuses the directory."""
    try:
        judge_image.mount(image, reserved)
        _, files = medium.directory(image)
    except (judge_image.Refused, Fault):
        return None
    return [(SECTOR * file.first, file.size) for file in files]


def medium_of(program: str, draw: random.Random) -> Tuple[bytes, List[bytes], List[Origin], int]:
    """A medium that the program made of a random script, an earlier state of it, its files with those before an erase, and how
    many blocks its directory has."""
    import ch10_trials
    script, _, reserved = ch10_trials.script_of(draw)
    head, *steps = script.split('[[step]]\n')
    stops = [place for place, step in enumerate(steps) if step.strip() in ('do = "stop"', 'do = "commit"')]

    def image_of(some: Sequence[str]) -> bytes:
        text = head + ''.join('[[step]]\n' + step for step in some)
        return subprocess.run([program, 'sim', '--image'], input=text.encode(), capture_output=True, check=True).stdout

    ends = [place for place in stops if steps[place].strip() == 'do = "stop"']
    origins: List[Origin] = []
    if len(ends) > 1 and draw.random() < 0.4:  # an erase amid it, so that older files are written over in part
        at = draw.choice(ends[:-1]) + 1
        before = image_of(steps[:at])
        origins += [Origin(begin, before[begin:begin + size], True) for begin, size in files_of(before, reserved) or []]
        steps[at:at] = ['do = "erase"\n']
        stops = [place + 1 for place in stops if place >= at]
    image = image_of(steps)
    earlier = image_of(steps[:stops[-2] + 1]) if len(stops) > 1 else image
    origins += [Origin(begin, image[begin:begin + size]) for begin, size in files_of(image, reserved) or []]
    return image, [earlier], origins, reserved


def torn(draw: random.Random, image: bytes, earlier: bytes, reserved: int) -> bytes:
    """The directory of an earlier state, and of each other block one of its two states."""
    front = SECTOR * (1 + reserved)
    return earlier[:front] + b''.join(draw.choice((image, earlier))[at:at + SECTOR] for at in range(front, len(image), SECTOR))


def without_directory(draw: random.Random, image: bytes, reserved: int) -> bytes:
    """A medium with a directory that no mount takes: zeros, garbage, or a bit turned that matters."""
    made, end = bytearray(image), SECTOR * (1 + reserved)
    which = draw.randrange(4)
    if which == 0:
        made[SECTOR:end] = bytes(end - SECTOR)
    elif which == 1:
        made[SECTOR:end] = draw.getrandbits(8 * (end - SECTOR)).to_bytes(end - SECTOR, 'little')
    elif which == 2:
        made[SECTOR + draw.randrange(8)] ^= 1 << draw.randrange(8)
    else:
        made[SECTOR + 64 + draw.choice((63, 71, 79))] ^= 1 << draw.randrange(4, 8)
    return bytes(made)


def one_medium(program: str, room: Room, seed: int, which: int) -> Dict[str, int]:
    """Mangles one medium. What came of it: what is compared is in the docstring of this script."""
    draw = random.Random('medium %d %d' % (seed, which))
    image, (earlier,), origins, reserved = medium_of(program, draw)
    kind = draw.choice(('directory', 'directory', 'torn', 'mangled', 'both'))
    data = torn(draw, image, earlier, reserved) if kind in ('torn', 'both') else image
    if kind != 'torn' and draw.random() < 0.85:
        front = SECTOR * (1 + reserved)
        last = max([origin.start + sum(map(len, origin.parts)) for origin in origins], default=front)
        last = min(-(-last // SECTOR) * SECTOR, len(data))
        if last > front:
            changed = damaged(draw, data[front:last])
            data = data[:front] + changed + (data[last:] if len(changed) == last - front else b'')
    if kind in ('directory', 'both'):
        data = without_directory(draw, data, reserved)
    listed = files_of(data, reserved)
    places: Dict[Key, Tuple[int, int]] = {}
    for number_of, origin in enumerate(origins):
        for place, part in enumerate(origin.parts):
            if is_data(part):
                places[key_of(part)] = number_of, place
    room.number += 1
    source, folder = room.folder / ('medium%d' % room.number), room.folder / ('found%d' % room.number)
    source.write_bytes(data)
    came = collections.Counter({'media': 1, 'without a directory': listed is None, 'with older files': len(origins) > 0 and any(
        origin.start == other.start for at, origin in enumerate(origins) for other in origins[:at])})
    try:
        wanted, erased = collections.Counter(), collections.Counter()
        outs: List[Tuple[int, bytes, bytes]] = []  # place, what was mended, and out of what
        if listed is None:
            folder.mkdir()
            status, report, line = run(['rescue', str(source), str(folder)])
            for name in sorted(os.listdir(folder)):
                raw = (folder / name).read_bytes()
                words = name[:-5].split('-')
                begin = SECTOR * int(words[1]) + (int(words[3]) if words[3:] else 0)
                agree(name + ': ' in report, True, 'a line for each file')
                outs.append((begin, room_mended(room, raw), raw))
            for origin in origins:
                (erased if origin.is_erased else wanted).update(map(key_of, origin.whole(data)))
        else:
            for number_of, (begin, size) in enumerate(listed):
                to = room.folder / 'mended'
                run(['mend', str(source), '--file', str(number_of), '--out', str(to)])
                outs.append((begin, to.read_bytes() if to.exists() else b'', data[begin:begin + size]))
                if to.exists():
                    to.unlink()
                for origin in origins:
                    if origin.start == begin:
                        wanted.update(key_of(part) for part, at in placed(origin.parts) if at + len(part) <= size
                                      and is_data(part) and data[begin + at:begin + at + len(part)] == part)
        agree(source.read_bytes() == data, True, 'the medium is as it was')
        there = collections.Counter(key_of(part) for origin in origins for part in origin.parts if is_data(part))
        seen = collections.Counter()
        for begin, out, raw in outs:
            if not out:
                continue
            said = subprocess.run([program, 'check'], input=out, capture_output=True).stdout.decode().strip()
            agree(said, 'strict', 'what the program says of %d' % begin)
            agree(parts_of(out)[-1][15], INDEX, 'its end')
            line = [places[key_of(part)] for part in parts_of(out) if is_data(part) and key_of(part) in places]
            of_it = [origins[number_of] for number_of in sorted({number_of for number_of, _ in line})]
            came['files of two recordings, a front of which is damaged'] += len(of_it) > 1
            agree(len(of_it) <= 1 or any(not one.has_front(data) for one in of_it), True,
                  'a file of one recording alone, at %d' % begin)
            for channel in {channel_of(origins[number_of].parts[place]) for number_of, place in line}:
                some = [place for number_of, place in line if channel_of(origins[number_of].parts[place]) == channel
                        and there[key_of(origins[number_of].parts[place])] == 1]
                agree(some, sorted(some), 'the order of channel %d at %d' % (channel, begin))
            seen.update(key_of(part) for part in parts_of(out) if is_data(part) and key_of(part) in places)
            of = [origins[number_of] for number_of, _ in line[:1]]
            if of and of[0].start == begin and kind not in ('torn', 'both') and len(raw) <= sum(map(len, of[0].parts)) and sum(
                    1 for _, other, _ in outs if any(key_of(part) in places and origins[places[key_of(part)][0]] is of[0]
                                                     for part in parts_of(other) if is_data(part))) == 1:
                compare(of[0].parts, raw, out)
        missing = wanted - seen
        agree(sum(missing.values()), 0, 'whole packets that are missing: %s' % [key[:3] + places[key] for key in list(missing)[:5]])
        agree([key[:3] for key, many in seen.items() if many > there[key]], [], 'packets that stand there twice')
        came.update({'whole packets of erased recordings': sum(erased.values()), 'of these in what is given': sum(
            (erased & seen).values())})
        came.update({'files': len(outs), 'whole packets': sum(wanted.values()), 'of them in what is given': sum(
            (wanted & seen).values())})
    finally:
        source.unlink()
        shutil.rmtree(folder, ignore_errors=True)
    return came


def room_mended(room: Room, raw: bytes) -> bytes:
    """A strict file out of a rescued one, or nothing where it has no packet that r10 has."""
    source, to = room.folder / 'raw', room.folder / 'strict'
    source.write_bytes(raw)
    run(['mend', str(source), '--out', str(to)])
    out = to.read_bytes() if to.exists() else b''
    for one in (source, to):
        if one.exists():
            one.unlink()
    return out


def media(program: str, count: int, seed: int = 1) -> Dict[str, int]:
    """Media that are mangled or torn."""
    room, bad, came = Room(), [], collections.Counter()
    for which in range(count):
        try:
            came.update(one_medium(program, room, seed, which))
        except Bad as said:
            bad.append('medium %d: %s' % (which, said))
    if bad:
        raise Bad('\n'.join(bad[:10] + ['(%d)' % len(bad)]))
    return came


def some_media(words: Tuple[str, int, range]) -> Tuple[Dict[str, int], List[str]]:
    program, seed, numbers = words
    room, bad, came = Room(), [], collections.Counter()
    for which in numbers:
        try:
            came.update(one_medium(program, room, seed, which))
        except Bad as said:
            bad.append('medium %d: %s' % (which, said))
    return came, bad


def large(program: str, count: int = 1000, seed: int = 1) -> int:
    """Many of them, by some processes."""
    came, bad = collections.Counter(), []
    parts = [(program, seed, range(at, min(at + 20, count))) for at in range(0, count, 20)]
    with ProcessPoolExecutor(3) as pool:
        for some, wrong in pool.map(some_media, parts):
            came.update(some)
            bad += wrong
            for line in wrong:
                print(line, flush=True)
    print('%s; %d not as wanted' % (', '.join('%d %s' % (came[name], name) for name in came), len(bad)))
    return int(bool(bad))


TRIALS = untouched, made_here, others, known_numbers, refused, interrupted, unreadable


def kept_program() -> Optional[str]:
    """The build that is kept, of the sources as they stand."""
    done = subprocess.run([str(TOP / 'scripts' / 'build' / 'quick_build.py'), '--current'], capture_output=True, text=True)
    return done.stdout.strip() if done.returncode == 0 else None


def check(program: Optional[str], only: str = '') -> int:
    bad = 0
    trials = [(trial.__name__, trial) for trial in TRIALS]
    if program:
        trials += [('by_program', lambda: by_program(program)), ('media', lambda: media(program, 60))]
    elif not os.environ.get('R10_LATER') and not only:
        print('ch10_mend: NOT TRIED: what the program records and judges (no build of the program is kept)')
    trials = [trial for trial in trials if only in ('', trial[0])]
    for name, trial in trials:
        try:
            trial()
        except Bad as said:
            bad += 1
            print('%s: %s' % (name, said))
    print('mend: %d trials agree, %d do not' % (len(trials) - bad, bad))
    return int(bad > 0)


# ---- wrong bodies

SLIPS: Sequence[Tuple[str, str, str, str, str]] = (
    ('mend.py', 'a packet twice', 'made_here',
     '        self.compare(packet, packed)\n'
     '\n'
     '    def compare',
     '        self.compare(packet, packed)\n'
     '        if packet.offset % 7 == 0:\n'
     '            self.writer.put(packet.channel, kind, found[begin][2], word + octets, flags, number)\n'
     '\n'
     '    def compare'),
    ('mend.py', 'a message left out', 'untouched',
     '            return self.put(packet, body, 0, len(body.found), state)\n',
     '            return self.put(packet, body, 0, max(len(body.found) - (packet.kind == 0x50), 1), state)\n'),
    ('mend.py', 'gap 0 after a hole', 'made_here',
     '            flags |= FLAGGED\n',
     '            flags |= 0\n'),
    ('mend.py', 'gap 0 after a damaged packet', 'made_here',
     '                state.miss(None)\n'
     '            state.miss(number)\n',
     '                pass\n'
     '            state.miss(number or 0)\n'),
    ('mend.py', 'gap 0 where sequence numbers jump', 'known_numbers',
     '        if gone or self.holes - state.holes >= ROOM:\n',
     '        if self.holes - state.holes >= ROOM:\n'),
    ('mend.py', 'no index', 'untouched',
     '    writer.index(survey.group or NODES)\n',
     ''),
    ('strict.py', 'an index that names other places', 'made_here',
     '                place, sequence = place + len(packet), sequence + 1\n',
     '                place, sequence = place, sequence + 1\n'),
    ('mend.py', 'sequence numbers from 1', 'untouched',
     '        sequence = self.sequences.get(channel, 0)\n',
     '        sequence = self.sequences.get(channel, 0) or 1\n'),
    ('mend.py', 'event counts that are not made anew', 'untouched',
     '        return octets[:8] + (1 << 28 | (before & 0xFFFF) << 12 | number)',
     '        return octets[:8] + (1 << 28 | number)'),
    ('new_file.py', 'an input that is changed', 'untouched',
     '        held = os.open(path, os.O_RDONLY |',
     "        open(path, 'ab').write(b'x')\n"
     '        held = os.open(path, os.O_RDONLY |'),
    ('new_file.py', 'an output that is written over', 'refused',
     '        if os.path.lexists(path):\n'
     "            raise Wrong('%r is there already: give another name' % path[:60])\n"
     '        self.path',
     '        if os.path.lexists(path):\n'
     '            os.remove(path)\n'
     '        self.path'),
    ('new_file.py', 'a file after a stop', 'interrupted',
     '        self.held.close()\n'
     '        if self.part',
     "        open(self.path, 'ab').close()\n"
     '        self.held.close()\n'
     '        if self.part'),
    ('pieces.py', 'packets by themselves that are left out', 'made_here',
     '            packet = self.lone(place, following)\n',
     '            packet = None\n'),
    ('mend.py', 'a packet that is left out in silence', 'others',
     '            return self.report.left(packet.offset, packet.length, str(none), packet.channel, packet.kind)\n',
     '            return None\n'),
    ('mend.py', 'a wrong number of lost messages', 'made_here',
     '                self.writer.report(packet.channel, lost)\n',
     '                self.writer.report(packet.channel, lost + 1)\n'),
    ('mend.py', 'a packet that stands twice is kept twice', 'known_numbers',
     '        if last and packet.kind not in (SETUP, INDEX) and self.is_same(last, packet):\n',
     '        if False:\n'),
    ('rescue.py', 'older recordings that are taken for the same', 'media',
     '        for_it, seen = 0, set()\n',
     '        for_it, seen = 1, {head.channel for head in row}\n'),
    ('rescue.py', 'recordings without their fronts that are left out', 'media',
     '        return self.begun(following), following.end\n',
     '        return None, following.end\n'),
    ('rescue.py', 'a file without its last bytes', 'media',
     '            copy(data, begin, end, new.held, let_go)\n',
     '            copy(data, begin, end - 4, new.held, let_go)\n'),
    ('rescue.py', 'a file that the report does not have', 'media',
     '        out.line(json.dumps(fields) if asked.json else line)\n',
     '        line = fields\n'),
    ('rescue.py', 'a medium that is changed', 'media',
     '    opened = Opened(asked.image, folder)\n',
     "    open(asked.image, 'ab').write(b'x')\n    opened = Opened(asked.image, folder)\n"),
)


def slips() -> int:
    """Plants each wrong body in a copy of the filters, and sees the trials fail. How many did not fail."""
    missed, program = 0, kept_program()
    of_program = [program] if program else []
    with tempfile.TemporaryDirectory() as folder:
        for name, what, trial, right, wrong in SLIPS:
            top = pathlib.Path(folder) / 'top'
            shutil.rmtree(top, ignore_errors=True)
            for part in ('ch10', 'scripts'):
                shutil.copytree(TOP / part, top / part)
            text = (top / 'ch10' / name).read_text()
            if text.count(right) != 1:
                print('%s: its place is not there' % what)
                missed += 1
                continue
            (top / 'ch10' / name).write_text(text.replace(right, wrong))
            done = subprocess.run([sys.executable, str(top / 'scripts' / 'trials' / 'ch10_mend.py'), 'only', trial, *of_program],
                                  capture_output=True, text=True)
            lines = done.stdout.strip().splitlines()
            print('%s: %s: %.140s' % (what, 'refused' if done.returncode else 'NOT REFUSED',
                                      lines[0] if lines else done.stderr[-200:]), flush=True)
            missed += done.returncode == 0
    return missed


def main(words: List[str]) -> int:
    if words[:1] == ['check'] and len(words) <= 2:
        return check(words[1] if words[1:] else kept_program())
    if words[:1] == ['random'] and 2 <= len(words) <= 3:
        try:
            made_here(*map(int, words[1:]))
        except Bad as said:
            print(said)
            return 1
        return 0
    if words[:1] == ['large'] and 2 <= len(words) <= 4:
        return large(words[1], *map(int, words[2:]))
    if words[:1] == ['only'] and 2 <= len(words) <= 3:
        return check(words[2] if words[2:] else None, words[1])
    if words == ['slips']:
        return int(slips() > 0)
    print(__doc__)
    return 2


if __name__ == '__main__':
    sys.exit(main(sys.argv[1:]))
