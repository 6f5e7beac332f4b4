#!/usr/bin/env python3
"""Records for hours, with kills now and then, and draws memory and acknowledged messages.

    soak.py PROGRAMS HOURS [RATE] [PICTURE.svg]

Two channels get RATE messages a second together (2,000 where none is said). Each quarter of an hour the service is killed, and
starts again; when the medium is full it is erased. Each five minutes a line says memory, open files and messages. At the end each
message that was acknowledged since the last erase has to be in the files, once and in order, and a picture is written.
"""
import collections
import os
import pathlib
import subprocess
import sys
import time
from typing import Any, Iterable, NamedTuple

from trying import R10, Room, Service, Wrong, fault, files, lines_of, must, settings, tidy_up_at_signals, udp_channels

KILL = 900.0
SAY = 300.0
CHANNELS = (5, 6)


class Point(NamedTuple):
    """Where a soak stands: hours, memory in KiB, messages acknowledged, files that the service has open."""

    hours: float
    memory: int
    messages: int
    open: int


def picture(points: list[Point], kills: list[float]) -> str:
    """Memory in MiB (dark) and acknowledged messages (light) over hours; a mark where the service was killed."""
    width, height, hours = 860, 240, max(points[-1].hours, 0.001)
    most_memory, most_messages = max(it.memory for it in points) or 1, max(it.messages for it in points) or 1

    def across(hour: float) -> float:
        return 70 + width * hour / hours

    def line(values: Iterable[float]) -> str:
        return ' '.join(f'{across(point.hours):.1f},{20 + height - height * it:.1f}' for point, it in zip(points, values))

    marks = ''.join(
        f'<path d="M{across(it):.1f},{20 + height} v8" stroke="#a65449" stroke-width="2"/>\n' for it in kills
    )
    messages, memory = line(it.messages / most_messages for it in points), line(it.memory / most_memory for it in points)
    return (
        f'<svg xmlns="http://www.w3.org/2000/svg" viewBox="0 0 {width + 170} {height + 70}" '
        'font-family="DejaVu Sans, Verdana, Arial, sans-serif" font-size="13">\n'
        f'<title>Memory and acknowledged messages of r10d over {hours:.2f} hours</title>\n'
        f'<rect width="{width + 170}" height="{height + 70}" fill="#ffffff"/>\n'
        f'<rect x="70" y="20" width="{width}" height="{height}" fill="none" stroke="#999"/>\n'
        f'<polyline fill="none" stroke="#8bb8e8" stroke-width="2" points="{messages}"/>\n'
        f'<polyline fill="none" stroke="#1b3a5c" stroke-width="2" points="{memory}"/>\n{marks}'
        f'<text x="64" y="30" text-anchor="end" fill="#1b3a5c">{most_memory / 1024:.1f} MiB</text>\n'
        f'<text x="64" y="{height + 20}" text-anchor="end">0</text>\n'
        f'<text x="{width + 76}" y="30" fill="#3b78b8">{most_messages:,}</text>\n'
        f'<text x="70" y="{height + 46}">0 h</text>\n'
        f'<text x="{width + 70}" y="{height + 46}" text-anchor="end">{hours:.2f} h</text>\n'
        f'<text x="70" y="{height + 64}"><tspan fill="#1b3a5c">memory of its own</tspan>, '
        '<tspan fill="#3b78b8">messages acknowledged</tspan>, '
        '<tspan fill="#a65449">killed and started again</tspan></text>\n</svg>\n'
    )


def judged(medium: pathlib.Path, acknowledged: dict[tuple[int, int], int]) -> dict[str, int]:
    """Compares a medium with what was acknowledged of it, entry by entry, as its files are long: numbers rise from file to file, so
    that no message is there twice, and each file has at least as many as were acknowledged."""
    with open(medium, 'rb') as it:
        listed = files(it.read())
    last: dict[int, int] = {}
    total = collections.Counter(files=len(listed), messages=0, acknowledged=sum(acknowledged.values()), lost_in_gaps=0)
    for file in range(len(listed)):
        count: dict[int, int] = collections.Counter()
        with open(medium, 'rb') as image:
            child = subprocess.Popen([R10, 'play', '--file', str(file)], stdin=image, stdout=subprocess.PIPE, text=True)
        for line in child.stdout or ():
            _, channel, _, gap, kind, *words = line.split()
            if kind != 'message':
                continue
            place, number = int(channel), int.from_bytes(bytes.fromhex(words[-1][16:32]), 'little')
            must(number > last.get(place, -1), f'file {file} channel {place}: message {number} comes after {last.get(place)}')
            last[place] = number
            count[place] += 1
            total['lost_in_gaps'] += int(gap.rstrip('+'))
        must(child.wait() == 0, f'file {file} cannot be played')
        for place in CHANNELS:
            wanted = acknowledged.get((file, place), 0)
            must(count[place] >= wanted, f'file {file} channel {place}: {count[place]} messages, and {wanted} were acknowledged')
        total['messages'] += sum(count.values())
    must(all(file < len(listed) for file, _ in acknowledged), 'messages of a file were acknowledged that is not there')
    return dict(total)


class Soak:
    """A service that is loaded, killed and erased, and what was seen of it."""

    def __init__(self, room: Room, rate: int) -> None:
        self.room, self.begin, self.base, self.durable = room, time.monotonic(), 0, 0
        self.points, self.kills, self.erases, self.lost = [Point(0.0, 0, 0, 0)], [0.0][1:], 0, 0
        ports = room.ports(2)
        self.text = settings(udp_channels(ports), blocks=1 << 21, directory=63, start='resume', commit_ms=100, file_minutes=5)
        self.service = Service(room, self.text)
        self.service.ask('.RECORD')
        self.load = room.load(ports, rate=rate, seconds=1 << 30)

    def hours(self) -> float:
        return (time.monotonic() - self.begin) / 3600

    def look(self) -> dict[str, Any]:
        figures = self.service.figures()
        self.durable, lost = (sum(it[key] for it in figures['channels']) for key in ('durable', 'lost'))
        if lost > self.lost:
            print(f'after {self.hours():.2f} h {lost} messages were lost since the service started', flush=True)
        self.lost = lost
        is_open = len(os.listdir(f'/proc/{self.service.child.pid}/fd'))
        self.points.append(Point(self.hours(), figures['memory_kib'], self.base + self.durable, is_open))
        return figures

    def erase(self, is_recording: bool) -> None:
        self.service.ask(*(['.STOP'] if is_recording else []), '.ERASE')
        (self.room.folder / 'lines').write_text('')
        self.service.ask('.RECORD')
        self.erases += 1

    def kill(self) -> None:
        self.service.kill()
        self.kills.append(self.hours())
        self.base, self.lost = self.base + self.durable, 0
        self.service = Service(self.room)

    def run(self, hours: float) -> dict[str, int]:
        killed = said = time.monotonic()
        while self.hours() < hours:
            time.sleep(min(5.0, max(0.1, 36 * hours)))
            figures = self.look()
            if figures['state'] == 'full' or figures['free'] < 64 << 20:
                self.erase(figures['state'] == 'recording')
            if (now := time.monotonic()) > said + SAY:
                last = self.points[-1]
                print(
                    f'{last.hours:.2f} h: memory {last.memory / 1024:.1f} MiB, {last.open} open files, {last.messages} messages',
                    flush=True,
                )
                said = now
            if now > killed + KILL:
                self.kill()
                killed = now
        self.load.kill()
        self.load.wait()
        self.look()
        self.service.end()
        return judged(self.room.folder / 'medium', lines_of((self.room.folder / 'lines').read_text()))


def main() -> None:
    tidy_up_at_signals()
    hours, rate = float(sys.argv[2]), int(sys.argv[3]) if len(sys.argv) > 3 else 2_000
    to = pathlib.Path(sys.argv[4] if len(sys.argv) > 4 else 'soak.svg')
    room = Room(sys.argv[1])
    try:
        it = Soak(room, rate)
        found = it.run(hours)
    except Wrong as why:
        room.end_all()
        fault(f'soak: {why}')
    finally:
        room.close()
    to.write_text(picture(it.points, it.kills))
    late = [point.memory for point in it.points if point.hours > hours / 6]
    most = max(point.memory for point in it.points)
    print(
        f'{hours} h at {rate}/s: {it.points[-1].messages} acknowledged, {len(it.kills)} kills, {it.erases} erases, memory at most '
        f'{most / 1024:.1f} MiB, from {min(late) / 1024:.1f} to {max(late) / 1024:.1f} after a sixth of the time; open files '
        f'{it.points[1].open} at first, {it.points[-1].open} at the end, {max(point.open for point in it.points)} at most; '
        f'what the medium has at the end is right: {found}; drawn in {to}'
    )


if __name__ == '__main__':
    main()
