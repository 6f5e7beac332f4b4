#!/usr/bin/env python3
"""Gives `r10 check` recordings in windows of many sizes, and wants the verdict of the rules whatever the windows are.

    scripts/trials/check_windows.py PROGRAM

A pipe that keeps what was written apart gives the program each window in a read of its own. Large recordings are files: the
program reads them in windows of a megabyte, whose seams lie amid packets. The verdicts are those of
scripts/tools/judge_recording.py, which is written from docs/FORMAT.md. A line for each that differs, and then status 1.
"""
from __future__ import annotations

import os
import pathlib
import subprocess
import sys
import tempfile
from collections.abc import Iterable, Iterator

sys.dont_write_bytecode = True

TOP = pathlib.Path(__file__).resolve().parents[2]
sys.path[1:1] = map(str, [TOP, *(TOP / 'scripts').iterdir()])  # modules of the other folders

from check_cases import CIVIL, FIRST, SETUP, TIME, UART, letters, number, packet  # noqa: E402
from judge_recording import verdict  # noqa: E402

MEGABYTE = 1 << 20


def said(program: str, windows: Iterable[bytes]) -> str:
    """What the program says of a recording in these windows."""
    reading, writing = os.pipe2(os.O_DIRECT)
    with subprocess.Popen([program, 'check'], stdin=reading, stdout=subprocess.PIPE) as it:
        os.close(reading)
        try:
            for window in windows:
                os.write(writing, window)
        except BrokenPipeError:
            return 'ended before its input did'
        finally:
            os.close(writing)
        assert it.stdout
        return it.stdout.read().decode().strip()


def cut(recording: bytes, size: int) -> Iterator[bytes]:
    """A recording in windows of so many bytes."""
    for at in range(0, len(recording), size):
        yield recording[at:at + size]


def changed(recording: bytes, at: int) -> bytes:
    """A recording with one byte that is another."""
    return recording[:at] + bytes((recording[at] ^ 0x10,)) + recording[at + 1:]


def large(packets: int) -> bytes:
    """A recording of packets of 1,064 bytes, so that each seam of two windows lies amid one, and without an index."""
    start = packet(0, 0, SETUP, 1000, bytes.fromhex('0c000000') + b'ABCD') + packet(1, 0, TIME, 1000, CIVIL)
    body = number(1 << 31, 4) + letters(1000, bytes(1024))
    return start + b''.join(packet(5, k % 256, UART, 1000, body) for k in range(packets))


def small_ones() -> Iterator[tuple[str, bytes, Iterable[bytes]]]:
    """What is given, the recording, and its windows."""
    for at in range(1, len(FIRST)):
        yield f'the first recording in two windows, of {at} bytes and more', FIRST, (FIRST[:at], FIRST[at:])
    others = {'nothing': b'', 'the first recording': FIRST, 'one without its root': FIRST[:212], 'one that is cut': FIRST[:-1],
              'one with a wrong header': changed(FIRST, 70), 'one with a wrong index': changed(FIRST, 160)}
    for name, recording in others.items():
        for size in (1, 2, 23, 24, 25, 100):
            yield f'{name} in windows of {size} bytes', recording, cut(recording, size)


def large_ones() -> Iterator[tuple[str, bytes]]:
    """What is given, and the recording."""
    recording = large(3200)
    yield 'a recording of three megabytes', recording
    yield 'one that is cut by a byte', recording[:-1]
    yield 'one that lacks a byte at the first seam', recording[:MEGABYTE] + recording[MEGABYTE + 1:]
    yield 'one with another byte after the first seam', changed(recording, MEGABYTE)
    yield 'one with another byte before the second seam', changed(recording, 2 * MEGABYTE - 1)


def main() -> int:
    """Tries all."""
    if len(sys.argv) != 2:
        sys.exit(__doc__)
    program, tried, wrong = sys.argv[1], 0, 0

    def compare(name: str, recording: bytes, answer: str) -> None:
        nonlocal tried, wrong
        tried += 1
        wanted = verdict(recording)
        if answer != wanted:
            wrong += 1
            print(f'check_windows: {name}: {answer!r}, not {wanted!r}')

    for name, recording, windows in small_ones():
        compare(name, recording, said(program, windows))
    with tempfile.TemporaryFile() as file:
        for name, recording in large_ones():
            file.seek(0)
            file.truncate()
            file.write(recording)
            file.seek(0)
            run = subprocess.run([program, 'check'], stdin=file, stdout=subprocess.PIPE, check=False)
            compare(name, recording, run.stdout.decode().strip())
    print(f'check_windows: {tried} recordings in windows, {wrong} differ')
    return 1 if wrong or tried < 200 else 0


if __name__ == '__main__':
    sys.exit(main())
