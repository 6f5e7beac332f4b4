#!/usr/bin/env python3
"""Sends messages of a card to r10d as datagrams with a header (docs/RECORDER.md), with the times that the card gave them.

    sender.py ADDRESS PORT [NUMBER]     so many messages, 10, of a MIL-STD-1553 channel 20 and an ARINC 429 channel 30

What this program makes up, a card's program has from its card: the counter, the bus, the status.
"""
import socket
import struct
import sys
import time

# magic, version, what, stamp, 0; sequence; channel; subchannel; stamp; two words
HEADER = struct.Struct('<4sBBBBIHHQII')
MESSAGE, PAIR = 0, 1
ARRIVAL, COUNTER, UNIX, PTP = 0, 1, 2, 3


def header(what: int, stamp: int, sequence: int = 0, channel: int = 0, sub: int = 0, at: int = 0, word: int = 0, of: int = 0) -> bytes:
    """The 32 bytes before a message."""
    return HEADER.pack(b'R10D', 1, what, stamp, 0, sequence, channel, sub, at, word, of)


def counter() -> int:
    """A card's counter of 48 bits, in units of 100 ns: here the machine's, from another start."""
    return (time.monotonic_ns() // 100 + 123_456_789) % (1 << 48)


def main() -> None:
    to, number = (sys.argv[1], int(sys.argv[2])), int(sys.argv[3]) if len(sys.argv) > 3 else 10
    with socket.socket(socket.AF_INET6 if ':' in to[0] else socket.AF_INET, socket.SOCK_DGRAM) as it:
        for n in range(number):
            # once a second the card's counter is tied to a time in UTC
            if n % 1000 == 0:
                before, unix = counter(), time.time_ns()
                it.sendto(header(PAIR, COUNTER, at=before, of=UNIX) + struct.pack('<Q', unix), to)
            # a message on bus B (status 0x2000) with gap times 7: a command and its two data words
            words = struct.pack('<3H', 0x2842, n & 0xFFFF, n >> 16)
            it.sendto(header(MESSAGE, COUNTER, n, 20, at=counter(), word=0x2000 | 7 << 16) + words, to)
            # a word of bus 5 at high speed, stamped in UTC
            it.sendto(header(MESSAGE, UNIX, n, 30, at=time.time_ns(), word=5 | 1 << 8) + struct.pack('<I', n << 10 | 0xC1), to)
            time.sleep(0.001)


if __name__ == '__main__':
    main()
