#!/bin/sh
''':'
# Begun by a shell: Python itself ends with a trace where standard input is a folder.
if [ -d /dev/stdin ]; then
    echo "read_chapter10: a read or a write failed: standard input is a folder" >&2
    exit 3
fi
exec python3 "$0" "$@"
'''
"""Reads a recording, or the image of a medium, by the public standard alone.

    scripts/tools/read_chapter10.py < INPUT              # each packet, and what stands in it
    scripts/tools/read_chapter10.py --entries < INPUT    # the entries alone, by count, then channel, then place
    scripts/tools/read_chapter10.py --file N < IMAGE     # the same, of one file of an image, from 0 on

It is written from IRIG 106-17, chapter 10 (directory, after STANAG 4575) and chapter 11 (packets), and takes nothing from
the recorder's code. So what it reads is there for any reader of the standard. It names the first fault and ends with status 1.
It stands on the package `ch10`, as scripts/ch10.py does, which has what a crew asks of a recording.

Lines of an image: `volume NAME`, and for each file `file NUMBER NAME SIZE BLOCKS FIRST`. Lines of a packet: `packet OFFSET CHANNEL
TYPE LENGTH SEQUENCE FLAGS COUNT`, TYPE and FLAGS in hex digits. Lines of what stands in it: `entry CHANNEL COUNT LOST` and the
message, `setup BYTES`, `report CHANNEL LOST`, `node CHANNEL TYPE OFFSET` and `root OFFSET`; LOST is 0 but in the first entry of a
packet that is flagged for an overflow: there it is what the report right before the packet says (data type 0x00, whose form is the
recorder's own), or 1+ where there is none. What it does not know is `other BYTES`, and is judged by its header alone: packets with
a secondary header or with stamps of another clock, those of a type that is not read, and those whose word selects another form of a
body.
"""
import argparse
import pathlib
import sys

sys.dont_write_bytecode = True
sys.path[0] = str(pathlib.Path(__file__).resolve().parents[2])
sys.path.insert(1, str(pathlib.Path(__file__).resolve().parent))

from ch10.python import with_numpy  # noqa: E402

with_numpy()
import as_filter  # noqa: E402
from ch10.bodies import BODIES, entries, index_places  # noqa: E402
from ch10.medium import bytes_of, directory  # noqa: E402
from ch10.packets import loss_of, lost_before, lost_text, packets  # noqa: E402
from ch10.standard import INDEX, SETUP, Fault, digits  # noqa: E402


def line_of(kind, values):
    """The words of an entry's line behind its count."""
    return ' '.join([BODIES[kind].name, *map(str, values)])


def lines(packet, report=None):
    """What stands in a packet, in lines: (count, line) of each entry; the lines of setup, report, index and others have no
    count."""
    if loss_of(packet):
        yield None, 'report %d %d' % loss_of(packet)
    elif packet.word is None:
        yield None, 'other ' + digits(packet.body)
    elif packet.kind == SETUP:
        yield None, 'setup ' + digits(packet.body[4:])
    elif packet.kind == INDEX:
        for line in index_places(packet):
            yield None, line
    lost = lost_before(packet, report)
    for count, values in entries(packet):
        yield count, 'entry %d %d %s %s' % (packet.channel, count, lost_text(lost), line_of(packet.kind, values))
        lost = 0


def show(data, begin, end, only_entries):
    replay, report = [], None
    for packet in packets(data, begin, end):
        if not only_entries:
            print('packet %d %d %02x %d %d %02x %d' % (
                packet.offset, packet.channel, packet.kind, packet.length, packet.sequence, packet.flags, packet.counter))
        for count, line in lines(packet, report):
            if not only_entries:
                print('  ' + line)
            elif count is not None:
                replay.append((count, packet.channel, line))
        report = loss_of(packet)
    for _, _, line in sorted(replay, key=lambda found: found[:2]):
        print(line)


def main(words):
    parser = argparse.ArgumentParser(description='Reads a recording, or the image of a medium, by the public standard alone.')
    parser.add_argument('--entries', action='store_true', help='the entries alone, by count, then channel, then place')
    parser.add_argument('--file', type=int, metavar='N', help='one file of an image, from 0 on')
    asked = parser.parse_args(words)
    data = as_filter.given()
    if data[:2] == b'\x25\xeb':
        show(data, 0, len(data), asked.entries)
        return 0
    volume, files = directory(data)
    if asked.file is not None and not 0 <= asked.file < len(files):
        raise Fault('the image has no file %d; it has %d, numbered from 0' % (asked.file, len(files)))
    if not asked.entries:
        print('volume ' + volume)
    for number, file in enumerate(files):
        if asked.file in (None, number):
            begin, end = bytes_of(data, file)
            if not asked.entries:
                print('file %d %s %d %d %d' % (number, file.name, file.size, file.blocks, file.first))
            show(data, begin, end, asked.entries)
    return 0


def judged(words):
    try:
        return main(words)
    except Fault as fault:
        sys.stdout.flush()
        print('read_chapter10: %s' % fault, file=sys.stderr)
        return 1


if __name__ == '__main__':
    sys.exit(as_filter.run('read_chapter10', judged))
