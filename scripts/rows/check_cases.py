#!/usr/bin/env python3
"""Makes the rows of `r10 check`, and of what a file's first fault is under its directory entry.

    scripts/rows/check_cases.py cases          # what stands in rows/cases from `== check-first` on
    scripts/rows/check_cases.py answers        # the same of rows/answers
    scripts/rows/check_cases.py kept           # fails where one of these files has others in their place
    scripts/rows/check_cases.py run PROGRAM    # runs PROGRAM check over each file of these rows, and says what does not answer as
                                               # wanted

The wanted answers are stated here beside the files, as docs/FORMAT.md gives them; scripts/tools/judge_recording.py, which is
written from the same rules, has to agree with each. Of the thousand files at the end, which are random bytes and the first
recording with one byte changed, that script alone says the answer. Nothing is taken from the recorder.
"""
import hashlib
import pathlib
import subprocess
import sys
from collections.abc import Callable, Iterable

TOP = pathlib.Path(__file__).resolve().parents[2]
sys.path[1:1] = map(str, [TOP, *(TOP / 'scripts').iterdir()])  # modules of the other folders

from judge_recording import ARINC, EVENT, INDEX, LOSS, SETUP, TIME, UART, first_fault, verdict  # noqa: E402

KEPT = TOP / 'rows'
CIVIL = bytes.fromhex('010300007856341229022420')
FOREIGN = 0x68


def number(value, size):
    return value.to_bytes(size, 'little')


def packet(channel, sequence, kind, counter, body, flags=0, version=8, filler=None):
    """A packet without a data checksum, with the least filler or the given one."""
    filler = bytes(-len(body) % 4) if filler is None else filler
    front = b'\x25\xeb' + number(channel, 2) + number(24 + len(body) + len(filler), 4) + number(len(body), 4)
    front += bytes((version, sequence, flags, kind)) + number(counter, 6)
    total = sum(int.from_bytes(front[k:k + 2], 'little') for k in range(0, 22, 2))
    return front + number(total % 65536, 2) + body + filler


def size(parts):
    return sum(map(len, parts))


# ---- the first recording

def recording():
    """The setup, time and UART packets of the first recording, its node and its root."""
    parts = [packet(0, 0, SETUP, 1000, bytes.fromhex('0c000000') + b'ABCD'), packet(1, 0, TIME, 1000, CIVIL),
             packet(5, 0, UART, 1000, number(1 << 31, 4) + letters(1000, b'ABC') + letters(1010, b''))]
    return parts + index_of(parts, 1000, 1)


def index_of(parts, counter, sequence, each=None, entries=100):
    """Node packets for these packets, of a hundred entries or so many, in groups of `each` with a root behind each; or in one
    group."""
    places = places_of(parts)
    some = [places[first:first + entries] for first in range(0, len(places), entries)]
    each, end, before, index = each or len(some), size(parts), None, []
    for first in range(0, len(some), each):
        nodes = [node_of(one, counter, (sequence + len(index) + k) % 256) for k, one in enumerate(some[first:first + each])]
        at = end + size(index)
        index += nodes + [root_of(nodes, at, counter, (sequence + len(index) + len(nodes)) % 256, before=before)]
        before = at + size(nodes)
    return index


def places_of(parts):
    """Each packet, with where it stands."""
    return [(size(parts[:k]), part) for k, part in enumerate(parts)]


def node_of(places, counter, sequence):
    return packet(0, sequence, INDEX, counter, number(1 << 31 | len(places), 4) + b''.join(
        part[16:22] + bytes(2) + part[2:4] + part[15:16] + bytes(1) + number(at, 8) for at, part in places))


def root_of(nodes, end, counter, sequence, own=None, before=None):
    """The root of these nodes from an offset on. Its last entry is of the root at another offset, or its own."""
    ends = [end + size(nodes[:k]) for k in range(len(nodes) + 1)]
    own = counter if own is None else own
    body = number(len(ends), 4) + b''.join(number(counter, 8) + number(at, 8) for at in ends[:-1])
    return packet(0, sequence, INDEX, own, body + number(own, 8) + number(ends[-1] if before is None else before, 8))


def root_naming(places, counter, sequence):
    """A root with entries of these offsets."""
    return packet(0, sequence, INDEX, counter,
                  number(len(places), 4) + b''.join(number(counter, 8) + number(at, 8) for at in places))


def letters(count, text, head=0):
    """An entry of a UART packet."""
    return number(count, 8) + number(head | len(text), 4) + text + bytes(len(text) % 2)


def uart(sequence, count, text=b'A', channel=5, **more):
    return packet(channel, sequence, UART, more.pop('counter', count), number(1 << 31, 4) + letters(count, text), **more)


def event(sequence, count, occurrence, **more):
    return packet(2, sequence, EVENT, count, number(1, 4) + number(count, 8) + number(1 << 28 | occurrence << 12 | 3, 4), **more)


FIRST = b''.join(recording())
STARTS = (0, 32, 68, 124, 212)
NAMES = ('setup', 'time', 'uart', 'node', 'root')
OPAQUE = packet(9, 0, FOREIGN, 1000, bytes(8), flags=0x80, filler=bytes(12))


def flipped(data, at, by):
    return data[:at] + bytes([data[at] ^ by]) + data[at + 1:]


# ---- whole files and their verdicts

def verdicts():
    yield 'check-first', FIRST, 'strict'
    yield 'check-opaque-behind', FIRST + OPAQUE, 'lenient 1'
    yield 'check-opaque-behind-cut', (FIRST + OPAQUE)[:-3], 'faulty 272 Truncated'
    yield 'check-byte-22', flipped(FIRST, 22, 1), 'faulty 0 HeaderSum'
    yield 'check-word-of-no-events', FIRST[:124] + packet(9, 0, 0, 1000, bytes(4)), 'lenient 1'
    yield 'check-no-sync', b'\x00' * 512, 'faulty 0 Sync'
    yield 'check-length-of-22', remade(4, b'\x16\x00\x00\x00'), 'faulty 68 Length'
    yield 'check-data-longer-than-packet', remade(8, b'\x21\x00\x00\x00'), 'faulty 68 Length'
    yield 'check-no-room-for-a-checksum', remade(14, b'\x03'), 'faulty 68 DataSum'
    yield 'check-longer-message', flipped(FIRST, 68 + 24 + 12, 0x40), 'faulty 68 Body'
    yield 'check-flagged', b''.join(lost()), 'strict'
    yield 'check-file-that-ends-with-a-report', b''.join(told(1)[:4]), 'lenient 0'
    yield 'check-report-and-its-packet', b''.join(told(1)[:5]), 'strict'
    yield 'check-reports-with-their-index', b''.join(told(70000)), 'strict'
    yield 'check-report-with-a-secondary-header', b''.join(OPENING + [report(1, 5, 1, flags=0x80)]), 'lenient 1'
    yield 'check-report-of-21-bytes', b''.join(OPENING + [packet(0, 1, LOSS, 1000, loss(5, 1) + bytes(1))]), 'lenient 1'
    yield 'check-report-of-another-word', b''.join(OPENING + [packet(0, 1, LOSS, 1000, b'\x01' + loss(5, 1)[1:])]), 'lenient 1'
    yield 'check-report-whose-checksum-is-wrong', b''.join(
        OPENING + [report(1, 5, 1, flags=1, filler=bytes(3) + b'\x01')]), 'faulty 68 DataSum'
    yield 'check-report-whose-checksum-is-right', b''.join(
        OPENING + [report(1, 5, 1, flags=1, filler=checked(loss(5, 1)))]), 'lenient 0'
    yield 'check-three-nodes', b''.join(MANY + MANY_INDEX), 'strict'
    yield 'check-two-roots', b''.join(LONG + CHAIN), 'strict'
    yield 'check-two-roots-without-the-last-group', b''.join(LONG + CHAIN[:2]), 'lenient 0'
    yield 'check-two-roots-without-the-last', b''.join(LONG + CHAIN[:3]), 'lenient 0'
    yield 'check-three-groups-of-which-the-last-has-one-node', b''.join(FAR + FAR_BY_TWO), 'strict'
    for size in range(273):
        yield 'check-cut-to-%d' % size, FIRST[:size], cut(size)
    for name, start in zip(NAMES, STARTS):
        for at in range(24):
            fault = 'Sync' if at < 2 else 'HeaderSum'
            yield 'check-%s-header-byte-%d' % (name, at), flipped(FIRST, start + at, 1), 'faulty %d %s' % (start, fault)


def cut(size):
    """The verdict on the first bytes of the first recording."""
    if size in (68, 124, 272):
        return 'strict'
    if size in (32, 212):
        return 'lenient 0'
    return 'faulty %d Truncated' % max(start for start in STARTS if start <= size)


def remade(at, field):
    """The first recording with another field in the header of its UART packet, and the right sum of that header."""
    head = FIRST[68:68 + at] + field + FIRST[68 + at + len(field):90]
    total = sum(int.from_bytes(head[k:k + 2], 'little') for k in range(0, 22, 2)) % 65536
    return FIRST[:68] + head + number(total, 2) + FIRST[92:]


# ---- files that break a rule

OPENING = [recording()[0], recording()[1]]
ONE = OPENING + [uart(0, 1001)]
TWO = OPENING + [event(0, 1001, 0)]
CLOSED = ONE + index_of(ONE, 1000, 1)
LONG = OPENING + [packet(1, k, TIME, 1000 + k, CIVIL) for k in range(1, 100)]
LONG_INDEX = index_of(LONG, 1099, 1)


def wrong_second_node():
    """A file of two nodes, of which the second names a place four bytes too far."""
    return LONG + [LONG_INDEX[0], LONG_INDEX[1][:-8] + number(int.from_bytes(LONG_INDEX[1][-8:], 'little') + 4, 8)]


def lost():
    """Two messages in a packet, a lost one, and a flagged packet behind it, with the index."""
    pair = packet(5, 0, UART, 1001, number(1 << 31, 4) + letters(1001, b'A') + letters(1002, b'B'))
    parts = OPENING + [pair, uart(1, 1004, b'D', flags=0x10)]
    return parts + index_of(parts, 1000, 1)


def loss(channel, count, reserved=0):
    """The body of a loss report."""
    return bytes(4) + b'LOSS' + number(channel, 2) + number(reserved, 2) + number(count, 8)


def report(sequence, channel, count, counter=1000, reserved=0, **more):
    return packet(more.pop('on', 0), sequence, LOSS, counter, loss(channel, count, reserved), **more)


def told(count):
    """The same with so many lost ones, and the report of them."""
    parts = lost()[:3] + [report(1, 5, count), lost()[3]]
    return parts + index_of(parts, 1000, 2)


MANY = OPENING + [uart(k % 256, 1000 + k, b'x', channel=6) for k in range(257)]
MANY_INDEX = index_of(MANY, 1000, 1)


CHAIN = index_of(LONG, 1099, 1, 1)
FAR = OPENING + [packet(1, k % 256, TIME, 1000 + k, CIVIL) for k in range(1, 400)]
FAR_BY_TWO = index_of(FAR, 1399, 1, 2)


def one_late(part, at):
    """A node or a root whose offset at a place in it is one more."""
    return remade_body(part, at, number(int.from_bytes(part[at:at + 8], 'little') + 1, 8))


def remade_body(part, at, field):
    return part[:at] + field + part[at + len(field):]


def by_one(count):
    """The first index packets of the far file: a node, its root, and from there nodes alone."""
    places = places_of(FAR)
    nodes = [node_of(places[100 * k:100 * k + 100], 1399, k + 1 + (k > 0)) for k in range(4)]
    return [nodes[0], root_of(nodes[:1], size(FAR), 1399, 2)][:count] + nodes[1:count - 1]


def misnamed():
    """Name, how many packets of the chain stand before it, and an index packet that names something else than it has to."""
    node, root = CHAIN[2:]
    yield 'later-node-of-another-count', 2, remade_body(node, 28, number(1100, 6))
    yield 'later-node-of-another-channel', 2, remade_body(node, 36, number(2, 2))
    yield 'later-node-of-another-type', 2, remade_body(node, 38, bytes([EVENT]))
    yield 'later-node-that-names-the-first-hundred', 2, node_of(places_of(LONG)[:100], 1099, 3)
    yield 'later-root-of-another-count-of-its-node', 3, remade_body(root, 28, number(1100, 6))
    yield 'later-root-of-another-count-of-the-root-before', 3, remade_body(root, 44, number(1100, 6))
    yield 'later-root-that-names-all-nodes', 3, root_naming([size(LONG), size(LONG + CHAIN[:2]), size(LONG + CHAIN[:1])], 1099, 4)
    yield 'later-root-without-the-root-before', 3, root_naming([size(LONG + CHAIN[:2])], 1099, 4)
    yield 'node-behind-a-chain', 4, node_of(places_of(LONG)[100:], 1099, 5)


def broken():
    """Name, packets before, packets from the one at fault on, whether the entry is closed, and the rule."""
    yield 'version-7', ONE, [uart(1, 1002, version=7)], False, 1
    yield 'time-format-of-no-header', ONE, [uart(1, 1002, flags=0x04)], False, 1
    yield 'sync-error', ONE, [uart(1, 1002, flags=0x20)], False, 1
    yield 'opaque-with-a-header', ONE, [OPAQUE], False, 1
    yield 'filler-of-ones', ONE, [uart(1, 1002, filler=b'\x01\x00')], False, 2
    yield 'more-filler', ONE, [uart(1, 1002, filler=bytes(6))], False, 2
    yield 'stamp-of-more-than-48-bits', ONE, [uart(1, 1002 | 1 << 48, counter=1002)], False, 3
    yield 'word-bit-30-of-uart', ONE, [packet(5, 1, UART, 1002, number(1 << 31, 4) + letters(1002, b'A', 1 << 30))], False, 3
    yield 'opaque', ONE, [packet(9, 0, FOREIGN, 1002, bytes(8))], False, 3
    yield 'second-time-with-a-checksum', ONE, [packet(1, 1, TIME, 1002, CIVIL, flags=1, filler=checked(CIVIL))], False, 3
    yield 'no-leap-bit', ONE, [packet(1, 1, TIME, 1002, b'\x01\x02' + CIVIL[2:])], False, 3
    yield 'first-gap-of-arinc', ONE, [packet(7, 0, ARINC, 1002, number(1, 4) + number(100, 4) + number(0, 4))], False, 3
    yield 'second-setup', ONE, [packet(0, 1, SETUP, 1000, number(0x0C, 4))], False, 4
    yield 'no-time', OPENING[:1], [uart(0, 1000)], False, 4
    yield 'setup-alone', OPENING[:1], [], False, 4
    yield 'setup-alone-closed', OPENING[:1], [], True, 4
    yield 'second-event-flagged', TWO, [event(1, 1002, 1, flags=0x10)], False, 5
    yield 'uart-on-the-channel-of-time', ONE, [uart(1, 1002, channel=1)], False, 5
    yield 'uart-on-channel-0', ONE, [uart(1, 1002, channel=0)], False, 5
    yield 'second-sequence-of-0', ONE, [uart(0, 1002)], False, 6
    yield 'second-sequence-of-2', ONE, [uart(2, 1002)], False, 6
    yield 'count-falls', ONE, [uart(1, 1000)], False, 7
    yield 'counter-before-the-entry', ONE, [uart(1, 1002, counter=1001)], False, 7
    yield 'longer-than-a-tenth-of-a-second', ONE, [spanning(1000001)], False, 7
    yield 'second-root', CLOSED, [root_of(CLOSED[3:4], size(ONE), 1000, 3)], True, 8
    yield 'second-node', wrong_second_node()[:-1], wrong_second_node()[-1:], True, 8
    yield 'uart-behind-a-node', CLOSED[:4], [uart(1, 1002)], True, 8
    yield 'no-index', ONE, [], True, 8
    yield 'no-root', CLOSED[:4], [], True, 8
    yield 'index-in-an-unclosed-file', ONE, CLOSED[3:], False, 8
    yield 'later-root-that-names-itself', LONG + CHAIN[:3], [root_of(CHAIN[2:3], size(LONG + CHAIN[:2]), 1099, 4)], True, 8
    yield 'root-whose-nodes-stand-one-later', FAR + FAR_BY_TWO[:2], [one_late(FAR_BY_TWO[2], 36)], True, 8
    yield 'later-node-that-names-one-later', LONG + CHAIN[:2], [one_late(CHAIN[2], 40)], True, 8
    yield 'larger-second-group', FAR + by_one(3), by_one(4)[3:], True, 8
    yield 'smaller-second-group', FAR + FAR_BY_TWO[:4], [root_of(FAR_BY_TWO[3:4], size(FAR + FAR_BY_TWO[:3]), 1399, 5,
                                                                 before=size(FAR + FAR_BY_TWO[:2]))], True, 8
    yield 'root-behind-a-root', LONG + CHAIN[:2], [root_of(CHAIN[:1], size(LONG), 1099, 3)], True, 8
    yield 'time-behind-a-root', LONG + CHAIN[:2], [packet(1, 100, TIME, 1100, CIVIL)], True, 8
    yield 'time-behind-a-chain', LONG + CHAIN, [packet(1, 100, TIME, 1100, CIVIL)], True, 8
    yield 'chain-without-its-last-group', LONG + CHAIN[:2], [], True, 8
    yield 'chain-without-its-last-root', LONG + CHAIN[:3], [], True, 8
    yield 'chain-in-an-unclosed-file', LONG, CHAIN, False, 8
    for name, at, part in misnamed():
        yield name, LONG + CHAIN[:at], [part], True, 8
    yield 'first-root-that-names-the-start', CLOSED[:4], [root_of(CLOSED[3:4], size(ONE), 1000, 2, before=0)], True, 8
    yield 'third-root-that-names-the-first', FAR + FAR_BY_TWO[:7], [
        root_naming([size(FAR + FAR_BY_TWO[:6]), size(FAR + FAR_BY_TWO[:2])], 1399, 8)], True, 8
    yield 'root-without-nodes', ONE, [root_of([], size(ONE), 1000, 1)], True, 8
    yield 'root-of-one-node-of-two', LONG + LONG_INDEX[:2], [root_of(LONG_INDEX[1:2], size(LONG + LONG_INDEX[:1]), 1099,
                                                                     3)], True, 8
    yield 'node-of-99-packets', LONG, [node_of(places_of(LONG)[:99], 1099, 1)], True, 8
    yield 'node-of-101-packets', LONG, [node_of(places_of(LONG), 1099, 1)], True, 8
    yield 'last-node-without-the-last-packet', MANY + MANY_INDEX[:2], [node_of(places_of(MANY)[200:-1], 1000, 3)], True, 8
    yield 'setup-of-another-count', OPENING[:1], [packet(1, 0, TIME, 1001, CIVIL)], False, 9
    yield 'root-of-another-count', CLOSED[:4], [root_of(CLOSED[3:4], size(ONE), 1000, 2, 1001)], True, 9
    for name, parts in unanswered():
        yield name, ONE, parts, False, 11
    yield 'second-event-says-none-before', TWO, [event(1, 1002, 0)], False, 10
    yield 'sequence-before-count', ONE, [uart(0, 1000)], False, 6
    yield 'flag-before-number-of-events', TWO, [event(1, 1002, 0, flags=0x10)], False, 5
    yield 'version-before-sequence', ONE, [uart(0, 1002, version=7)], False, 1
    yield 'report-behind-its-packet', lost()[:4], [report(1, 5, 1)], False, 11
    yield 'report-with-a-checksum', ONE, [report(1, 5, 1, flags=1, filler=checked(loss(5, 1))),
                                          uart(1, 1004, b'D', flags=0x10)], False, 3
    yield 'report-on-its-channel', ONE, [report(1, 5, 1, on=5), uart(2, 1004, b'D', flags=0x10)], False, 5
    yield 'flagged-report', ONE, [report(1, 5, 1, flags=0x10), uart(1, 1004, b'D', flags=0x10)], False, 5
    yield 'report-of-the-sequence-of-its-channel', ONE, [report(0, 5, 1), uart(1, 1004, b'D', flags=0x10)], False, 6
    yield 'report-behind-an-index', CLOSED, [report(3, 5, 1), uart(1, 1004, b'D', flags=0x10)], True, 8
    yield 'report-of-another-count', ONE, [report(1, 5, 1, 1001), uart(1, 1004, b'D', flags=0x10)], False, 9
    yield 'report-as-second-packet', OPENING[:1], [report(1, 5, 1), uart(0, 1004, b'D', flags=0x10)], False, 4
    yield 'index-that-leaves-a-report-out', told(1)[:5], index_of(lost()[:4], 1000, 2), True, 8
    yield 'answer-of-another-sequence', ONE + [report(1, 5, 1)], [uart(3, 1004, b'D', flags=0x10)], False, 6
    yield 'unclosed-before-count-of-the-index', ONE, index_of(ONE, 999, 1), False, 8


def unanswered():
    """Name, and a report behind the first recording's packets with what comes behind it, where the report is at fault."""
    one, behind = report(1, 5, 1), uart(1, 1004, b'D', flags=0x10)
    yield 'report-at-the-end', [one]
    yield 'report-of-no-loss', [report(1, 5, 0), behind]
    yield 'report-with-its-zero-field-set', [report(1, 5, 1, reserved=1), behind]
    yield 'report-before-a-packet-without-the-flag', [one, uart(1, 1004, b'D')]
    yield 'report-of-another-channel', [report(1, 6, 1), behind]
    yield 'report-before-a-time', [one, packet(1, 1, TIME, 1004, CIVIL), behind]
    yield 'report-before-a-report', [one, report(2, 5, 1), behind]
    yield 'report-before-a-cut-packet', [one, behind[:-4]]
    yield 'report-before-a-packet-of-another-sum', [one, flipped(behind, 22, 1)]
    yield 'report-before-its-index', [one] + index_of(ONE + [one], 1000, 2)


def kept():
    """Files that keep the rules, in the places where others break them."""
    yield 'first-closed', FIRST, True
    yield 'first-unclosed', FIRST[:124], False
    yield 'two-of-each', b''.join(TWO + [event(1, 1002, 1), uart(0, 1002), uart(1, 1002), spanning(1000000, 2)]), False
    yield 'two-nodes', b''.join(LONG + LONG_INDEX), True
    yield 'report-and-its-packet', b''.join(told(1)[:5]), False
    yield 'report-of-the-most', b''.join(told((1 << 64) - 1)), True
    yield 'flag-without-a-report', b''.join(lost()), True
    yield 'two-roots', b''.join(LONG + CHAIN), True
    yield 'three-groups-of-which-the-last-has-one-node', b''.join(FAR + FAR_BY_TWO), True


def checked(body):
    """Filler and a data checksum of 8 bits."""
    filler = bytes(-(len(body) + 1) % 4)
    return filler + bytes([sum(body) % 256])


def spanning(distance, sequence=1):
    """A UART packet of two entries so far apart."""
    return packet(5, sequence, UART, 1002, number(1 << 31, 4) + letters(1002, b'A') + letters(1002 + distance, b'B'))


def judged():
    """Name, file, whether its entry is closed, and what is to be printed."""
    for name, before, parts, closed, rule in broken():
        yield name, b''.join(before + parts), closed, '%d Rule %d' % (size(before), rule)
    for name, data, closed in kept():
        yield name, data, closed, 'none'
    yield 'header-sum-first', flipped(FIRST, 22, 1), True, '0 HeaderSum'
    yield 'rule-before-a-later-fault', b''.join(ONE + [uart(0, 1002)]) + b'\x25', False, '%d Rule 6' % size(ONE)
    yield 'fault-before-a-rule', flipped(b''.join(ONE + [uart(0, 1002)]), size(ONE), 1), False, '%d Sync' % size(ONE)


# ---- a thousand files

def noise(seed, count):
    """So many bytes, the same in each run."""
    found = b''
    while len(found) < count:
        found += hashlib.sha256(('%s %d' % (seed, len(found))).encode()).digest()
    return found[:count]


def random_file(k):
    """Random bytes; in three of four files they stand in a packet's place: behind a sync, in a right header, in a body."""
    data = noise('file %d' % k, 24 + k % 41)
    if k % 4 == 0:
        return data[:k % 65]
    if k % 4 == 1:
        return b'\x25\xeb' + data
    kind = (SETUP, TIME, EVENT, INDEX, 0x19, 0x29, 0x30, ARINC, UART, data[0])[k // 4 % 10]
    if k % 4 == 2:
        return packet(data[1], data[2], kind, data[3], data[24:], flags=data[4] & 0x13, filler=data[:-len(data[24:]) % 4])
    few = number(k % 3 | data[4] << 24, 4) + data[24:24 + k % 5 * 4]
    return b''.join(OPENING) + packet(5, 0, kind, 1001, few, flags=data[5] & 1)


def thousand():
    for at in range(272):
        yield 'check-changed-%d' % at, flipped(FIRST, at, noise('byte %d' % at, 1)[0] or 1)
    for k in range(728):
        yield 'check-random-%d' % k, random_file(k)


# ---- rows

def rows():
    """Name, words, input, and the line that is to be printed."""
    for name, data, wanted in verdicts():
        assert verdict(data) == wanted, (name, verdict(data), wanted)
        yield name, 'check', data, wanted
    for name, data, closed, wanted in judged():
        assert first_fault(data, closed) == wanted, (name, first_fault(data, closed), wanted)
        yield 'judge-' + name, 'judge ' + ('closed' if closed else 'unclosed'), data, wanted
    for name, data, _, wanted in judged():
        if 'Rule' in wanted:
            yield 'check-' + name, 'check', data, verdict(data)
    for name, data in thousand():
        yield name, 'check', data, verdict(data)


def status_of(line):
    return 0 if line in ('strict', 'none') or line.startswith('lenient') else 1


def case_text(name, words, data, line):
    text = data.hex()
    lines = [text[k:k + 64] for k in range(0, len(text), 64)]
    return '\n'.join(['== %s %s' % (name, words), '%d hex' % status_of(line)] + lines) + '\n'


def answer_text(name, words, _, line):
    return '== %s %s\n%d\n%s\n' % (name, words, status_of(line), line)


def run(program):
    """Runs the program over the files, and answers how many did not come out as wanted."""
    bad = 0
    for name, words, data, wanted in rows():
        if words != 'check':
            continue
        done = subprocess.run([program, 'check'], input=data, capture_output=True)
        if (done.returncode, done.stdout, done.stderr) != (status_of(wanted), (wanted + '\n').encode(), b''):
            print(name, 'wanted', wanted, 'came', done.returncode, done.stdout, done.stderr)
            bad += 1
    print('%d not as wanted' % bad)
    return bad


def row_texts(text: str) -> dict[str, str]:
    """The cases or answers in a text, by their first lines."""
    found = {}
    for part in ('\n' + text).split('\n== ')[1:]:
        name, _, rest = part.partition('\n')
        found[name] = rest.rstrip('\n')
    return found


def differing(made: str, kept: str) -> list[str]:
    """How a file of rows/ differs from what is made for it: nothing where that stands in it, as a whole and once."""
    if kept.count(made) == 1:
        return []
    ours, theirs = row_texts(made), row_texts(kept)
    names = [name for name in ours if ours[name] != theirs.get(name)]
    return names or ['all are there, and not side by side, once and in order']


def compare_kept(rows: list[tuple], case_text: Callable[..., str], answer_text: Callable[..., str]) -> int:
    """Says which rows stand otherwise in rows/ than they are made, and answers how many."""
    bad = 0
    for file, text in (('cases', case_text), ('answers', answer_text)):
        for name in differing(''.join(text(*row) for row in rows), (KEPT / file).read_text(encoding='utf-8')):
            print('rows/%s: %s' % (file, name))
            bad += 1
    print('%s: %d rows, %d not as made' % (pathlib.Path(sys.argv[0]).name, len(rows), bad))
    return bad


def print_rows(words: list[str], rows: Iterable[tuple], case_text: Callable[..., str], answer_text: Callable[..., str],
               usage: str) -> int:
    """Prints the cases of rows, or their answers; or compares both with the files of rows/."""
    if words not in (['cases'], ['answers'], ['kept']):
        sys.exit(usage)
    if words == ['kept']:
        return compare_kept(list(rows), case_text, answer_text) > 0
    text = case_text if words == ['cases'] else answer_text
    for row in rows:
        sys.stdout.write(text(*row))
    return 0


def main(words):
    if words[:1] == ['run'] and len(words) == 2:
        return run(words[1]) > 0
    return print_rows(words, rows(), case_text, answer_text, __doc__)


if __name__ == '__main__':
    sys.exit(main(sys.argv[1:]))
