"""`ch10 export`: what channels carry as files of other programs: Ethernet as pcapng, video as a transport stream, analog samples as
WAV or columns, PCM minor frames as columns. The packets' forms are those of IRIG 106-17, chapter 11."""
from __future__ import annotations

from argparse import Namespace
import struct
from typing import Callable, Dict, Iterator, List, NamedTuple, Optional, Tuple

from .arrays import Array, numpy
from .clocks import asked_of
from .columns import Batch, of_own_size, second_of
from .doubts import judge
from .inputs import Output, one_part
from .packets import UNTOLD, Packet, loss_of, lost_before, lost_text, packets
from .pcm import PACKED, THROUGHPUT, UNPACKED, WIDE, Layout, counts_of_frames, frames_of, layout_of
from .standard import COUNT_BITS, Data, Fault, Wrong, digits
from .survey import Survey

PCM, ANALOG, ETHERNET = 0x09, 0x21, 0x68
VIDEO = (0x40, 0x41, 0x42)
YEAR_1970 = 719163 * 864000000000


class Part(NamedTuple):
    """A packet with its body, the instant of count 0 of its session, and how many messages were lost before it."""
    packet: Packet
    body: bytes
    base: int
    lost: int


class Source:
    """The packets of one input that are of some types, of one channel or of each."""

    def __init__(self, asked: Namespace, data: Data, kinds: Tuple[int, ...]) -> None:
        _, self.begin, end = one_part(data, asked.file)
        self.data, self.survey, self.kinds = data, Survey(data, self.begin, end, asked.keep_going, asked=asked_of(asked)), kinds
        rows = [row for row in self.survey.rows if row.kind in kinds and row.packets]
        self.channels = [row.channel for row in rows if asked.channel in (None, row.channel)]
        self.passed: Dict[int, int] = {}  # packets of each channel that are not read, and why
        self.why: Dict[int, str] = {}
        if not self.channels:
            self.survey.judge()
            raise Fault('no packet of %s has such data' % (
                'the recording' if asked.channel is None else 'channel %d' % asked.channel))

    def one_channel(self) -> int:
        """The channel that is asked for, or the only one. A Wrong where there are more."""
        if len(set(self.channels)) > 1:
            raise Wrong('--channel says which of %s' % ', '.join(map(str, sorted(set(self.channels)))))
        return self.channels[0]

    def parts(self) -> Iterator[Part]:
        """The packets of the kinds and channels that are asked for, each with what was lost before it."""
        report, behind = None, 0
        for number, packet in enumerate(packets(self.data, self.begin, self.begin + self.survey.size, False, self.survey.passed)):
            if packet.offset != behind:
                report = None
            behind = packet.offset + packet.length
            if packet.kind in self.kinds and packet.channel in self.channels:
                at = self.begin + packet.offset + (36 if packet.flags & 0x80 else 24)
                size = int.from_bytes(self.data[self.begin + packet.offset + 8:self.begin + packet.offset + 12], 'little')
                if size < 4:
                    self.leave(packet.channel, 'a body without its word')
                else:
                    yield Part(packet, bytes(self.data[at:at + size]), self.survey.of[number] << 48, lost_before(packet, report))
            report = loss_of(packet)

    def leave(self, channel: int, why: str) -> None:
        """Takes note of a packet that is not read."""
        self.passed[channel] = self.passed.get(channel, 0) + 1
        self.why[channel] = why

    def judge(self, out: Output) -> None:
        """Says what is doubtful, and raises what is wrong with the recording, or what was left out."""
        judge(self.survey, out)
        if self.passed:
            raise Fault('; '.join('channel %d: %d packet%s not read: %s' % (channel, many, 's' * (many > 1), self.why[channel])
                                  for channel, many in sorted(self.passed.items())))

    def time(self, instant: int) -> Optional[str]:
        """The civil time of an instant as text, or None."""
        return self.survey.clock.text(instant) if self.survey.clock else None

    def ticks(self, instant: int) -> Optional[int]:
        """The civil time of an instant in units of 100 ns, where there is one with a date."""
        clock = self.survey.clock
        return clock.at(instant) if clock and clock.dated and clock.text(instant) is not None else None


def batch_of(part: Part) -> Batch:
    """The entries' bytes of one packet."""
    octets = numpy.frombuffer(part.body + bytes(8), numpy.uint8)
    word = int.from_bytes(part.body[:4], 'little')
    return Batch(octets, [4], [len(part.body)], [word], [part.packet.counter], [second_of(part.packet.flags, part.packet.second)])


# ---- Ethernet (11.2.15, format 0) as pcapng

FULL, PAYLOAD = 1, 147  # link types of pcapng: Ethernet, and one of the user's own
FRAME_CHECK = 4  # bytes of the check sequence at a frame's end


def block(kind: int, body: bytes) -> bytes:
    """A block of pcapng, its length before it and after it."""
    size = 12 + len(body)
    return struct.pack('<II', kind, size) + body + struct.pack('<I', size)


def option(code: int, value: bytes) -> bytes:
    """An option of pcapng: code, length and value, filled up to four bytes."""
    return struct.pack('<HH', code, len(value)) + value + bytes(-len(value) % 4)


def as_pcapng(asked: Namespace, data: Data, out: Output) -> None:
    """Each channel is an interface, and another where frames without their front are recorded. Times are those of the stamps. A
    frame that the recorder found wrong says so in its flags, and lost messages before it are its drop count."""
    source = Source(asked, data, (ETHERNET,))
    out.write(block(0x0A0D0D0A, struct.pack('<IHHq', 0x1A2B3C4D, 1, 0, -1)))
    interfaces: Dict[Tuple[int, int], int] = {}
    for part in source.parts():
        batch = batch_of(part)
        number = int(batch.words[0]) & 0xFFFF
        if int(batch.words[0]) >> 28:
            source.leave(part.packet.channel, 'a format that is reserved')
            continue
        at, many, bad = of_own_size(batch, 12, 8, True, numpy.array([number]), 0x3FFF)
        if bad[0]:
            source.leave(part.packet.channel, 'less than its frames in a body')
            continue
        marks, stamps, lost = batch.numbers(at + 8, 4).tolist(), batch.stamps(at, numpy.zeros(len(at), int)).tolist(), part.lost
        for place, mark, count in zip(at.tolist(), marks, stamps):
            link = FULL if mark >> 28 & 3 == 0 else PAYLOAD
            key = part.packet.channel, link
            if key not in interfaces:
                interfaces[key] = len(interfaces)
                name = source.survey.names.channel(part.packet.channel) or 'channel %d' % part.packet.channel
                more = option(2, name.encode()) + option(9, b'\7') + (option(13, bytes((FRAME_CHECK,))) if link == FULL else b'')
                out.write(block(1, struct.pack('<HHI', link, 0, 0) + more + option(0, b'')))
            size, instant = mark & 0x3FFF, part.base + count
            ticks = source.ticks(instant)
            when = count if ticks is None else ticks - YEAR_1970
            errors = (mark >> 31 | mark >> 15 & 1) << 24 | (mark >> 30 & 1) << 28 | (mark >> 14 & 1) << 26
            more = (option(2, struct.pack('<I', errors)) if errors else b'') + (
                option(4, struct.pack('<Q', 1 if lost == UNTOLD else lost)) if lost else b'')
            lost = 0
            frame = part.body[place + 12:place + 12 + size]
            front = struct.pack('<IIIII', interfaces[key], when >> 32 & 0xFFFFFFFF, when & 0xFFFFFFFF, size, size)
            out.write(block(6, front + frame + bytes(-size % 4) + (more + option(0, b'') if more else b'')))
    source.judge(out)


# ---- video (11.2.10, formats 0 to 2) as a transport stream

TS = 188  # bytes of a packet of a transport stream
SYNC = 0x47  # which it begins with


def stream_of(body: bytes) -> Optional[bytes]:
    """The packets of a transport stream in a body, with a stamp before each or without; their bytes in order, or each two of them
    turned. None where neither has the sync byte in its place."""
    for step in (TS, TS + 8):
        if not (len(body) - 4) // step or (len(body) - 4) % step:
            continue
        rows = numpy.frombuffer(body, numpy.uint8, len(body) - 4, 4).reshape(-1, step)[:, step - TS:]
        if (rows[:, 0] == SYNC).all():
            return rows.tobytes()
        if (rows[:, 1] == SYNC).all():
            return rows.reshape(len(rows), -1, 2)[:, :, ::-1].tobytes()
    return None


def as_ts(asked: Namespace, data: Data, out: Output) -> None:
    """The transport stream of one video channel."""
    source = Source(asked, data, VIDEO)
    channel = source.one_channel()
    for part in source.parts():
        found = stream_of(part.body)
        if found is None:
            source.leave(channel, 'no packets of a transport stream in a body')
        else:
            out.write(found)
    source.judge(out)


# ---- analog samples (11.2.5, format 1)

class Analog(NamedTuple):
    """The words of an analog packet: subchannels with their bits, the mode, and the factor by which each is sampled less often."""
    mode: int
    bits: List[int]
    subs: List[int]
    factors: List[int]
    front: int  # bytes of these words


def analog_of(body: bytes) -> Optional[Analog]:
    """None where the words do not stand whole in the body, or the mode is reserved."""
    first, = struct.unpack_from('<I', body)
    total = first >> 16 & 0xFF or 256
    number = 1 if first >> 28 & 1 else total
    if 4 * number > len(body) or first & 3 == 2:
        return None
    words = list(struct.unpack_from('<%dI' % number, body)) * (1 if number == total else total)
    subs = [one >> 8 & 0xFF for one in words] if number == total else list(range(total))
    return Analog(first & 3, [one >> 2 & 63 or 64 for one in words], subs, [one >> 24 & 15 for one in words], 4 * number)


def order_of(form: Analog) -> List[int]:
    """Which subchannel each sample is of, for the steps in which the pattern repeats."""
    return [place for step in range(1 << max(form.factors)) for place, factor in enumerate(form.factors)
            if step % (1 << factor) == 0]


def samples_of(form: Analog, body: bytes) -> Array:
    """The samples one after the other, as whole numbers of no sign. All have the same bits.

    Packed ones follow bit by bit, the highest first, through words of 16 bits. Unpacked ones take such words each, and stand at
    their low end (mode 3) or at their high end (mode 1).
    """
    bits = form.bits[0]
    data = numpy.frombuffer(body, '<u2', (len(body) - form.front) // 2, form.front).byteswap().view(numpy.uint8)
    if form.mode == 0:
        stream = numpy.unpackbits(data)
        stream = stream[:len(stream) // bits * bits].reshape(-1, bits)
    else:
        wide = -(-bits // 16) * 16
        stream = numpy.unpackbits(data[:len(data) // (wide // 8) * (wide // 8)]).reshape(-1, wide)
        stream = stream[:, wide - bits:] if form.mode == 3 else stream[:, :bits]
    found = numpy.zeros(len(stream), numpy.uint64)
    for bit in range(bits):
        found = found << numpy.uint64(1) | stream[:, bit].astype(numpy.uint64)
    return found


def analog_parts(source: Source) -> Iterator[Tuple[Part, Analog, Array]]:
    """The packets of analog channels that can be read, with their form and samples."""
    for part in source.parts():
        form = analog_of(part.body)
        if form is None:
            source.leave(part.packet.channel, 'words that are not whole, or of a reserved mode')
        elif len(set(form.bits)) > 1:
            source.leave(part.packet.channel, 'subchannels of different numbers of bits')
        else:
            yield part, form, samples_of(form, part.body)


def as_samples(asked: Namespace, data: Data, out: Output) -> None:
    """A line for each sample: count and time of its packet, its place there, subchannel, and the number as it was recorded."""
    source = Source(asked, data, (ANALOG,))
    out.line('channel,count,time,lost,place,sub,value')
    for part, form, found in analog_parts(source):
        order = order_of(form)
        when = source.time(part.base + part.packet.counter) or ''
        front = '%d,%d,%s,' % (part.packet.channel, part.packet.counter, when)
        out.write(''.join('%s%s,%d,%d,%d\n' % (front, '0' if place else lost_text(part.lost), place,
                                               form.subs[order[place % len(order)]], value)
                          for place, value in enumerate(found.tolist())).encode())
    source.judge(out)


def as_wav(asked: Namespace, data: Data, out: Output) -> None:
    """16 bits a sample, all subchannels side by side. The rate is that of the packets' counters. Samples are taken as numbers of no
    sign, with --signed as of two's complement."""
    source = Source(asked, data, (ANALOG,))
    channel = source.one_channel()
    total, first, last, before, wide = 0, None, None, 0, 0
    for part, form, found in analog_parts(source):
        if any(form.factors):
            raise Fault('channel %d has subchannels of different rates: --as samples' % channel)
        if wide not in (0, len(form.bits)):
            raise Fault('channel %d changes its number of subchannels: --as samples' % channel)
        wide, last = len(form.bits), part.base + part.packet.counter
        first = last if first is None else first
        before = total
        total += len(found) // wide
    if not wide:
        source.judge(out)
    rate = 0 if first is None or last is None or last == first else round(before * 10 ** 7 / (last - first))
    if not 0 < rate < 1 << 32:
        raise Fault('the packets of channel %d tell no rate: --as samples' % channel)
    size = 2 * total * wide
    if size > 0xFFFFFFFF - 36:
        raise Fault('channel %d has more samples than a WAV file takes: --as samples' % channel)
    out.write(b'RIFF' + struct.pack('<I', 36 + size) + b'WAVEfmt ' + struct.pack('<IHHIIHH', 16, 1, wide, rate, rate * 2 * wide,
                                                                                  2 * wide, 16) + b'data' + struct.pack('<I', size))
    source.passed, source.why = {}, {}
    for _, form, found in analog_parts(source):
        bits, some = form.bits[0], found[:len(found) // wide * wide]
        high = some << numpy.uint64(16 - bits) if bits <= 16 else some >> numpy.uint64(bits - 16)
        turned = high.astype(numpy.uint16) if asked.signed else high.astype(numpy.uint16) ^ 0x8000
        out.write(turned.astype('<u2').tobytes())
    source.judge(out)


# ---- PCM minor frames (11.2.2, format 1)

def frame_of(source: Source, channel: int, asked: Namespace) -> Optional[Layout]:
    """How a minor frame is made: as the call says, how many bits it has, or the setup text."""
    found = layout_of(source.survey.names.attributes, source.survey.names.channels.get(channel, ('', '', ''))[2])
    if asked.bits and (found is None or found.bits != asked.bits):
        return Layout(asked.bits, 0, ())
    return found


def as_frames(asked: Namespace, data: Data, out: Output) -> None:
    """A line for each minor frame: count, time, the lock status of its header, and its bits as hex digits, the first bit the
    highest, without those that fill up the words of unpacked ones. Of a throughput packet the bits are one line, for it has no
    frames."""
    source = Source(asked, data, (PCM,))
    out.line('channel,count,time,lost,mode,lock,value')
    for part in source.parts():
        word, channel = int.from_bytes(part.body[:4], 'little'), part.packet.channel
        size = 4 if word & WIDE else 2  # bytes of a word of the alignment
        if word & THROUGHPUT:
            some = numpy.frombuffer(part.body, '<u%d' % size, (len(part.body) - 4) // size, 4).byteswap().tobytes()
            write_frames(source, out, part, 'throughput', [(part.base + part.packet.counter, '', some)])
            continue
        layout = frame_of(source, channel, asked)
        if not word & (PACKED | UNPACKED):
            source.leave(channel, 'neither throughput nor packed nor unpacked')
        elif layout is None:
            source.leave(channel, 'the setup text does not say how many bits a minor frame has: --bits')
        elif not word & PACKED and not layout.words:
            source.leave(channel, 'unpacked, and the setup text does not say the words of a minor frame')
        elif not word & PACKED and layout.is_long(size):
            source.leave(channel, 'unpacked, with words that are longer than those of the packet')
        else:
            batch = batch_of(part)
            found = frames_of(batch, layout)
            if found is None:
                source.leave(channel, 'no whole number of minor frames of %d bits' % layout.bits)
                continue
            instants = [part.base + count for count in counts_of_frames(batch, found)]
            locks = [''] * len(instants) if found.locks is None else ['%x' % lock for lock in found.locks.tolist()]
            values = [row.tobytes() for row in numpy.packbits(found.rows, axis=1)]
            write_frames(source, out, part, 'packed' if word & PACKED else 'unpacked', list(zip(instants, locks, values)))
    source.judge(out)


def write_frames(source: Source, out: Output, part: Part, mode: str, lines: List[Tuple[int, str, bytes]]) -> None:
    """Writes a line for each minor frame of a packet; what was lost stands at the first."""
    lost = lost_text(part.lost)
    for instant, lock, value in lines:
        cells = part.packet.channel, instant & COUNT_BITS, source.time(instant) or '', lost, mode, lock, digits(value)
        out.line(','.join(map(str, cells)))
        lost = '0'


FORMS: Dict[str, Callable[[Namespace, Data, Output], None]] = {
    'pcapng': as_pcapng, 'ts': as_ts, 'wav': as_wav, 'samples': as_samples, 'frames': as_frames}


def export(asked: Namespace, data: Data, out: Output) -> None:
    """`ch10 export`."""
    FORMS[asked.form](asked, data, out)
