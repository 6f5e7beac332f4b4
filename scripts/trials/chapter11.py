"""Packets written from the text of IRIG 106-17, chapter 11, for the trials of the filters. It takes nothing from the filters, and
nothing of theirs is taken from it: what one has wrong the other shows.

A function makes the bytes of one thing of the standard, and its first line names the section. All numbers stand with their low
byte first. Counts are those of the relative time counter, of 48 bits at 10 MHz: 100 ns each.

    from chapter11 import Recording, arinc, time_f1
    made = Recording()
    made.add(0, 0x01, 0, setup(b'G\\\\106:17;'))
    made.add(1, 0x11, 0, time_f1('2024-05-17 09:00:00.00'))
    made.add(8, 0x38, 10, arinc([(0, 1, 0x60000083)]), checksum=3)
    data = made.data()
"""
import struct
from typing import Dict, Iterable, List, Optional, Sequence, Tuple

Bytes = Sequence[bytes]
SECOND = 10 ** 7  # counts
VERSION = 0x0C  # of a header and of a setup: 106-17

# Bits of the packet flags (11.2.1.1, packet flags).
SECONDARY, STAMPS_AS_SECONDARY, COUNTER_ERROR, OVERFLOW = 0x80, 0x40, 0x20, 0x10
CHAPTER_4, IEEE_1588, EXTENDED_COUNTER = 0, 1, 2  # formats of the time in a secondary header, bits 3 and 2 of the flags


def word(value: int, size: int) -> bytes:
    """11.2, all numbers: so many bytes, the low one first."""
    return bytes(value >> 8 * place & 0xFF for place in range(size))


def sum_of(data: bytes, width: int) -> int:
    """The sum of the numbers of so many bytes, without what overflows."""
    return sum(int.from_bytes(data[at:at + width], 'little') for at in range(0, len(data), width)) % 256 ** width


# ---- packets

def secondary_header(time: bytes) -> bytes:
    """11.2.1.2, packet secondary header: a time of 8 bytes, 2 reserved ones, and the sum of these five words."""
    front = time + bytes(2)
    return front + struct.pack('<H', sum_of(front, 2))


def packet(channel: int, data_type: int, counter: int, body: bytes, sequence: int = 0, flags: int = 0, secondary: bytes = b'',
           checksum: int = 0, filler: int = 0, version: int = VERSION) -> bytes:
    """11.2.1, a packet: header, secondary header where there is one, body, filler up to four bytes, and the data checksum.

    flags      all but bit 7, that there is a secondary header, which is set by itself
    secondary  the time in the secondary header, 8 bytes, or this header itself, 12 bytes
    checksum   of the data: 0 none, 1 of 8 bits, 2 of 16, 3 of 32; the same may be given as bits 1 and 0 of the flags
    filler     bytes of filler beside those that the length asks for, a multiple of four
    """
    second = secondary_header(secondary) if len(secondary) == 8 else secondary
    flags = flags | checksum | (SECONDARY if second else 0)
    width = (0, 1, 2, 4)[flags & 3]
    data = body + bytes(-(len(body) + width) % 4 + filler)
    front = struct.pack('<HHIIBBBBIH', 0xEB25, channel, 24 + len(second) + len(data) + width, len(body), version, sequence, flags,
                        data_type, counter & 0xFFFFFFFF, counter >> 32)
    trailer = word(sum_of(data, width), width) if width else b''
    return front + word(sum_of(front, 2), 2) + second + data + trailer


def opened(text: bytes = b'G\\106:17;') -> List[bytes]:
    """11.2.7 and 11.2.3, how a recording begins: the setup, and the time 2024-02-29 12:34:56.00 at the count 1000."""
    return [packet(0, 0x01, 1000, setup(text)), packet(1, 0x11, 1000, time_f1('2024-02-29 12:34:56.00'))]


class Recording:
    """Packets one after the other, each with the next sequence number of its channel (11.2.1.1, sequence number)."""

    def __init__(self) -> None:
        self.packets: List[bytes] = []
        self.next: Dict[int, int] = {}

    def add(self, channel: int, data_type: int, counter: int, body: bytes, **more) -> 'Recording':
        """Adds a packet; `more` is what `packet` takes."""
        sequence = self.next.get(channel, 0)
        self.next[channel] = (sequence + 1) % 256
        self.packets.append(packet(channel, data_type, counter, body, sequence, **more))
        return self

    def restart(self) -> 'Recording':
        """What comes now is of a recorder that was switched on anew: sequence numbers begin at 0."""
        self.next = {}
        return self

    def data(self) -> bytes:
        return b''.join(self.packets)


# ---- times

def binary_time(seconds_of_year: int, microseconds: int) -> bytes:
    """11.2.1.2, the time of chapter 4 in a secondary header: a word that is not used, the microseconds in a hundredth of a second,
    and the low and the high word of such hundredths since the year's begin."""
    hundredths = 100 * seconds_of_year + microseconds // 10000
    return struct.pack('<HHHH', 0, microseconds % 10000, hundredths & 0xFFFF, hundredths >> 16)


def ieee_1588(seconds: int, nanoseconds: int) -> bytes:
    """11.2.1.2, the time of IEEE 1588 in a secondary header: nanoseconds, then seconds."""
    return struct.pack('<II', nanoseconds, seconds)


def extended_counter(count: int) -> bytes:
    """11.2.1.2, the extended relative time counter of 64 bits in a secondary header."""
    return struct.pack('<Q', count)


def time_of(form: int, ticks: int) -> bytes:
    """11.2.1.2, a time of so many units of 100 ns in one of these formats, by its number."""
    if form == CHAPTER_4:
        return binary_time(ticks // SECOND, ticks % SECOND // 10)
    if form == IEEE_1588:
        return ieee_1588(ticks // SECOND, ticks % SECOND * 100)
    return extended_counter(ticks * 100)


def stamp(count: int) -> bytes:
    """11.2.1.1 and each type: an intra-packet time stamp, 48 bits of the counter and 16 that are not used."""
    return struct.pack('<Q', count)


IRIG_B, IRIG_A, IRIG_G, CLOCK_CHIP, UTC_OF_GPS, GPS, NO_TIME = 0, 1, 2, 3, 4, 5, 15  # formats, bits 7 to 4
INTERNAL, EXTERNAL, MEMORY, NO_SOURCE = 0, 1, 2, 15  # sources, bits 3 to 0
# How the time code generator runs, bits 15 to 12: by itself, since a command, since the memory's time; locked to a time code, to
# GPS, to NTP, to PTP, to a time within a channel.
FREE, FREE_COMMAND, FREE_MEMORY, LOCKED_IRIG, LOCKED_GPS, LOCKED_NTP, LOCKED_PTP, LOCKED_CHANNEL = range(8)


def time_f1(said: str, form: int = IRIG_B, source: int = EXTERNAL, leap: bool = False, lock: int = 0) -> bytes:
    """11.2.3, time data packets, format 1: a time in binary coded decimals, with a date as in '2024-05-17 09:00:00.00', or with a
    day of the year as in '138 09:00:00.00'. A second may be 60."""
    day, clock = said.split(' ')
    hours, minutes, rest = clock.split(':')
    seconds, _, part = rest.partition('.')
    dated = '-' in day
    word = source | form << 4 | int(leap) << 8 | int(dated) << 9 | lock << 12
    body = struct.pack('<I', word) + bytes((int(part.ljust(2, '0'), 16), int(seconds, 16), int(minutes, 16), int(hours, 16)))
    if dated:
        year, month, of_month = day.split('-')
        return body + bytes((int(of_month, 16), int(month, 16))) + struct.pack('<H', int(year, 16))
    return body + struct.pack('<H', int(day, 16)) + bytes(2)


def time_f2(seconds: int, part: int, protocol: int = 2, valid: bool = True) -> bytes:
    """11.2.3, time data packets, format 2: a network time. Protocol 0 is NTP version 3, whose part is a fraction of 32 bits; 1 and
    2 are IEEE 1588 of 2002 and of 2008, whose part is in nanoseconds."""
    return struct.pack('<III', int(valid) | protocol << 4, seconds, part)


# ---- what a computer makes

def setup(text: bytes, xml: bool = False, changed: bool = False, version: int = VERSION) -> bytes:
    """11.2.7, computer-generated data, format 1: the setup record."""
    return struct.pack('<I', version | int(changed) << 8 | int(xml) << 9) + text


def events(some: Iterable[Tuple[int, int, int]], header: Optional[bytes] = None) -> bytes:
    """11.2.7, computer-generated data, format 2: events, each a stamp, an event's number and how often it came; with a header of 8
    bytes within each where one is given."""
    some = list(some)
    inner = header or b''
    return struct.pack('<I', len(some) | (1 << 31 if inner else 0)) + b''.join(
        stamp(count) + inner + struct.pack('<I', number | occurrence << 12 | 1 << 28) for count, number, occurrence in some)


def index(entries: Sequence[Tuple[int, ...]], is_node: bool, size: Optional[int] = None, header: bytes = b'') -> bytes:
    """11.2.7, computer-generated data, format 3: nodes, each a count, channel, data type and place of a packet, or roots, each a
    count and place of an index packet. Before them the size of the file where one is given (bit 30), within each a header of 8
    bytes where one is given (bit 29)."""
    made = word(len(entries) | int(is_node) << 31 | int(size is not None) << 30 | int(bool(header)) << 29, 4)
    made += b'' if size is None else word(size, 8)
    for entry in entries:
        made += stamp(entry[0]) + header + (word(entry[1] | entry[2] << 16, 4) if is_node else b'') + word(entry[-1], 8)
    return made


# ---- channels

def message_1553(count: int, words: Sequence[int], status: int = 0, gaps: int = 0) -> bytes:
    """11.2.4, MIL-STD-1553, format 1: a stamp, block status, gap times, length in bytes, and the words."""
    return stamp(count) + struct.pack('<HHH%dH' % len(words), status, gaps, 2 * len(words), *words)


def bus_1553(messages: Sequence[bytes], time_tag: int = 0) -> bytes:
    """11.2.4: the word has how many messages there are, and in bits 31 and 30 which bit of a message its stamp is of: 0 the last of
    its last word, 1 the first of its first word, 2 the last of its first word."""
    return struct.pack('<I', len(messages) | time_tag << 30) + b''.join(messages)


def arinc(words: Sequence[Tuple[int, int, int]], flags: int = 0) -> bytes:
    """11.2.8, ARINC 429, format 0: of each word the time since the one before it, its bus, and itself. Flags are bits 23 to 21:
    format error, parity error, high speed."""
    return struct.pack('<I', len(words)) + b''.join(
        struct.pack('<II', gap | flags << 21 | bus << 24, word) for gap, bus, word in words)


def uart_entry(text: bytes, parity_error: int = 0, sub: int = 0, count: Optional[int] = None) -> bytes:
    """11.2.12, an entry of UART: a stamp where there is one, length, subchannel with the parity error at its top, the bytes, and
    one more where their number is odd."""
    front = b'' if count is None else stamp(count)
    return front + word(len(text), 2) + word(parity_error << 15 | sub, 2) + text + bytes(len(text) & 1)


def uart(some: Sequence[Tuple[Optional[int], bytes]], sub: int = 0, parity_error: int = 0) -> bytes:
    """11.2.12, UART, format 0: entries with stamps (bit 31 of the word), or all without, where each count is None."""
    stamped = all(count is not None for count, _ in some)
    return word(int(stamped) << 31, 4) + b''.join(uart_entry(data, parity_error, sub, count) for count, data in some)


WHOLE, BEGINNING, MIDDLE, LAST = 0, 1, 2, 3  # what a packet of messages has: whole ones, or a segment of a long one


def message_entry(count: int, data: bytes, sub: int = 0, errors: int = 0) -> bytes:
    """11.2.9, a message: a stamp, length, subchannel, errors (bit 31 of data, bit 30 of the format), and its bytes, even."""
    return stamp(count) + word(len(data), 2) + word(errors << 14 | sub, 2) + data + bytes(len(data) & 1)


def messages(some: Sequence[Tuple[int, bytes]], sub: int = 0, part: int = WHOLE, errors: int = 0) -> bytes:
    """11.2.9, messages, format 0: how many there are, and in bits 17 and 16 of the word what they are a part of."""
    return word(len(some) | part << 16, 4) + b''.join(message_entry(count, data, sub, errors) for count, data in some)


def discretes(states: Iterable[Tuple[int, int]], length: int = 8, by_time: int = 0, from_top: int = 0) -> bytes:
    """11.2.6, discretes, format 1: stamps, each with 32 bits of states. The word has whether they were recorded by time in place of
    on change (bit 0), whether the states stand at the top (bit 1), and how many there are (bits 7 to 3; 0 is 32)."""
    return word(by_time | from_top << 1 | (length & 31) << 3, 4) + b''.join(
        stamp(count) + word(bits, 4) for count, bits in states)


def bits_of(row: str, size: int) -> bytes:
    """11.2.2 and 11.2.5, binary digits, the first one first on the wire, through words of so many bytes; each has its first digit
    as its highest bit, and stands with its low byte first."""
    row = row.ljust(-(-len(row) // (8 * size)) * 8 * size, '0')
    return b''.join(word(int(row[at:at + 8 * size], 2), size) for at in range(0, len(row), 8 * size))


def pcm_word(throughput: int = 0, packed: int = 0, unpacked: int = 0, wide: int = 0, header: int = 1) -> bytes:
    """11.2.2, the word of PCM: the mode in bits 20 to 18, words of 32 bits (bit 21), and headers within the packet (bit 30)."""
    return word(unpacked << 18 | packed << 19 | throughput << 20 | wide << 21 | header << 30, 4)


def pcm_header(count: int, lock: int = 0xF, wide: int = 0) -> bytes:
    """11.2.2, what stands before a minor frame: a stamp, and a word of 16 or 32 bits with the lock status in bits 15 to 12."""
    return stamp(count) + word(lock << 12, 4 if wide else 2)


def pcm_frame(count: int, row: str, lock: int = 0xF, wide: int = 0) -> bytes:
    """11.2.2, a packed minor frame: its bits one after the other through words of 16 or of 32 bits."""
    return pcm_header(count, lock, wide) + bits_of(row, 4 if wide else 2)


def pcm_unpacked(count: int, values: Sequence[Tuple[int, int]], lock: int = 0xF, wide: int = 0) -> bytes:
    """11.2.2, an unpacked minor frame: each value, so many bits, in a word of its own, with the bits that fill it up before it. A
    sync pattern that is longer than a word is divided: see `halves`."""
    size = 4 if wide else 2
    return pcm_header(count, lock, wide) + b''.join(word(value & (1 << bits) - 1, size) for value, bits in values)


def halves(sync: int, bits: int) -> List[Tuple[int, int]]:
    """11.2.2, a sync pattern that is longer than a word of 16 bits: its first half, and the second one, which has the bit more
    where their number is odd."""
    rest = bits - bits // 2
    return [(sync >> rest, bits // 2), (sync & (1 << rest) - 1, rest)]


def pcm_throughput(data: bytes) -> bytes:
    """11.2.2, PCM, format 1: bits as they came, in words of 16 bits."""
    return pcm_word(throughput=1, header=0) + data


def analog_word(mode: int = 0, bits: int = 16, sub: int = 0, total: int = 1, factor: int = 0, same: int = 0) -> bytes:
    """11.2.5, a word of analog samples: packed (mode 0), or each in words of its own at their high (1) or low end (3); bits of a
    sample, the subchannel and how many there are, the power of two by which it is sampled less often, and whether this word holds
    for all of them."""
    return word(mode | (bits & 63) << 2 | sub << 8 | (total & 0xFF) << 16 | factor << 24 | same << 28, 4)


def analog_samples(values: Sequence[int], bits: int, mode: int) -> bytes:
    """11.2.5, samples bit by bit (mode 0), at the high end of words of their own (1) or at their low end (3)."""
    if mode == 0:
        return bits_of(''.join('{:0{}b}'.format(value, bits) for value in values), 2)
    wide = -(-bits // 16) * 16
    return bits_of(''.join('{:0{}b}'.format(value, bits if mode == 1 else wide).ljust(wide, '0') for value in values), 2)


def can_frame(count: int, data: bytes, identifier: int, is_long: int = 0, is_asking: int = 0, sub: int = 0,
              errors: int = 0) -> bytes:
    """11.2.17, a frame of a controller area network: its stamp, its header with the length of what follows, the word with the
    identifier, and its bytes, even."""
    mark = is_long << 31 | is_asking << 30 | identifier
    return stamp(count) + word(4 + len(data), 2) + word(errors << 14 | sub, 2) + word(mark, 4) + data + bytes(len(data) & 1)


def counted(entries: Bytes, more: int = 0) -> bytes:
    """11.2, a body whose word has how many entries there are in its low bits."""
    return word(len(entries) | more, 4) + b''.join(entries)


def ethernet_frame(count: int, frame: bytes, content: int = 0, errors: int = 0) -> bytes:
    """11.2.15, a frame of Ethernet, format 0: its stamp, then 14 bits of length, errors of length and of data, network, speed,
    content, errors of the frame and of its check sequence; and its bytes, even."""
    mark = len(frame) | (errors & 3) << 14 | 7 << 16 | 2 << 24 | content << 28 | (errors >> 2) << 30
    return stamp(count) + word(mark, 4) + frame + bytes(len(frame) & 1)


def turned(data: bytes) -> bytes:
    """11.2.10, each two bytes in the other order, as words of 16 bits with the low byte first have them."""
    return b''.join(data[at + 1:at + 2] + data[at:at + 1] for at in range(0, len(data), 2))


def video(packets: Bytes, count: Optional[int] = None, is_turned: bool = True) -> bytes:
    """11.2.10, video: packets of a transport stream of 188 bytes, each with a stamp before it (bit 30 of the word) or without, in
    words of 16 bits or byte by byte."""
    return word(int(count is not None) << 30, 4) + b''.join(
        (b'' if count is None else stamp(count)) + (turned(one) if is_turned else one) for one in packets)


# ---- buses of other kinds

def message_16pp194(count: int, words: Sequence[int], status: int = 0) -> bytes:
    """11.2.4, 16PP194 bus, format 2: a stamp, the length in bytes, the status (bit 15 transaction error, 14 reset, 13 message
    timeout, 6 status error, 3 echo error), and words of 32 bits."""
    return stamp(count) + struct.pack('<HH', 4 * len(words), status) + b''.join(word(one, 4) for one in words)


def firewire(kind: int, some: Bytes, sync: int = 0) -> bytes:
    """11.2.13, IEEE 1394, format 0: the word has the kind of body in bits 31 to 29 (0 an event of the bus, 1 a data stream, 2 what
    there is in general), the synchronization code in bits 28 to 25, and how many transactions there are."""
    return word(kind << 29 | sync << 25 | (len(some) if kind == 2 else kind), 4) + b''.join(some)


def transaction(count: int, data: bytes) -> bytes:
    """11.2.13, a transaction of IEEE 1394 in general: a stamp, a word with its length in bits 15 to 0, and its bytes, even."""
    return stamp(count) + word(len(data), 4) + data + bytes(len(data) & 1)


def physical(count: int, data: bytes, status: int = 0, speed: int = 0, overflow: int = 0) -> bytes:
    """11.2.13, IEEE 1394, format 1, of the physical layer: a stamp, a word with the status (bits 31 to 24), the speed (23 to 20),
    overflows of the transfer (19 and 18) and of the buffer (17), and the length; and its bytes, even."""
    return stamp(count) + word(len(data) | overflow << 17 | speed << 20 | status << 24, 4) + data + bytes(len(data) & 1)


def streaming(text: bytes, xml: bool = False, changed: bool = False) -> bytes:
    """11.2.7, computer-generated data, format 4: the configuration of a stream, whose word is as that of the setup record."""
    return setup(text, xml, changed)
