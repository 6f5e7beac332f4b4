"""What `ch10 export` writes of packets that are made here by IRIG 106-17, chapter 11, as other programs read it: tshark, ffprobe,
and Python's own reader of WAV. Where one is missing it is NOT TRIED; with CI set that is a failure."""
import io
import os
import pathlib
import random
import shutil
import subprocess
import tempfile
import wave
import zlib
from typing import Callable, List, Sequence, Tuple

from ch10_types import Found, run
import chapter11 as made
from chapter11 import (analog_samples, analog_word, counted, ethernet_frame, opened, packet, pcm_frame, pcm_word, secondary_header,
                       word)

TRIED: Found = (True, True)


def has(program: str) -> bool:
    """Whether a program is here; where it is not, and has to be, that is a failure."""
    found = shutil.which(program) is not None
    if not found:
        print('NOT TRIED: %s (it is not installed)' % program)
        if os.environ.get('CI'):
            raise FileNotFoundError(program)
    return found


def by_program(call: Sequence[str], data: bytes, name: str) -> str:
    """What a program prints of some bytes, as a file of this name."""
    with tempfile.TemporaryDirectory() as folder:
        path = pathlib.Path(folder, name)
        path.write_bytes(data)
        done = subprocess.run([str(path) if one == 'FILE' else one for one in call], capture_output=True, text=True)
    return done.stdout + (done.stderr if done.returncode else '')


# ---- Ethernet (11.2.15)

def udp_frame(source: int, text: bytes, check: bool = True) -> bytes:
    """An Ethernet frame with a UDP datagram, and its check sequence."""
    udp = bytes.fromhex('04d204d3') + (8 + len(text)).to_bytes(2, 'big') + bytes(2) + text
    front = bytes.fromhex('4500') + (20 + len(udp)).to_bytes(2, 'big') + bytes.fromhex('000000004011') + bytes(2)
    front += bytes((10, 0, 0, source, 10, 0, 0, 9))
    total = sum(int.from_bytes(front[at:at + 2], 'big') for at in range(0, 20, 2))
    front = front[:10] + ((total % 0xFFFF) ^ 0xFFFF).to_bytes(2, 'big') + front[12:]
    frame = bytes.fromhex('0200000000090200000000') + bytes((source,)) + b'\x08\x00' + front + udp
    frame += bytes(max(60 - len(frame), 0))
    return frame + (zlib.crc32(frame) ^ (0 if check else 1)).to_bytes(4, 'little')


FIELDS = ('frame.time_epoch', 'frame.interface_name', 'ip.src', 'udp.dstport', 'data.data', 'eth.fcs.status',
          'frame.packet_flags_crc_error')


def ethernet() -> Found:
    """Frames of two channels, of odd and even lengths, behind a secondary header too: tshark reads time, interface, addresses and
    bytes, and finds the check sequences right, but of the one that is wrong, which the recorder noted too."""
    if not has('tshark'):
        return TRIED
    second = secondary_header(bytes(8))
    setup = b'R-1\\TK1-1:22;R-1\\DSI-1:NOSE LAN;R-1\\CDT-1:ETHIN;'
    data = b''.join(opened(setup) + [
        packet(22, 0x68, 2000, counted([ethernet_frame(2000, udp_frame(1, b'abc' * 9)),
                                         ethernet_frame(2500, udp_frame(2, b'abcd' * 9 + b'!'))])),
        packet(23, 0x68, 10000, word(1, 4) + ethernet_frame(10001000, udp_frame(3, b'xy' * 20, False), 0, 8 | 1), 0, 2, second),
        packet(22, 0x68, 20001000, word(1, 4) + ethernet_frame(20001000, udp_frame(4, b'z' * 30)), 1, 0x13)])
    status, written, line = run(['export', '--as', 'pcapng'], data)
    said = by_program(['tshark', '-r', 'FILE', '-o', 'eth.check_fcs:TRUE', '-T', 'fields', '-E', 'separator=,'] + [
        it for name in FIELDS for it in ('-e', name)], written, 'flight.pcapng').splitlines()
    epoch = 1709210096  # 2024-02-29 12:34:56 UTC, at the count 1000
    one = run(['export', '--as', 'pcapng', '--channel', '23'], data)[1]
    rows = [row.replace('True', '1').split(',') for row in said]
    return (status, line, rows, one.count(b'channel 23'), one.count(b'NOSE'), written.count(b'\x0d\0\1\0\4')), (0, '', [
        ['%d.%09d' % (epoch, 100000), 'NOSE LAN', '10.0.0.1', '1235', (b'abc' * 9).hex(), '1', ''],
        ['%d.%09d' % (epoch, 150000), 'NOSE LAN', '10.0.0.2', '1235', (b'abcd' * 9 + b'!').hex(), '1', ''],
        ['%d.%09d' % (epoch + 1, 0), 'channel 23', '10.0.0.3', '1235', (b'xy' * 20).hex(), '0', '1'],
        ['%d.%09d' % (epoch + 2, 0), 'NOSE LAN', '10.0.0.4', '1235', (b'z' * 30).hex(), '1', '']], 1, 0, 2)


def ethernet_left() -> Found:
    """A packet whose frames do not fit, or of a reserved format, is left out and said; the others are written."""
    good = packet(22, 0x68, 2000, word(1, 4) + ethernet_frame(2000, udp_frame(1, b'a' * 20)))
    cut = packet(22, 0x68, 2000, word(2, 4) + ethernet_frame(2000, udp_frame(1, b'a' * 20)), 1)
    other = packet(22, 0x68, 2000, word(3 << 28 | 1, 4) + ethernet_frame(2000, udp_frame(1, b'a' * 20)), 2)
    whole = run(['export', '--as', 'pcapng'], b''.join(opened() + [good]))[1]
    found = [run(['export', '--as', 'pcapng'], b''.join(opened() + [good, one])) for one in (cut, other)]
    none = run(['export', '--as', 'ts'], b''.join(opened() + [good]))
    return (found, none), ([(1, whole, 'channel 22: 1 packet not read: less than its frames in a body'),
                            (1, whole, 'channel 22: 1 packet not read: a format that is reserved')],
                           (1, b'', 'no packet of the recording has such data'))


# ---- video (11.2.10)

def stream() -> bytes:
    """A short transport stream, made by ffmpeg; where there is none, packets with the sync byte and random bytes."""
    if shutil.which('ffmpeg'):
        done = subprocess.run(['ffmpeg', '-v', 'error', '-f', 'lavfi', '-i', 'testsrc=duration=1:size=128x96:rate=10', '-c:v',
                               'mpeg2video', '-f', 'mpegts', '-'], capture_output=True)
        if done.returncode == 0:
            return done.stdout
    draw = random.Random('stream')
    return b''.join(b'\x47' + draw.randbytes(187) for _ in range(200))


def video_packets(whole: bytes, kind: int, is_turned: bool, stamps: bool, channel: int = 21) -> List[bytes]:
    """A stream in packets of eleven of its own."""
    parts = []
    for place in range(0, len(whole), 188 * 11):
        some = [whole[at:at + 188] for at in range(place, min(place + 188 * 11, len(whole)), 188)]
        body = made.video(some, 2000 + place if stamps else None, is_turned)
        parts.append(packet(channel, kind, 2000 + place, body, place // 2068 & 0xFF, 3))
    return parts


def video() -> Found:
    """A stream in packets of three formats, its bytes turned or not, with stamps or without, comes back byte for byte, and ffprobe
    reads it."""
    whole, found = stream(), []
    for kind, is_turned, stamps in ((0x40, True, False), (0x40, True, True), (0x41, False, True), (0x42, False, False)):
        found.append(run(['export', '--as', 'ts'], b''.join(opened() + video_packets(whole, kind, is_turned, stamps))))
    said = 'mpeg2video,128,96'
    if has('ffprobe') and has('ffmpeg'):
        asked = ['ffprobe', '-v', 'error', '-select_streams', 'v', '-show_entries', 'stream=codec_name,width,height']
        said = by_program(asked + ['-of', 'csv=p=0', 'FILE'], found[1][1], 'flight.ts').split()[0].strip(',')
    return ([(status, written == whole, line) for status, written, line in found], said), ([(0, True, '')] * 4, 'mpeg2video,128,96')


def video_left() -> Found:
    """Bodies that have no transport stream are left out and said; two channels are asked about."""
    whole = stream()[:188 * 22]
    parts = video_packets(whole, 0x40, False, False)
    bad = packet(21, 0x40, 9000, word(0, 4) + bytes(188), 2)
    odd = packet(21, 0x40, 9001, word(0, 4) + whole[:187], 3)
    both = b''.join(opened() + parts + video_packets(whole, 0x40, False, False, 25))
    two, one = run(['export', '--as', 'ts'], both), run(['export', '--as', 'ts', '--channel', '25'], both)
    return (run(['export', '--as', 'ts'], b''.join(opened() + parts + [bad, odd])), two[0], two[2], one[:2]), (
        (1, whole, 'channel 21: 2 packets not read: no packets of a transport stream in a body'), 2,
        '--channel says which of 21, 25', (0, whole))


# ---- analog (11.2.5)

def samples_in(words: List[str], data: bytes) -> List[Tuple[int, ...]]:
    lines = run(['export', '--as', 'samples'] + words, data)[1].decode().splitlines()[1:]
    return [tuple(int(cell) for at, cell in enumerate(line.split(',')) if at in (1, 4, 5, 6)) for line in lines]


def analog() -> Found:
    """Samples of each mode and of several lengths, with one word for all subchannels or one for each, of which one is sampled half
    as often: count, place, subchannel and value."""
    draw, found, wanted = random.Random('analog'), [], []
    for mode in (0, 1, 3):
        for bits in (8, 12, 16, 20, 3):
            values = [draw.getrandbits(bits) for _ in range(16 * 6)]  # a whole number of words, whatever the bits
            body = analog_word(mode, bits, 0, 2, same=1) + analog_samples(values, bits, mode)
            found.append(samples_in([], b''.join(opened() + [packet(23, 0x21, 2000, body)])))
            wanted.append([(2000, place, place % 2, value) for place, value in enumerate(values)])
    body = analog_word(0, 16, 5, 2) + analog_word(0, 16, 6, 2, factor=1) + analog_samples(range(6), 16, 0)
    found.append(samples_in([], b''.join(opened() + [packet(23, 0x21, 3000, body)])))
    wanted.append([(3000, place, sub, place) for place, sub in enumerate((5, 6, 5, 5, 6, 5))])
    return found, wanted


def analog_wav() -> Found:
    """12 bits of two subchannels, 1,000 steps a second, as WAV: Python's reader has the rate, the channels and the samples."""
    values = [[(place * 37 + sub * 100) & 0xFFF for sub in range(2)] for place in range(40)]
    parts = [packet(23, 0x21, 10000 + 10000 * at, analog_word(3, 12, 0, 2, same=1) + analog_samples(
        [one for pair in values[at:at + 10] for one in pair], 12, 3), at // 10) for at in range(0, 40, 10)]
    found = []
    for more in ([], ['--signed']):
        status, written, line = run(['export', '--as', 'wav'] + more, b''.join(opened() + parts))
        with wave.open(io.BytesIO(written)) as held:
            frames = held.readframes(held.getnframes())
            found.append((status, line, held.getnchannels(), held.getframerate(), held.getsampwidth(), [
                int.from_bytes(frames[at:at + 2], 'little', signed=True) for at in range(0, len(frames), 2)]))
    flat = [one << 4 for pair in values for one in pair]
    rare = analog_word(0, 16, 0, 2) + analog_word(0, 16, 1, 2, factor=1) + analog_samples(range(6), 16, 0)
    return (found, run(['export', '--as', 'wav'], b''.join(opened() + [packet(23, 0x21, 3000, rare)]))), (
        [(0, '', 2, 1000, 2, [one - 0x8000 for one in flat]),
         (0, '', 2, 1000, 2, [one - 0x10000 * (one > 0x7FFF) for one in flat])],
        (1, b'', 'channel 23 has subchannels of different rates: --as samples'))


# ---- PCM (11.2.2)

PCM_SETUP = b'R-1\\TK1-1:20;R-1\\CDT-1:PCMIN;R-1\\CDLN-1:TLM;P-2\\DLN:OTHER;P-2\\MF2:99;P-1\\DLN:TLM;P-1\\MF2:%d;'


def pcm() -> Found:
    """Packed minor frames of both alignments, whose length the setup text says or the call, and throughput."""
    draw, found, wanted = random.Random('pcm'), [], []
    for wide in (False, True):
        for bits in (64, 72, 100):
            rows = [''.join(draw.choice('01') for _ in range(bits)) for _ in range(3)]
            body = pcm_word(packed=1, wide=wide) + b''.join(
                pcm_frame(2000 + place, row, 12 + place, wide) for place, row in enumerate(rows))
            data = [packet(20, 0x09, 2000, body, 0, 2)]
            asked = b''.join(opened(PCM_SETUP % bits) + data), b''.join(opened() + data)
            digits = [int(row.ljust(-(-bits // 8) * 8, '0'), 2).to_bytes(-(-bits // 8), 'big').hex() for row in rows]
            said = [run(['export', '--as', 'frames'] + more, one) for more, one in zip(([], ['--bits', str(bits)]), asked)]
            found.append([(status, line, [tuple(row.split(',')[at] for at in (1, 4, 5, 6))
                                          for row in written.decode().splitlines()[1:]]) for status, written, line in said])
            wanted.append([(0, '', [(str(2000 + place), 'packed', '%x' % (12 + place), row)
                                    for place, row in enumerate(digits)])] * 2)
    body = made.pcm_throughput(b'\x34\x12\x78\x56')
    found.append(run(['export', '--as', 'frames'], b''.join(opened() + [packet(20, 0x09, 2000, body)])))
    wanted.append((0, b'channel,count,time,lost,mode,lock,value\n'
                      b'20,2000,2024-02-29 12:34:56.0001000,0,throughput,,12345678\n', ''))
    return found, wanted


WORDS = b'P-1\\MF1:%d;P-1\\MF4:%d;P-1\\F1:%d;'  # words of a minor frame with its sync pattern, the bits of that, and of a word


def pcm_unpacked() -> Found:
    """Unpacked minor frames, of both alignments, with sync patterns of even and odd numbers of bits and words of several sizes: the
    frame's bits, as if they were packed; without headers too, at the packet's counter."""
    draw, found, wanted = random.Random('unpacked'), [], []
    for wide, sync, common, sizes in ((0, 24, 12, {}), (0, 25, 10, {2: 16}), (1, 24, 12, {}), (1, 32, 20, {1: 1, 3: 32}),
                                      (0, 13, 8, {}), (0, 16, 12, {2: 16})):
        bits = [sizes.get(place, common) for place in range(1, 6)]
        setup = PCM_SETUP % (sync + sum(bits)) + WORDS % (6, sync, common) + b''.join(
            b'P-1\\MFW1-%d:%d;P-1\\MFW2-%d:%d;' % (at, place, at, size) for at, (place, size) in enumerate(sizes.items(), 1))
        for header in (1, 0):
            frames = [(draw.getrandbits(sync), [draw.getrandbits(size) for size in bits]) for _ in range(3)]
            body = pcm_word(unpacked=1, wide=wide, header=header)
            for place, (pattern, values) in enumerate(frames):
                front = made.halves(pattern, sync) if sync > (32 if wide else 16) else [(pattern, sync)]
                one = made.pcm_unpacked(2000 + place, front + list(zip(values, bits)), 12 + place, wide)
                body += one if header else one[12 if wide else 10:]
            rows = ['{:0{}b}'.format(pattern, sync) + ''.join('{:0{}b}'.format(*pair) for pair in zip(values, bits))
                    for pattern, values in frames]
            status, written, line = run(['export', '--as', 'frames'], b''.join(opened(setup) + [packet(20, 0x09, 1999, body)]))
            found.append((status, line, [tuple(row.split(',')[at] for at in (1, 4, 5, 6))
                                         for row in written.decode().splitlines()[1:]]))
            wanted.append((0, '', [(str(2000 + place if header else 1999), 'unpacked', '%x' % (12 + place) if header else '',
                                    made.bits_of(row, 1).hex()) for place, row in enumerate(rows)]))
    return found, wanted


def pcm_left() -> Found:
    """Without the number of bits, with another one, unpacked without the words, in a reserved mode, by attributes that do not
    agree, or unpacked with words that are longer than those of the packet: left out, and said."""
    body = pcm_word(packed=1) + pcm_frame(2000, '1' * 64, 12, False)
    words, long = PCM_SETUP % 99 + WORDS % (4, 16, 16), PCM_SETUP % 88 + WORDS % (4, 16, 24)
    found = [run(['export', '--as', 'frames'] + more, b''.join(opened(*setup) + [packet(20, 0x09, 2000, one)]))[::2]
             for more, one, setup in (
                 ([], body, ()), (['--bits', '80'], body, ()), (['--bits', '64'], pcm_word(unpacked=1) + body[4:], ()),
                 ([], pcm_word() + body[4:], ()), ([], body, (words,)), ([], pcm_word(unpacked=1) + body[4:], (long,)))]
    return found, [(1, 'channel 20: 1 packet not read: %s' % why) for why in (
        'the setup text does not say how many bits a minor frame has: --bits', 'no whole number of minor frames of 80 bits',
        'unpacked, and the setup text does not say the words of a minor frame', 'neither throughput nor packed nor unpacked',
        'the setup text does not say how many bits a minor frame has: --bits',
        'unpacked, with words that are longer than those of the packet')]


TRIALS: List[Callable[[], Found]] = [ethernet, ethernet_left, video, video_left, analog, analog_wav, pcm, pcm_unpacked, pcm_left]
