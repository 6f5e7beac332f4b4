"""Engineering units: what measurements of a vehicle are called, where they stand in messages, and how they are scaled; from an
interface control document as CSV, or from a DBC file of a controller area network.

The columns of the CSV are named in its first line, in any order; what is empty or not there holds for all:

    name       what the measurement is called
    kind       1553, arinc, can, discrete or pcm
    channel    the channel's number
    rt, tr, sa    of 1553: the terminal, T or R, and the subaddress of the command
    label, sdi    of ARINC 429: the label in octal, and the source or destination
    id         of CAN: the identifier, in decimal or as 0x..
    word       of 1553: which data word, from 1 on; or two, as 3-4, the high one first. Of pcm: which word of a minor frame, of
               which the first follows the sync pattern
    bits       the first and the last bit, as 5-12, or one; 0 is the lowest of the word, of the data of a CAN frame (its first
               byte's), or of the discretes
    signed     1 or yes for two's complement
    scale, offset    the value is the bits' number times the one, plus the other; 1 and 0 where they are empty
    unit       what it is counted in

A DBC file has frames, `BO_ ID NAME: SIZE SENDER`, and signals in each, `SG_ NAME : BEGIN|SIZE@ORDER SIGN (SCALE,OFFSET) [..]
"UNIT"`. The order is 1 for the low byte first, and 0 for the high one, whose begin is its highest bit. Bit 31 of an identifier says
that it has 29 bits.
"""
from __future__ import annotations

import csv
import re
from typing import Callable, Dict, Iterator, List, NamedTuple, Optional, Tuple

from .arrays import Array, numpy
from .columns import Block
from .kind_1553 import NO_WORD, Words
from .kind_can import size_of
from .kind_discrete import up
from .kinds import ARINC, BUS, CAN, DISCRETE
from .standard import Facts, Wrong

PCM = 0x09
KINDS = {'1553': BUS, 'arinc': ARINC, 'can': CAN, 'discrete': DISCRETE, 'pcm': PCM}
NAMES = ('name', 'kind', 'channel', 'rt', 'tr', 'sa', 'label', 'sdi', 'id', 'word', 'bits', 'signed', 'scale', 'offset', 'unit')
MOST_BITS = {BUS: 32, ARINC: 32, CAN: 64, DISCRETE: 32, PCM: 64}


class Piece(NamedTuple):
    """Some bits of a word: the word, from 1 on, its lowest bit that is meant, and how many there are."""
    word: int
    low: int
    size: int


class Measurement(NamedTuple):
    """One measurement: its name and unit, of which messages it is, where it stands in them, and its scale."""
    name: str
    unit: str
    kind: int
    channel: Optional[int]
    keys: Dict[str, int]  # rt, tr (1: transmits), sa, label, sdi, bus, id, extended: those that a message has to have
    words: Tuple[int, ...]  # of 1553, from 1 on, the high one first
    low: int
    size: int
    is_signed: bool
    scale: float
    offset: float
    is_turned: bool = False  # of CAN: the high byte first, `low` being the highest bit as DBC counts them
    pieces: Tuple[Piece, ...] = ()  # in place of words and low: the high one first
    form: str = ''  # in place of is_signed: a binary format of chapter 9
    curve: Tuple[float, ...] = ()  # in place of scale and offset: coefficients of a polynomial, that of power 0 first
    pairs: Tuple[Tuple[float, float], ...] = ()  # or numbers and values, between which it is a line
    frames: Optional[Tuple[int, int]] = None  # of PCM: the first minor frame it is in, and the step; None: each

    def read(self, block: Block, channels: Array) -> Tuple[Array, Array]:
        """Which entries of a block of its kind, of these channels, have it, and the value of each of them."""
        has = numpy.ones(len(block), bool) if self.channel is None else channels == self.channel
        raw, there = READ[self.kind](self, block)
        return self.told(raw, has & there)

    def told(self, raw: Array, has: Array) -> Tuple[Array, Array]:
        """The same by the numbers of all entries, and which of them have it. A value that is none, or none that the pairs tell, is
        not there."""
        values = self.scaled(plain(raw[has], self.size, self.form or ('TWO' if self.is_signed else 'UNS')))
        is_one = numpy.isfinite(values)
        if is_one.all():
            return has, values
        has = has.copy()
        has[numpy.flatnonzero(has)[~is_one]] = False
        return has, values[is_one]

    def scaled(self, numbers: Array) -> Array:
        """Numbers in its unit."""
        if self.pairs:
            return numpy.interp(numbers, *zip(*self.pairs), left=numpy.nan, right=numpy.nan)
        if not self.curve:
            return numbers * self.scale + self.offset
        found = numpy.zeros(len(numbers))
        for one in reversed(self.curve):
            found = found * numbers + one
        return found


def plain(raw: Array, size: int, form: str) -> Array:
    """What so many bits are as a number, by a binary format of chapter 9."""
    if form == 'FPT':
        return raw.astype('<u%d' % (size // 8)).view('<f%d' % (size // 8)).astype(float)
    if form == 'UNS':
        return raw.astype(numpy.uint64).astype(float) if size == 64 else raw
    high, low = raw >> size - 1 & 1, raw & (1 << size - 1) - 1  # the highest bit, and those below it
    if form == 'TWO':
        return raw if size == 64 else raw - (high << size)
    if form == 'ONE':
        return raw - high * ((1 << size) - 1)
    if form == 'OFF':
        return low - (1 - high) * (1 << size - 1)
    return numpy.where(high == (form == 'SIG'), -low, low)  # SIG: 1 is a minus; SIM: 0 is


def bits_in(one: Measurement, number: Array) -> Array:
    """The bits of a measurement in numbers."""
    found = number >> one.low
    return found if one.size >= 64 else found & (1 << one.size) - 1


def joined(pieces: Tuple[Piece, ...], word: Callable[[int], Array], number: int) -> Array:
    """The numbers that some bits of words make, the high ones first."""
    found = numpy.zeros(number, numpy.int64)
    for piece in pieces:
        found = found << piece.size | word(piece.word) >> piece.low & (1 << piece.size) - 1
    return found


def read_1553(one: Measurement, block: Block) -> Tuple[Array, Array]:
    """Which messages have a measurement, and its bits in each."""
    words = Words(block)
    has = words.has.copy()
    for key, low, mask in (('rt', 11, 31), ('tr', 10, 1), ('sa', 5, 31)):
        if key in one.keys:
            has &= words.command >> low & mask == one.keys[key]
    second, first, _ = words.places
    begin = numpy.where(second == 1, 2 + (words.number > 2), 1 + (first == 1))

    def data_word(place: int) -> Array:
        nonlocal has
        at = begin + place - 1
        at = at + ((first >= begin) & (at >= first)) + ((words.places[2] >= 0) & (at >= words.places[2]))
        at = numpy.where(at < words.number, at, -1)
        found = words.word(at)
        has &= found != NO_WORD
        return found & 0xFFFF

    if one.pieces:
        return joined(one.pieces, data_word, len(block)), has
    number = numpy.zeros(len(block), numpy.int64)
    for place in one.words:
        number = number << 16 | data_word(place)
    return bits_in(one, number), has


def read_arinc(one: Measurement, block: Block) -> Tuple[Array, Array]:
    """The same of words of ARINC 429."""
    head, word = block.numbers(0, 4), block.numbers(4, 4)
    has = numpy.ones(len(block), bool)
    for key, low, mask in (('label', 0, 0xFF), ('sdi', 8, 3)):
        if key in one.keys:
            has &= word >> low & mask == one.keys[key]
    if 'bus' in one.keys:
        has &= head >> 24 == one.keys['bus']
    return (joined(one.pieces, lambda _: word, len(block)) if one.pieces else bits_in(one, word)), has


def read_can(one: Measurement, block: Block) -> Tuple[Array, Array]:
    """The same of CAN frames."""
    mark, size = block.numbers(12, 4), size_of(block)
    is_long = mark >> 31
    has = numpy.where(is_long != 0, mark & 0x1FFFFFFF, mark & 0x7FF) == one.keys['id']
    if 'extended' in one.keys:
        has &= is_long == one.keys['extended']
    octets = [numpy.where(size > at, block.numbers(16 + numpy.minimum(at, numpy.maximum(size - 1, 0)), 1), 0) for at in range(8)]
    if not one.is_turned:
        number = sum((octet << 8 * at for at, octet in enumerate(octets)), numpy.zeros(len(block), numpy.int64))
        return bits_in(one, number), has & (8 * size >= one.low + one.size)
    highest = 8 * (one.low >> 3) + 7 - (one.low & 7)  # from the first byte's highest bit on
    number = sum((octet << 8 * (7 - at) for at, octet in enumerate(octets)), numpy.zeros(len(block), numpy.int64))
    return bits_in(one._replace(low=64 - highest - one.size), number), has & (8 * size >= highest + one.size)


def read_discrete(one: Measurement, block: Block) -> Tuple[Array, Array]:
    """The same of discretes."""
    return bits_in(one, block.numbers(8, 4) >> up(block.words)), numpy.ones(len(block), bool)


READ = {BUS: read_1553, ARINC: read_arinc, CAN: read_can, DISCRETE: read_discrete}


# ---- documents

def measurements(path: str) -> List[Measurement]:
    """The measurements of a document, by their names; a Wrong says which line is none."""
    try:
        with open(path, encoding='utf-8', errors='strict', newline='') as held:
            text = held.read()
    except UnicodeError:
        with open(path, encoding='latin-1', newline='') as held:
            text = held.read()
    found = list(of_dbc(text) if re.search(r'^\s*BO_ ', text, re.M) else of_csv(text, path))
    names = [one.name for one in found]
    twice = sorted({name for name in names if names.count(name) > 1})
    if twice:
        raise Wrong('%s has two measurements of the name %s' % (path[:60], twice[0]))
    if not found:
        raise Wrong('%s has no measurement' % path[:60])
    return found


def of_csv(text: str, path: str) -> Iterator[Measurement]:
    """The measurements of a document in CSV. A Wrong where a line is none."""
    rows = csv.reader(text.lstrip('\ufeff').splitlines())
    heads = [head.strip().lower() for head in next(rows, [])]
    others = [head for head in heads if head not in NAMES]
    if others or 'name' not in heads or 'kind' not in heads or 'bits' not in heads:
        raise Wrong('%s: the first line has to name columns, name, kind and bits among them; %r is none' % (
            path[:60], (others or ['it'])[0][:20]))
    for number, row in enumerate(rows, 2):
        if not any(cell.strip() for cell in row) or row[0].startswith('#'):
            continue
        cells = dict(zip(heads, (cell.strip() for cell in row)))
        try:
            yield of_row(cells)
        except ValueError as error:
            raise Wrong('%s, line %d: %s' % (path[:60], number, error))


def whole(cells: Dict[str, str], name: str, most: int, base: int = 10) -> Optional[int]:
    """The whole number in a cell, up to a most, or None where it is empty. A ValueError where it has none."""
    said = cells.get(name, '')
    if not said:
        return None
    try:
        value = int(said, 0 if said.lower().startswith('0x') else base)
    except ValueError:
        value = -1
    if not 0 <= value <= most:
        raise ValueError('%s %r is not in 0..=%d' % (name, said[:20], most))
    return value


def span(said: str, name: str) -> Tuple[int, int]:
    """First and last number of a cell, as 5 or 5-12. A ValueError where it has none."""
    found = re.match(r'([0-9]{1,2})(?:-([0-9]{1,2}))?$', said)
    if not found:
        raise ValueError('%s %r is not as 5 or 5-12' % (name, said[:20]))
    first = int(found.group(1))
    return first, int(found.group(2) or first)


def decimal(cells: Dict[str, str], name: str, other: float) -> float:
    """The number in a cell, or another where it is empty. A ValueError where it has none."""
    try:
        value = float(cells.get(name, '') or other)
    except ValueError:
        value = float('nan')
    if not abs(value) < 1e300:
        raise ValueError('%s %r is no number' % (name, cells[name][:20]))
    return value


def of_row(cells: Dict[str, str]) -> Measurement:
    """The measurement of a row. A ValueError where it is none."""
    kind = KINDS.get(cells['kind'].lower())
    if kind is None:
        raise ValueError('the kind %r is none of %s' % (cells['kind'][:20], ', '.join(KINDS)))
    if not cells['name']:
        raise ValueError('a measurement without a name')
    low, high = span(cells['bits'], 'bits')
    words = span(cells.get('word') or '1', 'word')
    keys: Facts = {}
    if kind == BUS:
        tr = cells.get('tr', '').upper()
        if tr not in ('', 'T', 'R') or not 1 <= words[0] <= words[1] <= min(32, words[0] + 1):
            raise ValueError('tr is T or R, and a word is one of 1 to 32, or two')
        keys = {'rt': whole(cells, 'rt', 31), 'tr': {'T': 1, 'R': 0}.get(tr), 'sa': whole(cells, 'sa', 31)}
    elif kind == ARINC:
        keys = {'label': whole(cells, 'label', 255, 8), 'sdi': whole(cells, 'sdi', 3)}
    elif kind == CAN:
        keys = {'id': whole(cells, 'id', 0x1FFFFFFF)}
        if keys['id'] is None:
            raise ValueError('a measurement of CAN has an id')
    elif kind == PCM and not words[0] == words[1] >= 1:
        raise ValueError('a word of a minor frame is one, from 1 on')
    most = 16 * (words[1] - words[0] + 1) if kind == BUS else MOST_BITS[kind]
    if not low <= high < most:
        raise ValueError('bits %s are not in 0..=%d' % (cells['bits'], most - 1))
    return Measurement(cells['name'], cells.get('unit', ''), kind, whole(cells, 'channel', 65535),
                       {key: value for key, value in keys.items() if value is not None},
                       tuple(range(words[0], words[1] + 1)), low, high - low + 1,
                       cells.get('signed', '').lower() in ('1', 'yes', 'true', 'signed'),
                       decimal(cells, 'scale', 1), decimal(cells, 'offset', 0))


SIGNAL = re.compile(r'\s*SG_\s+(\w+)\s*(M|m\d+)?\s*:\s*(\d+)\|(\d+)@([01])([+-])\s*\(([^,()]+),([^,()]+)\)\s*\[[^]]*\]\s*"([^"]*)"')
FRAME = re.compile(r'\s*BO_\s+(\d+)\s+(\w+)')


def of_dbc(text: str) -> Iterator[Measurement]:
    """Signals that share bits with others by a number in the frame (m0, m1 ..) are refused: they would be read where they are
    not."""
    frame = None
    names = [found.group(1) for found in map(SIGNAL.match, text.splitlines()) if found]
    for number, line in enumerate(text.splitlines(), 1):
        head, found = FRAME.match(line), SIGNAL.match(line)
        if head:
            frame = int(head.group(1)), head.group(2)
        elif re.match(r'\s*SG_\s', line):
            if not found or frame is None:
                raise Wrong('line %d: not a signal of a frame as DBC has them' % number)
            name, multiplexed, begin, size, order, sign, scale, offset, unit = found.groups()
            if multiplexed and multiplexed != 'M':
                raise Wrong('line %d: the signal %s is there in some frames alone (%s), which is not read' % (
                    number, name[:40], multiplexed))
            if not 1 <= int(size) <= 64 or int(begin) > 63:
                raise Wrong('line %d: %s|%s is not within 64 bits' % (number, begin, size))
            name = name if names.count(name) == 1 else '%s.%s' % (frame[1], name)
            yield Measurement(name, unit, CAN, None, {'id': frame[0] & 0x1FFFFFFF, 'extended': frame[0] >> 31}, (), int(begin),
                              int(size), sign == '-', float(scale), float(offset), order == '0')
