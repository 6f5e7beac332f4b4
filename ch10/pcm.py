"""PCM (IRIG 106-17, 11.2.2, data type 0x09, format 1): how a minor frame is made, by the setup text's P group (chapter 9), and the
frames of a packet as rows of bits.

Bits 20 to 18 of a packet's word say how its data stand: 20 throughput, 19 packed, 18 unpacked. Bit 21 is for words of 32 bits in
place of 16, bit 30 for a header before each minor frame: a stamp, and a word whose bits 15 to 12 are the lock status.

A packed frame has its bits one after the other, the first one the highest of a word, filled up to whole words. An unpacked one has
each word of the frame in a word of its own, at its low end. A sync pattern that is longer than such a word is divided in two: the
second half has the bit more where their number is odd.
"""
from __future__ import annotations

from typing import Dict, List, NamedTuple, Optional, Tuple

from .arrays import Array, numpy
from .columns import Batch

THROUGHPUT, PACKED, UNPACKED, WIDE, HEADERS = 1 << 20, 1 << 19, 1 << 18, 1 << 21, 1 << 30
MOST_BITS = 1 << 20  # of a minor frame
MOST_WORDS = 1 << 16


class Layout(NamedTuple):
    """A minor frame: its bits, those of its sync pattern, those of each of its words, of which the first follows the pattern, and
    where its number stands in it, or None; and how many of them are a major frame. .words is empty where the setup text does not
    say them."""
    bits: int
    sync: int
    words: Tuple[int, ...]
    counter: Optional['Counter'] = None
    frames: int = 1

    def is_long(self, size: int) -> bool:
        """Whether a word of the frame is longer than words of so many bytes, or the sync pattern than two of them."""
        return self.sync > 16 * size or any(bits > 8 * size for bits in self.words)

    def begins(self) -> List[int]:
        """Of each word the place of its first bit in the frame."""
        places, at = [], self.sync
        for one in self.words:
            places.append(at)
            at += one
        return places


class Counter(NamedTuple):
    """Where the number of a minor frame stands: the word, from 1 on, the first bit in it, from 1 on, and the bits; and of one frame
    its number and which one it is, from 1 on."""
    word: int
    first: int
    bits: int
    begin: int
    frame: int


def number(found: Dict[str, str], name: str, most: int) -> Optional[int]:
    """An attribute that is a whole number from 0 to this one; None where it is not there, or another."""
    said = found.get(name, '')
    return int(said) if said.isascii() and said.isdigit() and len(said) < 9 and int(said) <= most else None


def layout_of(found: Dict[str, str], link: str) -> Optional[Layout]:
    """How the minor frames of a data link are made by the attributes P-d, or None."""
    for name, value in found.items():
        if name.startswith('P-') and name.endswith('\\DLN') and value == link and link:
            return of_group(found, name[:-3])
    return None


def of_group(found: Dict[str, str], front: str) -> Optional[Layout]:
    """The same by a group of attributes, whose names begin so."""
    bits, words, sync, common = (number(found, front + one, most) for one, most in (
        ('MF2', MOST_BITS), ('MF1', MOST_WORDS), ('MF4', 64), ('F1', 64)))
    sizes: List[int] = []
    if words and sync and common:
        sizes = [common] * (words - 1)
        for name in found:
            place = name.startswith(front + 'MFW1-') and number(found, name, words - 1)
            size = place and number(found, front + 'MFW2-' + name.rpartition('-')[2], 64)
            if place and size:
                sizes[place - 1] = size
    total = (sync or 0) + sum(sizes) if sizes else None
    if bits is None and total is None or bits and total and bits != total:
        return None
    counter = counter_of(found, front)
    if counter and (counter.word > len(sizes) or counter.first - 1 + counter.bits > sizes[counter.word - 1]):
        counter = None
    return Layout(bits or total or 0, sync or 0, tuple(sizes), counter,
                  number(found, front + 'MF\\N', MOST_WORDS) or 1)


def counter_of(found: Dict[str, str], front: str) -> Optional[Counter]:
    """Where the number of a minor frame stands, by the attributes of its one counter."""
    word, first, bits, begin, frame = (number(found, front + 'IDC%d-1' % one, MOST_WORDS) for one in (1, 3, 4, 6, 7))
    return Counter(word, first or 1, bits, begin or 0, frame or 1) if word and bits else None


class Frames(NamedTuple):
    """Minor frames of a packet: a row of bits for each, its place in the body, where its header begins, and the lock status, or
    None where there are no headers."""
    rows: Array
    at: Array
    locks: Optional[Array]


def columns_of(layout: Layout, size: int) -> Tuple[List[int], int]:
    """Of an unpacked frame in words of so many bytes, which of their bits are the frame's, and how many words there are."""
    wide = 8 * size
    sync = [layout.sync] if layout.sync <= wide else [layout.sync // 2, layout.sync - layout.sync // 2]
    words = sync + list(layout.words)
    return [place for at, bits in enumerate(words, 1) for place in range(at * wide - bits, at * wide)], len(words)


def frames_of(batch: Batch, layout: Layout) -> Optional[Frames]:
    """The minor frames of the one body of a batch. None where it has no whole number of them, or they are unpacked and the words
    are not known, or longer than those of the packet."""
    word = int(batch.words[0])
    size, body = 4 if word & WIDE else 2, int(batch.ends[0])
    head = 8 + size if word & HEADERS else 0
    if word & PACKED:
        columns, many = None, -(-layout.bits // (8 * size))
    elif not layout.words or layout.is_long(size):
        return None
    else:
        columns, many = columns_of(layout, size)
    step = head + many * size
    if (body - 4) % step:
        return None
    at = numpy.arange(4, body, step)
    octets = batch.octets[at[:, None] + head + numpy.arange(many * size)]
    rows = numpy.unpackbits(numpy.ascontiguousarray(octets).view('<u%d' % size).byteswap().view(numpy.uint8), axis=1)
    return Frames(rows[:, :layout.bits] if columns is None else rows[:, columns], at,
                  batch.numbers(at + 8, 2) >> 12 if head else None)


def counts_of_frames(batch: Batch, found: Frames) -> List[int]:
    """The counts of frames: those of their headers' stamps, or else that of their packet."""
    if found.locks is None:
        return [int(batch.counters[0])] * len(found.at)
    return batch.stamps(found.at, numpy.zeros(len(found.at), int)).tolist()


def value_of(rows: Array, first: int, bits: int) -> Array:
    """The number in so many bits, 64 at most, from a place on of each row."""
    found = numpy.zeros(len(rows), numpy.uint64)
    for bit in range(first, first + bits):
        found = found << numpy.uint64(1) | rows[:, bit].astype(numpy.uint64)
    return found
