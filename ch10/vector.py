"""Lines of entries, many at a time, made of their columns (`ch10.columns`).

A line is a row of pieces. The lines of some entries are given their places in one array of bytes first; then each piece of all of
them is written, from left to right, but for the fronts of lines, which are written last. So a piece may be written with some bytes
too many.
"""
from __future__ import annotations

from typing import Callable, Dict, Iterator, List, Optional, Union, TYPE_CHECKING

from .arrays import Array, Foreign, numpy
from .bodies import read
from .columns import (LONGEST, NO_WORD, NONE, ROOM, Bits, Block, Changed, Coded, Each, Hexed, HexWords, Number, Numbering, Octets,
                      Printed, Ready, hex_rows, wide_view)
from .buses import changed_bits
from .doubts import quality_of
from .inputs import HELD
from .kinds import BUS
from .replay import Ordered, Part
from .standard import COUNT_BITS
from .times import DAY, Range, civil

if TYPE_CHECKING:
    from .lines import Form

EACH = 4 << 20  # bytes of packets that a part has, or more
TOGETHER = 40000  # entries whose lines are made at once
MANY = 1000  # words, from which on a table of all words is made
SECOND = 10 ** 7
LAST_DAY = 3652059  # of the calendar
LAST = (1 << 63) - 1


# ---- pieces

EVERY = slice(None)
MOST_TOGETHER = 2 * LONGEST  # bytes of a piece that is written together with others
VOIDS: Dict[int, Foreign] = {}  # types of so many bytes


def void(wide: int) -> Foreign:
    """The type of so many bytes."""
    found = VOIDS.get(wide)
    if found is None:
        found = VOIDS[wide] = numpy.dtype('V%d' % wide)
    return found


class Sheet:
    """The bytes that lines are written into."""

    def __init__(self) -> None:
        self.octets = numpy.empty(0, numpy.uint8)
        self.views: Dict[int, Array] = {}  # items of so many bytes, one from each place on

    def need(self, size: int) -> None:
        """Makes room for so many bytes."""
        if len(self.octets) < size:
            self.octets, self.views = numpy.empty(size + size // 8, numpy.uint8), {}

    def put(self, at: Array, wide: int, items: Array) -> None:
        """Puts items of a width at places."""
        view = self.views.get(wide)
        if view is None:
            view = self.views[wide] = wide_view(self.octets, wide)
        view[at] = items


class Piece:
    """What stands at one place of each line: the bytes of a source from some place on, as many as its length there or the same of
    each."""

    def __init__(self, source: Array, starts: Optional[Array], wide: int, lengths: Optional[Array] = None) -> None:
        self.source, self.wide, self.lengths = source, wide, lengths
        self.starts: Array = starts
        self.at: Array = None  # where in a sheet it is to be
        self.room: Optional[Array] = None  # and how much room there is from there on, where that may be less than .wide

    def place(self, at: Array, limit: Optional[Array]) -> Array:
        """Puts it at these places, with room up to the limit or for its own bytes alone. Answers where it ends."""
        self.at = at
        if self.lengths is None:
            return at + self.wide
        room = self.lengths if limit is None else limit - at
        self.room = room if int(room.min()) < self.wide else None
        return at + self.lengths

    def write(self, sheet: Sheet) -> None:
        """Writes it.

        Bytes after its own are written too where there is room for them: what belongs there is written later.
        """
        if self.wide > MOST_TOGETHER:
            left = self.write_long(sheet)
            wide = 0 if self.lengths is None or not len(left) else int(self.lengths[left].max())
            if not wide:
                return
        elif self.room is None:
            sheet.put(self.at, self.wide, self.items(self.wide, EVERY))
            return
        else:
            wide, left = self.wide, numpy.arange(len(self.at))
        room = numpy.full(len(self.at), wide) if self.room is None else self.room
        while True:  # each time what has room for the longest of those that are left
            fits = room[left] >= wide
            some, left = left[fits], left[~fits]
            if len(some):
                sheet.put(self.at[some], wide, self.items(wide, some))
            wide = 0 if self.lengths is None or not len(left) else int(self.lengths[left].max())
            if not wide:
                return

    def write_long(self, sheet: Sheet) -> Array:
        """Writes those that are longer than what is written together, one by one, and answers which are left."""
        lengths = numpy.full(len(self.at), self.wide) if self.lengths is None else self.lengths
        is_long = lengths > MOST_TOGETHER
        for place in numpy.flatnonzero(is_long).tolist():
            at, start, size = int(self.at[place]), int(self.starts[place]), int(lengths[place])
            sheet.octets[at:at + size] = self.source[start:start + size]
        return numpy.flatnonzero(~is_long)

    def items(self, wide: int, some: Union[Array, slice]) -> Array:
        """The bytes of some lines, as items of a width."""
        return wide_view(self.source, wide)[self.starts[some]]


class Fixed(Piece):
    """A piece of one length, a row of bytes for each line."""

    def __init__(self, rows: Array) -> None:
        Piece.__init__(self, rows.view(void(rows.shape[1]))[:, 0], None, rows.shape[1])

    def items(self, wide: int, some: Union[Array, slice]) -> Array:
        return self.source[some]


class Always(Piece):
    """A piece that is the same in each line."""

    def __init__(self, text: bytes) -> None:
        Piece.__init__(self, numpy.frombuffer(text, void(len(text))), None, len(text))

    def items(self, wide: int, some: Union[Array, slice]) -> Array:
        return self.source


class Table:
    """Texts by numbers, each made when it is first asked for."""

    def __init__(self, make: Callable[[int], bytes]) -> None:
        self.make = make
        self.rows, self.lengths, self.is_known = numpy.zeros((0, 1), numpy.uint8), numpy.zeros(0, numpy.int64), numpy.zeros(0, bool)
        self.is_whole = False

    def pieces(self, keys: Array) -> Piece:
        """The pieces of keys."""
        if not self.is_whole:
            top = int(keys.max()) + 1
            if top > len(self.is_known):
                self.widen(1 << max((top - 1).bit_length(), 6), self.rows.shape[1])
            is_known = self.is_known[keys]
            if not is_known.all():
                self.add(numpy.unique(keys[~is_known]))
        return TableRows(self, keys)

    def widen(self, number: int, wide: int) -> None:
        """Makes the table as long and as wide as that."""
        rows, lengths, is_known = self.rows, self.lengths, self.is_known
        self.rows, self.lengths = numpy.zeros((number, wide), numpy.uint8), numpy.zeros(number, numpy.int64)
        self.is_known = numpy.zeros(number, bool)
        self.rows[:len(rows), :rows.shape[1]] = rows
        self.lengths[:len(rows)], self.is_known[:len(rows)] = lengths, is_known

    def add(self, keys: Array) -> None:
        """Adds keys that are not in it."""
        texts = list(map(self.make, keys.tolist()))
        lengths = numpy.array(list(map(len, texts)), numpy.int64)
        if lengths.max() > self.rows.shape[1]:
            self.widen(len(self.is_known), int(lengths.max()))
        wide = self.rows.shape[1]
        self.rows[keys] = numpy.frombuffer(b''.join([text.ljust(wide, b'\0') for text in texts]), numpy.uint8).reshape(-1, wide)
        self.lengths[keys], self.is_known[keys] = lengths, True

    def fill(self, rows: Array, lengths: Array) -> 'Table':
        """Takes these texts, of the numbers from 0 on."""
        self.rows, self.lengths, self.is_whole = numpy.ascontiguousarray(rows), lengths.astype(numpy.int64), True
        return self


class TableRows(Piece):
    """Texts of a table."""

    def __init__(self, table: Table, keys: Array) -> None:
        lengths = table.lengths[keys]
        most = int(lengths.max())
        is_one = int(lengths.min()) == most
        Piece.__init__(self, table.rows, keys, most if is_one else table.rows.shape[1], None if is_one else lengths)

    def items(self, wide: int, some: Union[Array, slice]) -> Array:
        rows = self.source.take(self.starts[some], 0)
        return numpy.ndarray((len(rows),), void(wide), rows, 0, (rows.shape[1],))


# ---- numbers

class Decimals:
    """Numbers as decimal digits."""

    def __init__(self) -> None:
        self.four = numpy.frombuffer(b''.join(b'%04d' % value for value in range(10000)), numpy.uint32)

    def right(self, values: Array, chunks: int) -> Array:
        """Numbers below 10 ** (4 * chunks), with zeros before them."""
        rows = numpy.empty((len(values), chunks), numpy.uint32)
        for place in range(chunks - 1, 0, -1):
            above = values // 10000
            rows[:, place] = self.four[values - above * 10000]
            values = above
        rows[:, 0] = self.four[values]
        return rows.view(numpy.uint8).reshape(len(values), 4 * chunks)


def sum_of(pieces: List[Piece], number: int) -> Array:
    """How long so many rows of these pieces are."""
    length = numpy.full(number, sum(piece.wide for piece in pieces if piece.lengths is None), numpy.int64)
    for piece in pieces:
        if piece.lengths is not None:
            length += piece.lengths
    return length


def padded(octets: Array, more: int) -> Array:
    """Bytes with so many more after them, so that a piece may be read from each place."""
    return numpy.concatenate([octets, numpy.zeros(more, numpy.uint8)])


# ---- entries in order

def in_order(block: Block) -> Block:
    """The same entries by count, then channel, then place."""
    channel = block.channel
    if len(channel) and (channel == channel[0]).all() and (block.count[1:] >= block.count[:-1]).all():
        return block
    return block.keep(ranked(block.count, block.columns['number'], block.columns['order']))


def between(block: Block, low: int, high: int) -> Block:
    """Of entries in order those whose counts are low or more and below high."""
    first, last = numpy.searchsorted(block.count, (low, min(high, LAST))).tolist()
    return block if (first, last) == (0, len(block)) else block.keep(slice(first, last))


class Vector:
    """Lines of a form, part by part, of those entries that lie in a range."""

    def __init__(self, form: Form, ordered: Ordered, within: Range, has_quality: bool = False) -> None:
        self.form, self.ordered, self.within, self.has_quality = form, ordered, within, has_quality
        self.qualities: List[str] = []  # of times, by numbers
        self.joints = {kind: [part.encode() for part in shape.split('%s')] for kind, shape in form.shapes.items()}
        self.tables: Dict[tuple, Table] = {}
        self.decimals = Decimals()
        self.sheet = Sheet()
        self.texts: Optional[List[Optional[str]]] = None  # the times of a block where the clock does not tell them plainly
        self.codes: Dict[int, int] = {0: 0}  # of how many were lost; and the other way
        self.losses: List[int] = [0]
        self.numbering: Numbering = form.numbering
        clock = ordered.survey.clock
        self.starts: Array = numpy.array(clock.starts if clock else [], numpy.int64)
        self.ahead: Array = numpy.array(clock.aheads if clock else [], numpy.int64)

    def lines(self, part: Part) -> Iterator:
        """The lines of a part, some at a time."""
        if not self.is_touched(part):
            return
        groups: Dict[int, list] = {}
        for number, packet, lost, _ in self.ordered.packets(part):
            if packet.kind in self.form.shapes and packet.word is not None:
                groups.setdefault(packet.kind, []).append((number, packet, lost))
        blocks: Dict[int, Block] = {}
        for kind, packets in groups.items():
            block = between(in_order(self.block(packets)), part.low, part.high)
            if not self.within.is_all:
                block = block.keep(self.within.has_each(block.count))
            if len(block):
                blocks[kind] = block
        if not blocks:
            return
        counts = numpy.concatenate([block.count for block in blocks.values()])
        if len(counts) <= TOGETHER:
            yield self.page(blocks)
            return
        cuts = numpy.unique(numpy.partition(counts, range(TOGETHER, len(counts), TOGETHER))[TOGETHER::TOGETHER]).tolist()
        for low, high in zip([-1] + cuts, cuts + [LAST]):
            some = {kind: between(block, low, high) for kind, block in blocks.items()}
            some = {kind: block for kind, block in some.items() if len(block)}
            if some:
                yield self.page(some)

    def is_touched(self, part: Part) -> bool:
        """Whether a part may have something in the range."""
        if self.within.is_all or not len(part.numbers):
            return True
        survey = self.ordered.survey
        return self.within.touches(max(part.low, min(survey.lows[number] for number in part.numbers)),
                                   min(part.high - 1, max(survey.highs[number] for number in part.numbers)))

    def page(self, blocks: Dict[int, Block]) -> Array:
        """The lines of some entries, as one array, which holds until the next one is made."""
        made = [(block, self.front(block), self.pieces(kind, block)) for kind, block in blocks.items()]
        fronts = [sum_of(front, len(block)) for block, front, _ in made]
        lengths = [front + sum_of(pieces, len(front)) for (_, _, pieces), front in zip(made, fronts)]
        spill = min(int(some.min()) for some in fronts)
        counts, channels, order = (
            numpy.concatenate(some)
            for some in zip(*[(block.count, block.columns['number'], block.columns['order']) for block, _, _ in made]))
        ranks, lengths_of = ranked(counts, channels, order), numpy.concatenate(lengths)
        ends = numpy.empty(len(ranks), numpy.int64)
        ends[ranks] = numpy.cumsum(lengths_of[ranks])
        size = int(lengths_of.sum())
        self.sheet.need(size + spill)
        place, begins = 0, []
        for (_, _, pieces), front, length in zip(made, fronts, lengths):
            end = ends[place:place + len(length)]
            place += len(length)
            begin = end - length
            begins.append(begin)
            at, limit = begin + front, end + spill
            for piece in pieces:
                at = piece.place(at, limit)
                if piece.wide:
                    piece.write(self.sheet)
        for (_, pieces, _), at in zip(made, begins):
            for piece in pieces:
                at = piece.place(at, None)
                piece.write(self.sheet)
        out = self.sheet.octets
        return out[:size] if size >= HELD else out[:size].tobytes()

    # ---- what every line has

    def block(self, packets: List[tuple]) -> Block:
        """The entries of some packets, with their instants in place of their counts: of each packet its number, itself, and what
        was lost before it."""
        some = [packet for _, packet, _ in packets]
        states = self.ordered.states
        before = [states.get(number) for number, _, _ in packets]
        block, number = read(some, self.numbering, [NONE if state is None else state for state in before])
        first = numpy.cumsum(number) - number
        places = numpy.array([one[0] for one in packets], numpy.int64)
        order = (places << 32)[block.of] + numpy.arange(len(block)) - first[block.of]
        lost = numpy.zeros(len(block), numpy.int64)
        for place, (_, _, gone) in enumerate(packets):
            if gone and number[place]:
                if gone not in self.codes:
                    self.codes[gone] = len(self.losses)
                    self.losses.append(gone)
                lost[first[place]] = self.codes[gone]
        channel = numpy.array([packet.channel for packet in some], numpy.int64)[block.of]
        bases = numpy.array([self.ordered.base(number) for number, _, _ in packets], numpy.int64)
        if bases.any():
            block.count = block.count + bases[block.of]
        block.columns.update(order=order, lost=lost, number=channel)
        if self.has_quality:
            block.columns['flags'] = numpy.array([packet.flags for packet in some], numpy.int64)[block.of]
        return block

    def give_times(self, block: Block) -> None:
        """Gives each entry its civil time, where the clock tells them plainly: the second, and the part of it in units of 100 ns;
        and whether it has one."""
        clock = self.ordered.survey.clock
        if clock is None:
            block.columns['timed'] = numpy.zeros(len(block), bool)
            return
        low, high = int(block.count.min()), int(block.count.max())
        if not clock.is_plain(low, high):
            self.texts = [clock.text(instant) for instant in block.count.tolist()]
            block.columns['timed'] = numpy.array([text is not None for text in self.texts], bool)
            return
        self.texts = None
        first = max(int(numpy.searchsorted(self.starts, low, 'right')) - 1, 0)
        last = max(int(numpy.searchsorted(self.starts, high, 'right')) - 1, 0)
        if first == last:
            told = block.count + self.ahead[first]
        else:
            told = block.count + self.ahead[first + numpy.maximum(numpy.searchsorted(self.starts[first:last + 1], block.count,
                                                                                     'right') - 1, 0)]
        block.columns['second'] = told // SECOND
        block.columns['part'] = told - block.columns['second'] * SECOND
        block.columns['timed'] = (told >= DAY) & (told < (LAST_DAY + 1) * DAY)
        if not block.columns['timed'].all():
            self.texts = [clock.text(instant) for instant in block.count.tolist()]

    def front(self, block: Block) -> List[Piece]:
        """The pieces from a line's begin to its time."""
        form, clock = self.form, self.ordered.survey.clock
        self.give_times(block)
        fronts = self.table(('front',), lambda key: form.front(self.numbering.channels[key]).encode('utf-8', 'replace')).pieces(
            block.channel)
        count = block.count & COUNT_BITS
        least, most = len(str(int(count.min()))), len(str(int(count.max())))
        if clock and self.texts is not None:
            before = form.around(True)[0]
            return [fronts, self.decimal(count, least, most),
                    texts_piece([b'' if text is None else before + text.encode() for text in self.texts])]
        digits = self.decimals.right(count, -(-most // 4))
        columns, apart = [digits[:, digits.shape[1] - most:]], [fronts]
        if least == most and fronts.lengths is None:
            columns, apart = [fronts.source.take(fronts.starts, 0)[:, :fronts.wide]] + columns, []
        if clock:
            second, before = block.columns['second'], form.around(True)[0]
            low = int(second.min())
            if int(second.max()) - low < len(second):
                known, keys = numpy.arange(low, int(second.max()) + 1), second - low
            else:
                known, keys = numpy.unique(second, return_inverse=True)
            texts = [before + (civil(each * SECOND, clock.dated) or '').encode() + b'.' for each in known.tolist()]
            columns += [numpy.take(numpy.frombuffer(b''.join(texts), numpy.uint8).reshape(len(texts), -1), keys.reshape(-1), 0),
                        self.decimals.right(block.columns['part'], 2)[:, 1:]]
        wide = sum(column.shape[1] for column in columns)
        rows, at = numpy.empty((len(block.count), wide), numpy.uint8), 0
        for column in columns:
            rows[:, at:at + column.shape[1]] = column
            at += column.shape[1]
        if least == most:
            return apart + [Fixed(rows)]
        fewer = most - 1 - numpy.searchsorted(10 ** numpy.arange(1, most, dtype=numpy.int64), count, 'right')
        return apart + [Piece(padded(rows.reshape(-1), wide), numpy.arange(0, wide * len(rows), wide) + fewer, wide, wide - fewer)]

    def table(self, name: tuple, make: Callable[[int], bytes]) -> Table:
        """The table of this name, made once."""
        found = self.tables.get(name)
        if found is None:
            found = self.tables[name] = Table(make)
        return found

    # ---- what lines of a kind have

    def pieces(self, kind: int, block: Block) -> List[Piece]:
        """The pieces of lines from what was lost on.

        What stands between two groups of columns is put to the texts of a table where one of the two is made of such, and else by
        itself.
        """
        joints, quote, groups = self.joints[kind], self.form.quote, self.form.groups(kind, block)
        glue, last, place = [], b'', 0
        for group in groups:
            own = quote if isinstance(group, QUOTED) else b''
            glue.append(last + joints[place] + own)
            last, place = own, place + group.number
        glue.append(last + (b'' if self.has_quality else joints[place] + b'\n'))
        has_table = [True] + [isinstance(group, Coded) for group in groups] + [False]
        fronts, behind, alone = ([b''] * (len(glue) + 1) for _ in range(3))
        for at, text in enumerate(glue):
            if has_table[at]:
                behind[at] = text
            elif has_table[at + 1]:
                fronts[at + 1] = text
            else:
                alone[at] = text
        found, place = [self.lost(kind, block, behind[0])], 0
        for at, group in enumerate(groups, 1):
            if isinstance(group, Coded):
                found.append(self.coded(kind, group, place, fronts[at], behind[at]))
            else:
                found += MAKERS[type(group)](self, kind, group, place)
            if alone[at]:
                found.append(Always(alone[at]))
            place += group.number
        return found + [self.quality(block, joints[place])] if self.has_quality else found

    def quality(self, block: Block, end: bytes) -> Piece:
        """The end of each line, with how good its time is."""
        keys = numpy.maximum(numpy.searchsorted(self.starts, block.count, 'right') - 1, 0) << 3 | block.columns['flags'] >> 5 & 1
        if block.kind == BUS:
            keys |= (block.words >> 30) << 1
        some, numbers = numpy.unique(keys, return_inverse=True)
        survey = self.ordered.survey
        for place, key in enumerate(some.tolist()):
            said = quality_of(survey, int(self.starts[key >> 3]) if len(self.starts) else 0, key & 1 == 1, key >> 1 & 3)
            if said not in self.qualities:
                self.qualities.append(said)
            some[place] = self.qualities.index(said)
        return self.table(('quality', end), lambda key: self.form.ended(end, self.qualities[key]) + b'\n').pieces(
            some[numbers.reshape(-1)])

    def lost(self, kind: int, block: Block, behind: bytes) -> Piece:
        """What was lost before an entry, and what stands between that and the kind's first column."""
        def text(key: int) -> bytes:
            before, between_, front = self.form.around(key & 1 == 1)
            return (b'' if key & 1 else before) + between_ + self.form.lost_text(self.losses[key >> 1]).encode() + front + behind

        return self.table(('lost', kind), text).pieces(block.columns['lost'] << 1 | block.columns['timed'])

    def coded(self, kind: int, group: Coded, place: int, front: bytes, behind: bytes) -> Piece:
        """What numbers mean, with what stands before it and after it."""
        def text(key: int) -> bytes:
            values = group.make(key)
            return front + self.cells(kind, place, values if group.number > 1 else (values,)) + behind

        table = self.table(('coded', kind, place), text)
        if isinstance(group, HexWords) and not table.is_whole and len(group.keys) >= MANY:
            fill_words(table, text(NO_WORD), text(0), len(front) + self.cells(kind, place, ('0000',)).index(b'0000'))
        return table.pieces(group.keys)

    def cells(self, kind: int, first: int, values: tuple) -> bytes:
        """The cells of some columns of a kind, with what stands between them."""
        said = self.form.cell(kind, first, values[0]).encode('utf-8', 'replace')
        for place, value in enumerate(values[1:], first + 1):
            said += self.joints[kind][place] + self.form.cell(kind, place, value).encode('utf-8', 'replace')
        return said

    def numbers(self, kind: int, group: Number, place: int) -> List[Piece]:
        """The pieces of numbers."""
        low, high = int(group.array.min()), int(group.array.max())
        if self.form.is_truth(kind, place) or low < 0:
            return self.each(kind, Each(group.values()), place)
        return [self.decimal(group.array, len(str(low)), len(str(high)))]

    def decimal(self, values: Array, least: int, most: int) -> Piece:
        """Numbers with so many digits at least and at most."""
        digits = self.decimals.right(values, -(-most // 4))
        rows = numpy.ascontiguousarray(digits[:, digits.shape[1] - most:])
        if least == most:
            return Fixed(rows)
        fewer = most - 1 - numpy.searchsorted(10 ** numpy.arange(1, most, dtype=numpy.int64), values, 'right')
        return Piece(padded(rows.reshape(-1), most), numpy.arange(0, most * len(rows), most) + fewer, most, most - fewer)

    def hexed(self, kind: int, group: Hexed, place: int) -> List[Piece]:
        """The pieces of hex digits of one width."""
        return [Fixed(group.rows())]

    def octets(self, kind: int, group: Octets, place: int) -> List[Piece]:
        """The pieces of hex digits of bytes."""
        stretches = [(group.start, group.size)] + ([] if group.then is None else [(group.then, group.rest)])
        return [Piece(group.source, start, int(size.max()), size) for start, size in stretches]

    def each(self, kind: int, group: Each, place: int) -> List[Piece]:
        """The pieces of any values."""
        if group.number == 1:
            texts = [self.form.cell(kind, place, value).encode('utf-8', 'replace') for value in group.values()]
        else:
            texts = [self.cells(kind, place, values) for values in group.values()]
        return [texts_piece(texts)]

    def ready(self, kind: int, group: Ready, place: int) -> List[Piece]:
        """The pieces of texts as they are."""
        return [texts_piece([text.encode('utf-8', 'replace') for text in group.values()])]

    def printed(self, kind: int, group: Printed, place: int) -> List[Piece]:
        """Texts, with what has to be written otherwise written so, and in quotes where CSV wants them."""
        data, starts, sizes = group.data, group.start, group.size
        found = group.classes()
        prints = found & 8 == 0
        is_json = bool(self.form.quote)
        turned = numpy.flatnonzero(prints & (found & 5 != 0))
        lengths, source = numpy.where(prints, sizes, 0), group.batch.octets
        if len(turned):
            escapes = JSON_ESCAPES if is_json else CSV_ESCAPES
            texts = [data[start:start + size].decode('ascii').translate(escapes).encode('ascii')
                     for start, size in zip(starts[turned].tolist(), sizes[turned].tolist())]
            source = numpy.frombuffer(b''.join([data] + texts + [ROOM]), numpy.uint8)
            sizes_of = numpy.array([len(text) for text in texts], numpy.int64)
            starts = starts.copy()
            starts[turned], lengths[turned] = len(data) + numpy.cumsum(sizes_of) - sizes_of, sizes_of
        text = Piece(source, starts, int(lengths.max()), lengths)
        wraps = prints & (found & 3 != 0)
        if is_json or not wraps.any():
            return [text]
        quote = self.table(('quote',), lambda key: b'"' if key else b'').pieces
        return [quote(wraps.astype(numpy.int64)), text, quote(wraps.astype(numpy.int64))]

    def bits(self, kind: int, group: Bits, place: int) -> List[Piece]:
        """The pieces of binary digits."""
        pairs = numpy.unpackbits(group.states.astype('>u4').view(numpy.uint8).reshape(-1, 4), axis=1) + 0x30
        most = int(group.bits.max())
        starts = numpy.arange(32, 32 * len(group.states) + 1, 32) - group.bits
        return [Piece(padded(pairs.reshape(-1), 32), starts, most, None if int(group.bits.min()) == most else group.bits)]

    def changed(self, kind: int, group: Changed, place: int) -> List[Piece]:
        """The pieces of what changed."""
        return [self.changes(quarter, group.differ, group.states) for quarter in range(4)
                if (group.differ >> 8 * quarter & 0xFF).any()]

    def changes(self, quarter: int, differ: Array, states: Array) -> Piece:
        """What changed of eight discretes, after a space where one before these did."""

        def text(key: int) -> bytes:
            said = changed_bits((key >> 8 & 0xFF ^ key & 0xFF) << 8 * quarter, (key & 0xFF) << 8 * quarter, 32)
            return (b' ' if key >> 16 and said else b'') + said.encode()

        now = differ >> 8 * quarter & 0xFF
        is_first = differ & ((1 << 8 * quarter) - 1) == 0
        return self.table(('changed', quarter), text).pieces((now << 8 | states >> 8 * quarter & now) + ((1 << 16) * ~is_first))


QUOTED = Hexed, Octets, Printed, Bits, Changed  # in quotes where a form has such
MAKERS: Dict[type, Callable[..., List[Piece]]] = {
    Number: Vector.numbers, Hexed: Vector.hexed, Octets: Vector.octets, Printed: Vector.printed, Bits: Vector.bits,
    Changed: Vector.changed, Each: Vector.each, Ready: Vector.ready}
CSV_ESCAPES = {0x09: '\\t', 0x0D: '\\r', 0x0A: '\\n', 0x5C: '\\\\', 0x22: '""'}
JSON_ESCAPES = {0x09: '\\\\t', 0x0D: '\\\\r', 0x0A: '\\\\n', 0x5C: '\\\\\\\\', 0x22: '\\"'}


def fill_words(table: Table, none: bytes, zero: bytes, at: int) -> None:
    """Fills a table with the texts of all words of 16 bits, that of 0 with its digits at a place, and that of none."""
    wide = max(len(zero), len(none))
    rows = numpy.zeros((NO_WORD + 1, wide), numpy.uint8)
    rows[:NO_WORD, :len(zero)] = numpy.frombuffer(zero, numpy.uint8)
    rows[:NO_WORD, at:at + 4] = hex_rows(numpy.arange(NO_WORD), 4)
    rows[NO_WORD, :len(none)] = numpy.frombuffer(none, numpy.uint8)
    lengths = numpy.full(NO_WORD + 1, len(zero))
    lengths[NO_WORD] = len(none)
    table.fill(rows, lengths)


def texts_piece(texts: List[bytes]) -> Piece:
    """A text for each line."""
    lengths = numpy.array(list(map(len, texts)), numpy.int64)
    most = int(lengths.max())
    octets = numpy.frombuffer(b''.join(texts) + bytes(min(most, 2 * MOST_TOGETHER)), numpy.uint8)
    return Piece(octets, numpy.cumsum(lengths) - lengths, most, lengths)


def ranked(counts: Array, channels: Array, order: Array) -> Array:
    """The order of entries by count, then channel, then place."""
    ranks = numpy.argsort(counts, kind='stable')
    found = counts[ranks]
    same = found[1:] == found[:-1]
    if same.any():
        tied = numpy.zeros(len(found), bool)
        tied[1:] |= same
        tied[:-1] |= same
        places = numpy.flatnonzero(tied)
        some = ranks[places]
        ranks[places] = some[numpy.lexsort((order[some], channels[some], counts[some]))]
    return ranks
