"""The measurements of a call, by a document (`--icd`) or by the recording's own setup text, and their values in entries and in
minor frames of PCM."""
from __future__ import annotations

from argparse import Namespace
from typing import Callable, Dict, Iterator, List, Optional, Tuple, TYPE_CHECKING

from .arrays import Array, numpy
from .columns import Block, Numbering
from .inputs import Output
from .standard import Fault, Wrong
from .survey import Survey

if TYPE_CHECKING:
    from .pcm import Frames, Layout
    from .units import Measurement

MOST_SAID = 10  # measurements that are not read and are named
Values = Dict[int, float]  # by the measurements' numbers


def said(value: float) -> str:
    """A value with up to 12 digits."""
    return '%.12g' % value


def title(one: Measurement) -> str:
    """A measurement's name with its unit, as a column is called."""
    return '%s [%s]' % (one.name, one.unit) if one.unit else one.name


class Measured:
    """Some measurements: .all, by whose places in it they have their numbers."""

    def __init__(self, some: List[Measurement]) -> None:
        self.all = some
        self.by_kind: Dict[int, List[int]] = {}
        for number, one in enumerate(some):
            self.by_kind.setdefault(one.kind, []).append(number)

    def found_in(self, block: Block, numbering: Numbering) -> Iterator[Tuple[int, Array, Array]]:
        """Of each measurement of a block's kind its number, the places of the entries that have it, and its values."""
        if not len(block) or block.kind not in self.by_kind:
            return
        channels = numpy.array(numbering.channels, numpy.int64)[block.channel]
        for number in self.by_kind[block.kind]:
            has, values = self.all[number].read(block, channels)
            yield number, numpy.flatnonzero(has), values

    def by_entry(self, block: Block, numbering: Numbering) -> Dict[int, Values]:
        """The values of those entries of a block that have some, by the entries' places in it."""
        made: Dict[int, Values] = {}
        for number, at, values in self.found_in(block, numbering):
            for place, value in zip(at.tolist(), values.tolist()):
                made.setdefault(place, {})[number] = value
        return made

    def rows(self, block: Block, numbering: Numbering) -> Optional[Callable[[int], Tuple[Optional[float], ...]]]:
        """What gives the values of the measurements of a block's kind, of the entry at a place, each in its column; None where that
        kind has none."""
        numbers = self.by_kind.get(block.kind)
        if not numbers:
            return None
        found, places = self.by_entry(block, numbering), list(numbers)

        def row(place: int) -> Tuple[Optional[float], ...]:
            values = found.get(place, {})
            return tuple([float(said(values[one])) if one in values else None for one in places])

        return row

    def by_frame(self, found: Frames, layout: Layout, channel: int) -> List[Values]:
        """The values in each minor frame of a packet of PCM."""
        from .pcm import value_of  # read when it is asked for: calls without measurements begin sooner
        from .units import PCM, Piece
        made: List[Values] = [{} for _ in found.rows]
        begins, counter = layout.begins(), layout.counter
        for number in self.by_kind.get(PCM, ()):
            one = self.all[number]
            pieces = one.pieces or (Piece(one.words[0], one.low, one.size),)
            if one.channel not in (None, channel) or any(
                    piece.word > len(begins) or piece.low + piece.size > layout.words[piece.word - 1] for piece in pieces):
                continue
            raw = numpy.zeros(len(found.rows), numpy.uint64)
            for piece in pieces:
                first = begins[piece.word - 1] + layout.words[piece.word - 1] - piece.low - piece.size
                raw = raw << numpy.uint64(piece.size) | value_of(found.rows, first, piece.size)
            has = numpy.ones(len(found.rows), bool)
            if one.frames is not None and counter is not None:
                told = value_of(found.rows, begins[counter.word - 1] + counter.first - 1, counter.bits).astype(numpy.int64)
                frame = told - counter.begin + counter.frame
                has = (frame >= one.frames[0]) & ((frame - one.frames[0]) % one.frames[1] == 0)
            has, values = one.told(raw.astype(numpy.int64), has)
            for place, value in zip(numpy.flatnonzero(has).tolist(), values.tolist()):
                made[place][number] = value
        return made


def asked_for(asked: Namespace, survey: Survey, out: Output) -> Optional[Measured]:
    """The measurements that are columns of a command, or None where the call asks for none."""
    if not asked.icd and not asked.measurements:
        return None
    if asked.icd and asked.measurements:
        raise Wrong('--icd and --measurements are two ways to say the same: give one of them')
    return measured_of(asked, survey, out)


def measured_of(asked: Namespace, survey: Survey, out: Output, only: Optional[List[str]] = None) -> Measured:
    """The measurements that a call asks for: those of its document, or, where it names none, those of the setup text. Of some names
    alone, in their order, where the call has such."""
    if asked.icd:
        from .units import measurements
        some = measurements(asked.icd)
    else:
        from .setup_units import of_setup
        some, why = of_setup(survey.names)
        for line in why[:MOST_SAID]:
            out.note(line)
        if len(why) > MOST_SAID:
            out.note('%d measurements more are not read' % (len(why) - MOST_SAID))
        if not some:
            raise Fault('the setup text has no measurement that is read: --icd names a document of such')
    if only is not None:
        known = {one.name: one for one in some}
        wrong = [name for name in only if name not in known]
        if wrong:
            raise Wrong('%s has no measurement %r; it has %s' % (
                'the document' if asked.icd else 'the setup text', wrong[0][:40],
                ', '.join(sorted(known)[:10]) + (' ..' if len(known) > 10 else '')))
        some = [known[name] for name in only]
    return Measured(some)
