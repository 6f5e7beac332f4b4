"""The entries as CSV and as JSON lines."""
from __future__ import annotations

from argparse import Namespace
import json
from json.encoder import encode_basestring_ascii  # type: ignore[attr-defined]
from typing import Callable, Dict, List, Optional, Sequence, Tuple

from .bodies import MEANT
from .bodies import RAW as READ_RAW
from .columns import Block, Group, Ready
from .doubts import KINDS_READ, judge
from .fields import COLUMNS, FRONT, Reader
from .inputs import Output, one_part
from .kept import surveyed
from .kinds import BY_NAME, KINDS, REAL, TEXT, TRUTH, VALUE, WHOLE, Kind
from .measured import Measured, asked_for, said, title
from .packets import UNTOLD
from .parallel import in_order, jobs_of
from .replay import Ordered, Part
from .standard import Data, Value, Wrong
from .survey import Survey, ended_fields, stretch_fields
from .times import Range
from .vector import EACH, Vector


# ---- as in the packets: the values of `r10 play`

RAW = ('channel', 'count', 'time', 'lost', 'type', 'value', 'sub', 'parity', 'format', 'data_error', 'bus', 'high', 'status', 'gap',
       'number', 'occurrence')


def csv_text(text: str) -> str:
    """A text as a cell."""
    if ',' in text or '"' in text or '\n' in text or '\r' in text:
        return '"%s"' % text.replace('"', '""')
    return text


class Csv:
    """CSV with the columns of all kinds, or of one.

    .shapes are the lines of each kind from the type on, with %s for each column; .groups gives these columns of a block, as groups,
    and .cell says a column's value as a cell.
    """

    quote = b''

    def __init__(self, reader: Reader, only: Optional[Kind] = None, measured: Optional[Measured] = None) -> None:
        self.reader, self.numbering = reader, reader.numbering
        self.columns = COLUMNS if only is None else FRONT + only.column_names
        self.measured = [] if measured is None else [
            number for kind, numbers in measured.by_kind.items() if only is None or only.type == kind for number in numbers]
        self.measured.sort()
        self.all = measured
        none = ',' * len(self.measured)
        self.shapes = {}
        for kind in KINDS:
            if only in (None, kind):
                cells = ['%s' if column in kind.column_names else '' for column in self.columns[len(FRONT):]]
                self.shapes[kind.type] = ',%s,%s' % (kind.name, ','.join(cells)) + ('%s' if self.has_measured(kind.type) else none)

    def has_measured(self, kind: int) -> bool:
        """Whether lines of a kind have measurements."""
        return self.all is not None and kind in self.all.by_kind

    def measurements(self, kind: int, block: Block) -> List[Group]:
        """The group of all measurements of a block, which is at the end; none where there are none."""
        if self.all is None or not self.has_measured(kind):
            return []
        found = self.all.by_entry(block, self.numbering)
        texts = [self.measured_text({})] * len(block)
        for place, values in found.items():
            texts[place] = self.measured_text(values)
        return [Ready(texts)]

    def measured_text(self, values: Dict[int, float]) -> str:
        """The cells of an entry's measurements, each after its comma."""
        return ''.join(',' + said(values[number]) if number in values else ',' for number in self.measured)

    def title(self) -> Optional[str]:
        """The first line, or None."""
        more = [] if self.all is None else [csv_text(title(self.all.all[number])) for number in self.measured]
        return ','.join([*self.columns, *more])

    def front(self, channel: int) -> str:
        """What stands before the count in lines of a channel."""
        return '%d,%s,' % (channel, csv_text(self.reader.names.channel(channel)))

    def groups(self, kind: int, block: Block) -> List[Group]:
        """The columns of a block, as groups."""
        groups = MEANT[kind](block, self.reader)
        if self.columns is COLUMNS and BY_TYPE[kind].is_later:
            names = iter(BY_TYPE[kind].column_names)
            groups = [group for group in groups if [next(names) in COLUMNS for _ in range(group.number)][0]]
        return groups + self.measurements(kind, block)

    def cell(self, _kind: int, _place: int, value: Value) -> str:
        """A value as a cell."""
        return '' if value is None else csv_text(value) if value.__class__ is str else str(value)

    @staticmethod
    def is_truth(_kind: int, _place: int) -> bool:
        """Whether a column of whole numbers is said by words."""
        return False

    @staticmethod
    def around(_has_times: bool) -> Tuple[bytes, bytes, bytes]:
        """What stands before the time, between it and what was lost, and after that."""
        return b',', b',', b''

    @staticmethod
    def lost_text(lost: int) -> str:
        """How many messages were lost, as a cell."""
        return '1+' if lost == UNTOLD else str(lost)

    @staticmethod
    def ended(end: bytes, quality: str) -> bytes:
        """The end of a line, with how good its time is before it."""
        return b'%s,%s' % (end, quality.encode())


class RawCsv(Csv):
    """CSV with the values as they stand in the packets."""

    def __init__(self, reader: Reader) -> None:
        self.reader, self.numbering, self.columns, self.shapes = reader, reader.numbering, RAW, {}
        self.all, self.measured = None, []
        self.keys: Dict[int, List[str]] = {}
        for kind in KINDS:
            names = {'value' if form == VALUE else key: key for key, form in kind.keys}
            self.keys[kind.type] = [names[column] for column in RAW[5:] if column in names]
            self.shapes[kind.type] = ',%s,%s' % (kind.name, ','.join('%s' if column in names else '' for column in RAW[5:]))

    def front(self, channel: int) -> str:
        return '%d,' % channel

    def groups(self, kind: int, block: Block) -> List[Group]:
        found = READ_RAW[kind](block)
        return [found[key] for key in self.keys[kind]]


class Json(Csv):
    """JSON lines with the columns of each kind."""

    quote = b'"'

    def __init__(self, reader: Reader, only: Optional[Kind] = None, measured: Optional[Measured] = None) -> None:
        self.reader, self.numbering, self.columns, self.shapes = reader, reader.numbering, (), {}
        self.forms: Dict[int, List[str]] = {}
        self.all, self.measured = measured, []
        for kind in KINDS:
            if only in (None, kind):
                self.shape(kind, kind.columns)
                if self.has_measured(kind.type):
                    self.shapes[kind.type] = self.shapes[kind.type][:-1] + '%s}'

    def measured_text(self, values: Dict[int, float]) -> str:
        names = [] if self.all is None else self.all.all
        return ''.join(', %s: %s' % (json.dumps(names[number].name), said(values[number])) for number in sorted(values))

    def shape(self, kind: Kind, columns: Sequence[Tuple[str, str]]) -> None:
        """Makes the line of a kind with these columns."""
        self.shapes[kind.type] = '"type": "%s", %s}' % (kind.name, ', '.join('"%s": %%s' % column for column, _ in columns))
        self.forms[kind.type] = [form for _, form in columns]

    def title(self) -> Optional[str]:
        return None

    def front(self, channel: int) -> str:
        return '{"channel": %d, "name": %s, "count": ' % (channel, json.dumps(self.reader.names.channel(channel) or None))

    def cell(self, kind: int, place: int, value: Value) -> str:
        return 'null' if value is None else CELLS[self.forms[kind][place]](value)

    def is_truth(self, kind: int, place: int) -> bool:  # type: ignore[override]
        return self.forms[kind][place] == TRUTH

    @staticmethod
    def around(has_times: bool) -> Tuple[bytes, bytes, bytes]:
        return (b', "time": "', b'", "lost": ', b', ') if has_times else (b', "time": null', b', "lost": ', b', ')

    @staticmethod
    def lost_text(lost: int) -> str:
        return '"1+"' if lost == UNTOLD else str(lost)

    @staticmethod
    def ended(end: bytes, quality: str) -> bytes:
        return b'%s, "quality": "%s"}' % (end[:-1], quality.encode())


class RawJson(Json):
    """JSON lines with the values as they stand in the packets."""

    def __init__(self, reader: Reader) -> None:
        self.reader, self.numbering, self.shapes, self.forms = reader, reader.numbering, {}, {}
        self.all, self.measured = None, []
        for kind in KINDS:
            self.shape(kind, kind.keys)

    def front(self, channel: int) -> str:
        return '{"channel": %d, "count": ' % channel

    def groups(self, kind: int, block: Block) -> List[Group]:
        found = READ_RAW[kind](block)
        return [found[key] for key, _ in BY_TYPE[kind].keys]


TRUTHS_TEXT = ('false', 'true')
CELLS: Dict[str, Callable] = {WHOLE: str, REAL: str, TRUTH: TRUTHS_TEXT.__getitem__, TEXT: encode_basestring_ascii,
                              VALUE: encode_basestring_ascii}
BY_TYPE = {kind.type: kind for kind in KINDS}

Form = Csv  # or one of those above


def form_of(asked: Namespace, survey: Survey, is_json: bool, out: Output) -> Form:
    """What the lines look like that a call asks for."""
    only = BY_NAME[asked.kind] if asked.kind else None
    reader = Reader(survey.names, asked.turned_labels)
    measured = asked_for(asked, survey, out)
    if asked.raw:
        if measured is not None:
            raise Wrong('with --raw there are no measurements')
        return RawJson(reader) if is_json else RawCsv(reader)
    return Json(reader, only, measured) if is_json else Csv(reader, only, measured)


def in_range(asked: Namespace, data: Data, begin: int, end: int) -> Tuple[Survey, Range, Ordered, List[Part]]:
    """What is known of a recording, and the parts that may have entries in the range that a call asks for. What an index has of
    these packets is compared with them: where it does not agree the recording is walked."""
    survey = surveyed(asked, data, begin, end)
    for is_walked in (False, True):
        if not len(survey.lows):
            survey.judge()
        within, ordered = Range(asked.first, asked.last, survey.clock), Ordered(data, begin, survey, asked.channel)
        parts = ordered.parts(EACH, within)
        if is_walked or survey.agrees(data, begin, (number for part in parts for number in part.numbers)):
            break
        survey = surveyed(asked, data, begin, end, True)
    return survey, within, ordered, parts


def written(asked: Namespace, data: Data, out: Output, is_json: bool) -> Tuple[Survey, int]:
    """Writes the lines that a call asks for."""
    _, begin, end = one_part(data, asked.file)
    survey, within, ordered, parts = in_range(asked, data, begin, end)
    form = form_of(asked, survey, is_json, out)
    title_line = form.title()
    if title_line and not getattr(asked, 'goes_on', False):
        out.line(title_line + (',quality' if asked.quality else ''))
    jobs = jobs_of(asked.jobs, end - begin)
    many = Vector(form, ordered, within, asked.quality)
    in_order(many.lines, parts, out, jobs)
    return survey, end - begin


def as_csv(asked: Namespace, data: Data, out: Output) -> None:
    """`ch10 csv`. What is wrong with the recording is raised when its lines are written."""
    survey, _ = written(asked, data, out, False)
    judge(survey, out, KINDS_READ, asked.channel, BY_NAME[asked.kind].type if asked.kind else None)


def as_json(asked: Namespace, data: Data, out: Output) -> None:
    """`ch10 json`, likewise."""
    survey, size = written(asked, data, out, True)
    for stretch in survey.damage:
        out.line(json.dumps(stretch_fields(stretch)))
    if survey.ends_early():
        out.line(json.dumps(ended_fields(survey, size)))
    judge(survey, out, KINDS_READ, asked.channel, BY_NAME[asked.kind].type if asked.kind else None)
