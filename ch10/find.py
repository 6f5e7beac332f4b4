"""`ch10 catalogue find` and `show`: questions to a catalogue."""
from __future__ import annotations

import json
import re
from typing import Dict, Iterable, List, Optional, Sequence, Tuple

from .column_files import files_of
from .inputs import Output, printable, unread_text
from .standard import Facts, Fault, Value, Words, Wrong
from .range_words import Moment
from .store import Store, open_store
from .store_schema import CASE, CHANNEL_COLUMNS, RECORDING_COLUMNS

PLACE_COLUMNS = ('path', 'file_number', 'volume', 'file_name', 'closed', 'listed_size', 'seen')
DAMAGE_COLUMNS = ('byte_offset', 'byte_length', 'reason')
LAST = '\U0010ffff'  # which sorts after all letters
TOGETHER = 500  # recordings whose places are asked for in one question
MANY = 3000  # channel rows from which on SQLite looks for one of each recording, in place of all of them


# ---- conditions

def pattern(word: str) -> str:
    """A pattern with * and ? as LIKE has it."""
    return re.sub(r'[%_!]', lambda found: '!' + found[0], word).replace('*', '%').replace('?', '_')


class Question:
    """What a call asks for, as conditions on recordings and on their channels, with the values that go into them."""

    def __init__(self, asked: Words) -> None:
        self.channel: List[Tuple[str, List[Value]]] = []
        self.recording: List[Tuple[str, List[Value]]] = []
        if asked.channel:
            self.one_of(self.channel, 'c.channel', asked.channel)
        if asked.type:
            self.one_of(self.channel, 'c.type', asked.type)
        self.leading = list(self.channel)  # an index begins with one of these, and has the recording after it
        self.is_named, self.is_rare = bool(asked.name), bool(asked.losses or asked.jumps)  # an index has rare rows alone
        if asked.name:
            self.like(self.channel, 'c.lower_name', asked.name)
        if asked.losses:
            self.channel.append(('c.losses > 0 AND c.losses >= ?', [asked.losses]))  # an index has those above 0
        if asked.jumps:
            self.channel.append(('c.jumps > 0 AND c.jumps >= ?', [asked.jumps]))
        times = self.channel if self.channel else self.recording
        self.within(times, 'c' if self.channel else 'r', asked.first, asked.last)
        if asked.verdict:
            self.one_of(self.recording, 'r.verdict', asked.verdict)
        if asked.damaged:
            self.recording.append(('r.damaged > 0', []))
        if asked.sum:
            self.recording.append(('r.sha256 BETWEEN ? AND ?', [asked.sum, asked.sum + 'g']))
        if asked.volume or asked.place:
            places: List[Tuple[str, List[Value]]] = []
            if asked.volume:
                self.one_of(places, 'p.volume', asked.volume)
            if asked.place:
                self.like(places, 'lower(p.path)', asked.place)
            self.recording.append(('r.id IN (SELECT p.recording FROM place p WHERE %s)' % joined(places), values_of(places)))
        for code, value in asked.attribute or ():
            self.recording.append((
                'r.id IN (SELECT a.recording FROM attribute a WHERE a.code = ? AND substr(a.value, 1, 100) = ? AND a.value = ?)',
                [code, value[:100], value]))

    def conditions(self, store: Store) -> Tuple[str, List[Value]]:
        """All conditions as one on recordings, and its values."""
        every = list(self.recording)
        if self.channel:
            text, values = joined(self.channel), values_of(self.channel)
            form = 'r.id IN (SELECT c.recording FROM channel c WHERE %s)'
            if store.engine == 'sqlite':  # which has no statistics that say what follows; PostgreSQL has them
                if self.is_rare:
                    text = text.replace('c.lower_name', '+c.lower_name')  # by another index than that of names
                elif self.is_named:
                    text = text.replace('c.type', '+c.type')
                elif self.leading and self.has_many(store):
                    form = 'EXISTS (SELECT 1 FROM channel c WHERE c.recording = r.id AND %s)'
            every.append((form % text, values))
        return joined(every), values_of(every)

    def has_many(self, store: Store) -> bool:
        """Whether very many channel rows have the channel or type that is asked for."""
        text = 'SELECT count(*) FROM (SELECT 1 FROM channel c WHERE %s LIMIT %d) some' % (joined(self.leading), MANY)
        return store.rows(text, values_of(self.leading))[0][0] == MANY

    @staticmethod
    def one_of(conditions: List, column: str, words: Sequence[Value]) -> None:
        """Adds that a column has one of some values."""
        conditions.append(('%s IN (%s)' % (column, ', '.join('?' * len(words))), list(words)))

    @staticmethod
    def like(conditions: List, column: str, word: str) -> None:
        """Adds that a column is like a pattern with * and ?, whatever the case."""
        word = word.translate(CASE)
        front = re.split(r'[*?]', word, 1)[0]
        if front == word:
            conditions.append(('%s = ?' % column, [front]))
            return
        if front:  # which an index finds
            conditions.append(('%s BETWEEN ? AND ?' % column, [front, front + LAST]))
        if word != front + '*':
            conditions.append(("%s LIKE ? ESCAPE '!'" % column, [pattern(word)]))

    @staticmethod
    def within(conditions: List, of: str, first: Optional[Moment], last: Optional[Moment]) -> None:
        """Those that have some of a range of times, both ends taken in."""
        if first and last and first.dated != last.dated:
            raise Wrong('--from and --to are of two kinds: one has a date, the other a day of the year')
        one = first or last
        if one:
            conditions.append(('length(%s.first_time) = ?' % of, [27 if one.dated else 20]))
        if first:
            conditions.append(('%s.last_time >= ?' % of, [first.first]))
        if last:
            conditions.append(('%s.first_time <= ?' % of, [last.last]))


def joined(conditions: Sequence[Tuple[str, List[Value]]]) -> str:
    """Conditions as text that all have to hold."""
    return ' AND '.join(text for text, _ in conditions) or '1 = 1'


def values_of(conditions: Sequence[Tuple[str, List[Value]]]) -> List[Value]:
    """The values that go into conditions, in their order."""
    return [value for _, values in conditions for value in values]


# ---- answers

RECORDING = ('id',) + RECORDING_COLUMNS
IN_TABLE = ('id', 'sha256', 'size', 'verdict', 'opaque', 'fault_offset', 'fault', 'first_time', 'last_time', 'entries', 'losses',
            'lost', 'untold', 'damaged')
PLACE_IN_TABLE = ('path', 'file_number', 'file_name')
ORDER = 'r.first_time IS NULL, r.first_time, r.sha256'


def found(store: Store, question: Question, limit: Optional[int], is_whole: bool) -> List[Facts]:
    """The recordings that a question asks for, by their first time and then their sum, each with its places; whole, or what a table
    shows of them."""
    columns, of_place = (RECORDING, PLACE_COLUMNS) if is_whole else (IN_TABLE, PLACE_IN_TABLE)
    text, values = question.conditions(store)
    asked = 'SELECT %s FROM recording r WHERE %s' % (', '.join('r.' + name for name in columns), text)
    if limit is not None:
        asked += ' ORDER BY %s LIMIT %d' % (ORDER, limit)
    rows = store.rows('SELECT r.*, %s FROM (%s) r LEFT JOIN place p ON p.recording = r.id ORDER BY %s, p.path, p.file_number' % (
        ', '.join('p.' + name for name in of_place), asked, ORDER), values)
    made: List[Facts] = []
    width, last = len(columns), None
    for row in rows:
        if row[0] != last:
            last = row[0]
            facts = dict(zip(columns, row))
            facts['places'] = places = []
            made.append(facts)
        if row[width] is not None:
            place = dict(zip(of_place, row[width:]))
            if is_whole and place['closed'] is not None:
                place['closed'] = bool(place['closed'])
            places.append(place)
    return made


def of_recordings(store: Store, table_name: str, columns: Sequence[str], order: str, ids: Sequence[int], more: str = '',
                  values: Sequence[Value] = ()) -> Iterable[Tuple]:
    """The rows of a table that belong to some recordings, with the recording's id before them."""
    for at in range(0, len(ids), TOGETHER):
        some = list(ids[at:at + TOGETHER])
        yield from store.rows('SELECT recording, %s FROM %s c WHERE recording IN (%s)%s ORDER BY recording, %s' % (
            ', '.join(columns), table_name, ', '.join('?' * len(some)), more, order), some + list(values))


def channels_of(store: Store, question: Question, ids: Sequence[int]) -> Dict[int, List[Facts]]:
    """Of each recording the channels that the question asks for; all where it asks for none."""
    more = ' AND ' + joined(question.channel) if question.channel else ''
    made: Dict[int, List[Facts]] = {}
    for row in of_recordings(store, 'channel', CHANNEL_COLUMNS, 'channel, data_type', ids, more, values_of(question.channel)):
        made.setdefault(row[0], []).append(dict(zip(CHANNEL_COLUMNS, row[1:])))
    return made


def aligned(rows: Sequence[Sequence[Value]], left: Sequence[str]) -> List[str]:
    """Rows in columns: those of times and those whose heads are named to the left, all others to the right."""
    columns = []
    for cells in zip(*rows):
        texts = list(map(str, cells))
        width = max(map(len, texts))
        columns.append([text.ljust(width) for text in texts] if texts[0] in left or texts[0].endswith('time')
                       else [text.rjust(width) for text in texts])
    return [' '.join(row).rstrip() for row in zip(*columns)]


def verdict_text(facts: Facts) -> str:
    """A verdict with its place, or with how many packets are opaque."""
    if facts['verdict'] == 'lenient':
        return 'lenient %d%s' % (facts['opaque'], ', damaged' if facts.get('damaged') else '')
    if facts['verdict'] == 'faulty':
        return 'faulty %d %s' % (facts['fault_offset'], facts['fault'])
    return facts['verdict']


def lost_text(facts: Facts) -> str:
    """How many messages were lost; with + where not all losses say."""
    return '%d%s' % (facts['lost'], '+' if facts['untold'] else '')


def cut(time: Optional[str]) -> str:
    """A time as the table shows it: two places after the second."""
    return time[:-5] if time else '-'


def place_text(facts: Facts) -> str:
    """The first place of a recording, and how many more it has."""
    if not facts['places']:
        return '-'
    place = facts['places'][0]
    text = place['path'] if place['file_number'] < 0 else '%s file %d %s' % (place['path'], place['file_number'],
                                                                             place['file_name'])
    more = len(facts['places']) - 1
    return printable(text) + (' and %d more' % more if more else '')


def as_json(facts: Facts) -> str:
    """A recording as JSON, without its id."""
    return json.dumps({name: value for name, value in facts.items() if name != 'id'})


def find(asked: Words, data: None, out: Output) -> None:
    """`ch10 catalogue find`."""
    question = Question(asked)
    store = open_store(asked.db, make=False)
    try:
        with store.snapshot():
            made = found(store, question, asked.limit, asked.json)
            channels = channels_of(store, question, [facts['id'] for facts in made]) if asked.channels else {}
    finally:
        store.close()
    if asked.json:
        for facts in made:
            if asked.channels:
                facts['channels'] = channels.get(facts['id'], [])
            out.line(as_json(facts))
        return
    for line in channel_table(made, channels) if asked.channels else recording_table(made):
        out.line(line)


def recording_table(made: Sequence[Facts]) -> List[str]:
    """The lines of a table of recordings."""
    rows: List[Tuple] = [('sum', 'bytes', 'verdict', 'first time', 'last time', 'entries', 'losses', 'lost', 'damaged', 'place')]
    for facts in made:
        rows.append((facts['sha256'][:12], facts['size'], verdict_text(facts), cut(facts['first_time']), cut(facts['last_time']),
                     facts['entries'],
                     facts['losses'], lost_text(facts), facts['damaged'], place_text(facts)))
    return aligned(rows, ('sum', 'verdict', 'place'))


CHANNEL_HEADS = ('channel', 'type', 'name', 'first time', 'last time', 'packets', 'entries', 'bytes', 'entries/s', 'losses', 'lost',
                 'jumps', 'opaque', 'bad')


def channel_cells(row: Facts) -> Tuple:
    """The cells of a channel, in the order of CHANNEL_HEADS."""
    return (row['channel'], row['type'], printable(row['name'] or '-'), cut(row['first_time']), cut(row['last_time']),
            row['packets'],
            '-' if row['entries'] is None else row['entries'], row['bytes'], '-' if row['rate'] is None else '%.1f' % row['rate'],
            row['losses'],
            lost_text(row), row['jumps'], row['opaque'], row['bad'])


def channel_table(made: Sequence[Facts], channels: Dict[int, List[Facts]]) -> List[str]:
    """The lines of a table of channels, with the sums of their recordings."""
    rows: List[Tuple] = [('sum',) + CHANNEL_HEADS + ('place',)]
    for facts in made:
        rows += [(facts['sha256'][:12],) + channel_cells(row) + (place_text(facts),) for row in channels.get(facts['id'], [])]
    return aligned(rows, ('sum', 'type', 'name', 'place'))


# ---- one recording

def one(store: Store, front: str) -> Facts:
    """The recording whose sum begins so."""
    if not re.fullmatch('[0-9a-f]{4,64}', front):
        raise Wrong('%r is no sum: 4 to 64 hex digits of its front' % front[:70])
    made = [dict(zip(RECORDING, row)) for row in store.rows(
        'SELECT %s FROM recording r WHERE r.sha256 BETWEEN ? AND ? ORDER BY r.sha256 LIMIT 2'
        % ', '.join('r.' + name for name in RECORDING), (front, front + 'g'))]
    if len(made) != 1:
        raise Fault('%s recording has a sum that begins with %s' % ('no' if not made else 'more than one', front))
    return made[0]


PARTS = (('place', PLACE_COLUMNS, 'path, file_number'), ('channel', CHANNEL_COLUMNS, 'channel, data_type'),
         ('damage', DAMAGE_COLUMNS, 'byte_offset'),
         ('unread', ('channel', 'data_type', 'packets', 'why'), 'channel, data_type, why'),
         ('remark', ('number', 'remark'), 'number'),
         ('attribute', ('code', 'value'), 'code'))


def show(asked: Words, data: None, out: Output) -> None:
    """`ch10 catalogue show`."""
    store = open_store(asked.db, make=False)
    try:
        with store.snapshot():
            facts = one(store, asked.sum.lower())
            number = facts.pop('id')
            parts = {}
            for name, columns, order in PARTS:
                parts[name] = [dict(zip(columns, row[1:])) for row in of_recordings(store, name, columns, order, [number])]
            files = list(files_of(store, number))
    finally:
        store.close()
    for place in parts['place']:
        place['closed'] = None if place['closed'] is None else bool(place['closed'])
    if asked.json:
        out.line(json.dumps(dict(row='recording', **facts)))
        for name, rows in parts.items():
            for row in rows:
                out.line(json.dumps(dict(row=name, sha256=facts['sha256'], **row)))
        for one_file in files:
            out.line(json.dumps(dict(row='columns', sha256=facts['sha256'], **one_file._asdict(), state=one_file.state(False))))
        return
    for line in shown_one(facts, parts, [one_file.text() for one_file in files]):
        out.line(line)


def shown_one(facts: Facts, parts: Dict[str, List[Facts]], files: Sequence[str]) -> List[str]:
    """All that is kept of a recording, as lines; those of its files of columns as they are."""
    lines = ['%s %s: %d bytes in %d packets, %s' % (facts['kind'], facts['sha256'], facts['size'], facts['packets'],
                                                    verdict_text(facts))]
    lines.append('judged by %s; added %s UTC' % (facts['judge'] or 'no program', facts['added']))
    if facts['first_time']:
        lines.append('from %s to %s' % (facts['first_time'], facts['last_time']))
    for place in parts['place']:
        text = place['path'] if place['file_number'] < 0 else '%s file %d %s of volume %s, %s' % (
            place['path'], place['file_number'], place['file_name'], place['volume'], 'closed' if place['closed'] else 'not closed')
        lines.append('at %s' % printable(text))
    if not parts['place']:
        lines.append('at no place: what lay there has been replaced')
    lines += list(files) + [printable(row['remark']) for row in parts['remark']]
    types = {(row['channel'], row['data_type']): row['type'] for row in parts['channel']}
    lines += [unread_text(row['channel'], types[row['channel'], row['data_type']], row['packets'], row['why'])
              for row in parts['unread']]
    if parts['channel']:
        lines += [''] + aligned([CHANNEL_HEADS] + [channel_cells(row) for row in parts['channel']], ('type', 'name'))
    if parts['damage']:
        rows: List[Tuple] = [('damaged from byte', 'bytes', 'why')] + [tuple(row[name] for name in DAMAGE_COLUMNS)
                                                                       for row in parts['damage']]
        lines += [''] + aligned(rows, ('why',))
    if parts['attribute']:
        lines += [''] + ['%s:%s' % (printable(row['code']), printable(row['value'])) for row in parts['attribute']]
    return lines
