"""A setup text of chapter 9 for the channels of a script of r10, or of the settings of r10d."""
from __future__ import annotations

from argparse import Namespace
import re
import unicodedata
from typing import Dict, Iterator, List, Tuple

from .inputs import Output
from .kinds import BY_NAME, KINDS, Kind
from .standard import TIME, Data, Fault

OF_SCRIPTS = {kind.name for kind in KINDS if kind.tmats and kind.type != TIME}
MOST_CHANNELS, LOG_NAME = 64, 'RECORDER-LOG'
LINE = re.compile(r'\s*(?:"(\w+)"|(\w+))\s*=\s*(?:"([^"]*)"|([0-9][0-9_]{0,30})|([^#]*?))\s*(?:#.*)?$')


def tables_of(text: str) -> Tuple[Dict[str, object], Dict[str, List[dict]]]:
    """The keys at the top of a script, and its tables by their names."""
    try:
        import tomllib
    except ImportError:
        return by_lines(text)
    try:
        whole = tomllib.loads(text)
    except (ValueError, RecursionError) as fault:
        raise Fault('no script: %s' % str(fault).split('\n')[0])
    top = {key: value for key, value in whole.items() if not isinstance(value, list)}
    return top, {key: [table for table in value if isinstance(table, dict)] for key, value in whole.items()
                 if isinstance(value, list)}


def by_lines(text: str) -> Tuple[Dict[str, object], Dict[str, List[dict]]]:
    """The same of a script with a key on each line, for a Python without a reader of TOML."""
    top: Dict[str, object] = {}
    tables: Dict[str, List[dict]] = {}
    here = top
    for line in text.splitlines():
        head = re.match(r'\s*\[\[(\w+)\]\]\s*(#.*)?$', line)
        table = re.match(r'\s*\[(\w+)\]\s*(#.*)?$', line)
        found = LINE.match(line)
        if head:
            here = {}
            tables.setdefault(head.group(1), []).append(here)
        elif table:
            here = {}
            top[table.group(1)] = here
        elif found:
            plain, quoted, text_value, digits, rest = found.groups()
            here[plain or quoted] = int(digits.replace('_', '')) if digits else text_value if text_value is not None else rest
    return top, tables


def attributes_of(text: str) -> Iterator[Tuple[str, object]]:
    """The attributes of a setup text for a script, or for settings of r10d, which have a table `control` and may lack a time."""
    top, tables = tables_of(text)
    is_service = isinstance(top.get('control'), dict)
    if is_service:
        top.setdefault('time', 1)
    channels, volume, clock = tables.get('channel', []), top.get('volume'), top.get('time')
    if not isinstance(volume, str) or not volume or not channels or not isinstance(clock, int) or isinstance(clock, bool):
        raise Fault('no script, and no settings of r10d: it takes volume, time and tables [[channel]]')
    if any(mark in volume for mark in ';:\r\n'):
        raise Fault('the volume has a mark that a setup text cannot have in a value')
    for channel in channels:
        if not isinstance(channel.get('kind'), str) or channel['kind'] not in OF_SCRIPTS or not is_whole(channel.get('id')):
            raise Fault('no script: a channel without an id, or of no kind that r10 has')
    if is_service:
        channels = channels + log_channels(top, channels)
    yield 'G\\PN', volume
    yield 'G\\106', 17
    yield 'G\\DSI\\N', 1
    yield 'G\\DSI-1', volume
    yield 'G\\DST-1', 'STO'
    yield 'R-1\\ID', volume
    yield 'R-1\\TC1', 'SSR'
    yield 'R-1\\N', 1 + len(channels)
    yield 'R-1\\EV\\E', 'T'
    yield 'R-1\\IDX\\E', 'T'
    yield from track(1, clock, 'TIME', BY_NAME['time'])
    links, groups = [], {'B': 0, 'S': 0}
    for number, channel in enumerate(channels, 2):
        kind = BY_NAME[channel['kind']]
        name = '%s-%d' % (channel['kind'].upper(), channel['id'])
        if is_service and isinstance(channel.get('name'), str):
            name = ''.join('_' if mark in ';:' or is_control(mark) else mark for mark in channel['name'])
        yield from track(number, channel['id'], name, kind)
        group = kind.setup['group']
        if isinstance(group, str):
            yield 'R-1\\CDLN-%d' % number, name
            groups[group] += 1
            links += list(link('%s-%d' % (group, groups[group]), name, channel['id'], kind, tables))
    yield from links


def log_channels(top: Dict[str, object], channels: List[dict]) -> List[dict]:
    """The log channel that r10d adds to those of its settings, if it does: under the key `log`, or under the highest ID that is
    free."""
    log, taken = top.get('log'), {channel['id'] for channel in channels} | {top.get('time'), top.get('event', 2)}
    if log == 0 or len(channels) >= MOST_CHANNELS:
        return []
    number = log if is_whole(log) else next(number for number in range(0xFFFF, 0, -1) if number not in taken)
    return [{'id': number, 'kind': 'message', 'name': LOG_NAME}]


def is_control(mark: str) -> bool:
    """Whether a letter is one of control."""
    return unicodedata.category(mark) == 'Cc'


def is_whole(value: object) -> bool:
    """Whether a value is a whole number, and no truth."""
    return isinstance(value, int) and not isinstance(value, bool)


def buses_of(channel: int, tables: Dict[str, List[dict]]) -> List[int]:
    """The buses that a script's steps and feeds have on a channel."""
    items = [step for step in tables.get('step', []) if step.get('channel') == channel and step.get('do') == 'offer']
    for feed in tables.get('feed', []):
        if feed.get('channel') == channel and isinstance(feed.get('items'), list):
            items += [item for item in feed['items'] if isinstance(item, dict)]
    return sorted({item.get('bus', 0) for item in items if is_whole(item.get('bus', 0))}) or [0]


def track(number: int, channel: int, name: str, kind: Kind) -> Iterator[Tuple[str, object]]:
    """The attributes of a channel in group R: its number there, its ID and its name."""
    yield 'R-1\\TK1-%d' % number, channel
    yield 'R-1\\CHE-%d' % number, 'T'
    yield 'R-1\\DSI-%d' % number, name
    yield 'R-1\\CDT-%d' % number, kind.setup['data_type']
    yield 'R-1\\%s-%d' % (kind.setup['format_name'], number), kind.setup['format']


def link(group: str, name: str, channel: int, kind: Kind, tables: Dict[str, List[dict]]) -> Iterator[Tuple[str, object]]:
    """The attributes of what a channel carries: its buses, or its stream of messages."""
    yield group + '\\DLN', name
    if group.startswith('S'):
        yield group + '\\NS\\N', 1
        yield group + '\\SNA-1', name
        return
    buses = buses_of(channel, tables) if kind.has_buses else [0]
    yield group + '\\NBS\\N', len(buses)
    for place, bus in enumerate(buses, 1):
        yield '%s\\BID-%d' % (group, place), bus
        yield '%s\\BNA-%d' % (group, place), '%s-%s' % (name, bus) if kind.has_buses else name
        yield '%s\\BT-%d' % (group, place), kind.setup['bus_type']


def as_tmats(asked: Namespace, data: Data, out: Output) -> None:
    """`ch10 tmats`."""
    try:
        text = bytes(data).decode('utf-8')
    except UnicodeDecodeError:
        raise Fault('no script: it is no text')
    said = ''.join('%s:%s;\r\n' % attribute for attribute in attributes_of(text))
    out.line(said.encode().hex()) if asked.hex else out.write(said.encode())
