"""Chapter 9: the setup text (TMATS), its attributes, and the names that it gives to channels and buses."""
from __future__ import annotations

import re
from collections import OrderedDict
from typing import Dict, Iterator, List, Optional, Tuple

from .data_types import FIBRE, family_of

MOST_NAME = 40
ATTRIBUTE = re.compile(r'[A-Z](-[0-9]+)?\\[^\s;:]+$').match
TRACK = re.compile(r'(R-[0-9]+)\\TK1-([0-9]+)$').match
LINK = re.compile(r'(B-[0-9]+)\\DLN$').match

# The channel data types of the recorder attributes, and the families of data types of packets that they are.
FAMILY = {'TIMEIN': 'time', 'PCMIN': 'pcm', '1553IN': '1553', 'ANAIN': 'analog', 'DISIN': 'discrete', 'MSGIN': 'message',
          '429IN': 'arinc', 'VIDIN': 'video', 'IMGIN': 'image', 'UARTIN': 'uart', '1394IN': '1394', 'PARIN': 'parallel',
          'ETHIN': 'ethernet', 'TSPIN': 'tspi', 'CANIN': 'can', 'FBCHIN': FIBRE}


def attributes(data: bytes) -> 'OrderedDict[str, str]':
    """Each attribute of a setup text with its value: `NAME:VALUE;`, names in capitals. A text without any is none of chapter 9."""
    found = OrderedDict()
    for part in data.decode('latin-1').replace('\r', '').split(';'):
        name, colon, value = part.partition(':')
        name = name.strip().upper()
        if colon and ATTRIBUTE(name):
            found[name] = ' '.join(value.split())
    return found


def printable(text: str) -> str:
    """A text with a question mark for what does not print, as far as a name goes."""
    return ''.join(letter if letter.isprintable() else '?' for letter in text)[:MOST_NAME]


class Names:
    """What a setup text says of the channels of a recording."""

    def __init__(self, data: Optional[bytes]) -> None:
        self.attributes = attributes(data) if data else OrderedDict()
        self.channels: Dict[int, Tuple[str, str, str]] = {}  # by channel ID: name, channel data type, data link
        self.buses: Dict[str, Dict[int, str]] = {}  # of each data link the names of its buses by their numbers
        for name, value in self.attributes.items():
            track = '\\TK1-' in name and TRACK(name)
            if track and value.isascii() and value.isdigit() and len(value) <= 5:
                group, number = track.groups()
                name_of, kind, link_of = (printable(self.attributes.get('%s\\%s-%s' % (group, key, number), ''))
                                          for key in ('DSI', 'CDT', 'CDLN'))
                self.channels.setdefault(int(value), (name_of, kind, link_of))
            link = name.endswith('DLN') and LINK(name)
            if link:
                self.buses.setdefault(printable(value), dict(self.buses_of(link.group(1))))

    def buses_of(self, group: str) -> Iterator[Tuple[int, str]]:
        """Number and name of each bus of a group B."""
        for name, value in self.attributes.items():
            bus = re.match(re.escape(group) + r'\\BID-([0-9]+)$', name)
            if bus:
                number = bus_number(value)
                if number is not None:
                    yield number, printable(self.attributes.get('%s\\BNA-%s' % (group, bus.group(1)), ''))

    def channel(self, channel: int) -> str:
        """The name of a channel, or ''."""
        return self.channels.get(channel, ('', '', ''))[0]

    def bus(self, channel: int, number: Optional[int] = None) -> str:
        """The name of a bus of a channel, or ''. Without a number that of the one bus it has."""
        link = self.channels.get(channel, ('', '', ''))[2]
        buses = self.buses.get(link, {}) if link else {}
        if number is None:
            return next(iter(buses.values())) if len(buses) == 1 else ''
        return buses.get(number, '')

    def disagreements(self, kinds: Dict[int, set]) -> List[str]:
        """Of the channels of a recording, with the data types of their packets: which are not named, and which are named with
        another type; and which channels of the text have no packet."""
        said = []
        for channel in sorted(kinds):
            if channel not in self.channels:
                said.append('channel %d is not named' % channel)
            else:
                named = self.channels[channel][1].upper()
                others = sorted(kind for kind in kinds[channel] if named in FAMILY and FAMILY[named] != family_of(kind))
                if others:
                    said.append('channel %d is named %s, and has packets of type %s'
                                % (channel, named, ', '.join('%02x' % kind for kind in others)))
        return said + ['channel %d is named, and has no packet' % channel for channel in sorted(set(self.channels) - set(kinds))]


def bus_number(value: str) -> Optional[int]:
    """The number of a bus, in decimal or in so many binary digits."""
    if not (value.isascii() and value.isdigit()) or len(value) > 8:
        return None
    return int(value, 2) if len(value) > 3 and not set(value) - {'0', '1'} else int(value)


# ---- the text as a tree

def tree(found: Dict[str, str]) -> List[str]:
    """The attributes as lines: a group, then its attributes, and those of one number below it."""
    groups: 'OrderedDict[str, OrderedDict]' = OrderedDict()
    for name, value in found.items():
        group, _, rest = name.partition('\\')
        number = re.search(r'-([0-9]+)(-[0-9]+)*$', rest)
        groups.setdefault(group, OrderedDict()).setdefault(number.group(1) if number else '', []).append((rest, value))
    lines = []
    for group, parts in groups.items():
        lines.append('%s  %s' % (group, GROUPS.get(group[0], '')))
        for one, some in parts.items():
            if one:
                lines.append('  ' + one)
            lines += ['%s%s: %s' % ('    ' if one else '  ', rest, printable_line(value)) for rest, value in some]
    return lines


GROUPS = {'G': 'general information', 'T': 'transmission', 'R': 'recorder', 'M': 'multiplex and modulation', 'P': 'PCM format',
          'D': 'PCM measurements', 'B': 'bus data',
          'S': 'message data', 'A': 'PAM', 'C': 'data conversion', 'H': 'airborne hardware', 'V': 'vendor'}


def printable_line(text: str) -> str:
    """A whole text with a question mark for what does not print."""
    return ''.join(letter if letter.isprintable() else '?' for letter in text)
