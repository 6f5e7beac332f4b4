"""Engineering units by the setup text (IRIG 106-17, chapter 9): its groups C, how measurements are scaled; B, where they stand in
messages of MIL-STD-1553 and in words of ARINC 429; D and P, where in minor frames of PCM.

What is read of these groups:

    C-d   DCN name, MN3 unit, BFM binary format, DCT conversion: NON, DIS, COE (CO, CO-n), PRS (PS3-n, PS4-n)
    B-x   DLN, BID-i, BT-i; of messages TRA, TRM, STA, LBL and SDI; of measurements MN, and of each location MWN, MBM, MTO, MFP
    D-x   DLN, MN, MN3, LT (MFWD with MF and MFM; WDFR with WP, WI, FP, FI, WFM, WFP)
    P-d   DLN, MF1, MF2, MF4, F1, F2, MFW1, MFW2, MF\\N, IDC1 to IDC7

A measurement that these do not tell, or that they tell in another way, is named with why it is not read.
"""
from __future__ import annotations

import re
from typing import Dict, Iterator, List, Mapping, NamedTuple, Optional, Tuple

from .kinds import ARINC, BUS
from .pcm import Layout, of_group
from .tmats import Names, bus_number
from .units import PCM, Measurement, Piece

ATTRIBUTE = re.compile(r'([BCDP]-[0-9]+)\\([A-Z0-9]+(?:\\N)?)((?:-[0-9]+)*)$').match
FORMATS = ('UNS', 'TWO', 'ONE', 'SIG', 'SIM', 'OFF', 'FPT')
Places = Tuple[int, ...]


class NotTold(Exception):
    """Why a measurement is not read."""


class Scale(NamedTuple):
    """How a measurement's number is read, and scaled: the polynomial's coefficients, or pairs of numbers and values."""
    unit: str
    form: str
    curve: Tuple[float, ...]
    pairs: Tuple[Tuple[float, float], ...]


class Groups:
    """The attributes of some groups: by group and name, those of each number."""

    def __init__(self, found: Mapping[str, str]) -> None:
        self.all: Dict[Tuple[str, str], Dict[Places, str]] = {}
        self.fronts: Dict[str, None] = {}
        for name, value in found.items():
            parts = ATTRIBUTE(name)
            if parts:
                group, key, numbers = parts.groups()
                self.fronts[group] = None
                self.all.setdefault((group, key), {})[tuple(map(int, numbers.split('-')[1:]))] = value

    def of(self, letter: str) -> List[str]:
        """The groups of a letter, in their order in the text."""
        return [front for front in self.fronts if front[0] == letter]

    def get(self, group: str, key: str, *places: int) -> str:
        """An attribute, or ''."""
        return self.all.get((group, key), {}).get(places, '')

    def below(self, group: str, key: str, *places: int) -> List[int]:
        """The numbers that an attribute has after these, in order."""
        size = len(places)
        return sorted({one[size] for one in self.all.get((group, key), {}) if len(one) == size + 1 and one[:size] == places})


# ---- C: scales

def decimal(said: str, what: str) -> float:
    """A number of an attribute."""
    try:
        found = float(said)
    except ValueError:
        found = float('nan')
    if not abs(found) < 1e300:
        raise NotTold('%s %r is no number' % (what, said[:20]))
    return found


def scale_of(groups: Groups, group: str) -> Scale:
    """How a measurement is scaled, by its group C."""
    form = groups.get(group, 'BFM').upper() or 'UNS'
    if form not in FORMATS:
        raise NotTold('its binary format is %s' % form[:10])
    kind = groups.get(group, 'DCT').upper() or 'NON'
    curve: Tuple[float, ...] = (0.0, 1.0)
    pairs: List[Tuple[float, float]] = []
    if kind == 'COE':
        some = groups.below(group, 'CO')
        curve = tuple(decimal(groups.get(group, 'CO', *([one] if one else [])) or '0', 'a coefficient')
                      for one in range(max(some, default=0) + 1))
    elif kind == 'PRS':
        pairs = sorted((decimal(groups.get(group, 'PS3', one), 'a value of a pair'),
                        decimal(groups.get(group, 'PS4', one), 'a value of a pair')) for one in groups.below(group, 'PS3'))
        if len(pairs) < 2:
            raise NotTold('it has fewer than two pairs')
    elif kind not in ('NON', 'DIS'):
        raise NotTold('its conversion is %s' % kind[:10])
    return Scale(groups.get(group, 'MN3'), form, curve, tuple(pairs))


# ---- where bits stand

def bits(said: str, wide: int, whole: Tuple[int, int]) -> Tuple[int, int]:
    """The lowest bit and the number of bits of a mask, the highest one first, over so many bits; `whole` is what FW means."""
    mask = said.upper()
    if mask in ('', 'FW'):
        return whole
    if len(mask) != wide or set(mask) - {'0', '1'}:
        raise NotTold('the mask %r has not %d binary digits' % (mask[:40], wide))
    inner = mask.strip('0')
    if not inner or '0' in inner:
        raise NotTold('the mask %r is not one stretch of bits' % mask[:40])
    return len(mask) - len(mask.rstrip('0')), len(inner)


def coded(said: str, wide: int, base: int = 10) -> Optional[int]:
    """A number as so many binary digits, or else in digits of this base; None where it is anything."""
    if not said or set(said.upper()) <= {'X'} or said.upper() in ('ALL', 'N/A'):
        return None
    if len(said) == wide and not set(said) - {'0', '1'}:
        return int(said, 2)
    try:
        found = int(said, base)
    except ValueError:
        found = -1
    if not 0 <= found < 1 << wide:
        raise NotTold('%r is no number of %d bits' % (said[:20], wide))
    return found


def whole(said: str, what: str) -> int:
    """A number from 1 on."""
    if not (said.isascii() and said.isdigit() and len(said) < 7 and int(said)):
        raise NotTold('%s %r is no number from 1 on' % (what, said[:20]))
    return int(said)


# ---- B: messages of buses

def of_bus(groups: Groups, group: str, kind: int, place: Places) -> Tuple[Dict[str, int], List[Piece]]:
    """What a message has to have that has a measurement, and where that stands in it. `place` is the bus, the message and the
    measurement."""
    bus, message, _ = place
    keys: Dict[str, Optional[int]] = {}
    if kind == BUS:
        for key, name, wide in (('rt', 'TRA', 5), ('tr', 'TRM', 1), ('sa', 'STA', 5)):
            keys[key] = coded(groups.get(group, name, bus, message), wide)
    else:
        keys = {'label': coded(groups.get(group, 'LBL', bus, message), 8, 8),
                'sdi': coded(groups.get(group, 'SDI', bus, message), 2), 'bus': bus_number(groups.get(group, 'BID', bus))}
        if keys['label'] is None:
            raise NotTold('its message has no label')
    pieces: List[Tuple[int, Piece]] = []
    for one in groups.below(group, 'MBM', *place) or groups.below(group, 'MWN', *place):
        if groups.get(group, 'MTO', *place, one).upper() not in ('', 'MSB', 'DEF'):
            raise NotTold('its bits are transferred in another order')
        word = whole(groups.get(group, 'MWN', *place, one) or '1', 'the word')
        wide, full = (16, (0, 16)) if kind == BUS else (32, (10, 19))
        piece = Piece(word, *bits(groups.get(group, 'MBM', *place, one), wide, full))
        pieces.append((whole(groups.get(group, 'MFP', *place, one) or str(one), 'the fragment'), piece))
    if not pieces:
        raise NotTold('the setup text does not say where it stands')
    return {key: value for key, value in keys.items() if value is not None}, [piece for _, piece in sorted(pieces)]


def on_buses(groups: Groups, links: Dict[str, List[int]]) -> Iterator[Tuple[str, int, int, Places, str, int]]:
    """The measurements of buses: name, kind, channel, place, group, and which of those of its name."""
    for group in groups.of('B'):
        channels = links.get(groups.get(group, 'DLN'), [])
        for place, name in sorted(groups.all.get((group, 'MN'), {}).items()):
            if len(place) == 3:
                kind = ARINC if 'A' in groups.get(group, 'BT', place[0]).upper() else BUS
                yield from ((name, kind, channel, place, group, 1) for channel in channels)


# ---- D and P: minor frames of PCM

Location = Tuple[List[Piece], Optional[Tuple[int, int]]]


def of_frames(groups: Groups, group: str, place: Places, layout: Layout, order: str) -> List[Location]:
    """Where a measurement stands in minor frames, each of its locations: its pieces, and in which frames, as the first one and the
    step, or None in each."""
    if (groups.get(group, 'MN3', *place).upper() or 'D') not in (('M', 'D') if order != 'L' else ('M',)):
        raise NotTold('its bits are transferred in another order')
    kind = groups.get(group, 'LT', *place).upper()
    if kind == 'MFWD':
        word = whole(groups.get(group, 'MF', *place), 'the word')
        return [([piece_of(layout, word, groups.get(group, 'MFM', *place))], None)]
    if kind != 'WDFR':
        raise NotTold('its location type is %s' % (kind[:10] or 'not there'))
    found = []
    for location in sorted({one[2] for one in groups.all.get((group, 'WP'), {}) if len(one) == 4 and one[:2] == place}):
        pieces: List[Tuple[int, Piece]] = []
        step, frames = 0, None
        for one in groups.below(group, 'WP', *place, location):
            here = *place, location, one
            word = whole(groups.get(group, 'WP', *here), 'the word')
            step = whole(groups.get(group, 'WI', *here), 'the interval') if groups.get(group, 'WI', *here) not in ('', '0') else 0
            number = whole(groups.get(group, 'WFP', *here) or str(one), 'the fragment')
            pieces.append((number, piece_of(layout, word, groups.get(group, 'WFM', *here))))
            frames = frames_of(layout, groups.get(group, 'FP', *here), groups.get(group, 'FI', *here))
        row = [piece for _, piece in sorted(pieces)]
        found.append((row, frames))
        last = max(piece.word for piece in row)
        while step and last + step <= len(layout.words):
            row = [piece._replace(word=piece.word + step) for piece in row]
            last += step
            found.append((row, frames))
    if not found:
        raise NotTold('the setup text does not say where it stands')
    return found


def piece_of(layout: Layout, word: int, mask: str) -> Piece:
    """Some bits of a word of a minor frame."""
    if word > len(layout.words):
        raise NotTold('a minor frame has no word %d' % word)
    wide = layout.words[word - 1]
    return Piece(word, *bits(mask, wide, (0, wide)))


def frames_of(layout: Layout, first: str, step: str) -> Optional[Tuple[int, int]]:
    """In which minor frames a word is, from 1 on: the first one and the step; None where it is in each."""
    if layout.frames == 1 or (first in ('', '1') and step == '1'):
        return None
    if layout.counter is None:
        raise NotTold('the setup text does not say where a minor frame has its number')
    return whole(first, 'the frame'), layout.frames if step in ('', '0') else whole(step, 'the interval')


# ---- all

def of_setup(names: Names) -> Tuple[List[Measurement], List[str]]:
    """The measurements of a setup text, and of those that are not read which and why, a line each."""
    groups = Groups(names.attributes)
    scales = {groups.get(group, 'DCN'): group for group in groups.of('C')}
    links: Dict[str, List[int]] = {}
    for channel, (_, _, link) in sorted(names.channels.items()):
        links.setdefault(link, []).append(channel)
    found: List[Measurement] = []
    why: List[str] = []
    for name, kind, channel, place, group, _ in on_buses(groups, links):
        try:
            scale = scale_of(groups, scales[name]) if name in scales else Scale('', 'UNS', (0.0, 1.0), ())
            keys, pieces = of_bus(groups, group, kind, place)
            found.append(measurement(name, kind, channel, scale, keys, pieces))
        except NotTold as said:
            why.append('the measurement %s is not read: %s' % (name[:40], said))
    for group in groups.of('D'):
        link = groups.get(group, 'DLN')
        frame = next((one for one in groups.of('P') if groups.get(one, 'DLN') == link), None)
        layout = of_group(names.attributes, frame + '\\') if frame else None
        order = groups.get(frame, 'F2').upper() if frame else ''
        for place, name in sorted(groups.all.get((group, 'MN'), {}).items()):
            if len(place) != 2:
                continue
            try:
                if layout is None or not layout.words:
                    raise NotTold('the setup text does not say the words of its minor frame')
                scale = scale_of(groups, scales[name]) if name in scales else Scale('', 'UNS', (0.0, 1.0), ())
                for channel in links.get(link, []):
                    for number, (pieces, frames) in enumerate(of_frames(groups, group, place, layout, order), 1):
                        found.append(measurement(name if number == 1 else '%s#%d' % (name, number), PCM, channel, scale, {}, pieces,
                                                 frames))
            except NotTold as said:
                why.append('the measurement %s is not read: %s' % (name[:40], said))
    return named_once(found), why


def measurement(name: str, kind: int, channel: int, scale: Scale, keys: Dict[str, int], pieces: List[Piece],
                frames: Optional[Tuple[int, int]] = None) -> Measurement:
    """A measurement by what the groups say of it."""
    size = sum(piece.size for piece in pieces)
    if size > 64 or scale.form == 'FPT' and size not in (32, 64) or scale.form in ('ONE', 'SIG', 'SIM', 'OFF') and size == 64:
        raise NotTold('it has %d bits' % size)
    return Measurement(name, scale.unit, kind, channel, keys, (), 0, size, False, 1.0, 0.0, pieces=tuple(pieces), form=scale.form,
                       curve=scale.curve, pairs=scale.pairs, frames=frames)


def named_once(found: List[Measurement]) -> List[Measurement]:
    """The same with names of their own: where several channels have one, its channel follows."""
    many: Dict[str, int] = {}
    for one in found:
        many[one.name.lower()] = many.get(one.name.lower(), 0) + 1
    made: Dict[str, int] = {}
    rows = []
    for one in found:
        name = one.name if many[one.name.lower()] == 1 else '%s.%s' % (one.name, one.channel)
        made[name] = made.get(name, 0) + 1
        rows.append(one._replace(name=name if made[name] == 1 else '%s.%d' % (name, made[name])))
    return rows
