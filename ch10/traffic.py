"""What the buses of a recording carried: messages of MIL-STD-1553 by terminal and subaddress, words of ARINC 429 by label."""
from __future__ import annotations

from collections import Counter, defaultdict
from math import log
from typing import Dict, Iterator, NamedTuple, Optional, Tuple

from .arrays import Array, numpy
from .bodies import by_kind, in_some, read
from .buses import ERRORS_1553, command_1553
from .columns import Block, Numbering
from .kind_1553 import NO_WORD, Words
from .kinds import ARINC, BUS
from .picture import some_packets, words
from .standard import Data
from .survey import Survey

WORDS = 5  # bits of a command word that say how many words follow
ERRORS = sum(1 << bit for bit, _ in ERRORS_1553)


def blocks(data: Data, begin: int, survey: Survey, kinds: Tuple[int, ...],
           of: Optional[range] = None) -> Iterator[Tuple[int, Block, Array]]:
    """The entries of these kinds, some at a time: the kind, the entries, and the channel of each. Of all packets, or of some by
    their numbers."""
    numbering = Numbering()
    wanted = (packet for packet in some_packets(data, begin, survey, of) if packet.kind in kinds)
    for some in in_some(wanted):
        for kind, places in by_kind(some).items():
            found, _ = read([some[place] for place in places], numbering)
            yield kind, found, numpy.array(numbering.channels, numpy.int64)[found.channel]


def counted(keys: Array, found: Counter) -> None:
    """Adds how often each of some numbers is there."""
    some, many = numpy.unique(keys, return_counts=True)
    found.update(dict(zip(some.tolist(), many.tolist())))


class Traffic(NamedTuple):
    """What the buses carried.

    Of 1553 channels .messages by RT, direction and subaddress, those of them that are .wrong, and the .errors by RT and direction;
    of ARINC 429 channels the words by label. A message without a command word has RT -1.
    """
    messages: Dict[Tuple, Counter]
    wrong: Dict[Tuple, Counter]
    errors: Dict[Tuple, Counter]
    labels: Dict[Tuple, Counter]


def words_of(data: Data, begin: int, survey: Survey, of: Optional[range] = None) -> Tuple[Counter, Counter]:
    """How often each command is there, as channel, word and errors in one number; and each label, as channel, bus and label. Of all
    packets, or of some by their numbers."""
    commands: Counter = Counter()
    labelled: Counter = Counter()
    for kind, block, channel in blocks(data, begin, survey, (BUS, ARINC), of):
        if kind == BUS:
            found = Words(block)
            counted((channel << 12 | found.command >> WORDS) << 16 | found.status & ERRORS, commands)
        else:
            counted(channel << 16 | block.numbers(0, 4) >> 24 << 8 | block.numbers(4, 4) & 0xFF, labelled)
    return commands, labelled


def traffic_of(commands: Counter, labelled: Counter) -> Traffic:
    """What those words say that the buses carried."""
    messages: Dict[Tuple, Counter] = defaultdict(Counter)
    errors: Dict[Tuple, Counter] = defaultdict(Counter)
    wrong: Dict[Tuple, Counter] = defaultdict(Counter)
    for both, number in commands.items():
        command, status = (both >> 16 & 0xFFF) << WORDS, both & 0xFFFF
        rt, direction, sa, _, _ = command_1553(None if command == NO_WORD else command)
        key = both >> 28, -1 if rt is None else rt, direction
        messages[key][sa] += number
        if status:
            wrong[key][sa] += number
        for bit, name in ERRORS_1553:
            if status >> bit & 1:
                errors[key][name] += number
    labels: Dict[Tuple, Counter] = defaultdict(Counter)
    for one, number in labelled.items():
        labels[one >> 16, one >> 8 & 0xFF][one & 0xFF] += number
    return Traffic(dict(messages), dict(wrong), dict(errors), dict(labels))


# ---- drawn

CELL, FRONT, TOP, GAP = 13, 40, 34, 24  # of a heat map: a cell's side, and room for the words around
HALF = 32 * CELL


def heat_map(traffic: Traffic, channel: int, name: str) -> str:
    """The messages of a 1553 channel by terminal and subaddress, as a picture: to the left those that terminals receive, to the
    right those that they transmit. The darker, the more; red where some are wrong, the darker the larger their share."""
    rows = sorted({key[1] for key in traffic.messages if key[0] == channel and key[1] >= 0})
    most = max((number for key, counted in traffic.messages.items() if key[0] == channel and key[1] >= 0
                for number in counted.values()), default=1)
    wide, tall = FRONT + 2 * HALF + GAP + 4, TOP + CELL * len(rows) + 4
    about = 'Messages of channel %d by terminal and subaddress; the same numbers stand in the table below' % channel
    made = ['<svg role="img" aria-label="%s" xmlns="http://www.w3.org/2000/svg" width="%d" height="%d" viewBox="0 0 %d %d" '
            'font-family="sans-serif" font-size="9">' % (about, wide, tall, wide, tall),
            words(FRONT, 11, 'channel %d %s: terminals receive' % (channel, name), size=11, weight='bold'),
            words(FRONT + HALF + GAP, 11, 'terminals transmit', size=11, weight='bold')]
    for half in range(2):
        left = FRONT + half * (HALF + GAP)
        made += [words(left + CELL * sa + CELL / 2, 26, str(sa), anchor='middle', fill='#444', size=8) for sa in range(0, 32, 2)]
        made.append('<rect x="%d" y="%d" width="%d" height="%d" fill="#f4f6f8"/>' % (left, TOP, HALF, CELL * len(rows)))
    for place, rt in enumerate(rows):
        made.append(words(FRONT - 4, TOP + CELL * place + 10, 'RT %d' % rt, anchor='end', fill='#444'))
        for half, direction in enumerate('RT'):
            key = channel, rt, direction
            for sa, number in sorted(traffic.messages.get(key, Counter()).items()):
                wrong = traffic.wrong.get(key, Counter())[sa]
                share = wrong / number if wrong else log(number + 1) / log(most + 1)
                red, green, blue = (185, 28, 28) if wrong else (30, 80, 160)
                deep = 0.25 + 0.75 * share
                colour = tuple(round(255 - (255 - one) * deep) for one in (red, green, blue))
                said = 'RT %d, SA %d, %s: %d messages%s' % (rt, sa, 'receives' if direction == 'R' else 'transmits', number,
                                                          ', %d wrong' % wrong if wrong else '')
                made.append('<rect x="%d" y="%d" width="%d" height="%d" fill="#%02x%02x%02x"><title>%s</title></rect>' % (
                    FRONT + half * (HALF + GAP) + CELL * sa, TOP + CELL * place, CELL - 1, CELL - 1, *colour, said))
    return '\n'.join(made + ['</svg>'])


