"""What the words of buses mean: MIL-STD-1553 messages, ARINC 429 words, discretes, and text."""
from __future__ import annotations

from functools import lru_cache
from typing import Optional, Sequence, Tuple

# ---- MIL-STD-1553

ERRORS_1553 = ((12, 'message error'), (10, 'format error'), (9, 'response timeout'), (5, 'word count error'),
               (4, 'sync type error'), (3, 'invalid word'))
FLAGS_1553 = ((10, 'message error'), (9, 'instrumentation'), (8, 'service request'), (4, 'broadcast received'), (3, 'busy'),
              (2, 'subsystem flag'),
              (1, 'dynamic bus control'), (0, 'terminal flag'))
RT_TO_RT = 1 << 11


def named(value: int, names: Sequence[Tuple[int, str]]) -> str:
    """The names of the bits that are set, with a plus between them."""
    return '+'.join(name for bit, name in names if value >> bit & 1)


@lru_cache(maxsize=1 << 16)
def block_1553(status: int) -> Tuple[str, str]:
    """Of a block status word the bus, and the errors by name."""
    return 'B' if status >> 13 & 1 else 'A', named(status, ERRORS_1553)


@lru_cache(maxsize=1 << 11)
def flags_1553(status: int) -> str:
    """The flags of a status word by name."""
    return named(status, FLAGS_1553)


@lru_cache(maxsize=1 << 16)
def command_1553(command: Optional[int]) -> tuple:
    """Of a command word: RT, R (the terminal receives) or T (it transmits), subaddress, word count (1 to 32), and in place of that
    a mode code."""
    if command is None:
        return None, None, None, None, None
    rt, sa, low = command >> 11, command >> 5 & 31, command & 31
    is_mode = sa in (0, 31)
    return rt, 'T' if command >> 10 & 1 else 'R', sa, None if is_mode else low or 32, low if is_mode else None


# ---- ARINC 429

ODD = b'\0'  # of each number of 16 bits whether an odd number of them is set
for _ in range(16):
    ODD += ODD.translate(b'\1\0' + bytes(254))  # with one bit more
TURNED = bytes(int('{:08b}'.format(value)[::-1], 2) for value in range(256))


ERRORS_429 = tuple(named(bits, ((2, 'format error'), (1, 'parity error'), (0, 'even parity'))) for bits in range(8))


def label_of(label: int, is_turned: bool = False) -> str:
    """A label in octal digits: bits 7 to 0 of a word, or these in the other order."""
    return '%03o' % (TURNED[label] if is_turned else label)


# ---- discretes and text

def bits_of(states: int, number: int) -> str:
    """So many discretes as digits, number 0 at the right."""
    return '{:0{}b}'.format(states & ((1 << number) - 1), number)


def changed_bits(before: Optional[int], states: int, number: int) -> str:
    """Which discretes came on (+) and went off (-) since the states before."""
    if before is None or before == states:
        return ''
    differ, said, first = (before ^ states) & ((1 << number) - 1), [], 0
    while differ:
        if differ & 15:
            said.append(changed_four(first, differ & 15, states & differ & 15))
        differ, states, first = differ >> 4, states >> 4, first + 4
    return ' '.join(said)


@lru_cache(maxsize=None)
def changed_four(first: int, differ: int, states: int) -> str:
    """The same of four discretes from this one on, of which some differ."""
    return ' '.join('%s%d' % ('+' if states >> bit & 1 else '-', first + bit) for bit in range(4) if differ >> bit & 1)


def text_of(data: bytes) -> str:
    """The bytes as a text where all of them print, else ''. Ends of lines and tabs print as in C, and a backslash is two."""
    if not data or data.translate(None, PRINTS):
        return ''
    said = data.decode('ascii')
    return said if said.isprintable() and '\\' not in said else said.translate(ESCAPES)


PRINTS = bytes(range(0x20, 0x7F)) + b'\t\r\n'
ESCAPES = {0x09: '\\t', 0x0D: '\\r', 0x0A: '\\n', 0x5C: '\\\\'}
