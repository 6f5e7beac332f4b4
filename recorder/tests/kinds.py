"""The kinds of channels, as the trials try them: what one of them has to know of a kind stands here."""
from __future__ import annotations

from typing import NamedTuple, Sequence


class Kind(NamedTuple):
    # datagrams, and what of each `r10 play` prints after channel, count and gap
    datagrams: Sequence[tuple[bytes, str]]
    # a line of a pipe, and the same of it
    line: str
    entry: str
    # datagrams that are no message of this kind
    wrong: Sequence[bytes] = ()
    # lines that are one, and out of the range of its settings
    refused: Sequence[str] = ()
    # settings that its channel has to have
    settings: str = ''


# the longest datagram that UDP has
LONGEST = bytes(range(256)) * 255 + bytes(227)

# by the name in the settings
KINDS = {
    'uart': Kind([(b'$GPRMC,V\r\n', 'uart 0 0 244750524d432c560d0a')], 'parity = true, sub = 3, bytes = "4142"', 'uart 1 3 4142'),
    '1553': Kind(
        [(bytes.fromhex('42280000fa000028'), '1553 0000 0000 2842000000fa2800')],
        'status = 0x2000, gap = 7, words = "0821abcd"',
        '1553 2000 0007 0821abcd',
        wrong=[b'123', bytes(76)],
    ),
    'arinc': Kind(
        [(bytes.fromhex('c1000060'), 'arinc 0 0 0 0 600000c1')],
        'bus = 1, high = true, parity = true, data = 0x600000c1',
        'arinc 1 0 1 1 600000c1',
        wrong=[b'12345'],
    ),
    'discrete': Kind(
        [(bytes([0x5A, 0, 0, 0]), 'discrete 0000005a')],
        'states = 0x5a',
        'discrete 0000005a',
        refused=['states = 300'],
        settings='bits = 8\n',
    ),
    'message': Kind(
        [(b'', 'message 0 0 0 -'), (LONGEST, 'message 0 0 0 ' + LONGEST.hex())],
        'data = true, format = true, sub = 9, bytes = "00ff"',
        'message 1 1 9 00ff',
    ),
}
