"""The data types of IRIG 106-17, chapter 11 (table 11-4): of each its family and what it is, whether it is read here or not."""
from __future__ import annotations

from typing import Dict, Tuple

FAMILIES = {0x00: 'computer', 0x08: 'pcm', 0x10: 'time', 0x18: '1553', 0x20: 'analog', 0x28: 'discrete', 0x30: 'message',
            0x38: 'arinc', 0x40: 'video', 0x48: 'image', 0x50: 'uart', 0x58: '1394', 0x60: 'parallel', 0x68: 'ethernet',
            0x70: 'tspi', 0x78: 'can'}
FIBRE = 'fibre'  # Fibre Channel stands in the family of CAN

TYPES: Dict[int, Tuple[str, str]] = {
    0x00: ('computer', 'format 0, user-defined'), 0x01: ('computer', 'format 1, setup record'),
    0x02: ('computer', 'format 2, recording events'), 0x03: ('computer', 'format 3, recording index'),
    0x04: ('computer', 'format 4, streaming configuration record'),
    0x08: ('pcm', 'format 0, reserved'), 0x09: ('pcm', 'format 1, of chapters 4, 7 and 8'),
    0x10: ('time', 'format 0, reserved'), 0x11: ('time', 'format 1, of IRIG, GPS and the counter'),
    0x12: ('time', 'format 2, network time'),
    0x18: ('1553', 'format 0, reserved'), 0x19: ('1553', 'format 1, MIL-STD-1553B'), 0x1A: ('1553', 'format 2, 16PP194 bus'),
    0x20: ('analog', 'format 0, reserved'), 0x21: ('analog', 'format 1'),
    0x28: ('discrete', 'format 0, reserved'), 0x29: ('discrete', 'format 1'),
    0x30: ('message', 'format 0, generic message'),
    0x38: ('arinc', 'format 0, ARINC 429'),
    0x40: ('video', 'format 0, MPEG-2 and H.264'), 0x41: ('video', 'format 1, ISO 13818-1'),
    0x42: ('video', 'format 2, ISO 14496 part 10'), 0x43: ('video', 'format 3, MJPEG'), 0x44: ('video', 'format 4, MJPEG-2000'),
    0x48: ('image', 'format 0, image'), 0x49: ('image', 'format 1, still image'), 0x4A: ('image', 'format 2, dynamic image'),
    0x50: ('uart', 'format 0'),
    0x58: ('1394', 'format 0, transactions'), 0x59: ('1394', 'format 1, physical layer'),
    0x60: ('parallel', 'format 0'),
    0x68: ('ethernet', 'format 0'), 0x69: ('ethernet', 'format 1, ARINC 664'),
    0x70: ('tspi', 'format 0, NMEA and RTCM'), 0x71: ('tspi', 'format 1, EAG ACMI'), 0x72: ('tspi', 'format 2, ACTTS'),
    0x78: ('can', 'format 0, controller area network'),
    0x79: (FIBRE, 'format 0, Fibre Channel physical layer'), 0x7A: (FIBRE, 'format 1, Fibre Channel layer 2'),
}


def family_of(data_type: int) -> str:
    """The family of a data type; that of a number which the standard does not give is told by its upper bits."""
    return TYPES[data_type][0] if data_type in TYPES else FAMILIES.get(data_type & 0xF8, 'type')
