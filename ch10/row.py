"""Media in a row, as r10d records on them, read as one image (`--media`).

The image has a directory of its own, with the files of all media in the order in which the media were begun, by the dates that
their directories have. After it the media stand as they are: mapped and not copied. So every command that reads an image reads a
row.
"""
from __future__ import annotations

import ctypes
import mmap
import os
import stat
from typing import List, NamedTuple, Optional, Tuple

from .inputs import size_of
from .medium import directory
from .standard import Data, Fault, big

BLOCK, HEAD, ENTRY, EACH = 512, 64, 112, 4
LETTERS = b'FORTYtwo'
FIXED = 0x10  # MAP_FIXED of Linux


class Medium(NamedTuple):
    """A medium of a row: where it is, its bytes, its volume, its first directory block's head, the entries of its files, and when
    the first of them was begun: empty where that is not known."""
    path: str
    size: int
    volume: str
    head: bytes
    entries: List[bytes]
    begun: bytes


def paths_of(given: List[str]) -> List[str]:
    """The media that a call names: those of each folder, by name, are the files that have a directory's letters."""
    found: List[str] = []
    for path in given:
        if not os.path.isdir(path):
            found.append(path)
            continue
        for name in sorted(os.listdir(path)):
            inside = os.path.join(path, name)
            state = os.stat(inside)
            is_large = stat.S_ISREG(state.st_mode) and state.st_size >= 2 * BLOCK
            if is_large and (name.endswith('.r10') or letters_of(inside) == LETTERS):
                found.append(inside)
    return found


def letters_of(path: str) -> bytes:
    """The letters with which the second block of a file begins."""
    with open(path, 'rb') as file:
        return os.pread(file.fileno(), len(LETTERS), BLOCK)


def when(entry: bytes) -> bytes:
    """When a file was begun, so that a later time sorts after; empty where that is not known."""
    date = entry[80:96]
    return date[4:8] + date[2:4] + date[:2] + date[8:] if date.isdigit() else b''


def medium_of(path: str) -> Medium:
    """A medium, by its directory. A Fault where it has none that can be read, or a file outside it."""
    with open(path, 'rb') as file:
        size = size_of(file.fileno())
        if size < 2 * BLOCK:
            raise Fault('%s: it has no directory' % path)
        data = mmap.mmap(file.fileno(), size, access=mmap.ACCESS_READ)
        try:
            volume, files = directory(data)
            entries: List[bytes] = []
            block = 1
            while len(entries) < len(files):
                at = BLOCK * block + HEAD
                entries += [data[place:place + ENTRY] for place in range(at, at + ENTRY * big(data, BLOCK * block + 10, 2), ENTRY)]
                block = big(data, BLOCK * block + 48, 8)
            if any(BLOCK * it.first + it.size > size for it in files):
                raise Fault('%s: a file of its directory is outside it' % path)
            return Medium(path, size, volume, data[BLOCK:BLOCK + HEAD], entries, when(entries[0]) if entries else b'')
        except Fault as fault:
            raise Fault('%s: %s' % (path, fault))
        finally:
            data.close()


def number_of(volume: str) -> Tuple[str, Optional[int]]:
    """The name of a row, and a medium's number in it, as of VOLUME-001; no number where the name has none."""
    name, dash, number = volume.rpartition('-')
    return (name, int(number)) if dash and len(number) == 3 and number.isdigit() else (volume, None)


def doubts(media: List[Medium]) -> List[str]:
    """What is not as in a whole row: numbers that are missing between others, and names that two media have."""
    said = []
    numbers: dict = {}
    for it in media:
        name, number = number_of(it.volume)
        numbers.setdefault(name, []).append(number)
    for name, found in numbers.items():
        known = sorted(it for it in found if it is not None)
        if not known:
            continue
        said += ['medium %s-%03d is missing: what it has is not here' % (name, it)
                 for it in range(known[0], known[-1]) if it not in known]
        said += ['two media have the name %s-%03d' % (name, it) for it in sorted(set(known)) if known.count(it) > 1]
    return said


def image_of(given: List[str], notes: List[str]) -> Data:
    """The media that a call names, as one image. What is missing or cannot be read is noted, a line each."""
    media = []
    for path in paths_of(given):
        try:
            media.append(medium_of(path))
        except Fault as fault:
            notes.append('medium %s; its files are not here' % fault)
    if not media:
        raise Fault('no medium has a directory that can be read')
    notes += doubts(media)
    media = [it for it in sorted(media, key=lambda it: it.begun) if it.entries] or media[:1]
    entries = sum(len(it.entries) for it in media)
    blocks = max(1, -(-entries // EACH))
    page = mmap.ALLOCATIONGRANULARITY
    places, end = [], -(-BLOCK * (1 + blocks) // page) * page
    for it in media:
        places.append(end)
        end += -(-it.size // page) * page
    image = mmap.mmap(-1, end)
    patched = [entry[:56] + (place // BLOCK + big(entry, 56, 8)).to_bytes(8, 'big') + entry[64:]
               for it, place in zip(media, places) for entry in it.entries]
    volume = number_of(media[0].volume)[0] if len(media) > 1 else media[0].volume
    head = media[0].head
    for number in range(1, blocks + 1):
        some = patched[EACH * (number - 1):EACH * number]
        front = head[:10] + len(some).to_bytes(2, 'big') + head[12:16] + volume.encode('ascii', 'replace')[:32].ljust(32)
        front += min(number + 1, blocks).to_bytes(8, 'big') + max(number - 1, 1).to_bytes(8, 'big')
        image[BLOCK * number:BLOCK * number + HEAD] = front
        image[BLOCK * number + HEAD:BLOCK * number + HEAD + ENTRY * len(some)] = b''.join(some)
    put_in(image, [(it.path, place, it.size) for it, place in zip(media, places)])
    return image


def put_in(image: mmap.mmap, parts: List[Tuple[str, int, int]]) -> None:
    """Maps files at places of a mapping, over what is there."""
    library = ctypes.CDLL(None, use_errno=True)
    library.mmap.restype = ctypes.c_void_p
    library.mmap.argtypes = [ctypes.c_void_p, ctypes.c_size_t, ctypes.c_int, ctypes.c_int, ctypes.c_int, ctypes.c_long]
    begin = ctypes.addressof(ctypes.c_char.from_buffer(image))
    for path, place, size in parts:
        with open(path, 'rb') as file:
            found = library.mmap(begin + place, size, mmap.PROT_READ, mmap.MAP_PRIVATE | FIXED, file.fileno(), 0)
            if found != begin + place:
                raise OSError(ctypes.get_errno(), '%s cannot be mapped: %s' % (path, os.strerror(ctypes.get_errno())))
