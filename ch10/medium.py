"""Chapter 10, after STANAG 4575: the directory of a medium's image, and its files."""
from __future__ import annotations

from collections import namedtuple
from typing import List, Tuple

from .standard import Data, big, need, text


File = namedtuple('File', 'name first blocks size closed')
File.__doc__ = 'A file of a directory: its name, first block, blocks, size in bytes, and whether it has a close time.'


def directory(image: Data) -> Tuple[str, List[File]]:
    """The volume's name, and each file."""
    block, before, passed, volume, files = 1, 1, set(), None, []
    while True:
        at = 512 * block
        need(block not in passed and at + 512 <= len(image), at, 'no directory block')
        passed.add(block)
        need(image[at:at + 8] == b'FORTYtwo', at, 'no directory block')
        count, size = big(image, at + 10, 2), big(image, at + 12, 4)
        need(count <= 4 and size == 512, at, 'another layout of the directory')
        need(big(image, at + 56, 8) == before, at, 'a reverse link that leads elsewhere')
        volume = volume or text(image[at + 16:at + 48])
        for entry in range(at + 64, at + 64 + 112 * count, 112):
            first, blocks, length = (big(image, entry + k, 8) for k in (56, 64, 72))
            files.append(File(text(image[entry:entry + 56]), first, blocks, length, image[entry + 104:entry + 112] != b'-' * 8))
        following = big(image, at + 48, 8)
        if following == block:
            return volume, files
        block, before = following, block


def bytes_of(image: Data, file: File) -> Tuple[int, int]:
    """The first place of a file in an image, and the place behind its last byte."""
    begin = 512 * file.first
    need(begin + file.size <= len(image), begin, 'a file outside the image')
    return begin, begin + file.size
