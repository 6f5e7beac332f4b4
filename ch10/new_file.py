"""Inputs that are opened for reading alone, and new files that have no name before they are whole."""
from __future__ import annotations

import errno
import mmap
import os
import stat
import tempfile
from typing import IO, Callable, List, Tuple

from .inputs import MOST_HELD, size_of
from .standard import SPAN, Data, Wrong

PIECE, SECTOR = 1 << 20, 512
NOT_THERE = {errno.EOPNOTSUPP, errno.EISDIR, errno.EINVAL, errno.ENOENT, errno.ENOSYS}  # of a folder without unnamed files


class Opened:
    """A file or a disk, opened for reading alone.

    .data      its bytes; zeros where it cannot be read
    .unread    the stretches that cannot be read: offset and length of each
    """

    def __init__(self, path: str, folder: str) -> None:
        """A disk with sectors that cannot be read is copied, so far as it can be, to a file without a name in this folder."""
        self.unread: List[Tuple[int, int]] = []
        held = os.open(path, os.O_RDONLY | getattr(os, 'O_CLOEXEC', 0) | getattr(os, 'O_NONBLOCK', 0))
        try:
            mode = os.fstat(held).st_mode
            if not stat.S_ISREG(mode) and not stat.S_ISBLK(mode):
                raise Wrong('%r is no file and no disk' % path[:60])
            size = size_of(held)
            if size <= MOST_HELD:
                self.data: Data = b''.join(self.piece(held, at, min(PIECE, size - at)) for at in range(0, size, PIECE))
                return
            for at in range(0, size, PIECE):
                self.piece(held, at, min(PIECE, size - at))
            self.data = self.copied(held, size, folder) if self.unread else mmap.mmap(held, size, access=mmap.ACCESS_READ)
        finally:
            os.close(held)

    def piece(self, held: int, at: int, size: int) -> bytes:
        """Some bytes, with zeros in the place of sectors that cannot be read, of which it takes note."""
        try:
            found = os.pread(held, size, at)
        except OSError as error:
            if error.errno != errno.EIO:
                raise
            if size > SECTOR:
                half = -(-size // 2 // SECTOR) * SECTOR
                return self.piece(held, at, half) + self.piece(held, at + half, size - half)
            if self.unread and sum(self.unread[-1]) == at:
                self.unread[-1] = self.unread[-1][0], self.unread[-1][1] + size
            elif not self.unread or self.unread[-1][0] < at:
                self.unread.append((at, size))
            return bytes(size)
        return found if len(found) == size or not found else found + self.piece(held, at + len(found), size - len(found))

    def copied(self, held: int, size: int, folder: str) -> Data:
        """A map of a copy, which has holes where the input cannot be read."""
        with tempfile.TemporaryFile(dir=folder) as copy:
            copy.truncate(size)
            for at in range(0, size, PIECE):
                piece = self.piece(held, at, min(PIECE, size - at))
                if piece.strip(b'\x00'):
                    os.pwrite(copy.fileno(), piece, at)
            return mmap.mmap(copy.fileno(), size, access=mmap.ACCESS_READ)


class NewFile:
    """A file that gets its name when it is whole. Until then it has none, or, where the file system knows no files without a name,
    that of the file with `.part` after it."""

    def __init__(self, path: str) -> None:
        if os.path.lexists(path):
            raise Wrong('%r is there already: give another name' % path[:60])
        self.path, self.part = path, ''
        self.folder = os.path.dirname(path) or '.'
        try:
            file = os.open(self.folder, os.O_TMPFILE | os.O_RDWR | os.O_CLOEXEC, 0o666)
        except (OSError, AttributeError) as error:
            if isinstance(error, OSError) and (error.errno not in NOT_THERE or not os.path.isdir(self.folder)):
                raise
            if os.path.lexists(path + '.part'):
                raise Wrong('%r is there already: remove it, or give another name' % (path + '.part')[:60])
            file = os.open(path + '.part', os.O_CREAT | os.O_EXCL | os.O_RDWR, 0o666)
            self.part = path + '.part'
        self.held: IO[bytes] = os.fdopen(file, 'w+b', 1 << 18)

    def keep(self) -> None:
        """Writes all to the disk, and gives the file its name, unless there is a file of this name by now."""
        self.held.flush()
        os.fsync(self.held.fileno())
        source = self.part or '/proc/self/fd/%d' % self.held.fileno()
        root = os.open('/', os.O_RDONLY)
        try:
            os.link(source, self.path, src_dir_fd=root)
        except FileExistsError:
            raise Wrong('%r is there by now: give another name' % self.path[:60])
        except OSError:
            if not self.part:
                raise
            if os.path.lexists(self.path):  # of a file system without links
                raise Wrong('%r is there by now: give another name' % self.path[:60])
            os.rename(self.part, self.path)
            self.part = ''
        finally:
            os.close(root)
        self.close()
        folder = os.open(self.folder, os.O_RDONLY)
        try:
            os.fsync(folder)
        finally:
            os.close(folder)

    def close(self) -> None:
        """Lets go of the file; without a name it is gone then."""
        self.held.close()
        if self.part and os.path.lexists(self.part):
            os.remove(self.part)
        self.part = ''

    def __enter__(self) -> 'NewFile':
        return self

    def __exit__(self, *_: object) -> None:
        self.close()


def copy(data: Data, begin: int, end: int, to: IO[bytes], let_go: Callable[[Data, int, int], None]) -> None:
    """Writes some bytes to a file, some at a time."""
    for at in range(begin, end, PIECE):
        stop = min(at + PIECE, end)
        to.write(data[at:stop])
        if (stop - begin) % SPAN == 0:
            let_go(data, begin, stop)
