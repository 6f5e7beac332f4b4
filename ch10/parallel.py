"""Parts of work done by several processes side by side, whose bytes are written in their order."""
from __future__ import annotations

import os
import struct
import sys
from typing import Callable, Iterable, Iterator, List, Optional, Sequence, Tuple, TypeVar

from .inputs import Output
from .standard import Fault, Wrong

Part = TypeVar('Part')
LEAST = 8 << 20  # bytes of a recording below which one process does all
MOST = 8  # processes where a call does not say how many
LIMIT = 64  # and where it does


def processors() -> int:
    """How many processors this process may use."""
    try:
        return len(os.sched_getaffinity(0))
    except AttributeError:
        return os.cpu_count() or 1


def jobs_of(asked: Optional[int], size: int) -> int:
    """How many processes read a recording of so many bytes: as many as a call asks for, or else as there are processors. One where
    none can be made."""
    if not hasattr(os, 'fork'):
        return 1
    return asked or (min(processors(), MOST) if size >= LEAST else 1)


def in_order(made: Callable[[Part], Iterable[bytes]], parts: Sequence[Part], out: Output, jobs: int) -> None:
    """Writes the pieces that made(part) gives of each part, in their order: by so many processes, or by this one where that is one,
    or where none can be made."""
    out.flush()
    for pieces in made_in_order(made, parts, jobs):
        for said in pieces:
            out.write(said)


def made_in_order(made: Callable[[Part], Iterable[bytes]], parts: Sequence[Part], jobs: int) -> Iterator[Iterable[bytes]]:
    """The pieces that made(part) gives of each part, by so many processes. Those of a part have to be taken before the next ones.

    Each process makes every so many-th part and waits until the one before is taken, so that no more than a part of each is held.
    """
    jobs = min(jobs, len(parts), LIMIT)
    if jobs < 2 or not hasattr(os, 'fork'):
        yield from map(made, parts)
        return
    sys.stderr.flush()
    workers: List[Tuple[int, int]] = []
    try:
        for number in range(jobs):
            workers.append(start(made, parts[number::jobs], [pipe for _, pipe in workers]))
        for place in range(len(parts)):
            yield received(workers[place % jobs][1])
    finally:
        for _, pipe in workers:
            os.close(pipe)
        ended = [os.waitpid(worker, 0)[1] for worker, _ in workers]
    if any(ended):
        raise MemoryError


def side_by_side(made: Callable[[Part], None], parts: Sequence[Part]) -> None:
    """Does made(part) of each part in a process of its own. What one of them raises is raised here, when all have ended: the first
    of them, as one line."""
    sys.stderr.flush()
    workers: List[Tuple[int, int]] = []
    said: List[bytes] = []
    for part in parts:
        reads, writes = os.pipe()
        worker = os.fork()
        if not worker:
            try:
                made(part)
            except BaseException as fault:
                text = ' '.join(str(getattr(fault, 'strerror', None) or fault).split())
                send(writes, ('%s %s' % (type(fault).__name__, text))[:4000].encode('utf-8', 'replace'))
            else:
                send(writes, b'done')
            finally:
                os._exit(0)
        os.close(writes)
        workers.append((worker, reads))
    for worker, reads in workers:
        with os.fdopen(reads, 'rb') as pipe:
            said.append(pipe.read())
        os.waitpid(worker, 0)
    for one in said:
        if one != b'done':
            name, _, text = one.decode('utf-8', 'replace').partition(' ')
            raise {'Fault': Fault, 'Wrong': Wrong, 'MemoryError': MemoryError}.get(name, OSError)(
                text or 'a process ended: is there enough memory?')


def start(made: Callable[[Part], Iterable[bytes]], parts: Sequence[Part], others: List[int]) -> Tuple[int, int]:
    """A process that makes these parts, and the pipe that gives each as its length and its bytes."""
    reads, writes = os.pipe()
    worker = os.fork()
    if worker:
        os.close(writes)
        return worker, reads
    status = 1
    try:
        os.close(reads)
        for pipe in others:
            os.close(pipe)
        for part in parts:
            for said in made(part):
                if len(said):
                    send(writes, struct.pack('<Q', len(said)))
                    send(writes, said)
            send(writes, bytes(8))
        status = 0
    except (BrokenPipeError, KeyboardInterrupt):
        status = 0  # who reads has gone
    except BaseException as fault:
        sys.stderr.write('ch10: a process ended: %s\n' % fault)
    finally:
        os._exit(status)


def send(pipe: int, data: bytes) -> None:
    """Writes all bytes to a pipe."""
    rest = memoryview(data)
    while rest:
        rest = rest[os.write(pipe, rest[:1 << 20]):]


def received(pipe: int) -> Iterator[bytes]:
    """The bytes of one part from a process: pieces with their lengths before them, and a length of zero at their end."""
    left, = struct.unpack('<Q', exactly(pipe, 8))
    while left:
        data = os.read(pipe, min(left, 1 << 20))
        if not data:
            raise MemoryError
        yield data
        left -= len(data)
        if not left:
            left, = struct.unpack('<Q', exactly(pipe, 8))


def exactly(pipe: int, size: int) -> bytes:
    """So many bytes from a pipe. A MemoryError where it ends before."""
    data = b''
    while len(data) < size:
        more = os.read(pipe, size - len(data))
        if not more:
            raise MemoryError
        data += more
    return data
