"""Work in several processes at a time: each is a Python of its own that takes a task as a line of JSON and answers with one, and
with bytes after it.

A worker ends when its standard input does. So none is left when the program that started them is killed, and nothing of theirs has
to be undone.
"""
from __future__ import annotations

import gc
import importlib
import json
import os
import queue
import signal
import subprocess
import sys
import threading
from typing import Callable, Generator, Iterable, Optional, Tuple, TYPE_CHECKING

from .standard import Facts
from .store import StoreError

Task = Facts
TOP = os.path.dirname(os.path.dirname(os.path.abspath(__file__)))
# whatever stands in the folder that the call is made in
START = 'import sys; sys.path[0] = sys.argv[1]; from ch10.workers import main; main()'
# so many at a time at most, whatever is asked for
MOST = 64


def processors() -> int:
    """How many processors this program may use."""
    try:
        return len(os.sched_getaffinity(0))
    except AttributeError:
        return os.cpu_count() or 1


if TYPE_CHECKING:
    Ready = queue.Queue[Tuple[Task, Task]]  # where tasks with their answers are put
    Waiting = Tuple[Task, Ready]


class Room:
    """Bytes of memory that tasks share: one that needs more than there is left waits."""

    def __init__(self, size: int) -> None:
        self.size, self.left, self.turn = size, size, threading.Condition()

    def take(self, size: int) -> int:
        """Takes so many bytes, at most all, when they are free; answers how many."""
        size = min(size, self.size)
        with self.turn:
            self.turn.wait_for(lambda: self.left >= size)
            self.left -= size
        return size

    def give(self, size: int) -> None:
        """Gives bytes back."""
        with self.turn:
            self.left += size
            self.turn.notify_all()


class Worker:
    """One process, started for its first task, and started anew if it ended. It gets no Ctrl-C, also while it begins: the one that
    started it ends it."""

    def __init__(self, setting: Task) -> None:
        self.setting = setting
        self.process: Optional[subprocess.Popen] = None

    def do(self, task: Task) -> Task:
        """What comes of a task, or that the process ended."""
        if self.process is None:
            kept = signal.pthread_sigmask(signal.SIG_BLOCK, (signal.SIGINT,))
            try:
                words = [sys.executable, '-B', '-c', START, TOP]
                self.process = subprocess.Popen(words, stdin=subprocess.PIPE, stdout=subprocess.PIPE)
            finally:
                signal.pthread_sigmask(signal.SIG_SETMASK, kept)
            self.send(self.setting)
        self.send(task)
        if self.process is None or self.process.stdout is None:
            return self.ended()
        said = self.process.stdout.readline()
        if not said.endswith(b'\n'):
            return self.ended()
        answer = json.loads(said)
        if 'parts' in answer:
            sizes = answer['parts']
            answer['parts'] = [self.process.stdout.read(size) for size in sizes]
            if list(map(len, answer['parts'])) != sizes:
                return self.ended()
        return answer

    def ended(self) -> Task:
        """What is said of a process that ended."""
        self.close()
        return {'error': 'the process that read it ended: is there enough memory, or was the file cut off meanwhile?'}

    def send(self, task: Task) -> None:
        """Sends a task, unless the process has ended."""
        if self.process is None or self.process.stdin is None:
            return
        try:
            self.process.stdin.write(json.dumps(task).encode() + b'\n')
            self.process.stdin.flush()
        except BrokenPipeError:
            pass

    def close(self) -> None:
        """Ends the process."""
        process, self.process = self.process, None
        if process is not None:
            process.kill()
            process.wait()
            for stream in (process.stdin, process.stdout):
                try:
                    if stream is not None:
                        stream.close()
                except BrokenPipeError:
                    pass


class Pool:
    """So many workers, each started when there is a task for it. Where only one is asked for, this process does the work by
    itself, but for files that are mapped: a file that is cut off meanwhile ends who reads it. Of what is done so much for each
    may wait to be taken: it is held in memory."""

    def __init__(self, number: int, setting: Task, room: Optional[Room] = None, ahead: int = 2) -> None:
        number = min(number, MOST)
        self.number, self.room, self.over, self.most = number, room, threading.Event(), ahead * number
        self.alone = work_of(setting) if number == 1 else None
        self.waiting: queue.Queue[Optional[Waiting]] = queue.Queue()
        self.workers = [Worker(setting) for _ in range(number)]
        self.threads = [threading.Thread(target=self.serve, args=(worker,), daemon=True) for worker in self.workers if number > 1]
        for thread in self.threads:
            thread.start()

    def __enter__(self) -> Pool:
        return self

    def __exit__(self, *why: object) -> None:
        self.over.set()
        getattr(self.alone, 'close', lambda: None)()
        for _ in self.threads:
            self.waiting.put(None)
        for worker in self.workers:
            worker.close()
        for thread in self.threads:
            thread.join(1)

    def serve(self, worker: Worker) -> None:
        """What a worker's thread does."""
        while True:
            waiting = self.waiting.get()
            if waiting is None or self.over.is_set():
                break
            task, ready = waiting
            held = self.room.take(task.get('bytes', 0)) if self.room else 0
            try:
                ready.put((task, worker.do(task)))
            except Exception as error:
                ready.put((task, {'error': said(error)}))
            finally:
                if self.room:
                    self.room.give(held)

    def done(self, tasks: Iterable[Task]) -> Generator[Tuple[Task, Task], None, None]:
        """Each task with what came of it, as they get done. No more tasks are taken than there are worked on and waited for. What
        comes of the tasks of a call that is given up reaches no other one."""
        if self.alone:
            for task in tasks:
                yield task, needed(self.workers[0].do(task) if task.get('mapped') else answer_of(self.alone, task))
            return
        ready: Ready = queue.Queue()
        under_way = 0
        for task in tasks:
            self.waiting.put((task, ready))
            under_way += 1
            while under_way >= self.most or under_way and not ready.empty():
                task, answer = ready.get()
                yield task, needed(answer)
                under_way -= 1
        for _ in range(under_way):
            task, answer = ready.get()
            yield task, needed(answer)


def needed(answer: Task) -> Task:
    """An answer, unless the database failed: that is an end."""
    if 'database' in answer:
        raise StoreError(answer['database'])
    return answer


def said(error: BaseException) -> str:
    """An error in one line."""
    return getattr(error, 'strerror', None) or ' '.join(str(error).split()) or type(error).__name__


def answer_of(work: Callable[[Task], Task], task: Task) -> Task:
    """What comes of a task, or what is wrong with it: one recording is no end of the others. A database that fails is an end."""
    try:
        return work(task)
    except StoreError:
        raise
    except Exception as error:
        return {'error': said(error)}


def work_of(setting: Task) -> Callable[[Task], Task]:
    """What does the tasks of this setting."""
    return importlib.import_module('ch10.' + setting['work']).work(setting)


def main() -> None:
    """What a process does: reads the setting, then tasks, and answers each, until its input ends."""
    gc.set_threshold(100000)
    setting = work = None
    for line in sys.stdin.buffer:
        task = json.loads(line)
        if setting is None:
            setting = task
            continue
        try:
            work = work or work_of(setting)
            answer = work(task)
        except StoreError as error:
            answer = {'database': said(error)}
        except Exception as error:
            answer = {'error': said(error)}
        parts = answer.get('parts', ())
        if parts:
            answer['parts'] = [len(part) for part in parts]
        try:
            sys.stdout.buffer.write(json.dumps(answer).encode() + b'\n')
            for part in parts:
                sys.stdout.buffer.write(part)
            sys.stdout.buffer.flush()
        except BrokenPipeError:
            break
    os._exit(0)
