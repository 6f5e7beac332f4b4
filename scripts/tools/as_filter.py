"""How the judges beside this module end: statuses and lines are those of a filter, and no trace of Python's.

A status 1 is a judgement. So a wrong call is 2, a read or a write that failed is 3, and an interrupt 130. A reader that has gone is
no line.
"""
import os
import select
import sys


class Wrong(Exception):
    """What is wrong with the words of a call."""


def given():
    """All that standard input has. One that is set not to wait gives what it has by now, and is asked again until its end."""
    if sys.stdin is None:
        raise OSError('standard input is closed')
    source, parts, waits = sys.stdin.buffer, [], os.get_blocking(sys.stdin.fileno())
    while True:
        part = source.read()
        if part is None:
            select.select([source], [], [])
            continue
        parts.append(part)
        if waits or not part:
            return b''.join(parts)


def number(name, word):
    """A number of the words of a call."""
    if not (word.isascii() and word.isdigit()):
        raise Wrong('%s takes a number from 0 on, and not %r' % (name, word[:60]))
    return int(word)


def show(line):
    """A line on standard error, if that takes one."""
    try:
        print(line, file=sys.stderr, flush=True)
    except (OSError, AttributeError):
        pass


def run(name, main):
    """Runs main() with the words of the call, and gives the status to end with."""
    line = None
    try:
        if sys.stdout is None:
            raise OSError('standard output is closed')
        status = main(sys.argv[1:])
        sys.stdout.flush()
        return status
    except Wrong as wrong:
        status, line = 2, str(wrong)
    except KeyboardInterrupt:
        status = 130
    except BrokenPipeError:
        status = 3
    except OSError as error:
        status, line = 3, 'a read or a write failed: %s' % (error.strerror or error)
    except MemoryError:
        status, line = 3, 'out of memory'
    if line:
        show('%s: %s' % (name, line))
    if status >= 3 and sys.stdout is not None:
        os.dup2(os.open(os.devnull, os.O_WRONLY), 1)  # so that nothing is said of it when Python ends
    return status
