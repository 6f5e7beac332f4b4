#!/bin/sh
''':'
# Begun by a shell: Python itself ends with a trace where standard input is a folder.
if [ -d /dev/stdin ]; then
    echo "ch10: a read or a write failed: standard input is a folder" >&2
    exit 3
fi
if ! command -v python3 >/dev/null; then
    echo "ch10: there is no python3: install Python 3.7 or newer" >&2
    exit 3
fi
exec python3 "$0" "$@"
'''
"""What a crew asks of a recording, or of the image of a medium: from standard input to standard output, by the public standard
alone.

It is a start of the package `ch10` beside this folder, which says at `scripts/ch10.py --help` what there is.
"""
import os
import signal
import sys

if sys.version_info < (3, 7):
    sys.stderr.write('ch10: this takes Python 3.7 or newer; here is %d.%d\n' % sys.version_info[:2])
    sys.exit(3)

sys.dont_write_bytecode = True  # a filter leaves nothing behind
sys.path[0] = os.path.dirname(os.path.dirname(os.path.realpath(__file__)))

# an interrupt while the modules are read, which is most of a short call, ends it without a trace of Python's too
MINDS_INTERRUPTS = signal.getsignal(signal.SIGINT) is signal.default_int_handler
if MINDS_INTERRUPTS:
    signal.signal(signal.SIGINT, signal.SIG_DFL)
from ch10.python import with_numpy  # noqa: E402

with_numpy()
from ch10.command import main  # noqa: E402

if MINDS_INTERRUPTS:
    signal.signal(signal.SIGINT, signal.default_int_handler)
if __name__ == '__main__':
    sys.exit(main(sys.argv[1:]))
