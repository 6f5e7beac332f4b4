#!/usr/bin/env python3
"""Shows each example and each command of r10, with what the program prints. `./r10 tour` calls it.

    scripts/tools/tour.py PROGRAM    # by this program
"""
import os
import pathlib
import subprocess
import sys

sys.dont_write_bytecode = True  # a tour leaves nothing behind

TOP = pathlib.Path(__file__).resolve().parents[2]
sys.path[1:1] = map(str, [TOP, *(TOP / 'scripts').iterdir()])  # modules of the other folders

from play_cases import KINDS, alone  # noqa: E402

FIRST = 'examples/first.toml'
SESSION = 'session'


def title_of(script):
    """The first line of a script, where that is a comment."""
    line = script.read_text().split('\n', 1)[0]
    return line.lstrip('# ') if line.startswith('#') else ''


def stops():
    """Of each stop its title, the line that a reader would type, the program's words, and its input."""
    for script in sorted((TOP / 'examples').glob('*.toml'), key=lambda script: (script.name != 'first.toml', script.name)):
        name = 'examples/' + script.name
        words = ['run'] if script.stem == SESSION else []
        yield title_of(script), ' '.join(['./r10'] + words) + ' < ' + name, words, script.read_bytes()
    image = alone(KINDS)
    yield ('The image of the medium that a script leaves.', './r10 sim --image < %s > first.img' % FIRST, ['sim', '--image'],
           (TOP / FIRST).read_bytes())
    yield ('The image of the medium that a session leaves.', './r10 run --image < examples/session.toml > session.img',
           ['run', '--image'], (TOP / 'examples' / 'session.toml').read_bytes())
    yield ('The image of a formatted medium.', './r10 format --blocks 8 --directory 2 --volume VOL > empty.img',
           ['format', '--blocks', '8', '--directory', '2', '--volume', 'VOL'], b'')
    yield ('The files of an image, here of a file with every kind of channel.', 'scripts/rows/play_cases.py image | ./r10 files',
           ['files'], image)
    yield 'The entries of that file.', 'scripts/rows/play_cases.py image | ./r10 play --file 0', ['play', '--file', '0'], image
    yield ('The verdict on that file, which begins at block 3.',
           'scripts/rows/play_cases.py image | tail -c +1537 | head -c %d | ./r10 check' % len(KINDS), ['check'], KINDS)


def by_program(program, tour):
    """What the program prints at each stop."""
    return [subprocess.run([program] + words, input=given, stdout=subprocess.PIPE).stdout for _, _, words, given in tour]


def said_of(output):
    """The lines of a text; of an image, its size."""
    if b'\0' in output:
        blocks = len(output) // 512
        return '(an image of %d blocks, %d bytes)\n' % (blocks, 512 * blocks)
    return output.decode()


def main(words):
    if len(words) != 1:
        print(__doc__)
        return 2
    tour = list(stops())
    outputs = by_program(words[0], tour)
    try:
        for (title, line, _, _), output in zip(tour, outputs):
            print('# %s\n$ %s\n%s' % (title, line, said_of(output)), flush=True)
    except OSError as error:
        return unread(error)
    return 0


def unread(error):
    """Ends what cannot be printed: with a line, unless the reader has gone."""
    if not isinstance(error, BrokenPipeError):
        print('r10: cannot write: %s' % error.strerror, file=sys.stderr)
    os.dup2(os.open(os.devnull, os.O_WRONLY), 1)  # so that nothing is said of it when Python ends
    return 3


if __name__ == '__main__':
    try:
        sys.exit(main(sys.argv[1:]))
    except KeyboardInterrupt:
        sys.exit(130)
