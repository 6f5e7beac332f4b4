#!/usr/bin/env python3
"""Counts the functions that a message runs through: from its offer over a pump and a commit to the medium, and back by an advance
and a `next` of a cursor.

    scripts/measure/way.py             builds the program without proofs and without inlining, and runs it under callgrind, in three
                                       minutes
    scripts/measure/way.py --names     prints each function too
    scripts/measure/way.py --copies    counts how often a byte of a message is copied on the way, and by which functions

A function counts once, whatever its type parameters are. Closures, what lets values go, laws and the program's own frames around
the recorder do not count, nor does what is not of this repository. Of those that count, a line says how many only answer or lend
a field of their value.

Copies are what the system's library copies more of a longer message, by its bytes: it copies 32 with a store. The medium in memory
makes copies of its own. It wants the toolchain and valgrind.
"""
from __future__ import annotations

import argparse
import collections
import pathlib
import re
import shutil
import subprocess
import sys
import tempfile

sys.dont_write_bytecode = True

TOP = pathlib.Path(__file__).resolve().parents[2]
sys.path[1:1] = map(str, [TOP, *(TOP / 'scripts').iterdir()])  # modules of the other folders

import quick_build  # noqa: E402
import toolchain  # noqa: E402
from quick_build import Fault  # noqa: E402

SETTINGS = '''blocks = 64
directory = 2
volume = "VOL"
nodes = 100
time = 1
event = 2

[[channel]]
id = 5
kind = "uart"
capacity = 2
check = 0
bytes = 524288
number = 65535
'''
STEPS = (
    'do = "mount"',
    'do = "tick"\ncount = 1000\ncivil = "2024-02-29 12:34:56.78"',
    'do = "start"\nname = "FLT1"\nsetup = "41424344"',
    'do = "cursor"\nfile = 0\nchannels = [5]\nfrom = 0\nto = 281474976710655',
    'do = "offer"\nchannel = 5\ncount = 1000\nbytes = "BYTES"',
    'do = "pump"\nchannel = 5\nk = 2',
    'do = "commit"',
    'do = "advance"\nid = 0',
    'do = "next"\nid = 0',
)
MESSAGE = '414243'
LAST = '9 entry 5 1000 0 uart 0 0 '
# Two messages' bytes, and how many of them the system's library copies by one store.
LENGTHS = (2000, 6000)
WIDTH = 32
CALLS = ('control::offer', 'control::pump', 'control::commit', 'readers::advance', 'readers::next')
FRAMES = ('r10_cli', 'r10_command', 'r10_session', 'r10_world::running', 'r10_world::world')
# A function whose body is one field, or what a list in a field says of itself; and one function of a file, with its body.
FIELD = re.compile(r'(?:&(?:mut )?)?\*?self(?:\.\w+)+(?:\.(?:len|get|is_empty|as_slice|as_mut_slice)\(\))?')
WITH_BODY = re.compile(r'(?ms)^( *)(?:pub(?:\(\w+\))? )?(?:const )?fn (\w+).*?^\1\{\n(.*?)^\1\}$')
PASSED_OVER = re.compile(r'Destruct|(^|::)fn::|\+Fn|\w*laws::|::drop$|r10_refinement::')


def not_inlined(lines):
    """The lines of a module, in which each function stays one."""
    for line in lines:
        if line.startswith('attributes #') and not re.search(r'\w+inline\b', line):
            line = line.replace('{', '{ noinline', 1)
        yield re.sub(r'\balwaysinline\b', 'noinline', line) if line.startswith(('define ', 'attributes #')) else line


def build(room: pathlib.Path, level: str) -> pathlib.Path:
    """The program without proofs, with each function as it is written, at this level of the compiler."""
    toolchain.FLAGS = [*toolchain.FLAGS[:2], '-fPIE', level, '-ffunction-sections']
    stripped = toolchain.stripped
    toolchain.stripped = lambda lines, marks: not_inlined(stripped(lines, {}))
    program = room / 'r10'
    quick_build.make_program(TOP / 'crates' / quick_build.PROGRAM, program, room, room / 'log')
    return program


def recorded(program: pathlib.Path, room: pathlib.Path, message: str, *options: str) -> str:
    """What callgrind writes of one recording of this message, its bytes in hexadecimal: of those calls alone."""
    out = room / 'callgrind.out'
    words = ['valgrind', '--tool=callgrind', f'--callgrind-out-file={out}', '--collect-atstart=no', *options,
             *(f'--toggle-collect=r10_world::{it}*' for it in CALLS), str(program), 'sim']
    script = SETTINGS + ''.join(f'\n[[step]]\n{it}\n' for it in STEPS).replace('BYTES', message)
    ran = subprocess.run(words, input=script, capture_output=True, text=True, check=False)
    if ran.returncode or ran.stdout.splitlines()[-1:] != [LAST + message]:
        sys.exit('way: the recording did not go as it has to:\n' + ran.stdout[-1000:] + ran.stderr[-1000:])
    return out.read_text(encoding='utf-8', errors='replace')


def functions_of(program: pathlib.Path, room: pathlib.Path) -> list[str]:
    """The names of the functions that ran between those calls and their answers."""
    names = re.findall(r'(?m)^c?fn=\(\d+\) (r10_\S*)', recorded(program, room, MESSAGE))
    found = {re.sub(r'::<.*', '', it) for it in names}
    return sorted(it for it in found if not PASSED_OVER.search(it) and not it.startswith(FRAMES))


def only_a_field(name: str) -> bool:
    """Whether each function of this name in its file only answers or lends a field. A trait's are looked for by the name alone."""
    crate, *modules, function = name.split('::')
    files = sorted((TOP / 'crates' / crate / 'src').rglob('*.rt'))
    own = [it for it in files if modules and it.stem == modules[0]]
    texts = [file.read_text(encoding='utf-8') for file in own or files]
    bodies = [body for text in texts for _, named, body in WITH_BODY.findall(text) if named == function]
    return bool(bodies) and all(FIELD.fullmatch(body.strip()) for body in bodies)


def stores_of(text: str) -> collections.Counter[str]:
    """Of each function the stores of its own, as callgrind writes them, those of the system's library by the caller's name."""
    names, found, function, is_call = {}, collections.Counter(), '', False
    column = 1 + re.search(r'(?m)^events: (.*)', text)[1].split().index('Dw')
    for line in text.splitlines():
        if named := re.match(r'fn=(\(\d+\))(?: (.*))?', line):
            if named[2]:
                names[named[1]] = named[2]
            function = names[named[1]]
        elif other := re.match(r'cfn=(\(\d+\)) (.*)', line):
            names[other[1]] = other[2]
        elif line.startswith('calls='):
            is_call = True
        elif re.match(r'[-+*\d]', line):
            fields = line.split()
            if not is_call and len(fields) > column:
                found[function] += int(fields[column])
            is_call = False
    return found


def copies_of(program: pathlib.Path, room: pathlib.Path) -> dict[str, float]:
    """Of each function of this repository how often it has each byte of a message copied."""
    few, many = (stores_of(recorded(program, room, MESSAGE[:2] * length, '--cache-sim=yes', '--separate-callers=6'))
                 for length in LENGTHS)
    found = collections.Counter()
    for name in many:
        # (a name is followed by those of its callers)
        copier, *callers = name.split("'")
        if re.match(r'_*mem(cpy|move)', copier):
            own = next((it for it in callers if it.startswith('r10_')), 'others')
            found[re.sub(r'::<.*', '', own)] += many[name] - few[name]
    return {it: times for it, grown in found.items() if (times := grown * WIDTH / (LENGTHS[1] - LENGTHS[0])) >= 0.5}


def main() -> None:
    """Prints how many functions each crate has on the way."""
    words = argparse.ArgumentParser(description=__doc__, formatter_class=argparse.RawDescriptionHelpFormatter)
    words.add_argument('--names', action='store_true', help='print each function too')
    words.add_argument('--copies', action='store_true', help='count how often a byte of a message is copied')
    words = words.parse_args()
    if not shutil.which('valgrind'):
        sys.exit('way: there is no valgrind here')
    with tempfile.TemporaryDirectory(prefix='way-') as folder:
        room = pathlib.Path(folder)
        try:
            program = build(room, '-O2' if words.copies else '-O0')
            found = copies_of(program, room) if words.copies else functions_of(program, room)
        except Fault as fault:
            log = room / 'log'
            said = log.read_text(encoding='utf-8', errors='replace') if log.is_file() else ''
            sys.exit('way: the tool built nothing: %s\n%s' % (fault, said[-2000:]))
    if words.copies:
        for name, times in sorted(found.items(), key=lambda it: (-it[1], it[0])):
            print(f'{times:5.1f}  {name}')
        print(f'{sum(found.values()):5.1f}  times each byte of a message is copied')
        return
    if words.names:
        print('\n'.join(found))
    crates = collections.Counter(it.split('::')[0] for it in found)
    for crate, count in sorted(crates.items(), key=lambda it: (-it[1], it[0])):
        print(f'{count:4}  {crate}')
    fields = len([it for it in found if only_a_field(it)])
    print(f'{len(found):4}  functions in {len(crates)} crates; {fields} only answer or lend a field, {len(found) - fields} do more')


if __name__ == '__main__':
    main()
