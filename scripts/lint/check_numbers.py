#!/usr/bin/env python3
"""Whether each limit stands once in code and once in definitions.

    scripts/lint/check_numbers.py             a line for each place where a number stands that has a name, and status 1 if there is
                                              one
    scripts/lint/check_numbers.py --owners    the limits: number, constant, definition, and the files that have them

Code is crates/*/src, clauses too, and definitions are crates/*/specs. Passed over are comments, texts, worked values, tests and
trials, whose numbers are what is put in and what has to come out; and proofs, which compute.
"""
from __future__ import annotations

import pathlib
import re
import sys
from typing import Iterator, NamedTuple

TOP = pathlib.Path(__file__).resolve().parents[2]


class Limit(NamedTuple):
    """The names of a number, as a constant and as a definition, and the files below crates/ that give it."""
    const: str
    word: str
    code: str
    spec: str


PACKET = ('r10_packet/src/limits.rt', 'r10_packet/specs/Limits.antt')
INDEX = ('r10_body/src/limits.rt', 'r10_body/specs/Limits.antt')
COST = ('r10_body/src/costs.rt', 'r10_body/specs/Cost.antt')
TYPES = ('r10_packet/src/types.rt', 'r10_packet/specs/Types.antt')
TEXT = ('r10_setup/src/body.rt', 'r10_setup/specs/Setup.antt')
BUS = ('r10_b1553/src/entry.rt', 'r10_b1553/specs/Bus.antt')

STATUS = ('r10_body/src/status.rt', 'r10_body/specs/Statuses.antt')
# The numbers that calls of the library answer. They are looked for in the crates of the library, where one is compared or given.
STATUSES = ('SCRIPT', 'BLOCKS', 'ROOM', 'PLACE', 'CLOSED', 'OPEN')
LIBRARY = ('r10_calls', 'r10_ends', 'r10_carrier', 'r10_ffi')
GIVEN = re.compile(r'(?:[≡≢↦] |\breturn |: u32 = |\bnumber[:=] )(4[0-5])(?![\w.])')

# Where a limit is computed from another, the other is above it. One without a definition is used in code alone.
LIMITS = [
    Limit('LONGEST_PACKET', 'longest_packet', *PACKET),
    Limit('LONGEST_BODY', 'longest_body', *PACKET),
    Limit('LONGEST_TEXT', 'longest_text', *TEXT),
    Limit('ENTRIES_PER_NODE', 'entries_per_node', *INDEX),
    Limit('FULL_NODE', 'full_node', *INDEX),
    Limit('NODES_PER_ROOT', 'nodes_per_root', *INDEX),
    Limit('FULL_ROOT', '', INDEX[0], ''),
    Limit('ENTRY_COST', 'each_entry', *COST),
    Limit('FILE_COST', 'each_file', *COST),
    Limit('LOSS_COST', 'each_report', *COST),
    Limit('NAMED_BITS', 'named_bits', *BUS),
]

NUMBER = r'(?<![\w.])(0x[0-9A-Fa-f_]+|[0-9][0-9_]*)(?![\w.]*\w)'
ASKED = re.compile(r'(?:\b(?:data_type|type|type_of [^=≡]*?|kind_type [^=≡]*?)\s*(?:==|!=|≡|=|:)\s*'
                   r'|\b(?:SaysMessages|IsForeignBody|HasType [\w.]+|ChannelGoesOn \w+ \w+) |\bput_own\((?:[^,]*,){3} )' + NUMBER)
KIND = re.compile(r'^pub const TYPE_(\w+): u8 = (0x\w\w);', re.M)

# Where such a number is another one: crate or file, numbers, why.
ALLOWED = [
    (('r10_count', 'r10_text', 'r10_timebody', 'r10_dirblock'), (100, 104), 'hundredths, centuries and offsets'),
    (('r10_count/specs/Names.antt',), (0x30,), 'a digit'),
    (('r10_index/specs/Lists.antt',), (0x00,), 'an entry where there is none'),
]
TRIALS = re.compile(r'_tests$|_bench$|^r10_trials$')
WORKED = re.compile(r'Vectors$|Cases$|^Losses$|^Recordings$|^Soundness$')
COMMENT = {'.rt': re.compile(r'//[^\n]*|b?\'(?:[^\'\\]|\\.)\'|"(?:[^"\\]|\\.)*"', re.S),
           '.antt': re.compile(r'(?:^|(?<=\s))--[^\n]*', re.M)}


def plain(path: pathlib.Path) -> Iterator[tuple[int, str]]:
    """The lines of a file without comments and texts."""
    text = COMMENT[path.suffix].sub(lambda found: '\n' * found[0].count('\n'), path.read_text(encoding='utf-8'))
    return enumerate(text.split('\n'), 1)


def is_allowed(path: str, value: int) -> bool:
    """Whether the number is another one there."""
    return any(value in values and any(path == place or path.startswith(place + '/') for place in places)
               for places, values, _ in ALLOWED)


def value_of(numeral: str) -> int:
    """The number of a numeral."""
    return int(numeral.replace('_', ''), 0 if numeral[:2] == '0x' else 10)


def computed(text: str, form: str, name: str, known: dict[str, int]) -> int | None:
    """The number that a file's text gives a name, computed from those that are known; none where it gives none."""
    found = re.search(form % name, text, re.M)
    if not found:
        return None
    words = re.sub(r' as \w+', '', found[1])
    try:
        known[name] = int(eval(words, {'__builtins__': {}}, known))
    except NameError:
        return None
    return known[name]


def limits_of(top: pathlib.Path) -> Iterator[tuple[Limit, int | None, int | None]]:
    """The limits, with their numbers in code and in definitions."""
    consts, words = {}, {}
    for limit in LIMITS:
        code, spec = ((top / 'crates' / place).read_text(encoding='utf-8') if place else '' for place in limit[2:])
        const = computed(code, r'^pub const %s: \w+ = ([^;]+);', limit.const, consts)
        yield limit, const, computed(spec, r'^%s = (.+)$', limit.word, words) if spec else const


def kinds_of(top: pathlib.Path) -> dict[int, str]:
    """The data types, and their names."""
    text = (top / 'crates' / TYPES[0]).read_text(encoding='utf-8')
    return {value_of(numeral): name.lower() for name, numeral in KIND.findall(text)}


def found(top: pathlib.Path, limits: dict[int, Limit], kinds: dict[int, str]) -> Iterator[str]:
    """
    A line for each number that has a name. A data type is a small number: it is looked for where one is asked for, and written
    with two hex digits, of which the first is not 0.
    """
    crates = top / 'crates'
    for path in sorted(crates.glob('r10_*/src/**/*.rt')) + sorted(crates.glob('r10_*/specs/*.antt')):
        name = path.relative_to(crates).as_posix()
        if TRIALS.search(name.split('/')[0]) or path.suffix == '.antt' and WORKED.search(path.stem):
            continue
        for number, line in plain(path):
            numerals = re.findall(NUMBER, line)
            asked = ASKED.findall(line) + [numeral for numeral in numerals if re.match(r'0x[1-9A-Fa-f]\w$', numeral)]
            told = [(value, '%d is %s' % (value, ' or '.join(filter(None, limits[value][:2]))), limits[value][2:])
                    for value in map(value_of, numerals) if value in limits]
            told += [(value, '0x%02X is TYPE_%s or type_%s' % (value, kinds[value].upper(), kinds[value]), TYPES)
                     for value in sorted(set(map(value_of, asked))) if value in kinds]
            if name.split('/')[0] in LIBRARY:
                told += [(int(numeral), '%s is %s' % (numeral, STATUSES[int(numeral) - 40]), STATUS)
                         for numeral in GIVEN.findall(line)]
            for value, text, owners in told:
                if name not in owners and not is_allowed(name, value):
                    yield 'crates/%s:%d: %s' % (name, number, text)


def main(words: list[str]) -> int:
    """Prints what stands in two places, or the limits."""
    if words not in ([], ['--owners']):
        print(__doc__, file=sys.stderr)
        return 2
    kinds = kinds_of(TOP)
    types = (TOP / 'crates' / TYPES[1]).read_text(encoding='utf-8').split('\n')
    each = list(limits_of(TOP))
    if words:
        for limit, const, _ in each:
            spec = ', %s in crates/%s' % (limit.word, limit.spec) if limit.word else ''
            print('%s: %s in crates/%s%s' % (const, limit.const, limit.code, spec))
        for value, kind in kinds.items():
            print('0x%02X: TYPE_%s in crates/%s, type_%s in crates/%s' % (value, kind.upper(), TYPES[0], kind, TYPES[1]))
        return 0
    lines = ['%s is %s in crates/%s, and %s in crates/%s' % (limit.const, const, limit.code, word, limit.spec)
             for limit, const, word in each if const is None or const != word]
    lines += ['TYPE_%s is 0x%02X in crates/%s, and crates/%s has another' % (kind.upper(), value, *TYPES)
              for value, kind in kinds.items() if 'type_%s = 0x%02X' % (kind, value) not in types]
    lines += found(TOP, {const: limit for limit, const, _ in each if const is not None}, kinds)
    for line in lines:
        print(line)
    print('numbers: %d limits and %d data types; %d places too many' % (len(LIMITS), len(kinds), len(lines)))
    return 1 if lines else 0


if __name__ == '__main__':
    sys.exit(main(sys.argv[1:]))
