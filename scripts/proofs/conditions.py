#!/usr/bin/env python3
"""Compares docs/callers.txt with the sources: what each public function asks of its caller, and how the caller knows that it holds.

    scripts/proofs/conditions.py --check           fails if they do not agree
    scripts/proofs/conditions.py --list CRATE..    the conditions of these crates as they stand in the sources; without a crate, of
                                                   all
    scripts/proofs/conditions.py --functions       how many public functions each crate has, and how many of them have a condition

A function is public if another crate can call it: it is `pub` in a public module or brought out by `pub use`, a `pub` function of
such a type, or one of such a trait. What a trait's function asks stands at the trait, and its impls are not listed; nor are crates
of tests.
"""
import re
import sys
from pathlib import Path

TOP = Path(__file__).resolve().parents[2]
TABLE = TOP / 'docs' / 'callers.txt'
FUNCTION = re.compile(
    r'^(?P<indent> *)(?P<public>pub(?P<within>\([a-z ]+\))? )?(?:const )?(?:unsafe )?(?:extern "C" )?fn (?P<name>\w+)', re.M)
HEAD = re.compile(r'^(?:pub )?(?:unsafe )?(?P<kind>impl|trait)\b(?P<rest>[^{;]*)\{', re.M)


def crates():
    """The crates that crates.txt lists, in its order, but for those of tests."""
    lines = (TOP / 'crates.txt').read_text(encoding='utf-8').splitlines()
    names = [line.split(':')[0].split()[0] for line in lines if line.strip() and not line.startswith('#')]
    return [name for name in names if not name.endswith('_tests')]


def exported(crate):
    """The names that the crate's root brings out, and its public modules."""
    root = TOP / 'crates' / crate / 'src' / 'lib.rt'
    if not root.is_file():
        return set(), set()
    text = root.read_text(encoding='utf-8')
    names = set()
    for use in re.findall(r'^pub use ([^;]+);', text, re.M):
        names.update(re.findall(r'(\w+)\s*(?=[,}]|$)', use))
    return names, set(re.findall(r'^pub mod (\w+);', text, re.M))


def blocks_of(text):
    """The impls and traits of a file: where each begins and ends, its kind and the type's or trait's name."""
    found = []
    for head in HEAD.finditer(text):
        end = text.find('\n}', head.end())
        rest = re.sub(r'^\s*<(?:[^<>]|<[^<>]*>)*>', '', head['rest'])
        of_trait = head['kind'] == 'impl' and re.search(r'\bfor\b', rest)
        name = re.match(r'\s*(?:\w+::)*(\w+)', rest)
        kind = 'trait' if head['kind'] == 'trait' else 'of trait' if of_trait else 'type'
        found.append((head.start(), len(text) if end < 0 else end, kind, name[1] if name else '', head.group().startswith('pub')))
    return found


def conditions_of(text, start):
    """What the function that begins here asks: what stands in the braces of each `requires`."""
    found = []
    following = FUNCTION.search(text, start + 1)
    end = following.start() if following else len(text)
    for clause in re.finditer(r'^\s*requires (?:\w+ )?\{', text[start:end], re.M):
        at, depth = start + clause.end(), 1
        begin = at
        while depth:
            depth += {'{': 1, '}': -1}.get(text[at], 0)
            at += 1
        found.append(' '.join(text[begin:at - 1].split()))
    return found


def functions(crate):
    """Each public function of the crate, with what it asks."""
    names, modules = exported(crate)
    for path in sorted((TOP / 'crates' / crate / 'src').rglob('*.rt')):
        text = path.read_text(encoding='utf-8')
        blocks = blocks_of(text)
        is_out = path.stem in modules or path.stem == 'lib'
        for found in FUNCTION.finditer(text):
            block = next((it for it in blocks if it[0] < found.start() < it[1]), None)
            if block is None:
                if found['public'] and not found['within'] and (is_out or found['name'] in names):
                    yield found['name'], conditions_of(text, found.start())
                continue
            _, _, kind, name, public = block
            if not (name in names or is_out):
                continue
            if (kind == 'type' and found['public'] and not found['within']) or (kind == 'trait' and public
                                                                                and len(found['indent']) == 4):
                yield '%s::%s' % (name, found['name']), conditions_of(text, found.start())


LINE = re.compile(r'^\| `(r10_[\w:]+)` \| (.+) \| (.+) \|$', re.M)


def granted() -> set[str]:
    """The words of the list of what is granted, at the head of docs/callers.txt."""
    return set(re.findall(r'(?m)^#   (\w+): ', TABLE.read_text(encoding='utf-8')))


def wrong_parts(function, answer, public, known):
    """What is wrong in how a caller is to know that a function's conditions hold."""
    crate = function.partition('::')[0]
    for it in answer.split('; '):
        word, _, rest = it.partition(' ')
        names = re.findall(r'`([\w:]+)`', rest)
        words = re.findall(r'\*\*(\w+)\*\*', rest)
        if (word not in ('number', 'granted', 'test') or (word == 'number') != (not rest)
                or (word == 'granted') != bool(words) or (word == 'test') != bool(names)):
            yield '%s: no such answer: %s' % (function, it)
        for name in names:
            if not {name, '%s::%s' % (crate, name)} & public:
                yield '%s: no public function: %s' % (function, name)
        for name in words:
            if name not in known:
                yield '%s: not in the list: %s' % (function, name)


def missing(lines: list[tuple[str, str, str]]) -> list[str]:
    """What docs/callers.txt lacks, or has too much."""
    return list(differences(lines))


def differences(lines):
    """Each difference between these lines and the sources."""
    public, asking = set(), []
    for crate in crates():
        for name, asked in functions(crate):
            public.add('%s::%s' % (crate, name))
            if asked:
                asking.append('%s::%s' % (crate, name))
    known = granted()
    told = [function for function, _, _ in lines]
    yield from ('%s: no line' % it for it in asking if it not in told)
    yield from ('%s: it asks nothing' % it for it in told if it not in asking)
    yield from ('%s: more than one line' % it for it in sorted(set(told)) if told.count(it) > 1)
    for function, _, answer in lines:
        yield from wrong_parts(function, answer, public, known)


def main(words: list[str]) -> int:
    """Checks the table, or lists conditions."""
    if words == ['--functions']:
        print('| Crate | Public functions | With a condition |\n|---|---|---|')
        for crate in crates():
            found = list(functions(crate))
            print('| `%s` | %d | %d |' % (crate, len(found), sum(bool(asked) for _, asked in found)))
        return 0
    lines = LINE.findall(TABLE.read_text(encoding='utf-8'))
    if words == ['--check']:
        found = missing(lines)
        for it in found:
            print('conditions: ' + it, file=sys.stderr)
        return int(bool(found))
    if words[:1] != ['--list'] or any(word not in crates() for word in words[1:]):
        print(__doc__, file=sys.stderr)
        return 2
    print('| Crate | Function | Asks |\n|---|---|---|')
    for crate in words[1:] or crates():
        for name, asked in functions(crate):
            if asked:
                print('| `%s` | `%s` | %s |' % (crate, name, '; '.join('`%s`' % it for it in asked)))
    return 0


if __name__ == '__main__':
    sys.exit(main(sys.argv[1:]))
