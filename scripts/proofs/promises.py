#!/usr/bin/env python3
"""Writes the contracts of docs/PROMISES.md: each that its table of promises names, clause by clause, as the sources have it.

    scripts/proofs/promises.py            writes what stands after the heading "The contracts"; what stands before it is by hand
    scripts/proofs/promises.py --check    fails if the page is not what would be written
    scripts/proofs/promises.py --list     prints a line for each clause that the table names: promise, function, clause, file

A clause speaks of definitions, and these of others. The page has the names of those that a clause names, with a sum over the texts
of these and of all that they stand on, near and far. Clauses of the same function that no promise names have their names there, and
one sum over their texts and all that these stand on. So whoever changes a promise, or a word that it stands on, changes a line of
the page, and the gate fails until the page is made anew. Comments do not count, nor does how lines are broken.
What a sum covers `scripts/proofs/reads.py` says: definitions, types of the code with what contracts see of them, traits with their
contracts. Of the toolchain's definitions the names count, with the module that each is from.
"""
from __future__ import annotations

import hashlib
import re
import sys
from pathlib import Path
from typing import Iterator, NamedTuple

sys.dont_write_bytecode = True

from reads import Fault, Item, Tree, clauses_of, without_comments  # noqa: E402

TOP = Path(__file__).resolve().parents[2]
PAGE = TOP / 'docs' / 'PROMISES.md'
HEADING = '## What is promised'
MADE = '## The contracts'
NAME = r'`[\w:]+`'
NAMES = rf'{NAME}(?:(?:, | and ){NAME})*'
# (a list of functions, and then the clauses, or the word that there is one)
NAMED = re.compile(rf'({NAMES}), (?:clauses? (`\w+`(?: and `\w+`)?)|its one clause)')
ALIKE = re.compile(rf'so too ({NAMES})')
ROW = re.compile(r'^\| (\d+) \| (.*) \| (.*) \| (.*) \|$', re.M)


class Promise(NamedTuple):
    """A clause that the table names: of which promise, of which function. A function with one clause has an empty name for it."""

    number: str
    function: str
    clause: str
    item: Item


class Definition(NamedTuple):
    """A definition that a clause names: by which name, and where it stands."""

    name: str
    item: Item


def words_in(text: str) -> list[str]:
    """What stands in backquotes."""
    return re.findall(r'`([\w:]+)`', text)


def found_in(tree: Tree, name: str, crates: list[str]) -> Item:
    """The public function of this name in one of these crates."""
    found = [it for it in tree.named(name) if it.kind == 'function' and it.crate in crates]
    if len(found) != 1:
        raise Fault(f'docs/PROMISES.md names `{name}`, which is {len(found)} functions of {", ".join(crates) or "no crate"}')
    return found[0]


def by_hand(top: Path) -> str:
    """What stands by hand on the page of a tree: all before the contracts."""
    page = top / 'docs' / 'PROMISES.md'
    text = page.read_text(encoding='utf-8') if page.is_file() else ''
    return text.split(f'\n{MADE}\n')[0].rstrip('\n') + '\n'


def promises_of(tree: Tree) -> list[Promise]:
    """The clauses that the table of a tree names, in its order, each once a promise."""
    page, made = by_hand(tree.top), []
    if HEADING not in page:
        raise Fault(f'docs/PROMISES.md has no {HEADING}')
    table = page[page.index(HEADING):]
    for row in ROW.finditer(table):
        crates = list(dict.fromkeys(re.findall(r'`(r10_\w+)/', row[4])))
        named = [(function, clause) for it in NAMED.finditer(row[3])
                 for function in words_in(it[1]) for clause in (words_in(it[2]) if it[2] else [''])]
        if not named:
            raise Fault(f'promise {row[1]} of docs/PROMISES.md names no clause')
        for it in ALIKE.finditer(row[3]):
            function, clause = named[0]
            owner = function.rpartition('::')[0]
            named += [(f'{owner}::{name}' if owner else name, clause) for name in words_in(it[1])]
        for function, clause in named:
            item = found_in(tree, function, crates)
            there = [it[0] for it in clauses_of(without_comments(item.text)) if not it[1].startswith('requires')]
            if clause not in there and (clause or there != ['ensures']):
                raise Fault(f'`{function}` has no clause {clause or "that is its one"}: it has {", ".join(there) or "none"}')
            one = Promise(row[1], function, clause, item)
            if one not in made:
                made.append(one)
    if not made:
        raise Fault(f'docs/PROMISES.md has no promises after {HEADING}')
    return made


class Sums:
    """What definitions stand on, with their sums."""

    def __init__(self, tree: Tree) -> None:
        self.tree = tree
        self.below: dict[Item, tuple[list[Item], str]] = {}
        self.lines: dict[str, str] = {}

    def line_of(self, item: Item, outside: list[str]) -> str:
        """What is summed up of a definition: its place, its text, and what it names of the toolchain."""
        text = ' '.join(without_comments(item.text).split())
        return '\0'.join([item.path, item.name, text, *sorted(outside), *operators_in(self.tree, item)])

    def direct(self, item: Item) -> tuple[list[Item], str]:
        """The definitions that one names, and what is summed up of it."""
        if item not in self.below:
            self.tree.outside.clear()
            found = self.tree.names_in(item)
            self.below[item] = (found, self.line_of(item, list(self.tree.outside)))
        return self.below[item]

    def all_of(self, item: Item) -> set[Item]:
        """A definition, and all that it stands on."""
        seen, left = {item}, [item]
        while left:
            for it in self.direct(left.pop())[0]:
                if it not in seen:
                    seen.add(it)
                    left.append(it)
        return seen

    def total(self, items: list[Item], *more: str) -> str:
        """A sum over some definitions and all that they stand on, and over more words."""
        every = set().union(*(self.all_of(it) for it in items))
        text = '\n'.join(sorted([*(self.direct(it)[1] for it in every), *more]))
        return hashlib.sha256(text.encode()).hexdigest()[:12]


def operators_in(tree: Tree, item: Item) -> list[str]:
    """The signs that a text uses which its file imports, with the module that each is from."""
    path = tree.top / item.path
    imports = (tree.source(path) if path.suffix == '.rt' else tree.module(path)).imports
    return sorted(f'{way}.{first}' for name, (way, first) in imports.items() if first and '◌' in name and
                  any(it in item.text for it in name.replace('◌', ' ').split()))


def impls_of(tree: Tree, item: Item, text: str) -> Iterator[tuple[str, Item]]:
    """What the types of a trait define for a word of its contract: of a function of a trait alone."""
    trait = item.name.split('::')[0]
    for source in tree.all_sources():
        for (owner, name), ghost in source.ghosts.items():
            if re.search(rf'\b{trait} for\b', ghost.text.split('{')[0]) and re.search(rf'(?<![\w.]){name}\b', text):
                yield f'{name} of {owner}', ghost


def definitions_of(tree: Tree, item: Item, text: str, bound: frozenset[str]) -> list[Definition]:
    """The definitions that a clause names."""
    found = [Definition(it.name, it) for it in tree.names_in(item, text, bound)]
    if re.search(r'\btrait ', item.text.split('{')[0]):
        found += [Definition(name, it) for name, it in impls_of(tree, item, text)]
    return found


def place_of(path: str) -> str:
    """A path as a link."""
    return f'[{path.removeprefix("crates/")}](../{path})'


def is_beside(name: str, text: str, promises: list[Promise]) -> bool:
    """Whether a clause states something that no promise names."""
    return text.startswith('ensures') and (name if name != 'ensures' else '') not in {it.clause for it in promises}


def contract_of(item: Item, promises: list[Promise]) -> str:
    """A contract without comments, and without the clauses that no promise names."""
    bare = without_comments(item.text)
    for name, text in clauses_of(bare):
        bare = bare.replace(text, '', 1) if is_beside(name, text, promises) else bare
    lines = [it.rstrip() for it in bare.split('\n')]
    return '\n'.join(it for it in lines if it.strip(' ;') and not it.strip().startswith('#['))


def words_of_toolchain(tree: Tree, item: Item, bound: frozenset[str]) -> list[str]:
    """What a contract itself names of the toolchain, each with the module that it is from."""
    tree.outside.clear()
    tree.names_in(item, None, bound)
    return sorted({it.removeprefix('Rattle.') for it in [*tree.outside, *operators_in(tree, item)]})


def bound_of(item: Item) -> tuple[str, frozenset[str]]:
    """A contract's text before its clauses, and the names that it binds."""
    bare = without_comments(item.text)
    clauses = clauses_of(bare)
    head = bare[:bare.index(clauses[0][1])] if clauses else bare
    return head, frozenset([*re.findall(r'(\w+)\s*:(?!:)', head), 'self', 'result'])


def section_of(sums: Sums, item: Item, promises: list[Promise]) -> list[str]:
    """A function's part of the page."""
    tree = sums.tree
    head, bound = bound_of(item)
    named = ', '.join(f'{f"`{it.clause}`" if it.clause else "its one clause"} (promise {it.number})' for it in promises)
    out = [f'### `{item.name}`', '', f'{place_of(item.path)}: {named}.', '',
           '```', contract_of(item, promises), '```', '']
    beside: list[tuple[str, str]] = []
    below: list[Item] = []
    for name, text in clauses_of(without_comments(item.text)):
        found = definitions_of(tree, item, text, bound)
        word = f'`{name}`' if name not in ('requires', 'ensures') else name
        if is_beside(name, text, promises):
            beside.append((word, ' '.join(text.split())))
            below += [it.item for it in found]
        else:
            out += [row_of(sums, word, found)] if found else []
    if beside:
        out.append(f'- beside these: {", ".join(it[0] for it in beside)}: {sums.total(below, *(it[1] for it in beside))}')
    types = [Definition(it.name, it) for it in tree.names_in(item, head, bound)]
    return [*out, row_of(sums, 'types', types, *words_of_toolchain(tree, item, bound)), '']


def row_of(sums: Sums, name: str, found: list[Definition], *more: str) -> str:
    """A line: the definitions that a clause names, or that the types are, and the sum over what they stand on."""
    links = ', '.join(f'[`{it.name}`](../{it.item.path})' for it in found)
    return f'- {name}: {links or "none"}: {sums.total([it.item for it in found], *more)}'


def page_of(tree: Tree) -> str:
    """The page: what stands there by hand, and the contracts."""
    promises = promises_of(tree)
    by_item: dict[Item, list[Promise]] = {}
    for it in promises:
        by_item.setdefault(it.item, []).append(it)
    clauses = {(it.item, it.clause) for it in promises}
    out = [
        by_hand(tree.top),
        MADE,
        '',
        'Made by `scripts/proofs/promises.py` from the table and the sources, and compared by the gate. So a change of a promise,',
        'or of a word that it stands on, changes a line here.',
        '',
        f'Here are {len(clauses)} clauses of {len(by_item)} functions, with what each function asks, without comments.',
        'Below each stand the definitions that its clauses name, and a sum over these and all that they stand on, near and far.',
        '*Beside these* are the other clauses of the contract, with a sum. That of *types* is also over words of the toolchain.',
        '`scripts/proofs/reads.py NAME` prints all texts.',
        '',
    ]
    sums = Sums(tree)
    for item, its in by_item.items():
        out += section_of(sums, item, its)
    return '\n'.join(out).rstrip('\n') + '\n'


def main(words: list[str]) -> int:
    """Writes the page, checks it, or lists the clauses."""
    if words not in ([], ['--check'], ['--list']):
        print(__doc__, file=sys.stderr)
        return 2
    tree = Tree(TOP)
    try:
        if words == ['--list']:
            for it in promises_of(tree):
                print(it.number, it.item.name, it.clause or '-', it.item.path)
            return 0
        page = page_of(tree)
        if not words:
            PAGE.write_text(page, encoding='utf-8')
        elif PAGE.read_text(encoding='utf-8') != page:
            raise Fault('a promise, or what it stands on, is not what docs/PROMISES.md has. If that is meant: '
                        'run scripts/proofs/promises.py, and say in the commit why the promise changes')
    except Fault as fault:
        print(f'promises: {fault}', file=sys.stderr)
        return 1
    return 0


if __name__ == '__main__':
    sys.exit(main(sys.argv[1:]))
