#!/usr/bin/env python3
"""Prints in reading order what a contract stands on: its clauses, the definitions that they name, what these name, and so on.

    scripts/proofs/reads.py NAME              of a public function (record_all, Recorder::commit) or a definition (Run), with its
                                              text
    scripts/proofs/reads.py NAME.CLAUSE       of one clause of a function
    scripts/proofs/reads.py NAME --depth N    no further than N steps below it
    scripts/proofs/reads.py NAME --names      a line for each: step, file, line and name, without the text
    scripts/proofs/reads.py NAME --part PART  those of one part: of the relation (what a medium has to do with the model),
                                              of the model, or of the formats
    scripts/proofs/reads.py --page            writes docs/THEOREM.md, what the theorem stands on
    scripts/proofs/reads.py --check           fails if docs/THEOREM.md is not what would be written

Each definition comes once. Clauses are taken in turn, and a definition belongs to the first that needs it, at the fewest steps.
A name of two crates is written with its crate: r10_machine::Run. Types of the code count, with their fields and the value that
contracts see of them (impl Model). So do traits with their contracts. Definitions of the toolchain are counted by name alone.
It reads the .rt and .antt files by their imports, and proves nothing. A variable is not taken for a definition of its name
if the text around it binds it. Lines are counted without comments.
"""
from __future__ import annotations

import collections
import hashlib
import re
import signal
import sys
from pathlib import Path
from typing import Iterator, NamedTuple

TOP = Path(__file__).resolve().parents[2]
PAGE = TOP / 'docs' / 'THEOREM.md'
THEOREM = 'record_all'
# So many steps below the clauses the page has the text of each definition; further down it has sums.
IN_FULL = 1
# The parts in which what the theorem stands on is read, one at a time: with the crates and the files that have it.
PARTS = {
    'relation': ('what a recorder and its medium have to do with the model',
                 ('r10_world', 'r10_refinement', 'r10_medium', 'r10_blockout', 'crates/r10_machine/specs/Says.antt')),
    'model': ('what the small machine does, and what became of each message', ('r10_machine', 'r10_account', 'r10_lane')),
    'formats': ('what files, packets and the directory are, byte for byte, with messages, entries and refusals', ()),
}

WORD = r"[^\W\d][\w\-'₀-₉ₐ-ₜ]*"
TOKEN = re.compile(rf"(?<![\w.'-])({WORD})(?:\.({WORD}))?")
IMPORT = re.compile(r'(?m)^[ \t]*((?:pub |ghost |unfoldable )*)use (Rattle\.[^;{\n]*?)(?:\.\{([^}]*)\})?;?[ \t]*$')
CODE_IMPORT = re.compile(r'(?m)^[ \t]*(pub )?use ((?:crate|r10_\w+|\w+)(?:::\w+)*)(?:::\{([^}]*)\})?( as \w+)?;')
DEFINED = re.compile(rf'^(  )?(?:(?:abbrev|unfoldable|opaque|pub) )*(?:(record|data) ({WORD})|({WORD}) :)(?= |$)')
NO_DEFINITION = re.compile(r'^(?:use|mod|pub mod|pub use|module|ruleset)\b')
TYPE = re.compile(r'^(?:pub(?:\(crate\))? )?(?:struct|enum|trait) (\w+)')
IMPL = re.compile(r'^impl\b')
FUNCTION = re.compile(r'^(\s*)(pub )?(?:const |unsafe |extern "C" )*fn (\w+)')
CLAUSE = re.compile(r'\b(requires|ensures)\s*(\w+)?\s*\{')


class Fault(Exception):
    """What is wrong, in one line."""


class Item(NamedTuple):
    """A definition, a type of the code, or a function's contract: where it stands, its text, and the names in it."""

    crate: str
    path: str
    line: int
    name: str
    text: str
    kind: str


class Read(NamedTuple):
    """An item in reading order: the clause that needs it first, and how many steps below the clause it stands."""

    clause: str
    step: int
    item: Item


def without_comments(text: str) -> str:
    """The text without its comments, of both languages."""
    return re.sub(r'(?m)(?:--|//).*$', '', text)


def sum_over(items: list[Item]) -> str:
    """A sum over some texts: comments do not count, nor does how lines are broken."""
    texts = [f'{it.name} {" ".join(without_comments(it.text).split())}' for it in items]
    return hashlib.sha256('\n'.join(texts).encode()).hexdigest()[:12]


def over(lines: list[str], at: int, mark: str) -> int:
    """The line on which the comment and the attributes begin that stand right over a line."""
    while at > 0 and re.match(rf'\s*(?:{mark}|#\[)', lines[at - 1]) and not re.match(r'-- -{3,}|//!', lines[at - 1]):
        at -= 1
    return at


def block_end(lines: list[str], at: int) -> int:
    """The line after the item of the code that begins on this one, by its braces."""
    depth = 0
    for number in range(at, len(lines)):
        bare = re.sub(r'//.*', '', lines[number])
        depth += bare.count('{') - bare.count('}') + bare.count('(') - bare.count(')')
        if depth == 0 and re.search(r'[};]\s*$', bare):
            return number + 1
    return len(lines)


class Module:
    """A file of definitions: its imports and its definitions by their names."""

    def __init__(self, tree: Tree, path: Path) -> None:
        self.path = str(path.relative_to(tree.top))
        self.crate = self.path.split('/')[1]
        text = path.read_text(encoding='utf-8')
        self.imports = imports_of(text)
        self.own: dict[str, Item] = {}
        lines = text.split('\n')
        starts, around = [], ''
        for number, line in enumerate(lines):
            if line.startswith('module '):
                around = line
            head = DEFINED.match(line)
            if head and not NO_DEFINITION.match(line) and (not head[1] or around):
                starts.append((number, head[3] or head[4], head[2] or '', around if head[1] else ''))
        for place, (number, name, kind, head) in enumerate(starts):
            end = starts[place + 1][0] if place + 1 < len(starts) else len(lines)
            body = lines[over(lines, number, '--'):end]
            while re.match(r'\s*(?:--.*|module .*)?$', body[-1]):
                body.pop()
            shown = '\n'.join(([head] if head else []) + body)
            item = Item(self.crate, self.path, number + 1, name, shown, kind or 'definition')
            self.own.setdefault(name, item)
            if kind == 'data':
                for maker in re.findall(rf'(?m)^\s+({WORD}) :', without_comments(item.text)):
                    self.own.setdefault(maker, item)


class Source:
    """A file of code: its imports, its types, and its functions with their contracts."""

    def __init__(self, tree: Tree, path: Path) -> None:
        self.path = str(path.relative_to(tree.top))
        self.crate, self.module = self.path.split('/')[1], path.stem
        text = path.read_text(encoding='utf-8')
        self.imports = imports_of(text)
        self.uses: dict[str, tuple[str, str]] = {}
        for public, way, names, alias in CODE_IMPORT.findall(text):
            for name in names.split(',') if names else [way.rsplit('::', 1)[-1] + alias]:
                first, _, second = name.strip().partition(' as ')
                if first:
                    self.uses[second or first] = (way if names else way.rsplit('::', 1)[0], first)
        self.types: dict[str, Item] = {}
        self.ghosts: dict[tuple[str, str], Item] = {}
        self.functions: list[Item] = []
        lines = text.split('\n')
        models: dict[str, str] = {}
        owner, header, end_of_owner = '', '', 0
        for number, line in enumerate(lines):
            kind = TYPE.match(line)
            if kind:
                end = block_end(lines, number)
                shown = '\n'.join(lines[over(lines, number, '///?'):end])
                self.types[kind[1]] = Item(self.crate, self.path, number + 1, kind[1], shown, 'type')
            if kind or IMPL.match(line):
                end_of_owner, headed = block_end(lines, number), number
                while '{' not in lines[headed] and headed + 1 < end_of_owner and ';' not in lines[headed]:
                    headed += 1
                header = '\n'.join(lines[number:headed + 1])
                owner = kind[1] if kind else self._owner_of(header)
                if not kind and ' for ' in header:
                    ghosts = self._ghosts_of(lines, headed + 1, end_of_owner)
                    if re.search(r'\bModel for ', header):
                        models[owner] = '\n'.join([header, *('\n'.join(it) for it in ghosts.values()), '}'])
                    for name, texts in ghosts.items():
                        shown = '\n'.join([header, *texts, '}'])
                        self.ghosts[owner, name] = Item(self.crate, self.path, number + 1, f'{owner}.{name}', shown, 'ghost')
            if number >= end_of_owner:
                owner, header = '', ''
            function = FUNCTION.match(line)
            if function and (function[2] or header.startswith('pub trait')):
                shown = '\n'.join([*([header] if owner else []), self._contract_of(lines, number)])
                name = f'{owner}::{function[3]}' if owner else function[3]
                self.functions.append(Item(self.crate, self.path, number + 1, name, shown, 'function'))
        for name, shown in models.items():
            if name in self.types:
                self.types[name] = self.types[name]._replace(text=self.types[name].text + '\n\n' + shown)

    @staticmethod
    def _owner_of(header: str) -> str:
        """The type of an impl."""
        bare = header.replace('impl', '', 1).split('{')[0]
        while '<' in bare and bare != (less := re.sub(r'<[^<>]*>', '', bare)):
            bare = less
        return re.sub(r'\W', '', bare.split(' for ')[-1].split(' where ')[0].strip().split('::')[-1])

    @staticmethod
    def _ghosts_of(lines: list[str], at: int, end: int) -> dict[str, list[str]]:
        """What an impl defines for contracts, by its name."""
        found: dict[str, list[str]] = {}
        number = at
        while number < end:
            ghost = re.match(r'\s*ghost (\w+) =', lines[number])
            if ghost:
                stop = block_end(lines, number)
                found[ghost[1]] = lines[over(lines, number, '///?'):stop]
                number = stop
            else:
                number += 1
        return found

    @staticmethod
    def _contract_of(lines: list[str], number: int) -> str:
        """A function's text without its body: up to a brace that no clause opens, or to the end of a trait's declaration."""
        text = re.sub(r'//.*', lambda it: ' ' * len(it[0]), '\n'.join(lines[number:number + 200]))
        depth, at = 0, 0
        while at < len(text):
            letter = text[at]
            if depth == 0 and letter == '{' and not re.search(r'\b(?:requires|ensures)\s*\w*\s*$', text[:at]):
                break
            if depth == 0 and letter == ';':
                break
            depth += {'(': 1, '[': 1, '{': 1, ')': -1, ']': -1, '}': -1}.get(letter, 0)
            at += 1
        whole = '\n'.join(lines[number:number + 200])
        return '\n'.join([*lines[over(lines, number, '///?'):number], whole[:at].rstrip()])


def imports_of(text: str) -> dict[str, tuple[str, str | None]]:
    """What a file imports: by its name there the module, and the name in it; a module as a whole has none."""
    found: dict[str, tuple[str, str | None]] = {}
    for _, way, names in IMPORT.findall(text):
        if not names:
            way, _, alias = way.partition(' as ')
            found.setdefault(alias.strip() or way.strip().rsplit('.', 1)[-1], (way.strip(), None))
        for name in filter(None, map(str.strip, names.split(','))):
            first, _, second = name.partition(' as ')
            found.setdefault(second or first, (way, first))
    return found


class Tree:
    """The sources below a folder."""

    def __init__(self, top: Path) -> None:
        self.top = top
        self.crates = {path.name for path in (top / 'crates').iterdir()} if (top / 'crates').is_dir() else set()
        self.modules: dict[Path, Module] = {}
        self.sources: dict[Path, Source] = {}
        self.outside: dict[str, None] = {}

    def module(self, path: Path) -> Module:
        """A file of definitions, read once."""
        if path not in self.modules:
            self.modules[path] = Module(self, path)
        return self.modules[path]

    def source(self, path: Path) -> Source:
        """A file of code, read once."""
        if path not in self.sources:
            self.sources[path] = Source(self, path)
        return self.sources[path]

    def all_sources(self) -> Iterator[Source]:
        """Every file of code."""
        for path in sorted((self.top / 'crates').glob('*/src/**/*.rt')):
            yield self.source(path)

    def all_modules(self) -> Iterator[Module]:
        """Every file of definitions."""
        for path in sorted((self.top / 'crates').glob('*/specs/**/*.antt')):
            yield self.module(path)

    def imported(self, way: str, name: str | None) -> Item | None:
        """What an import of definitions leads to."""
        parts = way.split('.')[1:]
        if parts[0] not in self.crates:
            self.outside[f'{way}.{name}' if name else way] = None
            return None
        if parts[1:3] == ['specs', 'declared']:
            folder = self.top / 'crates' / parts[0] / 'src'
            rest = [part for part in parts[3:] if part != 'TheVariants']
            for path in [folder.joinpath(*rest[:-1]).with_suffix('.rt'), folder / 'lib.rt']:
                if path.is_file() and rest[-1] in self.source(path).types:
                    return self.source(path).types[rest[-1]]
            return None
        path = (self.top / 'crates').joinpath(*parts).with_suffix('.antt')
        if not path.is_file() or name is None:
            return None
        return self.in_module(self.module(path), name)

    def in_module(self, module: Module, name: str, member: str = '') -> Item | None:
        """What a name is in a file of definitions. Of a module as a whole it is the member."""
        if name in module.own:
            return module.own[name]
        if name in module.imports:
            way, first = module.imports[name]
            return self.imported(way, first or member or None)
        return None

    def used(self, source: Source, way: str, name: str) -> Item | None:
        """What an import of the code leads to: a type."""
        crate, *rest = way.split('::')
        crate = source.crate if crate == 'crate' else crate
        if crate not in self.crates:
            return None
        folder = self.top / 'crates' / crate / 'src'
        path = folder.joinpath(*rest).with_suffix('.rt') if rest else folder / 'lib.rt'
        if not path.is_file():
            return None
        there = self.source(path)
        if name in there.types:
            return there.types[name]
        if name in there.uses:
            inner, first = there.uses[name]
            if inner.split('::')[0] not in self.crates and inner.split('::')[0] != 'crate':
                inner = f'{crate}::{inner}'
            return self.used(there, inner, first)
        return None

    def in_source(self, source: Source, name: str, member: str) -> Iterator[Item]:
        """What a name is in a file of code, and what an impl defines under a member of it."""
        item = None
        if name in source.imports:
            way, first = source.imports[name]
            item = self.imported(way, first or member or None)
        elif name in source.types:
            item = source.types[name]
        elif name in source.uses:
            item = self.used(source, *source.uses[name])
        if item:
            if item.kind == 'type' and member not in ('', 'Value', 'view', 'invariant'):
                found = (other.ghosts.get((item.name, member)) for other in self.all_sources())
                yield from filter(None, found)
            yield item

    def names_in(self, item: Item, text: str | None = None, bound: frozenset[str] = frozenset()) -> list[Item]:
        """The definitions and types that an item names, in their order, each once."""
        found: dict[Item, None] = {}
        path = self.top / item.path
        bare = without_comments(item.text if text is None else text)
        if path.suffix == '.rt':
            source = self.source(path)
            for token in TOKEN.finditer(re.sub(r'#\[[^\]]*\]', '', bare)):
                if token[1] not in bound:
                    found.update(dict.fromkeys(self.in_source(source, token[1], token[2] or '')))
        else:
            module = self.module(path)
            for part in statements_of(bare):
                local = bound_in(part)
                for token in TOKEN.finditer(part):
                    it = self.in_module(module, token[1]) if is_pattern(part, token.start(), item.name) else None
                    if it and it.kind == 'definition' and token[1] != item.name:
                        local.add(token[1])
                for token in TOKEN.finditer(part):
                    name, after = token[1], part[token.end():].lstrip(' ')
                    is_field = re.match(r'=(?![^\s\w({])', after) and re.search(r'[{;]\s*$', part[:token.start()])
                    if name in local or is_field:
                        continue
                    it = self.in_module(module, name, token[2] or '')
                    if it:
                        found[it] = None
        found.pop(item, None)
        return list(found)

    def named(self, name: str) -> list[Item]:
        """The functions and definitions of a name, which may have its crate and its type in front."""
        *front, last = name.split('::')
        crate = front.pop(0) if front and front[0] in self.crates else None
        name = '::'.join([*front, last])
        sources = [it for it in self.all_sources() if crate in (None, it.crate)]
        found = [it for source in sources for it in source.functions if it.name == name]
        if not front:
            found += [it for source in sources for it in source.types.values() if it.name == last]
            modules = [it for it in self.all_modules() if crate in (None, it.crate)]
            found += [it for module in modules for it in filter(None, [module.own.get(last)]) if it.name == last]
        return found or [it for source in sources for it in source.functions if not front and it.name.endswith(f'::{last}')]


def statements_of(text: str) -> list[str]:
    """A definition's type and each of its equations, as texts of their own; a record or a list of variants is one."""
    parts: list[list[str]] = [[]]
    for line in text.split('\n'):
        if parts[-1] and re.match(r'(?:  )?\S', line) and not re.match(r'(?:  )?(?:pub |--)', line):
            parts.append([])
        parts[-1].append(line)
    return ['\n'.join(part) for part in parts]


def bound_in(text: str) -> set[str]:
    """The variables that a text binds in (x : T), {x : T}, λ x. and let x =, and the fields of a record."""
    found: set[str] = set()
    for names in re.findall(rf'[({{]\s*((?:{WORD}\s+)+):\s', text):
        found.update(names.split())
    for names in re.findall(r'λ\s+([^.]*)\.', text):
        found.update(re.findall(WORD, re.sub(r':[^)]*', '', names)))
    found.update(re.findall(rf'\blet ({WORD}) =', text))
    if re.match(r'(?:\s*--.*\n)*(?:module .*\n)?\s*(?:pub )?record\b', text):
        found.update(re.findall(rf'(?m)^\s+(?:pub )?({WORD}) :', text))
    return found


def is_pattern(text: str, at: int, name: str) -> bool:
    """Whether a place of a text is a pattern: left of an equation's =, or of a ↦."""
    head = re.match(rf'\s*{re.escape(name)}\b([^=\n]*) =(?= |$)', text)
    if head and at < head.end():
        return True
    after = re.match(r'[^|\[\]\n]*?(↦|\||\]|$)', text[at:])
    return bool(after and after[1] == '↦')


def clauses_of(text: str) -> list[tuple[str, str]]:
    """The clauses of a contract: their names (or what they are), and their texts."""
    found = []
    for head in CLAUSE.finditer(text):
        depth, end = 1, head.end()
        while end < len(text) and depth:
            depth += {'{': 1, '}': -1}.get(text[end], 0)
            end += 1
        found.append((head[2] or head[1], text[head.start():end]))
    return found


def reading(tree: Tree, item: Item, clause: str | None = None, depth: int | None = None) -> list[Read]:
    """What an item stands on, in reading order."""
    roots: list[tuple[str, list[Item]]] = []
    if item.kind == 'function':
        bare = without_comments(item.text)
        clauses = clauses_of(bare)
        head = bare[:bare.index(clauses[0][1])] if clauses else bare
        bound = frozenset([*re.findall(r'(\w+)\s*:(?!:)', head), 'self', 'result'])
        wanted = [it for it in clauses if clause in (None, it[0])]
        if not wanted and clause:
            raise Fault(f'{item.name} has no clause {clause}; it has {", ".join(it[0] for it in clauses) or "none"}')
        roots += [(name, tree.names_in(item, text, bound)) for name, text in wanted]
        roots.append(('the types of its parameters', tree.names_in(item, head, bound)))
    else:
        if clause:
            raise Fault(f'{item.name} is no function, and has no clauses')
        roots.append(('', tree.names_in(item)))
    seen, found = {item}, []
    for name, level in roots:
        step = 1
        while level and (depth is None or step <= depth):
            following: dict[Item, None] = {}
            for it in level:
                if it not in seen:
                    seen.add(it)
                    found.append(Read(name, step, it))
                    following.update(dict.fromkeys(tree.names_in(it)))
            level, step = list(following), step + 1
    return found


def lines_in(items: list[Item]) -> int:
    """How many lines items have, without comments and empty ones."""
    return sum(1 for it in items for line in without_comments(it.text).split('\n') if line.strip())


def sums_of(found: list[Read]) -> str:
    """How much there is to read."""
    items = [read.item for read in found]
    files, crates = len({it.path for it in items}), len({it.crate for it in items})
    return f'{len(items)} definitions in {files} files of {crates} crates, {lines_in(items):,} lines'


def part_of(item: Item) -> str:
    """The part in which an item is read: that which has its file, or its crate, or the last one."""
    for word in (item.path, item.crate):
        for part, (_, places) in PARTS.items():
            if word in places:
                return part
    return 'formats'


def print_reading(tree: Tree, item: Item, clause: str | None, depth: int | None, names_only: bool, part: str = '') -> None:
    """Prints what an item stands on, or one part of that."""
    found = [it for it in reading(tree, item, clause, depth) if part in ('', part_of(it.item))]
    print(f'{item.path}:{item.line}: {item.name}')
    if not names_only and part in ('', 'relation'):
        print(item.text)
    last = None
    for read in found:
        if read.clause != last:
            print(f'\n==== for {read.clause}' if read.clause else '\n====')
            last = read.clause
        it = read.item
        print(f'{read.step:>2}  {it.path}:{it.line}: {it.name}')
        if not names_only:
            print('\n'.join(f'    {line}' if line else '' for line in it.text.split('\n')) + '\n')
    print(f'\n{item.name}: {sums_of(found)}; and {len(tree.outside)} of the toolchain and ported crates')


def link_to(item: Item) -> str:
    """A link from the page to the file of an item."""
    return f'[{item.path.removeprefix("crates/")}](../{item.path})'


def page_of(tree: Tree) -> str:
    """The page about the theorem."""
    item = tree.named(THEOREM)[0]
    found = reading(tree, item)
    by_clause: dict[str, list[Read]] = collections.defaultdict(list)
    for read in found:
        by_clause[read.clause].append(read)
    where = item.path.removeprefix('crates/')
    out = [
        '# What the theorem stands on',
        '',
        'For who checks the theorem itself, definition by definition.',
        f'Made by `scripts/proofs/reads.py --page` from the sources; `scripts/proofs/reads.py {THEOREM}` prints the text of all, '
        'with lines.',
        f'The theorem about a whole recording is `{THEOREM}` in [{where}](../{item.path}). '
        'Its clause `records` needs no word of a recorder.',
        'Here stands its contract, and then all that it stands on, in three parts that can be read one after the other.',
        'Those right below a clause have their text here. The others stand by their files, with a sum over the texts of a file:'
        ' so each change of one is a line in the diff that makes it.',
        '',
        f"In all: {sums_of(found)}, without comments. The toolchain's definitions are not among them ({len(tree.outside)} names).",
        '',
        '| For | Definitions | Files | Crates | Lines |',
        '|---|---|---|---|---|',
    ]
    for clause, reads in by_clause.items():
        items = [read.item for read in reads]
        name = (f'clause `{clause}`' if ' ' not in clause else clause) + ('' if clause == found[0].clause else ', beside these')
        files, crates = len({it.path for it in items}), len({it.crate for it in items})
        out.append(f'| {name} | {len(items)} | {files} | {crates} | {lines_in(items):,} |')
    out += ['', '## The contract', '', '```', item.text, '```', '']
    clauses = list(by_clause)
    for part, (what, _) in PARTS.items():
        reads = [read for clause in clauses for read in by_clause[clause] if part_of(read.item) == part]
        out += [f'## The {part}', '', f'{what[0].upper()}{what[1:]}: {sums_of(reads)}.',
                f'`scripts/proofs/reads.py {THEOREM} --part {part}` prints their text in reading order.', '']
        for it in (read.item for read in reads if read.step <= IN_FULL):
            out += [f'`{it.name}` in {link_to(it)}:', '', '```', it.text, '```', '']
        by_file: dict[str, list[Item]] = collections.defaultdict(list)
        for it in (read.item for read in reads if read.step > IN_FULL):
            by_file[link_to(it)].append(it)
        for link, its in by_file.items():
            out += [f'{link}, {sum_over(its)}:', *(f'`{it.name}`' + (',' if it != its[-1] else '') for it in its), '']
    return '\n'.join(out).rstrip('\n') + '\n'


def main(words: list[str]) -> int:
    """Prints what a contract stands on, or writes or checks the page."""
    signal.signal(signal.SIGPIPE, signal.SIG_DFL)
    names, depth, names_only, is_page, is_check, part, at = [], None, False, False, False, '', 0
    while at < len(words):
        word = words[at]
        if word == '--depth' and at + 1 < len(words) and words[at + 1].isdigit():
            depth, at = int(words[at + 1]), at + 1
        elif word == '--part' and at + 1 < len(words) and words[at + 1] in PARTS:
            part, at = words[at + 1], at + 1
        elif word == '--names':
            names_only = True
        elif word in ('--page', '--check') and len(words) == 1:
            is_page, is_check = word == '--page', word == '--check'
        elif word.startswith('-'):
            names = []
            break
        else:
            names.append(word)
        at += 1
    if len(names) != 1 and not (is_page or is_check):
        print(__doc__, file=sys.stderr)
        return 2
    tree = Tree(TOP)
    try:
        if is_page or is_check:
            page = page_of(tree)
            if is_page:
                PAGE.write_text(page, encoding='utf-8')
            elif not PAGE.is_file() or PAGE.read_text(encoding='utf-8') != page:
                raise Fault('docs/THEOREM.md is not what scripts/proofs/reads.py --page writes: run it')
            return 0
        name, _, clause = names[0].partition('.')
        found = tree.named(name)
        if not found:
            raise Fault(f'there is no public function, type or definition {name}')
        if len(found) > 1:
            those = sorted(f'{it.crate}::{it.name} ({it.path}:{it.line})' for it in found)
            raise Fault(f'{name} is {len(found)} things; with their crates: {", ".join(those)}')
        print_reading(tree, found[0], clause or None, depth, names_only, part)
    except Fault as fault:
        print(f'reads: {fault}', file=sys.stderr)
        return 1
    return 0


if __name__ == '__main__':
    sys.exit(main(sys.argv[1:]))
