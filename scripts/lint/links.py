#!/usr/bin/env python3
"""Looks whether the links of the documents lead somewhere, and whether the files, functions and clauses that they name are there.

    scripts/lint/links.py

It reads the documents of the top and of docs/, and the READMEs of the crates and of the scripts. A link has to lead to a file, and
what follows its # to a heading of that file. A name in backquotes that has the form of a file's has to be one: below the top, in a
folder that documents speak of, or in the crate whose README it stands in. `src/{one,two}.rt` are two names. Names with NAME, *, ..
or < in them are forms of names, and are passed over, as are those in PASSED. Status 1 where one leads nowhere.

In a crate's README, and in the documents of NAMING, a word in backquotes has to be something of the sources: a function, a clause,
a type, a definition, a field, a file, a crate, or a word of WORDS. Where a README says what is proved, it has to be of its own
crate, or named there. `r10_..` has to be a crate, or of this crate. "`FUNCTION`, clause `NAME`" has to be one of that function.
In a table whose last columns are functions and files, a file of the row has to have each of its functions. The README of the
scripts has one row for each script, below the heading of its folder.
"""
from __future__ import annotations

import collections
import pathlib
import re
import sys

TOP = pathlib.Path(__file__).resolve().parents[2]
sys.path[1:1] = map(str, [TOP, *(TOP / 'scripts').iterdir()])  # modules of the other folders

import reads  # noqa: E402

LINK = re.compile(r'\]\(([^)\s]+)\)')
ENDINGS = 'py|sh|rt|antt|toml|h|c|rs|txt|tmt|expected|edit|md|svg'
PLACES = r'src|specs|proofs|scripts|crates|ffi|ch10|docs|examples|bench|recorder|r10_\w+'
NAME = re.compile(rf'(?<![\w./<-])((?:[\w.]+/)*[\w{{}},.*-]+\.(?:{ENDINGS})(?!\w)|(?:{PLACES})/[\w./{{}},*-]+)')
FOLDERS = ('', 'crates', 'docs', 'examples', 'ffi', 'recorder', 'scripts',
           *(f'scripts/{it.name}' for it in (TOP / 'scripts').iterdir()))
# What a user's own program or call makes, and files of the toolchain.
PASSED = {'Reads.antt', 'program.c', 'script.toml', 'report.html', 'rtlib.py', 'START-HERE.md', 'lib.rs', 'settings.toml'}

# Documents in which each word in backquotes with _, :: or a capital is one of the sources.
NAMING = ('README.md', 'docs/ARCHITECTURE.md', 'docs/DECISIONS.md', 'docs/FORMAT.md', 'docs/MODEL.md', 'docs/PROMISES.md',
          'docs/UNPROVED.md')
# The heading from which on a script writes a page: contracts, whose words are not looked at.
MADE = '## The contracts'
# Words of the language, of its ported crates, of C and of the system.
WORDS = {'u64', 'MAX', 'Ok', 'Err', 'Some', 'None', 'Option', 'Result', 'Global', 'AllocError', 'BufWriter', 'Default', 'Copy',
         'Drop', 'malloc', 'stdin', 'stdout', 'r10', '_', '524_284', 'IsPair', 'slots_beside'}
WORD = r"[^\W\d][\w\-'₀-₉]*"
PUBLIC = r'(?:pub(?:\(crate\))? )?'
IN_CODE = re.compile(rf'(?m)\bfn (\w+)|^ *{PUBLIC}(?:struct|enum|trait|type|const|static|mod) (\w+)'
                     rf'|\b(?:ensures|requires) (\w+) \{{|^ *ghost (\w+) ?[:=]|^ +([A-Z]\w*) *(?:[,({{]|$)|^ +{PUBLIC}(\w+):')
IN_SPECS = re.compile(rf'(?m)^(?:  )?(?:(?:abbrev|unfoldable|opaque|pub) )*(?:(?:record|data) )?({WORD}) [:(]'
                      rf'|^ +(?:pub )?({WORD})(?: {WORD})* :|^(?:pub )?(?:record|data) ({WORD})')
CLAUSES = re.compile(r'`([\w:]+)`, clauses? `(\w+)`(?: and `(\w+)`)?')


def slug(heading: str) -> str:
    """The name by which a link leads to a heading."""
    text = re.sub(r'\[([^\]]*)\]\([^)]*\)', r'\1', heading.replace('`', '').strip().lower())
    return re.sub(r'[^\w\- ]', '', text).replace(' ', '-')


def anchors(path: pathlib.Path) -> set[str]:
    """The headings of a document, as links name them."""
    found: dict[str, int] = {}
    made, is_code = set(), False
    for line in path.read_text(encoding='utf-8').split('\n'):
        if line.startswith('```'):
            is_code = not is_code
        heading = re.match(r'#+\s+(.*)', line)
        if heading and not is_code:
            name = slug(heading[1])
            count = found[name] = found.get(name, -1) + 1
            made.add(f'{name}-{count}' if count else name)
    return made


def spelled_out(name: str) -> list[str]:
    """The names that a name with braces stands for."""
    braces = re.match(r'(.*?)\{([^}]*)\}(.*)', name)
    if not braces:
        return [name]
    return [it for one in braces[2].split(',') for it in spelled_out(braces[1] + one + braces[3])]


def is_there(name: str, home: pathlib.Path | None) -> bool:
    """Whether a file of this name is there, where a reader would look for it."""
    if any((TOP / folder / name).exists() for folder in FOLDERS):
        return True
    if home and any((home / folder / name).exists() for folder in ('', 'src', 'specs', 'proofs')):
        return True
    return any(next((TOP / 'crates').glob(form + name), None) for form in ('*/', '*/*/'))


class Sources:
    """What the sources define, crate by crate, the words in each, and the clauses of each public function."""

    def __init__(self) -> None:
        self.defined: dict[str, set[str]] = collections.defaultdict(set)
        self.words: dict[str, set[str]] = collections.defaultdict(set)
        for path in sorted((TOP / 'crates').glob('*/*/**/*')):
            crate, folder = path.relative_to(TOP / 'crates').parts[:2]
            if path.suffix in ('.rt', '.antt', '.edit') and folder in ('src', 'specs', 'proofs', 'must-fail', 'slips'):
                self.defined[crate].add(path.stem)
                if path.suffix != '.edit':
                    text = reads.without_comments(path.read_text(encoding='utf-8'))
                    made = (IN_CODE if path.suffix == '.rt' else IN_SPECS).findall(text)
                    self.defined[crate].update(name for names in made for name in names if name)
                    self.words[crate].update(re.findall(WORD, text))
        listed = TOP / 'crates.txt'
        self.crates = {path.name for path in (TOP / 'crates').glob('*')}
        self.others = self.crates | set(re.findall(r'\w+', listed.read_text(encoding='utf-8')) if listed.is_file() else ())
        for path in (TOP / 'ffi').glob('*.h'):
            self.others.update(re.findall(r'\w+', path.read_text(encoding='utf-8')))
        self.clauses: dict[str, set[str]] = collections.defaultdict(set)
        for source in reads.Tree(TOP).all_sources():
            for item in source.functions:
                self.clauses[item.name.rsplit('::', 1)[-1]].update(name for name, _ in reads.clauses_of(item.text))

    def fault_of(self, name: str, crate: str | None, is_proved: bool) -> str | None:
        """What is wrong with a name, in the README of a crate or in another document."""
        if name.isdigit() or name in WORDS:
            return None
        if crate and name.startswith('r10_') and name not in self.crates | self.defined[crate]:
            return f'there is no crate {name}'
        if not any(name in it for it in [self.others, *self.defined.values()]):
            return f'the sources have no {name}'
        if crate and is_proved and name not in self.defined[crate] | self.words[crate] | self.crates:
            return f'{name} is not of {crate}'
        return None


def faults_of_row(functions: str, files: str) -> list[str]:
    """Which functions of a row are in none of its files; a file without a folder is in the one before it."""
    there, folder = set(), ''
    for name in re.findall(r'`([^`]+\.rt)`', files):
        folder = name.rpartition('/')[0] or folder
        path = TOP / 'crates' / folder / name.rpartition('/')[2]
        text = path.read_text(encoding='utf-8') if path.is_file() else ''
        there.update(re.findall(r'\b(?:fn|struct|ensures|requires) (\w+)', text))
    names = [name.rsplit('::', 1)[-1] for name in re.findall(r'`([\w:]+)`', functions)]
    return [f'no file of its row has {name}' for name in names if name not in there]


def faults_of_names(path: pathlib.Path, sources: Sources) -> list[str]:
    """Which functions, clauses and definitions are not there that a document names."""
    crate = path.parent.name if path.parent.parent.name == 'crates' else None
    if not crate and str(path.relative_to(TOP)) not in NAMING:
        return []
    found, section, is_headed = [], '', False
    text = path.read_text(encoding='utf-8')
    for number, line in enumerate(text.split(f'\n{MADE}\n')[0].split('\n'), 1):
        section = line if line.startswith('## ') else section
        faults = []
        for code in re.findall(r'`((?:\w+::)*\w+)`', line):
            if crate or re.search(r'_|::|^[A-Z][a-z]', code):
                faults += [sources.fault_of(name, crate, section.startswith('## Proved')) for name in code.split('::')]
        cells = line.split(' | ')
        is_headed = is_headed and line.startswith('|') or line.endswith('| Function | File below `crates/` |')
        if is_headed and len(cells) > 3:
            faults += faults_of_row(cells[-2], cells[-1])
        for function, *clauses in CLAUSES.findall(line):
            there = sources.clauses[function.rsplit('::', 1)[-1]]
            faults += [f'{function} has no clause {clause}' for clause in clauses if clause and clause not in there]
        found += [f'{path.relative_to(TOP)}:{number}: {fault}' for fault in faults if fault]
    return found


def faults_of(path: pathlib.Path) -> list[str]:
    """Where a document leads nowhere."""
    home = path.parent if path.parent.parent.name == 'crates' else None
    found = []
    for number, line in enumerate(path.read_text(encoding='utf-8').split('\n'), 1):
        place = f'{path.relative_to(TOP)}:{number}: '
        for to in LINK.findall(line):
            if re.match(r'[a-z]+:', to):
                continue
            file, _, anchor = to.partition('#')
            target = path.parent / file if file else path
            if not target.exists():
                found.append(f'{place}there is no {to}')
            elif anchor and target.suffix == '.md' and anchor not in anchors(target):
                found.append(f'{place}{to} has no such heading')
        for code in re.findall(r'`([^`]+)`', line):
            for name in NAME.findall(code):
                if 'NAME' in name or '..' in name or '*' in name or name in PASSED:
                    continue
                found += [f'{place}there is no file {it}' for it in spelled_out(name) if not is_there(it, home)]
    return found


def faults_of_scripts() -> list[str]:
    """Which scripts have no row, or two, below the heading of their folder in the README of the scripts, and which rows have no
    script. The tests have none, as their folder has one line."""
    page, folder, rows = TOP / 'scripts' / 'README.md', '', collections.Counter()
    for line in page.read_text(encoding='utf-8').split('\n'):
        heading = re.match(r'## (\w+):', line)
        folder = f'{heading[1]}/' if heading else folder
        rows.update(folder + name for name in re.findall(r'^\| `([\w.]+)` \|', line))
    there = {str(it.relative_to(page.parent)) for form in ('*.*', '*/*.*') for it in page.parent.glob(form) if it.is_file()}
    there = {name for name in there if not name.startswith('tests/') and name != page.name and '__pycache__' not in name}
    wrong = [name for name in sorted(there | set(rows)) if rows[name] != (name in there)]
    return [f'scripts/README.md: {rows[name]} rows for {name}' for name in wrong]


def main() -> int:
    """Looks at every document."""
    if sys.argv[1:]:
        print(__doc__, file=sys.stderr)
        return 2
    paths = [*sorted(TOP.glob('*.md')), *sorted((TOP / 'docs').glob('*.md')), *sorted((TOP / 'crates').glob('*/README.md')),
             TOP / 'scripts' / 'README.md']
    sources = Sources()
    found = [fault for path in paths for fault in faults_of(path) + faults_of_names(path, sources)] + faults_of_scripts()
    for fault in found:
        print(fault)
    print(f'links: {len(paths)} documents, {len(found)} that lead nowhere')
    return 1 if found else 0


if __name__ == '__main__':
    sys.exit(main())
