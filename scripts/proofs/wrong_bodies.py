"""Wrong bodies: changes of a crate's source that its contracts have to refuse, tried by the prover in copies of the repository.

`slips.py` tries the slips of the edits, `mutants.py` small changes that it makes. A function is proved by itself, over the
contracts of those that it calls. So changes of different functions are tried in one check of those functions alone, and each is
judged by the goals of its own. A change that no goal of its function refuses there is tried once more by itself, and one that
stands in no body, as in a definition, by a check of the whole crate.

The verdicts are kept in a file that is checked in, a line each and sorted:

    CRATE NAME SUM OWN BELOW VERDICT SECONDS COMMIT DATE NOTE

NAME is the edit or the function, SUM that of the change's text. OWN sums up what the crate is made from, BELOW what is stated in
the crates below it, comments left out of both: a line is stale where one of them is another now. SECONDS are those of a processor,
COMMIT is the last one that changed a crate. Two such files are joined by putting their lines into one: of two lines about a change
the later one holds.
"""
from __future__ import annotations

import contextlib
import datetime
import fcntl
import functools
import hashlib
import os
import re
import shutil
import signal
import subprocess
import sys
import tempfile
import threading
import time
from dataclasses import dataclass, field
from pathlib import Path
from typing import Callable, Iterable, Optional

TOP = Path(__file__).resolve().parents[2]
PAGE = TOP / 'docs' / 'SLIPS.md'
COSTS = TOP / 'scripts' / 'build' / 'build_costs.txt'
LONGEST = 132

REFUSED, NAMES, LIMIT, PASSED = 'refused', 'refused by names', 'refused by a limit', 'LET THROUGH'
BAD = 'does not compile'
# (as a line of results has them)
WORDS = {REFUSED: 'refused', NAMES: 'names', LIMIT: 'limit', PASSED: 'passed', BAD: 'unread'}

# (in text that is blanked, so that nothing stands between `extern` and `fn`)
FUNCTION = re.compile(r'^[ \t]*(?:pub(?:\([a-z ]+\))? )?(?:const )?(?:unsafe )?(?:extern +)?fn (?P<name>\w+)', re.M)
CLAUSE = re.compile(r'\b(?:(?:requires|ensures)\b\*?(?:\s+\w+)?|(?:ghost|measure|decreases)\b[^{};]*)\s*\Z')
TYPE = re.compile(r'^(?:pub(?:\([a-z ]+\))? )?(?:struct|enum|trait) (?P<name>\w+)', re.M)
HEAD = re.compile(r'^(?:pub )?(?:unsafe )?(?P<kind>impl|trait)\b(?P<rest>[^{;]*)\{', re.M)
NOT_CODE = re.compile(r'//[^\n]*|"(?:[^"\\]|\\[\s\S])*"|\'(?:[^\'\\]|\\.[^\']*)\'')
# (a proof file that names what the change took away, and what cites that proof, says little of a contract)
ONLY_NAMES = re.compile(r'has no field|is not in scope|has no `|was not admitted')
RESTS = re.compile(r'was not admitted|which is not proved')


@dataclass(frozen=True)
class Function:
    """A function of a source file: its name and its place, its body's place, and the type that it stands in."""
    file: str
    name: str
    owner: str
    start: int
    body: int
    end: int
    # (the file of the type that it stands in, where that is another one)
    home: str = ''

    def path(self) -> str:
        """The folder of its proof, below proofs/."""
        module = (self.home or self.file)[len('src/'):-len('.rt')]
        parts = [] if module in ('lib', 'main') else module.split('/')
        return '/'.join([*parts, *([self.owner] if self.owner else []), self.name])

    def said(self) -> str:
        """Its name, as a check takes it."""
        return self.path().replace('/', '::')


@dataclass(frozen=True)
class Change:
    """One change of a crate: what stands at a place of a file, and what is put there."""
    crate: str
    file: str
    at: int
    old: str
    new: str
    kind: str
    more: tuple = ()
    # (which one it is, where the same change can be made in several places of a function)
    place: str = ''
    # (of an edit of the gate: what is wrong, and the function and the clause that have to refuse it)
    says: str = ''
    by: str = ''

    def function(self, functions: Iterable[Function]) -> Optional[Function]:
        """The function in whose body it stands, if it stands in one."""
        inside = [it for it in functions if it.file == self.file and it.body <= self.at < it.end]
        return min(inside, key=lambda it: it.end - it.start, default=None)

    def key(self) -> str:
        """The sum of its text."""
        return hashlib.sha256('\0'.join([self.crate, self.file, self.place, self.old, self.new,
                                         *map(str, self.more)]).encode()).hexdigest()[:8]


@dataclass
class Verdict:
    """What became of a change: one of the words above, with the goal that refuses it, and the seconds of a processor."""
    change: Change
    came: str
    goal: str = ''
    function: str = ''
    seconds: float = 0
    # (all goals of its function that fail with it)
    goals: frozenset = frozenset()


def blanked(text: str) -> str:
    """The text with spaces in place of comments, strings and characters, so that braces and words are code. Lines stay lines."""
    return NOT_CODE.sub(lambda it: re.sub('[^\n]', ' ', it[0]), text)


def end_of(code: str, at: int) -> int:
    """The place right after the block that opens at `at`."""
    depth = 0
    for place in range(at, len(code)):
        depth += {'{': 1, '}': -1}.get(code[place], 0)
        if not depth:
            return place + 1
    return len(code)


def homes_of(texts: dict[str, str]) -> dict[str, str]:
    """Of each type of a crate the file that declares it. The functions of a type have its module, whatever file they stand in."""
    return {it['name']: file for file, text in texts.items() if file.endswith('.rt') for it in TYPE.finditer(blanked(text))}


def enclosed(text: str) -> tuple[str, str]:
    """What stands between the angle brackets that the text begins with, and what stands after them."""
    depth = 0
    for place, sign in enumerate(text):
        depth += {'<': 1, '>': -1}.get(sign, 0)
        if not depth:
            return text[1:place], text[place + 1:]
    return text, ''


def arguments_of(text: str) -> list[str]:
    """What stands between the commas of a list of types, by the first word of each."""
    while '<' in text:
        at = text.index('<')
        text = text[:at] + enclosed(text[at:])[1]
    return [it.split(':')[0].split()[-1] for it in text.split(',') if it.split(':')[0].split()]


def with_arguments(rest: str) -> str:
    """What is added to the name of a block's type: its arguments, if one of them is no parameter of the block."""
    mine, rest = enclosed(rest) if rest.startswith('<') else ('', rest)
    if '<' not in rest:
        return ''
    given = arguments_of(enclosed(rest[rest.index('<'):])[0])
    return '' if set(given) <= set(arguments_of(mine)) else ''.join('+' + it for it in given)


def functions_of(file: str, text: str, homes: dict[str, str]) -> list[Function]:
    """The functions of a source file that have a body."""
    code, made = blanked(text), []
    blocks = []
    for head in HEAD.finditer(code):
        rest = re.sub(r'<[^<>]*(?:<[^<>]*(?:<[^<>]*>[^<>]*)*>[^<>]*)*>', '', head['rest']).split(' where ')[0]
        more = ''
        if ' for ' in rest:
            trait, kind = rest.split(' for ')
            owner = kind.split()[0].split('::')[-1] + trait.split()[-1].split('::')[-1]
        else:
            owner = rest.split()[0].split('::')[-1].rstrip(':') if rest.split() else ''
            more = with_arguments(head['rest'].split(' where ')[0].strip()) if head['kind'] == 'impl' else ''
        blocks.append((head.end() - 1, end_of(code, head.end() - 1), owner, more))
    for it in FUNCTION.finditer(code):
        depth, place, body = 0, it.end(), -1
        while place < len(code):
            sign = code[place]
            if sign in '([':
                depth += 1
            elif sign in ')]':
                depth -= 1
            elif sign == '{' and not depth:
                # (a contract has braces of its own, over several lines where a clause is long)
                if not CLAUSE.search(code, it.end(), place):
                    body = place
                    break
                place = end_of(code, place) - 1
            elif sign == ';' and not depth:
                break
            place += 1
        if body < 0:
            continue
        owner, more = next(((owner, more) for start, end, owner, more in blocks if start < it.start() < end), ('', ''))
        # (a block for some arguments of its type has the module of its own file)
        home = '' if more else homes.get(owner, '')
        made.append(Function(file, it['name'], owner + more, it.start(), body, end_of(code, body), home))
    return made


def crates() -> dict[str, list[str]]:
    """Each crate of crates.txt, with those of this repository that it lists."""
    lines = [it.split('#')[0] for it in (TOP / 'crates.txt').read_text(encoding='utf-8').splitlines()]
    made = {}
    for line in lines:
        if ':' in line:
            name, rest = line.split(':', 1)
            made[name.split()[0]] = rest.split()
    return {name: [it for it in below if it in made] for name, below in made.items()}


def all_below(name: str, graph: dict[str, list[str]]) -> set[str]:
    """The crates that a crate stands on, near and far."""
    seen, left = set(), [name]
    while left:
        for it in graph[left.pop()]:
            if it not in seen:
                seen.add(it)
                left.append(it)
    return seen


@functools.lru_cache(maxsize=None)
def file_sum(path: Path) -> bytes:
    """A sum of a source file, without comments that have a line of their own, and without empty lines."""
    sign = '//' if path.suffix == '.rt' else '--'
    lines = (it.strip() for it in path.read_text(encoding='utf-8', errors='replace').splitlines())
    return hashlib.sha256('\n'.join(it for it in lines if it and not it.startswith(sign)).encode()).digest()


def text_sum(paths: Iterable[Path]) -> str:
    """A sum of source files."""
    made = hashlib.sha256()
    for path in paths:
        made.update(str(path.relative_to(TOP)).encode() + b'\0' + file_sum(path))
    return made.hexdigest()[:8]


@functools.lru_cache(maxsize=None)
def files_in(crate: str, *folders: str) -> list[Path]:
    return [it for folder in folders for it in sorted((TOP / 'crates' / crate / folder).rglob('*')) if it.is_file()]


@dataclass(frozen=True)
class Sums:
    """What a verdict about a crate rests on: the crate's own files, and what stands in those below it."""
    own: str
    below: str

    @staticmethod
    def of(name: str, graph: dict[str, list[str]]) -> 'Sums':
        below = [path for it in sorted(all_below(name, graph)) for path in files_in(it, 'src', 'specs')]
        return Sums(text_sum(files_in(name, 'src', 'specs', 'proofs')), text_sum(below))


@dataclass(frozen=True)
class Line:
    """A line of a file of results."""
    crate: str
    name: str
    key: str
    own: str
    below: str
    word: str
    seconds: int
    commit: str
    date: str
    note: str = ''

    @staticmethod
    def of(text: str) -> 'Line':
        """Reads a line; a ValueError where it is none."""
        parts = text.split(' ', 9)
        if len(parts) < 9 or parts[5] not in WORDS.values() or not parts[6].isdigit():
            raise ValueError(text)
        return Line(*parts[:6], int(parts[6]), *parts[7:])

    def text(self) -> str:
        return ' '.join([self.crate, self.name, self.key, self.own, self.below, self.word, str(self.seconds), self.commit,
                         self.date, self.note])[:LONGEST].rstrip()

    def is_now(self, sums: Sums) -> bool:
        return (self.own, self.below) == (sums.own, sums.below)


class Results:
    """A file of results."""

    def __init__(self, path: Path):
        self.path, self.lock = path, threading.Lock()
        self.lines = self.read()

    def read(self) -> dict[str, Line]:
        """The lines by their changes: the later one, where a change has two."""
        made: dict[str, Line] = {}
        for text in self.path.read_text(encoding='utf-8').splitlines() if self.path.is_file() else ():
            try:
                line = Line.of(text)
            except ValueError:
                sys.exit(f'{self.path.relative_to(TOP)}: this is no line of results: {text}')
            if line.key not in made or made[line.key].date <= line.date:
                made[line.key] = line
        return made

    def put(self, line: Line) -> None:
        """Adds a line to what the file has now, to which another run may have added some."""
        self.write(lambda lines: lines.update({line.key: line}))

    def write(self, change: Callable[[dict[str, Line]], None] = lambda lines: None) -> None:
        """Writes the file anew, sorted, with this change."""
        with self.lock:
            folder = os.open(self.path.parent, os.O_RDONLY)
            try:
                fcntl.flock(folder, fcntl.LOCK_EX)
                self.lines = self.read()
                change(self.lines)
                with tempfile.NamedTemporaryFile('w', encoding='utf-8', dir=self.path.parent, delete=False) as out:
                    out.write(self.sorted())
                os.chmod(out.name, 0o644)
                os.replace(out.name, self.path)
            finally:
                os.close(folder)

    def sorted(self) -> str:
        return ''.join(f'{it}\n' for it in sorted(line.text() for line in self.lines.values()))


RUNNING: set[int] = set()


def session_seconds(session: int) -> float:
    """The seconds of a processor that the processes of a session took which still run."""
    spent = 0
    for pid in filter(str.isdigit, os.listdir('/proc')):
        with contextlib.suppress(OSError):
            text = Path('/proc', pid, 'stat').read_text(encoding='utf-8', errors='replace')
            fields = text[text.rindex(')') + 2:].split()
            if int(fields[3]) == session:
                spent += int(fields[11]) + int(fields[12])
    return spent / os.sysconf('SC_CLK_TCK')


def stop(*_) -> None:
    """Ends this run, and the checks that it began."""
    for pid in RUNNING:
        with contextlib.suppress(OSError):
            os.kill(pid, signal.SIGKILL)
    os._exit(130)


class Lane:
    """A clone of the repository in which changes are tried, with the libraries that are built here."""

    def __init__(self, folder: Path, yields: bool = False, behind_ci: bool = False):
        self.folder, self.yields = folder, yields
        if not folder.is_dir():
            subprocess.run(['git', 'clone', '-q', str(TOP), str(folder)], check=True)
        else:
            subprocess.run(['git', '-C', str(folder), 'fetch', '-q', 'origin'], check=True)
            subprocess.run(['git', '-C', str(folder), 'reset', '-q', '--hard', git('rev-parse', 'HEAD')], check=True)
        subprocess.run([sys.executable, str(TOP / 'scripts' / 'build' / 'share_libraries.py'), str(folder), str(TOP),
                        *(['--behind-ci'] if behind_ci else [])], check=True, stdout=subprocess.DEVNULL)

    def take_work(self, crate: str) -> None:
        """What a check of the crate kept at the top, so that the first check here is no slower than the next."""
        source, to = (it / 'crates' / crate / 'out' / 'incremental' for it in (TOP, self.folder))
        if source.is_dir() and not to.is_dir():
            to.parent.mkdir(exist_ok=True)
            shutil.copytree(source, to)

    def has_library(self, crate: str) -> bool:
        """Whether the crate is proved as it is: its library was given with a stamp, which says so of these very sources."""
        return (self.folder / 'crates' / crate / 'out' / 'rlib' / 'stamp').is_file()

    def check(self, crate: str, seconds: int, functions: Iterable[str] = ()) -> tuple[int, str, float]:
        """Checks the crate, or these functions of it alone, and returns the status, what was printed, and the seconds of a
        processor."""
        place = self.folder / 'crates' / crate
        words = [it for name in functions for it in ('--only', name)]
        with tempfile.TemporaryFile() as out:
            # (a session of its own, by which what it starts is found)
            ran = subprocess.Popen([sys.executable, str(TOP / 'scripts' / 'build' / 'rt_once.py'), 'check', '--jobs', '1', *words],
                                   cwd=place, stdin=subprocess.DEVNULL, stdout=out, stderr=subprocess.STDOUT,
                                   start_new_session=True)
            RUNNING.add(ran.pid)
            if self.yields:
                # (it is a scheduling group of its own too, so `nice` alone yields to nothing outside of it)
                os.setpriority(os.PRIO_PROCESS, ran.pid, 19)
                with contextlib.suppress(OSError):
                    Path(f'/proc/{ran.pid}/autogroup').write_text('19', encoding='ascii')
            done, in_time, turn = 0, True, 0
            while not done:
                time.sleep(0.1)
                turn += 1
                done, status, used = os.wait4(ran.pid, os.WNOHANG)
                if not done and in_time and turn % 100 == 0 and session_seconds(ran.pid) > seconds:
                    # (what it started ends with it)
                    in_time = False
                    ran.kill()
            RUNNING.discard(ran.pid)
            ran.returncode = os.waitstatus_to_exitcode(status)
            out.seek(0)
            said = out.read().decode(errors='replace')
        return ran.returncode if in_time else 124, said, used.ru_utime + used.ru_stime if in_time else seconds

    def put(self, crate: str, changes: list[Change], texts: dict[str, str]) -> None:
        """Writes the crate's source with these changes."""
        made = dict(texts)
        for change in sorted(changes, key=lambda it: -it.at):
            made[change.file] = changed(made[change.file], change)
            for file, old, new in change.more:
                assert made[file].count(old) == 1, (change, old)
                made[file] = made[file].replace(old, new)
        for file, text in made.items():
            path = self.folder / 'crates' / crate / file
            if path.read_text(encoding='utf-8') != text:
                path.write_text(text, encoding='utf-8')


def git(*words: str) -> str:
    return subprocess.run(['git', '-C', str(TOP), *words], check=True, stdout=subprocess.PIPE).stdout.decode().strip()


def kit() -> str:
    """What the toolchain calls itself, as part of a file's name."""
    rt = shutil.which('rt')
    path = Path(os.path.realpath(rt)).parent.parent / 'KIT-ID' if rt else None
    said = path.read_text(encoding='utf-8') if path and path.is_file() else 'unknown'
    return re.sub(r'\W+', '-', said.strip())[:60]


@dataclass
class Outcome:
    """What a check said, by the function that it said it of."""
    proved: bool = False
    read: bool = True
    limited: bool = False
    goals: dict = field(default_factory=dict)
    others: list = field(default_factory=list)
    broken: list = field(default_factory=list)
    # (where the errors of a function's proof stand, and which goals the source is told to lack)
    answers: dict = field(default_factory=dict)
    lacks: list = field(default_factory=list)


def outcome(status: int, said: str) -> Outcome:
    """Reads the lines of a check."""
    made, lines = Outcome(), said.rstrip('\n').split('\n')
    made.proved = status == 0
    made.limited = status in (3, 124, -9)
    made.read = status == 0 or any(it.startswith(('logic=not-proved', 'only=')) for it in lines) or made.limited
    for line in lines:
        of_proof = re.match(r'(?:note: )?(?:\./)?(proofs/(.*)/\w+\.antt):(\d+):\d+: error(.*)', line)
        lack = re.match(r'(?:note: )?(?:\./)?(src/\S+\.rt):(\d+):\d+: it is not proved .*\(`([\w-]+)`\)', line)
        of_source = re.match(r'(?:note: )?(?:\./)?(src/\S+\.rt):(\d+):\d+: error(.*)', line)
        # (of a function whose proof has no file for that goal)
        of_search = re.match(r'fn \w+::(\S+): no proof.*?`search` did not prove (`.*)', line)
        if of_search:
            made.goals.setdefault(of_search[1].replace('::', '/'), []).append(of_search[2])
        elif of_proof:
            made.goals.setdefault(of_proof[2], []).append(of_proof[4])
            if not ONLY_NAMES.search(of_proof[4]):
                made.answers.setdefault(of_proof[2], []).append((of_proof[1], int(of_proof[3])))
        elif lack:
            made.lacks.append((lack[1], int(lack[2]), lack[3]))
        elif of_source:
            made.broken.append((of_source[1], int(of_source[2]), of_source[3]))
        elif re.match(r'(?:note: )?(?:\./)?proofs/\w+\.antt:\d+:\d+: error', line):
            made.others.append(line)
    return made


def named_at(text: str, line: int) -> str:
    """The name of the answer in which a line of a proof file stands."""
    found = [it[1] for it in re.finditer(r'(?m)^(?:pub )?(?!use\b|mod\b)([^\W\d][\w-]*)', '\n'.join(text.split('\n')[:line]))]
    return found[-1] if found else ''


def is_by(goals: Iterable[str], clause: str, alone: bool) -> bool:
    """Whether one of these goals is that of a clause. Of the only clause of a function the goals have no name in them."""
    of_clause = re.compile(rf'(?:^|-)clause-{re.escape(clause)}(?:-|$)')
    return any(of_clause.search(it) or alone and it.split('-')[0] == 'returns' for it in goals)


def goal_of(said: list[str]) -> tuple[str, str]:
    """Which word the errors of a function come to, and the first goal that they name."""
    real = [it for it in said if not ONLY_NAMES.search(it)]
    named = re.search(r'`([\w-]+)`', (real or said)[0])
    return REFUSED if real else NAMES, named[1] if named else ''


class Trial:
    """Tries all changes of one crate in one lane."""

    def __init__(self, lane: Lane, crate: str, changes: list[Change], say: Callable[[Verdict], None], how: Options,
                 is_over: Callable[[], bool] = lambda: False):
        self.lane, self.crate, self.say, self.how, self.is_over = lane, crate, say, how, is_over
        folder = TOP / 'crates' / crate
        self.texts = {str(it.relative_to(folder)): it.read_text(encoding='utf-8')
                      for it in files_in(crate, 'src', 'specs', 'proofs') if it.suffix in ('.rt', '.antt')}
        self.homes = homes_of(self.texts)
        self.functions = [it for file, text in self.texts.items() if file.endswith('.rt')
                          for it in functions_of(file, text, self.homes)]
        self.changes = changes
        self.spent: dict[str, float] = {}

    def check(self, changes: list[Change], functions: Iterable[str]) -> tuple[int, str]:
        """Checks these functions with these changes, and shares the cost among them."""
        status, said, seconds = self.lane.check(self.crate, self.how.seconds, sorted(functions))
        for it in changes:
            self.spent[it.key()] = self.spent.get(it.key(), 0) + seconds / len(changes)
        return status, said

    def run(self) -> None:
        self.lane.take_work(self.crate)
        own = {name for change in self.changes for name in self.touched(change)}
        # (what rt ci has just proved needs no proof before its changes, also without a library: so is a static one)
        if own and not self.how.behind_ci and not self.lane.has_library(self.crate):
            status, said = self.check([], own)
            if status:
                raise RuntimeError(f'{self.crate} itself is not proved in {self.lane.folder}: {said[-400:]}')
        left, alone = list(self.changes), []
        try:
            while left and not self.is_over():
                group, taken = [], set()
                for change in left:
                    it = change.function(self.functions)
                    if it and not change.more and it.path() not in taken:
                        taken.add(it.path())
                        group.append(change)
                if not group:
                    alone += left
                    break
                left = [it for it in left if it not in group]
                alone += self.round(group)
            # (those that want a whole check last)
            for change in sorted(alone, key=lambda it: not self.touched(it)):
                if self.is_over() or self.how.together:
                    break
                self.single(change)
        finally:
            self.lane.put(self.crate, [], self.texts)

    def touched(self, change: Change) -> list[str]:
        """The functions in whose bodies the change stands; none, where some of it stands in no body."""
        if not change.more:
            it = change.function(self.functions)
            return [it.said()] if it else []
        places = [(change.file, change.at)]
        for file, old, _ in change.more:
            text = changed(self.texts[file], change) if file == change.file else self.texts[file]
            at = text.find(old)
            if file == change.file and at > change.at:
                at = max(change.at, at - len(change.new) + len(change.old))
            places.append((file, at))
        found = [Change(change.crate, file, at, '', '', '').function(self.functions) for file, at in places]
        return sorted({it.said() for it in found if it}) if all(found) else []

    def found(self, change: Change, came: str, goal: str = '', goals: Iterable[str] = ()) -> None:
        it = change.function(self.functions)
        self.say(Verdict(change, came, goal, it.path() if it else '', self.spent.get(change.key(), 0), frozenset(goals)))

    def by_function(self, lines: Iterable[tuple[str, int, str]]) -> dict[str, list[str]]:
        """What is said of lines of the source as it is in the lane, by the path of the function that they stand in."""
        grown: dict[str, list[str]] = {}
        for file, line, said in lines:
            text = self.lane.folder.joinpath('crates', self.crate, file).read_text(encoding='utf-8')
            at = sum(len(it) for it in text.splitlines(True)[:line - 1]) + len(text.splitlines(True)[line - 1].rstrip()) - 1
            for it in functions_of(file, text, self.homes):
                if it.start <= at < it.end:
                    grown.setdefault(it.path(), []).append(said)
        return grown

    def at_line(self, made: Outcome) -> dict[str, list[str]]:
        """The errors that stand in the source, by the path of the function that they stand in."""
        return self.by_function(made.broken)

    def goals_of(self, made: Outcome, path: str) -> frozenset[str]:
        """The goals of a function that fail: those that errors name, those that the errors stand in the answers of, and those that
        the source is told to lack. What only names something that is gone says nothing of a goal."""
        named = {it[1] for said in made.goals.get(path, []) if not ONLY_NAMES.search(said)
                 for it in [re.search(r'`([\w-]+)`', said)] if it}
        for file, line in made.answers.get(path, []):
            place = self.lane.folder / 'crates' / self.crate / file
            named.add(named_at(place.read_text(encoding='utf-8'), line) if place.is_file() else '')
        return frozenset(named.union(self.by_function(made.lacks).get(path, [])) - {''})

    def round(self, group: list[Change]) -> list[Change]:
        """Tries changes of different functions at once, and returns those that are to be tried alone."""
        while group:
            self.lane.put(self.crate, group, self.texts)
            status, said = self.check(group, [it.function(self.functions).said() for it in group])
            made = outcome(status, said)
            in_source = self.at_line(made)
            if made.read:
                break
            bad = [it for it in group if it.function(self.functions).path() in in_source]
            if not bad:
                # (nothing says which one cannot be read)
                half = len(group) // 2
                return self.round(group[:half]) + self.round(group[half:]) if half else group
            for it in bad:
                self.found(it, BAD, in_source[it.function(self.functions).path()][0][:120])
            group = [it for it in group if it not in bad]
        if not group:
            return []
        again = []
        for change in group:
            path = change.function(self.functions).path()
            errors = made.goals.get(path, []) + in_source.get(path, [])
            # (what rests on another function that is changed here says nothing of this change)
            if errors and (len(group) == 1 or not all(RESTS.search(it) for it in errors)):
                self.found(change, *goal_of(errors), self.goals_of(made, path))
            else:
                again.append(change)
        return again if len(group) > 1 or not made.proved else self.passed(again)

    def passed(self, changes: list[Change]) -> list[Change]:
        for it in changes:
            self.found(it, PASSED)
        return []

    def single(self, change: Change) -> None:
        """Tries one change alone."""
        self.lane.put(self.crate, [change], self.texts)
        status, said = self.check([change], self.touched(change))
        if ' has no function `' in said:
            # (its name says more, as of a function of one form of a type: then the whole crate tells)
            status, said = self.check([change], [])
        made = outcome(status, said)
        errors = [it for all_ in made.goals.values() for it in all_] + [it[2] for it in made.broken] + made.others
        if made.proved:
            self.found(change, PASSED)
        elif not made.read:
            self.found(change, BAD, next((it for it in said.split('\n') if 'error' in it), said.strip())[:120])
        elif errors:
            it = change.function(self.functions)
            self.found(change, *goal_of(errors), self.goals_of(made, it.path()) if it else ())
        elif made.limited:
            self.found(change, LIMIT)
        else:
            self.found(change, REFUSED)


def changed(text: str, change: Change) -> str:
    """The text of its file with a change."""
    assert text[change.at:change.at + len(change.old)] == change.old, change
    return text[:change.at] + change.new + text[change.at + len(change.old):]


def cost_of(crate: str) -> float:
    """What the proof of a crate takes, as the build measured it."""
    lines = COSTS.read_text(encoding='utf-8').splitlines() if COSTS.is_file() else []
    known = {it.split()[0]: float(it.split()[1]) for it in lines if it and not it.startswith('#')}
    return known.get(crate, 1000)


@dataclass
class Options:
    """How a run goes."""
    work: Path
    lanes: int = 2
    seconds: int = 1800
    minutes: int = 0
    only_new: bool = False
    yields: bool = False
    together: bool = False
    # (the libraries are those that `rt ci` has just left)
    behind_ci: bool = False
    # (begins no check after so many seconds of a processor; 0: as many as it takes)
    most: float = 0
    # (which verdicts are kept, and what is noted of them)
    keeps: Callable = lambda verdict: True
    notes: Optional[Callable] = None
    says: Optional[Callable] = None


def add_options(words) -> None:
    """The words of a command line that both scripts know."""
    words.add_argument('crates', nargs='*', metavar='CRATE')
    words.add_argument('--lanes', type=int, default=2, help='how many provers run side by side')
    words.add_argument('--work', type=Path, help="where clones are kept: in git's folder, where it is not said")
    words.add_argument('--seconds', type=int, default=1800, help='the limit of one check, in seconds of a processor')
    words.add_argument('--minutes', type=int, default=0, help='begins no check after so many')
    words.add_argument('--new', action='store_true', help='tries only those without a verdict, and leaves stale ones as they are')
    words.add_argument('--together', action='store_true', help='tries only what can share a check, and leaves the rest untried')
    words.add_argument('--yield', dest='yields', action='store_true', help='provers take only what other processes leave')
    words.add_argument('--list', action='store_true', help='lists them with their sums and verdicts, and tries none')
    words.add_argument('--crates', dest='by_crate', action='store_true', help='prints a row for each crate, and tries none')
    words.add_argument('--table', action='store_true', help='writes the tables of docs/SLIPS.md')
    words.add_argument('--check', action='store_true', help='fails where docs/SLIPS.md and the results do not agree')


def options_of(it) -> Options:
    # (a gate refuses sources that lie in the checkout and are of no crate)
    work = it.work or Path(git('rev-parse', '--absolute-git-dir')) / 'r10-slips'
    return Options(work.resolve(), it.lanes, it.seconds, it.minutes, it.new, it.yields, it.together)


def listed(changes: list[Change], results: Results, what: str) -> None:
    """Prints the changes with their sums, and what is known of each."""
    graph = crates()
    sums = {name: Sums.of(name, graph) for name in {it.crate for it in changes}}
    for it in changes:
        line = results.lines.get(it.key())
        known = 'never tried' if not line else line.word if line.is_now(sums[it.crate]) else f'{line.word}, stale'
        text = it.new.strip() or '(nothing)'
        print(f'{it.key()} {it.crate} {it.file} {it.kind} ({known}): {it.old.strip()} -> {text}')
    print(f'{len(changes)} {what}')


def run(changes: list[Change], how: Options, results: Results) -> list[Verdict]:
    """Tries all changes that have no verdict that still holds, crates with a cheap proof first, and returns the new verdicts."""
    if git('status', '--porcelain', '--', 'crates', 'crates.txt'):
        sys.exit('commit what is changed below crates/ first: clones are made of what is committed')
    how.work.mkdir(parents=True, exist_ok=True)
    graph, verdicts, failed, began = crates(), [], [], time.time()
    commit = git('log', '-1', '--format=%h', '--abbrev=8', '--', 'crates', 'crates.txt')
    by_crate: dict[str, list[Change]] = {}
    sums = {name: Sums.of(name, graph) for name in {it.crate for it in changes}}
    for change in changes:
        known = results.lines.get(change.key())
        if not known or not (how.only_new or known.is_now(sums[change.crate])):
            by_crate.setdefault(change.crate, []).append(change)
    todo = sorted(by_crate, key=cost_of)
    lock = threading.Lock()

    def is_over() -> bool:
        spent = sum(it.seconds for it in verdicts)
        return bool(how.minutes) and time.time() > began + 60 * how.minutes or bool(how.most) and spent > how.most

    def say(verdict: Verdict) -> None:
        it = verdict.change
        date = datetime.datetime.now(datetime.timezone.utc).strftime('%Y-%m-%dT%H:%M')
        if how.keeps(verdict):
            results.put(Line(it.crate, it.kind, it.key(), sums[it.crate].own, sums[it.crate].below, WORDS[verdict.came],
                             round(verdict.seconds), commit, date, (how.notes or note_of)(verdict)))
        with lock:
            verdicts.append(verdict)
            print((how.says or line_of)(verdict), flush=True)

    def work_in(number: int) -> None:
        lane = Lane(how.work / f'lane{number}', how.yields, how.behind_ci)
        while True:
            with lock:
                if not todo or is_over():
                    return
                crate = todo.pop(0)
                # (another run may have tried some by now)
                known = results.read()
                own = [it for it in by_crate[crate] if it.key() not in known or not known[it.key()].is_now(sums[crate])]
            start = time.time()
            try:
                Trial(lane, crate, own, say, how, is_over).run()
            except (RuntimeError, OSError, AssertionError) as it:
                with lock:
                    failed.append(crate)
                    print(f'{crate}: {it}', flush=True)
            print(f'# {crate}: {time.time() - start:.0f} s', flush=True)

    for it in (signal.SIGINT, signal.SIGTERM):
        signal.signal(it, stop)
    threads = [threading.Thread(target=work_in, args=(it,)) for it in range(min(how.lanes, max(len(todo), 1)))]
    for it in threads:
        it.start()
    for it in threads:
        it.join()
    if failed:
        print(f'not tried: {" ".join(failed)}', flush=True)
    tried = {it.change.key() for it in verdicts}
    left = sum(it.key() not in tried for own in by_crate.values() for it in own)
    print(f'{len(verdicts)} tried, {left} left', flush=True)
    return verdicts


def note_of(verdict: Verdict) -> str:
    """What a line of results says at its end: the goal that refuses the change, or else the change."""
    it = verdict.change
    if verdict.came in (PASSED, LIMIT) or not verdict.goal:
        return ' '.join(f'{verdict.function.split("/")[-1]}: {it.old.strip()} -> {it.new.strip() or "(nothing)"}'.split())
    return ' '.join(verdict.goal.split()).lstrip(': ')


def line_of(verdict: Verdict) -> str:
    """A verdict as a line."""
    it = verdict.change
    text = it.new.strip() or '(nothing)'
    return f'{verdict.came}: {it.key()} {it.crate} {it.file} {verdict.function or "-"}: {it.old.strip()[:60]} -> {text[:60]}' + (
        f' ({verdict.goal})' if verdict.goal else '')


# ---- the page

WHY = re.compile(r'^\| `([0-9a-f]{8})` \|.*\| ([^|]*) \|$', re.M)
EQUAL = 'Equal body'


def explained(page: str) -> dict[str, str]:
    """Why a change that is let through stays, by its sum, as the page's table of them says."""
    return {it[1]: it[2] for it in WHY.finditer(page)}


@dataclass(frozen=True)
class Section:
    """A section of the page, which a script writes: its heading, the script, and the columns that change with the crates, which no
    gate compares."""
    heading: str
    by: str
    loose: tuple[int, ...]


SLIPS = Section('Slips', 'scripts/proofs/slips.py', (10, 11))
# (what is drawn changes a little with each body, and what was tried stays in the results)
MUTANTS = Section('Mutants', 'scripts/proofs/mutants.py', (2, 9, 10, 11))
HEADS = ['Crate', 'In all', 'Refused', 'By names alone', 'By a limit', 'Let through', 'No slip', 'Does not compile', 'Never tried',
         'Crate changed since', 'Below it changed since', 'Seconds each', 'Tried at', 'On']


def table(changes: list[Change], lines: dict[str, Line], why: dict[str, str], by_crate: bool = True) -> str:
    """The table of changes and of their last verdicts, by crate or in all; stale ones are counted by what changed."""
    graph = crates()
    made, whole, spent = ['| ' + ' | '.join(HEADS) + ' |', '|---' * len(HEADS) + '|'], [0] * 10, 0
    keys: dict[str, set[str]] = {name: set() for name in graph}
    for it in changes:
        keys[it.crate].add(it.key())
    for name in graph:
        own = [it for it in lines.values() if it.crate == name]
        every = keys[name] | {it.key for it in own}
        if not every:
            continue
        sums = Sums.of(name, graph)
        passed = [it for it in own if it.word == 'passed']
        equal = sum(why.get(it.key, '').startswith(EQUAL) for it in passed)
        numbers = [len(every), *(sum(it.word == word for it in own) for word in ('refused', 'names', 'limit')), len(passed) - equal,
                   equal, sum(it.word == 'unread' for it in own), len(every) - len(own), sum(it.own != sums.own for it in own),
                   sum(it.own == sums.own and it.below != sums.below for it in own)]
        whole = [sum(it) for it in zip(whole, numbers)]
        last, seconds = max(own, key=lambda it: it.date, default=None), sum(it.seconds for it in own)
        spent += seconds
        if not by_crate:
            continue
        made.append(f'| `{name}` | ' + ' | '.join(str(it or '') for it in numbers) +
                    (f' | {seconds / len(own):.0f} | `{last.commit}` | {last.date[:10]} |' if last else ' | | | |'))
    made.append('| all | ' + ' | '.join(str(it or '') for it in whole) +
                (f' | {spent / len(lines):.0f} | | |' if lines else ' | | | |'))
    return re.sub(r'(?<=\|) +(?=\|)', ' ', '\n'.join(made))


def stale(changes: Iterable[Change], lines: dict[str, Line]) -> list[str]:
    """The sums of the changes whose crate is another now than when they were tried, and of those that were never tried."""
    graph = crates()
    sums = {name: Sums.of(name, graph) for name in {it.crate for it in changes}}
    return sorted(it.key() for it in changes if it.key() not in lines or lines[it.key()].own != sums[it.crate].own)


def place_of(section: Section, page: str) -> tuple[int, int]:
    """Where what a script writes begins and ends: from a line with `Made by` after the heading to the next heading."""
    found = re.search(rf'^## {re.escape(section.heading)}\n(?:.*\n)*?(?=Made by )', page, re.M)
    if not found:
        sys.exit(f'docs/SLIPS.md has no "## {section.heading}" with a line "Made by .." after it')
    end = page.find('\n## ', found.end())
    return found.end(), len(page) if end < 0 else end


def text_of(section: Section, changes: list[Change], results: Results, page: str) -> str:
    """What stands in the section."""
    why = explained(page)
    return (f'Made by `{section.by} --table`.\n\n{by_goals(results.lines.values(), why)}\n\n'
            f'{table(changes, results.lines, why, by_crate=False)}\n')


def by_goals(lines: Iterable[Line], why: dict[str, str]) -> str:
    """How many of the bodies that compile, and are no equal ones, a goal of a contract refuses. Names alone refuse none."""
    lines = list(lines)
    real = [it for it in lines if it.word != 'unread' and not (it.word == 'passed' and why.get(it.key, '').startswith(EQUAL))]
    refused = sum(it.word == 'refused' for it in real)
    share = f', {100 * refused / len(real):.1f} in a hundred' if real else ''
    return (f'{refused} of {len(real)} are refused by a goal{share}. What does not compile and what is an equal body is left out. '
            'What names alone refuse counts as not refused.')


def write_page(section: Section, changes: list[Change], results: Results) -> None:
    """Writes the section of the page anew."""
    page = PAGE.read_text(encoding='utf-8')
    start, end = place_of(section, page)
    PAGE.write_text(page[:start] + text_of(section, changes, results, page) + page[end:], encoding='utf-8')


def firm(section: Section, text: str) -> str:
    """A table without its loose columns."""
    return '\n'.join('|'.join(it for at, it in enumerate(line.split('|')) if at not in section.loose) for line in text.splitlines())


def faults(section: Section, changes: list[Change], results: Results) -> list[str]:
    """What does not agree between results and page."""
    made, name = [], results.path.relative_to(TOP)
    if results.path.read_text(encoding='utf-8') != results.sorted():
        made.append(f'{name} is not sorted, or has two lines of one change: run {section.by} --table')
    page = PAGE.read_text(encoding='utf-8')
    start, end = place_of(section, page)
    if firm(section, page[start:end]) != firm(section, text_of(section, changes, results, page)):
        made.append(f'docs/SLIPS.md, "{section.heading}", is not what {section.by} --table writes: run it')
    why = explained(page)
    made += [f'docs/SLIPS.md does not explain {it.key}, which is let through: {it.crate} {it.note}'
             for it in results.lines.values() if it.word == 'passed' and it.key not in why]
    return made
