#!/usr/bin/env python3
"""What the proofs say twice, or for nobody: lemmas whose statement stands twice, lemmas without a use, and laws that nobody calls.

    scripts/proofs/said_once.py            prints what is found by kind, file by file, and how many there are
    scripts/proofs/said_once.py CRATE..    only what one of these crates has a part in
    scripts/proofs/said_once.py --check    prints all if more is found than `MOST` says, with status 1

Statements are compared up to the names of their variables. Of each that stands twice one line says where it can stay: in the
lowest crate that has it, if the others stand on that one, or else in the highest crate on which all of them stand. Crates come
lowest first, as in crates.txt: that is the order in which they are proved again.

A use is a word in the lemma's own file or in a file that imports it, or its path in a function's `tactic`. A worked value (a
statement without variables) needs none. A law is a public function whose body is empty or only calls laws. If nobody calls it, its
crate's README or a page of docs has to name it (not docs/PROVING.md, which is about lemmas). It reads the files as they stand, in
some seconds, and proves nothing.
"""
import collections
import re
import sys
from pathlib import Path

import reads

TOP = Path(__file__).resolve().parents[2]
NAME = r"[^\s(){}\[\],:;.λ→×≡∷]+"
LETTER = r"[\w\-'₀-₉]"
WORD = re.compile(rf"{LETTER}+|[^\s(){{}}\[\],.]")
TOKEN = re.compile(r"[(){}\[\],.]|[^\s(){}\[\],.]+(?:\.[^\s(){}\[\],.]+)*")
STATEMENT = re.compile(rf"^(pub )?({NAME}) : (.*)$")
HEAD = re.compile(r"^(?:(?:use|abbrev|record|data|module|ruleset|unfoldable|opaque|pub) |--)")
TACTIC = re.compile(rf"(\w+)::proofs::([\w:]+)::({LETTER}+)")
BODY = r"(?:\{\}|\{\n(?:    (?:\w+(?:::<\w+>)?\(\);|let _ = &?\w+;)\n)*\})"
LAW = re.compile(rf"(?m)^pub fn (\w+)[^{{;]*\n(?:    .*\n)*?{BODY}$")
# (two records of one name, each with fields of its own; two functions from numbers to answers)
ALLOWED = {
    "crates/r10_control/proofs/Apart.antt apart_of",
    "crates/r10_control/proofs/Entered.antt are_apart",
    "crates/r10_packet_rules/proofs/Spelled.antt all_made",
    "crates/r10_packet_rules/proofs/Spelled.antt flags_made",
}

# So much may be found, and no more. Who takes some away lowers the number.
MOST = {"copies": 0, "unused": 0, "idle": 0}

Lemma = collections.namedtuple("Lemma", "path name statement lines")


def files_of(top):
    """The sources, definitions and proofs, by their paths below TOP, without comments."""
    found = {}
    for ending in ("rt", "antt"):
        for path in sorted((top / "crates").rglob(f"*.{ending}")):
            if "out" not in path.relative_to(top).parts:
                text = path.read_text(encoding="utf-8")
                found[str(path.relative_to(top))] = re.sub(r"(?m)--.*$" if ending == "antt" else r"(?m)//.*$", "", text)
    return found


def lemmas_of(path, text):
    """The lemmas of a proof file; what the tool asks for by name (answers, walks) is none."""
    lines, at = text.split("\n"), 0
    while at < len(lines):
        head = STATEMENT.match(lines[at])
        if not head or HEAD.match(lines[at]) and not head.group(1):
            at += 1
            continue
        statement, end = [head.group(3)], at + 1
        while end < len(lines) and lines[end].startswith((" ", "\t")):
            statement.append(lines[end].strip())
            end += 1
        while end < len(lines) and not STATEMENT.match(lines[end]) and not HEAD.match(lines[end]):
            end += 1
        said = " ".join(statement)
        if not said.startswith("goal.") and not head.group(2).endswith("_spec"):
            yield Lemma(path, head.group(2), said, (at, end))
        at = end


def without_names(statement):
    """A statement with its variables numbered in their order."""
    tokens, numbers = TOKEN.findall(statement), {}
    for at, token in enumerate(tokens):
        if token in "({" or token == "λ":
            names, end = [], at + 1
            while end < len(tokens) and tokens[end] not in ("(", ":", ".", "→"):
                names.append(tokens[end])
                end += 1
            if end < len(tokens) and (tokens[end] == ":" or token == "λ" and tokens[end] == "."):
                for name in names:
                    numbers.setdefault(name, f"#{len(numbers)}")
    heads = [token.split(".") for token in tokens]
    return " ".join(".".join([numbers.get(head[0], head[0]), *head[1:]]) if head[0] else "." for head in heads)


def imports_of(text):
    """What a file imports: (module, name there, name here); a module as a whole has no name there."""
    for _, path, names in reads.IMPORT.findall(text):
        if not names:
            path, _, alias = path.partition(" as ")
            yield path.strip(), None, alias.strip() or path.rsplit(".", 1)[-1]
        for name in filter(None, map(str.strip, names.split(","))):
            yield path, name.split(" as ")[0], name.split(" as ")[-1]


def module_of(path):
    """The name under which a proof file is imported."""
    return "Rattle." + path.removeprefix("crates/").removesuffix(".antt").replace("/", ".")


def without_use(files, lemmas):
    """The lemmas of which no file has a use, also where one is used by such alone."""
    bodies = {path: reads.IMPORT.sub("", text) for path, text in files.items()}
    counts = {path: collections.Counter(WORD.findall(text)) for path, text in bodies.items()}
    users = collections.defaultdict(list)
    for path, text in files.items():
        for module, name, here in imports_of(text):
            users[module, name].append((path, here))
    own = {it: collections.Counter(WORD.findall("\n".join(files[it.path].split("\n")[slice(*it.lines)]))) for it in lemmas}
    named = set()
    for path, text in files.items():
        for crate, module, name in TACTIC.findall(text) if path.endswith(".rt") else ():
            crate = path.split("/")[1] if crate == "crate" else crate
            named.add((f"Rattle.{crate}.proofs.{module.replace('::', '.')}", name))
    left, gone = [it for it in lemmas if it.statement[0] in "({"], []
    while True:
        unused = []
        for it in left:
            module = module_of(it.path)
            in_file = counts[it.path][it.name] > own[it][it.name]
            by_name = any(counts[path][here] or f"pub use {module}" in files[path] for path, here in users[module, it.name])
            as_whole = any(re.search(rf"\.{re.escape(it.name)}(?!{LETTER})", bodies[path]) for path, _ in users[module, None])
            if not (in_file or by_name or as_whole or (module, it.name) in named):
                unused.append(it)
        if not unused:
            return gone
        for it in unused:
            counts[it.path].subtract(own[it])
        gone += unused
        left = [it for it in left if it not in unused]


def idle_laws(top, files):
    """The laws that no function calls, and that neither their crate's README nor a page of docs names."""
    items = re.compile(r"(?ms)^\s*(?:pub |ghost )*(?:use|mod) [^;]*;")
    codes = {path: items.sub("", text) for path, text in files.items() if path.endswith(".rt")}
    pages = "".join(page.read_text(encoding="utf-8") for page in sorted((top / "docs").glob("*.md")) if page.name != "PROVING.md")
    calls = collections.Counter(name for text in codes.values() for name in re.findall(r"(?<!fn )\b(\w+)(?:::<\w+>)?\(", text))
    for path, text in codes.items():
        readme = top / "crates" / path.split("/")[1] / "README.md"
        told = pages + (readme.read_text(encoding="utf-8") if readme.is_file() else "")
        for name in LAW.findall(text) if "/src/" in path else ():
            if not calls[name] and f"`{name}`" not in told:
                yield f"{path} {name}"


class Crates:
    """The crates in their order, lowest first, and on which each stands."""

    def __init__(self, top):
        path = top / "crates.txt"
        lines = path.read_text(encoding="utf-8").splitlines() if path.is_file() else []
        listed = [line for line in lines if line.strip() and not line.startswith("#")]
        self.below = {}
        for line in listed:
            name, used = line.split(":")[0].split()[0], line.split(":")[1].split()
            self.below[name] = set(used).union(*(self.below.get(it, set()) for it in used))
        self.order = {name: at for at, name in enumerate(self.below)}

    def place(self, path):
        """The place of a file's crate in the order."""
        return self.order.get(crate_of(path), len(self.order)), path

    def home(self, paths):
        """Where a statement of these files can stay: a file of theirs, or a crate on which all of them stand."""
        lowest = min(paths, key=self.place)
        names = {crate_of(path) for path in paths}
        if all(name == crate_of(lowest) or crate_of(lowest) in self.below.get(name, ()) for name in names):
            return lowest
        shared = set.intersection(*(self.below.get(name, set()) for name in names)) & set(self.order)
        return max(shared, key=self.order.get, default="no crate")


def crate_of(path):
    """The crate of a file."""
    return path.split("/")[1]


def short(path):
    """A file's path as it is printed."""
    return path.removeprefix("crates/")


def twice(groups, crates):
    """A line for each statement that stands twice: where it can stay, and where else it stands."""
    lines = []
    for group in groups:
        home = crates.home([it.path for it in group])
        rest = sorted(group, key=lambda it: crates.place(it.path))
        kept = [it for it in rest if it.path == home][:1]
        rest = [it for it in rest if it not in kept]
        stays = f"{short(home)} {kept[0].name}, also" if kept else f"to {home}, from"
        others = ", ".join(f"{short(it.path)} {it.name}" for it in rest)
        lines.append((crates.place(home if kept else f"crates/{home}"), f"    {stays} {others}"))
    return [line for _, line in sorted(lines)]


def by_file(pairs, crates):
    """A line for each file, with the names in it."""
    files = collections.defaultdict(list)
    for path, name in pairs:
        files[path].append(name)
    return [f"    {short(path)}: {', '.join(sorted(files[path]))}" for path in sorted(files, key=crates.place)]


def main(words, top=TOP):
    """Prints what is found; the status of a check says whether it is more than may be."""
    is_check, only = words == ["--check"], [] if words == ["--check"] else words
    if any(not (top / "crates" / word).is_dir() or word.startswith("-") for word in only):
        print("usage: scripts/proofs/said_once.py [--check | CRATE..]", file=sys.stderr)
        return 2
    files, crates = files_of(top), Crates(top)
    lemmas = [it for path, text in files.items() if "/proofs/" in path for it in lemmas_of(path, text)]
    groups = collections.defaultdict(list)
    for it in lemmas:
        groups[without_names(it.statement)].append(it)

    def counts(path, name):
        return f"{path} {name}" not in ALLOWED and (not only or crate_of(path) in only)

    doubled = [group for group in groups.values() if len(group) > 1 and any(counts(it.path, it.name) for it in group)]
    unused = [(it.path, it.name) for it in without_use(files, lemmas) if counts(it.path, it.name)]
    idle = [pair for pair in map(str.split, idle_laws(top, files)) if counts(*pair)]
    copies = sum(len(group) - 1 for group in doubled)
    found = {"copies": copies, "unused": len(unused), "idle": len(idle)}
    is_more = any(found[kind] > MOST[kind] for kind in MOST)
    for head, lines in (
        (f"{len(doubled)} statements stand twice or more, in {copies} lemmas too many; where each can stay:",
         twice(doubled, crates)),
        (f"{len(unused)} lemmas without a use:", by_file(unused, crates)),
        (f"{len(idle)} laws that nobody calls, and no README or page names:", by_file(idle, crates)),
    ):
        if lines and (is_more or not is_check):
            print("\n".join([head, *lines]))
    print(f"said_once: {len(lemmas)} lemmas, {copies} too many and {len(unused)} without a use; {len(idle)} idle laws")
    if is_check and is_more:
        print("said_once: that is more than the {copies}, {unused} and {idle} that may be".format_map(MOST))
    return int(is_check and is_more)


if __name__ == "__main__":
    sys.exit(main(sys.argv[1:]))
