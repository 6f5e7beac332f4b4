#!/usr/bin/env python3
"""Measures whether the documents are plain English.

    scripts/lint/plain.py                 documents and comments: prints each finding; status 1 if there is one
    scripts/lint/plain.py FILE..          these files alone
    scripts/lint/plain.py --table         a line for each file: sentences, words a sentence, the longest sentence

A finding is a sentence of more than 25 words, a document of 20 words a sentence or more on average, or a word that these documents
used with a meaning of their own. Code blocks, headings and pages that a script writes are not measured; a cell of a table and an
item of a list each end a sentence; averages leave out tables. Code in backquotes and a link each count by what a reader sees, code
as one word. Of comments in code, definitions and proofs the words alone are looked at.

scripts/lint/plain_allowed.txt lists what may stay: a path, a colon, and words that the sentence has. An entry that excuses nothing
is a finding too.
"""
import re
import sys
from pathlib import Path
from typing import Iterator, NamedTuple

TOP = Path(__file__).resolve().parents[2]
ALLOWED = TOP / "scripts" / "lint" / "plain_allowed.txt"
MADE = {"docs/PROOFS.md", "docs/THEOREM.md"}
# Pages that a script writes from a heading on.
MADE_FROM = {"docs/PROMISES.md": "## The contracts"}
LONGEST = 25
AVERAGE = 20
WORDS = {
    "behind": "say 'after', or 'below'",
    "told": "say 'given', 'reported' or 'recorded'",
    "said": "say what holds, or 'stated'",
    "meant": "say which machine or value it is",
    "sure": "say 'on the disk', or 'certain'",
    "stands for": "say 'represents'",
    "stand for": "say 'represent'",
}
PRIVATE = re.compile(r"\b(%s)\b" % "|".join(re.escape(word) for word in WORDS), re.IGNORECASE)
COMMENT = {".rt": re.compile(r"^(?:[^\"]*\s)?//[/!]?\s(.*)$"), ".antt": re.compile(r"^(?:[^\"]*\s)?--\s(.*)$")}
ENDS = re.compile(r"(?<=[.?!])[)\"'*_]*\s+(?=[\"'(*_`\[]*[A-Z0-9`])")
SHORT = re.compile(r"\b(?:e\.g|i\.e|etc|Ch|cf|No|vs)\.\s")


class Sentence(NamedTuple):
    """A sentence, with the line of its file on which its block begins."""

    line: int
    text: str
    words: int
    in_table: bool


def readable(text: str) -> str:
    """The text as a reader sees it: links by their words, emphasis without its marks, each piece of code as one word."""
    text = re.sub(r"`[^`]*`", "`code`", text)
    text = re.sub(r"!?\[([^\]]*)\]\([^)]*\)", r"\1", text)
    return re.sub(r"\*\*|__", "", text)


def blocks(text: str) -> Iterator[tuple[int, str, bool]]:
    """Each paragraph, item of a list and cell of a table, with the line on which it begins, and whether it is a cell."""
    begun, lines, fenced, after_blank, listed = 0, [], False, True, False
    for number, line in enumerate(text.split("\n") + [""], 1):
        if line.lstrip().startswith("```"):
            fenced = not fenced
            continue
        if fenced:
            continue
        bare = line.strip()
        is_item = re.match(r"\s*(?:[-*]|\d+\.)\s", line) is not None
        is_code = line.startswith("    ") and after_blank and not is_item and not listed
        if is_code:
            continue
        is_table, is_heading = bare.startswith("|"), bare.startswith("#")
        if lines and (not bare or is_item or is_table or is_heading):
            yield begun, " ".join(lines), False
            lines = []
        if is_table:
            for cell in re.split(r"(?<!\\)\|", bare)[1:-1]:
                if cell.strip(" -:"):
                    yield number, cell.strip(), True
        elif bare and not is_heading and not bare.startswith("<"):
            if not lines:
                begun = number
            lines.append(re.sub(r"^(?:[-*]|\d+\.)\s+", "", bare))
        if is_item:
            listed = True
        elif bare and not line.startswith(" "):
            listed = False
        after_blank = not bare


def sentences(path: Path) -> list[Sentence]:
    """The sentences of a document, as far as a person writes it."""
    found, text = [], path.read_text(encoding="utf-8")
    heading = MADE_FROM.get("/".join(path.parts[-2:]))
    for line, block, in_table in blocks(text.split(f"\n{heading}\n")[0] if heading else text):
        seen = readable(block)
        seen = SHORT.sub(lambda short: short.group().replace(".", "").rstrip() + " ", seen)
        for text in ENDS.split(seen):
            words = len(re.findall(r"[\w`][\w`'’.,:/%+-]*", text))
            if words:
                found.append(Sentence(line, text, words, in_table))
    return found


def comments() -> Iterator[str]:
    """The words with a meaning of their own in comments of the crates, code in backquotes left out."""
    for path in sorted(it for kind in COMMENT for it in (TOP / "crates").glob(f"*/[sp]*/**/*{kind}")):
        for number, line in enumerate(path.read_text(encoding="utf-8").split("\n"), 1):
            it = COMMENT[path.suffix].match(line)
            for word in PRIVATE.findall(readable(it.group(1))) if it else []:
                yield f"{path.relative_to(TOP)}:{number}: '{word}': {WORDS[word.lower()]}: {it.group(1)[:100]}"


def documents() -> list[Path]:
    """The documents that a person writes."""
    found = [*sorted(TOP.glob("*.md")), *sorted((TOP / "docs").glob("*.md")), *sorted((TOP / "crates").glob("*/README.md")),
             *(TOP / "scripts").glob("*.md")]
    return [path for path in found if str(path.relative_to(TOP)) not in MADE]


def allowed() -> list[tuple[str, str]]:
    """What the list of exceptions allows: a path, and words of the sentence."""
    if not ALLOWED.is_file():
        return []
    lines = ALLOWED.read_text(encoding="utf-8").splitlines()
    pairs = [line.partition(": ") for line in lines if line.strip() and not line.startswith("#")]
    return [(path.strip(), words.strip()) for path, _, words in pairs]


def average_of(found: list[Sentence]) -> float:
    """How many words a sentence has on average, tables left out."""
    counts = [it.words for it in found if not it.in_table]
    return sum(counts) / max(len(counts), 1)


def findings(path: Path, excuses: list[tuple[str, str]], used: set[tuple[str, str]]) -> Iterator[str]:
    """What is not plain in a document."""
    name = str(path.relative_to(TOP)) if path.is_relative_to(TOP) else str(path)
    found = sentences(path)
    for sentence in found:
        faults = []
        if sentence.words > LONGEST:
            faults.append(f"{sentence.words} words")
        faults += [f"'{word}': {WORDS[word.lower()]}" for word in PRIVATE.findall(sentence.text)]
        if not faults:
            continue
        excuse = next((it for it in excuses if it[0] == name and it[1] in sentence.text), None)
        if excuse:
            used.add(excuse)
        else:
            yield f"{name}:{sentence.line}: {'; '.join(faults)}: {sentence.text[:100]}"
    if average_of(found) >= AVERAGE:
        yield f"{name}: {average_of(found):.1f} words a sentence on average"


def main(words: list[str]) -> int:
    """Prints the findings, or the table."""
    table = words[:1] == ["--table"]
    names = words[1:] if table else words
    if any(word.startswith("-") for word in names):
        print(__doc__, file=sys.stderr)
        return 2
    paths = [Path(name).resolve() for name in names] or documents()
    if table:
        for path in paths:
            found = sentences(path)
            name = path.relative_to(TOP) if path.is_relative_to(TOP) else path
            print(f"{len(found):5} sentences {average_of(found):5.1f} words {max((it.words for it in found), default=0):4} longest "
                  f" {name}")
        return 0
    excuses, used = allowed(), set()
    found = [line for path in paths for line in findings(path, excuses, used)]
    if not names:
        found += comments()
        found += [f"scripts/lint/plain_allowed.txt: excuses nothing: {path}: {text}" for path, text in excuses
                  if (path, text) not in used]
    print("\n".join(found), end="\n" if found else "")
    return int(bool(found))


if __name__ == "__main__":
    sys.exit(main(sys.argv[1:]))
