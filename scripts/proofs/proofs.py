#!/usr/bin/env python3
"""Writes docs/PROOFS.md, what each crate promises, in the order of crates.txt; and in each README which crates are next to it.

    scripts/proofs/proofs.py            writes docs/PROOFS.md and those lines, of the crates that have a README.md
    scripts/proofs/proofs.py --check    fails if one is not what would be written, if a crate has no README.md, or if one has over
                                        40 lines

A crate's promise is the first paragraph of its README.md after the title: one sentence or two. The line after it names the crates
right below and right above: those of crates.txt, without what follows from others.
"""
import sys
from pathlib import Path

TOP = Path(__file__).resolve().parents[2]
sys.path[1:1] = map(str, [TOP, *(TOP / 'scripts').iterdir()])  # modules of the other folders

import pictures  # noqa: E402
import plain  # noqa: E402

PAGE = TOP / "docs" / "PROOFS.md"
LONGEST = 40

HEAD = """# What each crate promises

For who looks for the crate that promises a thing. Made by `scripts/proofs/proofs.py`, the lowest crate first.
Each line begins a crate's `README.md`. Under *Proved* it says what the contract of each named function states, then what is only \
tested, and what is neither.
Of all crates: that calls answer where there is memory, rows try, through the recorder. What is never promised (time, when \
memory is refused, what a real disk holds) stands in [UNPROVED](UNPROVED.md#never-promised).

"""


class Fault(Exception):
    """What is wrong, in one line."""


def readme_of(name):
    """The crate's README.md, by its paragraphs."""
    path = TOP / "crates" / name / "README.md"
    if not path.is_file():
        raise Fault(f"crates/{name} has no README.md")
    blocks = path.read_text(encoding="utf-8").strip().split("\n\n")
    if len(blocks) < 2 or not blocks[0].startswith("# "):
        raise Fault(f"crates/{name}/README.md does not begin with a title and a promise")
    return blocks


def promise_of(name):
    """The first paragraph of the crate's README.md after its title, in one line."""
    promise = " ".join(readme_of(name)[1].split())
    if len(plain.ENDS.split(plain.readable(promise))) > 2:
        raise Fault(f"crates/{name}/README.md has a promise of more than two sentences")
    return promise.replace("|", "\\|")


def with_neighbours(name, edges):
    """The crate's README.md with the line that names the crates right below and right above it."""
    below, above = edges[name], [it for it in edges if name in edges[it]]
    names = [", ".join(f"`{it}`" for it in some) or "no crate of r10" for some in (below, above)]
    blocks = readme_of(name)
    rest = blocks[3:] if blocks[2:] and blocks[2].startswith("Right below: ") else blocks[2:]
    return "\n\n".join([*blocks[:2], f"Right below: {names[0]}. Right above: {names[1]}.", *rest]) + "\n"


def line_of(name):
    """The crate's line of the page: the first sentence of its promise."""
    promise = plain.ENDS.split(promise_of(name))[0]
    return f"- [`{name}`](../crates/{name}/README.md): {promise}\n"


def page_of(names):
    """The page of these crates."""
    return HEAD + "".join(line_of(name) for name in names)


def main(words):
    """Writes the page, or checks it."""
    if words not in ([], ["--check"]):
        print("usage: scripts/proofs/proofs.py [--check]", file=sys.stderr)
        return 2
    edges = pictures.reduced(pictures.edges_of((TOP / "crates.txt").read_text(encoding="utf-8")))
    try:
        if not words:
            there = [name for name in edges if (TOP / "crates" / name / "README.md").is_file()]
            for name in sorted(set(edges) - set(there)):
                print(f"proofs: left out: crates/{name} has no README.md", file=sys.stderr)
            PAGE.write_text(page_of(there), encoding="utf-8")
            for name in there:
                (TOP / "crates" / name / "README.md").write_text(with_neighbours(name, edges), encoding="utf-8")
            return 0
        for name in edges:
            page = with_neighbours(name, edges)
            text = (TOP / "crates" / name / "README.md").read_text(encoding="utf-8")
            if text != page:
                raise Fault(f"crates/{name}/README.md does not name its neighbours as scripts/proofs/proofs.py does: run it")
            if text.count("\n") > LONGEST:
                raise Fault(f"crates/{name}/README.md has more than {LONGEST} lines")
        if not PAGE.is_file() or PAGE.read_text(encoding="utf-8") != page_of(edges):
            raise Fault("docs/PROOFS.md is not what scripts/proofs/proofs.py writes: run it")
    except Fault as fault:
        print(f"proofs: {fault}", file=sys.stderr)
        return 1
    return 0


if __name__ == "__main__":
    sys.exit(main(sys.argv[1:]))
