#!/usr/bin/env python3
"""Counts the words of the documents, page by page, as `wc -w` does: most first, and of which a script writes how many.

    scripts/lint/page_words.py

It counts the documents of the top and of docs/, and the README of the scripts. Of a page that a script writes, all words are made.
Of one that a script writes in part, they are those after the line "Made by .." of each of its parts, up to the next heading.
"""
from __future__ import annotations

import pathlib
import re
import sys

TOP = pathlib.Path(__file__).resolve().parents[2]
MADE = re.compile(r'(?ms)^(?:\d[^\n]*\. )?Made by `scripts/.*?(?=^## |\Z)')
WHOLE = ('docs/PROOFS.md', 'docs/THEOREM.md')  # a script writes these from their first line on


def count(page: str, text: str) -> tuple[int, int]:
    """How many words a page has, and how many of them a script wrote."""
    made = text if page in WHOLE else ' '.join(MADE.findall(text))
    return len(text.split()), len(made.split())


def main() -> int:
    """Prints a line for each page, and the sum."""
    if sys.argv[1:]:
        print(__doc__, file=sys.stderr)
        return 2
    paths = [*TOP.glob('*.md'), *(TOP / 'docs').glob('*.md'), TOP / 'scripts' / 'README.md']
    found = {str(it.relative_to(TOP)): it.read_text(encoding='utf-8') for it in paths}
    counts = {page: count(page, text) for page, text in found.items()}
    print('  words   made  page')
    for page, (words, made) in sorted(counts.items(), key=lambda it: -it[1][0]):
        print(f'{words:7,}{made:7,}  {page}')
    print(f'{sum(it[0] for it in counts.values()):7,}{sum(it[1] for it in counts.values()):7,}  {len(counts)} pages')
    return 0


if __name__ == '__main__':
    sys.exit(main())
