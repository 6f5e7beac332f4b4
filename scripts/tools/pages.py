#!/usr/bin/env python3
"""Copies the documents for users: those that an installation and a package have, with no link that leads nowhere there.

    scripts/tools/pages.py FOLDER

writes FOLDER/README.md and pages in FOLDER/docs, with the pictures that they show, and FOLDER/examples. What is for those who
carry the sources on is left out. A link to it becomes its words, and a line at the end of the page says where such pages are.
Status 1 where a page or a picture is not there, 2 for a wrong call, 3 where a file cannot be written.
"""
from __future__ import annotations

import re
import shutil
import sys
from pathlib import Path

TOP = Path(__file__).resolve().parents[2]
PAGES = ('README.md', *(f'docs/{it}.md' for it in ('USING', 'LIBRARY', 'RECORDER', 'RANGE', 'FORMAT', 'MODEL', 'UNPROVED')))
LINK = re.compile(r'(!?)\[([^\]]*)\]\(([^)\s]+)\)')
LEFT_OUT = '\nWhat is named here without a link is part of the sources, and not of an installation.\n'


def shipped(page: str, top: Path = TOP) -> tuple[str, list[str]]:
    """A page as users get it, and the pictures that it shows, by their paths below the top."""
    home, pictures, gone = (top / page).parent, [], []

    def link(it: re.Match[str]) -> str:
        path = it[3].split('#')[0]
        if re.match('[a-z]+:', it[3]) or not path:
            return it[0]
        there = (home / path).resolve().relative_to(top.resolve()).as_posix()
        if it[1]:
            pictures.append(there)
        elif there not in PAGES and there.split('/')[0] != 'examples':
            gone.append(there)
            return it[2]
        return it[0]

    text = LINK.sub(link, (top / page).read_text(encoding='utf-8'))
    return text.rstrip('\n') + '\n' + (LEFT_OUT if gone else ''), pictures


def main(words: list[str]) -> int:
    """Writes all of them."""
    if len(words) != 1 or words[0].startswith('-'):
        print(__doc__, file=sys.stderr)
        return 2
    to = Path(words[0])
    try:
        made = {page: shipped(page) for page in PAGES}
        missing = [it for _, pictures in made.values() for it in pictures if not (TOP / it).is_file()]
    except (OSError, ValueError) as fault:
        print(f'pages: {fault}', file=sys.stderr)
        return 1
    if missing:
        print(f'pages: there is no {missing[0]}', file=sys.stderr)
        return 1
    try:
        for page, (text, pictures) in made.items():
            (to / page).parent.mkdir(parents=True, exist_ok=True)
            (to / page).write_text(text, encoding='utf-8')
            for it in pictures:
                (to / it).parent.mkdir(parents=True, exist_ok=True)
                shutil.copyfile(TOP / it, to / it)
        shutil.copytree(TOP / 'examples', to / 'examples', dirs_exist_ok=True)
    except OSError as fault:
        print(f'pages: {fault}', file=sys.stderr)
        return 3
    return 0


if __name__ == '__main__':
    sys.exit(main(sys.argv[1:]))
