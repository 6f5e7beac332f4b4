"""Trials of the page that `ch10 report` writes: its form, and its picture in a browser."""
from __future__ import annotations

import os
import pathlib
import re
import shutil
import subprocess
import tempfile
import time
from html.parser import HTMLParser
from typing import Dict, List, Optional, Sequence, Tuple

from postgres_server import NotThere
from range_calls import Bad, agree, ch10
from range_recordings import recording


class Page(HTMLParser):
    """What has to hold of a page: closed tags, links that lead somewhere, nothing from elsewhere, words for pictures and tables."""

    EMPTY = {'meta', 'br', 'path', 'rect', 'circle', 'line'}

    def __init__(self) -> None:
        HTMLParser.__init__(self)
        self.open: List[str] = []
        self.ids: List[str] = []
        self.links: List[str] = []
        self.faults: List[str] = []
        self.tags: Dict[str, int] = {}
        self.heads: List[int] = []

    def handle_starttag(self, tag: str, attrs: List[Tuple[str, Optional[str]]]) -> None:
        said = dict(attrs)
        self.tags[tag] = self.tags.get(tag, 0) + 1
        if tag not in self.EMPTY:
            self.open.append(tag)
        if 'id' in said:
            self.ids.append(said['id'])
        if re.fullmatch('h[1-6]', tag):
            self.heads.append(int(tag[1]))
        for name, value in attrs:
            if name.startswith('on') or name in ('src', 'srcset', 'data', 'action'):
                self.faults.append('%s of %s' % (name, tag))
            if name in ('href', 'xlink:href'):
                self.links.append(value or '')
            if value and 'url(' in value and 'url(#' not in value:
                self.faults.append('%s of %s: %s' % (name, tag, value[:40]))
        if tag in ('script', 'img', 'iframe', 'link', 'object', 'embed'):
            self.faults.append(tag)
        if tag == 'svg' and not (said.get('role') == 'img' and said.get('aria-label')):
            self.faults.append('a picture without words')
        if tag == 'th' and 'scope' not in said:
            self.faults.append('a head without a scope')

    def handle_startendtag(self, tag: str, attrs: List[Tuple[str, Optional[str]]]) -> None:
        self.handle_starttag(tag, attrs)
        if tag not in self.EMPTY:
            self.open.pop()

    def handle_endtag(self, tag: str) -> None:
        if tag in self.EMPTY:
            return
        if not self.open or self.open.pop() != tag:
            self.faults.append('</%s> that closes something else' % tag)


def check_page(text: str, names: Sequence[str]) -> None:
    page = Page()
    page.feed(text)
    page.close()
    agree((page.faults, page.open), ([], []), 'the page')
    agree(sorted(set(page.ids)), sorted(page.ids), 'the ids of the page')
    agree([link for link in page.links if link[1:] not in page.ids or link[:1] != '#'], [], 'links that lead nowhere')
    agree(page.tags['table'], page.tags['caption'], 'tables with captions')
    agree([two for one, two in zip(page.heads, page.heads[1:]) if two > one + 1], [], 'steps between heads')
    for name in names:
        agree(name in text, True, '%s on the page' % name)
    agree(re.findall(r'(?:https?:)?//(?!www\.w3\.org/2000/svg)[^\s<"\']{3,60}', text), [], 'addresses on the page')


def browser() -> str:
    for name in ('chromium', 'chromium-browser', 'google-chrome'):
        if shutil.which(name):
            return shutil.which(name)
    raise NotThere('no browser here (Debian: chromium)')


MOST_SHEETS = 10  # of a report on eight recordings of some 50 channels


def sheets_of(page: str, to: str) -> int:
    """How many sheets a page prints on, by the document that a browser makes of it."""
    by_browser(page, to, ['--no-pdf-header-footer', '--print-to-pdf=' + to])
    return len(re.findall(rb'/Type\s*/Page\b', pathlib.Path(to).read_bytes()))


def picture_of(page: str, to: str, height: int = 1600) -> None:
    """The picture that a browser makes of a page."""
    by_browser(page, to, ['--hide-scrollbars', '--screenshot=' + to, '--window-size=1200,%d' % height])


def by_browser(page: str, to: str, asked: Sequence[str]) -> None:
    """Has a browser make a file of a page."""
    room = tempfile.mkdtemp(prefix='ch10-browser-')
    try:
        words = [browser(), '--headless', '--no-sandbox', '--disable-gpu', '--user-data-dir=' + room, *asked, 'file://' + page]
        try:
            done = subprocess.run(words, stdout=subprocess.DEVNULL, stderr=subprocess.PIPE, timeout=120)
        except subprocess.TimeoutExpired:
            raise NotThere('the browser does not end within two minutes')
    finally:
        end = time.monotonic() + 10
        while os.path.exists(room) and time.monotonic() < end:  # processes of the browser write there for a while yet
            shutil.rmtree(room, ignore_errors=True)
            time.sleep(0.05)
    if done.returncode or not os.path.exists(to):
        raise Bad('the browser: ' + done.stderr.decode(errors='replace')[-300:])


def ink_of(picture: bytes) -> int:
    """How many bytes a picture has, after its head is looked at."""
    agree(picture[:8], b'\x89PNG\r\n\x1a\n', 'a picture')
    return len(picture)


def check_report(folder: str, room: str, made: str) -> None:
    names = ['r001.ch10', 'r007.ch10', 'r003.ch10', 'pair.img', 'broken.img', 'empty.ch10']
    text = ch10(['report', '--program', made] + [os.path.join(folder, name) for name in names], 1)
    check_page(text, names + ['FLT1', 'RANGE TRIAL', 'BadDirectory'])
    agree((folder + '/' in text, ' lie in %s.' % folder in text), (False, True), 'the folder of all, once')
    alone = ch10(['report', '--program', made, os.path.join(folder, 'r007.ch10')], 1)
    agree(re.findall('fill="(#[0-9a-f]+)" font-weight="bold"[^>]*>(?:faulty|damaged)<', alone), ['#fff'],
          'the word in a bar that has no room beside it')
    wide = os.path.join(room, 'wide.ch10')
    pathlib.Path(wide).write_bytes(recording(1, 1, 5000))
    strips = [len(re.findall(r'>channel \d+<', figure))
              for figure in ch10(['report', '--program', made, wide]).split('<figure>')[2:]]
    agree((max(strips), sum(strips)), (17, 50), 'channels of a picture that fits on a sheet of paper')
    page = os.path.join(room, 'report.html')
    pathlib.Path(page).write_text(text)
    try:
        picture = os.path.join(room, 'report.png')
        picture_of(page, picture)
        if ink_of(pathlib.Path(picture).read_bytes()) < 20000:
            raise Bad('the page looks empty')
        flights = [os.path.join(room, 'flight%d.ch10' % number) for number in range(8)]
        for number, flight in enumerate(flights):
            pathlib.Path(flight).write_bytes(recording(1, number, 800000))
        pathlib.Path(page).write_text(ch10(['report', '--program', made] + flights, 1))
        sheets = sheets_of(page, os.path.join(room, 'report.pdf'))
        agree(1 < sheets <= MOST_SHEETS, True, '%d sheets of a report on eight recordings, at most %d' % (sheets, MOST_SHEETS))
    except NotThere as why:
        print('NOT TRIED: the page in a browser: %s' % why)
