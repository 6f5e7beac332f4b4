"""The time line of a report: a bar for each recording over a common axis of time."""
from __future__ import annotations

from html import escape
from typing import List, Sequence, Tuple

from .facts import text_of
from .picture import least_step
from .standard import Facts
from .times import ticks_of

WIDTH, LEFT, RIGHT, ROW, TOP = 960, 250, 50, 22, 34
SPACE = WIDTH - LEFT - RIGHT
COLOURS = {'strict': '#14532d', 'lenient': '#1e40af', 'faulty': '#9b1c1c', 'unjudged': '#4a5159'}
DAY = 864000000000
MOST_WORD = 65  # how wide a word beside a bar is


def timeline(parts: Sequence[Tuple[str, Facts]]) -> List[str]:
    """The picture, and in words which recordings are not in it."""
    made: List[str] = []
    for dated in (True, False):
        some = [(name, facts, ticks_of(facts['first_time']), ticks_of(facts['last_time'])) for name, facts in parts
                if facts['first_time'] and (len(facts['first_time']) == 27) == dated]
        if some:
            made += drawn(sorted(some, key=lambda one: (one[2], one[3], one[0])), dated)
    without = [name for name, facts in parts if not facts['first_time']]
    if without:
        made.append('<p>Without a civil time: %s.</p>' % escape(', '.join(without)))
    return made


def drawn(some: Sequence[Tuple[str, Facts, int, int]], dated: bool) -> List[str]:
    """The picture of recordings whose times have a date, or of those without."""
    low, high = min(one[2] for one in some), max(one[3] for one in some)
    span = max(high - low, 1)
    height = TOP + ROW * len(some) + 30
    ends = [(text_of(end, dated) or '-')[:-5] for end in (low, high)]
    said = 'Time line of %d recording%s from %s to %s' % (len(some), '' if len(some) == 1 else 's', ends[0], ends[1])
    made = ['<figure><svg xmlns="http://www.w3.org/2000/svg" role="img" aria-label="%s" width="%d" height="%d" viewBox="0 0 %d %d" '
            'font-family="sans-serif" '
            'font-size="12">' % (escape(said, True), WIDTH, height, WIDTH, height)]
    step = least_step(max(span // 5, 1))
    for mark in range(low + -low % step, high + 1, step):
        x = LEFT + SPACE * (mark - low) / span
        made.append('<path stroke="#c3c8cf" d="M%.1f %dV%d"/><text x="%.1f" y="%d" text-anchor="middle" fill="#4a5159">%s</text>'
                    % (x, TOP - 8, height - 24, x, height - 8, mark_text(mark, step, dated)))
    for place, (name, facts, first, last) in enumerate(some):
        y, x = TOP + ROW * place, LEFT + SPACE * (first - low) / span
        wide = max(SPACE * (last - first) / span, 3)
        x = min(x, LEFT + SPACE - wide)
        text = name if len(name) <= 36 else '..' + name[-34:]
        made.append('<text x="%d" y="%d" text-anchor="end">%s</text>' % (LEFT - 8, y + 12, escape(text)))
        made.append('<rect x="%.1f" y="%d" width="%.1f" height="12" fill="%s"><title>%s: %s to %s, %s</title></rect>' % (
            x, y + 2, wide, COLOURS[facts['verdict']], escape(name), facts['first_time'], facts['last_time'], facts['verdict']))
        if facts['verdict'] == 'faulty' or facts['damaged']:
            made.append(word(x, wide, y + 12, 'faulty' if facts['verdict'] == 'faulty' else 'damaged'))
    return made + ['</svg><figcaption>%s. A bar is a recording; its times stand in the overview.</figcaption></figure>'
                   % escape(said)]


def word(x: float, wide: float, y: int, text: str) -> str:
    """A word beside a bar, or, where there is no room on either side, within it."""
    form = '<text x="%.1f" y="%d" text-anchor="%s" fill="%s" font-weight="bold"%s>%s</text>'
    if x + wide <= LEFT + SPACE - MOST_WORD:
        return form % (x + wide + 5, y, 'start', COLOURS['faulty'], '', text)
    if x >= LEFT + MOST_WORD:
        return form % (x - 5, y, 'end', COLOURS['faulty'], '', text)
    return form % (x + wide / 2, y - 1, 'middle', '#fff', ' font-size="10"', text)


def mark_text(ticks: int, step: int, dated: bool) -> str:
    """A time on the axis, as far as its step needs it."""
    day, clock = (text_of(ticks, dated) or '- 00:00:00.0').split(' ')
    if step >= DAY:
        return day
    return '%s %s' % (day[-5:], clock[:5]) if step >= 600000000 else clock[:8] if step >= 10 ** 7 else clock[:10]
