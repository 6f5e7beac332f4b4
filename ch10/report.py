"""`ch10 report`: one page about some recordings, to look at in a browser or on paper. It takes nothing from elsewhere: no script,
no picture, no font."""
from __future__ import annotations

import os
import pickle
import re
from collections import Counter
from html import escape
from typing import Callable, Dict, Iterable, Iterator, List, NamedTuple, Optional, Sequence, Set, Tuple

from .buses import label_of
from .catalogue import ENDINGS, Input, image_tasks, inputs_of, opened, title, unread
from .clocks import Asked, asked_of
from .doubts import unread_in
from .facts import facts_of, nothing_in, program_of, verdict_of_image
from .find import lost_text, verdict_text
from .inputs import Output, date_of, is_recording, printable
from .parallel import LEAST, jobs_of, made_in_order
from .picture import Counts, Picture, marks
from .standard import Data, Facts, Fault, Key, Value, Words, Wrong
from .survey import Survey, ends_of, name_of
from .table import clock_lines, said
from .timeline import timeline
from .tmats import tree
from .traffic import Traffic, heat_map, traffic_of, words_of

STYLE = """
:root { color-scheme: light; --line: #c3c8cf; --ink: #1b1f24; --soft: #4a5159; --link: #0b4f9c; }
body { margin: 0 auto; max-width: 72rem; padding: 1rem 1.5rem 3rem; font: 16px/1.45 system-ui, sans-serif; color: var(--ink); \
background: #fff; }
h1 { font-size: 1.7rem; margin: 0.5rem 0; } h2 { font-size: 1.35rem; margin: 2.2rem 0 0.6rem; border-bottom: 2px solid \
var(--line); }
h3 { font-size: 1.08rem; margin: 1.4rem 0 0.4rem; }
p { margin: 0.4rem 0; max-width: 50rem; } a { color: var(--link); }
.skip { position: absolute; left: -60rem; } .skip:focus { left: 1rem; top: 0.5rem; background: #fff; padding: 0.3rem 0.6rem; }
:focus-visible { outline: 3px solid var(--link); outline-offset: 2px; }
nav ul { columns: 2; padding-left: 1.2rem; margin: 0.3rem 0; }
table { border-collapse: collapse; font-size: 0.86rem; font-variant-numeric: tabular-nums; }
caption { text-align: left; color: var(--soft); padding: 0.2rem 0; }
th, td { border-bottom: 1px solid var(--line); padding: 0.2rem 0.55rem; text-align: right; vertical-align: top; }
thead th { border-bottom: 2px solid var(--soft); } th[scope=row] { font-weight: 600; }
.left { text-align: left; } .time { white-space: nowrap; } .wrap { overflow-wrap: anywhere; text-align: left; min-width: 18rem; }
.scroll { overflow-x: auto; } pre { font: 0.84rem/1.35 ui-monospace, monospace; white-space: pre-wrap; overflow-wrap: anywhere; }
svg { max-width: 100%; height: auto; } figure { margin: 0.6rem 0; }
.verdict { font-weight: 700; padding: 0.05rem 0.45rem; border: 2px solid; border-radius: 0.3rem; white-space: nowrap; }
.strict { color: #14532d; } .lenient { color: #1e40af; } .faulty { color: #9b1c1c; border-style: double; border-width: 4px; } \
.unjudged { color: #4a5159; border-style: dashed; }
@media screen { .paper { display: none; } }
@media print {
  body { max-width: none; padding: 0; font-size: 10.5pt; } nav, .skip { display: none; } a { color: inherit; text-decoration: \
none; }
  @page { margin: 9mm; }
  .scroll { overflow: visible; } table { font-size: 5.5pt; line-height: 1; } th, td { padding: 0 0.3rem; } tr, figure \
{ break-inside: avoid; } h2, h3, caption { break-after: avoid; } h2 { margin: 0.5rem 0 0.1rem; font-size: 11pt; }
  h3 { margin: 0.2rem 0 0; font-size: 8pt; } p, li { font-size: 7pt; margin: 0.05rem 0; max-width: none; } ul { margin: 0; }
  li { display: inline; } li + li::before { content: '; '; } ul { padding: 0; }
  thead { display: table-header-group; } .wrap { min-width: 8rem; } details, figcaption, .screen { display: none; }
  .two { columns: 2; column-gap: 3mm; } .two table { font-size: 4.8pt; width: 100%; border-collapse: separate; border-spacing: 0; }
  .two th, .two td { padding: 0 0.08rem; } .two caption { display: none; }
  figure { display: inline-block; width: 32.5%; margin: 0; vertical-align: top; } figure.map { width: 16%; }
  h3.run, h3.run + p, h3.run + ul { display: inline; }
  .paper { display: block; font-size: 5.5pt; white-space: nowrap; overflow: hidden; }
}
"""
MOST_STRETCHES = 500
MOST_STRIPS = 18  # of a picture; on paper three stand side by side
MEANS = {'strict': 'This recorder may have written it: it keeps each of its rules.',
         'lenient': 'Any recorder may have written it: each packet is framed and counted as the standard says, and what is read is '
                    'checked.',
         'faulty': 'A packet is one that no recorder may have written: the first such is at this offset.',
         'unjudged': 'The program r10 gave no verdict: it was not here, or there was too little memory.'}


class Part(NamedTuple):
    """One recording of the report."""

    task: Facts
    facts: Facts
    html: List[str]


# ---- pieces of a page

def table(caption: str, heads: Sequence[str], rows: Iterable[Sequence[Value]], left: Sequence[str] = (),
          more: str = '') -> List[str]:
    """A table whose first column names its rows; a cell that is a pair is a class and HTML as it stands. `more` is a class of its
    own, or none."""
    def cell(place: int, value: Value) -> str:
        plain = ('left time' if heads[place] == 'name' else 'left') if heads[place] in left else ''
        name, text = value if isinstance(value, tuple) else (plain, escape('-' if value is None else str(value)))
        kind = ' class="%s"' % name if name else ''
        return '<th scope="row"%s>%s</th>' % (kind, text) if place == 0 else '<td%s>%s</td>' % (kind, text)
    made = ['<div class="scroll%s" tabindex="0" role="region" aria-label="%s"><table><caption>%s</caption><thead><tr>'
            % (more and ' ' + more, escape(caption, True), escape(caption))]
    made.append(''.join('<th scope="col"%s>%s</th>' % (' class="left"' if head in left else '', escape(head)) for head in heads)
                + '</tr></thead><tbody>')
    made += ['<tr>%s</tr>' % ''.join(cell(place, value) for place, value in enumerate(row)) for row in rows]
    return made + ['</tbody></table></div>']


def verdict_html(facts: Facts) -> str:
    """A verdict as HTML, in its colour and with its frame."""
    return '<span class="verdict %s">%s</span>' % (facts['verdict'], escape(verdict_text(facts)))


def time_text(facts: Facts, name: str) -> str:
    """A time to two places after the second, or -."""
    return facts[name][:-5] if facts[name] else '-'


def size_text(size: int) -> str:
    """A number with commas."""
    return '{:,}'.format(size)


# ---- what the buses carried

def counted_text(counted: Counter, names: Callable[[Value], str]) -> str:
    """Each of some names with how often it was counted."""
    return ', '.join('%s: %s' % (names(key), '{:,}'.format(number))
                     for key, number in sorted(counted.items(), key=lambda pair: (pair[0] is None, pair[0])))


def bus_parts(traffic: Traffic, survey: Survey) -> List[str]:
    """What the buses carried: pictures of the messages of 1553 channels, and tables."""
    messages, _, errors, labels = traffic
    made: List[str] = []
    if messages:
        channels = sorted({key[0] for key in messages})
        below = '<figcaption>The darker, the more messages; red where some are wrong.</figcaption>'
        figures = ['<figure class="map"><div class="paper">%d %s: received, sent</div>%s%s</figure>' % (
            channel, escape(survey.names.channel(channel)), heat_map(traffic, channel, survey.names.channel(channel)), below)
            for channel in channels]
        rows = [(channel, survey.names.channel(channel) or '-', 'none' if rt < 0 else rt,
                 {'T': 'transmits', 'R': 'receives', None: '-'}[direction],
                 size_text(sum(counted.values())), counted_text(errors.get((channel, rt, direction), Counter()), str) or '-',
                 ('wrap', escape(counted_text(counted, lambda sa: 'SA %s' % ('-' if sa is None else sa)))))
                for (channel, rt, direction), counted in sorted(messages.items(),
                                                                key=lambda pair: (pair[0][0], pair[0][1], pair[0][2] or ''))]
        made += ['<h3>MIL-STD-1553 by terminal and subaddress</h3>'] + figures + folded('The numbers', table(
            'Messages of each remote terminal, by its direction and subaddress',
            ('channel', 'name', 'RT', 'direction', 'messages', 'errors', 'by subaddress'), rows,
            ('name', 'direction', 'errors', 'by subaddress')))
    if labels:
        by_label = [(channel, survey.names.channel(channel) or '-', bus, size_text(sum(counted.values())),
                     ('wrap', escape(counted_text(counted, label_of))))
                    for (channel, bus), counted in sorted(labels.items())]
        brief = [row[:4] + (len(labels[row[0], row[2]]),) for row in by_label]
        made += ['<h3 class="run">ARINC 429 by label</h3>', '<p>%s words on %d buses.</p>' % (
            size_text(sum(sum(counted.values()) for counted in labels.values())), len(labels))]
        made += ['<div class="screen">'] + table('Words of each bus', ('channel', 'name', 'bus', 'words', 'labels'), brief,
                                                 ('name',)) + ['</div>']
        made += folded('The numbers', table('Words of each bus, by label in octal',
                                            ('channel', 'name', 'bus', 'words', 'by label'), by_label, ('name', 'by label')))
    return made


def folded(title: str, inner: List[str]) -> List[str]:
    """What is opened to be read, and is not on paper."""
    return ['<details><summary>%s</summary>' % title] + inner + ['</details>']


# ---- one recording

def drawn_of(survey: Survey, name: str) -> Tuple[List[Picture], Set[Key]]:
    """The pictures of the channels, with nothing in them, so many channels in each that it fits on a sheet of paper; and which
    channels have packets alone to be drawn."""
    some = survey.drawn()
    if not survey.rows or not some:
        return [], set()
    sources = {(row.channel, row.kind): row for row in some}
    by_packets = {key for key, row in sources.items() if not row.entries}
    keys = sorted(sources)
    strips = -(-len(keys) // -(-len(keys) // MOST_STRIPS))  # the pictures are of one height
    low, high = ends_of(some) or (0, 0)
    return [Picture(name, {key: sources[key] for key in keys[at:at + strips]}, by_packets, low, high, survey)
            for at in range(0, len(keys), strips)], by_packets


Counted = Tuple[List[Counts], Counter, Counter]  # of each picture what is in it, and the words of the buses


def filled(data: Data, begin: int, survey: Survey, drawn: List[Picture], by_packets: Set[Key],
           some: Optional[range] = None) -> Counted:
    """Fills the pictures and counts what the buses carried, by all packets or by some of them."""
    by_key = {key: one for one in drawn for key in one.sources}
    sources = {key: one.sources[key] for key, one in by_key.items()}
    for mark in marks(data, begin, survey, sources, by_packets, some) if drawn else ():
        by_key[mark[0]].fill((mark,), None)
    return ([one.counted() for one in drawn], *words_of(data, begin, survey, some))


def counted_of(data: Data, begin: int, survey: Survey, drawn: List[Picture], by_packets: Set[Key], jobs: int) -> Traffic:
    """The same by so many processes, each of which takes packets that follow one another."""
    if jobs < 2:
        return traffic_of(*filled(data, begin, survey, drawn, by_packets)[1:])
    many = len(survey.places)
    shares = [range(many * place // jobs, many * (place + 1) // jobs) for place in range(jobs)]

    def made(some: range) -> Iterator[bytes]:
        for one in drawn:
            one.clear()
        yield pickle.dumps(filled(data, begin, survey, drawn, by_packets, some), pickle.HIGHEST_PROTOCOL)

    commands: Counter = Counter()
    labelled: Counter = Counter()
    for pieces in made_in_order(made, shares, jobs):
        more, some_commands, some_labels = pickle.loads(b''.join(pieces))
        for one, counts in zip(drawn, more):
            one.add(counts)
        commands.update(some_commands)
        labelled.update(some_labels)
    return traffic_of(commands, labelled)


def pictures_of(drawn: List[Picture], survey: Survey, size: int) -> List[str]:
    """The rates and losses of the channels."""
    if not drawn:
        return []
    made = ['<h3>Rates and losses</h3>']
    for one in drawn:
        first, last = min(one.sources)[0], max(one.sources)[0]
        about = 'Rates and losses of %s over time; the same numbers stand in the table of channels' % (
            'channel %d' % first if first == last else 'channels %d to %d' % (first, last))
        text = one.text(survey, size).replace('<svg ', '<svg role="img" aria-label="%s" ' % escape(about, True), 1)
        made += ['<figure>', text, '<figcaption>%s.</figcaption></figure>' % escape(about)]
    return made


def channel_part(survey: Survey) -> List[str]:
    """The table of channels, and what was not read."""
    rows = []
    for row in survey.rows:
        rate = row.rate()
        rows.append((row.channel, name_of(row.kind), survey.names.channel(row.channel) or '-', size_text(row.packets),
                     size_text(row.entries) if row.has_entries() else None, size_text(row.bytes),
                     None if rate is None else '{:,.1f}'.format(rate),
                     size_text(row.losses), lost_text({'lost': row.lost, 'untold': row.untold}), row.jumps, row.opaque, row.bad))
    unread = ['<li>%s</li>' % escape(one.text()) for one in unread_in(survey)]
    unread = ['<h4>Not read</h4><ul>'] + unread + ['</ul>'] if unread else []
    return ['<h3>Channels</h3>'] + table('What each channel and data type has', (
        'channel', 'type', 'name', 'packets', 'entries', 'bytes', 'entries/s', 'losses', 'lost', 'jumps', 'opaque', 'damaged'),
                                               rows, ('type', 'name'), 'two') + unread


def damage_part(survey: Survey) -> List[str]:
    """The table of stretches that were passed over."""
    if not survey.damage:
        return []
    rows = [(size_text(one.offset), size_text(one.length), ('left', escape(one.why)),
             ('left', '-' if one.channel is None else '%d, %s' % (
                 one.channel, escape(name_of(one.kind))))) for one in survey.damage[:MOST_STRETCHES]]
    more = len(survey.damage) - len(rows)
    return ['<h3>Damaged stretches</h3>'] + table('Bytes that were passed over%s'
                                                  % (', the first %d of %d' % (len(rows), len(survey.damage)) if more else ''),
                                                 ('from byte', 'bytes', 'why', 'channel'), rows, ('why', 'channel'))


def clock_part(survey: Survey) -> List[str]:
    """What time channels say of their clocks."""
    if not survey.times or not survey.span():
        return []
    return ['<h3 class="run">Clocks</h3><ul>'] + ['<li>%s</li>' % escape(line.strip()) for times in survey.times
                                      for line in clock_lines(times, survey)] + ['</ul>']


def setup_part(survey: Survey) -> List[str]:
    """The setup text as a tree, and which channels it names otherwise."""
    if survey.setup is None:
        return ['<h3>Setup</h3><p>There is no setup text.</p>']
    if not survey.names.attributes:
        return ['<h3>Setup</h3><p>The setup text has %d bytes, and is none of chapter 9 (TMATS).</p>' % len(survey.setup)]
    kinds: Dict[int, set] = {}
    for row in survey.rows:
        if row.channel:
            kinds.setdefault(row.channel, set()).add(row.kind)
    others = survey.names.disagreements(kinds)
    made = ['<h3 class="run">Setup</h3>']
    if others:
        made.append('<ul>%s</ul>' % ''.join('<li>%s</li>' % escape(line) for line in others))
    return made + folded('%d attributes of chapter 9' % len(survey.names.attributes), [
        '<pre tabindex="0" aria-label="Setup attributes as a tree">%s</pre>' % escape('\n'.join(tree(survey.names.attributes)))])


def facts_part(task: Facts, facts: Facts) -> List[str]:
    """Verdict, times, remarks and sums, each a paragraph."""
    means = MEANS[facts['verdict']] + (' Packets of a kind that is not read: %d.' % facts['opaque']
                                       if facts['verdict'] == 'lenient' else '')
    lines = ['%s %s' % (verdict_html(facts), escape(means))]
    if facts['first_time']:
        lines.append('From %s to %s.' % (escape(facts['first_time']), escape(facts['last_time'])))
    lines += [escape(remark[:1].upper() + remark[1:] + '.') for _, remark in facts['remarks']]
    lines.append('%s bytes in %s packets, %s entries; %s, %s messages lost; %s.' % (
        size_text(facts['size']), size_text(facts['packets']), size_text(facts['entries']), said(facts['losses'], 'loss', 'es'),
        lost_text(facts),
        '%s, %s bytes in all' % (said(facts['damaged'], 'damaged stretch', 'es'), size_text(facts['damaged_bytes']))
        if facts['damaged'] else 'nothing is damaged'))
    if task['number'] >= 0:
        lines.append('File %d of volume %s, %s.' % (task['number'], escape(task['volume']),
                                                    'closed' if task['closed'] else 'not closed'))
    return ['<p>%s</p>' % line for line in lines]


def part_of(task: Facts, data: Data, program: Optional[str], asked: Asked, jobs: int) -> Part:
    """One recording, or the image whose directory cannot be read, by so many processes."""
    begin, end = task['begin'], task['end']
    if 'fault' in task:
        facts = nothing_in(end - begin)
        with memoryview(data) as view:
            facts.update(verdict_of_image(program, view, Fault(task['fault'])))
        return Part(task, facts, facts_part(task, facts) + ['<p>%s.</p>' % escape(task['fault'])])
    survey = Survey(data, begin, end, asked=asked, jobs=jobs)
    facts = facts_of(data, begin, end, program, survey)
    drawn, by_packets = drawn_of(survey, title(task).rpartition('/')[2])
    traffic = counted_of(data, begin, survey, drawn, by_packets, jobs)
    made = facts_part(task, facts) + pictures_of(drawn, survey, end - begin) + channel_part(survey)
    return Part(task, facts, made + damage_part(survey) + clock_part(survey) + bus_parts(traffic, survey) + setup_part(survey))


# ---- the page

def titles_of(parts: Sequence[Part]) -> Tuple[str, List[str]]:
    """The folder that all recordings lie in, or '', and what each is called within it."""
    titles = [title(part.task) for part in parts]
    folders = {part.task['place'].rpartition('/')[0] for part in parts}
    folder = printable(os.path.commonpath(sorted(folders))) if folders and all(one.startswith('/') for one in folders) else ''
    front = folder.rstrip('/') + '/'
    if folder and all(one.startswith(front) for one in titles):
        return folder, [one[len(front):] for one in titles]
    return '', titles


def page(parts: Sequence[Part]) -> List[str]:
    """The page, line by line."""
    folder, titles = titles_of(parts)
    head = 'Report on %s' % ('1 recording' if len(parts) == 1 else '%d recordings' % len(parts))
    made = ['<!DOCTYPE html>', '<html lang="en">', '<head>', '<meta charset="utf-8">',
            '<meta http-equiv="Content-Security-Policy" content="default-src \'none\'; style-src \'unsafe-inline\'">',
            '<meta name="viewport" content="width=device-width, initial-scale=1">', '<title>%s</title>' % head,
            '<style>%s</style>' % STYLE, '</head>', '<body>',
            '<a class="skip" href="#recordings">To the recordings</a>', '<header><h1>%s</h1>' % head,
            '<p>Written by ch10 report from the recordings alone%s. Times are civil times of the recordings.</p></header>' % (
                ', which lie in %s' % escape(folder) if folder else ''),
            '<nav aria-label="Contents"><ul><li><a href="#overview">Overview</a></li><li><a href="#timeline">Time line</a></li>']
    made += ['<li><a href="#r%d">%s</a></li>' % (number, escape(one)) for number, one in enumerate(titles)]
    made += ['</ul></nav>', '<main id="main">',
             '<section id="overview" aria-labelledby="overview-head"><h2 id="overview-head">Overview</h2>']
    rows = [(('left', '<a href="#r%d">%s</a>' % (number, escape(titles[number]))), ('left', verdict_html(part.facts)),
             size_text(part.facts['size']),
             ('time', time_text(part.facts, 'first_time')), ('time', time_text(part.facts, 'last_time')),
             size_text(part.facts['entries']), size_text(part.facts['losses']),
             lost_text(part.facts), part.facts['damaged']) for number, part in enumerate(parts)]
    made += table('The recordings: verdicts, times, losses, messages lost, damaged stretches', (
        'recording', 'verdict', 'bytes', 'first time', 'last time', 'entries', 'losses', 'lost', 'damaged'), rows,
                  ('recording', 'verdict'))
    made += ['</section>', '<section id="timeline" aria-labelledby="timeline-head"><h2 id="timeline-head">Time line</h2>']
    made += timeline([(one, part.facts) for one, part in zip(titles, parts)])
    made += ['</section>', '<div id="recordings">']
    for number, part in enumerate(parts):
        made += ['<section class="recording" id="r%d" aria-labelledby="r%d-head"><h2 id="r%d-head">%s</h2>'
                 % (number, number, number, escape(titles[number]))]
        made += part.html + ['</section>']
    return made + ['</div>', '</main>', '</body>', '</html>']


def report(asked: Words, data: None, out: Output) -> None:
    """`ch10 report`."""
    program = None
    if not asked.unjudged:
        try:
            program = program_of(asked.program)
        except Wrong:
            program = None
    failed: List[Tuple[str, str]] = []
    inputs = list(inputs_of(asked.inputs, None, [], failed))
    parts: List[Part] = []
    for found, unread_ones in parts_of(inputs, program, asked):
        parts += found
        failed += unread_ones
    if not parts and not failed:
        raise Fault('there is no recording in what was given; of a folder those files are taken that end in %s, or begin as one'
                    % ', '.join(ENDINGS))
    for line in page(parts):
        out.write(re.sub('[\x00-\x08\x0b\x0c\x0e-\x1f]', '?', line).encode('utf-8', 'replace') + b'\n')
    out.flush()
    unread(failed)
    bad = [part for part in parts if part.facts['verdict'] == 'faulty' or part.facts['damaged']]
    if bad:
        raise Fault('%d of %d recordings at fault, first %s: %s' % (len(bad), len(parts), title(bad[0].task),
                                                                    verdict_text(bad[0].facts)))


Read = Tuple[List[Part], List[Tuple[str, str]]]  # the recordings of an input, and why it could not be read, where it was not


def parts_of(inputs: Sequence[Input], program: Optional[str], asked: Words) -> Iterator[Read]:
    """The recordings of each input: of many inputs by a process for each of some, of few one after the other, each by several."""
    jobs = jobs_of(asked.jobs, LEAST)
    if jobs < 2 or len(inputs) < jobs:
        for one in inputs:
            yield parts_of_input(one, program, asked, asked.jobs)
        return

    def made(one: Input) -> Iterator[bytes]:
        yield pickle.dumps(parts_of_input(one, program, asked, 1), pickle.HIGHEST_PROTOCOL)

    for pieces in made_in_order(made, inputs, jobs):
        yield pickle.loads(b''.join(pieces))


def parts_of_input(one: Input, program: Optional[str], asked: Words, jobs: Optional[int]) -> Read:
    """The recordings of an input, by as many processes as a call asks for, or else as its size wants."""
    try:
        data = opened(one.path)
    except OSError as error:
        return [], [(one.place, error.strerror or str(error))]
    if is_recording(data) or data[512:520] != b'FORTYtwo':
        tasks: Iterable[Facts] = [dict(path=one.path, place=one.place, begin=0, end=len(data), number=-1)]
    else:
        tasks = image_tasks(one.path, one.place, data)
    clock = asked_of(asked, date_of(os.stat(one.path)))
    return [part_of(task, data, program, clock, jobs_of(jobs, task['end'] - task['begin'])) for task in tasks], []
