"""What a command could not read, and what of its times is doubtful: a line each."""
from __future__ import annotations

from typing import Container, Iterator, List, NamedTuple, Optional

from .clocks import HEADERS
from .inputs import Output, unread_text
from .kinds import KINDS
from .standard import INDEX, LOSS, NETWORK_TIME, Fault
from .survey import REPORT_ROW, Survey, Surveyed, name_of

KINDS_READ = frozenset(kind.type for kind in KINDS)


class NotRead(Fault):
    """Packets of a kind that a command writes, which it could not read."""

    def __init__(self, lines: List[str]) -> None:
        Fault.__init__(self, '%d channels have packets that were not read' % len(lines))
        self.said = lines

    def lines(self) -> List[str]:
        """A line for each channel."""
        return self.said


class Unread(NamedTuple):
    """Packets of a channel and type that were not read, how many, and why."""
    channel: int
    kind: int
    packets: int
    why: str

    def text(self) -> str:
        """All of that in words."""
        return unread_text(self.channel, name_of(self.kind), self.packets, self.why)


def unread_in(survey: Surveyed) -> Iterator[Unread]:
    """All packets of a recording that were not read, but for those of what a computer makes."""
    for row in survey.rows:
        for why, packets in sorted(row.unread.items()):
            if row.kind not in (LOSS, INDEX, REPORT_ROW, NETWORK_TIME):  # a network time is used, and has no entries
                yield Unread(row.channel, row.kind, packets, why)


def doubts_of(survey: Surveyed) -> List[str]:
    """What of a recording's times is doubtful, and which packets stand twice."""
    clock, lines = survey.clock, []
    ends = survey.ends() if survey.rows else []
    if len(ends) > 1:
        lines.append('times: the counter went back, so there are %d sessions, each with times of its own' % len(ends))
        without = [number for number, (low, _) in enumerate(ends, 1) if clock and not clock.text(low)]
        lines += ['times: session %d has none' % number for number in without[:MOST_SAID]]
        if len(without) > MOST_SAID:
            lines.append('times: %d sessions more have none' % (len(without) - MOST_SAID))
    if clock and clock.channel == HEADERS:
        lines.append('times: no time packet tells one; they are those of secondary headers')
    for line in survey.times:
        if line.invalid:
            lines.append('times: %d of %d time packets of channel %d say that they are invalid, and are not used' % (
                line.invalid, line.packets, line.channel))
        free, out = len(line.told) - line.locked(), line.out()
        if clock and line.channel in clock.channels:
            if free:
                lines.append('times: the clock of channel %d was not locked at %d of %d times' % (
                    line.channel, free, len(line.told)))
            if out:
                lines.append('times: the counter was out of step at %d of %d times of channel %d' % (
                    out, len(line.told), line.channel))
        elif clock and line.told:
            apart = max(abs(told.said.ticks - clock.at(told.instant)) if clock.text(told.instant) else 0 for told in line.told)
            if apart > MOST_APART:
                lines.append('times: they are those of channel %d; channel %d tells others, up to %d.%02d s apart' % (
                    clock.channel, line.channel, *divmod(apart // 10 ** 5, 100)))
    if survey.out_of_step:
        lines.append('times: %s packets say that their counter is out of step' % '{:,}'.format(survey.out_of_step))
    lines += ['channel %d, %s: %d packet%s twice, and so do their entries' % (
        row.channel, name_of(row.kind), row.doubled, ' stands' if row.doubled == 1 else 's stand')
        for row in survey.rows if row.doubled]
    if clock and clock.year and clock.year.is_guessed:
        lines.append('times: the year %d is %s; --year gives another' % (clock.year.number, clock.year.source))
    return lines


def log_said(survey: Surveyed) -> List[str]:
    """What the recorder's log channel says of the clock and of losses, and what it does not say."""
    after = ['channel %d: %d messages were lost after its last one' % (row.channel, row.after) for row in survey.rows if row.after]
    return survey.log.clock() + after + survey.log_remarks


MOST_SAID = 10  # sessions without times that are named
MOST_APART = 500000  # two channels tell times to 10 ms each, and some recorders one of them late


def judge(survey: Survey, out: Output, kinds: Container[int] = (), channels: Optional[Container[int]] = None,
          only: Optional[int] = None) -> None:
    """Says what is doubtful and what was not read, and raises what is wrong, when what is good is written: damage, or packets of
    the kinds that a command writes which it could not read. Of some channels alone, or of one type, where a call asks for these."""
    for line in doubts_of(survey):
        out.note(line)
    bad = []
    if kinds:
        for one in unread_in(survey):
            if (channels is None or one.channel in channels) and only in (None, one.kind):
                if one.kind in kinds:
                    bad.append(one.text())
                else:
                    out.note(one.text())
    if bad and not survey.damage and survey.fault is None:
        say_no_setup(survey, out)
        raise NotRead(bad)
    for line in bad:
        out.note(line)
    say_no_setup(survey, out)
    survey.judge()


def say_no_setup(survey: Survey, out: Output) -> None:
    """That the first packet is no setup, as chapter 11 has it."""
    if has_no_setup(survey):
        out.note(NO_SETUP)


def has_no_setup(survey: Surveyed) -> bool:
    """Whether the first packet is read, and is no setup."""
    return bool(survey.rows) and not survey.begins_with_setup and not (survey.damage and survey.damage[0].offset == 0)


NO_SETUP = 'the first packet is no setup'


# Which bit of a message of MIL-STD-1553 its stamp is of, by bits 31 and 30 of the packet's word; the last one of its last word has
# no name, as that is the usual one.
TAGS = '', 'stamp of the first bit', 'stamp of the first word', 'stamp of a reserved place'


def quality_of(survey: Surveyed, instant: int, is_out: bool, tag: int = 0) -> str:
    """How good the time of an entry is: locked or free, and what else is to be known of it, with + between them; invalid where it
    has none and time packets say that they are invalid, and nothing where there are none. `is_out` is of an entry whose packet says
    that its counter is out of step, `tag` where in a message the bit is that its stamp is of."""
    said = survey.clock.quality(instant) if survey.clock else 'invalid' if any(line.invalid for line in survey.times) else ''
    said = said + '+counter error' if said and is_out and not said.endswith('counter error') else said
    return '+'.join(filter(None, (said, TAGS[tag])))
