"""Trials of losses: what the files' entries, gaps and log lines say adds up to what was sent, channel by channel. The lines of the
log channel are read by a parser of this module's own."""
from __future__ import annotations

import collections
import json
import os
import re
import signal
import subprocess
import sys
import time
from typing import NamedTuple

from trying import CH10, LOG, Room, Service, channel, entries, files, must, settings, trial, udp_channels

TOTAL = re.compile(
    r'channel (\d+): came (\d+), recorded (\d+), lost (\d+) \(system (\d+), queue (\d+), line (\d+), disk (\d+)\), passed (\d+)'
    r'(?:, (\d+) wait in memory)?'
)


class Line(NamedTuple):
    word: str
    keys: dict[str, str]

    def number(self, key: str) -> int:
        must(re.fullmatch(r'\d+', self.keys.get(key, '')), f'{self}: {key} is no number')
        return int(self.keys[key])


def parse(text: str) -> Line:
    """A line of the log channel: `r10log WORD at=TIME KEY=VALUE ..`, a value as it is or in quotes as JSON has texts."""
    must(text.startswith('r10log '), f'{text!r} does not begin with the letters')
    word, _, rest = text[7:].partition(' ')
    must(re.fullmatch('[a-z]+', word), f'{text!r} has no word')
    keys, at, decoder = {}, 0, json.JSONDecoder()
    while at < len(rest):
        key, equals, _ = rest[at:].partition('=')
        must(equals and re.fullmatch('[a-z_]+', key) and key not in keys, f'{text!r}: {key!r} is no key')
        at += len(key) + 1
        if rest[at : at + 1] == '"':
            value, end = decoder.raw_decode(rest, at)
            must(not re.fullmatch(r'[A-Za-z0-9._:+/,-]+', value), f'{text!r}: {value!r} has no need of quotes')
        else:
            end = (rest + ' ').index(' ', at)
            value = rest[at:end]
            must(re.fullmatch(r'[A-Za-z0-9._:+/,-]+', value), f'{text!r}: {value!r} wants quotes')
        keys[key], at = value, end + 1
        must(rest[end : end + 1] in ('', ' '), f'{text!r}: after {key}')
    must(re.fullmatch(r'\d{4}-\d\d-\d\dT\d\d:\d\d:\d\d\.\d{6}Z', keys.get('at', '')) and list(keys)[0] == 'at', f'{text!r}: at')
    return Line(word, keys)


def log_lines(image: bytes, file: int) -> list[Line]:
    """The lines of a file's log channel. None of them was left out."""
    found = entries(image, file, LOG)
    must(all(it.gap == '0' for it in found), 'lines of the log channel were left out')
    return [parse(bytes.fromhex(it.words[-1]).decode()) for it in found]


class Sums(NamedTuple):
    """Of a channel, over all files of a medium."""

    recorded: int
    lost: int
    after: int
    passed: int


def sums(image: bytes, channels: list[int]) -> dict[int, Sums]:
    """Adds up entries, gaps and log lines, file by file, and compares the lines with the entries and the gaps. Each file but one
    that was cut off by a kill has its totals: in it, or in the next one."""
    of = [log_lines(image, file) for file in range(len(files(image)))]
    every: dict[tuple[int, int], Line] = {}
    for line in (it for lines in of for it in lines if it.word == 'total'):
        every[line.number('file') - 1, line.number('channel')] = line
    found = {}
    for number in channels:
        recorded = lost = after = passed = 0
        for file, lines in enumerate(of):
            of_channel = entries(image, file, number)
            gaps = sum(int(it.gap) for it in of_channel)
            # (lines that were not durable when the disk failed come first in the next file: its own follow its last line `file`)
            begun = max((at for at, it in enumerate(lines) if it.word == 'file'), default=len(lines))
            must(begun == len(lines) or lines[begun].number('number') == file + 1, f'file {file} is not {lines[begun : begun + 1]}')
            before = next((it for it in lines[begun:] if it.word == 'before' and it.number('channel') == number), None)
            told, earlier, carried = (before.number(key) if before else 0 for key in ('told', 'lost', 'waiting'))
            recorded += len(of_channel)
            total = every.get((file, number))
            if total is None:
                # the disk failed as the file was begun: nothing came into it
                is_cut = any(it.word == 'cut' and it.number('file') == file + 1 for part in of for it in part)
                must(is_cut and not of_channel, f'file {file} has no total of channel {number}')
                continue
            must(total.keys['name'] == files(image)[file][0], f'{total}: another name')
            must(total.number('recorded') == len(of_channel), f'file {file}: {len(of_channel)} entries, {total}')
            must(
                earlier + total.number('lost') == gaps + total.number('after') + total.number('carried'),
                f'file {file} channel {number}: gaps {gaps}, {before}, {total}',
            )
            must(
                carried + total.number('came')
                == total.number('recorded') + total.number('lost') + total.number('waiting') + total.number('passed'),
                f'file {file} channel {number}: {before}, {total} do not add up',
            )
            after = total.number('after')
            lost += gaps - told + after
            passed += total.number('passed')
        found[number] = Sums(recorded, lost, after, passed)
    return found


def cut_off(image: bytes) -> int:
    """Compares what the lines after a kill say of the files that were cut off with what these have. How many such lines there
    are."""
    found = 0
    for line in (it for file in range(len(files(image))) for it in log_lines(image, file) if it.word == 'durable'):
        of_channel = entries(image, line.number('file') - 1, line.number('channel'))
        must(
            (line.number('messages'), line.number('count')) == (len(of_channel), of_channel[-1].count if of_channel else 0),
            f'{line}: {len(of_channel)} entries, {of_channel[-1:]}',
        )
        found += 1
    return found


def by_cause(image: bytes, number: int) -> dict[str, int]:
    """What the lines of each second say of losses."""
    total: dict[str, int] = collections.Counter()
    for file in range(len(files(image))):
        for line in log_lines(image, file):
            if line.word == 'lost' and line.number('channel') == number:
                parts = {key: line.number(key) for key in ('system', 'queue', 'line', 'disk')}
                must(sum(parts.values()) == line.number('all') > 0, f'{line}')
                total.update(parts)
    return dict(total)


def system_totals(service: Service) -> dict[int, list[int]]:
    """By channel the last totals in the system's log: came, recorded, lost, the four causes, passed, waiting."""
    found = {}
    for it in TOTAL.finditer(service.log()):
        found[int(it[1])] = [int(part or 0) for part in it.groups()[1:]]
    return found


def filtered(room: Room, *words: str) -> str:
    with open(room.folder / 'medium', 'rb') as image:
        ran = subprocess.run([sys.executable, str(CH10), *words], stdin=image, capture_output=True, text=True)
    must(ran.returncode == 0, f'ch10 {words}: {ran}')
    return ran.stdout


def sent_by(load: 'subprocess.Popen[str]') -> int:
    found = json.loads(load.communicate()[0])
    must(found['failed'] == 0, f'not all could be sent: {found}')
    return found['sent']


def overrun(room: Room, service: Service, ports: list[int], count: int) -> int:
    """Datagrams come while the service stands still, more than the system holds. How many were sent."""
    service.child.send_signal(signal.SIGSTOP)
    try:
        return sent_by(room.load(ports, count=count, rate=0, size=1000, seconds=900))
    finally:
        service.child.send_signal(signal.SIGCONT)


@trial
def losses_that_no_message_follows(room: Room, count: int = 3000) -> str:
    """Datagrams until the end, and silence after: what the system dropped after the last message is in the file, at a stop at once
    and after a while; the filters, the picture and the catalogue have it."""
    ports = room.ports(1)
    text = settings(udp_channels(ports).replace('receive_mib = 32', 'receive_mib = 1'), blocks=1 << 15)
    service = Service(room, text)
    service.wait_for(': recording')
    first = sent_by(room.load(ports, count=200, rate=2000))
    service.until_durable(200)
    all_sent = [first + overrun(room, service, ports, count), 0]
    # (no second of silence after which the system is asked)
    must(service.ask('.STOP') == [], 'it is not stopped')
    service.ask('.RECORD SECOND')
    all_sent[1] = overrun(room, service, ports, count)
    service.until(lambda it: it['channels'][0]['came'] + it['channels'][0]['lost'] >= sum(all_sent), 'not all is counted')
    service.end()
    image = (room.folder / 'medium').read_bytes()
    found = sums(image, [5])[5]
    must(found.recorded + found.lost == sum(all_sent) and found.passed == 0 and found.after > 0, f'{all_sent} sent, {found}')
    causes = by_cause(image, 5)
    must(causes['system'] > 0 and sum(causes.values()) == found.lost, f'{causes}, {found}')
    came, recorded, lost, *_ = system_totals(service)[5]
    must((came, recorded, lost) == (sum(all_sent), found.recorded, found.lost), f'{service.log()}')
    listed = [json.loads(it) for it in filtered(room, 'summary', '--json').splitlines()]
    rows = [it for it in listed if it.get('channel') == 5 and it.get('type') == 'message']
    must(sum(it['lost'] for it in rows) == found.lost and rows[1]['lost_after'] == found.after, f'ch10 summary: {rows}, {found}')
    shown = filtered(room, 'summary')
    must(f'channel 5: {found.after} messages were lost after its last one' in shown, shown)
    must(shown.count('clock of its times: the system\'s, ') == 2, shown)
    must(f'{rows[0]["lost"]:,} lost' in filtered(room, 'svg', '--file', '0'), 'the picture does not have it')
    catalogue, medium = [sys.executable, str(CH10), 'catalogue'], str(room.folder / 'medium')
    base = str(room.folder / 'catalogue.db')
    ran = subprocess.run([*catalogue, 'add', '--unjudged', '--db', base, medium], capture_output=True, text=True)
    must(ran.returncode == 0, f'catalogue add: {ran}')
    words = [*catalogue, 'find', '--db', base, '--channel', '5', '--losses', '1', '--json']
    ran = subprocess.run(words, capture_output=True, text=True)
    listed = [json.loads(it)['lost'] for it in ran.stdout.splitlines()]
    must(sorted(listed) == sorted(it['lost'] for it in rows), f'catalogue find: {ran}, {rows}')
    made = subprocess.run([sys.executable, str(CH10), 'report', '--unjudged', medium], capture_output=True, text=True)
    after = f'{found.after} messages were lost after its last one'
    must(made.returncode == 0 and after in made.stdout, f'ch10 report: {made.stderr}')
    return f'{sum(all_sent)} sent, {found.recorded} recorded, {found.lost} lost, {found.after} of them after the last message'


@trial
def a_stop_with_a_backlog(room: Room, count: int = 12_000, slow: int = 300_000, blocks: int = 1 << 15) -> str:
    """On a disk whose syncs take long, a stop and the end of the service record all that came before them, into this file or the
    next, and nothing of it has passed."""
    ports = room.ports(2)
    service = Service(room, settings(udp_channels(ports), blocks=blocks), disk={'slow': slow})
    sent, took = 0, []
    for how in ('stop', 'end'):
        if how == 'end':
            service.ask('.RECORD')
        service.wait_for(': recording')
        sent += sent_by(room.load(ports, count=count, rate=20_000, size=60, seconds=900))
        start = time.monotonic()
        if how == 'stop':
            must(service.ask('.STOP') == [], f'it is not stopped: {service.log()}')
        else:
            service.end()
        took.append(time.monotonic() - start)
    image = (room.folder / 'medium').read_bytes()
    found = sums(image, [5, 6])
    recorded, lost = (sum(getattr(it, key) for it in found.values()) for key in ('recorded', 'lost'))
    passed = sum(it[7] for it in system_totals(service).values())
    must((recorded + lost, passed) == (sent, 0), f'{sent} sent, {found}, {passed} passed:\n{service.log()}')
    must(lost == sum(it[2] for it in system_totals(service).values()), f'{found}: {service.log()}')
    must(service.log().count('channel 6: came ') == 2, f'the log has no totals: {service.log()}')
    return f'{sent} sent, {recorded} recorded, {lost} lost; the stops took {took[0]:.1f} and {took[1]:.1f} s'


@trial
def an_overload_and_sums(room: Room, count: int = 20_000, slow: int = 200_000, blocks: int = 1 << 16) -> str:
    """A flood on a slow disk, with little room: what the system and the queue had no room for, and what came after a stop, adds up
    with what is in the files, channel by channel."""
    ports = room.ports(2)
    channels = udp_channels(ports, more='queue_mib = 1\n').replace('receive_mib = 32', 'receive_mib = 1')
    service = Service(room, settings(channels, blocks=blocks), disk={'slow': slow})
    service.wait_for(': recording')
    load = room.load(ports, count=2 * count, rate=0, size=300, seconds=900)
    # (a stop amid it: what comes after passes, and a second recording has losses of its own)
    service.until(lambda it: sum(at['came'] for at in it['channels']) > count // 4, 'nothing comes')
    service.ask('.STOP')
    service.ask('.RECORD')
    # (where this machine sends too slowly for an overload, there is one all the same)
    sent = overrun(room, service, ports, 6000) + sent_by(load)
    service.until(lambda it: it['queued_bytes'] == 0, 'the queues are not drained')
    service.ask('.STOP')
    service.end()
    image, totals = (room.folder / 'medium').read_bytes(), system_totals(service)
    found = sums(image, [5, 6])
    for number in (5, 6):
        came, recorded, lost, system, queue, line, disk, passed, waiting = totals[number]
        must(came == recorded + lost + passed == sent // 2 and waiting == 0, f'channel {number}: {sent} sent, {totals[number]}')
        must((recorded, lost) == (found[number].recorded, found[number].lost), f'{found[number]}, {totals[number]}')
        causes = by_cause(image, number)
        must(sum(causes.values()) == lost and (line, disk) == (0, 0), f'{causes}, {totals[number]}')
        must((system, queue) == (causes['system'], causes['queue']), f'{causes}, {totals[number]}')
    recorded, lost, passed = (sum(it[at] for it in totals.values()) for at in (1, 2, 7))
    # (whether something comes between the two recordings depends on how quick the machine is)
    must(lost > 0, f'{totals}')
    return f'{sent} sent, {recorded} recorded, {lost} lost, {passed} passed'


@trial
def a_stop_that_is_over(room: Room, count: int = 12_000, drag: int = 60_000, blocks: int = 1 << 16) -> str:
    """A stop takes no longer than the settings say. What is in no file then is counted, in the file and in the system's log, and
    the status is 5."""
    ports = room.ports(1)
    # (what a lane has taken is written, however long that takes: so the lane is short)
    text = settings(udp_channels(ports, more='capacity = 500\n'), blocks=blocks, stop_seconds=1)
    service = Service(room, text, disk={'drag': drag})
    service.wait_for(': recording')
    sent = sent_by(room.load(ports, count=count, rate=20_000, size=1200, seconds=900))
    service.end(status=5)
    image = (room.folder / 'medium').read_bytes()
    found = sums(image, [5])[5]
    must(found.recorded + found.lost == sent and found.after > 0, f'{sent} sent, {found}:\n{service.log()}')
    must(by_cause(image, 5)['disk'] > 0, f'{by_cause(image, 5)}')
    must('messages came before the end of the service, and are in no file' in service.log(), service.log())
    came, recorded, lost, *_ = system_totals(service)[5]
    must((came, recorded, lost) == (sent, found.recorded, found.lost), service.log())
    return f'{sent} sent, {found.recorded} recorded, {found.lost} lost, {found.after} of them after the last message'


@trial
def a_disk_that_fails_and_sums(room: Room, failures: int = 3) -> str:
    """Where the disk fails, the next file has the totals of the one before: what was lost adds up, and each failure has its
    lines."""
    ports = room.ports(2)
    text = settings(udp_channels(ports), blocks=1 << 15, directory=63, commit_ms=10, tries=100)
    service = Service(room, text, disk={'next': room.folder / 'next'})
    service.wait_for(': recording')
    sent = 0
    for number in range(failures):
        load = room.load(ports, count=2000, rate=8000, run=number)
        before = service.figures()['failures']
        time.sleep(0.1)
        (room.folder / 'next').write_text('')
        service.until(lambda it: it['failures'] > before and it['state'] == 'recording', 'the disk does not fail')
        sent += sent_by(load)
        service.until_durable(sent)
    service.end()
    image = (room.folder / 'medium').read_bytes()
    found = sums(image, [5, 6])
    recorded, lost = (sum(getattr(it, key) for it in found.values()) for key in ('recorded', 'lost'))
    must(recorded + lost == sent, f'{sent} sent, {found}:\n{service.log()}')
    lines = [it for file in range(len(files(image))) for it in log_lines(image, file) if it.word == 'disk']
    states = [it.keys['state'] for it in lines]
    must(states.count('failed') >= failures and states.count('well') >= failures, f'{lines}')
    must('Input/output error' in lines[0].keys['why'], f'{lines[0]}')
    return f'{len(files(image))} files: {sent} sent, {recorded} recorded, {lost} lost'


@trial
def a_full_medium_and_sums(room: Room) -> str:
    """A full medium: the files say what they have, and the system's log the rest. The service ends with 5, as what waits is in no
    file."""
    ports = room.ports(1)
    service = Service(room, settings(udp_channels(ports, more='bytes = 4096\nnumber = 50\n'), blocks=1500, commit_ms=10))
    load = room.load(ports, rate=20000, size=60, count=60_000, seconds=900)
    service.wait_for('the medium is full')
    sent = sent_by(load)
    service.until(
        lambda it: it['state'] == 'full' and sum(it['channels'][0][key] for key in ('durable', 'lost', 'waiting')) == sent,
        'some are not counted',
    )
    service.end(status=5)
    image = (room.folder / 'medium').read_bytes()
    in_files = sum(len(entries(image, file, 5)) for file in range(len(files(image))))
    came, recorded, lost, _, _, _, disk, passed, waiting = system_totals(service)[5]
    must((came, recorded, passed) == (sent, in_files, 0) and recorded + lost + waiting == sent, service.log())
    must(waiting > 0 and disk > 0, service.log())
    return f'{sent} sent, {recorded} recorded in {len(files(image))} files, {lost} lost, {waiting} waited'


@trial
def after_a_kill(room: Room) -> str:
    """After a kill the first lines of the next file say what each channel has of the one that was cut off, and how long nothing was
    recorded."""
    ports = room.ports(2)
    text = settings(udp_channels(ports), start='resume')
    service = Service(room, text)
    service.ask('.RECORD FIRST')
    # (no message came before this)
    began = time.monotonic()
    load = room.load(ports, count=400, rate=4000)
    service.until_durable(400)
    load.wait()
    service.kill()
    time.sleep(1.5)
    service = Service(room, text)
    service.wait_for(': recording')
    stood = time.monotonic() - began
    service.end()
    image = (room.folder / 'medium').read_bytes()
    lines = log_lines(image, 1)
    cut, durable = lines[0], {it.number('channel'): it for it in lines if it.word == 'durable'}
    must(cut.word == 'cut' and cut.keys['name'] == 'FIRST' and cut.keys['open'] == 'true', f'the first line is {cut}')
    without = float(cut.keys['without_s'])
    must(1.4 < without < stood, f'{without} s without recording, {stood:.2f} seen')
    for number in (5, 6):
        found = entries(image, 0, number)
        it = durable[number]
        must((it.number('messages'), it.number('count')) == (len(found), found[-1].count), f'{it}, {found[-1]}')
    must([it.word for it in lines].index('start') == 1 + len(durable), f'{[it.word for it in lines]}')
    shown = filtered(room, 'summary')
    must(shown.count('log: nothing says how this file ended') == 1, shown)
    return f'{without:.2f} s without recording'


@trial
def what_the_log_channel_has(room: Room) -> str:
    """Each input that opened, failed and closed, each command with who gave it, notes, and the state of the clock."""
    (room.folder / 'table').write_text('states = 1\n')
    (port,) = room.ports(1)
    text = settings(
        channel(5, 'message', 'serial = "nowhere", end = 10') + channel(13, 'discrete', 'lines = "table"'),
        start='wait',
        control=f'tcp = "127.0.0.1:{port}"\ntoken = "token"',
    )
    (room.folder / 'token').write_text('0123456789abcdef\n')
    service = Service(room, text)
    service.wait_for('table has ended')
    service.ask('.RECORD/', '.RECORD FLT1', '.EVENT 7 first contact', '.STATUS', '.NOTE it is "cold" here')
    service.ask('.TOKEN 0123456789abcdef', '.NOTE from afar', path=('127.0.0.1', port))
    service.ask('.STOP')
    service.end()
    lines = log_lines((room.folder / 'medium').read_bytes(), 0)
    of: dict[str, list[dict[str, str]]] = collections.defaultdict(list)
    for it in lines:
        of[it.word].append(it.keys)
    sum_of = subprocess.run(['sha256sum', str(room.folder / 'settings.toml')], capture_output=True, text=True).stdout.split()[0]
    must(of['start'][0]['settings'] == sum_of and of['start'][0]['log'] == str(LOG), f"{of['start']}")
    inputs = [(it['channels'], it['input'].split('/')[-1].split(' ')[-1], it['state']) for it in of['input']]
    must(('13', 'table', 'open') in inputs and ('13', 'table', 'closed') in inputs, f'{inputs}')
    must(any(it[0] == '5' and it[2] == 'failed' for it in inputs), f'{inputs}')
    own = f'uid {os.getuid()} pid {os.getpid()}'
    given = [(it['line'], it['by']) for it in of['command']]
    must(given == [(it, own) for it in ('.RECORD FLT1', '.EVENT 7 first contact', '.STOP')], f'{given}')
    notes = [(it['text'], it['by'].split(':')[0]) for it in of['note']]
    must(notes == [('it is "cold" here', own), ('from afar', '127.0.0.1')], f'{notes}')
    must(of['clock'][0]['sync'] in ('yes', 'no', 'unknown') and of['file'][0]['sync'] == of['clock'][-1]['sync'], f"{of['clock']}")
    # without a channel of its own nothing of this is there, and a note is refused
    many = settings(''.join(channel(10 + n, 'discrete', 'lines = "pipe"') for n in range(64)), start='wait', medium='many')
    service = Service(room, many)
    service.wait_for('64 channels leave no room for the log channel: it is left out')
    must(service.ask('.NOTE x')[0].startswith('E 02') and service.ask('.RECORD', '.STOP') == [], 'with 64 channels')
    service.end()
    service = Service(room, text.replace('start =', 'log = 0\nstart ='))
    must(service.ask('.NOTE x')[0].startswith('E 02') and service.figures()['log'] is None, 'a note is taken')
    service.end()
    return f'{len(lines)} lines'


