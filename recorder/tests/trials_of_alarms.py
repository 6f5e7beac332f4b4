"""Trials of alarms: each is seen to begin and to end, in all places that tell of it; and of the look before a flight."""
from __future__ import annotations

import json
import pathlib
import re
import shutil
import signal
import socket
import subprocess
import time
from typing import Any, Callable, Optional

from trials_of_time import Plan
from trying import HOST, LONG, TOP, NotTried, Room, Service, Trail, channel, entries, files, must, settings, trial, until

BITS = {'silent': 0x100, 'loss': 0x200, 'disk': 0x400, 'full': 0x800, 'clock': 0x1000, 'commit': 0x2000}


def standing(service: Service) -> dict[str, Any]:
    return json.loads(service.ask('.STANDING')[0])


def on(service: Service) -> set[tuple[str, Optional[int]]]:
    return {(it['alarm'], it['channel']) for it in standing(service)['alarms']}


def command_of(room: Room) -> list[str]:
    """A command that writes down the alarms which it is given."""
    script = room.folder / 'command'
    script.write_text(f'#!/bin/sh\necho "$@" >>{room.folder}/alarms\n')
    script.chmod(0o755)
    return [str(script), 'word']


def scraped(port: int) -> str:
    with socket.create_connection((HOST, port), LONG) as it:
        it.sendall(b'GET /metrics HTTP/1.1\r\n\r\n')
        return it.makefile('rb').read().decode()


def seen(
    service: Service, port: int, name: str, number: Optional[int], is_on: bool, before: Callable[[], object] = lambda: None
) -> None:
    """An alarm began or ended: everywhere. What keeps it as it is is done before each look."""
    what = f'alarm {name} of {number} {"on" if is_on else "off"}'

    def is_so(holds: Callable[[], bool]) -> bool:
        before()
        return holds()

    def stands() -> bool:
        return ((name, number) in on(service)) == is_on

    until(lambda: is_so(stands), f'{what}: {standing(service)["alarms"]}\n{service.log()}')
    place = 0 if number is None else number - 4

    def bits() -> int:
        return int(service.ask('.HEALTH')[place].split(' ')[1], 16)

    until(lambda: is_so(lambda: bool(bits() & BITS[name]) == is_on), f'{what}: .HEALTH')
    line = f'r10_alarm{{alarm="{name}",channel="{"" if number is None else number}"}} {int(is_on)}\n'
    until(lambda: is_so(lambda: line in scraped(port)), f'{what}: metrics')
    until(lambda: f'alarm {name}{":" if is_on else " is over:"}' in service.log(), f'{what}: log')
    given = f'word {name} {"-" if number is None else number} {"on" if is_on else "off"} '
    path = service.folder / 'alarms'
    until(lambda: path.exists() and given in path.read_text(), f'{what}: the command was not given it')


def in_recording(room: Room, wanted: list[str]) -> None:
    """The lines of the log channel, as the recording has them."""
    image = (room.folder / 'medium').read_bytes()
    text = ''
    for number in range(len(files(image))):
        for it in entries(image, number):
            if it.kind == 'message' and it.words[-1].startswith('7231306c6f67'):
                text += bytes.fromhex(it.words[-1]).decode() + '\n'
    for it in wanted:
        must(re.search(f'^r10log alarm at=[^ ]+ {it}', text, re.MULTILINE), f'{it} is not in the log channel:\n{text}')


@trial
def alarms_of_channels(room: Room) -> str:
    """A channel that was heard and is silent, with its end."""
    (port,) = room.ports(1)
    text = settings(
        channel(5, 'message', 'lines = "pipe"', 'name = "GPS"\nsilent_s = 1\n')
        + channel(6, 'message', 'lines = "other"', 'silent_s = 0\n'),
        metrics=f'{HOST}:{port}', alarm=command_of(room), blocks=2048,
    )
    service = Service(room, text)
    time.sleep(1.5)
    must(on(service) == set(), f'one that was never heard is silent: {on(service)}')
    with open(room.folder / 'pipe', 'w') as pipe, open(room.folder / 'other', 'w') as other:
        for it in (pipe, other):
            it.write('bytes = "41"\n')
            it.flush()
        seen(service, port, 'silent', 5, True)
        must(('silent', 6) not in on(service), 'a channel without a limit is silent')
        pipe.write('bytes = "42"\n')
        pipe.flush()
        seen(service, port, 'silent', 5, False)
    service.end()
    in_recording(room, ['is=off kind=silent'])
    return 'silence came and went'


@trial
def an_alarm_of_losses(room: Room) -> str:
    """What a full medium loses is an alarm. It ends once nothing was lost for `loss_s`, and not before.

    The lane is short. What waits in a lane is not lost, and after an erase it is recorded first: where that is more than a medium
    holds, the medium is full again at once."""
    (port,) = room.ports(1)
    limit, body = 5, 'ab' * 1000
    text = settings(
        channel(5, 'message', 'lines = "pipe"', 'name = "GPS"\nsilent_s = 0\ncapacity = 16\n'),
        metrics=f'{HOST}:{port}', alarm=command_of(room), blocks=2048,
    ).replace('[control]', f'[alarms]\nloss_s = {limit}\n[control]')
    service, sent = Service(room, text), 0

    def counts() -> tuple[int, int]:
        """How many messages came, and how many of them are lost."""
        it = service.figures()['channels'][0]
        return it['durable'] + it['lost'] + it['waiting'], it['lost']

    with open(room.folder / 'pipe', 'w') as pipe:

        def comes() -> None:
            nonlocal sent
            pipe.write(f'bytes = "{body}"\n')
            pipe.flush()
            sent += 1

        while service.figures()['state'] != 'full':
            for _ in range(20):
                comes()
        # as long as one after another is lost the alarm stays
        seen(service, port, 'loss', 5, True, before=comes)
        until(lambda: counts()[0] >= sent, 'not all that was sent came')
        before, last = counts()[1], time.monotonic()
        comes()
        until(lambda: counts()[1] > before, 'what comes to a full medium is not lost')
        until(lambda: ('loss', 5) not in on(service), 'the alarm does not end')
        took = time.monotonic() - last
        # (what a machine with other work needs until it counts a message may be missing)
        must(took > limit - 2, f'the alarm ended {took:.1f} s after the last loss, with loss_s = {limit}')
        seen(service, port, 'loss', 5, False)
        seen(service, port, 'full', None, True)
        service.ask('.STOP', '.ERASE', '.RECORD')
        seen(service, port, 'full', None, False)
        service.until(lambda it: it['state'] == 'recording', 'it does not record')
        until(lambda: counts()[0] == sent, f'{counts()} are not all of {sent}')
        lost = counts()[1]
        must(standing(service)['alarms'] == [], f'{standing(service)["alarms"]}')
    service.end()
    # (what was on the medium before it was erased is gone; these lines waited for a file)
    in_recording(room, ['is=on kind=loss', 'is=off kind=loss', 'is=off kind=full'])
    return f'of {sent} messages {lost} were lost; it ended {took:.1f} s after the last'


@trial
def a_medium_that_will_be_full(room: Room) -> str:
    """A rate that fills the medium in less than ten minutes is an alarm, and ends with it."""
    port, out = room.ports(2)
    text = settings(
        f'[[channel]]\nid = 5\nkind = "message"\ninput = {{ udp = "{HOST}:{out}" }}\n',
        metrics=f'{HOST}:{port}', alarm=command_of(room), blocks=262144,
    ).replace('[control]', '[alarms]\nsilent_s = 0\n[control]')
    service = Service(room, text)
    # 128 MiB at a MiB a second are two minutes
    load = room.load([out], count=100_000, rate=1000, size=1000)
    seen(service, port, 'full', None, True)
    must('minutes at this rate' in standing(service)['alarms'][0]['text'], f'{standing(service)["alarms"]}')
    load.kill()
    load.wait()
    service.ask('.STOP')
    seen(service, port, 'full', None, False)
    service.end()
    in_recording(room, ['is=on kind=full'])
    return 'it came and went'


@trial
def alarms_of_the_disk(room: Room) -> str:
    """A disk that fails and is tried again, and one that is so slow that nothing becomes durable. No alarm waits for it."""
    if not room.has_disk:
        raise NotTried('there is no cc for recorder/tests/disk.c')
    (port,) = room.ports(1)
    text = settings(channel(5, 'message', 'lines = "pipe"', 'silent_s = 0\n'), metrics=f'{HOST}:{port}', alarm=command_of(room))
    service = Service(room, text, disk={'next': room.folder / 'next'})
    must(service.ask('.RECORD') == [], 'it does not record')
    (room.folder / 'next').touch()
    seen(service, port, 'disk', None, True)
    seen(service, port, 'disk', None, False)
    service.end()
    in_recording(room, ['is=on kind=disk', 'is=off kind=disk'])
    # each sync takes four seconds
    room.clear()
    command_of(room)
    service = Service(room, text, disk={'slow': 4_000_000})
    begin = time.monotonic()
    # (a file begins with it)
    (room.folder / 'pipe').write_text('bytes = "41"\n')
    until(lambda: ('commit', None) in on(service), f'nothing became durable, and no alarm: {standing(service)}')
    with socket.create_connection((HOST, port), 3) as it:
        it.sendall(b'GET /metrics HTTP/1.1\r\n\r\n')
        text = it.makefile('rb').read().decode()
    must('r10_alarm{alarm="commit",channel=""} 1\n' in text, 'the metrics wait for the disk')
    took = time.monotonic() - begin
    must(took < 30, f'it took {took:.1f} s')
    until(lambda: ('commit', None) not in on(service), 'it does not end')
    must('alarm commit is over' in service.log(), service.log())
    service.kill()
    return 'disk and commit came and went'


@trial
def an_alarm_of_the_clock(room: Room) -> str:
    """A clock that was in sync and is not any more, until it is again."""
    (port,) = room.ports(1)
    clock = Plan(room, [(20, 'sync', 1000), (60, 'step', 1.0), (120, 'sync', 1000)], base=1_800_000_000, speed=10)
    text = settings(
        channel(5, 'message', 'lines = "pipe"', 'silent_s = 0\n'), metrics=f'{HOST}:{port}', alarm=command_of(room), ask_for_time=[]
    )
    service = Service(room, text, environment=clock.environment())
    must(service.ask('.RECORD') == [], 'it does not record')
    seen(service, port, 'clock', None, True)
    seen(service, port, 'clock', None, False)
    service.end()
    in_recording(room, ['is=on kind=clock', 'is=off kind=clock'])
    return 'it came and went'


@trial
def a_command_for_alarms_that_hangs(room: Room) -> str:
    """A command that hangs stops nothing: what comes is recorded, other alarms are told, and it is ended."""
    (port,) = room.ports(1)
    script = room.folder / 'hangs'
    script.write_text(f'#!/bin/sh\necho $$ >>{room.folder}/began\nsleep 1000 &\nsleep 1000\n')
    script.chmod(0o755)
    text = settings(channel(5, 'message', 'lines = "pipe"', 'silent_s = 1\n'), metrics=f'{HOST}:{port}', alarm=[str(script)])
    service = Service(room, text)
    began = room.folder / 'began'
    with open(room.folder / 'pipe', 'w') as pipe:
        for number in range(4):
            pipe.write(f'bytes = "{number:04x}"\n')
            pipe.flush()
            until(lambda: ('silent', 5) in on(service), 'no alarm')
            service.until(lambda it: it['channels'][0]['durable'] == number + 1, 'it is not recorded')
        until(lambda: ('silent', 5) in on(service) and began.exists(), 'no command')
        number = int(began.read_text().split()[0])
        # within ten seconds, and some for the machine
        until(lambda: not pathlib.Path(f'/proc/{number}').exists(), 'a command that hangs is not ended')
    # one that is running at the end is not waited for
    until(lambda: pathlib.Path(f'/proc/{began.read_text().split()[-1]}').exists(), 'no other command')
    ended = service.log().count('was ended after 10 s')
    must(ended > 0, service.log())
    service.end()
    must(service.log().count('was ended after 10 s') == ended, f'the end waits for the command: {service.log()}')
    return 'it was ended'


@trial
def rules_for_prometheus(room: Room) -> str:
    """The rules file has a rule for each alarm, and Prometheus takes it: each fires where it has to, and else not."""
    rules = TOP / 'recorder' / 'r10.rules.yml'
    text = rules.read_text()
    for name in BITS:
        must(f'alarm="{name}"' in text, f'no rule for {name}')
    tool = shutil.which('promtool')
    if tool is None:
        raise NotTried('there is no promtool (Debian: prometheus)')
    ran = subprocess.run([tool, 'check', 'rules', str(rules)], capture_output=True, text=True)
    must(ran.returncode == 0, f'promtool check: {ran.stdout}{ran.stderr}')
    tests = TOP / 'recorder' / 'tests' / 'rules_test.yml'
    ran = subprocess.run([tool, 'test', 'rules', str(tests)], capture_output=True, text=True)
    must(ran.returncode == 0, f'promtool test: {ran.stdout}{ran.stderr}')
    return 'each fires'


@trial
def a_look_before_a_flight(room: Room) -> str:
    """`r10ctl check` says of each part whether it is well or what to do, ends with 1 where one is not, and changes no recording."""
    text = settings(channel(5, 'message', 'lines = "pipe"', 'name = "GPS"\n'), start='wait', ask_for_time=[])
    service = Service(room, text)
    ctl = [str(room.programs / 'r10ctl'), '--socket', str(room.folder / 'control')]

    def check(*words: str) -> tuple[int, str, str]:
        ran = subprocess.run([*ctl, 'check', *words], capture_output=True, text=True)
        return ran.returncode, ran.stdout, ran.stderr

    status, out, error = check('1')
    must(status == 1 and re.search(r'^WRONG +channel 5 GPS: nothing came within 1 s', out, re.MULTILINE), f'{status} {out} {error}')
    for wanted in (
        'settings', 'medium: its directory', 'medium: a sync took', 'medium: its sectors', 'medium: the last free sector',
        'bytes are left', 'clock', 'log',
    ):
        must(wanted in out, f'{wanted} is not looked at:\n{out}')
    with open(room.folder / 'pipe', 'w') as pipe:
        ran = room.start([*ctl, 'check', '30'], stdout=subprocess.PIPE, stderr=subprocess.PIPE, text=True)
        while ran.poll() is None:
            pipe.write('bytes = "41"\n')
            pipe.flush()
            time.sleep(0.1)
        status, out, error = ran.returncode, ran.stdout.read(), ran.stderr.read()
    must(re.search(r'^ok +channel 5 GPS', out, re.MULTILINE), f'{status} {out} {error}')
    must((status == 0) == ('WRONG' not in out), f'{status} {out}')
    # what it wrote is as it was, and no file was touched
    image = (room.folder / 'medium').read_bytes()
    service.ask('.RECORD FLT1', '.EVENT 1')
    status, out, error = check('1')
    must('not tried' in out and 'a file is recorded' in out, f'while a file is recorded: {out}')
    service.ask('.STOP')
    recorded = (room.folder / 'medium').read_bytes()
    check('1')
    must((room.folder / 'medium').read_bytes() == recorded, 'a look changed the medium')
    must(len(image) == len(recorded) and len(entries(recorded, 0)) > 0, 'the file')
    # as chapter 6 has it
    lines = service.ask('.BIT')
    must(all(re.fullmatch(r'BIT \d+ (ok|FAILED) .*|BIT \d+ of \d+ failed', it) for it in lines), f'{lines}')
    ran = subprocess.run([*ctl, '--json', 'check', '1'], capture_output=True, text=True)
    values = [json.loads(it) for it in ran.stdout.splitlines()]
    must(len(values) > 6 and all('ok' in it for it in values if 'error' not in it), f'{values}')
    # other limits are taken by SIGHUP, and until then the service does not run by them
    path = room.folder / 'settings.toml'
    path.write_text(text.replace('commit_ms = 20', 'commit_ms = 30'))
    status, out, error = check('1')
    must(status == 1 and re.search(r'^WRONG +settings: .*SIGHUP', out, re.MULTILINE), out)
    service.child.send_signal(signal.SIGHUP)
    service.wait_for('were read anew')
    status, out, error = check('1')
    must(re.search(r'^ok +settings: .*runs by', out, re.MULTILINE), out)
    path.write_text('# a comment\n' + path.read_text())
    status, out, error = check('1')
    must(re.search(r'^ok +settings: .*runs by', out, re.MULTILINE), out)
    # settings that were spoiled meanwhile are seen before the next start
    (room.folder / 'settings.toml').write_text(text.replace('blocks', 'bloks'))
    status, out, error = check('1')
    must(status == 1 and re.search(r'^WRONG +settings: .*bloks', out, re.MULTILINE), out)
    service.end()
    return f'{len(lines)} parts'


@trial
def a_sector_that_cannot_be_written(room: Room) -> str:
    """The look before a flight finds a medium whose last free sector cannot be written. It writes there alone."""
    if not room.has_disk:
        raise NotTried('there is no cc for recorder/tests/disk.c')
    text = settings(channel(5, 'message', 'lines = "pipe"'), start='wait')
    service = Service(room, text, disk={'trail': room.folder / 'trail'})
    service.ask('.BIT')
    service.end()
    size = 65536 * 512
    places = [offset for kind, offset, data in Trail(room.folder / 'trail').steps if kind == 'W' and offset >= size // 2]
    must(places and all(size - 4096 <= it < size for it in places), f'it wrote at {places}')
    room.clear()
    service = Service(room, text, disk={'next': room.folder / 'next'})
    (room.folder / 'next').touch()
    found = service.ask('.BIT')
    must(any(re.match(r'BIT \d+ FAILED medium: the last free sector', it) for it in found), f'{found}')
    must(service.ask('.STATUS')[0].startswith('S 01'), 'a look that failed took the recorder down')
    service.end(status=None)
    return 'it is found'
