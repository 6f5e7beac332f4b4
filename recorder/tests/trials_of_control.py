"""Trials of control that is safe: tokens over TCP, places of clients, settings read anew, a group, a follower over an error."""
from __future__ import annotations

import hashlib
import json
import os
import re
import signal
import socket
import subprocess
import time
from typing import Any

from trials_of_losses import log_lines
from trying import HOST, LONG, NotTried, Room, Service, channel, must, settings, trial, until

TOKEN = 'fedcba9876543210fedcba9876543210'


def ctl(room: Room, *words: str, **more: Any) -> 'subprocess.CompletedProcess[str]':
    return subprocess.run([str(room.programs / 'r10ctl'), *words], capture_output=True, text=True, **more)


@trial
def a_token_over_tcp(room: Room) -> str:
    """Over TCP a word that changes something wants the token; without one in the settings none is done. The log has who gave it."""
    (port,) = room.ports(1)
    (room.folder / 'token').write_text(TOKEN + '\n')
    control = f'tcp = "{HOST}:{port}"\n'
    text = settings(channel(5, 'message', 'lines = "pipe"'), start='wait', control=control + 'token = "token"\n')
    service, there = Service(room, text), (HOST, port)
    words = ['.RECORD', '.STOP', '.EVENT 1', '.NOTE x', '.FIND 1', '.PUBLISH START 127.0.0.1 9', '.CRITICAL 0 0', '.MOUNT']
    for word in words:
        found = service.ask(word, path=there)
        must(found[0].startswith('E 02') and 'token' in found[0], f'{word} without the token: {found}')
    looks = ('.STATUS', '.HEALTH', '.EVENT', '.CRITICAL', '.PUBLISH LIST')
    must(service.ask(*looks, path=there)[0].startswith('S 01'), 'words that look')
    for wrong in ('', 'x', TOKEN[:-1], TOKEN + '0', TOKEN.upper()):
        must(service.ask(f'.TOKEN {wrong}', path=there)[0].startswith('E 01'), f'the token {wrong!r}')
    found = service.ask('.TOKEN wrong', '.RECORD', path=there)
    must(found[1].startswith('E 02'), f'after a wrong token: {found}')
    must(service.ask(f'.TOKEN {TOKEN}', '.RECORD FLT1', path=there) == [], 'with the token')
    # another connection has to give it again
    must(service.ask('.STOP', path=there)[0].startswith('E 02'), 'a token of another connection')
    ran = ctl(room, '--tcp', f'{HOST}:{port}', 'stop')
    must(ran.returncode == 1 and 'token' in ran.stderr, f'r10ctl without a token: {ran}')
    ran = ctl(room, '--tcp', f'{HOST}:{port}', '--token', str(room.folder / 'token'), 'stop')
    must(ran.returncode == 0, f'r10ctl with a token: {ran}')
    service.ask('.RECORD FLT2')
    log = service.log()
    must(TOKEN not in log and TOKEN not in ''.join(service.ask('.STANDING')), 'the token is in the log')
    must(re.search(r'\.RECORD FLT1 by 127\.[\d.]+:\d+', log), f'who began over TCP: {log}')
    must(f'.RECORD FLT2 by uid {os.getuid()} pid {os.getpid()}' in log, f'who began over the socket: {log}')
    service.end()
    # without control.token nothing is changed over TCP
    service = Service(room, settings(channel(5, 'message', 'lines = "pipe"'), start='wait', control=control))
    found = [service.ask(it, path=there)[0][:4] for it in ('.RECORD', f'.TOKEN {TOKEN}')]
    must(found == ['E 02', 'E 01'], f'a change where no token is set: {found}')
    service.end()
    return f'{len(words)} words'


@trial
def silent_clients(room: Room) -> str:
    """32 clients that say nothing give their places to those who come after ten seconds, on the socket and over TCP."""
    (port,) = room.ports(1)
    service = Service(room, settings(channel(5, 'message', 'lines = "pipe"'), control=f'tcp = "{HOST}:{port}"'))

    def connect(way: str) -> socket.socket:
        it = socket.socket(socket.AF_UNIX if way == 'socket' else socket.AF_INET)
        it.settimeout(LONG)
        it.connect(str(room.folder / 'control') if way == 'socket' else (HOST, port))
        return it

    def answers(way: str) -> bool:
        with connect(way) as it:
            try:
                it.sendall(b'.STATUS\n')
                return it.recv(100).startswith(b'S 05')
            except OSError:
                return False

    for way in ('socket', 'tcp'):
        begin = time.monotonic()
        there = [connect(way) for _ in range(32)]
        # (half a line is none)
        for it in there[:16]:
            it.sendall(b'.STAT')
        must(not answers(way), f'{way}: more than 32 places')
        until(lambda: answers(way), f'{way}: silent clients shut out others')
        took = time.monotonic() - begin
        must(took > 8, f'{way}: a place was given after {took:.1f} s')
        for it in there:
            it.close()
    service.until(lambda it: it['state'] == 'recording', 'it records')
    # those who follow stay, and leave a place for a command
    follow = []
    for _ in range(31):
        it = connect('socket')
        it.sendall(b'.FOLLOW\n')
        follow.append(it)
    until(lambda: answers('socket'), 'followers shut out a command')
    for it in follow:
        it.close()
    service.end()
    return f'a place after {took:.1f} s'


@trial
def settings_read_anew(room: Room) -> str:
    """SIGHUP takes names, limits and alarms at once, says what wants a restart, refuses a wrong file, and ends no recording."""
    text = settings(channel(5, 'message', 'lines = "pipe"', 'name = "OLD"\nsilent_s = 0\n'))
    service = Service(room, text)
    with open(room.folder / 'pipe', 'w') as pipe:
        pipe.write('bytes = "41"\n')
        pipe.flush()
        service.until_durable(1)
        changed = text.replace('"OLD"', '"NEW"').replace('silent_s = 0', 'silent_s = 1').replace('commit_ms = 20', 'commit_ms = 30')
        changed = 'prefix = "NEW"\n' + changed
        (room.folder / 'settings.toml').write_text(changed)
        service.child.send_signal(signal.SIGHUP)
        service.wait_for('the settings were read anew: names of channels, limits and alarms are taken')
        until(lambda: service.ask('.HEALTH')[1].endswith(' NEW'), 'the name is not taken')
        until(lambda: 'alarm silent: channel 5 NEW' in service.log(), 'the limit of an alarm is not taken')
        until(lambda: service.figures()['commit_us'] == 30_000, 'a limit is not taken')
        must('want a restart of the service: setup; prefix' in service.log(), service.log())
        (room.folder / 'settings.toml').write_text(changed.replace('"NEW"', '"NEWER"') + 'colour = 1\n')
        service.child.send_signal(signal.SIGHUP)
        service.wait_for('the settings stay as they were: the file is wrong')
        must('unknown field `colour`' in service.log() and service.ask('.HEALTH')[1].endswith(' NEW'), 'a wrong file is taken')
        # other channels want a restart as a whole
        (room.folder / 'settings.toml').write_text(changed.replace('"NEW"', '"NEWER"').replace('id = 5', 'id = 6'))
        service.child.send_signal(signal.SIGHUP)
        service.wait_for('none is taken: the channels are others')
        must(service.ask('.HEALTH')[1].endswith(' NEW'), 'names of other channels are taken')
    must(len(service.ask('.FILES')) == 1 and service.ask('.STATUS')[0].startswith('S 05'), 'the recording ended')
    service.end()
    taken = [it.keys['settings'] for it in log_lines((room.folder / 'medium').read_bytes(), 0) if it.word == 'settings']
    must(taken == [hashlib.sha256(changed.encode()).hexdigest()], f'the log channel has {taken}')
    return 'names and alarms'


@trial
def a_group_stops_at_once(room: Room) -> str:
    """A word goes to all of a group at once: also where one cannot be reached, or is silent. The page of one shows them all."""
    ports = room.ports(9)
    services, group = [], ''
    for number in range(3):
        at = room.folder / f'recorder{number}'
        at.mkdir()
        (at / 'token').write_text(TOKEN + '\n')
        more = f'tcp = "{HOST}:{ports[number]}"\ntoken = "token"\n'
        page = {'page': f'{HOST}:{ports[4]}', 'group': '../group.toml'} if number == 0 else {}
        (at / 'settings.toml').write_text(settings(channel(5, 'message', 'lines = "pipe"'), start='wait', control=more, **page))
        place = f'tcp = "{HOST}:{ports[number]}"\ntoken = "recorder{number}/token"' if number else 'socket = "recorder0/control"'
        group += f'[[recorder]]\nname = "R{number}"\n{place}\n'
    (room.folder / 'group.toml').write_text(group)
    for number in range(3):
        service = Service.__new__(Service)
        service.room, service.folder, service.log_start = room, room.folder / f'recorder{number}', 0
        service.log_path = service.folder / 'log'
        with open(service.log_path, 'ab') as to:
            service.child = room.start([str(room.programs / 'r10d'), 'settings.toml'], cwd=service.folder, stderr=to)
        service.wait_for('is ready')
        services.append(service)
    words = ['--all', str(room.folder / 'group.toml')]
    ran = ctl(room, *words, 'record', 'FLT1')
    must(ran.returncode == 0 and ran.stdout == 'R0: done\nR1: done\nR2: done\n', f'{ran}')

    def spread() -> float:
        """How far apart they were told to stop, in milliseconds, by their own clock."""
        times = []
        for it in services:
            line = [line for line in it.log().splitlines() if '.STOP by ' in line][-1]
            at = re.match(r'[\d-]+ (\d+):(\d+):(\d+)\.(\d+)Z', line)
            must(at, line)
            hour, minute, second, part = at.groups()
            times.append(3600 * int(hour) + 60 * int(minute) + int(second) + float(f'0.{part}'))
        return 1000 * (max(times) - min(times))

    ran = ctl(room, *words, 'stop')
    must(ran.returncode == 0, f'{ran}')
    # (some milliseconds; a machine with other work has more of them)
    first = spread()
    must(first < 5000, f'the stops lie {first:.0f} ms apart')
    # one that takes the connection and says nothing holds up none of the others
    ctl(room, *words, 'record', 'SILENT')
    with socket.create_server((HOST, ports[7])):
        (room.folder / 'silent.toml').write_text(f'[[recorder]]\nname = "SILENT"\ntcp = "{HOST}:{ports[7]}"\n' + group)
        waits = room.start([str(room.programs / 'r10ctl'), '--all', str(room.folder / 'silent.toml'), 'stop'],
                           stdout=subprocess.DEVNULL, stderr=subprocess.PIPE, text=True)
        for it in services:
            it.until(lambda found: found['state'] == 'idle', 'the others wait for one that is silent')
        must(waits.poll() is None, 'it does not wait for one that is silent')
    must('SILENT' in waits.communicate(timeout=LONG)[1] and waits.returncode == 1, 'one that is silent is not named')
    # one that is gone is named, and the others stop all the same
    ctl(room, *words, 'record', 'FLT2')
    (room.folder / 'more.toml').write_text(group + f'[[recorder]]\nname = "GONE"\ntcp = "{HOST}:{ports[8]}"\n')
    ran = ctl(room, '--all', str(room.folder / 'more.toml'), 'stop')
    must(ran.returncode == 1 and 'GONE: no recorder at' in ran.stderr, f'{ran}')
    must('1 of 4 recorders did not do it: GONE' in ran.stderr, f'{ran}')
    second = spread()
    must(second < 5000, f'with one that is gone the stops lie {second:.0f} ms apart')
    ran = ctl(room, '--json', *words, 'status')
    values = [json.loads(it) for it in ran.stdout.splitlines()]
    must([it['recorder'] for it in values] == ['R0', 'R1', 'R2'] and values[0]['answer'][0]['name'] == 'IDLE', f'{ran}')
    # the page of one has them all
    services[2].kill()
    with socket.create_connection((HOST, ports[4]), LONG) as it:
        it.sendall(f'GET /events HTTP/1.1\r\nHost: {HOST}:{ports[4]}\r\n\r\n'.encode())
        stream = it.makefile('r')
        for line in stream:
            if line.startswith('data: ') and '"group"' in line:
                shown = {it['name']: it for it in json.loads(line[6:])['group']}
                states = [shown[f'R{number}'].get('state') for number in (0, 1)]
                if states == ['idle', 'idle'] and 'no recorder' in shown['R2'].get('error', ''):
                    break
    for it in services[:2]:
        it.end()
    return f'stops {first:.0f} and {second:.0f} ms apart'


@trial
def a_follower_over_a_disk_error(room: Room) -> str:
    """Who follows hears of a failure of the disk, and goes on with the next file; at an erase he hears that it ends."""
    if not room.has_disk:
        raise NotTried('there is no cc for recorder/tests/disk.c')
    service = Service(room, settings(channel(5, 'message', 'lines = "pipe"')), disk={'next': room.folder / 'next'})
    words = [str(room.programs / 'r10ctl'), '--socket', str(room.folder / 'control'), 'follow', '5']
    follow = room.start(words, stdout=subprocess.PIPE, stderr=subprocess.PIPE, text=True)
    service.until(lambda it: it['readers'] == 1, 'it follows')
    lines: list[str] = []

    def read_to(text: str) -> None:
        while text not in (line := follow.stdout.readline()):
            must(line, f'it ends before {text}: {lines} {follow.stderr.read()}')
            lines.append(line)
        lines.append(line)

    with open(room.folder / 'pipe', 'w') as pipe:
        pipe.write('bytes = "41"\n')
        pipe.flush()
        read_to(' 41\n')
        (room.folder / 'next').touch()
        read_to('skipped: the disk failed')
        service.wait_for('file 2: recording')
        pipe.write('bytes = "42"\n')
        pipe.flush()
        read_to(' 42\n')
    service.ask('.STOP', '.ERASE')
    must(follow.wait(LONG) == 1, f'it ends with {follow.returncode}')
    must('the medium was erased' in follow.stderr.read(), 'it does not say why')
    service.end()
    return 'it goes on'


@trial
def a_medium_that_a_link_would_make(room: Room) -> str:
    """Where the medium is made nothing is written through a link of the name that it has until then."""
    (room.folder / 'victim').write_bytes(b'')
    (room.folder / 'medium.new').symlink_to(room.folder / 'victim')
    service = Service(room, settings(channel(5, 'message', 'lines = "pipe"')), wait=False)
    must(service.child.wait(LONG) == 3, f'it starts: {service.log()}')
    must((room.folder / 'victim').stat().st_size == 0 and (room.folder / 'medium.new').is_symlink(), 'it wrote through a link')
    must('medium.new' in service.log(), service.log())
    return 'it says so'
