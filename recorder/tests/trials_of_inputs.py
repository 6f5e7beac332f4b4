"""Trials of what comes in and of what goes out: each kind of input, settings, the words of control, live out."""
import json
import os
import pty
import random
import re
import socket
import subprocess
import sys
import termios
import time
from typing import Any

from kinds import KINDS, LONGEST
from trying import (
    CH10,
    HOST,
    LOG,
    LONG,
    NotTried,
    Room,
    Service,
    channel,
    entries,
    files,
    must,
    r10,
    settings,
    trial,
    udp_channels,
    until,
)


@trial
def each_kind_by_udp(room: Room) -> str:
    """A datagram of each kind of channel is the message that r10 play prints; what is no message of its kind is counted."""
    ports = room.ports(len(KINDS))
    service = Service(
        room,
        settings(''.join(channel(10 + n, kind, f'udp = "{HOST}:{port}"') for n, (kind, port) in enumerate(zip(KINDS, ports)))),
    )
    wanted = sorted((10 + n, entry) for n, kind in enumerate(KINDS.values()) for _, entry in kind.datagrams)
    wrong = [len(kind.wrong) for kind in KINDS.values()]
    with socket.socket(socket.AF_INET, socket.SOCK_DGRAM) as it:
        for kind, port in zip(KINDS.values(), ports):
            for body in (*(body for body, _ in kind.datagrams), *kind.wrong):
                it.sendto(body, (HOST, port))
        service.until(
            lambda it: [at['bad'] for at in it['channels']] == wrong
            and sum(at['durable'] for at in it['channels']) == len(wanted),
            'datagrams that are no message are not counted, or one is missing',
        )
    service.end()
    found = [
        (it.channel, ' '.join([it.kind, *it.words])) for it in entries((room.folder / 'medium').read_bytes(), 0)
        if 10 <= it.channel < LOG
    ]
    must(sorted(found) == wanted, f'by UDP came {found}')
    return f'{len(KINDS)} kinds, one of {len(LONGEST):,} bytes, and {sum(wrong)} datagrams that are none'


@trial
def multicast(room: Room) -> str:
    """A channel with a multicast group hears the group, on the network of its address."""
    group, ports = '239.77.3.1', room.ports(2)

    def send(port: int) -> None:
        with socket.socket(socket.AF_INET, socket.SOCK_DGRAM) as it:
            it.setsockopt(socket.IPPROTO_IP, socket.IP_MULTICAST_IF, socket.inet_aton(HOST))
            it.setsockopt(socket.IPPROTO_IP, socket.IP_MULTICAST_TTL, 0)
            it.sendto(b'to all of the group', (group, port))

    # whether the system has multicast on this network at all
    try:
        with socket.socket(socket.AF_INET, socket.SOCK_DGRAM) as it:
            it.bind((group, ports[1]))
            it.settimeout(2)
            it.setsockopt(socket.IPPROTO_IP, socket.IP_ADD_MEMBERSHIP, socket.inet_aton(group) + socket.inet_aton(HOST))
            send(ports[1])
            it.recv(100)
    except OSError as why:
        raise NotTried(f'no multicast on {HOST}: {why}') from None
    service = Service(room, settings(channel(14, 'message', f'udp = "{HOST}:{ports[0]}", group = "{group}"')))
    send(ports[0])
    service.until_durable(1)
    service.end()
    found = [bytes.fromhex(it.words[-1]) for it in entries((room.folder / 'medium').read_bytes(), 0, 14)]
    must(found == [b'to all of the group'], f'of the group came {found}')
    return 'one datagram'


@trial
def each_kind_by_lines(room: Room) -> str:
    """Lines of a named pipe, and of standard input, in the form of a script's offers, come out as r10 play prints them."""
    refused = [(n, line) for n, kind in enumerate(KINDS.values()) for line in kind.refused]
    for where in ('pipe', '-'):
        room.clear()
        text = ''.join(channel(10 + n, kind, f'lines = "{where}"') for n, kind in enumerate(KINDS))
        given = ''.join(
            f'{{ do = "offer", channel = {10 + n}, count = 5, {kind.line} }},\n' for n, kind in enumerate(KINDS.values())
        )
        given += ''.join(f'channel = {10 + n}, {line}\n' for n, line in refused) + 'nonsense\n'
        if where == '-':
            (room.folder / 'given').write_text(given)
            with open(room.folder / 'given', 'rb') as stdin:
                service = Service(room, settings(text), stdin=stdin)
        else:
            service = Service(room, settings(text))
            (room.folder / 'pipe').write_text(given)
        service.until_durable(len(KINDS) + len(refused))
        service.until(
            lambda it: [sum(at[key] for at in it['channels']) for key in ('refused', 'bad', 'durable')]
            == [len(refused), 1, len(KINDS)],
            'a state out of range and a line that is none',
        )
        service.end()
        found = {
            it.channel: ' '.join([it.kind, *it.words])
            for it in entries((room.folder / 'medium').read_bytes(), 0)
            if 10 <= it.channel < LOG
        }
        must(found == {10 + n: kind.entry for n, kind in enumerate(KINDS.values())}, f'by lines came {found}')
    return f'{len(KINDS)} kinds by a pipe and by standard input'


@trial
def losses_are_in_the_file(room: Room) -> str:
    """What is refused is lost, and the next message that is recorded says how many were, over a restart of the file too."""
    service = Service(room, settings(channel(13, 'discrete', 'lines = "pipe"')))
    with open(room.folder / 'pipe', 'w', encoding='ascii') as pipe:
        for number, states in enumerate((0x1FF, 0x100, 1, 2, 0x300, 3)):
            print(f'channel = 13, states = {states}', file=pipe, flush=True)
            if number == 4:
                service.until_durable(5)
                service.ask('.STOP', '.RECORD')
        service.until_durable(6)
    service.end()
    image = (room.folder / 'medium').read_bytes()
    found = [(it.gap, it.words[-1]) for file in range(len(files(image))) for it in entries(image, file, 13)]
    must(found == [('2', '00000001'), ('0', '00000002'), ('1', '00000003')], f'in the files are {found}')
    return '2 and 1 lost messages'


@trial
def serial_lines(room: Room) -> str:
    """Messages of a serial line (a pseudo-terminal) end at a byte, a length or a pause, and a line that goes comes back."""
    masters = []
    text = ''
    for n, how in enumerate(('end = 10', 'length = 4', 'pause_ms = 30, baud = 115200', 'end = 10, baud = 9600')):
        master, slave = pty.openpty()
        masters.append((master, slave))
        # (as a program left it that minds the carrier)
        modes = termios.tcgetattr(slave)
        modes[2] &= ~termios.CLOCAL
        termios.tcsetattr(slave, termios.TCSANOW, modes)
        path = os.ttyname(slave)
        if n == 3:
            (room.folder / 'plug').symlink_to(path)
            path = 'plug'
        text += channel(10 + n, 'uart', f'serial = "{path}", {how}')
    service = Service(room, settings(text))
    for n in range(4):
        service.wait_for(f'channel {10 + n}: reads')
        must(termios.tcgetattr(masters[n][1])[2] & termios.CLOCAL, 'the line minds a carrier')
    os.write(masters[0][0], b'$A,1\n$B')
    os.write(masters[1][0], b'12345678\x03\x04\r\n')
    os.write(masters[2][0], b'first')
    # the pause has to come between the two
    service.until_durable(5)
    os.write(masters[0][0], b',2\n')
    os.write(masters[2][0], b'second')
    service.until_durable(7)
    # what has no `length` may be long
    os.write(masters[0][0], b'$' * 3000 + b'\n')
    service.until_durable(8)
    # a line that goes amid a message, and comes back as another device, as a plug that is pulled does
    os.write(masters[3][0], b'whole\npart')
    service.until_durable(9)
    for it in masters.pop():
        os.close(it)
    service.wait_for('cannot be read')
    service.until_durable(10)
    master, slave = pty.openpty()
    masters.append((master, slave))
    (room.folder / 'fresh').symlink_to(os.ttyname(slave))
    (room.folder / 'fresh').rename(room.folder / 'plug')
    until(lambda: service.log().count('channel 13: reads') == 2, 'the line is not read again')
    os.write(master, b'again\n')
    service.until_durable(11)
    service.end()
    image = (room.folder / 'medium').read_bytes()
    found = {n: [bytes.fromhex(it.words[-1]) for it in entries(image, 0, n)] for n in (10, 11, 12, 13)}
    must(
        found
        == {
            10: [b'$A,1\n', b'$B,2\n', b'$' * 3000 + b'\n'],
            11: [b'1234', b'5678', b'\x03\x04\r\n'],
            12: [b'first', b'second'],
            13: [b'whole\n', b'part', b'again\n'],
        },
        f'by serial lines came {found}',
    )
    for one, other in masters:
        os.close(one)
        os.close(other)
    return 'a byte, a length and a pause'


@trial
def settings_faults(room: Room) -> str:
    """What is wrong with settings is said by line, key, value and limit, and the status is 2."""
    good = settings(udp_channels(room.ports(1)))
    for old, new, wanted in (
        ('"blocks"', '"blocks"', ''),
        ('blocks = 65536', 'blocks = 9', 'line 2: blocks = 9: give a number from 10 to 16777216'),
        ('id = 5', 'id = 70000', 'id = 70000: give a number from 1 to 65535'),
        ('commit_ms', 'comit_ms', 'unknown field `comit_ms`'),
        ('socket = "control"', 'socket = "medium"', 'medium has this path'),
    ):
        (room.folder / 'settings.toml').write_text(good.replace(old, new))
        ran = subprocess.run([room.programs / 'r10d', '--check', 'settings.toml'], cwd=room.folder, capture_output=True, text=True)
        must((ran.returncode == 2 and wanted in ran.stderr) if wanted else ran.returncode == 0, f'{new}: {ran}')
    must(not (room.folder / 'medium').exists(), '--check makes a medium')
    # what is at the socket's path and is no socket stays
    (room.folder / 'precious').write_text('a file of somebody')
    (room.folder / 'settings.toml').write_text(good.replace('socket = "control"', 'socket = "precious"'))
    ran = subprocess.run([room.programs / 'r10d', 'settings.toml'], cwd=room.folder, capture_output=True, text=True, timeout=LONG)
    wanted = 'another file is there; give a path of its own\n'
    must(ran.returncode == 3 and ran.stderr.endswith(wanted), f'a file in place of the socket: {ran}')
    must((room.folder / 'precious').read_text() == 'a file of somebody', 'a file at the path of the socket was taken away')
    # a medium that is none
    (room.folder / 'link').symlink_to('nowhere')
    for medium, wanted in (('/tmp', 'is no file and no block device'), ('/dev/null', 'is no file and no block device'),
                           ('link', 'is a link that leads nowhere')):
        (room.folder / 'settings.toml').write_text(good.replace('"medium"', f'"{medium}"'))
        words = [room.programs / 'r10d', 'settings.toml']
        ran = subprocess.run(words, cwd=room.folder, capture_output=True, text=True, timeout=LONG)
        must(ran.returncode == 3 and ran.stderr.count('\n') == 1 and wanted in ran.stderr, f'{medium} as the medium: {ran}')
    return '8 faults'


@trial
def chapter_6_words(room: Room) -> str:
    """Each command answers as docs/RECORDER.md says, and refuses by the standard's numbers; over TCP nothing is erased."""
    port, tcp, metrics = room.ports(3)
    service = Service(
        room, settings(udp_channels([port]), start='wait', metrics=f'{HOST}:{metrics}', control=f'tcp = "{HOST}:{tcp}"')
    )
    mode = (room.folder / 'control').stat().st_mode & 0o777
    must(mode == 0o660, f'the socket has mode {mode:o}')
    ask = service.ask
    # (a clock that is not in sync is a warning)
    clock = service.clock()
    must(ask('.STATUS') == [f'S 01 {clock} 0 0%'] and ask('.FILES') == [], 'a new medium')
    must(ask('.HEALTH')[0] == f'0 {16 * clock:08X} RECORDER', f"health of the clock: {ask('.HEALTH')}")
    for line, number in (
        ('.STOP', 2),
        ('.EVENT 1', 2),
        ('.EVENT x', 1),
        ('.RECORD a b', 1),
        ('.RECORD A/B', 1),
        ('.FLY', 0),
        ('', 0),
        ('.STATUS 1', 1),
        ('.FIND 1', 1),
        ('.REPLAY', 1),
        ('.REPLAY 77', 1),
        ('.HEALTH 9', 1),
        ('.PUBLISH START x 1', 1),
        ('.PUBLISH START 127.0.0.1 0', 1),
        ('.PUBLISH STOP', 2),
    ):
        found = ask(line)
        must(len(found) == 1 and found[0].startswith(f'E {number:02} '), f'{line}: {found}')
    must(ask('.RECORD FLT1', 'ask')[-1].startswith('E 00') and ask('.RECORD')[0].startswith('E 02'), 'a recording begins once')
    load = room.load([port], count=100, rate=100000)
    service.until_durable(100)
    load.wait()
    must(ask('.STATUS')[0].startswith(f'S 05 {clock} 0') and ask('.ERASE')[0].startswith('E 02'), 'recording')
    must(ask('.EVENT 4095', '.EVENT 4095') == [] and ask('.EVENT 4096')[0].startswith('E 01'), 'events')
    # (on a slow machine the last message may be ten seconds old)
    must(ask('.HEALTH')[1].split(' ')[:2] in (['1', '00000000'], ['1', '00000004']), f"health {ask('.HEALTH')}")
    until(lambda: len([it for it in ask('.FIND 1', '.REPLAY') if ' event 4095 ' in it]) == 2, 'the events are not durable')
    replay = ask('.FIND 1', '.REPLAY 5')
    must(
        replay[0].endswith(' 1 0') and len(replay) == 101 and replay[1].startswith('entry 5 '),
        f'a replay of what is recorded: {replay[:3]}',
    )
    count = int(replay[50].split(' ')[2])
    must(len(ask(f'.FIND 1 {count}', '.REPLAY 5')) == 1 + 51, 'a replay from a count on')
    must(len([it for it in ask('.FIND 1 2000-01-01 00:00:00', '.REPLAY') if ' event ' in it]) == 2, 'a replay from a time on')
    must(
        ask('.STOP', '.FILES')[0].split(' ')[1:5:3] == ['FLT1', 'closed'] and ask('.RECORD FLT1')[0].startswith('E 01'),
        'a file and its name',
    )
    ctl = [str(room.programs / 'r10ctl'), '--socket', str(room.folder / 'control')]
    for words, wanted in (
        (['files', '--json'], '"name":"FLT1"'),
        (['status'], f'IDLE, {clock} warnings'),
        (['time', '--json'], '"key":"time"'),
        (['event', '1'], 'E 02'),
        (['--json', 'health'], '"feature":0'),
        (['watch', '--json'], '"state":"idle"'),
    ):
        one = subprocess.Popen([*ctl, *words], stdout=subprocess.PIPE, stderr=subprocess.STDOUT, text=True)
        line = (one.stdout.read() if words[0] != 'watch' else one.stdout.readline()) if one.stdout else ''
        one.kill()
        one.wait()
        must(wanted in line, f'r10ctl {words}: {line}')
    there = (HOST, tcp)
    must(ask('.STATUS', path=there) == [f'S 01 {clock} 0 0%'], 'over TCP')
    # (README.md has a shell that knows the socket: over TCP it asks all the same)
    ran = subprocess.run(
        [ctl[0], '--tcp', f'{HOST}:{tcp}', 'status'], env=dict(os.environ, R10_SOCKET='elsewhere'), capture_output=True, text=True
    )
    must(ran.stdout.startswith(f'S 01 {clock} 0 0%'), f'r10ctl --tcp, where R10_SOCKET is set: {ran}')
    must(
        ask('.ERASE', path=there)[0].startswith('E 02')
        and ask('.SHUTDOWN', path=there)[0].startswith('E 02')
        and len(ask('.FILES')) == 1,
        'an erase over TCP',
    )

    def scrape() -> str:
        with socket.create_connection((HOST, metrics)) as it:
            it.sendall(b'GET /metrics HTTP/1.0\r\n\r\n')
            return b''.join(iter(lambda: it.recv(65536), b'')).decode()

    # (they are what the recorder's thread put up last, a quarter of a second ago at most)
    for line in ('r10_durable_total{channel="5",name="CH5"} 100', 'r10_recording 0'):
        until(lambda: f'{line}\n' in scrape(), f'metrics: {scrape()}')
    must(ask('.PUBLISH START 127.0.0.1 9', '.PUBLISH LIST') == ['127.0.0.1 9 ALL'], 'a place to send to')
    must(ask('.PUBLISH START 127.0.0.1 9')[0].startswith('E 02') and ask('.PUBLISH STOP', '.PUBLISH') == [], 'none to send to')
    must(ask('.FOLLOW 77')[0].startswith('E 01'), 'a channel that is not there')
    words = ['STATUS', 'RECORD', 'STOP', 'ERASE', 'EVENT', 'NOTE', 'FILES', 'HEALTH', 'FIND', 'REPLAY', 'PUBLISH', 'FOLLOW']
    words += ['FIGURES']
    listed = [it.split(' ')[0] for it in ask('.HELP')]
    words += ['TIME', 'SETUP', 'TMATS', 'MEDIA', 'KEEP', 'MOUNT', 'DISMOUNT', 'BIT', 'CRITICAL', 'IRIG106', 'VERSION', 'MEDIUM']
    words += ['SHUTDOWN', 'STANDING', 'TOKEN', 'HELP']
    must(listed == [f'.{it}' for it in words], f'help has {listed}')
    # each word that it lists is one, and none is an invalid command (asked with a word too many, so that nothing is done)
    for word in listed:
        found = ask({'.FOLLOW': '.FOLLOW x', '.NOTE': '.NOTE'}.get(word, f'{word} a b c d e'))
        must(len(found) == 1 and re.match(r'E 0[1-5] [A-Z ]+: \S', found[0]), f'{word} with words too many: {found}')
    ran = subprocess.run([*ctl, 'files\n.ERASE'], capture_output=True)
    must(ran.returncode == 1 and len(ask('.FILES')) == 1, f'two commands in a word: {ran}')
    must(ask('.MEDIUM') == [f"{room.folder / 'medium'} 65536 8"], 'the medium')
    # the metrics leave the times of messages to who shows them; lines of the log channel have none
    ask('.RECORD', '.FIGURES', '.NOTE a line', '.NOTE another line')
    load = room.load([port], count=50, rate=100000)
    until(lambda: 'r10_durable_total{channel="5",name="CH5"} 150\n' in scrape(), 'the metrics do not go on')
    load.wait()
    times = service.figures()['durable_after_us']
    must(times['messages'] == 50 and ask('.STOP') == [], f'the times are {times}')
    must(ask('.ERASE', '.FILES') == [], 'an erase')
    must(ask('.SHUTDOWN') == [] and service.child.wait(LONG) == 0, 'a shutdown')
    return f'{15 + 29} commands'


@trial
def live_out(room: Room) -> str:
    """What goes out as UDP in transfer format 1, put together again, is the file byte for byte."""
    port, out, joins = room.ports(3)
    with socket.socket(socket.AF_INET, socket.SOCK_DGRAM) as it, socket.socket(socket.AF_INET, socket.SOCK_DGRAM) as late:
        it.setsockopt(socket.SOL_SOCKET, socket.SO_RCVBUF, 32 << 20)
        it.bind((HOST, out))
        it.setblocking(False)
        service = Service(room, settings(udp_channels([port]), publish=f'{HOST}:{out}', start='wait'))
        must(service.ask('.RECORD') == [], 'it does not record')
        late.bind((HOST, joins))
        late.settimeout(LONG)
        service.until(lambda it: it['datagrams_out'] > 2, 'nothing goes out')
        must(service.ask(f'.PUBLISH START {HOST} {joins}') == [], 'another one does not join')
        service.setup = service.ask('.TMATS READ')
        # (what goes out has to fit the buffer of a system as it is set up)
        load = room.load([port], count=1000, rate=20000, size=100)
        service.until_durable(1000)
        load.wait()
        service.end()
        found, sequence, segments = b'', 0, 0
        # (who joined in the file gets the setup first)
        joined = late.recv(65536)
        while True:
            try:
                datagram = it.recv(65536)
            except BlockingIOError:
                break
            head = int.from_bytes(datagram[:4], 'little')
            must(head >> 8 == sequence & 0xFFFFFF and head & 15 == 1, f'datagram {sequence} has the head {head:08x}')
            sequence += 1
            segments += head >> 4 & 15
            found += datagram[12 if head >> 4 & 15 else 4 :]
    image = (room.folder / 'medium').read_bytes()
    size = int(files(image)[0][1])
    # (the setup packet, with which the file begins, goes out again every few seconds)
    setup = found[: int.from_bytes(found[4:8], 'little')]
    packets, at = [], 0
    while at < len(found):
        length = int.from_bytes(found[at + 4 : at + 8], 'little')
        packets.append(found[at : at + length])
        at += length
    found = setup + b''.join(it for it in packets[1:] if it != setup)
    must(found == image[512 * 9 : 512 * 9 + size], f'{len(found)} bytes came, the file has {size}')
    must(joined[12 if joined[0] >> 4 else 4 :] == setup[:1440], f'who joins later gets {joined[:40]!r} first')
    text = setup[28 : 24 + int.from_bytes(setup[8:12], 'little')].decode()
    must(service.setup == text.split('\r\n')[:-1] and 'G\\PN:TRIAL;' in service.setup, f'the setup is {text}')
    by_filter = [sys.executable, str(CH10), 'tmats']
    ran = subprocess.run(by_filter, input=(room.folder / 'settings.toml').read_bytes(), capture_output=True)
    must(ran.stdout.decode() == text, f'ch10 tmats writes another text of the same settings: {ran}')
    must(segments > 0 and r10(['check'], found)[1].strip() == 'strict', 'no packet was cut, or the stream is no file')
    return f'{sequence} datagrams, {size} bytes'


@trial
def more_words_of_chapter_6(room: Room) -> str:
    """The words beside recording, by a plain socket and by r10ctl: what they answer, what they refuse, and that a medium can be
    taken away and put back."""
    (tcp,) = room.ports(1)
    text = channel(5, 'message', 'lines = "pipe"', 'name = "NAV;1"\n') + channel(6, 'arinc', 'lines = "pipe"')
    service = Service(room, settings(text, start='wait', control=f'tcp = "{HOST}:{tcp}"'))
    ask, ctl = service.ask, [str(room.programs / 'r10ctl'), '--socket', str(room.folder / 'control')]

    def by_ctl(*words: str) -> list[str]:
        ran = subprocess.run([*ctl, *words], capture_output=True, text=True)
        return (ran.stdout if ran.returncode == 0 else ran.stderr).splitlines()

    def refused(line: str, number: int, path: Any = None) -> None:
        found = ask(line, path=path)
        must(len(found) == 1 and found[0].startswith(f'E {number:02} '), f'{line}: {found}')

    said = ask('.TIME')
    must(re.fullmatch(r'TIME \d{3}-\d\d:\d\d:\d\d\.\d{3}', said[0]), f'.TIME: {said}')
    at = time.strftime('%j', time.gmtime(time.time()))
    must(said[0][5:8] in (at, f'{int(at) - 1:03}', '001'), f'.TIME has another day than {at}: {said[0]}')
    unix = int(next(it for it in said if it.startswith('UNIX_NS')).split(' ')[1])
    must(abs(unix - time.time_ns()) < 60 * 10**9, f'.TIME is {unix}')
    keys = ['TIME', 'DATE', 'LOOK', 'COUNT', 'UNIX_NS', 'SYNC', 'SOURCE', 'ERROR_NS', 'KERNEL', 'DRIFT_PPM', 'LAST_STEP_S']
    must([it.split(' ')[0] for it in said] == keys, f'.TIME: {said}')
    must(ask('.SETUP') == ['SETUP 0'] == ask('.SETUP 0') and by_ctl('setup') == ['SETUP 0'], '.SETUP')
    setup = ask('.TMATS READ')
    must('R-1\\DSI-2:NAV_1;' in setup and 'B-1\\BT-1:A429;' in setup and by_ctl('tmats', 'read') == setup, f'.TMATS READ: {setup}')
    must(ask('.TMATS VERSION') == ['12'] and ask('.IRIG106') == ['IRIG106 12'] == by_ctl('irig106'), 'the release')
    must([it.split(' ')[:2] for it in ask('.VERSION')] == [['VERSION', 'r10d'], ['VERSION', 'libr10']] , '.VERSION')
    must(len({it.split(' ', 2)[2] for it in by_ctl('version')}) == 1, 'service and library have two versions')
    for name in ('r10d', 'r10ctl'):
        said = subprocess.run([room.programs / name, '--version'], capture_output=True, text=True, timeout=30).stdout
        must([said.strip().split(' ', 1)[1]] == [it.split(' ', 2)[2] for it in by_ctl('version')][:1], f'{name} --version: {said}')
    used = 1 + 8
    must(ask('.MEDIA') == [f'MEDIA 512 {used} {65536 - used}'] == by_ctl('media'), f".MEDIA: {ask('.MEDIA')}")
    must(ask('.CRITICAL') == ['0 C0000000 RECORDER', '1 00000000 NAV;1', '2 00000000 CH6'], f".CRITICAL: {ask('.CRITICAL')}")
    clock = service.clock()
    must(by_ctl('status')[0] == f'S 01 {clock} 0 0%', 'before a bit is made critical')
    must(ask('.CRITICAL 1 00000002') == ['1 00000002 NAV;1'] == ask('.CRITICAL 1'), 'a mask')
    with open(room.folder / 'pipe', 'w') as pipe:
        pipe.write('nonsense\n')
    service.until(lambda it: it['channels'][0]['bad'] == 1, 'a line that is none')
    must(ask('.STATUS') == [f'S 01 {clock} 1 0%'] and ask('.HEALTH 1')[0].endswith('could not be read'), 'a critical bit')
    must(ask('.CRITICAL 1 0', '.STATUS')[-1] == f'S 01 {clock + 1} 0 0%', 'the bit is a warning again')
    bits = ask('.BIT')
    first = 'settings: settings.toml is what the service runs by'
    must(bits[0] == f'BIT 0 ok {first}' and bits[1] == 'BIT 1 ok medium: its directory can be read', f'.BIT: {bits}')
    # (a disk with sectors of 4,096 bytes, and a directory of 8 blocks)
    sectors = sum(it.startswith('BIT 4 FAILED medium: its sectors') for it in bits)
    must(bits[-1] == f'BIT {clock + 2 + sectors} of {len(bits) - 1} failed', f'.BIT: {bits}')
    wrong = 'messages were refused, or could not be read; nothing came in the last ten seconds'
    must(any(re.match(rf'BIT \d+ FAILED channel 5 NAV;1: {wrong}; look at', it) for it in bits), f'{bits}')
    must(json.loads(by_ctl('--json', 'bit')[0]) == {'ok': True, 'test': 0, 'text': first}, f"{by_ctl('--json', 'bit')}")
    for line, number in (('.SETUP 1', 1), ('.TMATS', 1), ('.TMATS WRITE', 2), ('.TMATS FLY', 1), ('.TIME 001-00:00:00', 1),
                         ('.CRITICAL 3', 1), ('.CRITICAL 0 x', 1), ('.CRITICAL 0 0 0', 1), ('.MOUNT', 2), ('.MEDIA 1', 1)):
        refused(line, number)
    must(ask('.EVENT') == [], 'events without a file')
    ask('.RECORD FLT1')
    must(ask('.EVENT 7 engine   start', '.EVENT 8') == [] and by_ctl('event', '7', 'gear up') == [], 'events with a text')
    refused('.EVENT 9 ' + 'x' * 201, 1)
    listed = [it.split(' ', 4) for it in ask('.EVENT')]
    must([(it[0], it[4]) for it in listed] == [('7', 'engine start'), ('8', ''), ('7', 'gear up')], f'.EVENT: {listed}')
    must('event 7: engine start' in service.log() and '"text":"gear up"' in by_ctl('--json', 'event')[2], 'texts of events')
    refused('.DISMOUNT', 2)
    one = ask('.FILES')[0].split(' ')
    at = re.fullmatch(r'\d{4}-\d\d-\d\d \d\d:\d\d:\d\d\.\d\d', ' '.join(one[5:7]))
    must(one[4] == 'open' and one[7] == '-' and at, f'.FILES: {one}')
    ask('.STOP')
    one = ask('.FILES')[0].split(' ')
    must(len(one) == 8 and one[4] == 'closed' and one[7] >= one[6], f'.FILES: {one}')
    must('"begin":"' + one[6] in by_ctl('--json', 'files')[0], 'r10ctl files')
    refused('.DISMOUNT', 2, (HOST, tcp))
    must(ask('.DISMOUNT') == [] and ask('.STATUS')[0].startswith('S 01'), 'a dismount')
    for line in ('.RECORD', '.FILES', '.DISMOUNT', '.MEDIA', '.ERASE', '.STOP'):
        refused(line, 3)
    must(ask('.BIT')[1].startswith('BIT 1 FAILED medium: the medium is dismounted'), '.BIT without a medium')
    must(service.figures()['state'] == 'dismounted', 'the state')
    # another program may have it meanwhile
    (room.folder / 'medium').rename(room.folder / 'away')
    refused('.MOUNT', 3)
    (room.folder / 'away').rename(room.folder / 'medium')
    must(by_ctl('mount') == [] and [it.split(' ')[1] for it in ask('.FILES')] == ['FLT1'] and ask('.RECORD') == [], 'a mount')
    ask('.STOP', '.DISMOUNT')
    service.end()
    must([it[3] for it in files((room.folder / 'medium').read_bytes())] == ['1', '1'], 'files are not closed')
    return f'{len(keys)} lines of .TIME, and ten words'


@trial
def wrong_input_does_nothing(room: Room) -> str:
    """Bytes of all kinds at the control socket and the inputs: the service goes on, and memory stays."""
    chance, ports = random.Random(5), room.ports(3)
    text = udp_channels(ports[:1]) + channel(6, '1553', f'udp = "{HOST}:{ports[1]}"') + channel(7, 'arinc', 'lines = "pipe"')
    service = Service(room, settings(text))
    words = [
        '.FIND',
        '.EVENT',
        '.RECORD',
        '.HEALTH',
        '.PUBLISH START',
        '.REPLAY',
        '.STOP',
        '.FILES',
        '.FOLLOW',
        '.TIME',
        '.BIT',
        '.CRITICAL',
        '.TMATS READ',
        '.MEDIA',
        '.KEEP',
        '1',
        '-1',
        '99999999999999999999',
        '\x00',
        'é',
        '127.0.0.1',
        '2024-02-30 00:00:00',
    ]
    with socket.socket(socket.AF_INET, socket.SOCK_DGRAM) as it, open(room.folder / 'pipe', 'wb', 0) as pipe:
        for number in range(150):
            with socket.socket(socket.AF_UNIX) as one:
                one.settimeout(0.05)
                one.connect(str(room.folder / 'control'))
                line = (
                    ' '.join(chance.choice(words) for _ in range(chance.randrange(1, 5))).encode()
                    if chance.random() < 0.7
                    else chance.randbytes(chance.choice((1, 50, 6000)))
                )
                try:
                    one.sendall(line + b'\n')
                    one.recv(1000)
                except (BrokenPipeError, ConnectionResetError, TimeoutError):
                    pass
            for port in ports[:2]:
                it.sendto(chance.randbytes(chance.choice((0, 1, 2, 73, 1400, 60000))), (HOST, port))
            pipe.write(
                chance.randbytes(chance.randrange(300)) + b'\n'
                if number % 2
                else f'channel = 7, data = {chance.randrange(1 << 33)}, bus = {chance.randrange(300)}\n'.encode()
            )
    time.sleep(0.3)
    figures = service.figures()
    must(figures['memory_kib'] < 100 << 10, f"memory {figures['memory_kib']} KiB")
    service.end(status=None)
    must(service.child.returncode == 0 and 'panicked' not in service.log(), service.log()[-2000:])
    for number in range(len(files((room.folder / 'medium').read_bytes()))):
        entries((room.folder / 'medium').read_bytes(), number)
    return '150 connections, 300 datagrams, 150 lines'


@trial
def files_and_floods_of_lines(room: Room) -> str:
    """A file of lines is read as fast as there is room, and loses nothing. Of a pipe that ends in a flood all lines are recorded or
    counted, also those for which no other line comes."""
    count, queue = 100_000, 'queue_mib = 1\n'
    (room.folder / 'file').write_text(''.join(f'bytes = "{number:08x}"\n' for number in range(count)))
    text = channel(5, 'message', 'lines = "file"', queue) + channel(6, 'message', 'lines = "-"', queue)
    with open(room.folder / 'file', 'rb') as lines:
        flood = subprocess.Popen(['cat'], stdin=lines, stdout=subprocess.PIPE)
    service = Service(room, settings(text, commit_ms=100), disk={'slow': 100_000}, stdin=flood.stdout)
    figures = service.until(
        lambda it: all(it['channels'][place]['durable'] + it['channels'][place]['lost'] == count for place in (0, 1)),
        'what came is neither recorded nor counted',
    )
    flood.wait()
    file, pipe = figures['channels']
    must(file['lost'] == 0, f"of a file {file['lost']} lines are lost")
    service.end()
    return f"of {2 * count} lines {pipe['lost']} are lost, of the pipe"
