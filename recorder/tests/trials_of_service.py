"""Trials of the service as such: readers, the clock, its end and its manager, a flood."""
import fcntl
import os
import re
import shlex
import shutil
import signal
import socket
import subprocess
import sys
import threading
import time
from typing import Any, Optional

from trials_of_losses import log_lines, sums, system_totals
from trying import (
    HOST,
    LONG,
    NotTried,
    Room,
    Service,
    channel,
    entries,
    files,
    load_numbers,
    must,
    settings,
    trial,
    udp_channels,
    until,
)

# (fcntl has it from Python 3.10 on)
F_SETPIPE_SZ = 1031


def numbered(number: int, size: int) -> str:
    """A line with a message as those of load are."""
    body = bytes(8) + number.to_bytes(8, 'little') + bytes((number * 31 + at) & 255 for at in range(size - 16))
    return f'bytes = "{body.hex()}"\n'


@trial
def a_follower_that_stops_reading(room: Room) -> str:
    """Who follows gets what is durable. One that stops reading holds up nothing, and hears that it was left out."""
    service = Service(room, settings(channel(5, 'message', 'lines = "pipe"'), blocks=262144))
    count = 20_000
    with socket.socket(socket.AF_UNIX) as slow, socket.socket(socket.AF_UNIX) as quick, open(room.folder / 'pipe', 'w') as pipe:
        for it in (slow, quick):
            it.settimeout(LONG)
            it.connect(str(room.folder / 'control'))
            it.sendall(b'.FOLLOW 5\n')
        service.until(lambda it: it['readers'] == 2, 'two follow')
        text, got = b'', threading.Event()

        def read() -> None:
            nonlocal text
            while text.count(b'\n') < 2000:
                text += quick.recv(1 << 16)
            got.set()

        reader = threading.Thread(target=read)
        reader.start()
        for number in range(count):
            pipe.write(numbered(number, 100))
        pipe.flush()
        must(got.wait(LONG), f'who follows got {len(text)} bytes')
        reader.join()
        first = [line.split(' ') for line in text.decode().splitlines()[:1000]]
        numbers = [int.from_bytes(bytes.fromhex(it[-1])[8:16], 'little') for it in first if len(it[-1]) == 200]
        must(numbers == list(range(len(numbers))), f'who follows got {numbers[:20]}')
        quick.close()
        figures = service.until_durable(count)
        must(figures['channels'][0]['lost'] == 0 and figures['memory_kib'] < 150000, f'a follower that stops reading: {figures}')
        # now it reads on: what it missed is said
        text = b''
        while b'skipped: ' not in text:
            pipe.write(numbered(0, 100))
            pipe.flush()
            text = text[-100:] + slow.recv(1 << 16)
        must(b'skipped: it was read too slowly' in text, f'the slow one got {text[-300:]!r}')
    service.end()
    return f"{count} messages, none lost, {figures['memory_kib'] >> 10} MiB"


@trial
def clients_that_go(room: Room) -> str:
    """Those who follow and go, read or unread, leave nothing: there is room for the next one, also while nothing comes."""
    service = Service(room, settings(channel(5, 'message', 'lines = "pipe"'), blocks=262144))

    def follow() -> socket.socket:
        it = socket.socket(socket.AF_UNIX)
        it.settimeout(LONG)
        it.connect(str(room.folder / 'control'))
        it.sendall(b'.FOLLOW\n')
        return it

    service.ask('.STOP')
    for _ in range(2):
        gone = [follow() for _ in range(14)]
        service.until(lambda it: it['readers'] == 14, '14 follow')
        for it in gone:
            it.close()
        service.until(lambda it: it['readers'] == 0, 'those who are gone are readers still')
    # those who do not read have much waiting for them when they go
    service.ask('.RECORD')
    gone = [follow() for _ in range(14)]
    service.until(lambda it: it['readers'] == 14, '14 follow')
    with open(room.folder / 'pipe', 'w') as pipe:
        for number in range(10_000):
            pipe.write(numbered(number, 100))
    service.until_durable(10_000)
    for it in gone:
        it.close()
    service.until(lambda it: it['readers'] == 0, 'those who are gone and did not read are readers still')
    with follow() as it:
        must(it.recv(100).startswith(b'entry '), 'the next one gets nothing')
    # where all places are taken, who comes hears so, however fast the connection is closed

    def place() -> Optional[socket.socket]:
        it = socket.socket(socket.AF_UNIX)
        it.settimeout(LONG)
        it.connect(str(room.folder / 'control'))
        try:
            it.sendall(b'.STATUS\n')
            return it if it.recv(100).startswith(b'S ') else None
        except OSError:
            return None

    there = [until(place, 'those who are gone have their places still') for _ in range(32)]
    words = [str(room.programs / 'r10ctl'), '--socket', str(room.folder / 'control'), 'status']
    for _ in range(20):
        ran = subprocess.run(words, capture_output=True, text=True)
        must(ran.returncode == 1 and 'too many are connected' in ran.stderr, f'one too many: {ran}')
    for it in there:
        it.close()
    service.end()
    return '42 came and went'


@trial
def a_long_replay_and_a_recording(room: Room) -> str:
    """The replay of a long file ends when a recording begins: each of its steps would hold up what comes."""
    ports = room.ports(1)
    service = Service(room, settings(udp_channels(ports), start='wait', blocks=262144))
    service.ask('.RECORD')
    # (a file of more than 64 MiB, of the 128 that the medium has)
    load = room.load(ports, count=1300, rate=500, size=60000)
    service.until(lambda it: it['file']['bytes'] > 65 << 20, 'the file does not grow')
    load.kill()
    load.wait()
    service.ask('.STOP')
    with socket.socket(socket.AF_UNIX) as it:
        it.settimeout(LONG)
        it.connect(str(room.folder / 'control'))
        it.sendall(b'.REPLAY\n')
        text = it.recv(1 << 16)
        must(text.startswith(b'entry '), f'a replay begins with {text[:100]!r}')
        must(service.ask('.RECORD', '.STATUS')[-1].startswith('S 0'), 'no recording begins')
        while not text.endswith(b'*\n'):
            more = it.recv(1 << 20)
            must(more, 'the connection is closed')
            text = text[-300:] + more
    last = text.decode().splitlines()[-2]
    must(last.startswith('E 02 INVALID MODE: that file is long'), f'the replay ends with {last[:100]}')
    must(service.ask('.STATUS')[0].startswith('S 05'), 'it does not record')
    service.end()
    return 'it says why it ends'


@trial
def peers(room: Room) -> str:
    """Peers over TCP that say nothing leave the socket free, and what a browser sends does nothing."""
    (port,) = room.ports(1)
    service = Service(room, settings(channel(5, 'message', 'lines = "pipe"'), control=f'tcp = "{HOST}:{port}"'))
    silent = [socket.create_connection((HOST, port), LONG) for _ in range(40)]
    # those over the limit have heard so: the others are connected
    must(silent[-1].recv(100).startswith(b'E 05'), '40 peers')
    must(service.ask('.STATUS')[0].startswith('S 05'), 'the socket does not answer')
    for it in silent:
        it.close()
    while True:
        with socket.create_connection((HOST, port), LONG) as it:
            it.sendall(b'POST / HTTP/1.1\r\nHost: here\r\nContent-Length: 6\r\n\r\n.STOP\n')
            found = b''
            try:
                while data := it.recv(1000):
                    found += data
            except ConnectionResetError:
                pass
        # (the silent ones may not have gone yet)
        if not found.startswith(b'E 05'):
            break
    must(service.ask('.STATUS')[0].startswith('S 05') and found.startswith(b'E 00'), f'a page stops the recorder: {found!r}')
    must(service.ask('.STATUS', path=(HOST, port))[0].startswith('S 05'), 'a command over TCP')
    service.end()
    return '40 silent ones, and a browser'


@trial
def a_pipe_that_goes(room: Room) -> str:
    """A named pipe that is removed is made again, for the service's user and group, and lines come through it; a line of brackets
    without an end does nothing. A line that does not end is counted while it comes."""
    mask = os.umask(0o077)
    try:
        service = Service(room, settings(channel(13, 'discrete', 'lines = "pipe"')))
    finally:
        os.umask(mask)
    path = room.folder / 'pipe'
    for number in (1, 2, 3):
        service.until(lambda it: path.exists() and path.stat().st_mode & 0o777 == 0o660, 'there is no pipe for user and group')
        with open(path, 'w', encoding='ascii') as it:
            it.write(f'states = {"[" * 100_000}\nstates = {number}\n')
        service.until_durable(number)
        if number < 3:
            path.unlink()
    with open(path, 'w', encoding='ascii') as it:
        it.write('x' * 300_000)
        it.flush()
        service.until(lambda it: it['channels'][0]['bad'] == 4, 'a line that does not end is not counted')
        it.write('\nstates = 4\n')
    service.until_durable(4)
    must(service.figures()['channels'][0]['bad'] == 4, 'a long line is counted twice')
    service.end()
    found = [it.words[-1] for it in entries((room.folder / 'medium').read_bytes(), 0, 13)]
    must(found == ['00000001', '00000002', '00000003', '00000004'], f'{found}')
    return 'removed twice'


@trial
def outputs_that_take_nothing(room: Room) -> str:
    """Where an answer, a verdict or a fault cannot be printed, each program ends with a status, and says so if it can."""
    service = Service(room, settings(channel(5, 'message', 'lines = "pipe"'), start='wait'))
    ctl = [str(room.programs / 'r10ctl'), '--socket']
    there, nowhere = str(room.folder / 'control'), str(room.folder / 'nowhere')
    daemon, good = str(room.programs / 'r10d'), str(room.folder / 'settings.toml')
    calls = [([*ctl, there, 'status'], 1), ([*ctl, there, '--json', 'status'], 1), ([*ctl, nowhere, 'status'], 1),
             ([*ctl, nowhere, '--json', 'status'], 1), ([daemon, '--check', good], 3), ([daemon, '--check', nowhere], 2)]
    with open('/dev/full', 'w') as full:
        for words, status in calls:
            ran = subprocess.run(words, stdout=full, stderr=subprocess.PIPE, text=True, timeout=LONG)
            must(ran.returncode == status and ran.stderr.count('\n') == 1 and 'panicked' not in ran.stderr,
                 f'{words}: {ran.returncode}, {ran.stderr}')
            ran = subprocess.run(words, stdout=full, stderr=full, timeout=LONG)
            must(ran.returncode == status, f'{words}, with nothing that takes a line: {ran.returncode}')
    service.end()
    return f'{len(calls)} calls'


@trial
def nobody_reads_what_it_says(room: Room) -> str:
    """A log and a file of acknowledgements that are pipes, and that nobody reads, hold up nothing; what was left out is counted."""
    ports = room.ports(1)
    os.mkfifo(room.folder / 'lines')
    log, to_log = os.pipe()
    acknowledged = os.open(room.folder / 'lines', os.O_RDONLY | os.O_NONBLOCK)
    for pipe in (to_log, acknowledged):
        fcntl.fcntl(pipe, F_SETPIPE_SZ, 4096)
    os.set_blocking(log, False)
    text = b''

    def has_read(wanted: bytes) -> bool:
        nonlocal text
        try:
            text += os.read(log, 1 << 16)
        except BlockingIOError:
            service.ask('.STOP', '.RECORD')
        return wanted in text

    try:
        service = Service(room, settings(udp_channels(ports), start='wait', commit_ms=2), log=to_log, wait=False)
        os.close(to_log)
        service.until_there()
        # (each of them is a line of the log, and nothing for the disk)
        service.ask(*[f'.PUBLISH START {HOST} 9', '.PUBLISH STOP'] * 400)
        service.ask('.RECORD')
        load = room.load(ports, rate=2000, seconds=600)
        service.until(lambda it: it['channels'][0]['durable'] > 0 and it['commits'] > 400, 'it is held up')
        until(lambda: has_read(b'lines of the log were left out'), 'what was left out is not said')
        must(len(os.read(acknowledged, 1 << 16)) <= 4096, 'the acknowledgements go on')
        load.kill()
        load.wait()
        service.child.send_signal(signal.SIGTERM)
        must(service.child.wait(LONG) == 0, 'it does not end')
    finally:
        os.close(log)
        os.close(acknowledged)
    return 'neither held it up'


@trial
def a_file_that_may_not_grow(room: Room) -> str:
    """A limit of the size of files ends what is acknowledged, and not the service. With the next file it is tried again."""
    room.programs, programs = room.folder / 'limited', room.programs
    room.programs.mkdir()
    # (in units of 1,024 bytes: the medium is made before)
    for limit in ('unlimited', '40000'):
        (room.programs / 'r10d').write_text(f'#!/bin/bash\nulimit -f {limit} && exec {shlex.quote(str(programs / "r10d"))} "$@"\n')
        (room.programs / 'r10d').chmod(0o755)
        service = Service(room, settings(channel(13, 'discrete', 'lines = "pipe"')))
        if limit == 'unlimited':
            service.end()
            with open(room.folder / 'lines', 'ab') as it:
                it.truncate(40000 << 10)
            continue
        (room.folder / 'pipe').write_text('states = 1\n')
        service.wait_for('cannot be written down: File too large')
        (room.folder / 'pipe').write_text('states = 2\n')
        service.until_durable(2)
        os.truncate(room.folder / 'lines', 0)
        service.ask('.STOP', '.RECORD')
        (room.folder / 'pipe').write_text('states = 3\n')
        service.until_durable(3)
        until(lambda: (room.folder / 'lines').read_text() == '\ndurable 1 13 1\n', 'what is durable is not written down again')
        service.end()
    return 'it goes on'


@trial
def the_journal(room: Room) -> str:
    """Lines of the log have a level for the journal if it is the journal that gets them, and else a time."""
    text = settings(channel(5, 'message', 'lines = "pipe"'))
    (room.folder / 'log').touch()
    found = (room.folder / 'log').stat()
    for stream, wanted in (('1:1', r'\d{4}-\d\d-\d\d [0-9:.]{11}Z info: r10d '), (f'{found.st_dev}:{found.st_ino}', '<6>r10d ')):
        service = Service(room, text, environment={'JOURNAL_STREAM': stream})
        service.end()
        must(re.search('^' + wanted, service.log(), re.MULTILINE), f'JOURNAL_STREAM={stream}: {service.log()}')
    return 'a time, or a level'


@trial
def a_clock_that_steps(room: Room) -> str:
    """A step of the system's clock is an event and a line of the log; counts go on."""
    ports = room.ports(1)
    (room.folder / 'clock').write_text('0')
    text = settings(udp_channels(ports), clock_event=4000, start='wait')
    service = Service(room, text, disk={'clock': room.folder / 'clock'})
    # (a recording begins with a look at the clock)
    must(service.ask('.RECORD') == [], 'it does not record')
    (room.folder / 'clock').write_text('3600')
    service.wait_for('clock stepped by +3600')
    (room.folder / 'clock').write_text('-86400')
    service.wait_for('clock stepped by -90000')
    must(int(service.ask('.HEALTH')[0].split(' ')[1], 16) & ~16 == 8, 'no warning of the clock')
    service.end()
    found = entries((room.folder / 'medium').read_bytes(), 0)
    must([it.words[0] for it in found if it.kind == 'event'] == ['4000', '4000'], f'{found}')
    times = [it for it in found if it.kind == 'time']
    must(all(a.count < b.count for a, b in zip(times, times[1:])) and len({it.words[0] for it in times}) >= 2, f'times {times}')
    return 'forward and back'


@trial
def the_end_and_the_manager(room: Room, limit: float = LONG) -> str:
    """The service says when it is ready, beats, and ends soon after a SIGTERM with a closed file, under load; also where its
    terminal goes."""
    ports = room.ports(1)
    with socket.socket(socket.AF_UNIX, socket.SOCK_DGRAM) as it:
        path = str(room.folder / 'notify')
        it.bind(path)
        it.settimeout(LONG)
        service = Service(room, settings(udp_channels(ports)), environment={'NOTIFY_SOCKET': path, 'WATCHDOG_USEC': '200000'})
        load = room.load(ports, rate=20000, seconds=600)
        seen: list[str] = []
        while seen.count('WATCHDOG=1') < 5:
            seen += it.recv(4096).decode().split()
        service.until(lambda it: it['channels'][0]['durable'] > 0, 'nothing becomes durable')
        took = service.end()
        load.kill()
        load.wait()
        it.setblocking(False)
        try:
            while True:
                seen += it.recv(4096).decode().split()
        except BlockingIOError:
            pass
    must('READY=1' in seen and 'STOPPING=1' in seen and 'EXTEND_TIMEOUT_USEC=60000000' in seen, f'{seen}')
    must(took < limit, f'the end took {took:.2f} s')
    added = sums((room.folder / 'medium').read_bytes(), [5])[5]
    must(added.recorded > 0 and added[:2] == tuple(system_totals(service)[5][1:3]), f'{added}, {service.log()}')
    must(files((room.folder / 'medium').read_bytes())[0][3] == '1', 'the file is not closed')
    service = Service(room)
    service.wait_for(': recording')
    # (where its terminal goes it records on: SIGHUP reads the settings anew)
    service.child.send_signal(signal.SIGHUP)
    service.wait_for('the settings were read anew')
    must(service.ask('.EVENT 1', '.STATUS')[0].startswith('S 05'), 'where its terminal goes it does not record on')
    service.end(signal.SIGINT)
    closed = [it[3] for it in files((room.folder / 'medium').read_bytes())]
    must(closed == ['1', '1'], f'at SIGINT the file is not closed: {closed}')
    return f'ended in {took:.2f} s'


@trial
def a_flood(room: Room, count: int = 100_000) -> str:
    """Datagrams as fast as they can be sent: each is recorded or counted as lost, another channel gets through, memory stays."""
    ports = room.ports(2)
    service = Service(room, settings(udp_channels(ports), blocks=1 << 19, commit_ms=10))
    before = service.figures()['memory_kib']
    load = room.load(ports[:1], count=count, rate=0, size=40, seconds=900)
    gentle = room.load(ports[1:], count=200, rate=400)
    figures = service.until_durable(count + 200, 900)
    load.wait()
    gentle.wait()
    service.end()
    flooded, other = figures['channels']
    must(flooded['durable'] + flooded['lost'] == count, f'{flooded}')
    must(other['durable'] == 200 and other['lost'] == 0, f'the flood held up another channel: {other}')
    must(figures['memory_kib'] - before < 160 << 10, f"memory grew from {before} to {figures['memory_kib']} KiB")
    found = load_numbers(entries((room.folder / 'medium').read_bytes(), 0, 5))
    must(len(found) == flooded['durable'], f'{len(found)} in the file, {flooded}')
    told = [number - before - 1 for (_, before, _), (_, number, _) in zip(found, found[1:])]
    must(told == [gap for _, _, gap in found[1:]], 'the file does not have the losses that lie between its messages')
    return f"{count} datagrams: {flooded['durable']} recorded, {flooded['lost']} counted as lost, {figures['memory_kib'] >> 10} MiB"


@trial
def what_goes_out_comes_not_in(room: Room) -> str:
    """Packets that are sent to this machine's own address, or to all of its network, at a port of a channel would be recorded, sent
    again and recorded again, until the medium is full."""
    (port,) = room.ports(1)
    text = f'[[channel]]\nid = 5\nkind = "message"\ninput = {{ udp = "0.0.0.0:{port}" }}\n'
    service = Service(room, settings(text))
    # (nothing is sent: this asks for the address with which it would be)
    with socket.socket(socket.AF_INET, socket.SOCK_DGRAM) as it:
        own = [HOST, '255.255.255.255']
        try:
            it.connect(('198.51.100.7', 9))
            own.append(it.getsockname()[0])
        except OSError:
            pass
    for address in own:
        found = service.ask(f'.PUBLISH START {address} {port}')
        must(found and found[0].startswith('E 01 ') and 'listens there' in found[0], f'{address}: {found}')
    must(service.ask('.PUBLISH LIST') == [], 'it goes out all the same')
    # to all of a network at another port it goes out: to this one machine, which hears it
    with socket.socket(socket.AF_INET, socket.SOCK_DGRAM) as it:
        it.settimeout(LONG)
        it.bind(('127.255.255.255', 0))
        must(service.ask(f'.PUBLISH START 127.255.255.255 {it.getsockname()[1]}', '.RECORD') == [], 'it may not go out to all')
        must(it.recv(2000)[:1] in (b'\x01', b'\x11'), 'what came is no datagram of format 1')
    figures = service.figures()
    must(figures['datagrams_out'] > 0 and figures['datagrams_dropped'] == 0, f'to all: {figures}')
    service.end()
    return f'{len(own)} addresses of its own'


@trial
def a_network_that_comes_later(room: Room) -> str:
    """A machine that starts may have no address yet. What needs none is recorded meanwhile, and the rest once it is there."""
    if os.geteuid() != 0 or not all(map(shutil.which, ('unshare', 'nsenter', 'ip'))):
        raise NotTried('a network of its own wants root, unshare, nsenter and ip')
    (port,) = room.ports(1)
    here = '10.7.7.7'
    text = channel(5, 'message', f'udp = "{here}:{port}"') + channel(6, 'message', 'lines = "pipe"')
    text += channel(7, 'message', f'udp = "{here}:{port + 1}", group = "239.1.2.3"')
    keys = {'metrics': f'{here}:{port}', 'control': f'tcp = "{here}:{port + 1}"\npeers = ["{here}"]'}
    (room.folder / 'settings.toml').write_text(settings(text, **keys))
    # (a network of its own has no addresses but those of the loop)
    log = open(room.folder / 'log', 'wb')
    command = ['unshare', '-n', 'sh', '-c', 'ip link set lo up && exec "$0" settings.toml', str(room.programs / 'r10d')]
    child = room.start(command, cwd=room.folder, stderr=log)

    def said(words: str) -> bool:
        must(child.poll() is None, f"it ended: {(room.folder / 'log').read_text()}")
        return words in (room.folder / 'log').read_text()

    until(lambda: said('is ready'), 'it does not start without its addresses')
    with open(room.folder / 'pipe', 'w') as pipe:
        pipe.write('bytes = "41"\n')
    service = Service.__new__(Service)
    service.room, service.folder, service.child = room, room.folder, child
    service.log_path, service.log_start = room.folder / 'log', 0
    service.until(lambda it: it['channels'][1]['durable'] == 1, 'the channel that needs no address records nothing')
    for what in ('channel 5: UDP', 'channel 7: UDP', 'control.tcp', 'metrics'):
        until(lambda: said(what), f'{what} is not said to wait')
    inside = ['nsenter', '-t', str(child.pid), '-n']
    subprocess.run([*inside, 'ip', 'address', 'add', f'{here}/32', 'dev', 'lo'], check=True)
    subprocess.run([*inside, 'ip', 'route', 'add', '224.0.0.0/4', 'dev', 'lo'], check=True)

    def send() -> bool:
        for at in (f'{here}/{port}', f'239.1.2.3/{port + 1}'):
            subprocess.run([*inside, 'bash', '-c', f'echo -n hello > /dev/udp/{at}'], stderr=subprocess.DEVNULL)
        return all(it['durable'] > 0 for it in service.figures()['channels'])

    until(send, 'what has its address now records nothing')
    for at, words in ((port, 'GET / HTTP/1.0\\r\\n\\r\\n'), (port + 1, '.STATUS\\n')):
        script = f"exec 3<>/dev/tcp/{here}/{at} && printf '{words}' >&3 && head -c 3 <&3"
        command = [*inside, 'bash', '-c', script]
        ran = until(lambda: subprocess.run(command, capture_output=True).stdout, f'port {at} does not answer')
        must(ran in (b'HTT', b'S 0'), f'port {at} answers {ran!r}')
    service.end()
    return 'a channel recorded before, two and both ports after'


@trial
def starts_without_a_message(room: Room, starts: int = 12) -> str:
    """A start without a message, event or note takes no place in the directory, which has four here, whether it is ended, killed or
    stopped by a command; it records all the same. The first message is acknowledged, and is in its file after a kill."""
    (port,) = room.ports(1)
    text = settings(channel(5, 'message', 'lines = "pipe"'), directory=1, metrics=f'{HOST}:{port}')
    for number in range(starts):
        service = Service(room, text)
        must(service.ask('.STATUS')[0].startswith('S 05'), f'start {number}: it does not record: {service.ask(".STATUS")}')
        figures = service.figures()
        must((figures['state'], figures['file']) == ('recording', None), f'start {number}: {figures}')
        listed = service.ask('.FILES')
        must(listed == [] and service.ask('.ERASE')[0].startswith('E 02'), f'start {number}: {listed}')
        if number % 3 == 0:
            must(service.ask('.STOP', '.STATUS')[0].startswith('S 01'), f'start {number}: it is not stopped')
        if number % 3 < 2:
            service.end()
        else:
            service.kill()

    def recording() -> bool:
        with socket.create_connection((HOST, port)) as it:
            it.sendall(b'GET /metrics HTTP/1.0\r\n\r\n')
            return '\nr10_recording 1\n' in b''.join(iter(lambda: it.recv(65536), b'')).decode()

    for name, line in (('event', '.EVENT 7 here'), ('note', '.NOTE all well'), ('record', '.RECORD NAMED')):
        service = Service(room, text)
        until(recording, 'the metrics do not have it')
        must(service.ask(line) == [], f'{name}: {service.log()}')
        service.until(lambda it: it['file'], f'{name}: no file begins')
        service.end()
    service = Service(room, text)
    with open(room.folder / 'pipe', 'w') as pipe:
        pipe.write('bytes = "41"\n')
        pipe.flush()
        until(lambda: 'durable 3 5 1' in (room.folder / 'lines').read_text(), 'the first message is not acknowledged')
        service.kill()
    image = (room.folder / 'medium').read_bytes()
    Service(room, text).end()
    closed = (room.folder / 'medium').read_bytes()
    must([it[0] for it in files(image)][2] == 'NAMED' and len(files(closed)) == 4, f'{files(image)}, {files(closed)}')
    of = [entries(closed, number) for number in range(4)]
    must([it.words[0] for it in of[0] if it.kind == 'event'] == ['7'], f'{of[0]}')
    must([it.keys['text'] for it in log_lines(closed, 1) if it.word == 'note'] == ['all well'], f'{log_lines(closed, 1)}')
    kinds = [it.kind for it in of[3] if it.channel == 5 or it.kind == 'time']
    message = [it for it in of[3] if it.channel == 5][0]
    must(kinds[0] == 'time' and (message.words[-1], message.gap) == ('41', '0'), f'{of[3]}')
    must(message.count >= next(it.count for it in of[3] if it.kind == 'time'), f'{of[3]}')
    return f'{starts} starts without a file, and four files'


@trial
def a_disk_that_fails_without_messages(room: Room, failures: int = 300) -> str:
    """A disk that fails again and again where nothing comes takes no place in the directory; the sums are right all the same."""
    if not room.has_disk:
        raise NotTried('there is no cc for recorder/tests/disk.c')
    text = settings(channel(5, 'message', 'lines = "pipe"'), directory=2)
    service, next_one = Service(room, text, disk={'next': room.folder / 'next'}), room.folder / 'next'
    with open(room.folder / 'pipe', 'w') as pipe:
        for number in range(3):
            pipe.write(f'bytes = "{number:02x}"\n')
            pipe.flush()
            service.until_durable(number + 1)
            before = service.figures()['failures']

            def has_failed(it: dict[str, Any], before: int = before) -> bool:
                return it['failures'] > before or it['file'] is None

            for _ in range(failures // 3):
                next_one.touch()
                service.until(lambda it: it['state'] == 'recording' and has_failed(it), 'no failure')
                must(len(service.ask('.FILES')) <= number + 1, f"{number}: {service.ask('.FILES')}")
            service.until(lambda it: it['failures'] > before and it['file'] is None, 'it begins a file without a message')
            next_one.unlink(missing_ok=True)
    service.end()
    image = (room.folder / 'medium').read_bytes()
    # (the last one has what is said of the one before it)
    must(len(files(image)) == 4, f'{files(image)}')
    found = sums(image, [5])[5]
    must((found.recorded, found.lost) == (3, 0), f'{found}')
    return f"{len(files(image))} files"


@trial
def idle_peers_of_the_metrics(room: Room) -> str:
    """Who connects to the metrics and asks nothing takes no answer away from who asks."""
    (port,) = room.ports(1)
    service = Service(room, settings(channel(5, 'message', 'lines = "pipe"'), metrics=f'{HOST}:{port}'))
    idle = [socket.create_connection((HOST, port), LONG) for _ in range(10)]
    start, longest = time.monotonic(), 0.0
    for _ in range(5):
        begin = time.monotonic()
        with socket.create_connection((HOST, port), LONG) as it:
            it.sendall(b'GET /metrics HTTP/1.0\r\n\r\n')
            must(it.makefile('rb').read().startswith(b'HTTP/1.1 200 OK'), 'no answer')
        longest = max(longest, time.monotonic() - begin)
    # (ten one after another would be twenty seconds)
    must(time.monotonic() - start < 15, f'five answers took {time.monotonic() - start:.1f} s')
    for it in idle:
        it.close()
    service.end()
    return f'ten idle ones, an answer within {longest:.2f} s'


@trial
def the_background_of_a_terminal(room: Room) -> str:
    """With standard input as an input, a service in the background of a terminal is not halted when somebody types there."""
    text = settings(channel(5, 'message', 'lines = "-"') + channel(6, 'message', 'lines = "pipe"'))
    (room.folder / 'settings.toml').write_text(text)
    ours, theirs = os.openpty()
    # the leader of a session has the terminal, and the service is a group in its background
    leader = (
        'import fcntl, os, subprocess, sys, termios; fcntl.ioctl(0, termios.TIOCSCTTY, 0); '
        'sys.exit(subprocess.Popen(sys.argv[1:], preexec_fn=lambda: os.setpgid(0, 0), stderr=open("log", "wb")).wait() % 256)'
    )
    words = [sys.executable, '-c', leader, str(room.programs / 'r10d'), 'settings.toml']
    child = room.start(words, cwd=room.folder, stdin=theirs, stdout=theirs, start_new_session=True)
    os.close(theirs)
    log = room.folder / 'log'
    until(lambda: log.exists() and b'is ready' in log.read_bytes(), 'it does not start')
    os.write(ours, b'bytes = "41"\n')
    until(lambda: b'standard input cannot be read' in log.read_bytes(), 'it does not say so')
    with open(room.folder / 'pipe', 'w') as pipe:
        pipe.write('bytes = "42"\n')
    service = Service.__new__(Service)
    service.room, service.folder, service.child = room, room.folder, child
    service.log_path, service.log_start = log, 0
    service.until(lambda it: it['channels'][1]['durable'] == 1, 'nothing is recorded')
    service.ask('.SHUTDOWN')
    must(child.wait(LONG) == 0, f'status {child.returncode}')
    os.close(ours)
    return 'it records on'
