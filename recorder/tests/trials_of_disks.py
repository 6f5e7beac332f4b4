"""Trials of the disk: full, failing, unreadable, taken by another service, a block device; kills, and losses of power."""
import os
import pathlib
import random
import shutil
import subprocess
import time
from typing import Optional

from trials_of_alarms import standing
from trials_of_losses import cut_off, log_lines, sums
from trying import LONG, NotTried, Room, Service, Trail, Wrong, channel, entries, files, judge, lines_of, must, r10, settings, trial
from trying import udp_channels, until


@trial
def a_second_service(room: Room) -> str:
    """One disk has one service: a second one does not start, and changes nothing."""
    ports = room.ports(2)
    service = Service(room, settings(udp_channels(ports[:1]), start='wait'))
    before = (room.folder / 'medium').read_bytes()[: 512 * 9]
    (room.folder / 'other.toml').write_text(settings(udp_channels(ports[1:])).replace('"control"', '"other"'))
    ran = subprocess.run([room.programs / 'r10d', 'other.toml'], cwd=room.folder, capture_output=True, text=True, timeout=LONG)
    must(ran.returncode == 3 and 'is used by another program' in ran.stderr, f'a second service: {ran}')
    must((room.folder / 'medium').read_bytes()[: 512 * 9] == before, 'the second service wrote to the disk')
    # the same settings: the medium is taken before the socket
    ran = subprocess.run([room.programs / 'r10d', 'settings.toml'], cwd=room.folder, capture_output=True, text=True, timeout=LONG)
    must(ran.returncode == 3 and service.ask('.STATUS')[0].startswith('S 01'), f'the same service again: {ran}')
    service.end()
    return 'refused'


@trial
def a_medium_that_is_removed(room: Room) -> str:
    """A medium that somebody removes, or puts another file in the place of, is a line of the log. It is recorded on, however much
    comes: who moves it back has all of it."""
    ports = room.ports(1)
    service = Service(room, settings(udp_channels(ports)))
    service.wait_for(': recording')
    (room.folder / 'medium').rename(room.folder / 'elsewhere')
    service.wait_for('was removed, or another file is there now')
    open_files = [os.readlink(it) for it in pathlib.Path(f'/proc/{service.child.pid}/fd').iterdir()]
    must(str(room.folder / 'elsewhere') in open_files, 'the service has no such file')
    # (blocks are read some MiB before they are written)
    load = room.load(ports, count=300, rate=600, size=60000)
    load.wait()
    figures = service.until_durable(300)
    must(figures['failures'] == 0 and figures['state'] == 'recording', f'it is not recorded on: {figures}:\n{service.log()}')
    (room.folder / 'elsewhere').rename(room.folder / 'medium')
    service.end()
    image = (room.folder / 'medium').read_bytes()
    durable = figures['channels'][0]['durable']
    must(len(files(image)) == 1 and len(entries(image, 0, 5)) == durable > 200, 'it is not in the medium')
    return 'moved, and moved back'


@trial
def a_name_with_other_bytes(room: Room) -> str:
    """A name in a damaged directory may hold any bytes: an answer has a line for each file all the same."""
    text = settings(channel(13, 'discrete', 'lines = "pipe"'), start='wait')
    service = Service(room, text)
    service.ask('.RECORD FLT1', '.STOP', '.RECORD FLT2', '.STOP')
    service.end()
    image = (room.folder / 'medium').read_bytes()
    must(image.count(b'FLT1') > 0, 'the name is not in the directory')
    (room.folder / 'medium').write_bytes(image.replace(b'FLT1', b'A\n*\n'))
    service = Service(room, text)
    found = [it.split(' ')[:2] for it in service.ask('.FILES')]
    must(found == [['1', 'A???'], ['2', 'FLT2']], f'the files are {found}')
    service.end()
    return 'as r10 files prints it'


@trial
def services_that_start_at_once(room: Room) -> str:
    """Of three services that make one medium at the same time one records, and the others say why they do not."""
    for _ in range(5):
        room.clear()
        started = []
        for number, port in enumerate(room.ports(3)):
            text = settings(udp_channels([port]), acknowledge=None).replace('"control"', f'"control{number}"')
            (room.folder / f'{number}.toml').write_text(text)
        for number in range(3):
            with open(room.folder / f'log{number}', 'wb') as log:
                started.append(room.start([str(room.programs / 'r10d'), f'{number}.toml'], cwd=room.folder, stderr=log))
        until(lambda: sum(it.poll() is None for it in started) < 2, 'two services stay')
        logs = [(room.folder / f'log{number}').read_text() for number in range(3)]
        refused = [log for log, it in zip(logs, started) if it.poll() is not None]
        statuses = [it.poll() for it in started]
        must(sorted(map(str, statuses)) == ['3', '3', 'None'], f'{statuses}: {logs}')
        must(all('by another program' in log for log in refused), f'{refused}')
        room.end_all()
    return 'one of three, five times'


@trial
def full_medium(room: Room) -> str:
    """A file that is full ends, and the next begins; a medium that is full says so, counts what comes, and records again after
    an erase."""
    ports = room.ports(1)
    service = Service(room, settings(udp_channels(ports, more='bytes = 4096\nnumber = 50\n'), blocks=1500, commit_ms=10))
    load = room.load(ports, rate=20000, size=60, seconds=600)
    service.wait_for('the medium is full')
    service.until(lambda it: it['state'] == 'full' and it['channels'][0]['lost'] > 0, 'what comes is not counted as lost')
    load.kill()
    load.wait()
    clock = service.clock()
    must(
        service.ask('.STATUS')[0].startswith(f'S 01 {1 + clock} 1') and service.ask('.HEALTH')[0].startswith(f'0 400000{clock}0'),
        'a full medium is no warning',
    )
    must(service.ask('.RECORD')[0].startswith('E 04'), 'a recording begins on a full medium')
    must(service.ask('.EVENT 1')[0].startswith('E 04'), 'a full medium takes an event')
    full = service.until(
        lambda it: all(at['came'] == at['durable'] + at['lost'] + at['waiting'] for at in it['channels']), 'some are not counted'
    )['channels'][0]
    must(full['waiting'] > 0, 'nothing waits for room')
    must(service.ask('.STOP', '.STATUS')[0].startswith(f'S 01 {1 + clock} 0'), 'a recording on a full medium is not stopped')
    image = (room.folder / 'medium').read_bytes()
    found = judge(image, lines_of((room.folder / 'lines').read_text()), [5])
    must(found['files'] > 1 and found['untold'] == found['untold_before'] == 0, f'{found}')
    must(found['acknowledged'] <= found['messages'], f'{found}')
    used = 512 * sum(int(it[2]) for it in files(image)) / (512 * 1491)
    must(service.ask('.ERASE', '.RECORD AGAIN', '.STATUS')[-1].startswith('S 05'), 'no recording after an erase')
    # what waited comes first, into several files where it is much; what waits at the end is in no file
    all_of_it = full['durable'] + full['waiting']
    service.until(lambda it: it['channels'][0]['durable'] == all_of_it, 'what waited is lost')
    load = room.load(ports, rate=20000, size=60, seconds=600)
    service.until(lambda it: it['state'] == 'full' and it['channels'][0]['waiting'] > 0, 'it is not full again')
    load.kill()
    load.wait()
    service.end(status=5)
    must(' messages waited for room, and are in no file' in service.log(), 'what is in no file is not said')
    return f"{found['files']} files, {found['messages']} messages, {used:.0%} used"


@trial
def events_that_fill_files(room: Room) -> str:
    """An event that has no room in the file comes into the next one, until the medium is full; then it is refused."""
    service = Service(room, settings(channel(13, 'discrete', 'lines = "pipe"'), blocks=200, start='wait'))
    service.ask('.RECORD')
    count, refused = 0, []
    while not refused:
        refused = service.ask(*['.EVENT 7'] * 50)
        count += 50 - len(refused)
    must(all(it.startswith('E 04 MEMORY FULL: the') for it in refused), f'a medium that is full: {refused}')
    must(service.ask('.STOP') == [], 'a recording on a full medium is not stopped')
    service.end()
    image = (room.folder / 'medium').read_bytes()
    found = [sum(it.kind == 'event' for it in entries(image, number)) for number in range(len(files(image)))]
    must(len(found) > 2 and sum(found) == count, f'of {count} events in the files are {found}')
    return f'{count} events in {len(found)} files'


@trial
def far_into_a_medium(room: Room) -> str:
    """A file that begins more than 4 GiB into the medium is recorded, cut off, closed and replayed as any other one."""
    ports, medium, before = room.ports(1), room.folder / 'medium', 9 << 20
    text = settings(udp_channels(ports), blocks=4096, start='wait')
    service = Service(room, text)
    service.ask('.RECORD FLT1', '.STOP')
    service.end()
    # its first file gets 4.5 GiB, of which the disk has almost none
    with open(medium, 'r+b') as it:
        it.seek(512 + 64 + 64)
        it.write(before.to_bytes(8, 'big') + (512 * before).to_bytes(8, 'big'))
        it.truncate(512 * (9 + before + 65536))
    text = text.replace('blocks = 4096', f'blocks = {9 + before + 65536}')
    service = Service(room, text)
    service.ask('.RECORD FLT2')
    load = room.load(ports, count=500, rate=20000)
    service.until_durable(500)
    load.wait()
    service.kill()
    service = Service(room, text)
    listed = [it.split(' ')[:5] for it in service.ask('.FILES')]
    wanted = [['1', 'FLT1', '9', 'closed'], ['2', 'FLT2', str(9 + before), 'closed']]
    must([it[:3] + it[4:] for it in listed] == wanted, f'the files are {listed}')
    found = service.ask('.FIND 2', '.REPLAY 5')
    must(len(found) == 501 and found[0] == 'F 0 2 0', f'{len(found) - 1} entries are replayed: {found[:2]}')
    service.end()
    with open(medium, 'rb') as it:
        it.seek(512 * (9 + before))
        data = it.read(int(listed[1][3]))
    must(r10(['check'], data) == (0, 'strict\n'), 'the file is not strict')
    return f'{len(data)} bytes after {512 * before >> 20} MiB'


@trial
def a_full_directory(room: Room) -> str:
    """A directory that has all its files says so, and not that the medium is full; so does the log of the next start."""
    text = settings(channel(13, 'discrete', 'lines = "pipe"'), directory=1, start='wait')
    service = Service(room, text)
    must(service.ask(*['.RECORD', '.STOP'] * 4) == [], 'four files')
    found = service.ask('.RECORD')
    must(found[0].startswith('E 04 MEMORY FULL: the directory is full'), f'a fifth file: {found}')
    service.end()
    service = Service(room, text.replace('"wait"', '"record"'))
    service.wait_for('error: the directory is full: nothing is recorded')
    must(service.ask('.STATUS')[0].startswith(f'S 01 {service.clock()} 1'), f"the status is {service.ask('.STATUS')}")
    service.end()
    return 'four files'


@trial
def kills(room: Room, count: int = 4, seed: int = 1, limit: float = LONG) -> str:
    """A service that is killed under load records again by itself, and all that it acknowledged is there."""
    chance, ports, sum_of, gone = random.Random(seed), room.ports(2), {'acknowledged': 0, 'messages': 0, 'untold': 0}, []
    text = settings(udp_channels(ports), start='resume', commit_ms=chance.choice((2, 20, 50)))
    acknowledged: dict[tuple[int, int], int] = {}
    load, told = None, 0
    for number in range(count):
        start = time.monotonic()
        service = Service(room, text, disk={'slow': chance.choice((0, 300, 2000))} if room.has_disk else None)
        if number == 0:
            service.ask('.RECORD')
        service.wait_for(': recording')
        gone.append(time.monotonic() - start)
        load = room.load(ports, rate=chance.choice((500, 5000, 30000)), size=chance.choice((16, 40, 700)), run=number, seconds=60)
        time.sleep(chance.uniform(0.1, 0.7))
        service.kill()
        load.kill()
        load.wait()
        acknowledged.update(lines_of((room.folder / 'lines').read_text()))
        # every tenth time, and where no more fits, all files are read; else only the last one counts, as nothing else was written
        is_full = 'the medium is full' in service.log()
        if number % 10 == 9 or number == count - 1 or is_full:
            image = (room.folder / 'medium').read_bytes()
            found = judge(image, acknowledged, [5, 6])
            told += cut_off(image)
            sum_of = {key: sum_of[key] + found.get(key, 0) for key in sum_of}
            if is_full or len(files(image)) > 20 or sum(int(it[2]) for it in files(image)) > 20_000:
                service = Service(room, text)
                service.ask('.STOP', '.ERASE', '.RECORD')
                service.kill()
                acknowledged = {}
                (room.folder / 'lines').write_text('')
    must(max(gone) < limit, f'to record again took {max(gone):.2f} s')
    must(sum_of['untold'] == 0 and told > 0, f'{sum_of}, {told}')
    counted = f"{sum_of['acknowledged']} acknowledged of {sum_of['messages']} messages, 0 missing"
    return f'{count} kills, {counted}, {told} lines of what was cut off, recording again within {max(gone):.2f} s'


@trial
def between_two_files(room: Room) -> str:
    """Killed after the end of a file and before the begin of the next: nothing on the medium says that a recording is to go on, and
    it does. After an order to stop, one that was refused, or the end of the service, it does not."""
    text = settings(udp_channels(room.ports(1)), start='resume')
    service = Service(room, text)
    must(service.ask('.RECORD', '.STATUS')[0].startswith('S 05'), 'it does not record')
    service.kill()
    # the cut-off file is closed, and no other is begun
    service = Service(room, text.replace('"resume"', '"wait"'))
    must(service.ask('.STATUS')[0].startswith('S 01') and ' closed ' in service.ask('.FILES')[0], service.log())
    service.kill()
    service = Service(room, text)
    must(service.ask('.STATUS')[0].startswith('S 05'), f'it does not go on: {service.log()}')
    service.ask('.STOP')
    service.kill()
    service = Service(room, text)
    must(service.ask('.STATUS')[0].startswith('S 01'), f'it goes on after an order to stop: {service.log()}')
    service.ask('.RECORD A/B')
    service.kill()
    service = Service(room, text)
    must(service.ask('.STATUS', '.RECORD')[0].startswith('S 01'), f'it goes on after an order that was refused: {service.log()}')
    service.end()
    service = Service(room, text)
    must(service.ask('.STATUS')[0].startswith('S 01'), f'it goes on after its end: {service.log()}')
    service.end()
    return 'it goes on'


@trial
def power_cuts(room: Room, runs: int = 1, places: int = 6, seed: int = 1) -> str:
    """Media that a loss of power may leave, made from the service's own operations: each lists its files, and has all that was
    acknowledged."""
    chance, images, sum_of, steps, on = random.Random(seed), 0, 0, 0, 0
    for number in range(runs):
        room.clear()
        ports = room.ports(2)
        text = settings(
            udp_channels(ports, more=f'bytes = {chance.choice((4096, 131072))}\n'),
            blocks=8192,
            directory=chance.choice((2, 3, 9)),
            nodes=chance.choice((1, 2, 100)),
            commit_ms=chance.choice((1, 5, 20)),
            start='resume',
        )
        # an earlier run leaves files, the last of them cut off
        service = Service(room, text)
        for _ in range(chance.choice((0, 1, 5))):
            service.ask('.RECORD', '.STOP')
        service.ask('.RECORD')
        load = room.load(ports, rate=2000, run=1000, seconds=20)
        time.sleep(0.15)
        service.kill()
        load.kill()
        load.wait()
        image = (room.folder / 'medium').read_bytes()
        before = lines_of((room.folder / 'lines').read_text())
        (room.folder / 'lines').write_text('')
        service = Service(room, text, disk={'trail': room.folder / 'trail'})
        load = room.load(ports, rate=chance.choice((500, 5000, 20000)), size=chance.choice((16, 60, 300)), run=number, seconds=20)
        service.until(lambda it: sum(at['durable'] for at in it['channels']) >= 100, 'no message becomes durable')
        time.sleep(chance.uniform(0.2, 0.5))
        service.end() if chance.random() < 0.5 else service.kill()
        load.kill()
        load.wait()
        trail = Trail(room.folder / 'trail')
        steps += len(trail.steps)
        last = b''
        # (the last place of all has what was acknowledged before)
        chosen = {*chance.sample(range(len(trail.steps)), min(places - 1, len(trail.steps))), len(trail.steps)}
        for place, way, cut, said, _ in trail.cuts(image, sorted(chosen), chance):
            try:
                sum_of += judge(cut, {**before, **lines_of(said)}, [5, 6]).get('acknowledged', 0)
            except Wrong as why:
                raise Wrong(f'run {number}, cut after {place} operations, way {way}: {why}') from None
            images += 1
            last = last if chance.random() < 0.7 and last else cut
        # the service itself goes on from one of them
        (room.folder / 'medium').write_bytes(last)
        (room.folder / 'lines').write_text('')
        service = Service(room, text)
        if not files(last) or files(last)[-1][3] == '1':
            service.ask('.RECORD')
        service.wait_for(': recording')
        load = room.load(ports, rate=1000, run=2000, count=100)
        service.until_durable(100)
        load.wait()
        service.end()
        must(
            judge((room.folder / 'medium').read_bytes(), lines_of((room.folder / 'lines').read_text()), [5, 6])['acknowledged']
            >= 100,
            'it does not record on',
        )
        on += 1
    must(sum_of > 0, 'nothing was acknowledged')
    return f'{runs} runs of {steps} operations, {images} media, {sum_of} acknowledged messages, 0 missing, recorded on from {on}'


def cut_medium(room: Room, text: str, ports: list[int]) -> bytes:
    """A medium with a closed file of 200 messages, and one of 200 that a kill cut off."""
    service = Service(room, text)
    for run, names in enumerate((('.STOP', '.RECORD CUT'), ())):
        room.load(ports, count=200, rate=4000, run=run).wait()
        service.until_durable(200 * (run + 1))
        if names:
            service.ask(*names)
    service.kill()
    image = (room.folder / 'medium').read_bytes()
    must([it[3] for it in files(image)] == ['1', '0'], f'{files(image)}')
    return image


def goes_on(room: Room, text: str, ports: list[int], image: bytes, said: str, within: float = 30.0) -> tuple[bytes, bool]:
    """The service over a medium whose last file is damaged: it records within some seconds, and what follows is in the next file.
    What is on the medium then, and whether the damaged file was set aside; if the damage is one that nothing can see, it is closed.
    Of the bytes that were committed none is another one, in that file and in those before it."""
    (room.folder / 'medium').write_bytes(image)
    before, start = files(image), time.monotonic()
    service = Service(room, text)
    service.until(lambda it: it['state'] == 'recording', f'{said}: it does not record')
    took = time.monotonic() - start
    must(took < within, f'{said}: it records after {took:.1f} s')
    room.load(ports, count=100, rate=4000, run=9).wait()
    service.until_durable(100)
    must(len(service.ask('.FILES')) == len(before) + 1, f'{said}: .FILES has {service.ask(".FILES")}')
    service.end()
    is_aside = 'it is set aside' in service.log()
    # (a damaged directory may say that it was closed)
    was_closed = before[-1][3] == '1'
    is_right = is_aside or was_closed or 'is closed now' in service.log()
    must(is_right, f'{said}: the file is neither closed nor set aside:\n{service.log()}')
    now = (room.folder / 'medium').read_bytes()
    end = 512 * (9 + sum(int(it[2]) for it in before[:-1])) + int(before[-1][1])
    must(now[512 * 9 : end] == image[512 * 9 : end], f'{said}: a byte of a file is another one')
    same = len(before) if is_aside or was_closed else len(before) - 1
    must([it[:3] for it in files(now)][:same] == [it[:3] for it in before][:same], f'{said}: the files are {files(now)}')
    must(len(entries(now, len(before), 5)) == 100, f'{said}: the next file has not what came')
    return now, is_aside


@trial
def a_damaged_last_file(room: Room) -> str:
    """A file that was cut off and then damaged is set aside: the service records after it (within three seconds, and on a slow
    machine ten times that), and no byte of it changes. The system's log and the log channel say so; .FILES, .REPLAY of the file
    before it, and .ERASE go."""
    ports = room.ports(1)
    text = settings(udp_channels(ports))
    image = cut_medium(room, text, ports)
    first = 9 + int(files(image)[0][2])
    chance = random.Random(7)
    # (bytes of the first header, whose checksum sees each)
    for place in (0, 7, 15, 22):
        damaged = bytearray(image)
        damaged[512 * first + place] ^= 1 << chance.randrange(8)
        now, is_aside = goes_on(room, text, ports, bytes(damaged), f'byte {place}')
        must(is_aside, f'byte {place}: it is not set aside')
        must(r10(['play', '--file', '1'], now)[0] == 1, 'r10 plays a file that was set aside')
        must(entries(now, 0) == entries(image, 0), 'the file before it is another one')
        lines = [it for it in log_lines(now, 2) if it.word == 'aside']
        must([(it.number('file'), it.keys['name']) for it in lines] == [(2, 'CUT')], f'the log channel has {lines}')
    service = Service(room, text)
    must('is set aside' not in service.log(), 'it is set aside once more')
    must(service.ask('.STOP', '.REPLAY 1')[-1] != '' and service.ask('.ERASE', '.FILES') == [], 'it is not erased')
    service.end()
    return 'four places of damage'


def sector_of_garbage(chance: random.Random, image: bytes, from_byte: int, end: int) -> bytes:
    at = 4096 * (chance.randrange(from_byte, end) // 4096)
    return image[:at] + chance.randbytes(4096) + image[at + 4096 :]


def mangled_media(room: Room, runs: int, seed: int = 12) -> str:
    """Media whose last file was cut off and then damaged, or torn: flipped bits, sectors of garbage, and directories at fault. On
    each with a directory that r10 can read the service records, as above; of each other not one byte changes."""
    chance = random.Random(seed)
    ports = room.ports(1)
    text = settings(udp_channels(ports), blocks=8192)
    image = cut_medium(room, text, ports)
    found = files(image)
    first, end = 512 * (9 + int(found[0][2])), 512 * (9 + int(found[0][2])) + int(found[1][1])
    read = others = aside = 0
    for number in range(runs):
        mangled = bytearray(image)
        way = number % 10
        if way < 4:
            for _ in range(chance.randrange(1, 4)):
                mangled[chance.randrange(first, end)] ^= 1 << chance.randrange(8)
        elif way < 7:
            mangled[:] = sector_of_garbage(chance, image, first, end)
        elif way < 9:
            # (what a directory has no use for is left out: zeros after its entries)
            mangled[512 + chance.randrange(64 + 224)] ^= 1 << chance.randrange(8)
        else:
            mangled[:] = sector_of_garbage(chance, image, 0, 4096)
        mangled_is, said = bytes(mangled), f'medium {number}, seed {seed}'
        (room.folder / 'medium').write_bytes(mangled_is)
        (room.folder / 'log').unlink(missing_ok=True)
        service = Service(room, text)
        if 'recording is down' in service.log() or not service.ask('.STATUS')[0].startswith('S 05'):
            service.end(status=None)
            must('is set aside' not in service.log(), f'{said}: it was set aside, and nothing is recorded:\n{service.log()}')
            must(way >= 7, f'{said}: nothing is recorded:\n{service.log()}')
            must((room.folder / 'medium').read_bytes() == mangled_is, f'{said}: a byte is another one')
            others += 1
        else:
            service.end()
            aside += goes_on(room, text, ports, mangled_is, said)[1]
            read += 1
    kept = f'{others} without a directory that fits stay as they were'
    return f'{runs} media: recorded on from {read}, {aside} after a file that was set aside; {kept}'


@trial
def some_mangled_media(room: Room) -> str:
    """Of damaged and torn media as many as a gate has time for: see `mangled_media`."""
    return mangled_media(room, 20)


def torn_sectors(room: Room, runs: int, places: int, directory: int, seed: int = 4) -> str:
    """Media after a loss of power on a disk that writes 4,096 bytes at once: the sector of one block that was being written is lost
    whole. What r10 finds on them, and whether the service records on."""
    chance, found = random.Random(seed), {key: 0 for key in ('all there', 'messages missing', 'a file at fault', 'no directory')}
    on = tried = 0
    for number in range(runs):
        room.clear()
        ports = room.ports(2)
        text = settings(udp_channels(ports), blocks=8192, directory=directory, commit_ms=5, file_minutes=1)
        Service(room, text.replace('"record"', '"wait"')).end()
        image = (room.folder / 'medium').read_bytes()
        service = Service(room, text, disk={'trail': room.folder / 'trail'})
        load = room.load(ports, rate=5000, size=60, run=number, seconds=600)
        service.until(lambda it: sum(at['durable'] for at in it['channels']) >= 500, 'no message becomes durable')
        service.ask('.STOP', '.RECORD NEXT')
        service.until(lambda it: it['channels'][0]['in_file'] >= 250, 'no message becomes durable')
        service.kill()
        load.kill()
        load.wait()
        trail = Trail(room.folder / 'trail')
        chosen = sorted(chance.sample(range(len(trail.steps)), min(places, len(trail.steps))))
        for _, _, cut, said, unsure in trail.cuts(image, chosen, chance, ways=(0,)):
            if not unsure:
                continue
            sector = chance.choice(unsure) // 8
            torn = cut[: 4096 * sector] + bytes(4096) + cut[4096 * (sector + 1) :]
            if r10(['files'], torn)[0]:
                found['no directory'] += 1
            else:
                try:
                    judge(torn, lines_of(said), [5, 6])
                    found['all there'] += 1
                except Wrong as why:
                    found['a file at fault' if 'r10 play' in str(why) else 'messages missing'] += 1
            if tried < 20 and not r10(['files'], torn)[0]:
                tried += 1
                (room.folder / 'medium').write_bytes(torn)
                service = Service(room, text)
                on += service.ask('.STATUS')[0].startswith('S 05')
                service.end(status=None)
    must(on == tried, f'the service records on from {on} of {tried} that have a directory')
    return f'directory of {directory} blocks: {found}; the service recorded on from {on} of {tried} that have a directory'


def failing_run(
    room: Room, ports: list[int], text: str, fail: str, again: int = 0, messages: int = 400
) -> tuple[str, dict[str, int]]:
    """A short run whose disk fails once, or so many operations later again: what the service says, and what is on the medium."""
    for it in ('medium', 'medium.new', 'lines', 'log', 'hit'):
        (room.folder / it).unlink(missing_ok=True)
    (room.folder / 'medium').write_bytes((room.folder / 'empty').read_bytes())
    service = Service(room, text, disk={'fail': fail, 'again': again, 'hit': room.folder / 'hit'})
    load = room.load(ports, count=messages, rate=4000)
    durable = None
    if fail.split(':')[0].endswith('+'):
        service.wait_for('recording is down')
    else:
        figures = service.until_durable(messages)
        durable, lost = (sum(it[key] for it in figures['channels']) for key in ('durable', 'lost'))
        by = [it['lost_by'] for it in standing(service)['channels']]
        must(
            durable + lost == messages and all(it['disk'] == 0 for it in by),
            f'operation {fail}: of {messages} messages {durable} are durable and {lost} lost, {by}:\n{service.log()}',
        )
    load.wait()
    service.end(status=None)
    lines = (room.folder / 'lines').read_text() if (room.folder / 'lines').exists() else ''
    image = (room.folder / 'medium').read_bytes()
    found = judge(image, lines_of(lines), [5, 6])
    if durable is not None and 'the medium can be taken away' in service.log():
        added = sums(image, [5, 6])
        words = [it.word for file in range(len(files(image))) for it in log_lines(image, file)]
        must(words.count('start') == 1, f'operation {fail}: the lines are {words}')
        must(
            sum(it.recorded + it.lost for it in added.values()) == messages,
            f'operation {fail}: of {messages} messages the lines and entries have {added}:\n{service.log()}',
        )
    must(
        durable is None or found.get('untold', 0) == found.get('untold_before', 0) == 0,
        f'operation {fail}: losses that no gap tells of: {found}:\n{service.log()}',
    )
    must(
        durable in (None, found.get('messages', 0)),
        f'operation {fail}: {durable} are counted as durable, and there are {found}:\n{service.log()}',
    )
    return service.log(), found


@trial
def disk_failures(room: Room, each: int = 9) -> str:
    """A write or a sync fails once (EIO, ENOSPC) at each operation of a short run, or one in so many: one line says so, the
    service goes on in a new
    file, what was acknowledged is there, and what is not there was said to be lost."""
    ports = room.ports(2)
    text = settings(udp_channels(ports), blocks=4096, directory=4, commit_ms=10)
    Service(room, text.replace('"record"', '"wait"')).end()
    (room.folder / 'empty').write_bytes((room.folder / 'medium').read_bytes())
    service = Service(room, disk={'trail': room.folder / 'trail'})
    must(service.ask('.RECORD') == [], 'it does not begin a file at once')
    service.end()
    clean = len([it for it in Trail(room.folder / 'trail').steps if it[0] != 'A'])
    count, number = 0, 1
    while True:
        for errno in (5, 28):
            log, found = failing_run(room, ports, text, f'{number}:{errno}')
            if not (room.folder / 'hit').exists():
                break
            count += 1
            must(
                ('Input/output error' if errno == 5 else 'No space left') in log,
                f'operation {number}: the reason is not said:\n{log}',
            )
            must(
                'the medium can be taken away' in log
                or number > clean
                and 'its next start closes it' in log
                or 'recording was down' in log,
                f'operation {number}: it does not end well:\n{log}',
            )
        else:
            number += each
            continue
        break
    # a second failure follows the first: while the medium is opened again, the cut-off file closed, or the next begun
    seconds = range(1, 15, (each + 1) // 2)
    for again in seconds:
        log, _ = failing_run(room, ports, text, '12:5', again)
        must('the medium can be taken away' in log, f'a second failure {again} operations after the first:\n{log}')
    # some operations in a row fail, those of the first tries to go on among them
    log, _ = failing_run(room, ports, text, '12-14:5')
    must('(try 3 of 5)' in log and 'the medium can be taken away' in log, log)
    # one that fails from some operation on: it stays down, and says so; with a good disk it records again by a command
    log, _ = failing_run(room, ports, text, '30+:5')
    must('recording is down' in log, log)
    return f'{count} runs with a failure at operation 1 to {number}, {len(seconds)} with a second one, and a disk that stayed away'


@trial
def a_disk_that_fails_twice(room: Room) -> str:
    """A disk that fails, is opened again, and fails again before another message is durable: what was accepted is in the files,
    once, and what was refused is in the gap of the next message."""
    service = Service(
        room,
        settings(channel(13, 'discrete', 'lines = "pipe"'), blocks=16384, directory=63, commit_ms=10, tries=100),
        disk={'next': room.folder / 'next'},
    )
    service.wait_for(': recording')
    wanted: list[tuple[str, str]] = []
    sent, lost, gap = 0, 0, 0

    def fail() -> None:
        """The next operation of the disk fails."""
        service.until(lambda it: it['state'] == 'recording', 'it does not go on')
        (room.folder / 'next').write_text('')

    def fail_now() -> None:
        """The disk fails while no message comes."""
        before = service.figures()['failures']
        fail()
        service.ask('.EVENT 1')
        service.until(lambda it: it['failures'] > before and it['state'] == 'recording', 'the disk does not fail')

    def is_lost(states: int) -> bool:
        """Sends a message, and says what became of it."""
        nonlocal sent, lost, gap
        print(f'states = {states}', file=pipe, flush=True)
        sent += 1
        found = service.until_durable(sent)['channels'][0]['lost']
        if found == lost:
            wanted.append((str(gap), f'{states:08x}'))
            gap = 0
            return False
        gap, lost = gap + found - lost, found
        return True

    with open(room.folder / 'pipe', 'w', encoding='ascii') as pipe:
        must(not is_lost(200), 'the first message is lost')
        # messages over a disk that fails in each of them: an operation for the clock may come before one and fail
        for states in range(1, 20):
            fail()
            must(not is_lost(states), f'message {states} is lost')
        # one is refused, and the disk fails before there is another, and as that one comes
        must(is_lost(0x1FF), 'a state out of range is taken')
        fail_now()
        fail()
        must(not is_lost(201), 'a message is lost')
        # the number was given to the recorder, and the message that was to carry it is refused
        must(is_lost(0x1FF) and is_lost(0x1FF), 'a state out of range is taken')
        fail_now()
        fail_now()
        must(not is_lost(203), 'a message is lost on a disk that is well')
        figures = service.figures()
    service.end()
    image = (room.folder / 'medium').read_bytes()
    found = [(it.gap, it.words[-1]) for file in range(len(files(image))) for it in entries(image, file, 13)]
    must(found == wanted, f'in the files are {found}, wanted were {wanted}:\n{service.log()}')
    must(sum(int(it[0]) for it in found) == lost and len(found) + lost == sent, f'{sent} sent, {lost} lost, {found}')
    return f"{figures['failures']} failures: {len(found)} messages in the files and {lost} lost, as many as were sent"


@trial
def a_block_that_cannot_be_read(room: Room) -> str:
    """What a mapping is to read is read plainly before: a bad block is named, at a restart, where a file begins, within it, and in
    a replay; the service stays up, and goes on or says that it is down."""
    ports = room.ports(1)
    text = settings(udp_channels(ports), tries=2)
    service = Service(room, text)
    load = room.load(ports, count=2000, rate=20000)
    service.until_durable(2000)
    load.wait()
    service.kill()
    service = Service(room, disk={'bad': 3})
    service.wait_for('recording is down')
    must('block 3 of the medium' in service.log() and service.ask('.STATUS')[0].startswith('S 00'), service.log())
    must(service.ask('.RECORD')[0].startswith('E 03'), 'it records')
    service.end(status=None)
    # a file that was cut off and cannot be read is set aside
    kept = {name: (room.folder / name).read_bytes() for name in ('medium', 'lines')}
    service = Service(room, disk={'bad': 60})
    service.wait_for(': recording')
    must('block 60 of the medium' in service.log() and 'it is set aside' in service.log(), service.log())
    service.end()
    for name, what in kept.items():
        (room.folder / name).write_bytes(what)
    service = Service(room)
    must(service.ask('.STATUS')[0].startswith('S 05'), 'with a good disk')
    service.end()
    image = (room.folder / 'medium').read_bytes()
    judge(image, lines_of((room.folder / 'lines').read_text()), [5])
    end = 9 + sum(int(it[2]) for it in files(image))
    # where a file is to begin
    service = Service(room, text.replace('"record"', '"wait"'), disk={'bad': end + 5000})
    found = service.ask('.RECORD')
    must(found[0].startswith(f'E 05 COMMAND FAILED: block {end + 5000} of the medium'), f'{found}')
    service.wait_for('recording is down')
    service.end(status=None)
    # further on than is read at first, before the file comes there; and in an older file that is asked for
    service = Service(room, text.replace('"record"', '"wait"'), disk={'bad': end + (8 << 11) + 77})
    service.ask('.RECORD LONG')
    load = room.load(ports, size=1000, rate=8000, seconds=600)
    service.wait_for(f'block {end + (8 << 11) + 77} of the medium')
    service.wait_for('recording is down')
    load.kill()
    load.wait()
    must(service.child.poll() is None and service.ask('.STATUS')[0].startswith('S 00'), service.log())
    service.end(status=None)
    service = Service(room, text, disk={'bad': 12})
    service.wait_for(': recording')
    found = service.ask('.FIND 1', '.REPLAY')
    must(found[1].startswith('E 05 COMMAND FAILED: block 12 of the medium'), f'a replay of a bad block: {found}')
    must(service.ask('.STATUS')[0].startswith('S 05'), 'a replay ends the recording')
    service.end()
    judge((room.folder / 'medium').read_bytes(), lines_of((room.folder / 'lines').read_text()), [5])
    return 'six blocks named'


class Loop:
    """A block device over a file, with sectors of so many bytes."""

    def __init__(self, room: Room, blocks: int, sector: int) -> None:
        self.file, self.device = room.folder / f'disk-{sector}', ''
        if os.geteuid() != 0 or shutil.which('losetup') is None:
            raise NotTried('a block device wants root, and losetup')
        with open(self.file, 'wb') as it:
            it.truncate(512 * blocks)
        ran = subprocess.run(
            ['losetup', '--find', '--show', '--sector-size', str(sector), str(self.file)], capture_output=True, text=True
        )
        if ran.returncode:
            raise NotTried(f'no block device is to be had: {ran.stderr.strip()}')
        self.device = ran.stdout.strip()

    def close(self) -> bytes:
        """What it holds after all."""
        subprocess.run(['losetup', '--detach', self.device], check=True)
        return self.file.read_bytes()


def on_a_device(room: Room, sector: int) -> int:
    """Formats a block device, records on it, is killed, and records on. How many messages are on it."""
    device: Optional[Loop] = Loop(room, 16384, sector)
    try:
        ports = room.ports(1)
        text = settings(udp_channels(ports), medium=device.device, blocks=16384, directory=63)
        service = Service(room, text)
        service.wait_for('has no directory of this recorder')
        must(service.ask('.STATUS')[0].startswith('S 00'), 'it records on a device without a directory')
        is_warned = 'sectors are not of 512 bytes' in service.log()
        must(is_warned == (sector != 512), f'sectors of {sector} bytes: {service.log()}')
        service.end(status=4)
        for status in (0, 3):
            words = [room.programs / 'r10d', '--format', 'settings.toml']
            ran = subprocess.run(words, cwd=room.folder, capture_output=True, text=True)
            must(ran.returncode == status, f'--format: {ran}')
        must('has a recorder\'s directory already' in ran.stderr, f'{ran}')
        service = Service(room)
        load = room.load(ports, count=500, rate=20000)
        service.until_durable(500)
        load.wait()
        service.kill()
        service = Service(room)
        load = room.load(ports, count=500, rate=20000, run=1)
        service.until_durable(500)
        load.wait()
        service.end()
        (room.folder / 'other.toml').write_text(text.replace('directory = 63', 'directory = 31'))
        ran = subprocess.run([room.programs / 'r10d', '--format', 'other.toml'], cwd=room.folder, capture_output=True, text=True)
        must(ran.returncode == 3 and 'does not fit these settings' in ran.stderr, f'--format over recordings: {ran}')
        image, device = device.close(), None
    finally:
        room.end_all()
        if device is not None:
            device.close()
    found = judge(image, lines_of((room.folder / 'lines').read_text()), [5])
    must(found['files'] == 2 and found['acknowledged'] > 0, f'{found}')
    return found['messages']


@trial
def block_devices(room: Room) -> str:
    """A block device is formatted once, and recorded on; one whose sectors are not of 512 bytes is warned of."""
    messages = []
    for sector in (512, 4096):
        room.clear()
        messages.append(on_a_device(room, sector))
    return f'sectors of 512 and of 4,096 bytes, {messages[0]} and {messages[1]} messages'


def formats(room: Room, *more: str) -> 'subprocess.CompletedProcess[str]':
    words = [str(room.programs / 'r10d'), '--format', *more, 'settings.toml']
    return subprocess.run(words, cwd=room.folder, capture_output=True, text=True, timeout=LONG)


@trial
def what_is_not_the_recorders(room: Room) -> str:
    """Files that are somebody's stay: one in place of the medium, and those beside it that have the names of what the service
    makes."""
    medium, kept = room.folder / 'medium', b'a thesis, or a table of partitions\n' * 100
    (room.folder / 'settings.toml').write_text(settings(channel(5, 'message', 'lines = "pipe"'), blocks=4096))
    # where a mark of other data may stand: the table of partitions, ext4, btrfs
    for at in (0, 512, 1080, (64 << 10) + 64):
        text = bytearray(512 * 4096)
        text[at : at + len(kept)] = kept
        medium.write_bytes(text)
        ran = formats(room)
        must(ran.returncode == 3 and 'has something else in its first 128 KiB' in ran.stderr, f'--format over bytes at {at}: {ran}')
        must(medium.read_bytes() == text, f'--format wrote over bytes at {at}')
    medium.write_bytes(bytes(512 * 4096))
    ran = formats(room)
    must(ran.returncode == 0, f'--format of zeros: {ran}')
    # what has the name under which a medium is made
    medium.unlink()
    (room.folder / 'medium.new').write_bytes(kept)
    service = Service(room, wait=False)
    must(service.child.wait(LONG) == 3 and 'there is another file of that name' in service.log(), f'{service.log()}')
    must((room.folder / 'medium.new').read_bytes() == kept and not medium.exists(), 'a file medium.new is gone')
    (room.folder / 'medium.new').rename(room.folder / 'medium.recording')
    # what has the name of the mark: it is no mark, and stays
    service = Service(room, settings(channel(5, 'message', 'lines = "pipe"'), blocks=4096, start='resume'))
    must(service.ask('.STATUS')[0].startswith('S 01'), 'it records, and nothing was cut off')
    service.ask('.RECORD')
    service.ask('.STOP')
    service.end()
    must((room.folder / 'medium.recording').read_bytes() == kept, 'a file medium.recording is gone')
    return 'nothing is written over'


@trial
def a_format_by_force(room: Room) -> str:
    """`--format --force` says what it destroys: files by their names, a directory that does not fit, or something else. Without
    `--force`, and while a service has the medium, nothing is written."""
    medium, text = room.folder / 'medium', settings(channel(13, 'discrete', 'lines = "pipe"'), start='wait')
    service = Service(room, text)
    service.ask('.RECORD FLT1', '.STOP', '.RECORD FLT2', '.STOP')
    used = formats(room, '--force')
    must(used.returncode == 3 and 'is used by another program' in used.stderr, f'a medium in use: {used}')
    service.end()
    image = medium.read_bytes()
    sizes = sum(int(it[1]) for it in files(image))
    damaged = bytearray(image)
    damaged[512 + 56] ^= 1
    for what, said in (
        (image, f'had a directory of 2 files with {sizes} bytes: FLT1, FLT2; it is empty now'),
        (bytes(damaged), 'had a directory that does not fit these settings, or is damaged; `ch10 rescue` finds'),
        (b'a thesis\n' * 100 + bytes(len(image) - 900), 'had something else in its first 128 KiB; it is empty now'),
    ):
        medium.write_bytes(what)
        ran = formats(room)
        must(ran.returncode == 3 and medium.read_bytes() == what, f'without --force: {ran}')
        ran = formats(room, '--force')
        must(ran.returncode == 0 and said in ran.stderr, f'{said}: {ran}')
        now = medium.read_bytes()
        must(files(now) == [], f'{said}: there are files')
        must(now[1024:] == what[1024:] and now[:512] == what[:512], f'{said}: another block than that of the directory was written')
    # nothing is said of a medium that had nothing
    medium.write_bytes(bytes(len(image)))
    ran = formats(room, '--force')
    must(ran.returncode == 0 and ran.stderr == '', f'an empty one: {ran}')
    ran = subprocess.run([room.programs / 'r10d', '--force', 'settings.toml'], cwd=room.folder, capture_output=True, text=True)
    must(ran.returncode == 2 and '--format' in ran.stderr, f'--force alone: {ran}')
    return 'three kinds of content'


@trial
def a_mounted_device(room: Room) -> str:
    """A block device that is mounted, or a partition of it, is not recorded on, nor formatted; nor can one be mounted that is."""
    if shutil.which('mkfs.ext4') is None:
        raise NotTried('there is no mkfs.ext4')
    loop = Loop(room, 16384, 512)
    at = room.folder / 'mounted'
    at.mkdir()
    try:
        subprocess.run(['mkfs.ext4', '-q', loop.device], check=True, stdout=subprocess.DEVNULL, stderr=subprocess.DEVNULL)
        if subprocess.run(['mount', loop.device, str(at)], capture_output=True).returncode:
            raise NotTried('nothing can be mounted here')
        text = settings(channel(5, 'message', 'lines = "pipe"'), medium=loop.device, blocks=16384)
        (room.folder / 'settings.toml').write_text(text)
        for words in ([], ['--format']):
            command = [str(room.programs / 'r10d'), *words, 'settings.toml']
            ran = subprocess.run(command, cwd=room.folder, capture_output=True, text=True, timeout=LONG)
            must(ran.returncode == 3 and 'a partition of it is mounted' in ran.stderr, f'{words}: {ran}')
        subprocess.run(['umount', str(at)], check=True)
        ran = formats(room)
        must(ran.returncode == 3 and 'has something else' in ran.stderr, f'--format over a file system: {ran}')
        must(subprocess.run(['mount', loop.device, str(at)]).returncode == 0, 'the file system is gone')
        subprocess.run(['umount', str(at)], check=True)
        wipe = ['dd', 'if=/dev/zero', f'of={loop.device}', 'bs=128K', 'count=1', 'conv=notrunc,fsync']
        subprocess.run(wipe, check=True, stderr=subprocess.DEVNULL)
        ran = formats(room)
        must(ran.returncode == 0, f'--format of what was wiped: {ran}')
        service = Service(room)
        ran = subprocess.run(['mount', loop.device, str(at)], capture_output=True)
        must(ran.returncode != 0, 'what is recorded on can be mounted')
        service.end()
    finally:
        room.end_all()
        subprocess.run(['umount', str(at)], capture_output=True)
        loop.close()
    return 'neither over the other'


@trial
def a_device_that_is_not_there(room: Room) -> str:
    """A device is never made: a file in its place would be in memory. Once it is there it is recorded on."""
    # (a trial that fails leaves nothing there)
    place = pathlib.Path('/dev') / f'r10-{os.getpid()}-{room.folder.name}'
    try:
        service = Service(room, settings(channel(5, 'message', 'lines = "pipe"'), medium=str(place), tries=1))
        service.wait_for('is not there: plug the device in')
        until(lambda: service.ask('.STATUS')[0].startswith('S 00'), 'it does not say that recording is down')
        must(not place.exists(), 'a file is in the place of the device')
        service.end(status=4)
    finally:
        if place.exists():
            place.unlink()
    return 'none is made'
