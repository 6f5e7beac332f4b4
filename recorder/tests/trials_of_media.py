"""Trials of media in a row: at a seam nothing is lost and nothing is there twice, also where the service is killed there."""
from __future__ import annotations

import collections
import json
import pathlib
import random
import re
import shutil
import subprocess
import time
from typing import Callable

from trials_of_alarms import on, scraped, standing
from trials_of_losses import log_lines
from trying import CH10, HOST, NotTried, Room, Service, channel, entries, files, load_numbers, must, settings, trial
from trying import udp_channels, until

# what a file of a row says: lines `medium NUMBER VOLUME` stand before the lines of its files
Places = dict[tuple[int, int, int], int]


def row_text(room: Room, channels: str, count: int, **keys: object) -> tuple[str, list[pathlib.Path]]:
    """Settings with so many media, and where these are."""
    names = [f'medium-{number}' for number in range(1, count + 1)]
    return settings(channels, **{'medium': None, 'media': names, 'blocks': 4096, **keys}), [room.folder / it for it in names]


def acknowledged_of(text: str) -> Places:
    """What the service's acknowledged lines say last, by medium, file and channel."""
    found: Places = {}
    medium = 0
    for line in text.split('\n')[:-1]:
        if match := re.fullmatch(r'medium (\d+) TRIAL-(\d{3})', line):
            must(int(match[1]) == int(match[2]), line)
            medium = int(match[1])
        elif match := re.fullmatch(r'durable (\d+) (\d+) (\d+)', line):
            must(medium > 0, f'{line}, and no medium before it')
            file, number, count = map(int, match.groups())
            found[medium, file, number] = count
    return found


def read_row(paths: list[pathlib.Path], acknowledged: Places, channels: list[int]) -> dict[str, int]:
    """Reads all files of all media, in their order: what was acknowledged is there, each channel's numbers rise over the seams, and
    a gap has what is missing. How many messages there are, how many are in gaps, and how many no gap has."""
    last: dict[int, tuple[int, int]] = {}
    total = collections.Counter(messages=0, lost=0, untold=0, seams=0)
    for place, path in enumerate(paths, 1):
        image = path.read_bytes() if path.exists() else b''
        listed = files(image) if image else []
        wanted = {key[1:]: count for key, count in acknowledged.items() if key[0] == place}
        must(all(file < len(listed) for file, _ in wanted), f'medium {place} has {len(listed)} files, and of more was acknowledged')
        begun = dict(last)
        for file in range(len(listed)):
            found = collections.defaultdict(list)
            for entry in entries(image, file):
                found[entry.channel].append(entry)
            for it in channels:
                numbers = load_numbers(found[it])
                least = wanted.get((file, it), 0)
                where = f'medium {place} file {file} channel {it}'
                must(len(numbers) >= least, f'{where}: {len(numbers)} messages, and {least} were acknowledged')
                for run, number, gap in numbers:
                    other, before = last.get(it, (run, -1))
                    before = before if other == run else -1
                    must(number > before, f'{where}: message {number} of run {run} comes after {before}')
                    total['untold'] += max(0, number - before - 1 - gap)
                    total['lost'] += gap
                    last[it] = run, number
                total['messages'] += len(numbers)
        total['seams'] += begun != {} and last != begun
    return dict(total)


@trial
def media_in_a_row(room: Room) -> str:
    """Where a medium is full the recording goes on on the next one: each message is on one of them, once, in order, or in a gap.
    The full one may be carried away."""
    port, *ports = room.ports(3)
    text, paths = row_text(room, udp_channels(ports), 3, metrics=f'{HOST}:{port}')
    service = Service(room, text)
    service.wait_for(': recording')
    must(service.ask('.MEDIA')[1] == f'MEDIUM 1 TRIAL-001 in_use {paths[0]}', f"{service.ask('.MEDIA')}")
    count, size = 6000, 600
    load = room.load(ports, count=count, rate=3000, size=size)
    service.wait_for('medium-1 (TRIAL-001) is full, and can be taken away; recording goes on on')
    away = room.folder / 'away'
    paths[0].rename(away)
    # (a medium is named where its files are)
    must(service.ask('.FILES')[0].endswith(' TRIAL-002'), f"{service.ask('.FILES')}")
    labels = f'number="2",path="{paths[1]}",volume="TRIAL-002"'
    until(lambda: f'r10_medium{{{labels}}} 1' in scraped(port), f'the metrics do not name it: {scraped(port)}')
    load.wait()
    figures = service.until_durable(count)
    must(figures['medium']['volume'] in ('TRIAL-002', 'TRIAL-003'), f"{figures['medium']}")
    service.ask('.STOP')
    acknowledged = acknowledged_of((room.folder / 'lines').read_text())
    found = read_row([away, *paths[1:]], acknowledged, [5, 6])
    lost = sum(it['lost'] for it in figures['channels'])
    must(found['untold'] == 0 and found['seams'] > 0, f'{found}')
    must(found['messages'] + lost == count and found['lost'] <= lost, f'{found}, lost {lost} of {count}')
    # (the system may have dropped some; a seam loses none)
    causes = {it['id']: it['lost_by'] for it in standing(service)['channels']}
    must(figures['failures'] == 0 and all(it['disk'] == 0 for it in causes.values()), f'{causes}:\n{service.log()}')
    service.end()
    for path in (away, *paths[1:]):
        must(all(it[-1] == '1' for it in files(path.read_bytes())), f'{path}: {files(path.read_bytes())}')
    one, two = away.read_bytes(), paths[1].read_bytes()
    must(b'TRIAL-001' in one[512:1024] and b'TRIAL-002' in two[512:1024], 'the volumes have no names of theirs')
    lines = [it for file in range(len(files(two))) for it in log_lines(two, file)]
    must(any(it.word == 'medium' and it.keys['volume'] == 'TRIAL-001' for it in lines), 'the log channel does not name it')
    return f"{found['messages']} messages, {lost} lost, {found['seams']} seams"


@trial
def a_row_that_ends(room: Room) -> str:
    """A folder keeps so many media, and what has a file is not written over: then recording ends. It goes on where one was taken
    away."""
    text = settings(channel(5, 'message', 'lines = "pipe"', 'capacity = 64\n'), medium=None, blocks=None).replace(
        '[control]', 'media = { folder = "kept", each = "1 MiB", keep = 2 }\n[control]'
    )
    (room.folder / 'kept').mkdir()
    first, second = (room.folder / 'kept' / f'TRIAL-00{it}.r10' for it in (1, 2))
    body, sent = 'ab' * 1000, 1
    # one with a file, and with room
    service = Service(room, text)
    with open(room.folder / 'pipe', 'w') as pipe:
        pipe.write(f'bytes = "{body}"\n')
    service.until_durable(1)
    service.end()
    shutil.copy(first, room.folder / 'old')
    service = Service(room, text)
    with open(room.folder / 'pipe', 'w') as pipe:

        def comes() -> None:
            nonlocal sent
            pipe.write(f'bytes = "{body}"\n')
            pipe.flush()
            sent += 1

        while service.figures()['state'] != 'full':
            for _ in range(20):
                comes()
        until(lambda: ('full', None) in on(service), 'it is full, and no alarm')
        must([it.name for it in sorted((room.folder / 'kept').glob('*.r10'))] == [first.name, second.name], 'there are others')
        must(service.ask('.RECORD')[0].startswith('E 04'), 'a recording begins where all media are full')
        # another one in its place is not taken if it has a file, and else it is
        first.rename(room.folder / 'away')
        shutil.copy(room.folder / 'old', first)
        must(''.join(service.ask('.RECORD')).startswith('E 04'), f'it goes on on one with a file: {service.log()}')
        first.unlink()
        must(service.ask('.RECORD') == [], f'it does not go on: {service.log()}')
        service.until(lambda it: it['state'] == 'recording' and it['medium']['volume'] == 'TRIAL-001', 'it is not on the fresh one')
        waited = service.until(lambda it: it['channels'][0]['waiting'] == 0, 'what waited is not recorded')['channels'][0]
        until(lambda: sum(service.figures()['channels'][0][it] for it in ('durable', 'lost')) == sent - 1, 'not all are counted')
        must(service.figures()['failures'] == 0, service.log())
    service.end()
    found = sum(
        len(entries(it.read_bytes(), file, 5))
        for it in (room.folder / 'away', second, first)
        for file in range(len(files(it.read_bytes())))
    )
    must(found + waited['lost'] == sent, f'{found} are recorded and {waited["lost"]} lost of {sent}')
    return f'{found} messages on three media, {waited["lost"]} lost'


@trial
def kills_in_a_row(room: Room, count: int = 4, seed: int = 1) -> str:
    """A service that is killed at a seam goes on by itself on the medium where that was, and all that it acknowledged is there."""
    chance, ports = random.Random(seed), room.ports(2)
    text, paths = row_text(room, udp_channels(ports), 3 * count, blocks=2048, start='resume', commit_ms=chance.choice((2, 20)))
    acknowledged: Places = {}
    for number in range(count):
        service = Service(room, text, disk={'slow': chance.choice((0, 300))} if room.has_disk else None)
        if number == 0:
            service.ask('.RECORD')
        service.wait_for(': recording')
        load = room.load(ports, rate=chance.choice((2000, 5000)), size=700, run=number, seconds=600)
        # (with a disk that is the trial's own it is at its first medium)
        service.wait_for('is full, and can be taken away' if number % 4 else ' is full')
        time.sleep(chance.choice((0, 0, 0.001, 0.01)))
        service.kill()
        must('the medium is opened again' not in service.log(), service.log())
        load.kill()
        load.wait()
        acknowledged.update(acknowledged_of((room.folder / 'lines').read_text()))
    service = Service(room, text.replace('"resume"', '"wait"'))
    service.end()
    found = read_row(paths, acknowledged, [5, 6])
    must(found['untold'] == 0 and found['seams'] > 0, f'{found}')
    for it in (path for path in paths if path.exists()):
        must(all(file[-1] == '1' for file in files(it.read_bytes())), f'{it} has a file that is not closed')
    counted = f"{sum(acknowledged.values())} acknowledged of {found['messages']} messages, 0 missing"
    return f"{count} kills, {counted}, {found['seams']} seams"


def on_both(paths: list[pathlib.Path], acknowledged: Places, channels: list[int]) -> int:
    """Of a row whose first medium failed: each message that was acknowledged is on one medium alone, and the others are there, in
    order on each. How many messages there are; those that stand on both media, as that was not known, count once."""
    count = 0
    for it in channels:
        found: list[list[int]] = []
        for path in paths:
            image = path.read_bytes() if path.exists() else b''
            numbers = [
                number
                for file in range(len(files(image)) if image else 0)
                for _, number, _ in load_numbers(entries(image, file, it))
            ]
            must(numbers == sorted(set(numbers)), f'{path} channel {it}: the messages are {numbers}')
            found.append(numbers)
        first, second = found
        known = sum(count for (medium, _, number), count in acknowledged.items() if (medium, number) == (1, it))
        must(len(first) >= known, f'channel {it}: {len(first)} messages, and {known} were acknowledged')
        is_once = not known or not second or second[0] > first[known - 1]
        must(is_once, f'channel {it}: {second[:1]} was acknowledged, and is there twice')
        count += len(set(first) | set(second))
    return count


def run_with_a_failing_medium(room: Room, fail: str, count: int, rate: int) -> str:
    """A run over two media, the first of which fails: nothing is lost for it. What became of it."""
    ports = room.ports(2)
    text = settings(udp_channels(ports), medium=None, media=['medium', 'medium-2'], blocks=16384, tries=1, commit_ms=10)
    # (an operation for each commit and file, and each second)
    service = Service(room, text, disk={'fail': fail, 'hit': room.folder / 'hit'})
    load = room.load(ports, count=count, rate=rate, size=100)
    figures = service.until(
        lambda it: sum(at['durable'] + at['lost'] for at in it['channels']) >= count and it['state'] == 'recording', 'not all came'
    )
    load.wait()
    by = {it['id']: it['lost_by'] for it in standing(service)['channels']}
    service.end()
    paths = [room.folder / 'medium', room.folder / 'medium-2']
    lost = sum(it['lost'] for it in figures['channels'])
    found = on_both(paths, acknowledged_of((room.folder / 'lines').read_text()), [5, 6])
    is_all = found + lost == count and all(it['disk'] == 0 for it in by.values())
    must(is_all, f'{fail}: {found} of {count}, {by}:\n{service.log()}')
    return service.log()


@trial
def a_row_with_a_medium_that_fails(room: Room) -> str:
    """A medium that fails for good is given up after its tries, and the recording goes on on the next one: what was acknowledged is
    on the first, and what was not is on the next, whichever operation of the disk is the first that fails."""
    if not room.has_disk:
        raise NotTried('there is no cc for recorder/tests/disk.c')
    count, hits = 600, 0
    for number in (1, 2, 3, 4, 5, 7, 10, 14, 19, 25, 32):
        for name in ('medium', 'medium-2', 'lines', 'hit'):
            (room.folder / name).unlink(missing_ok=True)
        log = run_with_a_failing_medium(room, f'{number}+:5', count, 3000)
        if not (room.folder / 'hit').exists():
            break
        hits += 1
        must('medium (TRIAL-001) is given up: ' in log, log)
        two = (room.folder / 'medium-2').read_bytes()
        lines = [it for file in range(len(files(two))) for it in log_lines(two, file)]
        named = [it for it in lines if it.word == 'medium' and it.keys['state'] == 'failed']
        must(named or any('is given up' in it.keys.get('text', '') for it in lines), 'the log channel does not name it')
    must(hits > 5, f'{hits} runs met a failure')
    return f'{hits} runs of {count} messages, each on one medium or, of what was not acknowledged, on both'


def ch10(words: list[object]) -> subprocess.CompletedProcess[str]:
    return subprocess.run([CH10, *map(str, words)], capture_output=True, text=True, stdin=subprocess.DEVNULL)


def says(text: str) -> Callable[[str], bool]:
    """Whether a log has a text."""
    return lambda log: text in log


def grows(path: pathlib.Path) -> Callable[[str], bool]:
    """Whether a file has more than now, whatever a log says."""
    before = path.stat().st_size if path.exists() else 0
    return lambda _: path.exists() and path.stat().st_size > before


def json_words(lines: str) -> list[int]:
    """The numbers of messages, out of lines of JSON."""
    return [int(json.loads(it)['bytes'][:8], 16) for it in lines.splitlines()]


def pipe_words(image: bytes) -> list[int]:
    """The numbers of messages that came by a pipe."""
    return [int(it.words[-1][:8], 16) for file in range(len(files(image))) for it in entries(image, file, 5)]


@trial
def a_row_that_overwrites(room: Room) -> str:
    """With `overwrite` the oldest closed medium is recorded on anew, and none that is marked. What stays are the last messages,
    without one missing. A service that is killed while the files go from a medium goes on."""
    text, paths = row_text(room, channel(5, 'message', 'lines = "pipe"'), 3, overwrite=True, blocks=1024)
    paths = [room.folder / it for it in ('medium', 'medium-2', 'medium-3')]
    text = text.replace('["medium-1", "medium-2", "medium-3"]', '["medium", "medium-2", "medium-3"]')
    body, sent = 'ab' * 1000, 0

    def fill(service: Service, holds: Callable[[str], bool]) -> None:
        """Sends messages until something holds of the log."""
        nonlocal sent
        with open(room.folder / 'pipe', 'w') as pipe:
            while not holds(service.log()):
                pipe.write(f'bytes = "{sent:08x}{body}"\n')
                pipe.flush()
                sent += 1
                must(service.child.poll() is None, service.log())
                if sent % 50 == 0:
                    wanted = sent - before
                    service.until(lambda it: sum(it['channels'][0][at] for at in ('durable', 'waiting')) + 16 >= wanted, 'it hangs')

    before = 0
    service = Service(room, text)
    fill(service, lambda it: it.count('is overwritten: it held ') >= 4)
    service.until(lambda it: it['channels'][0]['durable'] == sent, 'not all is durable')
    service.ask('.STOP')
    places = [it for it in re.findall(r'medium \S+ \(TRIAL-00(\d)\) is overwritten', service.log())]
    must(places[:4] == ['1', '2', '3', '1'], f'they are overwritten in the order {places}')
    service.end()
    images = sorted((pipe_words(it.read_bytes()) for it in paths), key=lambda it: it[:1])
    numbers = [it for image in images for it in image]
    is_all = numbers == list(range(numbers[0], sent)) and numbers[0] > 0
    must(is_all, f'{numbers[0]} to {numbers[-1]} of {sent}, not one after another')
    lines = [it for path in paths for file in range(len(files(path.read_bytes()))) for it in log_lines(path.read_bytes(), file)]
    held = [it for it in lines if it.word == 'medium' and it.keys['state'] == 'overwritten']
    must(held and all(int(it.keys['files']) > 0 and re.match(r'\d{4}-\d\d-\d\d ', it.keys['from']) for it in held), f'{lines}')
    # ch10 reads them as one: by the time at which they begin, in whichever order they are named, over their seams
    ran = ch10(['json', '--raw', '--channel', '5', '--media', paths[1], '--media', paths[0], '--media', paths[2]])
    must(json_words(ran.stdout) == numbers and not ran.stderr, f'{ran.stderr}')
    listed = ch10(['summary', '--media', room.folder]).stdout
    must(f'volume TRIAL, {sum(len(files(it.read_bytes())) for it in paths)} files' in listed, listed)
    csv = ch10(['csv', '--raw', '--channel', '5', '--media', room.folder]).stdout
    must(csv.count('channel,') == 1 and len(csv.splitlines()) == 1 + len(numbers), csv[:300])
    # one that is missing, or damaged, is named
    ran = ch10(['json', '--raw', '--channel', '5', '--media', paths[0], '--media', paths[2]])
    left = [it for image in sorted((pipe_words(paths[at].read_bytes()) for at in (0, 2)), key=lambda it: it[:1]) for it in image]
    must(json_words(ran.stdout) == left, 'two media are read otherwise')
    must('medium TRIAL-002 is missing: what it has is not here' in ran.stderr, ran.stderr)
    (room.folder / 'damaged').write_bytes(b'x' * 4096)
    ran = ch10(['summary', '--media', paths[0], '--media', room.folder / 'damaged'])
    must('/damaged: ' in ran.stderr and 'its files are not here' in ran.stderr and ran.stdout, ran.stderr)
    must(ch10(['svg', '--media', room.folder]).returncode == 2, 'a picture of many files is drawn')
    # it begins where it was, and a kill while the files go from the next one leaves all or none of them
    if not room.has_disk:
        return f'{len(numbers)} messages on three media, the last of {sent}'
    kills = 0
    while kills < 3:
        (room.folder / 'trail').unlink(missing_ok=True)
        before = sent
        service = Service(room, text, disk={'trail': room.folder / 'trail', 'slow': 200_000})
        place = service.figures()['medium']['number']
        if place != 3:
            fill(service, says(f'recording goes on on {paths[place]}'))
            service.end()
            continue
        # (nothing is written to the first medium but its new directory)
        held_before = files(paths[0].read_bytes())
        fill(service, grows(room.folder / 'trail'))
        service.kill()
        kills += 1
        now = files(paths[0].read_bytes())
        must(now in ([], held_before), f'the killed one has {now}, and had {held_before}')
        before = sent
        service = Service(room, text)
        service.wait_for(': recording')
        fill(service, lambda it: 'recording goes on on' in it)
        must(service.figures()['state'] == 'recording', service.log())
        service.end()
    for path in paths:
        must(all(it[-1] == '1' for it in files(path.read_bytes())), f'{path} has a file that is not closed')
        found = pipe_words(path.read_bytes())
        must(found == sorted(set(found)), f'{path}: {found}')
    return f'{len(numbers)} messages on three media, the last of {sent}; {kills} kills'


@trial
def a_next_medium_without_a_message(room: Room) -> str:
    """Where a medium is full and nothing comes, the next one has no file yet, also over kills; the first message begins it."""
    text, paths = row_text(room, channel(5, 'message', 'lines = "pipe"'), 2, start='resume', directory=1)
    service = Service(room, text)
    must(service.ask(*['.RECORD', '.STOP'] * 3, '.RECORD LAST') == [], 'four files')
    for number in range(3):
        service.kill()
        service = Service(room, text)
        figures = service.figures()
        must((figures['state'], figures['file']) == ('recording', None), f'kill {number}: {figures}')
        must(figures['medium']['number'] == 2 and service.ask('.FILES') == [], f'kill {number}: {figures}')
    with open(room.folder / 'pipe', 'w') as pipe:
        pipe.write('bytes = "41"\n')
        pipe.flush()
        service.until_durable(1)
    service.end()
    one, two = (it.read_bytes() for it in paths)
    must((len(files(one)), len(files(two))) == (4, 1), f'{files(one)}, {files(two)}')
    must([it.words[-1] for it in entries(two, 0, 5)] == ['41'], 'the message is not there')
    must(any(it.word == 'total' and it.keys['file'] == '1' for it in log_lines(two, 0)), 'the file has no totals')
    return 'three kills without a file'


@trial
def a_row_with_a_damaged_medium(room: Room) -> str:
    """A medium whose cut-off file cannot be closed is recorded on after that file, which is set aside. One whose directory is
    damaged is left as it is at the start, and the recording begins on the next one."""
    text, paths = row_text(room, channel(5, 'message', 'lines = "pipe"'), 2, start='resume')

    def one_message(word: str) -> None:
        with open(room.folder / 'pipe', 'w') as pipe:
            pipe.write(f'bytes = "{word}"\n')
            pipe.flush()
            service.until(lambda it: it['channels'][0]['durable'] == 1, 'it is not recorded')

    service = Service(room, text)
    service.ask('.RECORD')
    one_message('41')
    service.kill()
    # its first block, with the setup record
    image = bytearray(paths[0].read_bytes())
    image[512 * 9 : 512 * 10] = bytes([0x5A]) * 512
    paths[0].write_bytes(image)
    # (a block device has no mark beside it that a recording is to go on)
    (room.folder / 'medium-1.recording').unlink()
    service = Service(room, text)
    service.wait_for(': recording')
    must('it is set aside' in service.log(), service.log())
    one_message('42')
    must(service.figures()['medium']['volume'] == 'TRIAL-001', f'{service.figures()}')
    service.kill()
    now = paths[0].read_bytes()
    must(now[512 * 9 : 512 * 10] == image[512 * 9 : 512 * 10], 'the damaged file was written to')
    # a directory with nine entries in its first block
    image = bytearray(now)
    image[512 + 10 : 512 + 12] = bytes([0, 9])
    paths[0].write_bytes(image)
    service = Service(room, text)
    service.wait_for(': recording')
    must('does not fit' in service.log(), service.log())
    one_message('43')
    figures = service.figures()
    must(figures['medium']['volume'] == 'TRIAL-002' and figures['state'] == 'recording', f'{figures}')
    service.end()
    # also where that one has a file
    service = Service(room, text.replace('"resume"', '"record"'))
    service.wait_for(': recording')
    must(service.figures()['medium']['volume'] == 'TRIAL-002', f'{service.figures()}')
    service.end()
    must(paths[0].read_bytes() == image, 'the damaged one was written to')
    must([it.words[-1] for it in entries(paths[1].read_bytes(), 0, 5)] == ['43'], 'the message is not there')
    return 'a file is set aside, a directory is passed over'
