#!/usr/bin/env python3
"""Measures r10d beside a plain program that logs the same datagrams with the same syncs: a row each, for docs/PERFORMANCE.md.

    measure.py PROGRAMS [SECONDS] [FOLDER]

Each row is a run of its own; those of both programs take turns. Rates are messages a second from UDP to durable, on four sockets.
"""
import contextlib
import json
import pathlib
import shutil
import signal
import subprocess
import sys
import time

from trying import HOST, Room, Service, settings, tidy_up_at_signals, udp_channels


def cpu_of(child: int) -> float:
    """Seconds of a processor that a process has had, of all its threads, as the system's scheduler counts them."""
    total = 0
    for it in pathlib.Path(f'/proc/{child}/task').iterdir():
        # (one that answered a client is gone at once)
        with contextlib.suppress(OSError):
            total += int((it / 'schedstat').read_text().split()[0])
    return total / 1e9


def recorder(room: Room, commit: int, rate: int, size: int, seconds: float) -> dict[str, float]:
    ports = room.ports(4)
    channels = udp_channels(ports).replace('receive_mib = 32', 'receive_mib = 64')
    service = Service(room, settings(channels, blocks=1 << 22, commit_ms=commit, acknowledge=None))
    service.wait_for(': recording')
    load = room.load(ports, rate=rate, size=size, seconds=int(seconds))
    time.sleep(0.5)
    service.figures()
    before, begin = cpu_of(service.child.pid), time.monotonic()
    time.sleep(seconds - 1)
    times, took = service.figures()['durable_after_us'], time.monotonic() - begin
    cpu = (cpu_of(service.child.pid) - before) / took
    sent = json.loads(load.communicate()[0])['sent']
    figures = service.until_durable(sent, 60)
    service.end()
    lost = sum(it['lost'] for it in figures['channels'])
    return {
        'sent': sent / seconds,
        'durable': times['messages'] / took,
        'lost': lost,
        'half': times['half'],
        'of_100_99': times['of_100_99'],
        'most': times['most'],
        'cpu': cpu,
        'memory_mib': figures['memory_kib'] / 1024,
    }


def plain(room: Room, commit: int, rate: int, size: int, seconds: float) -> dict[str, float]:
    ports = room.ports(4)
    addresses = [f'{HOST}:{port}' for port in ports]
    program = [str(room.programs / 'examples' / 'plain'), str(room.folder / 'plain'), '2048', str(commit), *addresses]
    child = subprocess.Popen(program, stdout=subprocess.PIPE, text=True)
    while not (room.folder / 'plain').exists() or (room.folder / 'plain').stat().st_size < 2048 << 20:
        time.sleep(0.1)
    time.sleep(0.5)
    load = room.load(ports, rate=rate, size=size, seconds=int(seconds))
    begin, before = time.monotonic(), cpu_of(child.pid)
    sent = json.loads(load.communicate()[0])['sent']
    took, cpu = time.monotonic() - begin, cpu_of(child.pid) - before
    time.sleep(0.5)
    child.send_signal(signal.SIGTERM)
    said = json.loads(child.communicate()[0])
    return {
        'sent': sent / seconds,
        'durable': said['durable'] / took,
        'lost': sent - said['durable'],
        'half': said['half_us'],
        'of_100_99': said['of_100_99_us'],
        'most': said['most_us'],
        'cpu': cpu / took,
        'memory_mib': 0,
    }


def main() -> None:
    tidy_up_at_signals()
    room, seconds = Room(sys.argv[1]), float(sys.argv[2]) if len(sys.argv) > 2 else 8
    if len(sys.argv) > 3:
        library = room.disk_library.read_bytes()
        shutil.rmtree(room.folder)
        room.folder = pathlib.Path(sys.argv[3])
        room.folder.mkdir(parents=True, exist_ok=True)
        room.disk_library = room.folder / 'disk.so'
        room.disk_library.write_bytes(library)
    print('load (1, 5, 15 minutes):', pathlib.Path('/proc/loadavg').read_text().split(' ')[:3], flush=True)
    try:
        for commit, rate, size in ((10, 20_000, 40), (100, 20_000, 40), (10, 100_000, 40), (100, 100_000, 40), (10, 50_000, 1000)):
            for what in (recorder, plain):
                room.clear()
                it = what(room, commit, rate, size, seconds)
                print(
                    f"{what.__name__:8} commit {commit:3} ms, {size:4} bytes: sent {it['sent']:7.0f}/s, "
                    f"durable {it['durable']:7.0f}/s, lost {it['lost']:.0f}, half after {it['half'] / 1e3:.1f} ms, "
                    f"99 of 100 after {it['of_100_99'] / 1e3:.1f} ms, most {it['most'] / 1e3:.0f} ms, CPU {it['cpu']:.0%}, "
                    f"memory {it['memory_mib']:.0f} MiB",
                    flush=True,
                )
        room.clear()
        service = Service(room, settings(udp_channels(room.ports(4)), blocks=1 << 16, acknowledge=None))
        time.sleep(1)
        before = cpu_of(service.child.pid)
        time.sleep(10)
        print(f'idle, recording: {(cpu_of(service.child.pid) - before) / 10:.2%} of a processor', flush=True)
        service.end()
        room.clear()
        start = time.monotonic()
        service = Service(room, settings(udp_channels(room.ports(1)), blocks=1 << 24, directory=64, start='wait'))
        made = time.monotonic() - start
        service.end()
        start = time.monotonic()
        service = Service(room)
        print(f'a medium of 8 GiB: made in {made:.2f} s, mounted and ready in {time.monotonic() - start:.3f} s', flush=True)
        service.end()
    finally:
        room.close()


if __name__ == '__main__':
    main()
