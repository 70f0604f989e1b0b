#!/usr/bin/env python3
"""What a log costs: `sidekiq pipe --log FILE` beside `sidekiq pipe`, and beside a Redis with its append-only file in the same folder.

    bench/log.py [--folder DIR] [--pushes 2000] [--records 1000000]

- appends   pushes of a job a second, each answered before the next is sent: without a log, with one, and Redis with `appendfsync always`, `everysec` and
            without a file
- replay    a log of so many pushes is opened, and LLEN asked: seconds from the start of the program to the reply; Redis's start with as many in its file
- length    bytes of the file a push, and a job's whole life (push, fetch, start, OK, release)

The device decides the first, so --folder should lie where the log will. Wanted: python3, the program, which bin/sidekiq builds (`SIDEKIQ` names another
one); redis-server for what is beside it, or it is passed over.
"""
import argparse
import os
import shutil
import socket
import subprocess
import sys
import tempfile
import time
from pathlib import Path

from client import PROGRAM, command, job

HEAD = b'SKLOG001'


def entry(seat, moment, *words):
    """A record of a command, behind its gate."""
    body = command(b'SK.AS', b'%d' % seat) + command(b'SK.NOW', b'%d' % moment) + command(*words)
    return b'\1' + len(body).to_bytes(4, 'big') + body


def write_log(path, records):
    """A log of so many pushes, as the program would write it."""
    with open(path, 'wb') as file:
        file.write(HEAD)
        for n in range(records):
            file.write(entry(0, 0, b'LPUSH', b'queue:default', job(n)))
        file.write(b'\0')


class Redis:
    """A Redis of its own at a socket in a folder."""

    def __init__(self, folder, *switches):
        self.socket = str(folder / 'redis')
        words = ['redis-server', '--port', '0', '--unixsocket', self.socket, '--save', '', '--dir', str(folder), *switches]
        self.began = time.perf_counter()
        self.process = subprocess.Popen(words, stdout=subprocess.DEVNULL, stderr=subprocess.DEVNULL)

    def connect(self):
        """A connection, when it answers PING and has loaded its file."""
        while True:
            try:
                sock = socket.socket(socket.AF_UNIX)
                sock.connect(self.socket)
                sock.sendall(command(b'PING'))
                if sock.recv(100).startswith(b'+PONG'):
                    return sock
            except OSError:
                pass
            time.sleep(0.005)

    def end(self):
        self.process.kill()
        self.process.wait()


def rate(send, receive, pushes):
    """Pushes a second, one after another."""
    began = time.perf_counter()
    for n in range(pushes):
        send(command(b'LPUSH', b'queue:default', job(n)))
        assert receive().startswith(b':'), n
    return pushes / (time.perf_counter() - began)


def pipe(pushes, *words):
    run = subprocess.Popen([PROGRAM, 'pipe', *words], stdin=subprocess.PIPE, stdout=subprocess.PIPE, stderr=subprocess.DEVNULL, bufsize=0)
    came = rate(run.stdin.write, lambda: os.read(run.stdout.fileno(), 100), pushes)
    run.stdin.close()
    assert run.wait() == 0
    return came


def redis(folder, pushes, *switches):
    server = Redis(folder, *switches)
    sock = server.connect()
    came = rate(sock.sendall, lambda: sock.recv(100), pushes)
    server.end()
    return came


def appends(folder, pushes):
    rows = [('pipe', pipe(pushes * 5)), ('pipe --log', pipe(pushes, '--log', str(folder / 'appends.log')))]
    if shutil.which('redis-server'):
        for name, switches in (('no file', ['--appendonly', 'no']), ('everysec', ['--appendonly', 'yes', '--appendfsync', 'everysec']),
                               ('always', ['--appendonly', 'yes', '--appendfsync', 'always'])):
            room = folder / name.replace(' ', '-')
            room.mkdir()
            rows.append(('Redis, ' + name, redis(room, pushes if name == 'always' else pushes * 5, *switches)))
    print('appends   ' + ', '.join('%s %s a second' % (name, format(round(came), ',')) for name, came in rows))


def replay(folder, records):
    path = folder / 'replay.log'
    write_log(path, records)
    began = time.perf_counter()
    run = subprocess.run([PROGRAM, 'pipe', '--log', str(path)], input=command(b'LLEN', b'queue:default'), stdout=subprocess.PIPE, stderr=subprocess.PIPE)
    ours = time.perf_counter() - began
    assert (run.returncode, run.stdout) == (0, b':%d\r\n' % records), (run.returncode, run.stdout[:100], run.stderr[:300])
    told = 'replay    %s records of %s MB: %.1f s' % (format(records, ','), format(path.stat().st_size // 10**6, ','), ours)
    path.unlink()
    if shutil.which('redis-server'):
        told += '; Redis %.1f s' % redis_replay(folder / 'always', records)
    print(told)


def redis_replay(folder, records):
    """Seconds to the first PONG of a Redis whose file has so many pushes."""
    shutil.rmtree(folder, ignore_errors=True)
    (folder / 'appendonlydir').mkdir(parents=True)
    with open(folder / 'appendonlydir' / 'appendonly.aof.1.incr.aof', 'wb') as file:
        file.write(command(b'SELECT', b'0'))
        for n in range(records):
            file.write(command(b'LPUSH', b'queue:default', job(n)))
    (folder / 'appendonlydir' / 'appendonly.aof.manifest').write_text('file appendonly.aof.1.incr.aof seq 1 type i\n')
    server = Redis(folder, '--appendonly', 'yes')
    sock = server.connect()
    took = time.perf_counter() - server.began
    sock.sendall(command(b'LLEN', b'queue:default'))
    assert sock.recv(100) == b':%d\r\n' % records
    server.end()
    return took


def lengths(folder):
    """Bytes that a push and a job's life leave in the file."""
    path, text = folder / 'length.log', job(1)
    words = ['pipe', '--log', str(path)]
    begin = command(b'SK.AS', b'1') + command(b'SK.BEAT', b'w:1') + command(b'SK.JOIN', b'w:1')
    life = (command(b'LMOVE', b'queue:default', b'sq:w:1', b'RIGHT', b'LEFT') + command(b'SK.START', text) + command(b'SK.OK', text)
            + command(b'LREM', b'sq:w:1', b'1', text))
    sizes = []
    for given in (b'', command(b'LPUSH', b'queue:default', text), begin + life):
        # (what is written at the start, where a seat was left, is no part of it)
        subprocess.run([PROGRAM, *words], input=given, stdout=subprocess.DEVNULL, stderr=subprocess.DEVNULL, check=True)
        sizes.append(path.stat().st_size)
    began = sum(len(entry(1, 0, *it)) for it in ((b'SK.BEAT', b'w:1'), (b'SK.JOIN', b'w:1')))
    print('length    a push %d bytes, a job\'s life %d' % (sizes[1] - sizes[0], sizes[2] - sizes[0] - began))


def main():
    line = argparse.ArgumentParser(description=__doc__, formatter_class=argparse.RawDescriptionHelpFormatter)
    line.add_argument('--folder', help='where the files are made; the system\'s folder for such, if left out')
    line.add_argument('--pushes', type=int, default=2_000)
    line.add_argument('--records', type=int, default=1_000_000)
    asked = line.parse_args()
    with tempfile.TemporaryDirectory(dir=asked.folder) as folder:
        folder = Path(folder)
        lengths(folder)
        appends(folder, asked.pushes)
        replay(folder, asked.records)
    return 0


if __name__ == '__main__':
    sys.exit(main())
