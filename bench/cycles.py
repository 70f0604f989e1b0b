#!/usr/bin/env python3
"""The cycle of a job over connections: sidekiq's server beside a Redis 7, in one run.

    cycles.py [--jobs N]

Two cycles, over 1, 4 and 16 connections, each client waiting for each reply:

- moves: LMOVE from the queue to the worker's private list, and LREM from it, which both servers have: the ratio is told.
- jobs: the fetch, SK.START, SK.OK and the release, which Redis doesn't have.

The clients are threads of processes of this script, one process for each connection, so that Python isn't the bottleneck of one. Wanted:
redis-server, and the program, which bin/sidekiq builds.
"""
import argparse
import multiprocessing
import subprocess
import time

from client import PROGRAM, Client, job

OURS, REDIS = 7422, 7423


def moves(client, seat, count):
    private = b'sq:w%d' % seat
    for _ in range(count):
        text = client.ask(b'LMOVE', b'queue:default', private, b'RIGHT', b'LEFT')
        client.ask(b'LREM', private, b'1', text)


def jobs(client, seat, count):
    private = b'sq:w%d' % seat
    for _ in range(count):
        text = client.ask(b'LMOVE', b'queue:default', private, b'RIGHT', b'LEFT')
        client.ask(b'SK.START', text)
        client.ask(b'SK.OK', text)
        client.ask(b'LREM', private, b'1', text)


def joined(port, seat):
    client = Client(port)
    assert client.ask(b'SK.BEAT', b'w%d' % seat) == b'+OK'
    assert client.ask(b'SK.JOIN', b'w%d' % seat) == b'+OK'
    return client


def work(cycle, port, seat, count, joins, gate):
    client = joined(port, seat) if joins else Client(port)
    gate.wait()
    cycle(client, seat, count)


def fill(port, count):
    client = Client(port)
    client.ask(b'FLUSHALL')
    client.fill([job(number) for number in range(count)])


def rate(cycle, port, clients, count, joins):
    """Cycles a second."""
    fill(port, clients * count)
    gate = multiprocessing.Barrier(clients + 1)
    workers = [multiprocessing.Process(target=work, args=(cycle, port, seat, count, joins, gate)) for seat in range(clients)]
    [it.start() for it in workers]
    gate.wait()
    start = time.perf_counter()
    [it.join() for it in workers]
    return clients * count / (time.perf_counter() - start)


def main():
    parser = argparse.ArgumentParser(description='The cycle of a job over connections, beside a Redis.')
    parser.add_argument('--jobs', type=int, default=20000, help='cycles of all clients together')
    given = parser.parse_args()
    servers = [subprocess.Popen([PROGRAM, 'serve', '--port', str(OURS), '--loops', '64'], stdout=subprocess.DEVNULL, stderr=subprocess.DEVNULL),
               subprocess.Popen(['redis-server', '--port', str(REDIS), '--save', '', '--appendonly', 'no'], stdout=subprocess.DEVNULL)]
    try:
        for clients in (1, 4, 16):
            count = given.jobs // clients
            # A plain seat may not take from a private list: ours joins, and tells what it does with the job between the move and the release.
            ours, theirs = rate(jobs, OURS, clients, count, True), rate(moves, REDIS, clients, count, False)
            print('%2d connections: sidekiq %6.0f jobs a second in four commands each, Redis %6.0f in two (LMOVE, LREM); commands: %.2f'
                  % (clients, ours, theirs, 4 * ours / (2 * theirs)))
    finally:
        [it.terminate() for it in servers]


if __name__ == '__main__':
    main()
