#!/usr/bin/env python3
"""Holds 64 connections to `sidekiq serve --loops 64` for a minute under load, and counts.

    hold.py [--seconds 60]

Each of 63 clients pushes jobs of its own, one after another, reads some of them back, and goes on until the time is over; the last connection asks for
the page all the while. In the end every acknowledged job must stand in its queue, and the server's summary must have the same number. Wanted: the
program alone, which bin/sidekiq builds.
"""
import argparse
import multiprocessing
import re
import subprocess
import sys
import time

from client import PROGRAM, Client

PORT = 7425


def push(number, seconds, counts):
    client, count, end = Client(PORT), 0, time.time() + seconds
    queue = b'queue:c%d' % number
    while time.time() < end:
        text = b'{"jid":"%d-%d","class":"Note","queue":"c%d","args":[%d]}' % (number, count, number, count)
        count += 1
        if client.ask(b'LPUSH', queue, text) != b':%d' % count:
            raise SystemExit('hold: a push was answered otherwise')
        if client.ask(b'SK.WHERE', b'%d-%d' % (number, count // 2)) != b':1':
            raise SystemExit('hold: a job is lost')
    if client.ask(b'LLEN', queue) != b':%d' % count:
        raise SystemExit('hold: a queue has another length')
    counts[number] = count


def main():
    parser = argparse.ArgumentParser(description='64 connections held under load.')
    parser.add_argument('--seconds', type=float, default=60)
    given = parser.parse_args()
    server = subprocess.Popen([PROGRAM, 'serve', '--port', str(PORT), '--loops', '64'], stdout=subprocess.PIPE, stderr=subprocess.DEVNULL)
    page = Client(PORT)
    counts = multiprocessing.Array('q', 63)
    workers = [multiprocessing.Process(target=push, args=(number, given.seconds, counts)) for number in range(63)]
    [it.start() for it in workers]
    pages = 0
    while any(it.is_alive() for it in workers):
        assert page.ask(b'SK.STATUS').startswith(b'processed 0\n')
        pages += 1
        time.sleep(0.01)
    [it.join() for it in workers]
    failed = [it for it in workers if it.exitcode]
    page.ask(b'SHUTDOWN')
    out = server.communicate()[0].decode()
    told = re.match(r'sessions (\d+) acknowledged (\d+)\n', out)
    pushed = sum(counts)
    print('hold: 64 connections, %.0f seconds, %d jobs pushed, %d pages; %s' % (given.seconds, pushed, pages, out.splitlines()[0]))
    return int(bool(failed) or int(told[2]) != pushed or 'live %d\n' % pushed not in out)


if __name__ == '__main__':
    sys.exit(main())
