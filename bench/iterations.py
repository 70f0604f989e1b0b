#!/usr/bin/env python3
"""Shows that an iteration goes on where it was: `sidekiq iterate` over a million items is killed with signal 9 at ten places, and started again each
time, with a tap between it and the server that notes each request and each reply.

    bench/iterations.py [--items 1000000] [--every 100] [--kills 10] [--program bin/sidekiq]

Each start reads the cursor. It must be at least the last one that was saved and answered before the kill, so no item below it runs again; and the items
that had run by the kill were at most `every` beyond it, since the next save was not yet sent, or was it. Nothing is installed. Status 1 where this
doesn't hold. Wanted: python3.
"""
import argparse
import pathlib
import random
import subprocess
import sys
import time

import tap

TOP = pathlib.Path(__file__).resolve().parent.parent
OUTPUT = {'stdout': subprocess.PIPE, 'stderr': subprocess.DEVNULL, 'text': True}


def number(reply):
    """The number that a bulk string is; 0 where it is null."""
    return 0 if reply == b'$-1\r\n' else int(reply.split(b'\r\n')[1])


def saves(noted):
    """The last number that was saved and answered, and the last that was sent; 0 where there is none."""
    sent = [(int(words[2]), reply) for words, _, reply, _ in noted if words[0] == b'SET']
    return max((n for n, reply in sent if reply == b'+OK\r\n'), default=0), max((n for n, _ in sent), default=0)


def main():
    parser = argparse.ArgumentParser()
    parser.add_argument('--items', type=int, default=1_000_000)
    parser.add_argument('--every', type=int, default=100)
    parser.add_argument('--kills', type=int, default=10)
    parser.add_argument('--seed', type=int, default=1)
    parser.add_argument('--program', default=str(TOP / 'bin' / 'sidekiq'))
    line = parser.parse_args()
    chance, broken = random.Random(line.seed), False
    server, port = tap.serve(line.program)
    between = tap.Tap(port)
    words = [line.program, 'iterate', '--port', str(between.port), '--every', str(line.every), 'import', str(line.items)]
    try:
        for kill in range(line.kills + 1):
            answered, sent = saves(between.noted)
            began = len(between.noted)
            process = subprocess.Popen(words, **OUTPUT)
            if kill < line.kills:
                time.sleep(chance.uniform(0.02, 0.12))
                process.kill()
            told = process.communicate()[0]
            time.sleep(0.05)                               # what the server still answers is noted, too
            reads = [reply for words_, _, reply, _ in between.noted[began:] if words_[0] == b'GET']
            if not reads or reads[0] is None:
                print('iterations: start %2d was killed before it read its cursor' % (kill + 1))
                continue
            cursor = number(reads[0])
            broken |= not answered <= cursor <= max(sent, answered)
            print('iterations: start %2d reads %7d; %7d was saved before, and %7d sent: at most %d items are done again'
                  % (kill + 1, cursor, answered, sent, line.every))
        broken |= not told.endswith('to %d\ndone\n' % line.items)
        print('iterations: the last start: %s' % told.replace('\n', ' ').strip())
    finally:
        server.kill()
        server.wait()
    print('iterations: %s' % ('BROKEN' if broken else 'each start went on where the one before had saved'))
    return int(broken)


if __name__ == '__main__':
    sys.exit(main())
