#!/usr/bin/env python3
"""Shows that a limiter holds: eight processes ask `sidekiq limit hold` again and again for ten seconds, two of them are killed with signal 9, and a tap
between them and the server notes each request and each reply with its time. From these it is shown that no slot was given twice within the time that a
hold lasts, so that at no moment more holds stood than there are slots.

    bench/limits.py [--slots 3] [--millis 40] [--seconds 10] [--program bin/sidekiq]

Of two holds of one slot the first was granted by the store after its request came to the tap, and the second before its reply came there: so the time
between these two is at least a hold's, or the limiter is broken. (The store's clock counts whole milliseconds.) Nothing is installed. Status 1 where it
doesn't hold, or less than ten holds were granted. Wanted: python3.
"""
import argparse
import os
import pathlib
import signal
import subprocess
import sys
import time

import tap

TOP = pathlib.Path(__file__).resolve().parent.parent
LOOP = 'while :; do "$0" limit --port "$1" hold stripe "$2" "$3" >/dev/null || exit 1; done'


def end(process):
    try:
        os.killpg(process.pid, signal.SIGKILL)
    except OSError:
        pass
    process.wait()


def holds(noted):
    """(slot, when it was asked for, when it was granted) of each hold, in order."""
    for words, asked, reply, answered in sorted(noted, key=lambda it: it[1]):
        if words[0] == b'SET' and reply == b'+OK\r\n':
            yield int(words[1].rsplit(b':', 1)[1]), asked, answered


def main():
    parser = argparse.ArgumentParser()
    parser.add_argument('--slots', type=int, default=3)
    parser.add_argument('--millis', type=int, default=40)
    parser.add_argument('--seconds', type=float, default=10)
    parser.add_argument('--program', default=str(TOP / 'bin' / 'sidekiq'))
    line = parser.parse_args()
    server, port = tap.serve(line.program)
    between, askers = tap.Tap(port), []
    try:
        words = [line.program, str(between.port), str(line.slots), str(line.millis)]
        askers = [subprocess.Popen(['sh', '-c', LOOP, *words], start_new_session=True, stderr=subprocess.DEVNULL) for _ in range(8)]
        for n, asker in enumerate(askers[:2]):
            time.sleep(line.seconds / 4)
            end(asker)
            print('limits: process %d is killed after %.1f s' % (n + 1, (n + 1) * line.seconds / 4))
        time.sleep(line.seconds / 2)
    finally:
        for asker in askers:
            end(asker)
        server.kill()
        server.wait()
    held = list(holds(between.noted))
    print('limits: %d requests, %d holds of %d ms over %d slots' % (len(between.noted), len(held), line.millis, line.slots))
    broken = len(held) < 10
    for slot in sorted({it[0] for it in held}):
        own = [it for it in held if it[0] == slot]
        gap = min((b[2] - a[1] for a, b in zip(own, own[1:])), default=None)
        broken |= slot >= line.slots or (gap is not None and gap * 1000 < line.millis - 1)
        print('limits: slot %d: %s' % (slot, 'held once' if gap is None else 'the next hold came %.1f ms later at the earliest' % (gap * 1000)))
    print('limits: %s' % ('BROKEN' if broken else 'at no moment more than %d holds stood' % line.slots))
    return int(broken)


if __name__ == '__main__':
    sys.exit(main())
