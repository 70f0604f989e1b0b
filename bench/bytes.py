#!/usr/bin/env python3
"""How many bytes of memory a queued job takes: `sidekiq pipe` is handed jobs of 118 bytes, one LPUSH each, and the greatest size that it came to is
divided by their number, once what a program with one job takes is left out. Ends with status 1 where the bar is missed by more than a tenth.

    bench/bytes.py [JOBS]             300,000, if left out
"""
import subprocess
import sys

from client import PROGRAM, Pipe, command, job

BAR = 260


def greatest(jobs):
    """The greatest size of a pipe to which so many jobs are pushed, in bytes."""
    pipe = Pipe()
    for at in range(0, jobs, 1_000):
        rows = range(at, min(jobs, at + 1_000))
        pipe.replied(b''.join(command(b'LPUSH', b'queue:default', job(n)) for n in rows), sum(len(b':%d\r\n' % (n + 1)) for n in rows))
    size = pipe.greatest()
    pipe.end()
    return size


def main():
    jobs = int(sys.argv[1]) if len(sys.argv) > 1 else 300_000
    subprocess.run([PROGRAM, 'pipe'], stdin=subprocess.DEVNULL, stdout=subprocess.DEVNULL, check=True)     # builds it, where it is stale
    each = (greatest(jobs) - greatest(1)) // jobs
    print(f'{each} bytes a queued job of 118 bytes, of {jobs:,}; bar {BAR}')
    return 10 * each > 11 * BAR


sys.exit(main())
