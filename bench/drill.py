#!/usr/bin/env python3
"""Soaks and drills: how many events there are in a second.

    bench/drill.py                    soaks of 1,000 to 1,000,000 jobs, and a drill of 20,000 jobs, 16 workers and 1,000 crashes
    bench/drill.py --part 10          a tenth of each
    bench/drill.py --instructions     instructions an event, of soaks of 1,000 and 100,000 jobs, by valgrind: exact on a busy machine

A soak of 1,000,000 jobs may take at most 1.5 times as long for an event as one of 1,000; then the script ends with status 0, and else with 1. A drill's
events are the entries of its journal, which it compares with what its threads tell. Wanted: python3, and the program, which bin/sidekiq builds;
`SIDEKIQ` names another one.
"""
import argparse
import re
import subprocess
import sys
import tempfile
import time

from client import PROGRAM

SOAKS = (1_000, 10_000, 100_000, 1_000_000)
COUNTED = (1_000, 100_000)
LARGEST = 1.5           # as many times the time for an event of the smallest soak
RUNS_FOR = 1.0          # seconds: a short run is done again until they are over


def run(*words):
    """How many events a run has, and how many seconds it took."""
    start = time.perf_counter()
    came = subprocess.run([PROGRAM, *map(str, words)], stdout=subprocess.PIPE, check=True)
    took = time.perf_counter() - start
    lines = dict(line.rsplit(' ', 1) for line in came.stdout.decode().splitlines()[1:])
    return int(lines['events']), took


def least(*words):
    """The events, and the least time of several runs."""
    events, best = run(*words)
    spent = best
    while spent < RUNS_FOR:
        _, took = run(*words)
        best, spent = min(best, took), spent + took
    return events, best


def show(name, events, took):
    print('%-32s %9d events  %8.3f s  %9.0f events/s  %6.2f us each'
          % (name, events, took, events / took, 1e6 * took / events), flush=True)
    return took / events


def instructions(jobs):
    """How many instructions an event of a soak takes."""
    with tempfile.TemporaryDirectory() as folder:
        came = subprocess.run(['valgrind', '--tool=callgrind', '--trace-children=yes', f'--callgrind-out-file={folder}/out.%p',
                               PROGRAM, 'soak', '7', str(jobs)], stdout=subprocess.PIPE, stderr=subprocess.PIPE, check=True)
    events = int(re.search(rb'events (\d+)', came.stdout)[1])
    # The program's own count is the last: bin/sidekiq ends by starting it in its own place.
    each = int(re.findall(rb'refs:\s+([\d,]+)', came.stderr)[-1].replace(b',', b'')) / events
    print('soak 7 %-25d %9d events  %6.0f instructions each' % (jobs, events, each), flush=True)
    return each


def judged(each, what):
    ratio = each[-1] / each[0]
    print('the largest soak takes %.2f times as %s for an event as the smallest (at most %.1f)' % (ratio, what, LARGEST))
    return 0 if ratio <= LARGEST else 1


def main():
    asked = argparse.ArgumentParser(description=__doc__, formatter_class=argparse.RawDescriptionHelpFormatter)
    asked.add_argument('--part', type=int, default=1)
    asked.add_argument('--instructions', action='store_true')
    options = asked.parse_args()
    if options.instructions:
        return judged([instructions(jobs) for jobs in COUNTED], 'many instructions')
    part = options.part
    each = [show('soak 7 %d' % jobs, *least('soak', 7, jobs)) for jobs in (max(1, most // part) for most in SOAKS)]
    jobs = max(1, 20_000 // part)
    show('drill 1 %d 16 1000' % jobs, *least('drill', 1, jobs, 16, 1_000))
    return judged(each, 'long')


if __name__ == '__main__':
    sys.exit(main())
