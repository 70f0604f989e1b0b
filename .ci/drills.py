#!/usr/bin/env python3
"""Fifty drills, of 1 to 16 workers, with up to 1,000 crashes: in each the journal must have just what the threads tell of it, so that the status is 0;
and the parts of its tally must add up. Which thread comes first is the machine's affair, so nothing else is compared.

    drills.py PROGRAM
"""

import concurrent.futures
import subprocess
import sys

DRILLS = [(seed, 1 + 37 * seed % 200, 1 + seed % 16, (0, 3, 40, 1_000)[seed % 4]) for seed in range(50)]
BROUGHT = ('outside', 'inner')
GONE = ('bare', 'again', 'live', 'returned', 'discarded', 'deleted', 'trimmed', 'muddled')


def fault(program, drill):
    """What is wrong with a drill, or None."""
    words = [str(word) for word in drill]
    run = subprocess.run([program, 'drill', *words], stdout=subprocess.PIPE, stderr=subprocess.PIPE, check=False)
    if run.returncode:
        return f'status {run.returncode}: {run.stdout.decode()}'
    lines = run.stdout.decode().splitlines()
    seed, jobs, workers, crashes = words
    if lines[0] != f'drill seed {seed} jobs {jobs} workers {workers} crashes {crashes}' or not lines[1].startswith('events '):
        return f'{lines[:2]}'
    tally = {name: int(number) for name, number in (line.split() for line in lines[2:])}
    if tally['outside'] != drill[1] or tally['inner'] != 0 or sum(tally[name] for name in BROUGHT) != sum(tally[name] for name in GONE):
        return f'{tally}'
    return None


def main():
    failed = 0
    with concurrent.futures.ThreadPoolExecutor(4) as pool:
        for drill, wrong in zip(DRILLS, pool.map(lambda one: fault(sys.argv[1], one), DRILLS)):
            if wrong:
                print(f'drills: {drill}: {wrong}')
                failed += 1
    print(f'drills: {len(DRILLS)} drills, {failed} wrong')
    return 1 if failed else 0


sys.exit(main())
