#!/usr/bin/env python3
"""Runs the independent oracle beside the program, for what the program has built.

    oracle.py DIRECTORY PROGRAM COUNT SEED

DIRECTORY holds the oracle, PROGRAM is the command that reads an input of `pipe`. The worked rows come first, then runs of `soak`, and then COUNT
random inputs from the seed SEED on. The oracle knows its stages by a number, and what came later by switches.
"""
import subprocess
import sys

directory, program, count, seed = sys.argv[1:]
sys.path.insert(0, directory)

import fuzz
import oracle
import rows

BUILT = '10'

# Rules that came later and are built: sixteen jobs a seat; retries for a time, and deaths that rise; SK.GIVE.
LATER = ['r15', 'r16', 'r18']

# Seeds and numbers of jobs: one job, two that have a batch, more than go out in the first command, and twenty of the first seeds.
SOAKS = [(1, 1), (2, 2), (3, 1100), (2**64 - 1, 50)] + [(seed, 30) for seed in range(20)]


def soaks():
    """How many runs of `soak` differ from the oracle's."""
    program_of = program.split()[0]
    differ = 0
    for seed, jobs in SOAKS:
        came = subprocess.run([program_of, 'soak', str(seed), str(jobs)], stdout=subprocess.PIPE)
        if came.returncode or came.stdout != oracle.soak_text(seed, jobs):
            print('oracle: soak %d %d differs' % (seed, jobs))
            differ += 1
    print('oracle: %d runs of soak, %d differ' % (len(SOAKS), differ))
    return differ


sys.exit(
    soaks()
    or rows.main(['--program', program, '--stage', 'R' + BUILT] + ['--' + rule for rule in LATER])
    or fuzz.main(['--program', program, '--profile', '+'.join(['r' + BUILT] + LATER), '--count', count, '--seed', seed])
)
