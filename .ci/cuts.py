#!/usr/bin/env python3
"""Cuts an input off behind each of its bytes: each proper front of it is piped on its own.

What is written must be a front of what the whole input is answered, and just as much of it as the whole commands in the front are answered; the
status is 0 where the front ends between two commands, and else 1. The input is that of a worked row in which a job is taken over by a second
worker of its process, and both report it.

    cuts.py PROGRAM
"""

import concurrent.futures
import os
import subprocess
import sys

ROWS = os.path.join(os.path.dirname(os.path.dirname(os.path.abspath(__file__))), 'crates', 'sk_rows', 'data', 'rescue')
ROW = 'a_late_report_of_a_rescued_job_loses_nothing'


def end_of_array(text, at):
    """Where the array of bulk strings that begins here ends, or None where it isn't whole."""
    end = text.find(b'\n', at)
    if end < 0:
        return None
    words, at = int(text[at + 1:end]), end + 1
    for _ in range(words):
        end = text.find(b'\n', at)
        if end < 0:
            return None
        at = end + 1 + int(text[at + 1:end]) + 2
    return at if at <= len(text) else None


def ends(text):
    """The places between two commands, the first before all of them."""
    at, places = 0, [0]
    while at < len(text):
        if text[at:at + 1] == b'*':
            at = end_of_array(text, at)
        else:
            at = text.find(b'\n', at) + 1 or None
        if at is None:
            break
        places.append(at)
    return places


def pipe(program, text):
    run = subprocess.run([program, 'pipe'], input=text, stdout=subprocess.PIPE, check=False)
    return run.returncode, run.stdout


def main():
    program = sys.argv[1]
    with open(os.path.join(ROWS, ROW + '.in'), 'rb') as file:
        text = file.read()
    between = ends(text)
    answers = {place: pipe(program, text[:place])[1] for place in between}
    failed = 0

    def cut(place):
        last = max(p for p in between if p <= place)
        return place, pipe(program, text[:place]), (0 if last == place else 1, answers[last])

    with concurrent.futures.ThreadPoolExecutor() as pool:
        for place, came, wanted in pool.map(cut, range(len(text))):
            if came != wanted or not answers[between[-1]].startswith(came[1]):
                print(f'cuts: behind byte {place}: {came} in place of {wanted}')
                failed += 1
    print(f'cuts: {len(text)} fronts of an input of {len(between) - 1} commands, {failed} differ')
    return 1 if failed else 0


sys.exit(main())
