#!/usr/bin/env python3
"""Refuses memory: the proved program pipes a worked row again and again, each time with another one of its allocations refused.

A library that stands before the C library's counts the calls of malloc and realloc, and lets one of them fail. Each run must end in one of two ways:

- The status is 5, and what was written is a front of the usual replies.
- Commands are answered `-OOM want of memory`, and all others just as in a run without these commands: they changed nothing. No release (LREM of a
  worker's own text) is among them.

The script tells, row by row, how many allocations were refused and what came of it, and ends with status 1 where something else came. Wanted: python3
and gcc. Nothing is installed.

    bench/refused_memory.py [PROGRAM]
"""

import collections
import concurrent.futures
import os
import subprocess
import sys
import tempfile

TOP = os.path.dirname(os.path.dirname(os.path.abspath(__file__)))
ROWS = os.path.join(TOP, 'crates', 'sk_rows', 'data')
NAMES = (
    'status/a_held_job_is_busy_and_live',
    'rescue/a_late_report_of_a_rescued_job_loses_nothing',
    'batches/nested_batches_succeed_from_the_inner_one_outwards',
)
STARVED = b'-OOM want of memory\r\n'
LIBRARY = r'''
#include <fcntl.h>
#include <stdlib.h>
#include <sys/mman.h>
#include <unistd.h>

extern void *__libc_malloc(size_t), *__libc_realloc(void *, size_t);
static long early, refused;
static long *count = &early; /* a file that is shared with who started the program, once it is there */

__attribute__((constructor)) static void begin(void) {
    int file = open(getenv("COUNTED"), O_RDWR | O_CREAT, 0600);
    if (file < 0 || ftruncate(file, sizeof *count)) abort();
    count = mmap(0, sizeof *count, PROT_READ | PROT_WRITE, MAP_SHARED, file, 0);
    refused = atol(getenv("REFUSED"));
    close(file);
}
static int fails(void) { return ++*count == refused; }
void *malloc(size_t n) { return fails() ? 0 : __libc_malloc(n); }
void *realloc(void *p, size_t n) { return fails() ? 0 : __libc_realloc(p, n); }
'''


def commands(text):
    """The commands of an input, arrays and lines, each as its bytes and its words."""
    at, found = 0, []
    while at < len(text):
        begin, end = at, text.index(b'\n', at)
        if text[at:at + 1] != b'*':
            at = end + 1
            found.append((text[begin:at], text[begin:at].split()))
            continue
        count, at, words = int(text[at + 1:end]), end + 1, []
        for _ in range(count):
            end = text.index(b'\n', at)
            size = int(text[at + 1:end])
            words.append(text[end + 1:end + 1 + size])
            at = end + 1 + size + 2
        found.append((text[begin:at], words))
    return found


def end_of_reply(text, at):
    end = text.index(b'\n', at) + 1
    kind, rest = text[at:at + 1], text[at + 1:end - 2]
    if kind == b'$' and rest != b'-1':
        return end + int(rest) + 2
    if kind == b'*':
        for _ in range(max(0, int(rest))):
            end = end_of_reply(text, end)
    return end


def replies(text):
    at, found = 0, []
    while at < len(text):
        end = end_of_reply(text, at)
        found.append(text[at:end])
        at = end
    return found


class Runner:
    def __init__(self, program, room):
        self.program, self.room = program, room
        source, self.library = os.path.join(room, 'refuse.c'), os.path.join(room, 'refuse.so')
        with open(source, 'w', encoding='ascii') as file:
            file.write(LIBRARY)
        subprocess.run(['gcc', '-O1', '-shared', '-fPIC', '-o', self.library, source], check=True)

    def run(self, text, refused=0):
        """The status, what was written, and how many calls there were."""
        counted = tempfile.mktemp(dir=self.room)
        run = subprocess.run([self.program, 'pipe'], input=text, stdout=subprocess.PIPE, stderr=subprocess.DEVNULL, check=False,
                             env={**os.environ, 'LD_PRELOAD': self.library, 'REFUSED': str(refused), 'COUNTED': counted})
        with open(counted, 'rb') as file:
            calls = int.from_bytes(file.read(), sys.byteorder)
        os.remove(counted)
        return run.returncode, run.stdout, calls


def judge(runner, found, usual, status, output):
    """What came of a refused allocation, or None where it is no way to end."""
    if status == 5:
        return 'status 5' if usual.startswith(output) else None
    said = replies(output)
    if status != 0 or len(said) != len(found):
        return None
    starved = [n for n, reply in enumerate(said) if reply == STARVED]
    if any(found[n][1][0].upper() == b'LREM' for n in starved):
        return None
    rest = runner.run(b''.join(text for n, (text, _) in enumerate(found) if n not in starved))[1]
    if rest != b''.join(reply for reply in said if reply != STARVED):
        return None
    return '-OOM' if starved else 'no change'


def try_row(runner, name):
    with open(os.path.join(ROWS, name + '.in'), 'rb') as file:
        text = file.read()
    found = commands(text)
    _, usual, calls = runner.run(text)

    def refuse(refused):
        status, output, _ = runner.run(text, refused)
        return refused, status, judge(runner, found, usual, status, output)

    came, failed = collections.Counter(), 0
    with concurrent.futures.ThreadPoolExecutor() as pool:
        for refused, status, what in pool.map(refuse, range(1, calls + 1)):
            if what is None:
                print(f'refused_memory: {name}: allocation {refused} refused: status {status}, and other replies')
                failed += 1
            else:
                came[what] += 1
    told = ', '.join(f'{what} {count} times' for what, count in sorted(came.items()))
    print(f'refused_memory: {name}: {calls} allocations refused one by one: {told}')
    return failed


def main():
    program = sys.argv[1] if len(sys.argv) > 1 else os.path.join(TOP, 'crates', 'sidekiq', 'out', 'sidekiq')
    with tempfile.TemporaryDirectory() as room:
        runner = Runner(program, room)
        failed = sum(try_row(runner, name) for name in NAMES)
    return 1 if failed else 0


sys.exit(main())
