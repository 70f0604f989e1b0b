#!/usr/bin/env python3
"""Counts the processor's instructions of one more round of a workload, by valgrind's callgrind over the proved program.

Such a count is exact, also on a busy machine. A workload is run with n rounds and with 2n, and the difference is divided by n, so that what
comes before the rounds is left out. Each count has a bar, the number that we want to reach; the script ends with status 1 where one is missed
by more than a tenth, or by more parts in a hundred than `--slack` says. Nothing is installed. Wanted: python3 and valgrind.

    bench/instructions.py             the workloads on small stores, in a minute
    bench/instructions.py --large     with 100,000 rows and with 10,000 members besides, in five or so
    bench/instructions.py --slack 25  as the gate runs it: what costs a quarter more than its bar has lost an index or a reader, and not a detail
"""

import concurrent.futures
import os
import re
import subprocess
import sys
import tempfile

import tap
from client import command, job

TOP = os.path.dirname(os.path.dirname(os.path.abspath(__file__)))
PROGRAM = os.path.join(TOP, 'bin', 'sidekiq')
NOW = b'1700000000000'


def letter(n):
    """A job with a quote, a backslash and the end of a line in its arguments, and a number below zero."""
    return job(n).replace(b'[1]', b'["a \\"b\\" c:\\\\d\\n",-1]')


def filled(queue, count):
    """So many jobs that stand in a queue, and stay there."""
    jobs = [job(10_000_000 + n) for n in range(count)]
    return b''.join(command(b'LPUSH', queue, *jobs[at:at + 100]) for at in range(0, count, 100))


def joined():
    return command(b'SK.NOW', NOW) + command(b'SK.BEAT', b'w') + command(b'SK.AS', b'1') + command(b'SK.JOIN', b'w')


def run(text):
    """A job is fetched, started, done and released."""
    return (command(b'LMOVE', b'queue:default', b'sq:w', b'RIGHT', b'LEFT') + command(b'SK.START', text)
            + command(b'SK.OK', text) + command(b'LREM', b'sq:w', b'1', text))


def lists(rows, rounds):
    return filled(b'queue:low', rows) + b''.join(
        command(b'LPUSH', b'queue:default', job(n)) + command(b'LMOVE', b'queue:default', b'queue:low', b'RIGHT', b'LEFT')
        + command(b'PING') for n in range(rounds))


def letters(rows, rounds):
    return filled(b'queue:low', rows) + b''.join(
        command(b'LPUSH', b'queue:default', letter(n)) + command(b'LMOVE', b'queue:default', b'queue:low', b'RIGHT', b'LEFT')
        + command(b'PING') for n in range(rounds))


def cycle(rows, rounds):
    return filled(b'queue:low', rows) + joined() + b''.join(
        command(b'LPUSH', b'queue:default', job(n)) + run(job(n)) for n in range(rounds))


def busy(seats):
    """So many seats of another process, each with sixteen jobs in its hands."""
    made = [command(b'SK.NOW', NOW), command(b'SK.BEAT', b'v')]
    for seat in range(2, 2 + seats):
        made += [command(b'SK.AS', b'%d' % seat), command(b'SK.JOIN', b'v')]
        for n in range(16 * seat, 16 * seat + 16):
            made += [command(b'LPUSH', b'queue:default', job(20_000_000 + n)), command(b'LMOVE', b'queue:default', b'sq:v', b'RIGHT', b'LEFT')]
    return b''.join(made)


def beside(seats, rounds):
    return busy(seats) + cycle(10, rounds)


def oldest(seats, rounds):
    """Seats of one process with sixteen jobs each, which are done in the order in which they came: the one that is released is the oldest of all."""
    take = command(b'LMOVE', b'queue:default', b'sq:w', b'RIGHT', b'LEFT')
    made = [command(b'SK.NOW', NOW), command(b'SK.BEAT', b'w')]
    for seat in range(seats):
        made += [command(b'SK.AS', b'%d' % (1 + seat)), command(b'SK.JOIN', b'w')]
        made += [command(b'LPUSH', b'queue:default', job(15 * seat + n)) + take for n in range(15)]
    for n in range(rounds):
        made += [command(b'SK.AS', b'%d' % (1 + n // 15 % seats))] if n % 15 == 0 else []
        text = job(n)
        made += [command(b'LPUSH', b'queue:default', job(15 * seats + n)), take, command(b'SK.START', text), command(b'SK.OK', text),
                 command(b'LREM', b'sq:w', b'1', text)]
    return b''.join(made)


def schedule(rows, rounds):
    return b''.join(command(b'ZADD', b'schedule', b'%d' % (1_700_000_000 + n * 7919 % 100_003), job(n)) for n in range(rows + rounds))


def due(rows, rounds):
    """Jobs whose time has come, pushed one by one."""
    added = b''.join(command(b'ZADD', b'schedule', b'%d' % (1_600_000_000 + n * 7919 % 100_003), job(n)) for n in range(rows))
    return command(b'SK.NOW', NOW) + added + rounds * command(b'SK.DUE', b'schedule', b'1')


def sorted_set(rows, rounds):
    return b''.join(command(b'ZADD', b'z', b'%d' % (n * 7919 % 100_003), b'member-%d' % n) for n in range(rows + rounds))


def members(count):
    return [job(n, b'"bid":"b",') for n in range(count)]


def pushed(_, rounds):
    return command(b'SK.BPUSH', b'b', b'', b'', b'', b'', *members(rounds))


def batch(count, rounds):
    jobs = members(count)
    made = [command(b'SK.BPUSH', b'b', b'', b'', b'', b'', *jobs[:1_000])]
    made += [command(b'SK.BADD', b'b', *jobs[at:at + 1_000]) for at in range(1_000, count, 1_000)]
    return b''.join(made) + joined() + b''.join(run(text) for text in jobs[:rounds])


TOKEN = b'0123456789abcdef01234567'


def held(rows, rounds):
    """A slot of a limiter is held and given back."""
    return filled(b'queue:low', rows) + command(b'SK.NOW', NOW) + rounds * (
        command(b'SET', b'limit:stripe:0', TOKEN, b'NX', b'PX', b'30000') + command(b'SK.GIVE', b'limit:stripe:0', TOKEN))


def deleted(rows, rounds):
    """The same with DEL in the place of SK.GIVE, which would delete a hold of another, too."""
    return filled(b'queue:low', rows) + command(b'SK.NOW', NOW) + rounds * (
        command(b'SET', b'limit:stripe:0', TOKEN, b'NX', b'PX', b'30000') + command(b'DEL', b'limit:stripe:0'))


# What is counted, of how many rows or members, in how many rounds, and the bar. The large ones come last. A slot of a limiter has many rounds: early in
# a run the C library joins all blocks that were freed, and where that fell among 300 counted rounds it added 5,000 instructions to each.
WORKLOADS = [
    ('a round of LPUSH, LMOVE and PING, 3,000 rows', lists, 3_000, 300, 18_500),
    ('the same, with escapes and a number below zero in the job', letters, 3_000, 300, 19_000),
    ('a job pushed, fetched, started, done, released, 10 rows', cycle, 10, 300, 26_000),
    ('the same, 1,000 rows', cycle, 1_000, 300, 26_000),
    ('the same, 10 rows, beside 64 seats of 16 jobs each', beside, 64, 300, 26_000),
    ('the same, of 16 seats of one process, the oldest of its 256 jobs', oldest, 16, 300, 28_000),
    ('ZADD of one more job on a schedule of 1,000', schedule, 1_000, 100, 17_500),
    ('the same, of 10,000', schedule, 10_000, 20, 19_500),
    ('SK.DUE of one job of 10,000', due, 10_000, 300, 15_000),
    ('ZADD of one more pair in a sorted set of 10,000', sorted_set, 10_000, 300, 11_000),
    ('SK.BPUSH of 2,000 jobs, a member', pushed, 0, 1_000, 12_000),
    ('a member fetched, started, done, released, of 100', batch, 100, 50, 21_500),
    ('a slot of a limiter held and given back', held, 3_000, 10_000, 11_000),
    ('the same with DEL in the place of SK.GIVE', deleted, 3_000, 10_000, 9_000),
]
LARGE = [
    ('a job pushed, fetched, started, done, released, 100,000 rows', cycle, 100_000, 300, 26_000),
    ('SK.BPUSH of 20,000 jobs, a member', pushed, 0, 10_000, 40_000),
    ('a member fetched, started, done, released, of 10,000', batch, 10_000, 50, 27_000),
    ('the same, of 100,000', batch, 100_000, 50, 27_000),
]


def instructions(text):
    with tempfile.TemporaryDirectory() as folder:
        done = subprocess.run(
            ['valgrind', '--tool=callgrind', f'--callgrind-out-file={folder}/out', os.path.join(TOP, 'crates/sidekiq/out/sidekiq'), 'pipe'],
            input=text, stdout=subprocess.DEVNULL, stderr=subprocess.PIPE, check=True)
        return int(re.search(rb'Collected : (\d+)', done.stderr).group(1))


def item():
    """Of one more item of `sidekiq iterate`, which saves its cursor behind a hundred: of the process that iterates, beside a server."""
    server, port = tap.serve(os.path.join(TOP, 'crates/sidekiq/out/sidekiq'))
    try:
        with tempfile.TemporaryDirectory() as folder:
            def taken(count):
                words = ['iterate', '--port', str(port), 'job-%d' % count, str(count)]
                done = subprocess.run(['valgrind', '--tool=callgrind', f'--callgrind-out-file={folder}/out',
                                       os.path.join(TOP, 'crates/sidekiq/out/sidekiq'), *words], stdout=subprocess.DEVNULL, stderr=subprocess.PIPE, check=True)
                return int(re.search(rb'Collected : (\d+)', done.stderr).group(1))
            return (taken(20_000) - taken(10_000)) // 10_000
    finally:
        server.kill()
        server.wait()


def counted(workload):
    name, made, size, rounds, bar = workload
    return name, (instructions(made(size, 2 * rounds)) - instructions(made(size, rounds))) // rounds, bar


def main():
    subprocess.run([PROGRAM, 'pipe'], stdin=subprocess.DEVNULL, stdout=subprocess.DEVNULL, check=True)     # builds it, where it is stale
    words = sys.argv[1:]
    wanted = WORKLOADS + (LARGE if '--large' in words else [])
    slack = int(words[words.index('--slack') + 1]) if '--slack' in words else 10
    missed = 0
    with concurrent.futures.ThreadPoolExecutor(os.cpu_count()) as pool:
        for name, count, bar in pool.map(counted, wanted):
            is_missed = 100 * count > (100 + slack) * bar
            missed += is_missed
            print(f'{count:>12,}  {"MISSED" if is_missed else "ok":6}  bar {bar:>7,}  {name}', flush=True)
    count, bar = item(), 2_000
    is_missed = 100 * count > (100 + slack) * bar
    missed += is_missed
    print(f'{count:>12,}  {"MISSED" if is_missed else "ok":6}  bar {bar:>7,}  an item of `iterate`, saved behind a hundred', flush=True)
    print(f'{missed} of {len(wanted) + 1} bars missed')
    return missed > 0


sys.exit(main())
