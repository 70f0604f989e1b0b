#!/usr/bin/env python3
"""Large inputs through `sidekiq pipe`, each reply checked. Each has to end within 60 seconds.

    bench/large.py                    300,000 members, 200,000 jobs, and 100,000 to delete
    bench/large.py --part 10          a tenth of each

- ranks    ZADD of members in falling score, so that each goes before all others; then what stands at each rank, which is a ZRANGE of one
- pushes   an LPUSH of each job alone
- batch    a batch of as many jobs: each is fetched, started, done and released, and the last one fires `complete` and `success`
- ZREM, DEL, FLUSHALL   one command that takes many jobs at once, while no other client is answered: 3,999 texts of a schedule, a whole queue, and
           all that there is. Of these the time that the command has a processor is measured. The bound of the first two is some twenty times what
           they take: who misses it has lost an index. FLUSHALL takes constant time: what it took out is freed behind its reply

The script ends with status 1 where a reply is wrong or the time is over. Wanted: python3, and the program, which bin/sidekiq builds; `SIDEKIQ` names
another one.
"""
import argparse
import subprocess
import sys
import time

from client import PROGRAM, Pipe, command, job

MEMBERS, JOBS, SECONDS = 300_000, 200_000, 60
ROWS = 100_000      # jobs that stand when many are deleted
TEXTS = 3_999       # of one ZREM
ADDED = 1_000       # jobs in one SK.BPUSH or SK.BADD
OK = b'+OK\r\n'


def number(n):
    return b':%d\r\n' % n


def bulk(text):
    return b'$%d\r\n%s\r\n' % (len(text), text)


def ranks(count):
    """Commands with the replies that they must have."""
    for n in range(count):
        yield command(b'ZADD', b'z', b'%d' % (count - n), b'member-%d' % n), number(1)
    for rank in range(count):
        at = b'%d' % rank
        yield command(b'ZRANGE', b'z', at, at), b'*1\r\n' + bulk(b'member-%d' % (count - 1 - rank))


def pushes(count):
    for n in range(count):
        yield command(b'LPUSH', b'queue:default', job(n)), number(n + 1)


def batch(count):
    jobs = [job(n, b'"bid":"b",') for n in range(count)]
    yield command(b'SK.NOW', b'1700000000000') + command(b'SK.BEAT', b'w') + command(b'SK.AS', b'1') + command(b'SK.JOIN', b'w'), 4 * OK
    yield command(b'SK.BPUSH', b'b', b'', b'', b'', b'', *jobs[:ADDED]), b'*0\r\n'
    for at in range(ADDED, count, ADDED):
        added = jobs[at:at + ADDED]
        yield command(b'SK.BADD', b'b', *added), number(len(added))
    for text in jobs[:-1]:
        yield run(text), ran(text, b'*0\r\n')
    fired = b'*4\r\n' + bulk(b'b') + bulk(b'complete') + bulk(b'b') + bulk(b'success')
    yield run(jobs[-1]), ran(jobs[-1], fired)
    yield command(b'SK.BSTAT', b'b'), b'*5\r\n' + number(count) + 4 * number(0)


def run(text):
    return (command(b'LMOVE', b'queue:default', b'sq:w', b'RIGHT', b'LEFT') + command(b'SK.START', text) + command(b'SK.OK', text)
            + command(b'LREM', b'sq:w', b'1', text))


def ran(text, fired):
    return bulk(text) + OK + fired + number(1)


def fault(wanted, replies):
    """Where the replies first differ from those that are wanted."""
    at = next((n for n, pair in enumerate(zip(wanted, replies)) if pair[0] != pair[1]), min(len(wanted), len(replies)))
    return f'at byte {at:,} wanted {wanted[at:at + 60]!r}, got {replies[at:at + 60]!r}'


def tried(name, rows):
    """Whether the replies are right and in time."""
    commands, wanted = (b''.join(part) for part in zip(*rows))
    began = time.monotonic()
    try:
        done = subprocess.run([PROGRAM, 'pipe'], input=commands, stdout=subprocess.PIPE, stderr=subprocess.PIPE, timeout=SECONDS)
    except subprocess.TimeoutExpired:
        print(f'{name}: not done after {SECONDS} seconds', flush=True)
        return False
    seconds = time.monotonic() - began
    if done.returncode or done.stdout != wanted:
        print(f'{name}: status {done.returncode}; {fault(wanted, done.stdout)}', flush=True)
        return False
    print(f'{name}: {seconds:.1f} seconds, {len(commands) >> 20:,} MiB of commands', flush=True)
    return True


def removals(count):
    """Commands that take many jobs at once: with what fills the store, the replies, and the seconds that it may take."""
    jobs = [job(n) for n in range(count)]
    queue = b''.join(command(b'LPUSH', b'queue:default', *jobs[at:at + ADDED]) for at in range(0, count, ADDED))
    queued = b''.join(number(min(count, at + ADDED)) for at in range(0, count, ADDED))
    schedule = b''.join(command(b'ZADD', b'schedule', b'%d' % (1_700_000_000 + n * 7919 % 100_003), text) for n, text in enumerate(jobs))
    texts = jobs[::max(1, count // TEXTS)][:TEXTS]
    yield f'ZREM of {len(texts):,} texts of {count:,}', schedule, count * number(1), command(b'ZREM', b'schedule', *texts), number(len(texts)), 1
    yield f'DEL of a queue of {count:,}', queue, queued, command(b'DEL', b'queue:default'), number(1), 4
    yield f'FLUSHALL of {count:,}', queue, queued, command(b'FLUSHALL'), OK, 0.1


def taken(name, filling, filled, text, reply, bound):
    """Whether the command's reply is right, and comes in time."""
    pipe = Pipe()
    if pipe.replied(filling, len(filled)) != filled:
        print(f'{name}: the store is not filled', flush=True)
        return False
    began = pipe.seconds()
    replied = pipe.replied(text, len(reply))
    seconds = pipe.seconds() - began
    print(f'{name}: {1000 * seconds:.1f} ms of a processor, at most {1000 * bound:,.0f}' + ('' if replied == reply else f'; {fault(reply, replied)}'), flush=True)
    return pipe.end() == 0 and replied == reply and seconds <= bound


def main():
    parser = argparse.ArgumentParser(description='Large inputs through `sidekiq pipe`.')
    parser.add_argument('--part', type=int, default=1, help='of so many parts of each input one')
    part = parser.parse_args().part
    subprocess.run([PROGRAM, 'pipe'], stdin=subprocess.DEVNULL, stdout=subprocess.DEVNULL, check=True)     # builds it, where it is stale
    right = [
        tried('ranks', ranks(MEMBERS // part)),
        tried('pushes', pushes(JOBS // part)),
        tried('batch', batch(JOBS // part)),
        *(taken(*row) for row in removals(ROWS // part)),
    ]
    return not all(right)


sys.exit(main())
