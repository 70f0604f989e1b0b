#!/usr/bin/env python3
"""How long one command holds the store, while no other client is answered: its time of a processor, in `sidekiq pipe`, beside the bar that we want.

    bench/holds.py                    1,000,000 rows; 10,000 queues or processes
    bench/holds.py --rows 100000      so many rows, and a hundredth part of queues and processes
    bench/holds.py --only FLUSHALL    the commands whose names have this text

Each stands in a pipe of its own, filled with jobs whose ids are random. The bar is 10 ms, but for what answers many bytes, 20 ns for each; for a push of
many jobs, 5 microseconds for each; and for DEL of one queue, 0.3 microseconds for each of its jobs. A line that is over says so. The script ends with
status 1 only where a reply is an error. Wanted: python3, and the program, which bin/sidekiq builds; `SIDEKIQ` names another one.
"""
import argparse
import io
import subprocess
import sys
from dataclasses import dataclass

from client import PROGRAM, Pipe, command, job

MOMENT = 1_700_000_000_000
AT_ONCE = 1_000         # jobs of one LPUSH that fills the store
PUSHED = 60_000         # jobs of a push that is measured
BAR = 10.0              # milliseconds


@dataclass
class Hold:
    """A command, what fills the store before it, and for how many milliseconds it may hold it, by the bytes that it answers."""
    name: str
    filling: object
    words: tuple
    least: float = BAR
    bytes_count: bool = False
    moment: int = 0         # at which it comes, in milliseconds, where that isn't 0

    def bar(self, answered):
        return max(self.least, 20e-6 * answered) if self.bytes_count else self.least


def queued(count, queue=b'default'):
    for at in range(0, count, AT_ONCE):
        yield command(b'LPUSH', b'queue:' + queue, *(job(n) for n in range(at, min(count, at + AT_ONCE))))


def scheduled(count):
    for n in range(count):
        yield command(b'ZADD', b'schedule', b'%d' % (MOMENT // 1000 + n * 7919 % 1_000_003), job(n))


def plain(count, more=()):
    yield command(b'SK.NOW', b'%d' % MOMENT)
    for n in range(count):
        yield command(b'SET', b'key-%d' % n, b'value', *more)


def pairs(count):
    for n in range(count):
        yield command(b'ZADD', b'z', b'%d' % (n * 7919 % 1_000_003), b'member-%d' % n)


def members(count):
    for at in range(0, count, AT_ONCE):
        yield command(b'SADD', b's', *(b'member-%d' % n for n in range(at, min(count, at + AT_ONCE))))


def queues(count):
    for n in range(count):
        yield command(b'LPUSH', b'queue:q%d' % n, job(n))


def processes(count):
    yield command(b'SK.NOW', b'%d' % MOMENT)
    for n in range(count):
        ident = b'w%d' % n
        yield command(b'LPUSH', b'queue:default', job(n)) + command(b'SK.BEAT', ident) + command(b'SK.AS', b'%d' % (n + 1))
        yield command(b'SK.JOIN', ident) + command(b'LMOVE', b'queue:default', b'sq:' + ident, b'RIGHT', b'LEFT')
    yield command(b'SK.AS', b'%d' % (count + 1))


def holds(rows):
    few = max(1, rows // 100)
    texts = [job(n) for n in range(0, rows, max(1, rows // 3_999))][:3_999]
    pushed = [job(rows + n) for n in range(PUSHED)]
    some = b'%d' % (few * 10 - 1)
    yield Hold('LPUSH of 60,000 jobs', queued(rows), (b'LPUSH', b'queue:default', *pushed), 0.005 * PUSHED)
    yield Hold('SK.BPUSH of 60,000 jobs', queued(rows), (b'SK.BPUSH', b'b', b'', b'', b'', b'', *(job(rows + n, b'"bid":"b",') for n in range(PUSHED))), 0.005 * PUSHED)
    yield Hold('LRANGE of a tenth of a queue', queued(rows), (b'LRANGE', b'queue:default', b'0', some), BAR, True)
    yield Hold('LREM, the first from the far end', queued(rows), (b'LREM', b'queue:default', b'-1', job(0)))
    yield Hold('DEL of a queue', queued(rows), (b'DEL', b'queue:default'), 0.0003 * rows)
    yield Hold('FLUSHALL of jobs', queued(rows), (b'FLUSHALL',))
    yield Hold('ZREM of 3,999 texts of the schedule', scheduled(rows), (b'ZREM', b'schedule', *texts))
    yield Hold('ZRANGE of a tenth of the schedule', scheduled(rows), (b'ZRANGE', b'schedule', b'0', some), BAR, True)
    yield Hold('ZREMRANGEBYSCORE of the schedule', scheduled(rows), (b'ZREMRANGEBYSCORE', b'schedule', b'-inf', b'+inf'))
    yield Hold('ZREMRANGEBYRANK of a tenth of it', scheduled(rows), (b'ZREMRANGEBYRANK', b'schedule', b'0', some))
    yield Hold('SK.DUE of 1,000', scheduled(rows), (b'SK.DUE', b'schedule', b'1000'))
    yield Hold('DEL of the schedule', scheduled(rows), (b'DEL', b'schedule'))
    yield Hold('FLUSHALL of plain keys', plain(rows), (b'FLUSHALL',))
    yield Hold('GET behind the deadline of all keys', plain(rows, (b'PX', b'1000')), (b'GET', b'key-0'), moment=MOMENT + 2_000)
    yield Hold('ZREMRANGEBYRANK of a plain set', pairs(rows), (b'ZREMRANGEBYRANK', b'z', b'0', b'-1'))
    yield Hold('SMEMBERS of a tenth as many', members(few * 10), (b'SMEMBERS', b's'), BAR, True)
    yield Hold('DEL of a plain set', members(rows), (b'DEL', b's'))
    yield Hold('SK.STATUS', queues(few), (b'SK.STATUS',))
    yield Hold('SK.RESCUE of the living', processes(few), (b'SK.RESCUE',))
    yield Hold('SISMEMBER of processes', processes(few), (b'SISMEMBER', b'processes', b'w0'))


def reply_of(replies):
    """One whole reply."""
    line = replies.readline()
    kind, rest = line[:1], line[1:-2]
    if kind == b'$' and rest != b'-1':
        return line + replies.read(int(rest) + 2)
    if kind == b'*' and rest != b'-1':
        return line + b''.join(reply_of(replies) for _ in range(int(rest)))
    return line


def fill(pipe, replies, filling):
    """Hands the commands in, many at a time, and reads what they are answered."""
    batch = bytearray()
    for commands in filling:
        batch += commands
        if len(batch) > 60_000:
            settle(pipe, replies, batch)
            batch = bytearray()
    settle(pipe, replies, batch)


def settle(pipe, replies, batch):
    pipe.process.stdin.write(bytes(batch) + command(b'PING'))
    while replies.readline() != b'+PONG\r\n':
        pass


def held(hold):
    """The milliseconds that the command had a processor until its reply was there, and the reply."""
    pipe = Pipe()
    replies = io.BufferedReader(pipe.replies, 1 << 20)
    fill(pipe, replies, hold.filling)
    if hold.moment:
        pipe.process.stdin.write(command(b'SK.NOW', b'%d' % hold.moment))
        reply_of(replies)
    began = pipe.seconds()
    pipe.process.stdin.write(command(*hold.words))
    reply = reply_of(replies)
    milliseconds = 1000 * (pipe.seconds() - began)
    pipe.process.kill()
    pipe.process.wait()
    return milliseconds, reply


def main():
    parser = argparse.ArgumentParser(description='How long one command holds the store.')
    parser.add_argument('--rows', type=int, default=1_000_000, help='how many rows stand')
    parser.add_argument('--only', default='', help='only commands whose name has this text')
    options = parser.parse_args()
    subprocess.run([PROGRAM, 'pipe'], stdin=subprocess.DEVNULL, stdout=subprocess.DEVNULL, check=True)     # builds it, where it is stale
    wrong = 0
    print(f'{"command":40} {"ms":>10} {"bar":>10}', flush=True)
    for hold in holds(options.rows):
        if options.only not in hold.name:
            continue
        milliseconds, reply = held(hold)
        bar = hold.bar(len(reply))
        print(f'{hold.name:40} {milliseconds:10.1f} {bar:10.1f}' + ('  over' if milliseconds > bar else ''), flush=True)
        if reply[:1] == b'-':
            print(f'{hold.name}: {reply[:80]!r}')
            wrong += 1
    return wrong > 0


sys.exit(main())
