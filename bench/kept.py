#!/usr/bin/env python3
"""Kills `sidekiq serve --log FILE` by signal 9 while clients and workers are at it, and shows that nothing is lost that was answered.

    bench/kept.py [--kills 200] [--rate 600] [--clients 64] [--batch 16] [--works 4] [--seconds 1] [--folder DIR]

The server is killed 0.05 to so many seconds behind its first replies, and started again on its file. Meanwhile these are at it, with so many records a
second together:

- clients, which write so many commands at a time, each of which counts up or puts its number behind others, and which go as fast as they can in the
  last moments before a kill; one more reads their counters;
- one that pushes a job at a time, and one that pushes batches of three jobs with a callback; processes of `work --patience`, which run these;
- a process that fetches twelve jobs of its own and never ends with them, under a new name in each life of the server.

After each start each client's counter and rows must be those of its commands in order, at least of those that were answered, and none twice, and no
counter may be behind what was read of it. At the end, once what was held at a kill has come back, a minute later:

- each job that stands in the file has returned, or is dead, and each push that was answered stands there;
- each batch whose jobs have returned has fired once, and its callback has returned;
- no job and no callback has returned more than once, and once more for each kill at which it was held;
- what is dead was held at three kills, and nothing else was.

One line is printed then, and at a fault what was found. Each start reads the whole file, so the rate is what the time depends on. Wanted: the program,
which bin/sidekiq builds; `SIDEKIQ` names another one.
"""
import argparse
import collections
import os
import random
import re
import subprocess
import sys
import tempfile
import threading
import time
from pathlib import Path

from client import PROGRAM

ASKED, sys.argv[1:] = sys.argv[1:], [PROGRAM]       # (.ci/server.py takes its program from here)
sys.path[:0] = [str(Path(__file__).resolve().parent.parent / '.ci')]
sys.dont_write_bytecode = True
from server import JOB, Client, Keeper, Looker, Pusher, Server, bodies_of, free_port, kill, page, said, talk_until, texts_of  # noqa: E402

PATIENCE = 3_600
RUSH = 0.02             # how long clients go as fast as they can before a kill, at most, in seconds
HELD, MEMBERS = 12, 3   # the jobs that are never done with, and those of a batch
LIFE = 5                # records of a job: its push, fetch, start, return and release
JID = re.compile(rb'"jid":"([^"]+)"')


def jid_of(text):
    return JID.search(text)[1].decode()


class Paced(Keeper):
    """A client that rests before each of its visits, of one batch each, until the kill is near."""

    times = 1

    def __init__(self, name, pace, rush):
        super().__init__(name)
        self.pace, self.rush = pace, rush

    def rest(self):
        self.rush.wait(random.uniform(0, 2 * self.pace))


class Batcher(Pusher):
    """The same as one that pushes jobs, with batches, each of which calls back once its jobs have returned."""

    reply = b'*'

    def words(self, number):
        bid, called = 'batch-%d' % number, JOB % ('called-%d' % number, number)
        texts = (JOB % (jid, number) for jid in members_of(number))
        return ('SK.BPUSH', bid, '', '', called, '', *(it.replace('{', '{"bid":"%s",' % bid, 1) for it in texts))


def members_of(number):
    return ['member-%d-%d' % (number, n) for n in range(MEMBERS)]


class Holder:
    """Processes that fetch jobs of a queue of their own, begin to run them, and never end with them: one for each life of the server."""

    def __init__(self):
        self.lives, self.fault = 0, None

    def talk(self, port, _batch):
        self.lives += 1
        try:
            with Client(port) as it:
                if self.hold(it, 'holder:%d' % self.lives):
                    it.socket.recv(1)               # (until the server is gone)
        except OSError:
            pass

    def hold(self, client, name):
        """Whether it has fetched all that there is, before the server is gone."""
        for words in (('SK.BEAT', name), ('SK.JOIN', name)):
            if said(client, *words) != b'+OK\r\n':
                return False
        while True:
            line = said(client, 'LMOVE', 'queue:held', 'sq:' + name, 'RIGHT', 'LEFT')
            if line[:1] != b'$' or line == b'$-1\r\n':
                return line != b''
            text = client.take(int(line[1:]) + 2)[:-2]
            if said(client, 'SK.START', text) != b'+OK\r\n':
                return False


class Watch:
    """Which processes held a job when the server was killed. A process has another name behind each kill: so what stands in its private list at two
    starts, one after the other, was held at a kill, and what a living one has just fetched at the one is gone at the other."""

    def __init__(self):
        self.before, self.holders = set(), collections.defaultdict(set)

    def look(self, port):
        with Client(port) as it:
            names = [name.decode() for name in texts_of(it, 'SMEMBERS', 'processes')]
            now = {(jid_of(text), name) for name in names for text in texts_of(it, 'LRANGE', 'sq:' + name, 0, -1)}
        for jid, name in now & self.before:
            self.holders[jid].add(name)
        self.before = now


def work(port, queue):
    words = ['work', '--port', str(port), '--patience', str(PATIENCE), '--threads', '2', '--queues', queue]
    return subprocess.Popen([PROGRAM, *words], stdin=subprocess.DEVNULL, stdout=subprocess.DEVNULL, stderr=subprocess.DEVNULL)


def started(path, port):
    """The server on its file, when it has replied, and how many seconds that took."""
    began = time.perf_counter()
    server = Server(None, '--log', path, port=port)
    server.has_begun(1)
    return server, time.perf_counter() - began


def kill_amid(server, talkers, asked, rush):
    """Kills the server while these talk to it, in the end as fast as they can."""
    def over():
        time.sleep(random.uniform(0.05, asked.seconds))
        rush.set()
        time.sleep(random.uniform(0, RUSH))
        kill(server)
    rush.clear()
    talk_until(talkers, server.port, asked.batch, over)


def kill_on(asked, path, port, keepers, rush):
    """Kills and starts the server so many times, and answers the last one, how many seconds its start took, and who held what at a kill."""
    (server, took), watch, holder, talkers = started(path, port), Watch(), Holder(), [*keepers, Looker(keepers)]
    with server.client() as it:
        it.ask(b':%d\r\n' % HELD, 'LPUSH', 'queue:held', *((JOB % ('held-%d' % n, n)).replace('default', 'held') for n in range(HELD)))
    for kills in range(1, asked.kills + 1):
        kill_amid(server, [*talkers, holder], asked, rush)
        server, took = started(path, port)
        watch.look(port)
        for it in talkers:
            it.has_all(port)
        if kills % 25 == 0:
            print('kept: %d kills, %s bytes, read in %.1f s' % (kills, format(os.path.getsize(path), ','), took), file=sys.stderr, flush=True)
    return server, took, watch


def all_done(server, watch):
    """Waits until no job is left but dead ones. Answers the ids of these, and the tally."""
    time.sleep(2)                                   # (what a worker has only just fetched is done by then)
    watch.look(server.port)
    last, end = work(server.port, 'held'), time.time() + 600
    try:
        while (now := page(server))['live'] != now['dead']:
            assert time.time() < end, now
            time.sleep(0.5)
        with server.client() as it:
            dead = set(map(jid_of, texts_of(it, 'ZRANGE', 'dead', 0, -1)))
    finally:
        last.kill()
        last.wait()
    status, _, tally = server.end()
    assert (status, tally[b'live'], now['dead']) == (0, len(dead), len(dead)), (status, tally, now, dead)
    return dead, tally


class Story:
    """What the file has of jobs: which were pushed, alone or in a batch, the numbers of the batches, and how often each job has returned."""

    def __init__(self, path):
        self.records, self.pushed, self.batches, self.returned = 0, set(), set(), collections.Counter()
        for body in bodies_of(path):
            self.records += 1
            if b'\r\nSK.OK\r\n' in body:
                self.returned[jid_of(body)] += 1
            elif b'\r\nLPUSH\r\n' in body:
                self.pushed.update(it.decode() for it in JID.findall(body))
            elif b'\r\nSK.BPUSH\r\n' in body:
                number = int(re.search(rb'batch-(\d+)', body)[1])
                self.batches.add(number)
                self.pushed.update(members_of(number))

    def has_all(self, pusher, batcher):
        """Each push that was answered stands."""
        lost = [n for n in pusher.numbers if '%s-%d' % (pusher.name, n) not in self.pushed]
        lost += [n for n in batcher.numbers if n not in self.batches]
        assert not lost, ('answered, and not in the file', lost[:10])

    def callbacks(self, dead):
        """The callbacks that have come. One has to where no job of its batch is dead, and must not where one has never returned."""
        came = set()
        for number in self.batches:
            jid, members = 'called-%d' % number, members_of(number)
            if self.returned[jid] or jid in dead:
                came.add(jid)
            if not dead.intersection(members):
                assert jid in came, ('no callback', number)
            if not all(self.returned[it] for it in members):
                assert jid not in came, ('a callback too early', number)
        return came

    def is_done(self, dead, holders):
        """Each job has returned, or is dead, and none too often."""
        left = [it for it in self.pushed if not self.returned[it] and it not in dead]
        often = [(it, times) for it, times in self.returned.items() if times > 1 + len(holders[it])]
        assert not left and not often, (left[:10], often[:10])

    def is_told(self, tally, dead, came):
        """The server's own tally tells the same."""
        assert (tally[b'outside'], tally[b'inner'], tally[b'again']) == (len(self.pushed), len(came), 0), (tally, len(self.pushed), len(came))
        assert tally[b'returned'] + len(dead) == len(self.pushed) + len(came), (tally, dead)


def are_buried(dead, holders):
    """What was held at three kills is dead, and nothing else is."""
    thrice = {jid for jid, names in holders.items() if len(names) >= 3}
    assert dead == thrice and all(len(holders[it]) == 3 for it in dead), (dead ^ thrice, {it: holders[it] for it in dead | thrice})


def run(asked, path):
    """What came of it, as a line."""
    port, rush, began = free_port(), threading.Event(), time.perf_counter()
    pace = 2 * asked.clients * asked.batch / asked.rate
    keepers = [Paced(n, pace, rush) for n in range(asked.clients)]
    pusher = Pusher(port, pace=4 * LIFE / asked.rate)
    batcher = Batcher(port, pace=4 * LIFE * (MEMBERS + 1) / asked.rate)
    works = [work(port, 'default') for _ in range(asked.works)]
    try:
        server, took, watch = kill_on(asked, path, port, keepers, rush)
        pusher.end()
        batcher.end()
        dead, tally = all_done(server, watch)
        assert all(it.poll() is None for it in works), [it.poll() for it in works]
    finally:
        rush.set()
        pusher.end()
        batcher.end()
        for it in works:
            it.kill()
            it.wait()
    story = Story(path)
    story.has_all(pusher, batcher)
    story.is_done(dead, watch.holders)
    came = story.callbacks(dead)
    story.is_told(tally, dead, came)
    are_buried(dead, watch.holders)
    return '%d kills in %.0f s; %d clients, %s commands, all there and none twice; %s pushes and %s batches answered, %s jobs returned, %s callbacks, ' \
        'each once; %d dead, each held at three kills; %s records of %s bytes, read in %.1f s' % (
            asked.kills, time.perf_counter() - began, asked.clients, *(format(it, ',') for it in (
                sum(it.answered for it in keepers), pusher.answered, batcher.answered, tally[b'returned'], len(came))), len(dead),
            format(story.records, ','), format(os.path.getsize(path), ','), took)


def main():
    line = argparse.ArgumentParser(description=__doc__, formatter_class=argparse.RawDescriptionHelpFormatter)
    line.add_argument('--kills', type=int, default=200)
    line.add_argument('--rate', type=float, default=600, help='records a second over all clients, half of them of jobs')
    line.add_argument('--clients', type=int, default=64)
    line.add_argument('--batch', type=int, default=16)
    line.add_argument('--works', type=int, default=4)
    line.add_argument('--seconds', type=float, default=1, help='how long the server lives behind its first replies, at most; 0.05 at least')
    line.add_argument('--folder', help='where the file is made; the system\'s folder for such, if left out')
    asked = line.parse_args(ASKED)
    with tempfile.TemporaryDirectory(dir=asked.folder) as folder:
        print('kept: ' + run(asked, os.path.join(folder, 'jobs.log')))
    return 0


if __name__ == '__main__':
    sys.exit(main())
