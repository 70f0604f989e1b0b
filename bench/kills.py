#!/usr/bin/env python3
"""Kills workers by signal 9 while they work, and shows that no job is lost.

    kills.py [--jobs 10000] [--kills 20] [--prefetch 4]

One server, two processes of `work`, each with four workers, and so many jobs of the class Note, pushed in as many lots as there are kills. In the middle
of each lot one that holds jobs is killed, and another is started under a name of its own. What the dead one held stands in its private list until its heartbeat
has lapsed, a minute later: then a poller of the living gives it back, and it runs. A line for each kill tells how many jobs were done by then, of how many
pushed, and how many the dead process held. At the end the page has no live job, and the server's summary has each job as returned, or as buried where
it was rescued too often. Wanted: the program alone, which bin/sidekiq builds.
"""
import argparse
import re
import signal
import subprocess
import sys
import time

from client import PROGRAM, Client, job

PORT = 7426


def page_of(store):
    """The numbers of the page, by name."""
    return {name: int(count) for name, count in re.findall(r'^(.+) (\d+)$', store.ask(b'SK.STATUS').decode(), re.M)}


class Worker:
    """A process of `work`, with the n-th name."""

    def __init__(self, number, prefetch):
        self.name = 'host:%d:0' % number
        self.list = b'sq:' + self.name.encode()
        words = ['work', '--port', str(PORT), '--ident', self.name, '--threads', '4', '--prefetch', str(prefetch)]
        self.process = subprocess.Popen([PROGRAM, *words], stdout=subprocess.DEVNULL, stderr=subprocess.DEVNULL)

    def kill(self):
        self.process.send_signal(signal.SIGKILL)
        self.process.wait()


def held_by(store, worker):
    """How many jobs stand in the private list of a worker that is gone, once the server has seen that it is."""
    time.sleep(0.05)
    return store.length(worker.list)


def main():
    parser = argparse.ArgumentParser(description='Workers killed while they work.')
    parser.add_argument('--jobs', type=int, default=10_000)
    parser.add_argument('--kills', type=int, default=20)
    parser.add_argument('--prefetch', type=int, default=4)
    given = parser.parse_args()
    server = subprocess.Popen([PROGRAM, 'serve', '--port', str(PORT), '--loops', '32'], stdout=subprocess.PIPE, stderr=subprocess.DEVNULL)
    store = Client(PORT)
    workers, next_name, held, pushed = [Worker(0, given.prefetch), Worker(1, given.prefetch)], 2, 0, 0
    while page_of(store)['processes'] < 2:
        time.sleep(0.002)
    for kill in range(given.kills):
        lot = [job(number) for number in range(pushed, (kill + 1) * given.jobs // given.kills)]
        before = page_of(store)['processed']
        store.fill(lot)
        pushed += len(lot)
        while page_of(store)['processed'] < before + len(lot) // 5:
            pass
        worker = next((it for it in workers if store.length(it.list)), workers[0])      # (the other one may be in the pause that follows an empty queue)
        worker.kill()
        workers.remove(worker)
        done, in_hands = page_of(store)['processed'], held_by(store, worker)
        held += in_hands
        print('kills: %2d. %-9s killed when %5d of %5d were done; it held %2d' % (kill + 1, worker.name, done, pushed, in_hands), flush=True)
        workers.append(Worker(next_name, given.prefetch))
        next_name += 1
    print('kills: the dead held %d jobs; their heartbeats lapse in a minute' % held, flush=True)
    end = time.time() + 300
    while True:
        page = page_of(store)
        if page['live'] == page['dead'] or time.time() > end:
            break
        time.sleep(0.5)
    told = 'processed %(processed)d, busy %(busy)d, scheduled %(scheduled)d, retries %(retries)d, dead %(dead)d, live %(live)d' % page
    print('kills: the page at the end: ' + told)
    for worker in workers:
        worker.kill()
    store.ask(b'SHUTDOWN')
    out = server.communicate()[0].decode()
    tally = {name: int(count) for name, count in re.findall(r'^(\w+) (\d+)$', out, re.M)}
    print('kills: the tally: outside %(outside)d, live %(live)d, returned %(returned)d, discarded %(discarded)d, deleted %(deleted)d' % tally)
    whole = tally['outside'] == given.jobs and tally['returned'] + tally['live'] == given.jobs and tally['live'] == page['dead']
    print('kills: ' + ('no job is lost' if whole else 'A JOB IS LOST'))
    return int(not whole)


if __name__ == '__main__':
    sys.exit(main())
