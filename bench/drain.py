#!/usr/bin/env python3
"""How fast `work` drains a queue of jobs that do nothing, with 1, 4 and 16 workers, beside Ruby's Sidekiq where it is installed.

    drain.py [--jobs 100000] [--ruby-jobs 20000]

Ours: a server and one process of `work`; each job is fetched into the private list of its worker, started, done and released, four commands. Ruby's: a
Redis 7 and one process of `sidekiq` with as many threads, whose own fetch is one BRPOP, so that a job is lost where the process dies. The time is that
from the first job done to the last one gone from the queue, so that no start of a program counts. Wanted: the program, which bin/sidekiq builds; and for
Ruby's part redis-server and Debian's ruby-sidekiq.
"""
import argparse
import shutil
import subprocess
import tempfile
import time
from pathlib import Path

from client import PROGRAM, Client, job

OURS, REDIS = 7427, 7428
QUEUE = b'queue:default'
RUBY = """
require 'sidekiq'
Sidekiq.configure_server { |config| config.redis = { url: 'redis://127.0.0.1:%d' }; config.logger.level = 3 }
class Note
  include Sidekiq::Worker
  def perform(*); end
end
""" % REDIS


def rubys_job(number):
    """Sidekiq wants seconds."""
    return job(number).replace(b'1700000000000', b'1700000000.0')


def drained(store, count, words, **more):
    """Jobs a second, from a tenth of them on, where the process of these words drains the queue."""
    process = subprocess.Popen(words, stdout=subprocess.DEVNULL, stderr=subprocess.DEVNULL, **more)
    while store.length(QUEUE) > count - count // 10:
        time.sleep(0.002)
    start, first = time.perf_counter(), store.length(QUEUE)
    while store.length(QUEUE):
        time.sleep(0.01)
    end = time.perf_counter()
    process.kill()
    process.wait()
    return first / (end - start)


def ours(threads, count):
    words = [PROGRAM, 'serve', '--port', str(OURS), '--loops', '32']
    server = subprocess.Popen(words, stdout=subprocess.DEVNULL, stderr=subprocess.DEVNULL)
    store = Client(OURS)
    store.fill([job(number) for number in range(count)])
    rate = drained(store, count, [PROGRAM, 'work', '--port', str(OURS), '--threads', str(threads)])
    store.ask(b'SHUTDOWN')
    server.wait()
    return rate


def rubys(threads, count, folder):
    server = subprocess.Popen(['redis-server', '--port', str(REDIS), '--save', '', '--appendonly', 'no'], stdout=subprocess.DEVNULL, cwd=folder)
    store = Client(REDIS)
    store.fill([rubys_job(number) for number in range(count)])
    store.ask(b'SADD', b'queues', b'default')
    (Path(folder) / 'note.rb').write_text(RUBY)
    rate = drained(store, count, ['sidekiq', '-r', './note.rb', '-c', str(threads), '-q', 'default'], cwd=folder)
    server.kill()
    server.wait()
    return rate


def main():
    parser = argparse.ArgumentParser(description='The drain of a queue.')
    parser.add_argument('--jobs', type=int, default=100_000)
    parser.add_argument('--ruby-jobs', type=int, default=20_000)
    given = parser.parse_args()
    ruby = all(shutil.which(it) for it in ('sidekiq', 'redis-server'))
    for threads in (1, 4, 16):
        rate = ours(threads, given.jobs)
        line = 'drain: %2d workers: %7.0f jobs a second' % (threads, rate)
        if ruby:
            with tempfile.TemporaryDirectory() as folder:
                beside = rubys(threads, given.ruby_jobs, folder)
            line += "; Ruby's Sidekiq %6.0f, %.1f times as many" % (beside, rate / beside)
        print(line, flush=True)


if __name__ == '__main__':
    main()
