#!/usr/bin/env python3
"""A worker for the tests of clients/python: app.py PORT NOTES QUEUE [grace=..] [prefetch=..] [threads=..] [every=..]

Each run adds a line to the file NOTES, in one write, so that several processes may share it.
"""
import os
import pathlib
import sys
import time

sys.dont_write_bytecode = True
sys.path.insert(0, str(pathlib.Path(__file__).resolve().parent.parent / 'clients/python'))
import sidekiq

PORT, NOTES, QUEUE, *WORDS = sys.argv[1:]
OPTIONS = dict(it.split('=', 1) for it in WORDS)
CRON = OPTIONS.pop('every', None)
worker = sidekiq.Worker(port=int(PORT), queues=[QUEUE], idle=0.2, poll=1, **{name: int(it) for name, it in OPTIONS.items()})
notes = os.open(NOTES, os.O_WRONLY | os.O_APPEND | os.O_CREAT)


@worker.job
def Note(*args):
    os.write(notes, ('Note %s\n' % ' '.join(map(str, args))).encode())


@worker.job
def Raise(message):
    raise RuntimeError(message)


@worker.job
def Sleep(seconds):
    time.sleep(seconds)


@worker.job
def Nap(name):
    time.sleep(0.02)
    os.write(notes, ('Nap %s\n' % name).encode())


@worker.job
def More():
    """Notes its own id, and adds one more job to its batch."""
    job = sidekiq.current()
    os.write(notes, ('More %s\n' % job['jid']).encode())
    sidekiq.Client(port=int(PORT)).add_to_batch(job['bid'], [sidekiq.draft('Note', ['more'], queue=QUEUE)])


if CRON:
    worker.every(CRON, 'Note', 'a minute', queue=QUEUE)
worker.run()
