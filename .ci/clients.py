#!/usr/bin/env python3
"""Tries the clients and workers of clients/ over `sidekiq serve`, beside the program's own `push` and `work`.

    clients.py PROGRAM [--log FILE] [NAME ..]

With --log the server keeps its store in a file, which isn't there yet; one test has it so in any case.
The rules of retries, of failed texts and of periodic jobs are compared with the rows of the worked tests, which the proved functions pass, too: so
one table checks each language. Plain sockets and Python alone. Status 1 where a test fails.
"""
import json
import pathlib
import re
import shutil
import signal
import subprocess
import sys
import tempfile
import time
import urllib.parse

HOME = pathlib.Path(__file__).resolve().parent.parent
sys.path[:0] = [str(HOME / 'clients/python'), str(HOME / '.ci')]
sys.dont_write_bytecode = True
import sidekiq
from server import PROGRAM, SECONDS, Server, a_file, kill

DATA = HOME / 'crates/sk_rows/data'


def wait_for(holds, seconds=SECONDS):
    end = time.time() + seconds
    while not holds():
        assert time.time() < end, 'it takes too long'
        time.sleep(0.05)


def refusal(call):
    """The error reply that a call gets."""
    try:
        return 'answered %r' % (call(),)
    except sidekiq.Refused as refused:
        return str(refused)


# ---------------------------------------------------------------------------------------------
# Against the worked rows


def rows_of_retries():
    """Of each row of the decisions the job, the moment, the jitter, and what becomes of the job."""
    rows = re.findall(r'(?m)^decide (\d) (.*)\nclock (\d+) 0\nthen\n(\w+)(?: (\d+))?$', (DATA / 'doors.txt').read_text())
    return [(json.loads(text), int(now), int(jitter), 1_000_000 * int(score) if score else fate) for jitter, text, now, fate, score in rows]


def rows_of_crons():
    """Of each row the cron text, the moment, the offset, and the slot: None where there is none, 'refused' where the text is no cron text."""
    for path in sorted((DATA / 'crons').glob('*.in')):
        for line, wanted in zip(path.read_text().splitlines(), path.with_suffix('.out').read_text().splitlines()):
            now, offset, text = line.split(' ', 2)
            yield text, int(now), int(offset), None if wanted == 'none' else int(wanted) if wanted.isdigit() else 'refused'


def rows_of_failures():
    """Of each row the job, the error's class and message, the moment, and the failed job."""
    path = DATA / 'failures/a_failure_is_written_into_the_text.in'
    for line, wanted in zip(path.read_text().splitlines(), path.with_suffix('.out').read_text().splitlines()):
        now, name, message, text = line.split(' ', 3)
        if wanted.startswith('{'):
            yield json.loads(text), urllib.parse.unquote(name), urllib.parse.unquote(message), int(now), json.loads(wanted)


def last_slot(text, now, offset):
    try:
        return sidekiq.Cron(text).last_slot(now, offset)
    except sidekiq.BadJob:
        return 'refused'


CALLS = {'decide': (rows_of_retries, sidekiq.decide), 'last_slot': (rows_of_crons, last_slot), 'failed': (rows_of_failures, sidekiq.failed)}


def python_as_the_rows(_):
    """Retries, slots and failed texts are those of the rows."""
    for rows, call in CALLS.values():
        for *args, wanted in rows():
            assert call(*args) == wanted, (args, call(*args), wanted)


def ruby(calls):
    """The answers of the client in Ruby to these calls."""
    lines = ''.join(json.dumps(it) + '\n' for it in calls)
    done = subprocess.run(['ruby', str(HOME / '.ci/client.rb')], input=lines, capture_output=True, text=True, timeout=SECONDS)
    assert done.returncode == 0, done.stderr
    return [json.loads(it) for it in done.stdout.splitlines()]


def ruby_as_the_rows(_):
    """The same in Ruby."""
    rows = [(name, *row) for name, (rows, _) in CALLS.items() for row in rows()]
    assert len(rows) > 70, len(rows)
    for row, found in zip(rows, ruby([row[:-1] for row in rows])):
        assert found == row[-1], (row, found)


def calls_of_the_client_in_ruby(server):
    """Each call of the client in Ruby does what it says."""
    before = sidekiq.Client(port=server.port).status()['scheduled']
    assert ruby([('pushes', server.port, 'calls_rb')]) == [[True, ['a'], 2500, [True, False], [3, 3, 3, False, 3], before + 1, 4]]
    sidekiq.Client(port=server.port)('DEL', 'queue:calls_rb', 'schedule')


# ---------------------------------------------------------------------------------------------
# The client


def calls_of_the_client(server):
    """Each call of the client does what it says."""
    client = sidekiq.Client(port=server.port)
    jid = client.push('Mail', 'ada', 3, queue='calls', tags=['a'])
    job = json.loads(client('LRANGE', 'queue:calls', 0, -1)[0])
    assert (job['jid'], job['class'], job['args'], job['tags']) == (jid, 'Mail', ['ada', 3], ['a']), job
    client.push_in(3600, 'Mail', 'bob', queue='calls')
    client.push_at(4_000_000_000, 'Mail', 'eve', queue='calls')
    assert client('ZCARD', 'schedule') == 2
    assert len(set(client.push_many('Mail', [[n] for n in range(2500)], queue='calls'))) == 2500 and client('LLEN', 'queue:calls') == 2501
    first, second = (client.push_unique(600, 'Report', 7, queue='calls') for _ in range(2))
    assert first.is_new and second == (first.jid, False), (first, second)
    with client.batch(success=('Done', 1), complete=sidekiq.draft('Done', [2], queue='calls')) as batch:
        batch.push('Mail', 'ada', queue='calls')
        batch.push('Mail', 'bob', queue='calls')
    assert client.batch_status(batch.bid) == (2, 2, 2, False, 2), client.batch_status(batch.bid)
    assert client.add_to_batch(batch.bid, [sidekiq.draft('Mail', ['joe'], queue='calls')]) == 1
    with client.batch(parent=batch.bid) as inner:
        inner.push('Mail', 'inside', queue='calls')
    assert client.batch_status(batch.bid) == (3, 3, 3, False, 4), client.batch_status(batch.bid)
    assert client.status()['scheduled'] == 2
    assert client('DEL', 'queue:calls', 'schedule') == 2


def jobs_that_are_none(server):
    """What the store wouldn't know as a job is refused before anything is sent."""
    client = sidekiq.Client(port=server.port)
    for args, options in (([1.5], {}), ([float('nan')], {}), ([2 ** 64], {}), ([{1: 2}], {}), ([object()], {}), (['\udcff'], {}), ([], {'queue': ''}),
                          ([], {'queue': 'a\n'}), ([], {'retry': -1}), ([], {'retry_for': 0})):
        try:
            client.push('Mail', *args, **options)
        except sidekiq.BadJob:
            continue
        raise AssertionError('%r %r was pushed' % (args, options))
    assert client._connection is None
    assert refusal(lambda: client('NOTHING')).startswith('ERR unknown command')


# ---------------------------------------------------------------------------------------------
# The worker


PROCESSES = []
PYTHON, RUBY = [sys.executable, str(HOME / '.ci/app.py')], ['ruby', str(HOME / '.ci/app.rb')]


class Process:
    """The worker of .ci/app.py, or that of .ci/app.rb, in a process, which notes each run in a file."""

    def __init__(self, server, *words, notes=None, app=PYTHON):
        self.notes = notes or tempfile.NamedTemporaryFile(delete=False).name
        line = [*app, str(server.port), self.notes, *map(str, words)]
        self.process = subprocess.Popen(line, stdin=subprocess.DEVNULL, stderr=subprocess.PIPE, bufsize=0)
        PROCESSES.append(self.process)
        self.said = self.process.stderr.readline().decode()
        assert ' works on ' in self.said, self.said

    def ran(self):
        """What was noted, a line for each run."""
        return pathlib.Path(self.notes).read_text().splitlines()

    def end(self, number=signal.SIGTERM):
        """The status, and what it said."""
        self.process.send_signal(number)
        _, said = self.process.communicate(timeout=SECONDS)
        return self.process.returncode, said.decode()


def does_jobs(server, app, queue):
    """A worker runs jobs that return, that raise, and of classes that it hasn't; and those that the program `push` has pushed."""
    client, before = sidekiq.Client(port=server.port), sidekiq.Client(port=server.port).status()
    for n in range(20):
        client.push('Note', n, queue=queue)
    client.push('Raise', 'asked to', queue=queue, retry=3)
    client.push('Raise', 'asked to', queue=queue, retry=0)
    client.push('Raise', 'asked to', queue=queue, retry=False)
    client.push('Nobody', queue=queue)
    client('LPUSH', 'queue:' + queue, 'no job at all')
    line = [PROGRAM, 'push', '--port', str(server.port), '--queue', queue, 'Note', '["from push"]']
    subprocess.run(line, stdin=subprocess.DEVNULL, stdout=subprocess.DEVNULL, check=True)
    worker = Process(server, queue, app=app)
    wait_for(lambda: client('LLEN', 'queue:' + queue) == 0 and client.status()['busy'] == before['busy'])
    status, said = worker.end()
    assert status == 0 and sorted(worker.ran()) == sorted(['Note %d' % n for n in range(20)] + ['Note from push']), (status, worker.ran())
    assert said.count('failed: ') == 4 and 'Error: UnknownClass' in said, said
    now = client.status()
    changed = {it: now[it] - before[it] for it in ('processed', 'failed', 'retries', 'dead', 'busy')}
    assert changed == {'processed': 25, 'failed': 4, 'retries': 2, 'dead': 2, 'busy': 0}, changed
    retried = [json.loads(it) for it in client('ZRANGE', 'retry', 0, -1)]
    assert {(it['class'], it['error_message'], it['retry_count']) for it in retried} >= {('Raise', 'asked to', 0)} and len(retried) >= 2, retried
    client('DEL', 'retry', 'dead')


def a_worker_in_python(server):
    does_jobs(server, PYTHON, 'py')


def a_worker_in_ruby(server):
    does_jobs(server, RUBY, 'rb')


def jobs_for_a_worker_in_rattle(server):
    """The program `work` runs what the client in Python pushes, and batches fire."""
    client = sidekiq.Client(port=server.port)
    before = client.status()['processed']
    with client.batch(success=sidekiq.draft('Note', ['all'], queue='rattle')) as batch:
        for n in range(3):
            batch.push('Note', n, queue='rattle')
    line = [PROGRAM, 'work', '--port', str(server.port), '--queues', 'rattle', '--threads', '1', '--turns', '4']
    done = subprocess.run(line, stdin=subprocess.DEVNULL, capture_output=True, timeout=SECONDS)
    assert done.stdout == b'done 4 retried 0 buried 0 discarded 0\n', done
    assert client.batch_status(batch.bid) == (3, 0, 0, False, 0), client.batch_status(batch.bid)
    assert client.status()['processed'] == before + 4, (before, client.status())


def callbacks(server):
    """Complete comes once each job has run, success once each has returned, and each comes once; a job may add jobs to its own batch."""
    client, worker = sidekiq.Client(port=server.port), Process(server, 'calls_back')
    told = {kind: sidekiq.draft('Note', [kind], queue='calls_back') for kind in ('complete', 'success')}
    with client.batch(**told) as batch:
        for _ in range(5):
            batch.push('More', queue='calls_back')
    wait_for(lambda: client.batch_status(batch.bid) == (10, 0, 0, False, 0) and len(worker.ran()) == 12)
    assert worker.end()[0] == 0 and worker.ran().count('Note complete') == worker.ran().count('Note success') == 1, worker.ran()


def ends(server, app):
    """At TSTP a worker takes no further job; at TERM what runs for longer than the grace is given back, and runs again elsewhere."""
    client = sidekiq.Client(port=server.port)
    client.push('Sleep', 60, queue='ends')
    worker = Process(server, 'ends', 'grace=1', 'prefetch=2', 'threads=1', app=app)
    wait_for(lambda: client('LLEN', 'sq:' + worker.said.split()[1]) == 1)
    worker.process.send_signal(signal.SIGTSTP)
    time.sleep(0.3)
    client.push('Note', 'later', queue='ends')
    time.sleep(1.5)
    assert client('LLEN', 'queue:ends') == 1
    began = time.time()
    status, said = worker.end()
    assert (status, time.time() - began < 30) == (0, True) and client('LLEN', 'queue:ends') == 2, (status, said)
    assert json.loads(client('LRANGE', 'queue:ends', -1, -1)[0])['class'] == 'Sleep'
    client('DEL', 'queue:ends')


def a_worker_in_python_that_is_told_to_end(server):
    ends(server, PYTHON)


def a_worker_in_ruby_that_is_told_to_end(server):
    ends(server, RUBY)


def many_due_jobs(server, app, count=10_000):
    """A worker sends all that is due to its queues, and not only a hundred jobs at each of its turns, which come a second after one another here."""
    client, now = sidekiq.Client(port=server.port), time.time()
    for at in range(0, count, 1000):
        client('ZADD', 'schedule', *(it for n in range(at, at + 1000) for it in (int(now), sidekiq.text_of(sidekiq.draft('Note', [n], queue='due')))))
    worker = Process(server, 'nobody', app=app)
    wait_for(lambda: client('LLEN', 'queue:due') == count)
    assert client('ZCARD', 'schedule') == 0 and worker.end()[0] == 0
    client('DEL', 'queue:due')


def a_worker_in_python_with_many_due_jobs(server):
    many_due_jobs(server, PYTHON)


def a_worker_in_ruby_with_many_due_jobs(server):
    many_due_jobs(server, RUBY)


def periodic_jobs(server):
    """Of two processes with one periodic job one pushes it, once a minute."""
    workers = [Process(server, 'periodic', 'every=* * * * *', app=app) for app in (PYTHON, RUBY if shutil.which('ruby') else PYTHON)]
    wait_for(lambda: any(it.ran() for it in workers))
    time.sleep(2)
    counts = [len(it.ran()) for it in workers]
    assert [it.end()[0] for it in workers] == [0, 0] and 1 <= sum(counts) <= 2, counts


def killed_workers(server, jobs=300, kills=20):
    """Workers are killed while they run batches within batches. Each job runs, each callback comes once, and nothing is left in anybody's hands."""
    client, notes = sidekiq.Client(port=server.port), tempfile.NamedTemporaryFile(delete=False).name
    told = {kind: sidekiq.draft('Note', [kind], queue='killed_py') for kind in ('complete', 'success')}
    with client.batch(**told) as outer:
        outer.push('Nap', 'outer', queue='killed_py')
    inner = []
    for at in range(3):
        with client.batch(parent=outer.bid, success=sidekiq.draft('Note', ['inner %d' % at], queue='killed_py')) as batch:
            for n in range(jobs // 3):
                batch.push('Nap', '%d-%d' % (at, n), queue='killed_py')
        inner.append(batch)
    for _ in range(kills):
        worker = Process(server, 'killed_py', 'prefetch=2', notes=notes)
        time.sleep(0.1)
        assert worker.end(signal.SIGKILL)[0] == -signal.SIGKILL
    last = Process(server, 'killed_py', 'threads=8', notes=notes)
    ended = {'Note complete', 'Note success', *('Note inner %d' % at for at in range(3))}
    wait_for(lambda: ended <= set(last.ran()), 300)
    wait_for(lambda: client('LLEN', 'queue:killed_py') == 0)
    ran = last.ran()
    assert len({it for it in ran if it.startswith('Nap')}) == jobs + 1, 'a job never ran'
    assert all(client.batch_status(it.bid)[1:] == (0, 0, False, 0) for it in (outer, *inner))
    assert last.end()[0] == 0
    fired = client('GET', 'stat:processed') is not None and [ran.count(it) for it in sorted(ended)]
    assert all(1 <= count <= 2 for count in fired), fired           # (a callback is a job, and may run twice when its worker is killed)


# ---------------------------------------------------------------------------------------------
# What a worker may do wrong


def wrong_steps(server):
    """The store refuses the mistakes that lose jobs, each by the cause that docs/PROTOCOL.md tells."""
    client, count = sidekiq.Client(port=server.port), [0]

    def job(**more):
        count[0] += 1
        return sidekiq.text_of({'args': [], 'class': 'Note', 'jid': 'wrong-%d' % count[0], 'queue': 'wrong', 'retry': True, **more})

    def seat(ident='wrong'):
        it = sidekiq.Connection(port=server.port)
        client('SK.BEAT', ident)
        it('SK.JOIN', ident)
        return it

    def held():
        client('LPUSH', 'queue:wrong', job())
        it = seat()
        return it, it('LMOVE', 'queue:wrong', 'sq:wrong', 'RIGHT', 'LEFT')

    stranger = sidekiq.Connection(port=server.port)
    assert refusal(lambda: stranger('SK.JOIN', 'nobody')) == 'SK no such process'
    assert refusal(lambda: stranger('LMOVE', 'queue:wrong', 'sq:wrong', 'RIGHT', 'LEFT')) == 'SK not a worker seat'
    it = seat()
    assert refusal(lambda: it('LMOVE', 'queue:wrong', 'sq:other', 'RIGHT', 'LEFT')) == 'SK out of turn'
    assert refusal(lambda: it('LMOVE', 'queue:wrong', 'sq:wrong', 'LEFT', 'LEFT')) == 'SK out of turn'
    assert refusal(lambda: it('SK.DUE', 'retry', 10)) == 'SK out of turn'
    it, text = held()
    known = json.loads(text)
    for wrong in ({}, {'retry_count': 1}, {'retry_count': 0, 'args': [1]}, {'retry_count': 0, 'class': 'Other'}, {'retry_count': 0, 'queue': 'other'},
                  {'retry_count': 0, 'jid': 'other'}, {'retry_count': 0, 'failed_at': 1.5}):
        assert refusal(lambda: it('ZADD', 'retry', 1, json.dumps({**known, **wrong}))) == 'SK out of turn', wrong
    assert refusal(lambda: it('SK.OK', json.dumps(known, indent=1))) == 'SK out of turn'
    assert refusal(lambda: it('LREM', 'sq:wrong', 1, text)) == 'SK out of turn'
    assert refusal(lambda: seat()('SK.OK', text)) == 'SK out of turn'
    assert it('SK.OK', text) == [] and refusal(lambda: it('SK.OK', text)) == 'SK out of turn'
    assert refusal(lambda: it('LREM', 'sq:wrong', 0, text)) == 'SK out of turn'
    assert it('LREM', 'sq:wrong', 1, text) == 1
    it = seat('wrong16')
    client('LPUSH', 'queue:wrong', *[job() for _ in range(17)])
    for _ in range(16):
        assert it('LMOVE', 'queue:wrong', 'sq:wrong16', 'RIGHT', 'LEFT')
    assert refusal(lambda: it('LMOVE', 'queue:wrong', 'sq:wrong16', 'RIGHT', 'LEFT')) == 'SK hands full'
    assert client('DEL', 'queue:wrong') == 1


# ---------------------------------------------------------------------------------------------
# A store in a file


SESSIONS = [calls_of_the_client, a_worker_in_python, jobs_for_a_worker_in_rattle, callbacks, a_worker_in_python_that_is_told_to_end,
            a_worker_in_python_with_many_due_jobs, wrong_steps]
RUBY_SESSIONS = [calls_of_the_client_in_ruby, a_worker_in_ruby, a_worker_in_ruby_that_is_told_to_end]


def counts(server):
    """What the page tells of jobs."""
    page = sidekiq.Client(port=server.port).status()
    return {it: page[it] for it in ('processed', 'failed', 'scheduled', 'retries', 'dead', 'live')}


def the_same_over_a_file(_):
    """The same sessions with a server that keeps its store in a file. What they leave is there again when it was killed and is started again."""
    with a_file() as path:
        server = Server(64, '--log', path)
        for test in SESSIONS + (RUBY_SESSIONS if shutil.which('ruby') else []):
            test(server)
        before = counts(server)
        kill(server)
        server = Server(64, '--log', path)
        assert counts(server) == before and before['processed'] > 25, (before, counts(server))
        assert server.end()[0] == 0


TESTS = [python_as_the_rows, calls_of_the_client, jobs_that_are_none, a_worker_in_python, jobs_for_a_worker_in_rattle, callbacks,
         a_worker_in_python_that_is_told_to_end, a_worker_in_python_with_many_due_jobs, periodic_jobs, wrong_steps, killed_workers,
         the_same_over_a_file]
RUBY_TESTS = [ruby_as_the_rows, calls_of_the_client_in_ruby, a_worker_in_ruby, a_worker_in_ruby_that_is_told_to_end,
              a_worker_in_ruby_with_many_due_jobs]


def main():
    wanted = sys.argv[2:]
    more, wanted = (wanted[:2], wanted[2:]) if wanted[:1] == ['--log'] else ([], wanted)
    try:
        server = Server(64, *more)
    except OSError as fault:
        print('clients: passed over, since there is no loopback here: %s' % fault)
        return 0
    failed, tests = [], TESTS + (RUBY_TESTS if shutil.which('ruby') else [])
    for test in tests:
        if wanted and test.__name__ not in wanted:
            continue
        try:
            test(server)
        except (AssertionError, OSError, sidekiq.Error, subprocess.SubprocessError) as fault:
            failed.append(test.__name__)
            print('clients: %s: %s: %s' % (test.__name__, type(fault).__name__, fault))
    for process in PROCESSES:
        process.kill()                              # (those of a test that failed; the server ends when nobody is connected)
    if server.end()[0] != 0:
        failed.append('the server')
    missing = '' if shutil.which('ruby') else ', without Ruby'
    print('clients: %s' % ('FAILED: ' + ', '.join(failed) if failed else '%d tests%s' % (len(wanted or tests), missing)))
    return int(bool(failed))


if __name__ == '__main__':
    sys.exit(main())
