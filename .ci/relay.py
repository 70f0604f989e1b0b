#!/usr/bin/env python3
"""Lets `sidekiq work --relay` ask other programs to run its jobs, over real connections: that of docs/OWN_JOBS.md, and some that answer as a test
tells them.

    relay.py PROGRAM [NAME ..]

What no clause can say, since a real connection tells the proofs nothing: what stands on the wire, one connection a run, and what becomes of a job whose
program raises, answers nonsense, dies, hangs, isn't there, or comes back. Python alone. Status 1 where a test fails.
"""
import collections
import json
import pathlib
import re
import socket
import subprocess
import sys
import tempfile
import threading
import time

HOME = pathlib.Path(__file__).resolve().parent.parent
sys.path.insert(0, str(HOME / 'clients' / 'python'))
import sidekiq  # noqa: E402

PROGRAM = sys.argv[1]
HOST, SECONDS = '127.0.0.1', 120
OK = b'+OK\r\n'


def free_port():
    with socket.create_server((HOST, 0)) as it:
        return it.getsockname()[1]


def wait_for(holds, what, seconds=SECONDS):
    end = time.monotonic() + seconds
    while not holds():
        assert time.monotonic() < end, what
        time.sleep(0.02)


def listens(port):
    try:
        socket.create_connection((HOST, port), 1).close()
        return True
    except OSError:
        return False


class Store:
    """A server of its own, a client of it, and workers."""

    def __init__(self):
        self.port, self.workers = free_port(), []
        words = [PROGRAM, 'serve', '--port', str(self.port)]
        self.server = subprocess.Popen(words, stdin=subprocess.DEVNULL, stdout=subprocess.DEVNULL, stderr=subprocess.DEVNULL)

    def __enter__(self):
        wait_for(lambda: listens(self.port), 'the server does not listen')
        self.client = sidekiq.Client(HOST, self.port)
        return self

    def __exit__(self, *fault):
        for it in [*self.workers, self.server]:
            it.kill()
            it.wait()

    def words(self, relay, classes, more):
        return [PROGRAM, 'work', '--port', str(self.port), '--relay', '%s:%d' % (HOST, relay), '--relay-classes', classes, *more]

    def work(self, relay, classes='Mail', *more):
        """Starts workers, which go on."""
        self.workers.append(subprocess.Popen(self.words(relay, classes, more), stdin=subprocess.DEVNULL,
                                             stdout=subprocess.DEVNULL, stderr=subprocess.DEVNULL))
        return self.workers[-1]

    def worked(self, turns, relay, classes='Mail', *more):
        """What one worker came to in so many turns: how many jobs were done, and how many are tried again."""
        done = subprocess.run(self.words(relay, classes, ('--threads', '1', '--turns', str(turns), *more)), stdin=subprocess.DEVNULL,
                              capture_output=True, timeout=SECONDS)
        assert done.returncode == 0, (done.returncode, done.stderr)
        counts = re.fullmatch(rb'done (\d+) retried (\d+) buried 0 discarded 0\n', done.stdout)
        assert counts, done.stdout
        return tuple(map(int, counts.groups()))

    def retries(self):
        """The error of each job that is to be tried again, by its arguments. On a slow machine it is due already, and waits in its queue."""
        texts = self.client('ZRANGE', 'retry', 0, -1) + self.client('LRANGE', 'queue:default', 0, -1)
        jobs = [json.loads(it) for it in texts]
        return {tuple(it['args']): (it['error_class'], it['error_message'], it['retry_count']) for it in jobs}

    def revive(self):
        """Has all jobs that are to be tried again wait in their queue."""
        for text in self.client('ZRANGE', 'retry', 0, -1):
            assert self.client('SK.REVIVE', 'retry', text) == 1

    def waiting(self):
        return self.client('LLEN', 'queue:default')

    def live(self):
        """How many jobs are in the store."""
        return int(re.search(r'(?m)^live (\d+)', self.status())[1])

    def status(self):
        return subprocess.run([PROGRAM, 'status', '--port', str(self.port)], stdin=subprocess.DEVNULL, capture_output=True, text=True,
                              timeout=SECONDS).stdout


class Peer:
    """A program that runs jobs, for one test. `answer` gets the words of a request and gives the bytes of the reply; None: it hangs up. One that
    doesn't last hangs up behind each reply."""

    def __init__(self, answer, port=0, lasts=True):
        self.answer, self.lasts, self.asked, self.connections, self.lock = answer, lasts, [], 0, threading.Lock()
        self.listener = socket.create_server((HOST, port))
        self.port = self.listener.getsockname()[1]
        threading.Thread(target=self.listen, daemon=True).start()

    def __enter__(self):
        return self

    def __exit__(self, *fault):
        self.listener.close()

    def listen(self):
        while True:
            try:
                connection, _ = self.listener.accept()
            except OSError:
                return
            threading.Thread(target=self.serve, args=(connection,), daemon=True).start()

    def serve(self, connection):
        with connection, connection.makefile('rb') as stream:
            try:
                self.replies(connection, stream)
            except (OSError, ValueError):                   # (the workers were killed in the middle)
                pass

    def replies(self, connection, stream):
        with self.lock:
            self.connections += 1
        for line in stream:
            words = []
            for _ in range(int(line[1:])):
                length = int(stream.readline()[1:])
                words.append(stream.read(length + 2)[:length].decode())
            with self.lock:
                self.asked.append(words)
            reply = self.answer(words)
            if reply is None:
                return
            connection.sendall(reply)
            if not self.lasts:
                return


def argument(words):
    return json.loads(words[4])[0]


def the_program_of_the_documents():
    """Docs show a program of some thirty lines: its jobs run, one that raises is tried again with its error, and one that it hasn't, too."""
    text = (HOME / 'docs' / 'OWN_JOBS.md').read_text().split('## Over the relay')[1]
    program = re.search(r'```python\n(.*?)```', text, re.S)[1]
    port = free_port()
    assert program.count('7500') == 1
    program = program.replace('7500', str(port))
    with tempfile.TemporaryDirectory() as place, Store() as store:
        (pathlib.Path(place) / 'app.py').write_text(program)
        app = subprocess.Popen([sys.executable, 'app.py'], cwd=place, stdout=subprocess.PIPE, stderr=subprocess.DEVNULL, text=True)
        try:
            wait_for(lambda: listens(port), 'the program does not listen')
            store.client.push('Mail', 'ada', 3)
            store.client.push('Mail', 'no number')
            store.client.push('Report', 7)
            assert store.worked(3, port, 'Mail,Report') == (1, 2)
            assert app.stdout.readline() == 'a mail to ada 3\n'
            retries = store.retries()
            assert retries['no number',][0] == 'TypeError' and "'number'" in retries['no number',][1], retries
            assert retries[7,] == ('KeyError', "'Report'", 0), retries
        finally:
            app.kill()
            app.wait()


def what_is_asked():
    """A run is one request over a connection of its own: RUN, the class, the job's id, how often it failed, and its arguments."""
    with Store() as store, Peer(lambda words: b'-Busy later\r\n' if words[3] == '0' else OK) as peer:
        jid = store.client.push('Mail', 'ä "b"', {'b': [1], 'a': None})
        args = '["ä \\"b\\"",{"a":null,"b":[1]}]'
        assert store.worked(1, peer.port) == (0, 1)
        store.revive()
        assert store.worked(1, peer.port) == (1, 0)
        assert peer.asked == [['RUN', 'Mail', jid, failures, args] for failures in '01'], peer.asked
        assert peer.connections == 2 and store.live() == 0, (peer.connections, store.live())


def other_replies_raise():
    """Only +OK returns. Errors raise themselves, and each other reply is none."""
    replies = {'-Net::Timeout no answer\r\n': ('Net::Timeout', 'no answer'), '-Alone\r\n': ('Alone', ''), '- x\r\n': ('', 'x'),
               '-Err a  b \r\n': ('Err', 'a  b '), **{it: None for it in ('+ok\r\n', '+OK \r\n', '+\r\n', ':1\r\n', '$2\r\nOK\r\n', '$-1\r\n', '*0\r\n', '-\xff x\r\n')}}
    bad = ('BadReply', 'the reply is neither +OK nor an error in UTF-8')
    with Store() as store, Peer(lambda words: argument(words).encode('latin-1')) as peer:
        for it in replies:
            store.client.push('Mail', it)
        assert store.worked(len(replies), peer.port) == (0, len(replies))
        for it, error in store.retries().items():
            assert error == (*(replies[it[0]] or bad), 0), (it, error)


def no_whole_reply_is_lost():
    """A program that dies in the middle of a run, or of its reply, raises; and the job runs again when it is back."""
    halves = ('', '+O', '+OK', '+OK\r', '?')
    with Store() as store:
        with Peer(lambda words: argument(words).encode(), lasts=False) as peer:
            for half in halves:
                store.client.push('Mail', half)
            assert store.worked(len(halves), peer.port) == (0, len(halves))
        assert store.retries() == {(half,): ('Lost', 'no reply came, or not in time', 0) for half in halves}, store.retries()
        with Peer(lambda words: OK) as peer:
            store.revive()
            assert store.worked(len(halves), peer.port) == (len(halves), 0) and store.live() == 0


def nobody_there():
    """Nothing listens: the job raises, and runs when its program has come."""
    port = free_port()
    with Store() as store:
        store.client.push('Mail', 1)
        assert store.worked(1, port) == (0, 1)
        assert store.retries()[1,] == ('Unreachable', 'no program takes connections there', 0), store.retries()
        with Peer(lambda words: OK, port) as peer:
            store.revive()
            assert store.worked(1, port) == (1, 0) and len(peer.asked) == 1 and store.live() == 0


def a_hanging_run_ends():
    """A run that is silent for too long raises, and its late reply is none of the next run's."""
    def answer(words):
        if argument(words) == 1:
            time.sleep(2.5)
            return OK
        return b'-No not me\r\n'
    with Store() as store, Peer(answer) as peer:
        store.client.push('Mail', 1)
        store.client.push('Mail', 2)
        began = time.monotonic()
        assert store.worked(2, peer.port, 'Mail', '--relay-seconds', '1') == (0, 2)
        assert 1 <= time.monotonic() - began < 15
        assert store.retries() == {(1,): ('Lost', 'no reply came, or not in time', 0), (2,): ('No', 'not me', 0)}, store.retries()


def none_is_lost():
    """A program that dies, raises and answers, under workers one of whose processes is killed: in the end each job has returned."""
    count, tries = 300, collections.Counter()

    def answer(words):
        number = argument(words)
        tries[number] += 1
        if tries[number] == 1 and number % 5 == 0:
            return None
        return b'-Later again\r\n' if tries[number] == 1 and number % 7 == 0 else OK
    with Store() as store, Peer(answer) as peer:
        for number in range(count):
            store.client.push('Mail', number)
        killed = store.work(peer.port)
        wait_for(lambda: len(peer.asked) > count // 3, 'no runs')
        killed.kill()
        store.work(peer.port)
        wait_for(lambda: store.waiting() == 0, 'jobs wait')
        store.revive()

        def ended():
            store.revive()
            return store.live() == 0
        wait_for(ended, lambda: store.status(), 150)        # (what the killed process held comes back when its heartbeat's minute is over)
        assert set(tries) == set(range(count)) and all(tries[it] > 1 for it in range(0, count, 5)), tries


def lines_are_refused():
    """Values that can't be are told, with status 2."""
    for words, why in ((('--relay', 'here'), "--relay can't be 'here'"), (('--relay', 'a:0', '--relay-classes', 'A'), "--relay can't be 'a:0'"),
                       (('--relay', 'a:1'), "--relay-classes can't be ''"), (('--relay=a:1', '--relay-classes=A,A'), "--relay-classes can't be 'A,A'"),
                       (('--relay', 'a:1', '--relay-classes', 'A', '--relay-seconds', '0'), "--relay-seconds can't be '0'"),
                       (('--relay-classes', 'A'), 'there is no --relay'), (('--relay',), 'the last option has no value'),
                       (('--relay', 'a:1', '--relay-classes', 'A', '--port', '0'), "--port can't be '0'")):
        done = subprocess.run([PROGRAM, 'work', *words], stdin=subprocess.DEVNULL, capture_output=True, text=True, timeout=SECONDS)
        assert done.returncode == 2 and done.stdout == '' and why in done.stderr, (words, done)
    done = subprocess.run([PROGRAM, 'work', '--help'], stdin=subprocess.DEVNULL, capture_output=True, text=True, timeout=SECONDS)
    assert done.returncode == 0 and '--relay-seconds <COUNT>' in done.stdout, done


TESTS = [the_program_of_the_documents, what_is_asked, other_replies_raise, no_whole_reply_is_lost, nobody_there, a_hanging_run_ends, none_is_lost,
         lines_are_refused]


def main():
    failed, wanted = [], sys.argv[2:]
    for test in TESTS:
        if wanted and test.__name__ not in wanted:
            continue
        try:
            test()
        except (AssertionError, OSError, subprocess.TimeoutExpired, KeyError, sidekiq.Refused, sidekiq.Lost) as fault:
            failed.append(test.__name__)
            print('relay: %s: %s: %s' % (test.__name__, type(fault).__name__, fault))
    print('relay: %s' % ('FAILED: ' + ', '.join(failed) if failed else '%d tests' % len(wanted or TESTS)))
    return int(bool(failed))


if __name__ == '__main__':
    sys.exit(main())
