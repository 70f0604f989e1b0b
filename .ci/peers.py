#!/usr/bin/env python3
"""Lets `sidekiq work` ask a peer that answers as a test tells it, and looks at what comes, from whom and when.

    peers.py PROGRAM [NAME ..]

What no row can show, since it lies in threads and in time: that workers ask side by side, that the fault of one thread ends the others, and how
long a program pauses. Each test takes seconds. Plain sockets and Python alone. Status 1 where a test fails.
"""
import collections
import socket
import statistics
import subprocess
import sys
import threading
import time

PROGRAM = sys.argv[1]
HOST, SECONDS = '127.0.0.1', 60
JOB = b'{"args":[1],"class":"Note","jid":"n%d","queue":"default"}'
MOVED = b'*4\r\n:0\r\n:0\r\n*0\r\n*0\r\n'
ANSWERS = {b'SK.BEAT': b'+OK\r\n', b'SK.JOIN': b'+OK\r\n', b'SK.DUE': MOVED, b'SK.RESCUE': MOVED, b'SK.LEAD': b':1\r\n', b'LMOVE': b'$-1\r\n',
           b'SK.START': b'+OK\r\n', b'SK.OK': b'*0\r\n', b'LREM': b':1\r\n'}

# What came: at which second of the monotonic clock, over which connection, counted from 0, and the command's words.
Asked = collections.namedtuple('Asked', 'moment caller words')


class Peer:
    """A server for one test. `answer` gets what was asked and gives the reply, or None to close the connection."""

    def __init__(self, answer):
        self.answer, self.asked, self.lock = answer, [], threading.Lock()
        self.listener = socket.create_server((HOST, 0))
        self.port = self.listener.getsockname()[1]
        threading.Thread(target=self.listen, daemon=True).start()

    def __enter__(self):
        return self

    def __exit__(self, *fault):
        self.listener.close()

    def listen(self):
        for caller in range(1000):
            try:
                connection, _ = self.listener.accept()
            except OSError:
                return
            threading.Thread(target=self.serve, args=(caller, connection), daemon=True).start()

    def serve(self, caller, connection):
        with connection, connection.makefile('rb') as stream:
            try:
                for words in commands(stream):
                    with self.lock:
                        self.asked.append(Asked(time.monotonic(), caller, words))
                        seen = self.asked[-1]
                    reply = self.answer(self, seen)
                    if reply is None:
                        return connection.shutdown(socket.SHUT_RDWR)
                    connection.sendall(reply)
            except OSError:
                pass

    def named(self, name, caller=None):
        """What was asked by this name, of all callers or of one."""
        with self.lock:
            return [it for it in self.asked if it.words[0] == name and caller in (None, it.caller)]


def commands(stream):
    """The commands of a stream of RESP2, as lists of words."""
    for line in stream:
        words = []
        for _ in range(int(line[1:])):
            length = int(stream.readline()[1:])
            words.append(stream.read(length + 2)[:length])
        yield words


def usual(_, asked):
    """There are no jobs, and nothing is due."""
    return ANSWERS[asked.words[0]]


def worked(peer, *words):
    """The status and the output of `work` over the peer, and how many seconds it took."""
    began = time.monotonic()
    line = [PROGRAM, 'work', '--port', str(peer.port), *words]
    done = subprocess.run(line, stdin=subprocess.DEVNULL, capture_output=True, timeout=SECONDS)
    return done.returncode, done.stdout, time.monotonic() - began


def watched(peer, counts, *words):
    """Lets `work` run until so many of these were asked, each name with its count."""
    line = [PROGRAM, 'work', '--port', str(peer.port), *words]
    process = subprocess.Popen(line, stdin=subprocess.DEVNULL, stdout=subprocess.DEVNULL, stderr=subprocess.DEVNULL)
    end = time.monotonic() + SECONDS
    while time.monotonic() < end and any(len(peer.named(name)) < count for name, count in counts.items()):
        time.sleep(0.05)
    process.kill()
    process.wait()


def workers_fetch_side_by_side():
    """Four workers have each asked for a job before the first of them is answered."""
    together = threading.Barrier(4)

    def answer(peer, asked):
        if asked.words[0] == b'LMOVE':
            together.wait(SECONDS / 2)
        return usual(peer, asked)
    with Peer(answer) as peer:
        status, out, _ = worked(peer, '--threads', '4', '--turns', '1')
        assert (status, out) == (0, b'done 0 retried 0 buried 0 discarded 0\n'), (status, out)
        assert len({it.caller for it in peer.named(b'LMOVE')}) == 4


def a_fault_of_the_poller_ends_the_workers():
    """The peer hangs up on the poller at its second turn; the workers, which it goes on answering, end too."""
    def answer(peer, asked):
        return None if asked.words[0] == b'SK.BEAT' and len(peer.named(b'SK.BEAT')) == 2 else usual(peer, asked)
    with Peer(answer) as peer:
        status, out, seconds = worked(peer, '--threads', '4')
        assert (status, out) == (6, b'unreadable \n'), (status, out)
        assert seconds < 30 and len({it.caller for it in peer.named(b'SK.JOIN')}) == 4, seconds


def a_fault_of_a_worker_ends_the_others():
    """The peer hangs up on one worker at its third fetch; the other workers and the poller, which it goes on answering, end too."""
    def answer(peer, asked):
        return None if asked.caller == 2 and len(peer.named(b'LMOVE', 2)) == 3 else usual(peer, asked)
    with Peer(answer) as peer:
        status, out, seconds = worked(peer, '--threads', '4')
        assert (status, out) == (6, b'unreadable \n'), (status, out)
        assert seconds < 30, seconds


def a_lost_launch_is_followed_by_one_of_another_name():
    """The peer hangs up on the poller at its second turn. With patience `work` launches anew, under the name with a number behind it, and tells the jobs
    of both; without, that was all."""
    jobs = iter([JOB % n for n in range(2)])

    def answer(peer, asked):
        if asked.words[0] == b'SK.BEAT' and len(peer.named(b'SK.BEAT')) == 2:
            return None
        job = next(jobs, None) if asked.words[0] == b'LMOVE' else None
        return b'$%d\r\n%s\r\n' % (len(job), job) if job else usual(peer, asked)
    with Peer(answer) as peer:
        status, out, seconds = worked(peer, '--threads', '1', '--turns', '1', '--ident', 'one', '--patience', '1')
        assert (status, out) == (0, b'done 2 retried 0 buried 0 discarded 0\n'), (status, out)
        assert [it.words[1] for it in peer.named(b'SK.JOIN')] == [b'one', b'one-2'], peer.named(b'SK.JOIN')
        assert 11 <= seconds < 30, seconds


def gaps(asked):
    return [later.moment - it.moment for it, later in zip(asked, asked[1:])]


def pauses():
    """A worker that finds no job pauses for a second, the poller for five behind each turn. The gap in the middle tells: what a busy machine holds up
    makes one gap longer, and the next one shorter."""
    with Peer(usual) as peer:
        watched(peer, {b'LMOVE': 6, b'SK.BEAT': 3}, '--threads', '1')
        fetches, beats = gaps(peer.named(b'LMOVE')), gaps(peer.named(b'SK.BEAT'))
    assert len(fetches) >= 5 and 0.9 < statistics.median(fetches) < 2, fetches
    assert len(beats) >= 2 and 4.8 < statistics.median(beats) < 8, beats


def idle_workers_ask_one_after_another():
    """Four workers without a job ask a quarter of a second after one another. If they asked all at a time, three gaps of four would be next to none."""
    with Peer(usual) as peer:
        watched(peer, {b'LMOVE': 28}, '--threads', '4')
        waits = gaps(peer.named(b'LMOVE')[8:])
    assert len(waits) >= 19 and 0.1 < statistics.median(waits) < 0.6, waits


def no_pause_between_jobs():
    """A worker that did a job asks for the next one at once: with a pause behind each, 200 would take 200 seconds."""
    jobs = iter([JOB % n for n in range(200)])

    def answer(peer, asked):
        job = next(jobs, None) if asked.words[0] == b'LMOVE' else None
        return b'$%d\r\n%s\r\n' % (len(job), job) if job else usual(peer, asked)
    with Peer(answer) as peer:
        watched(peer, {b'LMOVE': 201}, '--threads', '1')
        fetches = peer.named(b'LMOVE')
    assert len(fetches) > 200 and fetches[200].moment - fetches[0].moment < 50, len(fetches)


TESTS = [workers_fetch_side_by_side, a_fault_of_the_poller_ends_the_workers, a_fault_of_a_worker_ends_the_others,
         a_lost_launch_is_followed_by_one_of_another_name, pauses, idle_workers_ask_one_after_another, no_pause_between_jobs]


def main():
    try:
        socket.create_server((HOST, 0)).close()
    except OSError as fault:
        print('peers: passed over, since there is no loopback here: %s' % fault)
        return 0
    failed, wanted = [], sys.argv[2:]
    for test in TESTS:
        if wanted and test.__name__ not in wanted:
            continue
        try:
            test()
        except (AssertionError, OSError, subprocess.TimeoutExpired) as fault:
            failed.append(test.__name__)
            print('peers: %s: %s' % (test.__name__, fault))
    print('peers: %s' % ('FAILED: ' + ', '.join(failed) if failed else '%d tests' % len(wanted or TESTS)))
    return int(bool(failed))


if __name__ == '__main__':
    sys.exit(main())
