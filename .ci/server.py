#!/usr/bin/env python3
"""Talks to `sidekiq serve` over real connections, and compares each reply.

    server.py PROGRAM [TEST..]

What no row can show: pipelines, large replies, cut commands, clients that leave or never read, pages of a browser, 64 connections at a time, a port
that is taken, processes of push, work and status beside them, one of which is killed, want of descriptors, threads and stack, silent peers, used names,
a store in a file whose server is killed again and again, and the summary, whose acknowledgements must be what the clients counted. Plain sockets and
Python alone, but for one test, which uses what Redis brings where that is installed. Status 1 where anything differs.
"""
import atexit
import contextlib
import os
import random
import re
import resource
import shutil
import signal
import socket
import struct
import subprocess
import sys
import tempfile
import threading
import time

PROGRAM = sys.argv[1]
HOST, SECONDS = '127.0.0.1', 60
JOB = '{"jid":"%s","class":"Note","queue":"default","args":[%d]}'
FAILING = '{"jid":"failing-%d","class":"Fail","queue":"old","args":["%s"]}'


def free_port():
    """A port that is free, and that the system gives to no other connection meanwhile: none of those that it draws from by itself, where it tells them."""
    try:
        with open('/proc/sys/net/ipv4/ip_local_port_range') as it:
            low = int(it.read().split()[0])
    except (OSError, ValueError):
        low = 0
    for port in random.sample(range(10_000, low), 20) if low > 12_000 else []:
        with socket.socket() as it:
            try:
                it.bind((HOST, port))
                return port
            except OSError:
                pass
    with socket.socket() as it:
        it.bind((HOST, 0))
        return it.getsockname()[1]


def wait_for(holds, what, seconds=SECONDS):
    """Waits until this holds. `what` is told where it doesn't: a text, or a function that makes it."""
    end = time.time() + seconds
    while not holds():
        assert time.time() < end, what() if callable(what) else what
        time.sleep(0.01)


def least(limit, call, tries=3):
    """The least seconds of some calls, of as few as come below a limit: a busy machine may hold one of them up."""
    seconds = call()
    while seconds >= limit and tries > 1:
        seconds, tries = min(seconds, call()), tries - 1
    return seconds


def command(*words):
    words = [it if isinstance(it, bytes) else str(it).encode() for it in words]
    return b'*%d\r\n' % len(words) + b''.join(b'$%d\r\n%s\r\n' % (len(it), it) for it in words)


def bulk(text):
    return b'$%d\r\n%s\r\n' % (len(text), text)


class Server:
    """A server with this many loops, or as many as it takes by itself, and what it printed at its end."""

    def __init__(self, loops, *more, descriptors=None, port=None, log=subprocess.PIPE, limit=None, under=()):
        if descriptors:
            limit = lambda: resource.setrlimit(resource.RLIMIT_NOFILE, (descriptors, descriptors))
        for _ in range(3):                          # (somebody else may take the port before the server does)
            self.port = port or free_port()
            words = [*under, PROGRAM, 'serve', '--port', str(self.port), *(['--loops', str(loops)] if loops else []), *more]
            self.process = subprocess.Popen(words, stdin=subprocess.DEVNULL, stdout=subprocess.PIPE, stderr=log, preexec_fn=limit)
            atexit.register(self.process.kill)      # (where a test fails before it ends its server)
            if self.listens():
                return
        raise SystemExit('server: it does not listen')

    def listens(self):
        """Whether it takes a connection, before it ends. This one is the first of its sessions."""
        end = time.time() + SECONDS
        while self.process.poll() is None:
            try:
                socket.create_connection((HOST, self.port), SECONDS).close()
                return True
            except OSError:
                if time.time() > end:
                    self.process.kill()
                time.sleep(0.02)
        return False

    def client(self):
        return Client(self.port)

    def has_begun(self, loops):
        """Waits until each of so many loops serves: so many clients are answered at a time."""
        clients = [self.client() for _ in range(loops)]
        for it in clients:
            it.ask(b'+PONG\r\n', 'PING')
        for it in clients:
            it.socket.close()

    def end(self):
        """Shuts it down, and answers its status, its summary's two numbers, and its tally."""
        with self.client() as it:
            it.ask(b'+OK\r\n', 'SHUTDOWN')
        out, _ = self.process.communicate(timeout=SECONDS)
        summary = re.match(rb'sessions (\d+) acknowledged (\d+)\n', out)
        assert summary, (self.process.returncode, out)
        tally = dict((name, int(number)) for name, number in re.findall(rb'(?m)^(\w+) (\d+)$', out))
        return self.process.returncode, tuple(map(int, summary.groups())), tally


class Client:
    def __init__(self, port):
        self.socket = socket.create_connection((HOST, port), SECONDS)
        self.socket.settimeout(SECONDS)

    def __enter__(self):
        return self

    def __exit__(self, *fault):
        self.socket.close()

    def send(self, data):
        self.socket.sendall(data)

    def send_much(self):
        """Commands whose replies it doesn't read, until the server waits for it."""
        self.socket.settimeout(1)
        try:
            self.send(command('ECHO', b'x' * 1_000_000) * 50)
        except OSError:
            pass

    def take(self, count):
        """So many bytes."""
        found = bytearray()
        while len(found) < count:
            piece = self.socket.recv(min(count - len(found), 1 << 20))
            if not piece:
                break
            found += piece
        return bytes(found)

    def expect(self, wanted):
        found = self.take(len(wanted))
        if found != wanted:
            raise AssertionError('%r in place of %r' % (found[:200], wanted[:200]))

    def ask(self, wanted, *words):
        self.send(command(*words))
        self.expect(wanted)

    def length(self, key):
        self.send(command('LLEN', key))
        reply = self.take(1)
        while not reply.endswith(b'\n'):
            reply += self.take(1)
        return int(reply[1:])

    def is_over(self):
        return self.socket.recv(1) == b''


def pipeline(server):
    with server.client() as it:
        it.send(b''.join(command('ECHO', n) for n in range(1000)))
        it.expect(b''.join(bulk(b'%d' % n) for n in range(1000)))
        it.send(b'PING\r\nECHO inline\r\n')
        it.expect(b'+PONG\r\n$6\r\ninline\r\n')


def large_reply(server):
    words = [bytes([65 + n]) * 1_000_000 for n in range(10)]
    with server.client() as it:
        for n, word in enumerate(words, 1):
            it.ask(b':%d\r\n' % n, 'RPUSH', 'large', word)
        it.ask(b'*10\r\n' + b''.join(map(bulk, words)), 'LRANGE', 'large', 0, -1)
        it.ask(b':1\r\n', 'DEL', 'large')


def single_bytes(server):
    with server.client() as it:
        for at in command('ECHO', 'cut'):
            it.send(bytes([at]))
            time.sleep(0.001)
        it.expect(bulk(b'cut'))


def one_that_leaves(server):
    """Inside a command, and with replies that it doesn't read."""
    with server.client() as it:
        it.send(b'*2\r\n$4\r\nECHO\r\n$5\r\nha')
    with server.client() as it:
        it.send_much()
    with server.client() as it:
        it.ask(b'+PONG\r\n', 'PING')


def one_that_never_reads(server):
    """Its own thread waits for it. The others go on."""
    with server.client() as slow:
        slow.send_much()
        with server.client() as it:
            for _ in range(100):
                it.ask(b'+PONG\r\n', 'PING')
    with server.client() as it:
        it.ask(b'+PONG\r\n', 'PING')


def ends(server):
    """QUIT ends its connection, with what stands behind it, and a fault of the stream does, with its text."""
    with server.client() as it:
        it.send(command('QUIT') + command('SET', 'behind', 'quit'))
        it.expect(b'+OK\r\n')
        assert it.is_over()
    with server.client() as it:
        it.ask(b'$-1\r\n', 'GET', 'behind')
        it.send(b'*1\r\n:4\r\n')
        it.expect(b"-ERR Protocol error: expected '$', got ':'\r\n")
        assert it.is_over()


def own_words_of_a_pipe(server):
    with server.client() as it:
        for word in (('SK.AS', 1), ('SK.NOW', 1), ('SK.CUT', 1)):
            it.send(command(*word))
            assert it.take(5) == b'-ERR ', word
            while it.take(1) != b'\n':
                pass


PAGE = b'\r\n'.join([
    b'Host: 127.0.0.1:7419', b'User-Agent: Mozilla/5.0 (X11; Linux x86_64; rv:128.0) Gecko/20100101 Firefox/128.0', b'Accept: */*',
    b'Accept-Language: en-US,en;q=0.5', b'Content-Type: text/plain;charset=UTF-8', b'Origin: http://page.example', b'Connection: keep-alive', b'', b''])


def is_refused(server, *pieces):
    """Whether the server says nothing to these pieces, and leaves."""
    with server.client() as it:
        it.socket.setsockopt(socket.IPPROTO_TCP, socket.TCP_NODELAY, 1)
        try:
            for piece in pieces:
                it.send(piece)
                time.sleep(0.001)
            return it.take(1) == b''
        except (BrokenPipeError, ConnectionResetError):
            return True


def a_page_of_a_browser(server):
    """No request of HTTP does anything, wherever its first line is cut; each ends its connection, and no command of its body is done."""
    with server.client() as it:
        it.ask(b'+OK\r\n', 'SET', 'page', 'kept')
    bodies = [b'FLUSHALL\r\n', command('LPUSH', 'queue:page', JOB % ('page', 1)), b'SHUTDOWN\r\n']
    for line in (b'POST / HTTP/1.1\r\n', b'GET /?a=FLUSHALL HTTP/1.1\r\n', b'OPTIONS / HTTP/1.0\r\n'):
        for body in bodies:
            for cut in range(len(line) + 1):
                assert is_refused(server, line[:cut], line[cut:] + PAGE + body), (line, cut, body)
            assert is_refused(server, *(bytes([it]) for it in line), PAGE + body), (line, body)
    for line in (b'SET page HTTP/1.1\n', b'PRI * HTTP/2.0\r\n', b'POST /%s HTTP/1.1\r\n' % (b'a' * 65520)):
        assert is_refused(server, line + b'FLUSHALL\r\n'), line[:40]
    with server.client() as it:                     # (no inline command is as long as this target)
        it.send(b'POST /%s HTTP/1.1\r\nFLUSHALL\r\n' % (b'a' * 65530))
        try:
            assert it.take(1 << 16) in (b'', b'-ERR Protocol error: too big inline request\r\n')
        except ConnectionResetError:
            pass
    with server.client() as it:
        it.ask(bulk(b'kept'), 'GET', 'page')
        it.ask(b':0\r\n', 'LLEN', 'queue:page')


def lines_that_no_page_sends(server):
    """A first line that is no request of HTTP is done, wherever it is cut, and any later one and any word of an array is."""
    for line, reply in ((b'GET page\r\n', bulk(b'kept')), (b'ECHO HTTP/1.1\r\n', bulk(b'HTTP/1.1')), (b'\r\nECHO HTTP/1.10\n', bulk(b'HTTP/1.10'))):
        for cut in range(len(line) + 1):
            with server.client() as it:
                it.send(line[:cut])
                time.sleep(0.001)
                it.send(line[cut:])
                it.expect(reply)
    with server.client() as it:
        it.send(b'PING\r\nSET page HTTP/1.1\r\nGET page\r\n')
        it.expect(b'+PONG\r\n+OK\r\n' + bulk(b'HTTP/1.1'))
    with server.client() as it:
        it.ask(b'+OK\r\n', 'SET', 'page', 'GET / HTTP/1.1\r\n')
        it.ask(b':1\r\n', 'DEL', 'page')


def a_handshake_of_tls(server):
    """No handshake of TLS is answered, nor anything that stands in it or behind it: a page can choose some of its bytes."""
    with server.client() as it:
        it.ask(b'+OK\r\n', 'SET', 'page', 'kept')
    for body in (b'\r\nFLUSHALL\r\n', command('LPUSH', 'queue:page', JOB % ('page', 1)), b'\r\nSHUTDOWN\r\n'):
        hello = b'\x16\x03\x01\x02\x00\x01\x00\x01\xfc\x03\x03' + body
        for cut in range(len(hello) + 1):
            assert is_refused(server, hello[:cut], hello[cut:] + body), (hello, cut)
    with server.client() as it:
        it.ask(bulk(b'kept'), 'GET', 'page')
        it.ask(b':0\r\n', 'LLEN', 'queue:page')
        it.send(b'PING\r\n\x16\r\n')              # (as any later line it is only no command)
        it.expect(b'+PONG\r\n-ERR unknown command\r\n')
        it.ask(b':1\r\n', 'DEL', 'page')


def a_worker_that_dies(server):
    """A job that its worker held stands in the private list once the connection is gone, and nobody else fetched it."""
    job = JOB % ('died', 1)
    with server.client() as it:
        it.ask(b':1\r\n', 'LPUSH', 'queue:dying', job)
    with server.client() as worker:
        worker.ask(b'+OK\r\n', 'SK.BEAT', 'w1')
        worker.ask(b'+OK\r\n', 'SK.JOIN', 'w1')
        worker.ask(bulk(job.encode()), 'LMOVE', 'queue:dying', 'sq:w1', 'RIGHT', 'LEFT')
        worker.ask(b'+OK\r\n', 'SK.START', job)
    with server.client() as it:
        it.ask(b'*1\r\n' + bulk(job.encode()), 'LRANGE', 'sq:w1', 0, -1)
        it.ask(b'$-1\r\n', 'LMOVE', 'queue:dying', 'queue:other', 'RIGHT', 'LEFT')
    return 1


def many_at_once(server, clients=60, pushes=50):
    """So many connections at a time, each with its own jobs; every one of them is acknowledged once, and stands."""
    failures, gate = [], threading.Barrier(clients)

    def work(number):
        try:
            with server.client() as it:
                gate.wait(SECONDS)
                for n in range(pushes):
                    job = JOB % ('%d-%d' % (number, n), n)
                    it.send(command('LPUSH', 'queue:many', job))
                    reply = it.take(1)
                    while not reply.endswith(b'\n'):
                        reply += it.take(1)
                    assert reply.startswith(b':'), reply
        except Exception as fault:
            failures.append(fault)
    threads = [threading.Thread(target=work, args=(number,)) for number in range(clients)]
    [it.start() for it in threads]
    [it.join() for it in threads]
    assert not failures, failures[0]
    with server.client() as it:
        it.ask(b':%d\r\n' % (clients * pushes), 'LLEN', 'queue:many')
    return clients * pushes


def taken_port(server):
    ran = subprocess.run([PROGRAM, 'serve', '--port', str(server.port)], stdin=subprocess.DEVNULL, capture_output=True, timeout=SECONDS)
    assert ran.returncode == 6 and ran.stdout == b'', (ran.returncode, ran.stdout)
    assert b'port' in ran.stderr, ran.stderr


def ran(server, *words):
    """The output of the program with these words, at this server's port."""
    words = [PROGRAM, words[0], '--port', str(server.port), *words[1:]]
    done = subprocess.run(words, stdin=subprocess.DEVNULL, capture_output=True, timeout=SECONDS)
    assert done.returncode == 0, (words, done.returncode, done.stdout, done.stderr)
    return done.stdout.decode()


def processes(server):
    """Jobs of each class are pushed, run by sixteen workers with a turn each, and counted by the page."""
    jobs = ['Note'] * 13 + ['Fail', 'Flip', 'Other']
    for name in jobs:
        assert re.fullmatch(r'[0-9a-f]{24}\n', ran(server, 'push', '--queue', 'shop', name, '[1]'))
    assert ran(server, 'work', '--queues', 'shop', '--threads', '16', '--turns', '1') == 'done 13 retried 3 buried 0 discarded 0\n'
    assert re.match(r'processed 16\nfailed 3\n', ran(server, 'status')), ran(server, 'status')
    return len(jobs)


def processed(server):
    return int(re.match(r'processed (\d+)\n', ran(server, 'status'))[1])


def fetched_from(client, key, jobs):
    """Waits until one of so many jobs of a queue is fetched, as closely as can be: what fetches them is to be killed with some in its hands."""
    end = time.time() + SECONDS
    while client.length(key) == jobs:
        assert time.time() < end, 'nobody fetches from ' + key
        time.sleep(0.001)


def a_process_that_is_killed(server):
    """Each job was done, waits, or stands in the private list of the killed process. One that was done may still stand there, one for each worker."""
    before = processed(server)
    with server.client() as it:
        for n in range(500):
            it.ask(b':%d\r\n' % (n + 1), 'LPUSH', 'queue:killed', JOB % ('killed-%d' % n, n))
    words = [PROGRAM, 'work', '--port', str(server.port), '--ident', 'killed', '--queues', 'killed', '--prefetch', '16']
    process = subprocess.Popen(words, stdin=subprocess.DEVNULL, stdout=subprocess.DEVNULL, stderr=subprocess.DEVNULL)
    with server.client() as it:
        fetched_from(it, 'queue:killed', 500)
        process.kill()
        process.wait()

        def counts():
            return processed(server) - before, it.length('queue:killed'), it.length('sq:killed')

        def add_up():
            done, waiting, held = counts()
            return held <= 64 and 500 <= done + waiting + held <= 504
        wait_for(add_up, counts)                    # (the server may still be doing what the dead process sent)
    return 500


def address_space(process):
    """The bytes of address space that a process has."""
    with open('/proc/%d/statm' % process.pid) as sizes:
        return int(sizes.read().split()[0]) * resource.getpagesize()


def processor_time(process):
    """The seconds of processor time that a process has taken."""
    with open('/proc/%d/stat' % process.pid) as fields:
        fields = fields.read().rsplit(')', 1)[1].split()
    return (int(fields[11]) + int(fields[12])) / os.sysconf('SC_CLK_TCK')


def elsewhere(server):
    """The server listens at 127.0.0.1 alone, and the programs go to the host that they are told."""
    try:
        socket.create_connection(('127.0.0.2', server.port), 5).close()
        raise AssertionError('it listens at 127.0.0.2')
    except ConnectionRefusedError:
        pass
    for name, *words in (['push', 'Note', '[]'], ['status'], ['work', '--turns', '1']):
        line = [PROGRAM, name, '--host', '127.0.0.2', '--port', str(server.port), *words]
        done = subprocess.run(line, stdin=subprocess.DEVNULL, capture_output=True, timeout=SECONDS)
        assert (done.returncode, done.stdout) == (6, b''), (line, done)


def ids_and_moments(server):
    """Each push has an id of its own, and the moment at which it was made."""
    ids = {ran(server, 'push', '--queue', 'ids', 'Note', '[1]').strip() for _ in range(16)}
    assert len(ids) == 16, ids
    with server.client() as it:
        it.send(command('LRANGE', 'queue:ids', '0', '-1'))
        found = it.take(5)
        while found.count(b'"jid"') < 16 or not found.endswith(b'\r\n'):
            found += it.take(1)
    moments = [int(moment) for moment in re.findall(rb'"created_at":(\d+)', found)]
    assert len(moments) == 16 and all(abs(moment - 1000 * time.time()) < 60_000 for moment in moments), moments
    assert all(it.encode() in found for it in ids)
    return 16


def page(server):
    """The numbers of the page: name to count."""
    return {name: int(count) for name, count in re.findall(r'(?m)^(\w+) (\d+)$', ran(server, 'status'))}


def started_again(server):
    """Two processes of one line have two names: what the first held when it was killed comes back a minute later, while the second one beats."""
    before, jobs = page(server), 500
    with server.client() as it:
        for n in range(jobs):
            it.ask(b':%d\r\n' % (n + 1), 'LPUSH', 'queue:again', (JOB % ('again-%d' % n, n)).replace('default', 'again'))
    line = [PROGRAM, 'work', '--port', str(server.port), '--queues', 'again', '--prefetch', '16']
    first = subprocess.Popen(line, stdin=subprocess.DEVNULL, stdout=subprocess.DEVNULL, stderr=subprocess.PIPE)
    assert re.search(rb' working as \S+:%d:[0-9a-f]{12} for ' % first.pid, first.stderr.readline())
    with server.client() as it:
        fetched_from(it, 'queue:again', jobs)
    first.kill()
    first.wait()
    second = subprocess.Popen(line, stdin=subprocess.DEVNULL, stdout=subprocess.DEVNULL, stderr=subprocess.DEVNULL)
    end = time.time() + 60 + SECONDS                # (a heartbeat stands for a minute)
    try:
        while True:
            now = page(server)
            if now['busy'] <= before['busy'] and now['processed'] - before['processed'] >= jobs:
                break
            assert time.time() < end, (before, now)
            time.sleep(0.5)
    finally:
        second.kill()
        second.wait()
    assert now['processed'] - before['processed'] <= jobs + 4, (before, now)    # (a job that was done, and not released, runs again)
    return jobs


def defaults(_):
    """The two programs fit together without an option: the server takes the five connections of `work`, and others beside them."""
    server = Server(None)
    worker = subprocess.Popen([PROGRAM, 'work', '--port', str(server.port)], stdin=subprocess.DEVNULL, stdout=subprocess.DEVNULL, stderr=subprocess.DEVNULL)
    try:
        assert re.fullmatch(r'[0-9a-f]{24}\n', ran(server, 'push', 'Note', '[1]'))
        wait_for(lambda: page(server)['processed'] >= 1, lambda: page(server))
        clients = [server.client() for _ in range(50)]
        for it in clients:
            it.ask(b'+PONG\r\n', 'PING')
        for it in clients:
            it.socket.close()
    finally:
        worker.kill()
        worker.wait()
        status, _, _ = server.end()
    assert status == 0, status


def sixteen_commands_a_write(_, turns=200):
    """The commands of one write are answered in order, while another client sends as many; also with a FLUSHALL, a refusal, a long reply or a QUIT among
    them, and with more of them than the server does at once."""
    server = Server(4)
    with server.client() as one, server.client() as two:
        for turn in range(turns):
            for name, it in ((b'one', one), (b'two', two)):
                it.send(command('INCRBY', name, 1) * 16)
            for it in (one, two):
                it.expect(b''.join(b':%d\r\n' % (turn * 16 + n) for n in range(1, 17)))
        one.send(command('SET', 'k', 'v') + command('GET', 'k') + command('FLUSHALL') + command('GET', 'k') + command('SET', 'k', 'w') + command('GET', 'k'))
        one.expect(b'+OK\r\n' + bulk(b'v') + b'+OK\r\n$-1\r\n+OK\r\n' + bulk(b'w'))
        one.send(command('GET', 'k') + command('NONE') + command('INCRBY', 'k', 1) + command('GET', 'k'))
        one.expect(bulk(b'w') + b'-ERR unknown command\r\n')
        assert line_from(one).startswith(b'-ERR ')
        one.expect(bulk(b'w'))
        long = b'x' * 50_000
        one.send(command('SET', 'k', long) + command('GET', 'k') * 3 + command('RPUSH', 'list', 1, 2) + command('LRANGE', 'list', 0, -1) + command('PING'))
        one.expect(b'+OK\r\n' + bulk(long) * 3 + b':2\r\n*2\r\n' + bulk(b'1') + bulk(b'2') + b'+PONG\r\n')
        one.send(command('INCRBY', 'many', 1) * 1000)
        one.expect(b''.join(b':%d\r\n' % n for n in range(1, 1001)))
        two.send(command('SET', 'last', 1) + command('PING') + command('QUIT') + command('SET', 'last', 2) + command('PING'))
        two.expect(b'+OK\r\n+PONG\r\n+OK\r\n')
        assert two.is_over()
        one.ask(bulk(b'1'), 'GET', 'last')
    status, _, _ = server.end()
    assert status == 0, status


def a_reset_behind_the_loops(_):
    """A client that resets its connection while it waits for a loop is passed over."""
    server = Server(1)
    with server.client() as first:
        first.ask(b'+PONG\r\n', 'PING')
        with server.client() as waiting:
            waiting.socket.setsockopt(socket.SOL_SOCKET, socket.SO_LINGER, struct.pack('ii', 1, 0))
    with server.client() as it:
        it.ask(b'+PONG\r\n', 'PING')
    assert server.end()[0] == 0


def few_descriptors(_):
    """A server that runs short of descriptors serves as many as it can, takes no processor meanwhile, and goes on when some are free again."""
    server = Server(12, descriptors=16)
    clients = [server.client() for _ in range(32)]
    clients[0].ask(b'+PONG\r\n', 'PING')
    for it in clients:
        it.socket.close()
    with server.client() as it:
        it.ask(b'+PONG\r\n', 'PING')
    assert server.end()[0] == 0
    server = Server(64, descriptors=80)             # (each loop has one, so that some thirteen are left)
    clients = [server.client() for _ in range(40)]
    clients[0].ask(b'+PONG\r\n', 'PING')
    before = processor_time(server.process)
    time.sleep(3)
    taken = processor_time(server.process) - before
    assert taken < 0.5, taken
    for it in clients:
        it.socket.close()
    assert server.end()[0] == 0


def too_few_descriptors(_):
    """A server that has no descriptors for its loops says so, and not that its port is taken."""
    port = free_port()
    done = subprocess.run([PROGRAM, 'serve', '--port', str(port), '--loops', '64'], stdin=subprocess.DEVNULL, capture_output=True, timeout=SECONDS,
                          preexec_fn=lambda: resource.setrlimit(resource.RLIMIT_NOFILE, (40, 40)))
    assert (done.returncode, done.stdout) == (6, b''), done
    assert b'open files' in done.stderr and b'in use' not in done.stderr, done.stderr


def a_crowd_and_a_shutdown(_):
    """One of four says SHUTDOWN while more wait than the queue takes. The server ends once the others have left, and tells what it did. Each of the
    three other loops may take one more of the crowd, where its client leaves between the reply and the moment at which the loops are told."""
    server = Server(4)
    served = [server.client() for _ in range(4)]
    for it in served:
        it.ask(b'+PONG\r\n', 'PING')
    crowd = [socket.socket() for _ in range(700)]
    try:
        for it in crowd:
            it.setblocking(False)
            it.connect_ex((HOST, server.port))
        time.sleep(0.5)
        served[0].ask(b'+OK\r\n', 'SHUTDOWN')
        for it in served:
            it.socket.close()
        out, _ = server.process.communicate(timeout=SECONDS)
    except subprocess.TimeoutExpired:
        server.process.kill()
        raise AssertionError('it goes on')
    finally:
        for it in crowd:
            it.close()
    summary = re.match(rb'sessions (\d+) acknowledged 0\n', out)
    assert server.process.returncode == 0 and summary and 5 <= int(summary.group(1)) <= 8, (server.process.returncode, out)


def is_over_soon(process, seconds):
    """What the process wrote, or a fault where it goes on for so long."""
    try:
        return process.communicate(timeout=seconds)[0]
    except subprocess.TimeoutExpired:
        process.kill()
        raise AssertionError('it goes on')


def shut_down(server):
    """What it wrote at its end by SHUTDOWN, and how many seconds that took."""
    began = time.monotonic()
    with server.client() as it:
        it.ask(b'+OK\r\n', 'SHUTDOWN')
    out = is_over_soon(server.process, SECONDS)
    assert server.process.returncode == 0 and out.startswith(b'sessions '), (server.process.returncode, out)
    return out, time.monotonic() - began


def shut_down_among_busy_ones():
    server, wrong = Server(None), []

    def ask_on(begun):
        try:
            with server.client() as it:
                while True:
                    it.send(command('ECHO', 'x' * 1000) * 10)
                    found = it.take(10 * len(bulk(b'x' * 1000)))
                    if len(found) % len(bulk(b'x' * 1000)):
                        wrong.append(found[-100:])
                    if len(found) < 10 * len(bulk(b'x' * 1000)):
                        return
                    begun.set()
        except OSError:
            pass
    idle = [server.client() for _ in range(10)]
    for it in idle:
        it.ask(b'+PONG\r\n', 'PING')
    begun = [threading.Event() for _ in range(2)]
    busy = [threading.Thread(target=ask_on, args=(it,)) for it in begun]
    [it.start() for it in busy]
    assert all(it.wait(SECONDS) for it in begun)    # (so all are served when the server is told)
    out, seconds = shut_down(server)
    [it.join(SECONDS) for it in busy]
    assert not wrong and re.match(rb'sessions 1[34] ', out), (wrong, out)       # (the wait for the server may not have been begun)
    assert all(it.is_over() for it in idle)
    [it.socket.close() for it in idle]
    return seconds


def shut_down_beside_a_deaf_one():
    server = Server(4)
    with server.client() as slow:
        slow.send_much()
        return shut_down(server)[1]


def a_shutdown_among_clients(_):
    """SHUTDOWN ends the sessions of others behind their commands: ten idle ones and two that ask on and on at once, and one that doesn't take its
    replies after three seconds."""
    seconds = least(3, shut_down_among_busy_ones), least(6, shut_down_beside_a_deaf_one)
    assert seconds[0] < 3 and seconds[1] < 6, seconds


def a_shutdown_with_workers(_):
    """A server ends within seconds beside `sidekiq work`, which tells that its connection was lost; and so it does when both are started again."""
    for _again in range(2):
        server = Server(None)
        worker = subprocess.Popen([PROGRAM, 'work', '--port', str(server.port)], stdin=subprocess.DEVNULL, stdout=subprocess.DEVNULL,
                                  stderr=subprocess.DEVNULL)
        try:
            ran(server, 'push', 'Note', '[1]')
            wait_for(lambda: page(server)['processed'] >= 1, lambda: page(server))
            out, _seconds = shut_down(server)
            assert b'\nreturned 1\n' in out, out
            assert worker.wait(SECONDS) == 6, worker.returncode
        finally:
            worker.kill()
            worker.wait()


def first_line(stream, text, lines=8):
    """Reads lines until one has this text, and answers it."""
    for _ in range(lines):
        line = stream.readline()
        if text in line:
            return line
    raise AssertionError('no line with %r' % text)


def patient_work(port, seconds, *words):
    """`work` that waits so many seconds for its server."""
    line = [PROGRAM, 'work', '--port', str(port), '--patience', str(seconds), '--threads', '2', *words]
    # (who runs this in the background may have it ignore SIGINT, which its children would, too)
    heed = lambda: signal.signal(signal.SIGINT, signal.SIG_DFL)
    return subprocess.Popen(line, stdin=subprocess.DEVNULL, stdout=subprocess.PIPE, stderr=subprocess.PIPE, preexec_fn=heed)


def a_server_that_comes_back(_):
    """`work --patience` outlives its server's restart: it tells that the server is away and that it is back, and does the jobs of the new one."""
    server = Server(None)
    worker = patient_work(server.port, 60)
    try:
        for _again in range(2):
            ran(server, 'push', 'Note', '[1]')
            wait_for(lambda: page(server)['processed'] >= 1, lambda: page(server))
            shut_down(server)
            first_line(worker.stderr, b' is away, and is waited for, 60 seconds at most\n')
            server = Server(None, port=server.port)
            first_line(worker.stderr, b' is back\n', 1)
        ran(server, 'push', 'Note', '[1]')
        wait_for(lambda: page(server)['processed'] >= 1, lambda: page(server))
        assert worker.poll() is None, worker.returncode
    finally:
        worker.kill()
        worker.communicate()
    assert server.end()[0] == 0


def patience_that_ends(_):
    """Where no server comes in time, `work` ends as without patience: with status 6, behind the seconds that it waits."""
    began = time.time()
    worker = patient_work(free_port(), 3, '--turns', '1')
    out, told = worker.communicate(timeout=SECONDS)
    assert (worker.returncode, out) == (6, b''), (worker.returncode, out)
    assert time.time() - began >= 3 and told.count(b' is away') == 1 and b' is back' not in told, told


def a_signal_while_it_waits(_):
    """SIGTERM and SIGINT end `work` at once while it waits for its server."""
    for number in signal.SIGTERM, signal.SIGINT:
        worker = patient_work(free_port(), 86_400)
        try:
            first_line(worker.stderr, b' is away')
            worker.send_signal(number)
            assert worker.wait(5) == -number, worker.returncode
        finally:
            worker.kill()
            worker.communicate()


def descriptors_of(process):
    return len(os.listdir('/proc/%d/fd' % process.pid))


def connections_leave_no_descriptors(_, clients=10_000):
    """So many connections, one after another over eight loops, leave no descriptor behind, and no session is cut off by another's end."""
    server = Server(8)
    server.has_begun(8)
    with server.client() as it:
        it.ask(b'+PONG\r\n', 'PING')
        wait_for(lambda: descriptors_of(server.process) <= 3 + 8 + 1, lambda: descriptors_of(server.process))
        before = descriptors_of(server.process)     # (the standard streams, one for each loop, and this connection's)
        for n in range(clients):
            with server.client() as other:
                other.ask(b'+PONG\r\n', 'PING')
        it.ask(b'+PONG\r\n', 'PING')
        wait_for(lambda: descriptors_of(server.process) <= before, lambda: (before, descriptors_of(server.process)))
    assert server.end()[0] == 0


def threads_of(process):
    with open('/proc/%d/status' % process.pid) as it:
        return int(re.search(r'Threads:\s+(\d+)', it.read())[1])


def line_from(client):
    """A line, or nothing where the connection ended."""
    line = b''
    while not line.endswith(b'\n'):
        piece = client.take(1)
        if not piece:
            return b''
        line += piece
    return line


def said(client, *words):
    """The first line of the reply, or nothing where the connection ended."""
    try:
        client.send(command(*words))
        return line_from(client)
    except ConnectionError:
        return b''


def texts_of(client, *words):
    """The texts that are answered as an array."""
    line = said(client, *words)
    assert line[:1] == b'*', line
    return [client.take(int(line_from(client)[1:]) + 2)[:-2] for _ in range(int(line[1:]))]


def fill(server, clients):
    """Stores values of half a MiB, then halved until nothing fits, over all of these clients in turn. One that was cut off connects again."""
    size, stored, refused, turn = 1 << 19, 0, 0, 0
    while size:
        turn = (turn + 1) % len(clients)
        line = said(clients[turn], 'SET', 'fill:%d' % stored, b'x' * size)
        if line == b'+OK\r\n':
            stored, refused = stored + 1, 0
            continue
        if not line:
            clients[turn].socket.close()
            clients[turn] = server.client()
        refused += 1
        if refused >= 2 * len(clients):
            size, refused = size // 2, 0
    return stored


def memory_that_is_used_up(_):
    """Where nothing fits any more, short commands are still read, done and answered over each new connection, and what they free is used again. Of
    those that would keep some, one in hundreds isn't answered beside other work on the machine: its connection ends."""
    for loops in (4, 16):
        server = Server(loops)
        server.has_begun(loops)                     # (each loop makes its reserve as it starts)
        size = address_space(server.process) + (64 << 20)
        resource.prlimit(server.process.pid, resource.RLIMIT_AS, (size, size))
        clients = [server.client() for _ in range(4)]
        stored, unanswered = fill(server, clients), 0
        for it in clients:
            it.socket.close()
        for n in range(3 * loops):
            with server.client() as it:
                it.ask(b'+PONG\r\n', 'PING')
                it.ask(b':1\r\n', 'EXISTS', 'fill:0')
                line = said(it, 'SET', 'more:%d' % n, 'x' * 100)
                assert line in (b'-OOM want of memory\r\n', b'+OK\r\n', b''), line
                unanswered += not line
        with server.client() as it:
            it.ask(b':1\r\n', 'DEL', 'fill:0')
        for n in range(loops):
            with server.client() as it:
                it.ask(b'+OK\r\n', 'SET', 'small:%d' % n, 'x')
                it.ask(b'$1\r\nx\r\n', 'GET', 'small:%d' % n)
        status, (sessions, _), _ = server.end()
        assert status == 0 and stored > 64 and sessions > 4 * loops and unanswered <= 3, (status, stored, sessions, unanswered)


def a_stack_that_cant_grow(_):
    """A server that gets no further address space goes on, since no stack has to grow. Workers go on or find no memory, and no signal ends them."""
    server = Server(4)
    server.has_begun(4)
    worker = subprocess.Popen([PROGRAM, 'work', '--port', str(server.port), '--queues', 'stack', '--threads', '2'], stdin=subprocess.DEVNULL,
                              stdout=subprocess.DEVNULL, stderr=subprocess.DEVNULL)
    try:
        wait_for(lambda: page(server)['processes'] == 1 and threads_of(worker) >= 4, lambda: (page(server), threads_of(worker)))
        for process in (server.process, worker):
            size = address_space(process)
            resource.prlimit(process.pid, resource.RLIMIT_AS, (size, size))
        for n in range(8):
            with server.client() as it:
                it.ask(b'+PONG\r\n', 'PING')
                it.send(command('LPUSH', 'queue:stack', (JOB % ('stack-%d' % n, n)).replace('default', 'stack')))
                assert re.match(rb':[1-8]\r\n$', it.take(4))
        time.sleep(1.5)                             # (a worker that found no job pauses for a second)
        assert worker.poll() in (None, 5), worker.poll()
    finally:
        worker.kill()
        worker.wait()
    assert server.end()[0] == 0


def too_few_threads(_):
    """Programs that can't have the threads that they ask for say so, and do nothing."""
    def small():
        resource.setrlimit(resource.RLIMIT_STACK, (8 << 20, resource.getrlimit(resource.RLIMIT_STACK)[1]))
        resource.setrlimit(resource.RLIMIT_AS, (100 << 20, 100 << 20))
    port = str(free_port())
    for words in (['serve', '--port', port, '--loops', '64'], ['work', '--port', port, '--threads', '16'], ['drill', '1', '10', '16', '0']):
        done = subprocess.run([PROGRAM, *words], stdin=subprocess.DEVNULL, capture_output=True, timeout=SECONDS, preexec_fn=small)
        assert (done.returncode, done.stdout) == (6, b'') and b'threads' in done.stderr, (words, done)
    done = subprocess.run([PROGRAM, 'pipe'], input=b'PING\r\n', capture_output=True, timeout=SECONDS, preexec_fn=small)
    assert (done.returncode, done.stdout) == (0, b'+PONG\r\n'), done


def a_silent_peer(_):
    """push and status give up a server that takes their connection and says nothing."""
    with socket.socket() as peer:
        peer.bind((HOST, 0))
        peer.listen(8)                              # (the system takes the connections)
        port = str(peer.getsockname()[1])
        began = time.time()
        processes = [subprocess.Popen([PROGRAM, *words, '--port', port], stdin=subprocess.DEVNULL, stdout=subprocess.PIPE, stderr=subprocess.PIPE)
                     for words in (['push', 'Note', '[1]'], ['status'])]
        for it in processes:
            try:
                out, told = it.communicate(timeout=SECONDS)
            except subprocess.TimeoutExpired:
                raise AssertionError('it waits')
            finally:
                it.kill()
            assert it.returncode == 6 and told, (it.args, it.returncode, out, told)
        assert 8 < time.time() - began < 30, time.time() - began


def full_log(_):
    """A server whose notices can't be written serves, and ends well."""
    with open('/dev/full', 'w') as full:
        server = Server(None, log=full)
    status, _, _ = server.end()
    assert status == 0, status


def memory(process):
    """How many bytes of it stand in memory."""
    with open('/proc/%d/status' % process.pid) as it:
        return 1024 * int(re.search(r'VmRSS:\s+(\d+)', it.read())[1])


def old_texts_go(_, jobs=60, length=300_000):
    """A failed job's old text is given up: a server whose jobs have all failed needs no more memory than before. Each text has pages of its own here,
    so that what is freed goes back at once, whichever thread frees it."""
    server = Server(16, under=('env', 'MALLOC_MMAP_THRESHOLD_=131072'))
    with server.client() as it:
        for n in range(jobs):
            it.ask(b':%d\r\n' % (n + 1), 'LPUSH', 'queue:old', FAILING % (n, 'x' * length))
    before, end = memory(server.process), time.time() + SECONDS
    line = [PROGRAM, 'work', '--port', str(server.port), '--queues', 'old']
    worker = subprocess.Popen(line, stdin=subprocess.DEVNULL, stdout=subprocess.DEVNULL, stderr=subprocess.DEVNULL)
    while page(server)['retries'] < jobs and time.time() < end:
        time.sleep(0.05)
    worker.kill()
    worker.wait()
    after, retries = memory(server.process), page(server)['retries']
    assert (server.end()[0], retries) == (0, jobs), retries
    assert after - before < jobs * length // 2, (before, after)


def many_rows(_, rows=200_001, slice=1_000):
    """A server takes rows by the hundred thousand: its limit is 4,000,000."""
    server = Server(4)
    with server.client() as it:
        for at in range(0, rows, slice):
            jobs = [JOB % (n, n) for n in range(at, min(at + slice, rows))]
            it.ask(b':%d\r\n' % (at + len(jobs)), 'LPUSH', 'queue:rows', *jobs)
    status, (_, acknowledged), tally = server.end()
    assert (status, acknowledged, tally[b'live']) == (0, rows, rows), (status, acknowledged, tally)


def waits_beside(thread, client):
    """The seconds that each PING of a client waits for its reply, one after another, while a thread runs."""
    waits = []
    while thread.is_alive():
        begun = time.monotonic()
        client.ask(b'+PONG\r\n', 'PING')
        waits.append(time.monotonic() - begun)
    return waits


def deadlines_that_come_at_once(_, keys=5_000, at_once=500):
    """Keys whose deadlines come at once are seen by nobody from then on, though only some of them go with each command."""
    server = Server(2)
    with server.client() as it:
        for at in range(0, keys, at_once):
            it.send(b''.join(command('SET', 'brief:%d' % n, 'old', 'PX', 1_500 + n // 100) for n in range(at, at + at_once)))
            it.expect(b'+OK\r\n' * at_once)
        it.ask(b'+OK\r\n', 'SET', 'lasting', 'here')
        time.sleep(2)
        for reply, *words in ((b'$-1\r\n', 'GET', 'brief:4999'), (b':0\r\n', 'EXISTS', 'brief:4998'), (b':0\r\n', 'DEL', 'brief:4997'),
                              (b'+OK\r\n', 'SET', 'brief:4996', 'new', 'NX'), (b':1\r\n', 'INCRBY', 'brief:4995', 1), (b':-2\r\n', 'PTTL', 'brief:4994'),
                              (b'+none\r\n', 'TYPE', 'brief:4993'), (b':1\r\n', 'RPUSH', 'brief:4992', 'x'), (b':0\r\n', 'PEXPIRE', 'brief:4991', 9),
                              (b'$1\r\nx\r\n', 'LMOVE', 'brief:4992', 'brief:4990', 'LEFT', 'RIGHT'), (b':0\r\n', 'SK.GIVE', 'brief:4989', 'old')):
            it.ask(reply, *words)
        it.ask(b':3\r\n', 'EXISTS', *('brief:%d' % n for n in range(keys)))
        for reply, *words in ((bulk(b'new'), 'GET', 'brief:4996'), (bulk(b'1'), 'GET', 'brief:4995'), (b':1\r\n', 'LLEN', 'brief:4990'),
                              (bulk(b'here'), 'GET', 'lasting')):
            it.ask(reply, *words)
    assert server.end()[0] == 0


def large_values_are_deleted(_, elements=100_000, at_once=1_000):
    """A key whose large value is deleted is gone with all of it, and another may take its name at once."""
    server = Server(2)
    with server.client() as it:
        for _again in range(2):
            for at in range(0, elements, at_once):
                it.ask(b':%d\r\n' % at_once, 'SADD', 'large', *(b'member-%d' % n for n in range(at, at + at_once)))
            it.ask(b':1\r\n', 'DEL', 'large', 'large', 'absent')
            it.ask(b':0\r\n', 'EXISTS', 'large')
    assert server.end()[0] == 0


def longest_wait_beside_a_flushall(jobs=200_000, at_once=1_000):
    """How long another client's PING waits at most beside a FLUSHALL of so many jobs, as a part of the time that this takes. Then nothing is left."""
    server = Server(4)
    with server.client() as it, server.client() as other:
        for at in range(0, jobs, at_once):
            it.ask(b':%d\r\n' % (at + at_once), 'LPUSH', 'queue:rows', *(JOB % (n, n) for n in range(at, at + at_once)))
        flushing = threading.Thread(target=it.ask, args=(b'+OK\r\n', 'FLUSHALL'))
        begun = time.monotonic()
        flushing.start()
        waits = waits_beside(flushing, other)
        seconds = time.monotonic() - begun
        it.ask(b':0\r\n', 'LLEN', 'queue:rows')
        it.ask(b'*0\r\n', 'SMEMBERS', 'queues')
    status, (_, acknowledged), tally = server.end()
    assert (status, acknowledged, tally[b'live'], tally[b'deleted']) == (0, jobs, 0, jobs), (status, acknowledged, tally)
    return max(waits, default=seconds) / seconds


def others_are_answered_beside_a_flushall(_):
    """What a FLUSHALL took out is freed while others are answered: none of them waits for a third of the time that it takes."""
    part = least(1 / 3, longest_wait_beside_a_flushall)
    assert part < 1 / 3, part


def job_of(number, length):
    """A job whose text has so many bytes."""
    job = JOB % ('%08d' % number, 1)
    return job.replace('[1]', '["%s"]' % ('x' * (length - len(job) - 1)))


def full_store(_, length=390_000, limit=1 << 31):
    """A server takes 2 GiB of texts, to the byte, then refuses further ones, and takes them again once others are gone."""
    free = re.search(r'MemAvailable:\s+(\d+)', open('/proc/meminfo').read())
    if not free or int(free[1]) < 6 << 20:
        return print('server: full_store: passed over, since less than 6 GiB of memory are free')
    server, fit, left = Server(4), limit // length, limit % length
    with server.client() as it:
        for n in range(fit):
            it.ask(b':%d\r\n' % (n + 1), 'LPUSH', 'queue:full', job_of(n, length))
        it.ask(b'-SK full\r\n', 'LPUSH', 'queue:full', job_of(fit, left + 1))
        it.ask(b':%d\r\n' % (fit + 1), 'LPUSH', 'queue:full', job_of(fit, left))
        it.ask(b':1\r\n', 'DEL', 'queue:full')
        it.ask(b':1\r\n', 'LPUSH', 'queue:full', job_of(fit, left + 1))
    assert server.end()[0] == 0


def use_queues(server, first, count=15_000, at_once=500):
    """Pairs of queues, each of which has a row once: it is pushed to the one, moved to the other, and deleted there."""
    with server.client() as it:
        for start in range(first, first + count, at_once):
            for n in range(start, start + at_once):
                one, other = 'queue:one%d' % n, 'queue:other%d' % n
                it.send(command('LPUSH', one, 'x') + command('LMOVE', one, other, 'RIGHT', 'LEFT') + command('DEL', one, other))
            it.expect((b':1\r\n' + bulk(b'x') + b':1\r\n') * at_once)


def use_private_lists(server, first, count=300):
    """Processes, each of which fetches one job and is done with it."""
    for n in range(first, first + count):
        ident, job = 'host:%d:0' % n, (JOB % ('%024x' % n, n)).encode()
        with server.client() as it:
            it.send(command('LPUSH', 'queue:default', job) + command('SK.BEAT', ident) + command('SK.JOIN', ident)
                    + command('LMOVE', 'queue:default', 'sq:' + ident, 'RIGHT', 'LEFT') + command('SK.OK', job) + command('LREM', 'sq:' + ident, 1, job))
            it.expect(b':1\r\n+OK\r\n+OK\r\n' + bulk(job) + b'*0\r\n:1\r\n')


def names_used_once(_):
    """Queues and private lists that had a row once leave no memory behind, where others of other names follow them."""
    server = Server(2)
    for first in (0, 20_000):
        before = memory(server.process)
        use_queues(server, first)
        use_private_lists(server, first)
    grown = memory(server.process) - before
    assert grown < 2_000_000, 'it has grown by %d bytes' % grown
    assert server.end()[0] == 0


# A store that a file keeps.

HEAD = b'SKLOG001'


@contextlib.contextmanager
def a_file():
    """The path of a file that isn't there yet, in a folder of its own."""
    with tempfile.TemporaryDirectory() as room:
        yield os.path.join(room, 'jobs.log')


def bodies_of(path):
    """The bodies of a log's records."""
    with open(path, 'rb') as it:
        whole = it.read()
    at = len(HEAD)
    while whole[at] == 1:
        end = at + 5 + int.from_bytes(whole[at + 1:at + 5], 'big')
        yield whole[at + 5:end]
        at = end


def names_in(path):
    """The names of the commands in a log, one for each record: the last of its arrays is the command."""
    return [re.findall(rb'\*\d+\r\n\$\d+\r\n(\S+)\r\n', body)[-1].decode() for body in bodies_of(path)]


def write_log(path, commands):
    """A log of these commands of clients."""
    with open(path, 'wb') as it:
        it.write(HEAD)
        for words in commands:
            body = command('SK.AS', 0) + command('SK.NOW', 1_700_000_000_000) + command(*words)
            it.write(b'\1' + len(body).to_bytes(4, 'big') + body)
        it.write(b'\0')


def kill(server):
    server.process.kill()
    server.process.communicate()


def number_at(client, key):
    """The number at a key; 0 where there is none."""
    line = said(client, 'GET', key)
    return 0 if line == b'$-1\r\n' else int(client.take(int(line[1:]) + 2))


class Keeper:
    """A client whose commands are numbered: the odd ones count up, and the even ones put their number behind others. It writes some at a time, and keeps
    how many it has sent, and how many were answered."""

    times = 50                                      # (how often it writes in one visit)

    def __init__(self, name):
        self.count, self.rows = 'count:%s' % name, 'rows:%s' % name
        self.sent, self.answered, self.fault = 0, 0, None

    def step(self, number):
        return command('INCRBY', self.count, 1) if number % 2 else command('RPUSH', self.rows, number)

    def heed(self, client, replies):
        """Takes these replies, or what comes of them before the connection ends, and answers whether all came."""
        found = b''
        while len(found) < len(replies) and (piece := client.socket.recv(1 << 16)):
            self.answered += piece.count(b'\n')
            found += piece
        assert replies.startswith(found), (found[-100:], self.count)
        return found == replies

    def visit(self, port, batch, times):
        """Connects, sends so many commands at a time, so many times, and answers whether all were answered."""
        try:
            with Client(port) as it:
                for _ in range(times):
                    numbers = range(self.sent + 1, self.sent + batch + 1)
                    self.sent += batch
                    it.send(b''.join(map(self.step, numbers)))
                    if not self.heed(it, b''.join(b':%d\r\n' % ((n + 1) // 2) for n in numbers)):
                        return False
            return True
        except socket.timeout:
            raise AssertionError('no reply to ' + self.count)
        except OSError:
            return False

    def rest(self):
        """What it does between two visits, while others that wait have the connection."""

    def talk(self, port, batch):
        """Visits a server until it is gone."""
        try:
            self.rest()
            while self.visit(port, batch, self.times):
                self.rest()
        except AssertionError as fault:
            self.fault = fault

    def has_all(self, port, least=None):
        """Each command that was answered, or so many of them, stands, once and in order, and no more than were sent. It goes on behind them."""
        least = self.answered if least is None else least
        with Client(port) as it:
            counted, rows = number_at(it, self.count), it.length(self.rows)
            stands = counted + rows
            assert rows in (counted - 1, counted) and least <= stands <= self.sent, (least, counted, rows, self.sent)
            texts = b''.join(bulk(b'%d' % n) for n in range(2, 2 * rows + 1, 2))
            it.ask(b'*%d\r\n' % rows + texts, 'LRANGE', self.rows, 0, -1)
        self.sent = self.answered = stands


class Looker:
    """A client that reads the counters of others, and keeps the greatest numbers that it was told."""

    def __init__(self, keepers):
        self.seen, self.fault = {it.count: 0 for it in keepers}, None

    def talk(self, port, _batch):
        try:
            with Client(port) as it:
                while True:
                    for key, number in self.seen.items():
                        self.seen[key] = max(number, number_at(it, key))
        except (OSError, ValueError):               # (where the connection ends there is no number)
            pass

    def has_all(self, port):
        """No counter is behind what it was told."""
        with Client(port) as it:
            for key, number in self.seen.items():
                assert number_at(it, key) >= number, (key, number)


def talk_until(keepers, port, batch, over):
    """These clients talk side by side, until the server is gone, which this call brings about, or waits for."""
    threads = [threading.Thread(target=it.talk, args=(port, batch)) for it in keepers]
    [it.start() for it in threads]
    try:
        over()
    finally:
        [it.join(SECONDS) for it in threads]
    faults = [it.fault for it in keepers if it.fault]
    assert not faults, faults


def kill_among(server, keepers, batch, seconds):
    """Kills the server while these talk to it, for so many seconds."""
    def over():
        time.sleep(seconds)
        kill(server)
    talk_until(keepers, server.port, batch, over)


def many_clients_of_a_file(_):
    """Sixty clients, each of which waits for each reply, share the syncs of one file, and those that write on are done, too."""
    with a_file() as path:
        server = Server(None, '--log', path)
        pushed = many_at_once(server)
        pipeline(server)
        large_reply(server)
        status, (_, acknowledged), tally = server.end()
        assert (status, acknowledged, tally[b'live']) == (0, pushed, pushed), (status, acknowledged, tally)


def start_and_kill(path):
    """Starts a server on a file, and kills it while it starts, or soon after."""
    words = [PROGRAM, 'serve', '--port', str(free_port()), '--log', path]
    process = subprocess.Popen(words, stdin=subprocess.DEVNULL, stdout=subprocess.DEVNULL, stderr=subprocess.DEVNULL)
    time.sleep(random.uniform(0, 0.05))
    process.kill()
    process.wait()


def what_was_answered_outlives_a_kill(_):
    """A value, a counter, jobs in their queue and one in the hands of a worker are there after a kill and a new start, as they were answered."""
    first, second = ((JOB % ('kept-%d' % n, n)).encode() for n in range(2))
    with a_file() as path:
        server = Server(None, '--log', path)
        with server.client() as it, server.client() as worker:
            it.ask(b'+OK\r\n', 'SET', 'page', 'kept')
            it.ask(b':7\r\n', 'INCRBY', 'count', 7)
            it.ask(b':2\r\n', 'LPUSH', 'queue:default', first, second)
            worker.ask(b'+OK\r\n', 'SK.BEAT', 'w1')
            worker.ask(b'+OK\r\n', 'SK.JOIN', 'w1')
            worker.ask(bulk(first), 'LMOVE', 'queue:default', 'sq:w1', 'RIGHT', 'LEFT')
        kill(server)
        server = Server(None, '--log', path)
        with server.client() as it:
            it.ask(bulk(b'kept'), 'GET', 'page')
            it.ask(b':8\r\n', 'INCRBY', 'count', 1)
            it.ask(b'*1\r\n' + bulk(second), 'LRANGE', 'queue:default', 0, -1)
            it.ask(b'*1\r\n' + bulk(first), 'LRANGE', 'sq:w1', 0, -1)
        assert server.end()[0] == 0


def killed_again_and_again(_, kills=20, clients=8):
    """Clients write 16 commands at a time while their server is killed, twenty times, and once more while it starts: what was answered stands after each
    start, nothing stands twice, and nothing that was read is gone."""
    keepers = [Keeper(n) for n in range(clients)]
    talkers = [*keepers, Looker(keepers)]
    with a_file() as path:
        server = Server(None, '--log', path)
        for n in range(kills):
            kill_among(server, talkers, 16, 0.05 + 0.01 * n)
            start_and_kill(path)
            server = Server(None, '--log', path)
            for it in talkers:
                it.has_all(server.port)
        assert server.end()[0] == 0
    assert all(it.answered > 16 * kills for it in keepers), [it.answered for it in keepers]


def a_shutdown_keeps_all(_, jobs=200):
    """SHUTDOWN leaves all in the file: the next start has it, and tells how large the file is. The summary is as that of a server without one."""
    ends, wanted = [], [JOB % ('kept-%d' % n, n) for n in range(jobs)]
    with a_file() as path:
        for words in ([], ['--log', path]):
            server = Server(None, *words)
            with server.client() as it:
                it.ask(b':%d\r\n' % jobs, 'LPUSH', 'queue:default', *wanted)
            ends.append(server.end())
        (_, _, plain), (status, (_, acknowledged), tally) = ends
        assert (status, acknowledged, tally) == (0, jobs, plain) and tally[b'live'] == jobs, ends
        size = os.path.getsize(path)
        with open(path + '.told', 'w+b') as told:
            server = Server(None, '--log', path, log=told)
            with server.client() as it:
                it.ask(b':%d\r\n' % jobs, 'LLEN', 'queue:default')
            assert server.end()[0] == 0
            told.seek(0)
            lines = told.read()
    assert b' has %s bytes\n' % format(size, ',').encode() in lines and re.search(rb' read from it in \d+\.\d\d s; listening\n', lines), lines


def told_of(path):
    """What a server tells that starts on a file and is ended."""
    with open(path + '.told', 'w+b') as told:
        assert Server(None, '--log', path, log=told).end()[0] == 0
        told.seek(0)
        return told.read()


def records_that_are_read(_):
    """A server tells how many records it has read: none of a file that isn't there yet, and else as many as stand in it, however long these are, and
    wherever a piece of the file ends that it reads at a time."""
    with a_file() as path:
        assert b'\nsidekiq: 0 records were read from it in ' in told_of(path)
        for count, was in ((0, b'0 records were'), (1, b'1 record was'), (1_204, b'1,204 records were')):
            write_log(path, [('INCRBY', 'count', 1)] * count)
            told = told_of(path)
            assert b'\nsidekiq: %s read from it in ' % was in told, told
        lengths = [*range(100), *range(65_400, 65_600), *range(131_000, 131_072, 5), 1_000_000, 0]
        write_log(path, [('SET', 'long', b'\1' * length) for length in lengths])
        told = told_of(path)
        assert b'\nsidekiq: %d records were read from it in ' % len(lengths) in told, told


def refused_log(path, *more):
    """The status of a server over this file that ends at once, and what it tells."""
    done = subprocess.run([PROGRAM, 'serve', '--port', str(free_port()), '--log', path, *more], stdin=subprocess.DEVNULL, capture_output=True,
                          timeout=SECONDS)
    return done.returncode, done.stderr


def a_file_that_another_server_has(_):
    """A second server over a file ends with status 10 and says why. The first one goes on."""
    with a_file() as path:
        server = Server(None, '--log', path)
        status, told = refused_log(path)
        assert status == 10 and b' another process has it open\n' in told, (status, told)
        with server.client() as it:
            it.ask(b':1\r\n', 'INCRBY', 'count', 1)
        assert server.end()[0] == 0


def damaged(path):
    """The bytes of a log with one of them changed, in the middle."""
    server = Server(None, '--log', path)
    with server.client() as it:
        for n in range(10):
            it.ask(b'+OK\r\n', 'SET', 'page:%d' % n, n)
    assert server.end()[0] == 0
    with open(path, 'rb') as it:
        whole = it.read()
    at = whole.index(b'SK.AS', len(whole) // 2)
    return whole[:at] + b'X' + whole[at + 1:]


def files_that_are_no_logs(_):
    """A server over a file that is no log, or is damaged, ends with status 11, says so, and changes nothing. Where there can be no file its status is 10."""
    with a_file() as path:
        for content in (b'abc', damaged(path)):
            with open(path, 'wb') as it:
                it.write(content)
            status, told = refused_log(path)
            assert status == 11 and b' is not a log, or is damaged; nothing was written to it\n' in told, (status, told)
            with open(path, 'rb') as it:
                assert it.read() == content
        status, told = refused_log(os.path.join(path, 'none'))
        assert status == 10 and b"can't open" in told, (status, told)


def words_that_name_no_file(_):
    """Words that are no line of a server with a file are refused, and the one that is wrong is named."""
    for words, named in (([''], b"--log can't be ''"), (['none', 'more'], b"'more'"), (['none', '--loops', '65'], b"--loops can't be '65'"),
                         (['none', '--sync', '0'], b"--sync can't be '0'"), (['none', '--sync', '3600001'], b"--sync can't be '3600001'")):
        status, told = refused_log(*words)
        assert status == 2 and named in told, (words, status, told)


def told_at_a_full_disk(keepers, path, *more, size=200_000):
    """What a server over this file tells when it can't grow any more: it ends with status 10 beside these clients, and idle ones are let go."""
    def narrow():
        signal.signal(signal.SIGXFSZ, signal.SIG_IGN)
        resource.setrlimit(resource.RLIMIT_FSIZE, (size, size))
    server = Server(None, '--log', path, *more, limit=narrow)
    with server.client() as idle:
        idle.ask(b'+PONG\r\n', 'PING')
        talk_until(keepers, server.port, 16, lambda: server.process.wait(SECONDS))
        assert idle.is_over()
    out, told = server.process.communicate()
    assert (server.process.returncode, out) == (10, b''), (server.process.returncode, out)
    assert sum(it.answered for it in keepers) > 500, [it.answered for it in keepers]
    return told


def a_disk_that_fails(_):
    """Where the file can't grow any more the server ends and says so, and no reply came for what isn't in it."""
    keepers = [Keeper(n) for n in range(8)]
    with a_file() as path:
        told = told_at_a_full_disk(keepers, path)
        assert b" can't be read or written any more; no reply was sent for what isn't in it\n" in told, told
        server = Server(None, '--log', path)
        for it in keepers:
            it.has_all(server.port)
        assert server.end()[0] == 0


def can_trace():
    return shutil.which('strace') and subprocess.run(['strace', '-o', os.devnull, 'true'], stderr=subprocess.DEVNULL, timeout=SECONDS).returncode == 0


def traced(path):
    """The words that have the calls of a program told to a file: what it writes, stores and sends."""
    return ['strace', '-f', '-o', path + '.calls', '-e', 'trace=pwrite64,fdatasync,sendto']


def calls_of(path):
    with open(path + '.calls') as it:
        return re.findall(r'\b(pwrite64|fdatasync|sendto)\(', it.read())


def calls_for_pushes(path, pushes, *more):
    """The calls of a server over this file while one client pushes so many jobs, one after another, and of its end."""
    server = Server(1, '--log', path, *more, under=traced(path))
    try:
        with server.client() as it:
            for n in range(1, pushes + 1):
                it.ask(b':%d\r\n' % n, 'LPUSH', 'queue:default', JOB % (n, n))
    finally:
        status = server.end()[0]
    assert status == 0, status
    return calls_of(path)


def replies_wait_for_the_device(_, pushes=20):
    """No reply is sent while something that was written to the file isn't on its device: so the server asks the system, as `strace` shows where it can."""
    if not can_trace():
        return print('server: replies_wait_for_the_device: passed over, since strace is not installed, or may not trace')
    with a_file() as path:
        calls = calls_for_pushes(path, pushes)
    behind = [before for before, call in zip(calls, calls[1:]) if call == 'sendto']
    assert set(behind) == {'fdatasync'} and calls.count('pwrite64') >= pushes, calls[:50]
    assert len(behind) == pushes + 1, calls[:50]


# The same where replies don't wait for the file, which has what was done every so many milliseconds.

def replies_that_dont_wait(_, pushes=40):
    """With `--sync 200` replies are sent without a sync before each, and what they tell is stored all the same."""
    if not can_trace():
        return print('server: replies_that_dont_wait: passed over, since strace is not installed, or may not trace')
    with a_file() as path:
        calls = calls_for_pushes(path, pushes, '--sync', '200')
        assert names_in(path).count('LPUSH') == pushes, names_in(path)
    sends = [at for at, call in enumerate(calls) if call == 'sendto']
    assert len(sends) == pushes + 1, calls[:100]
    assert calls[sends[0]:sends[pushes - 1]].count('fdatasync') < pushes // 2, calls[:100]


def a_pause_stores_all(_, clients=8):
    """A second behind the last reply all that was answered is in the file of a server with `--sync 200`: a kill takes nothing of it."""
    keepers = [Keeper(n) for n in range(clients)]
    with a_file() as path:
        server = Server(None, '--log', path, '--sync', '200')
        threads = [threading.Thread(target=it.visit, args=(server.port, 16, 20)) for it in keepers]
        [it.start() for it in threads]
        [it.join(SECONDS) for it in threads]
        assert all(it.answered == 16 * 20 for it in keepers), [it.answered for it in keepers]
        time.sleep(1)
        kill(server)
        server = Server(None, '--log', path)
        for it in keepers:
            it.has_all(server.port)
        assert server.end()[0] == 0


def answered_before(server, keepers, seconds, more):
    """Kills the server among these clients, so many seconds behind a moment that is as many more behind its start. Answers what each was answered then."""
    told = []

    def over():
        time.sleep(seconds)
        told.extend(it.answered for it in keepers)
        time.sleep(more)
        kill(server)
    talk_until(keepers, server.port, 16, over)
    return told


def a_beginning_outlives_a_kill(_, kills=10, clients=8):
    """A kill under load leaves a file that opens, with a beginning of what each client sent, in order and without holes. With `--sync 200` it has what was
    answered a second before."""
    keepers = [Keeper(n) for n in range(clients)]
    with a_file() as path:
        server = Server(None, '--log', path, '--sync', '200')
        for n in range(kills):
            told = answered_before(server, keepers, random.uniform(0, 0.3), 1 if n % 5 == 0 else 0)
            server = Server(None, '--log', path, '--sync', '200')
            for it, least in zip(keepers, told):
                it.has_all(server.port, least if n % 5 == 0 else 0)
        assert server.end()[0] == 0


def a_shutdown_stores_all(_, jobs=200):
    """SHUTDOWN leaves all in the file, also where an hour would have passed before it was stored. The server tells what a crash would have cost."""
    with a_file() as path, open(path + '.told', 'w+b') as told:
        server = Server(None, '--log', path, '--sync', '3600000', log=told)
        with server.client() as it:
            it.ask(b':%d\r\n' % jobs, 'LPUSH', 'queue:default', *(JOB % (n, n) for n in range(jobs)))
        assert server.end()[0] == 0
        told.seek(0)
        assert b' a crash loses at most what was answered in the last 3600000 milliseconds, and while the disk is written\n' in told.read()
        server = Server(None, '--log', path)
        with server.client() as it:
            it.ask(b':%d\r\n' % jobs, 'LLEN', 'queue:default')
        assert server.end()[0] == 0


def a_disk_that_fails_behind_replies(_):
    """Where the file can't grow any more a server whose replies don't wait ends, too, and says what may be lost. The file has a beginning of what each
    client sent."""
    keepers = [Keeper(n) for n in range(8)]
    with a_file() as path:
        told = told_at_a_full_disk(keepers, path, '--sync', '50')
        assert b" can't be read or written any more; what was answered since it was last written may not be in it\n" in told, told
        server = Server(None, '--log', path)
        for it in keepers:
            it.has_all(server.port, 0)
        assert server.end()[0] == 0


NARROWED = 'import os, resource, sys; resource.setrlimit(resource.RLIMIT_FSIZE, (50_000, 50_000)); os.execv(sys.argv[1], sys.argv[1:])'


def no_reply_behind_a_failed_write(_):
    """Once a write has failed only the few replies are sent that come before the server learns of it, and not those of the 50 milliseconds up to its
    next write. `strace` shows it, where it can, and holds the thread that wrote for a moment, so a fast loop gets in two or three. The server has one."""
    if not can_trace():
        return print('server: no_reply_behind_a_failed_write: passed over, since strace is not installed, or may not trace')
    with a_file() as path:
        # (Python ignores the signal that says that a file can't grow, and so does what it becomes)
        server = Server(1, '--log', path, '--sync', '50', under=[*traced(path), sys.executable, '-c', NARROWED])
        talk_until([Keeper(0)], server.port, 16, lambda: server.process.wait(SECONDS))
        with open(path + '.calls') as it:
            before, failed, behind = it.read().partition('EFBIG')
    assert server.process.returncode == 10 and 'sendto(' in before and failed, (server.process.returncode, before[-1000:])
    assert behind.count('sendto(') <= 10, behind[:1000]


def idle_workers_log_little(_, seconds=10):
    """Workers and a poller that find nothing add nothing to the file but heartbeats, and the lease of the one that leads."""
    with a_file() as path:
        server = Server(None, '--log', path)
        line = [PROGRAM, 'work', '--port', str(server.port), '--threads', '2', '0 3 * * * Note default']
        worker = subprocess.Popen(line, stdin=subprocess.DEVNULL, stdout=subprocess.DEVNULL, stderr=subprocess.DEVNULL)
        try:
            wait_for(lambda: page(server)['processes'] == 1, lambda: page(server))
            time.sleep(3)                           # (until each worker has joined, and the first slot of the cron is done)
            before = len(names_in(path))
            time.sleep(seconds)
            added = names_in(path)[before:]
            assert worker.poll() is None, worker.returncode
        finally:
            worker.kill()
            worker.wait()
        assert server.end()[0] == 0
    assert set(added) == {'SK.BEAT', 'SK.LEAD'} and len(added) <= 2 * (seconds // 5 + 1), added


def clients_of_redis(_):
    """What Redis brings talks to a server over a file, where it is installed."""
    if not (shutil.which('redis-cli') and shutil.which('redis-benchmark')):
        return print('server: clients_of_redis: passed over, since redis-cli and redis-benchmark are not installed')
    with a_file() as path:
        server = Server(None, '--log', path)
        port = ['-p', str(server.port)]
        out = subprocess.run(['redis-cli', *port, 'RPUSH', 'rows', 'one', 'two'], capture_output=True, timeout=SECONDS).stdout
        assert out == b'2\n', out
        done = subprocess.run(['redis-benchmark', *port, '-n', '3200', '-c', '20', '-P', '16', '-q', 'LPUSH', 'list', 'row'], capture_output=True,
                              timeout=SECONDS)
        assert done.returncode == 0 and b'requests per second' in done.stdout, done
        kill(server)
        server = Server(None, '--log', path)
        out = subprocess.run(['redis-cli', *port[:1], str(server.port)], input=b'LRANGE rows 0 -1\nLLEN list\nSHUTDOWN\n', capture_output=True,
                             timeout=SECONDS).stdout
        assert out.startswith(b'one\ntwo\n3200\n') and server.process.wait(SECONDS) == 0, out


class Pusher:
    """A client that pushes one job after another, to whatever server is at its port, and keeps the numbers of the pushes that were answered. Between two
    of them it rests for so many seconds."""

    reply = b':'                                    # (how a push is answered that is taken)

    def __init__(self, port, name='pushed', pace=0):
        self.port, self.name, self.pace, self.sent, self.numbers, self.ended = port, name, pace, 0, [], False
        self.thread = threading.Thread(target=self.push_on)
        self.thread.start()

    @property
    def answered(self):
        return len(self.numbers)

    def words(self, number):
        return 'LPUSH', 'queue:default', JOB % ('%s-%d' % (self.name, number), number)

    def push(self, client):
        """Whether the next push was taken."""
        self.sent += 1
        taken = said(client, *self.words(self.sent)).startswith(self.reply)
        if taken:
            self.numbers.append(self.sent)
        return taken

    def push_on(self):
        while not self.ended:
            try:
                with Client(self.port) as it:
                    while not self.ended and self.push(it):
                        time.sleep(random.uniform(0, 2 * self.pace))
            except OSError:
                time.sleep(0.01)

    def end(self):
        self.ended = True
        self.thread.join(SECONDS)


def killed_beside(worker, server, path):
    """Kills the server when some jobs more are done, and answers the one that is started then, which the worker finds."""
    before = processed(server)
    wait_for(lambda: processed(server) >= before + 20, lambda: page(server))
    kill(server)
    first_line(worker.stderr, b' is away')
    server = Server(None, '--log', path, port=server.port)
    first_line(worker.stderr, b' is back\n', 1)
    return server


def workers_outlive_kills(_, kills=5):
    """`work --patience` beside a server that is killed five times: each job whose push was answered is done at the end, none is left, and none came
    from nowhere. What the workers held at a kill comes back a minute later."""
    with a_file() as path:
        server = Server(None, '--log', path)
        worker, pusher = patient_work(server.port, 60), Pusher(server.port)
        try:
            for _again in range(kills):
                server = killed_beside(worker, server, path)
            pusher.end()
            wait_for(lambda: page(server)['live'] == 0, lambda: page(server), 60 + SECONDS)
            assert worker.poll() is None, worker.returncode
        finally:
            pusher.end()
            worker.kill()
            worker.communicate()
        status, _numbers, tally = server.end()
    assert status == 0 and pusher.answered <= tally[b'outside'] <= pusher.sent, (status, pusher.answered, tally, pusher.sent)
    assert tally[b'returned'] == tally[b'outside'], tally


TESTS = [pipeline, large_reply, single_bytes, one_that_leaves, one_that_never_reads, ends, own_words_of_a_pipe, a_page_of_a_browser,
         lines_that_no_page_sends, a_handshake_of_tls, a_worker_that_dies, many_at_once, taken_port, elsewhere, ids_and_moments, processes,
         started_again, a_process_that_is_killed, defaults, sixteen_commands_a_write, a_reset_behind_the_loops, few_descriptors,
         too_few_descriptors, a_crowd_and_a_shutdown, a_shutdown_among_clients, a_shutdown_with_workers, a_server_that_comes_back,
         patience_that_ends, a_signal_while_it_waits, connections_leave_no_descriptors, memory_that_is_used_up,
         a_stack_that_cant_grow, too_few_threads, a_silent_peer, full_log, old_texts_go, many_rows, others_are_answered_beside_a_flushall,
         deadlines_that_come_at_once, large_values_are_deleted, full_store, names_used_once,
         many_clients_of_a_file, what_was_answered_outlives_a_kill, killed_again_and_again, a_shutdown_keeps_all, records_that_are_read,
         a_file_that_another_server_has, files_that_are_no_logs, words_that_name_no_file, a_disk_that_fails, replies_wait_for_the_device,
         replies_that_dont_wait, a_pause_stores_all, a_beginning_outlives_a_kill, a_shutdown_stores_all, a_disk_that_fails_behind_replies,
         no_reply_behind_a_failed_write, idle_workers_log_little, clients_of_redis, workers_outlive_kills]


def main():
    try:
        free_port()
    except OSError as fault:
        print('server: passed over, since there is no loopback here: %s' % fault)
        return 0
    tests = [it for it in TESTS if it.__name__ in sys.argv[2:]] if sys.argv[2:] else TESTS
    server, pushed, failed = Server(64), 0, []
    for test in tests:
        try:
            pushed += test(server) or 0
        except (AssertionError, OSError, subprocess.SubprocessError) as fault:
            failed.append(test.__name__)
            print('server: %s: %s' % (test.__name__, fault))
    status, (_, acknowledged), tally = server.end()
    if not failed and (status, acknowledged, tally.get(b'outside')) != (0, pushed, pushed):
        failed.append('summary')
        print('server: status %d, acknowledged %d, outside %s, where %d were pushed' % (status, acknowledged, tally.get(b'outside'), pushed))
    bound = Server(1, '--sessions', '2')            # (it waited for the server by a connection: that was the first of two)
    with bound.client() as it:
        it.ask(b'+PONG\r\n', 'PING')
    out, _ = bound.process.communicate(timeout=SECONDS)
    if not out.startswith(b'sessions 2 acknowledged 0\n'):
        failed.append('sessions')
        print('server: --sessions 2: %r' % out[:80])
    print('server: %s' % ('FAILED: ' + ', '.join(failed) if failed else '%d tests, %d rows pushed and acknowledged' % (len(tests) + 2, pushed)))
    return int(bool(failed))


if __name__ == '__main__':
    sys.exit(main())
