#!/usr/bin/env python3
"""Runs bin/top in a terminal of its own, reads its screen, types its keys, and looks at what they did to the store.

    top.py PROGRAM [NAME ..]

The terminal is Python's pty, and an emulation of what xterm does with the bytes that bin/top writes. The server is that of .ci/server.py, and the jobs
in hands, for a retry and dead are made by a worker's commands. Plain sockets and Python alone. Status 1 where a test fails.
"""
import codecs
import fcntl
import os
import pathlib
import pty
import re
import signal
import struct
import subprocess
import sys
import termios
import threading
import time
import unicodedata

HOME = pathlib.Path(__file__).resolve().parent.parent
sys.path[:0] = [str(HOME / 'clients/python'), str(HOME / '.ci')]
sys.dont_write_bytecode = True
import sidekiq
from server import SECONDS, Server, wait_for

TOP = [sys.executable, str(HOME / 'bin/top')]
IDENT = 'host:1:0'
UP, DOWN, RETURN, CONTROL_C = '\x1bOA', '\x1bOB', '\r', '\x03'
TOKEN = re.compile(r'\x1b\[([?>]?)([\d;]*)([@-~])|\x1b[()](.)|\x1b([78=>DEM])|([\x00-\x1a\x1c-\x1f\x7f])|([^\x1b])', re.S)


class Screen:
    """What a terminal shows that gets these bytes. `other` is whether it shows its second screen, as programs that fill it have it do."""

    def __init__(self, height, width):
        self.decoder, self.rest, self.other, self.saved = codecs.getincrementaldecoder('utf-8')('replace'), '', False, (0, 0)
        self.resize(height, width)

    def resize(self, height, width):
        self.height, self.width, self.row, self.column, self.top, self.low = height, width, 0, 0, 0, height - 1
        self.cells = [[' '] * width for _ in range(height)]

    def lines(self):
        return [''.join(it).rstrip() for it in self.cells]

    def feed(self, data):
        text, at = self.rest + self.decoder.decode(data), 0
        while at < len(text):
            found = TOKEN.match(text, at)
            if not found:
                break                                      # (a sequence whose end is still to come)
            at = found.end()
            mark, numbers, end, _, escape, control, letter = found.groups()
            if end:
                self.sequence(mark, [int(it or 0) for it in numbers.split(';')], end)
            elif escape:
                self.escape(escape)
            elif control:
                self.control(control)
            elif letter:
                self.write(letter)
        self.rest = text[at:]

    def write(self, letter):
        self.last = letter
        if unicodedata.combining(letter):
            return
        size = 2 if unicodedata.east_asian_width(letter) in 'WF' else 1
        if self.column + size > self.width:
            self.column = 0
            self.down()
        self.cells[self.row][self.column:self.column + size] = [letter] + [''] * (size - 1)
        self.column += size

    def down(self):
        if self.row == self.low:
            self.scroll(1)
        else:
            self.row = min(self.row + 1, self.height - 1)

    def scroll(self, count, first=None):
        """Moves the lines of the region, or those below one of it, up so far, or down."""
        first = self.top if first is None else first
        part, blank = self.cells[first:self.low + 1], [' '] * self.width
        lines = [list(blank) for _ in range(min(abs(count), len(part)))]
        part = (part[len(lines):] + lines) if count > 0 else (lines + part[:len(part) - len(lines)])
        self.cells[first:self.low + 1] = part

    def control(self, letter):
        if letter == '\r':
            self.column = 0
        elif letter == '\n':
            self.down()
        elif letter == '\b':
            self.column = max(0, self.column - 1)
        elif letter == '\t':
            self.column = min(self.width - 1, self.column // 8 * 8 + 8)

    def escape(self, letter):
        if letter == '7':
            self.saved = self.row, self.column
        elif letter == '8':
            self.row, self.column = self.saved
        elif letter == 'M' and self.row == self.top:
            self.scroll(-1)
        elif letter == 'M':
            self.row = max(0, self.row - 1)
        elif letter in 'DE':
            self.column = 0 if letter == 'E' else self.column
            self.down()

    def sequence(self, mark, numbers, end):
        if mark:
            if 1049 in numbers and end in 'hl':
                self.other = end == 'h'
            return
        n, line = max(1, numbers[0]), self.cells[self.row]
        column = min(self.column, self.width - 1)
        if end in 'Hf':
            self.row, self.column = min(n, self.height) - 1, min(max(1, numbers[1] if len(numbers) > 1 else 1), self.width) - 1
        elif end in 'AB':
            self.row = max(0, min(self.height - 1, self.row + (n if end == 'B' else -n)))
        elif end in 'CD':
            self.column = max(0, min(self.width - 1, column + (n if end == 'C' else -n)))
        elif end in 'G`':
            self.column = min(n, self.width) - 1
        elif end == 'd':
            self.row = min(n, self.height) - 1
        elif end in 'JK':
            first, last = (0, column + 1) if numbers[0] == 1 else (0 if numbers[0] == 2 else column, self.width)
            line[first:last] = [' '] * (last - first)
            if end == 'J':
                for row in range(0 if numbers[0] else self.row + 1, self.row if numbers[0] == 1 else self.height):
                    self.cells[row] = [' '] * self.width
        elif end == 'X':
            line[column:column + n] = [' '] * min(n, self.width - column)
        elif end == 'P':
            line[column:] = line[column + n:] + [' '] * min(n, self.width - column)
        elif end == '@':
            line[column:] = ([' '] * n + line[column:])[:self.width - column]
        elif end in 'LM':
            self.scroll(n if end == 'M' else -n, self.row)
        elif end in 'ST':
            self.scroll(n if end == 'S' else -n)
        elif end == 'b':
            [self.write(self.last) for _ in range(n)]
        elif end == 'r':
            self.top, self.low = n - 1, (numbers[1] if len(numbers) > 1 else self.height) - 1
            self.row = self.column = 0
        else:
            assert end in 'mhltn', 'the emulation knows no sequence %r' % end


PROCESSES = []


class Terminal:
    """bin/top in a terminal of this size, at a server's port."""

    def __init__(self, number, height=24, width=80, kind='xterm', **more):
        self.screen, self.lock, self.said = Screen(height, width), threading.Lock(), b''
        self.master, self.slave = pty.openpty()
        self.size(height, width)
        self.before = termios.tcgetattr(self.slave)
        names = {it: text for it, text in os.environ.items() if it not in ('LINES', 'COLUMNS') and not it.startswith('LC_')}
        self.process = subprocess.Popen([*TOP, '--port', str(number)], stdin=self.slave, stdout=self.slave, stderr=self.slave, start_new_session=True,
                                        preexec_fn=self.take, env={**names, 'TERM': kind, 'LANG': 'C.UTF-8', **more})
        PROCESSES.append(self.process)
        threading.Thread(target=self.read, daemon=True).start()

    def take(self):
        """The process's terminal is this one, and it heeds Control-C, which those in a shell's background don't."""
        fcntl.ioctl(0, termios.TIOCSCTTY, 0)
        signal.signal(signal.SIGINT, signal.SIG_DFL)

    def size(self, height, width):
        fcntl.ioctl(self.master, termios.TIOCSWINSZ, struct.pack('4H', height, width, 0, 0))

    def resize(self, height, width):
        with self.lock:
            self.screen.resize(height, width)
        self.size(height, width)

    def read(self):
        while True:
            try:
                data = os.read(self.master, 65536)
            except OSError:
                return
            with self.lock:
                self.said += data
                self.screen.feed(data)

    def lines(self):
        with self.lock:
            return self.screen.lines()

    def text(self):
        return '\n'.join(self.lines())

    def type(self, keys):
        os.write(self.master, keys.encode())

    def shows(self, *texts):
        """Waits until each of these stands on the screen, a pattern each."""
        wait_for(lambda: all(re.search(it, self.text()) for it in texts), lambda: 'no %r on this screen:\n%s' % (texts, self.text()))

    def hides(self, text):
        wait_for(lambda: not re.search(text, self.text()), lambda: '%r on this screen:\n%s' % (text, self.text()))

    def answer(self, key, question, reply):
        """Types a key, waits for its question, and types the reply."""
        self.type(key)
        self.shows(question)
        self.type(reply)

    def end(self, keys='q'):
        """It ends by these keys, with status 0, and leaves the terminal as it was."""
        self.type(keys)
        status = self.process.wait(SECONDS)
        wait_for(lambda: not self.screen.other, 'the second screen stays')
        assert status == 0 and b'Traceback' not in self.said, (status, self.said[-2000:])
        assert termios.tcgetattr(self.slave) == self.before, 'the terminal stays as bin/top had it'
        [os.close(it) for it in (self.slave, self.master)]


class Shop:
    """A server with queues, a process that has a job in its hands, jobs that wait for a retry or for their time, and dead ones."""

    def __init__(self, server):
        self.client, self.server = sidekiq.Client(port=server.port), server
        self.client('FLUSHALL')
        self.beat()
        self.worker = sidekiq.Connection(port=server.port)
        self.worker('SK.JOIN', IDENT)
        self.retried = [self.failed('Mail', ['ada', 1]), self.failed('Mail', ['bob', 2]), self.failed('Report', ['eve', 3])]
        self.dead = [self.failed('Mail', ['zoe', 4], is_dead=True)]
        self.client.push_in(3600, 'Later', 5, queue='shop')
        for n in range(12):
            self.client.push('Note', n, queue='shop')
        self.client.push('Note', 0, queue='critical')
        self.held = self.fetch('Sleep', [60])

    def beat(self):
        self.client('SK.BEAT', IDENT)

    def fetch(self, name, args):
        self.client.push(name, *args, queue='made')
        text = self.worker('LMOVE', 'queue:made', 'sq:' + IDENT, 'RIGHT', 'LEFT')
        self.worker('SK.START', text)
        return text

    def failed(self, name, args, is_dead=False):
        """A job that has failed, as it stands in its set."""
        text = self.fetch(name, args)
        after = sidekiq.text_of(sidekiq.failed(sidekiq.head(text), 'NoPrinter', 'it is\nout of ink', sidekiq.millis()))
        self.worker('SK.FAIL', text)
        self.worker(*(('SK.BURY', after) if is_dead else ('ZADD', 'retry', sidekiq.score_of(time.time() + 600 + len(args)), after)))
        self.worker('LREM', 'sq:' + IDENT, 1, text)
        return after

    def end(self):
        self.worker.close()
        self.client.close()


def pages(server):
    """Each page shows what it is to show, in a usual terminal, in a small one, and in one that becomes small and large again."""
    shop = Shop(server)
    for height, width in ((24, 80), (5, 20), (50, 200)):
        top = Terminal(server.port, height, width)
        top.shows(r'(?m)^queue +jobs', r'(?m)^critical +1( |$)')
        if height < 24:
            top.type(DOWN * 9)
        top.shows(r'(?m)^shop +12( |$)')
        shop.beat()
        top.type('2')
        top.shows(r'1 in hands  host:1:0'[:width - 1], r'(?m)^ +\d+s  Sleep \[')
        shop.beat()
        top.type('3')
        if height < 24:
            top.shows(r'in \d+m\d\ds  Mail')
            top.type(DOWN * 2)
        else:
            top.shows(r'in \d+m\d\ds  Mail \["ada", 1\]', r'"bob", 2', r'1\. NoPrinter: it', r'\[3 retry\]', 'retries 3', 'processes 1', 'busy 1')
        top.shows(r'in \d+m\d\ds  Report')
        top.type('\t')
        top.shows(r'in \d+[hm]\d\d[ms]  Later')
        top.type('5')
        top.shows(r'for \d+s +Mail')
        top.end()
    top = Terminal(server.port)
    top.shows('processed 4', r'(?m)^shop +12')
    top.resize(5, 20)
    top.shows(r'(?m)^\[1/5 queues\]$', r'(?m)^critical +1$')
    top.resize(30, 100)
    top.shows('processed 4', r'(?m)^shop +12')
    top.end()
    shop.end()


def places(client):
    """How many jobs wait for a retry, for their time, and are dead."""
    return tuple(client('ZCARD', it) for it in ('retry', 'schedule', 'dead'))


def keys(server):
    """Find shows some, and the three keys change the store once they are answered by y, in a usual terminal and in a small one."""
    for height, width in ((24, 80), (5, 20)):
        shop = Shop(server)
        client = shop.client
        top = Terminal(server.port, height, width)
        top.type('3')
        top.shows('Mail')
        top.answer('/', '(?m)^find: _', 'bobx\x7f')
        top.shows('(?m)^find: bob_')
        top.type(RETURN)
        top.hides('Report|ada') if height == 24 else top.hides('Report')
        top.answer('d', r'deleted\? y:|delete\? y:', 'n' + RETURN)
        top.shows('nothing was done')
        assert places(client) == (3, 1, 1)
        top.answer('d', r'deleted\? y:|delete\? y:', 'y' + RETURN)
        top.shows('it is deleted')
        assert places(client) == (2, 1, 1) and shop.retried[1] not in client('ZRANGE', 'retry', 0, -1)
        top.answer('/', '(?m)^find: _', RETURN)
        top.shows('Report')
        top.type(DOWN + UP + DOWN)
        top.answer('k', r'killed\? y:|kill\? y:', 'y' + RETURN)
        top.shows('it is killed')
        assert places(client) == (1, 1, 2) and shop.retried[2] in client('ZRANGE', 'dead', 0, -1)
        top.answer('r', r'into its queue\? y:|run now\? y:', 'y' + RETURN)
        top.shows('it is put into its')
        assert places(client) == (0, 1, 2) and client('LRANGE', 'queue:made', 0, -1) == [shop.retried[0]]
        top.type('rkd4')
        top.answer('r', r'into its queue\? y:|run now\? y:', 'y' + RETURN)
        top.shows('it is put into its')
        assert places(client) == (0, 0, 2) and client('LLEN', 'queue:shop') == 13
        top.type('5')
        top.shows('zoe' if width == 80 else 'Mail')
        client('ZREM', 'dead', *client('ZRANGE', 'dead', 0, -1))
        top.hides('Mail')
        client('ZADD', 'schedule', 4_000_000_000, b'no job')
        top.type('4')
        top.shows('no jo')
        top.type('d')
        top.shows(r'deleted\? y:|delete\? y:')
        client('DEL', 'schedule')
        top.type('y' + RETURN)
        top.shows('it was there no lo')
        top.end()
        shop.end()


def found_far_away(server):
    """Find looks through more jobs than a page shows, and the page says how many it has left out."""
    client, later = sidekiq.Client(port=server.port), int(time.time()) + 86400
    client('FLUSHALL')
    for at in range(0, 3000, 1000):
        client('ZADD', 'schedule', *(it for n in range(at, at + 1000) for it in (later + n, sidekiq.text_of(sidekiq.draft('Far', ['<%d>' % n])))))
    top = Terminal(server.port)
    top.type('4')
    top.shows('"<0>"', '200 of 3000')
    top.answer('/', 'find: _', '<2718>' + RETURN)
    top.shows('"<2718>"', 'with "<2718>"')
    top.hides('"<0>"')
    top.answer('/', 'find: _', 'x\x1b')
    top.shows('"<2718>"', 'q end')
    top.end()
    client('DEL', 'schedule')


STRANGE = (b'no job\x1b[2J\x1b]0;title\x07', '{"jid":"a","class":"宽字符","args":["%s"],"queue":"q"}'.encode() % ('宽' * 100).encode(), b'[' * 100_000,
           b'{"error_class":[1],"retry_count":"many","error_message":"\\u001b[31m\\ud800\\u009b","args":7}', b'{"class":"\xff\xfe"}', '{"e\u0301":1}'.encode(),
           b'{"created_at":-1' + b'0' * 4000 + b'}', b'{"created_at":1e999,"args":[1e999]}', b'7')


def texts_of_any_making(server):
    """Whatever stands in a set or a queue is shown without harm, in each terminal, and as text."""
    client = sidekiq.Client(port=server.port)
    client('FLUSHALL')
    for n, text in enumerate(STRANGE):
        client('ZADD', 'schedule', 4_000_000_000 + n, text)
        client('LPUSH', 'queue:strange%d' % n, text)
    client('LPUSH', 'queue:two\u2028lines', STRANGE[-1])
    for kind, more in (('xterm', {}), ('vt100', {}), ('xterm', {'LC_ALL': 'C'}), ('linux', {'PYTHONUTF8': '0', 'LC_ALL': 'POSIX'})):
        top = Terminal(server.port, 24, 60, kind, **more)
        top.shows('queue.*jobs', '(?m)^strange0', r'(?m)^two')
        top.type('4')
        top.shows(r'no job\?')
        top.type(DOWN * 3)
        top.answer('d', r'y: _', RETURN)
        top.shows('nothing was done')
        top.type('\t\t\t2')
        top.shows(r'\[2')
        top.end()
    for encoding in ('utf-8', 'ascii'):
        done = subprocess.run([*TOP, '--port', str(server.port), '--once'], capture_output=True, timeout=SECONDS, stdin=subprocess.DEVNULL,
                              env={**os.environ, 'PYTHONIOENCODING': encoding})
        assert done.returncode == 0 and done.stderr == b'' and not re.search(rb'[\x00-\x09\x0b-\x1f\x7f]|\xc2[\x80-\x9f]', done.stdout), done
        assert all(it in done.stdout for it in (b'scheduled 9', b'\nschedule\n', b'no job?[2J?]0;title?', b'\nretry: none\n', b'\nstrange8 ')), done.stdout
    client('FLUSHALL')


def a_server_that_goes(_):
    """Where the server goes away, it is told in words, whatever is typed, and the view goes on when another one has come."""
    server = Server(4)
    shop = Shop(server)
    top = Terminal(server.port)
    top.type('3')
    top.shows('"ada"')
    shop.end()
    server.end()
    top.shows('(?m)^(the connection is lost|no server at)')
    top.shows('(?m)^no server at 127.0.0.1:%d' % server.port, '"ada"')
    top.answer('d', r'deleted\? y:', 'y' + RETURN)
    top.shows('(?m)^no server at 127.0.0.1')
    top.type('12345/')
    top.shows('find: _')
    top.type('ada' + RETURN)
    top.shows('(?m)^no server at 127.0.0.1')
    again = Server(4, port=server.port)
    sidekiq.Client(port=server.port).push('Note', queue='again')
    top.type('1')
    top.shows(r'(?m)^again +1', 'q end')
    top.hides('no server')
    again.process.send_signal(signal.SIGSTOP)
    top.shows('(?m)^the connection is lost: timed out')
    again.process.send_signal(signal.SIGCONT)
    top.shows('q end')
    top.end()
    again.end()


def ends(server):
    """Control-C ends it as q does, also in a question; and without a terminal, or at a wrong port, it says what is wrong."""
    client = sidekiq.Client(port=server.port)
    client('FLUSHALL')
    client('ZADD', 'schedule', 4_000_000_000, b'no job')
    for keys, shown in (('1', 'queue'), ('4', 'no job'), ('/', 'find: _')):
        top = Terminal(server.port)
        top.type(keys)
        top.shows(shown)
        top.end(CONTROL_C)
    client('DEL', 'schedule')
    for words, more, status, told in (([], {}, 1, 'no terminal'), (['--port', '70000'], {}, 2, 'invalid port'), (['--port', '0'], {}, 2, 'invalid port'),
                                      (['--once', '--port', '1'], {}, 1, 'no answer from 127.0.0.1:1'),
                                      (['--once', '--host', 'a' * 300], {}, 1, 'no answer from aaa')):
        done = subprocess.run([*TOP, *words], stdin=subprocess.DEVNULL, capture_output=True, text=True, timeout=SECONDS)
        assert done.returncode == status and told in done.stderr and 'Traceback' not in done.stderr and not done.stdout, done
    top = Terminal(server.port, kind='none-such')
    assert top.process.wait(SECONDS) == 1
    top.shows('the terminal does not do')
    assert b'Traceback' not in top.said, top.said


TESTS = [pages, keys, found_far_away, texts_of_any_making, a_server_that_goes, ends]


def main():
    try:
        import curses
        server = Server(64)
    except ImportError:
        print('top: passed over, since this Python has no curses')
        return 0
    except OSError as fault:
        print('top: passed over, since there is no loopback here: %s' % fault)
        return 0
    try:
        [os.close(it) for it in pty.openpty()]
    except OSError as fault:
        print('top: passed over, since there is no terminal here: %s' % fault)
        return server.end()[0]
    failed, wanted = [], sys.argv[2:]
    for test in TESTS:
        if wanted and test.__name__ not in wanted:
            continue
        try:
            test(server)
        except (AssertionError, OSError, sidekiq.Error, subprocess.SubprocessError) as fault:
            failed.append(test.__name__)
            print('top: %s: %s: %s' % (test.__name__, type(fault).__name__, fault))
    for process in PROCESSES:
        process.kill()
    if server.end()[0] != 0:
        failed.append('the server')
    print('top: %s' % ('FAILED: ' + ', '.join(failed) if failed else '%d tests' % len(wanted or TESTS)))
    return int(bool(failed))


if __name__ == '__main__':
    sys.exit(main())
