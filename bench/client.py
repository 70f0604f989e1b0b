"""What the benches share: the program, a pipe to it, a client over a connection, and texts of jobs."""
import hashlib
import os
import socket
import subprocess
import threading
import time
from pathlib import Path

PROGRAM = os.environ.get('SIDEKIQ') or str(Path(__file__).resolve().parent.parent / 'bin' / 'sidekiq')
HOST = '127.0.0.1'


def command(*words):
    return b'*%d\r\n' % len(words) + b''.join(b'$%d\r\n%s\r\n' % (len(it), it) for it in words)


def jid(number):
    """24 hexadecimal digits that differ from number to number, and are in no order, as Sidekiq's are: ids that ascend meet an index at one end only."""
    return hashlib.blake2b(b'%d' % number, digest_size=12).hexdigest().encode()


def job(number, more=b''):
    """A job of 118 bytes, with a member more before its class."""
    return b'{"args":[1],%s"class":"Note","created_at":1700000000000,"jid":"%s","queue":"default","retry":true}' % (more, jid(number))


class Pipe:
    """A running `sidekiq pipe`, to which commands are written piece by piece."""

    def __init__(self):
        self.process = subprocess.Popen([PROGRAM, 'pipe'], stdin=subprocess.PIPE, stdout=subprocess.PIPE, stderr=subprocess.DEVNULL, bufsize=0)
        self.replies = self.process.stdout

    def replied(self, commands, length):
        """So many bytes of replies to some commands, or what came before the end."""
        writer = threading.Thread(target=self.process.stdin.write, args=(commands,))
        writer.start()
        replies = bytearray()
        while len(replies) < length and (part := self.replies.read(length - len(replies))):
            replies += part
        writer.join()
        return bytes(replies)

    def seconds(self):
        """The time that its threads had a processor."""
        return sum(int(task.read_text().split()[0]) for task in Path('/proc/%d/task' % self.process.pid).glob('*/schedstat')) / 1e9

    def greatest(self):
        """The greatest memory that it ever held, in bytes. (What `wait4` tells of a child counts what Python held when it made the child.)"""
        line = next(it for it in Path('/proc/%d/status' % self.process.pid).read_text().splitlines() if it.startswith('VmHWM'))
        return 1024 * int(line.split()[1])

    def end(self):
        self.process.stdin.close()
        return self.process.wait()


class Client:
    """A connection to a server at this port, which is waited for."""

    def __init__(self, port):
        while True:
            try:
                self.socket = socket.create_connection((HOST, port), 30)
                break
            except OSError:
                time.sleep(0.05)
        self.socket.setsockopt(socket.IPPROTO_TCP, socket.TCP_NODELAY, 1)
        self.file = self.socket.makefile('rb')

    def ask(self, *words):
        """The reply's line, or the text of a bulk string."""
        self.socket.sendall(command(*words))
        line = self.file.readline()
        if line[:1] == b'$' and line != b'$-1\r\n':
            return self.file.read(int(line[1:]) + 2)[:-2]
        return line[:-2]

    def fill(self, jobs):
        """Pushes jobs into the queue, many at a time."""
        for first in range(0, len(jobs), 500):
            self.ask(b'LPUSH', b'queue:default', *jobs[first:first + 500])

    def length(self, key):
        return int(self.ask(b'LLEN', key)[1:])
