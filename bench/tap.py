"""What stands between clients and a server, and notes each request with its reply and both times. For the benches beside it; it does nothing alone."""
import socket
import subprocess
import threading
import time


def free_port():
    with socket.socket() as it:
        it.bind(('127.0.0.1', 0))
        return it.getsockname()[1]


def serve(program):
    """A server that answers, and its port."""
    port = free_port()
    server = subprocess.Popen([program, 'serve', '--port', str(port)], stdout=subprocess.DEVNULL, stderr=subprocess.DEVNULL)
    while server.poll() is None:
        try:
            with socket.create_connection(('127.0.0.1', port), 1) as it:
                it.sendall(b'PING\r\n')
                if it.recv(16) == b'+PONG\r\n':
                    return server, port
        except OSError:
            time.sleep(0.05)
    raise SystemExit('the server did not start')


def is_whole(request):
    """Whether bytes are an array of words, whole."""
    head, _, rest = request.partition(b'\r\n')
    return head[:1] == b'*' and rest.count(b'\r\n') >= 2 * int(head[1:])


class Tap:
    """Hands on one request at a time on each connection. `noted` has (words, when it came, reply, when that came) of each; the reply of a request whose
    client or server went away is None."""

    def __init__(self, server):
        self.server, self.noted, self.lock = server, [], threading.Lock()
        self.listener = socket.create_server(('127.0.0.1', 0), backlog=64)
        self.port = self.listener.getsockname()[1]
        threading.Thread(target=self.accept, daemon=True).start()

    def accept(self):
        while True:
            client, _ = self.listener.accept()
            threading.Thread(target=self.talk, args=(client,), daemon=True).start()

    def note(self, request, asked, reply):
        with self.lock:
            self.noted.append((request.split(b'\r\n')[2::2], asked, reply, time.monotonic()))

    def talk(self, client):
        request = b''
        with client, socket.create_connection(('127.0.0.1', self.server)) as server:
            try:
                while more := client.recv(65536):
                    request += more
                    if not is_whole(request):
                        continue
                    asked = time.monotonic()
                    server.sendall(request)
                    reply = server.recv(65536)
                    self.note(request, asked, reply or None)
                    request = b''
                    client.sendall(reply)
            except OSError:
                if request:
                    self.note(request, asked, None)
