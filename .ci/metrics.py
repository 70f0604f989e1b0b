#!/usr/bin/env python3
"""Reads what bin/metrics tells of a server, once and over HTTP, by the rules of Prometheus's text, and compares it with the store.

    metrics.py PROGRAM [NAME ..]

Plain sockets and Python alone. Status 1 where a test fails.
"""
import pathlib
import re
import subprocess
import sys
import urllib.error
import urllib.request

HOME = pathlib.Path(__file__).resolve().parent.parent
sys.path[:0] = [str(HOME / 'clients/python'), str(HOME / '.ci')]
sys.dont_write_bytecode = True
import sidekiq
from server import SECONDS, Server, free_port, wait_for

METRICS = [sys.executable, str(HOME / 'bin/metrics')]
NAME = '[a-zA-Z_:][a-zA-Z0-9_:]*'
SAMPLE = re.compile(r'(%s)(?:\{queue="((?:[^"\\\n]|\\[\\"n])*)"\})? (-?\d+(?:\.\d+)?)' % NAME)


def ran(*words):
    return subprocess.run([*METRICS, *map(str, words)], stdin=subprocess.DEVNULL, capture_output=True, timeout=SECONDS)


def samples(text):
    """The numbers of a page, by the name of each and of its queue. Each name has its help and its kind before its numbers, which stand together."""
    assert text.endswith('\n') and '\n\n' not in text, text
    found, told, kinds = {}, None, {}
    for line in text[:-1].split('\n'):
        about = re.fullmatch(r'# (HELP|TYPE) (%s) (.+)' % NAME, line)
        if about and about[1] == 'HELP':
            assert about[2] not in kinds, line
            told = about[2]
        elif about:
            assert about[2] == told and about[3] in ('counter', 'gauge'), line
            kinds[told] = about[3]
        else:
            sample = SAMPLE.fullmatch(line)
            assert sample and sample[1] == told and told in kinds, line
            key = told if sample[2] is None else (told, re.sub(r'\\(.)', lambda it: '\n' if it[1] == 'n' else it[1], sample[2]))
            assert key not in found, line
            found[key] = float(sample[3])
    assert all((kind == 'counter') == name.endswith('_total') for name, kind in kinds.items()), kinds
    return found


QUEUES = {'plain': 3, 'with "marks" \\ and blanks': 1, 'two\u2028lines': 2}
STRANGE = (b'no job', b'[' * 100_000, b'{"created_at":"yesterday"}', b'{"created_at":-1' + b'0' * 4000 + b'}', b'{"created_at":1e999}', b'7', b'\xff')


def numbers(server):
    """The numbers are those of the store, whatever the queues are called and whatever stands in them."""
    client = sidekiq.Client(port=server.port)
    for queue, count in QUEUES.items():
        for n in range(count):
            client.push('Note', n, queue=queue, created_at=sidekiq.millis() - 90_000)
    for n, text in enumerate(STRANGE):
        client('LPUSH', 'queue:strange%d' % n, text)
    client('SADD', 'queues', 'empty')
    client.push_in(3600, 'Note')
    client('SK.BEAT', 'host:1:0')
    worker = sidekiq.Connection(port=server.port)
    worker('SK.JOIN', 'host:1:0')
    text = worker('LMOVE', 'queue:plain', 'sq:host:1:0', 'RIGHT', 'LEFT')
    done = ran('--port', server.port)
    assert (done.returncode, done.stderr) == (0, b''), done
    page, found = client.status(), samples(done.stdout.decode())
    for name, count in {'up': 1, 'processed_total': 0, 'failed_total': 0, 'processes': 1, 'busy': 1, 'scheduled': 1, 'retries': 0, 'dead': 0,
                        'batches': 0, 'live': page['live']}.items():
        assert found['sidekiq_' + name] == count, (name, found)
    lengths = {**QUEUES, 'plain': 2, 'empty': 0, **{'strange%d' % n: 1 for n in range(len(STRANGE))}}
    assert {key[1]: count for key, count in found.items() if key[0] == 'sidekiq_queue_jobs'} == lengths, found
    ages = {key[1]: seconds for key, seconds in found.items() if key[0] == 'sidekiq_queue_latency_seconds'}
    assert set(ages) == set(lengths) and all((90 <= age < 90 + SECONDS) if name in QUEUES else age == 0 for name, age in ages.items()), ages
    for words in (('SK.START', text), ('SK.OK', text), ('LREM', 'sq:host:1:0', 1, text)):
        worker(*words)
    found = samples(ran('--port', server.port).stdout.decode())
    assert (found['sidekiq_processed_total'], found['sidekiq_busy']) == (1, 0), found


def got(url):
    """The status, the kind and the text of a page."""
    try:
        with urllib.request.urlopen(url, timeout=SECONDS) as it:
            return it.status, it.headers['Content-Type'], it.read().decode()
    except urllib.error.HTTPError as error:
        with error:
            return error.code, None, None


def over_http(server):
    """The same over HTTP, also while the server is away and once it is back; a port that is taken is told of."""
    page, other = free_port(), Server(4)
    line = [*METRICS, '--port', str(other.port), '--listen', str(page)]
    process = subprocess.Popen(line, stdin=subprocess.DEVNULL, stdout=subprocess.PIPE, stderr=subprocess.PIPE)
    url = 'http://127.0.0.1:%d' % page

    def is_up():
        try:
            return got(url)[0] == 200
        except OSError:
            return False
    try:
        wait_for(is_up, 'no page comes')
        status, kind, text = got(url + '/metrics?name[]=sidekiq_up')
        assert (status, kind) == (200, 'text/plain; version=0.0.4; charset=utf-8') and samples(text)['sidekiq_up'] == 1, (status, kind, text)
        assert got(url + '/other')[0] == 404
        other.end()
        assert samples(got(url + '/metrics')[2]) == {'sidekiq_up': 0}
        other = Server(4, port=other.port)
        sidekiq.Client(port=other.port).push('Note', queue='back')
        assert samples(got(url)[2])['sidekiq_queue_jobs', 'back'] == 1
        taken = ran('--port', server.port, '--listen', page)
        assert taken.returncode == 1 and taken.stderr.startswith(b'metrics: no page at 127.0.0.1:%d: ' % page), taken
        assert other.end()[0] == 0
    finally:
        process.kill()
    assert process.communicate() == (b'', b''), 'it says something'


def no_server(_):
    """Where no server answers it says that it isn't up, with status 1; a wrong option is status 2."""
    done = ran('--port', free_port())
    assert done.returncode == 1 and samples(done.stdout.decode()) == {'sidekiq_up': 0} and not done.stderr, done
    for words in (('--port', '0'), ('--port', '70000'), ('--listen', 'x'), ('--none',)):
        done = ran(*words)
        assert done.returncode == 2 and b'usage: ' in done.stderr and b'Traceback' not in done.stderr, done


TESTS = [numbers, over_http, no_server]


def main():
    try:
        server = Server(64)
    except OSError as fault:
        print('metrics: passed over, since there is no loopback here: %s' % fault)
        return 0
    failed, wanted = [], sys.argv[2:]
    for test in TESTS:
        if wanted and test.__name__ not in wanted:
            continue
        try:
            test(server)
        except (AssertionError, OSError, sidekiq.Error, subprocess.SubprocessError) as fault:
            failed.append(test.__name__)
            print('metrics: %s: %s: %s' % (test.__name__, type(fault).__name__, fault))
    if server.end()[0] != 0:
        failed.append('the server')
    print('metrics: %s' % ('FAILED: ' + ', '.join(failed) if failed else '%d tests' % len(wanted or TESTS)))
    return int(bool(failed))


if __name__ == '__main__':
    sys.exit(main())
