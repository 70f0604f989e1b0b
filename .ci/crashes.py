#!/usr/bin/env python3
"""Kills `sidekiq pipe --log FILE` by signal 9 at random moments of a large input, and starts it again on the file.

    crashes.py PROGRAM [ORACLE]

What a store must have after its start is what the same commands give a store without a file: those whose replies were read, and the next one or not.
A further start must change no byte of the file. Beside the kills: a file that can't grow any more, two processes at one file, and random commands,
which a store that was started again must know as one that never stopped (by the generator in the folder ORACLE, where that is given, too). Status 1
where something is wrong. The files stand in memory where the system has a folder for that: what a kill leaves doesn't depend on the device.
"""
import concurrent.futures
import fcntl
import os
import pathlib
import random
import resource
import signal
import subprocess
import sys
import tempfile
import time

KILLS = 200
LIVES = 8               # inputs that are killed, each of so many commands
COMMANDS = 1500
REPLAYED = 20_000       # random commands that are replayed, and of how many each input is
EACH = 200
SEATS = 5
FINAL = b'1700100000000'
F_SETPIPE_SZ = 1031     # of Linux; Python's fcntl has it from 3.10 on
FOLDER = '/dev/shm' if os.access('/dev/shm', os.W_OK) else None
MOMENT = 1_700_000_000_000


def array(*words):
    words = [it if isinstance(it, bytes) else str(it).encode() for it in words]
    return b'*%d\r\n' % len(words) + b''.join(b'$%d\r\n%s\r\n' % (len(it), it) for it in words)


def job(number, queue='default'):
    text = '{"args":[%d],"class":"Note","jid":"%024x","queue":"%s","retry":true}'
    return (text % (number, random.Random(number).getrandbits(96), queue)).encode()


class Life:
    """Random commands of clients and of workers, each a seat, that the store takes."""
    def __init__(self, seed):
        self.rng, self.now, self.seat, self.jobs = random.Random(seed), MOMENT, 0, 0
        self.queue, self.held, self.joined, self.commands = [], {}, set(), []

    def say(self, *words):
        self.commands.append(array(*words))

    def at(self, seat):
        if self.seat != seat:
            self.say('SK.AS', seat)
            self.seat = seat

    def push(self):
        self.at(0)
        texts = []
        for _ in range(self.rng.choice((1, 1, 2, 5))):
            self.jobs += 1
            texts.append(job(self.jobs))
        self.say(*([self.rng.choice(('LPUSH', 'lpush')), 'queue:default'] + texts))
        self.queue += texts

    def later(self):
        self.at(0)
        self.jobs += 1
        self.say('ZADD', 'schedule', self.now // 1000 + self.rng.randrange(3600), job(self.jobs, 'low'))

    def work(self):
        """A step of a worker's turn."""
        seat = self.rng.randrange(1, SEATS)
        self.at(seat)
        if seat not in self.joined:
            self.say('SK.BEAT', 'w:%d' % seat)
            self.say('SK.JOIN', 'w:%d' % seat)
            self.joined.add(seat)
        elif seat not in self.held:
            self.say('LMOVE', 'queue:default', 'sq:w:%d' % seat, 'RIGHT', 'LEFT')
            if self.queue:
                self.held[seat] = [self.queue.pop(0), 0]
        else:
            text, stage = self.held[seat]
            self.say(*([('SK.START', text), ('SK.OK', text), ('LREM', 'sq:w:%d' % seat, 1, text)][stage]))
            self.held[seat][1] += 1
            if stage == 2:
                del self.held[seat]

    def beat(self):
        self.at(0)
        for seat in self.joined:
            self.say('SK.BEAT', 'w:%d' % seat)

    def tick(self):
        self.now += self.rng.randrange(1000)
        self.say('SK.NOW', self.now)

    def keys(self):
        self.at(0)
        name = self.rng.choice('abcd')
        self.say(*self.rng.choice((
            ('SET', 'k' + name, self.rng.randrange(1000)), ('INCRBY', 'n' + name, 7), ('HSET', 'h' + name, name * 3, self.rng.random()),
            ('SADD', 's' + name, self.rng.randrange(30)), ('ZADD', 'z' + name, self.rng.randrange(9), self.rng.randrange(30)), ('DEL', 'k' + name),
            ('RPUSH', 'l' + name, self.rng.randrange(9), b'\r\n\0'), ('PEXPIRE', 's' + name, 500_000), ('LPOP', 'l' + name))))

    def look(self):
        """Commands that leave the store as it is, or that it refuses."""
        self.say(*self.rng.choice((('LLEN', 'queue:default'), ('GET', 'ka'), ('SET', 'queue:default', 1), ('INCRBY', 'la', 1), ('NOTHING',),
                                   ('ZRANGE', 'schedule', 0, -1), ('SK.OK', 'no job'))))

    def lead(self, count):
        steps = [self.push] * 2 + [self.later, self.beat, self.tick, self.look] + [self.keys] * 4 + [self.work] * 8
        while len(self.commands) < count:
            self.rng.choice(steps)()
        return self.commands[:count]


READS = [array('SK.NOW', FINAL)] + [array(*it) for it in (
    ('LRANGE', 'queue:default', 0, -1), ('LRANGE', 'queue:low', 0, -1), ('ZRANGE', 'schedule', 0, -1, 'WITHSCORES'), ('ZRANGE', 'retry', 0, -1, 'WITHSCORES'),
    ('ZRANGE', 'dead', 0, -1, 'WITHSCORES'), ('SMEMBERS', 'queues'), ('SMEMBERS', 'processes'), ('GET', 'stat:processed'), ('GET', 'stat:failed'),
    *(('LRANGE', 'sq:w:%d' % seat, 0, -1) for seat in range(1, SEATS)),
    *((read, kind + name, *rest) for name in 'abcd' for kind, read, *rest in (
        ('k', 'GET'), ('n', 'GET'), ('h', 'HGETALL'), ('s', 'SMEMBERS'), ('s', 'PTTL'), ('z', 'ZRANGE', 0, -1, 'WITHSCORES'), ('l', 'LRANGE', 0, -1))),
)]


def end_of_reply(text, at):
    """Where the reply that begins here ends; None where it isn't whole."""
    end = text.find(b'\n', at)
    if end < 0:
        return None
    kind, rest, behind = text[at:at + 1], text[at + 1:end - 1], end + 1
    if kind == b'$' and rest != b'-1':
        behind += int(rest) + 2
        return behind if behind <= len(text) else None
    if kind == b'*' and rest != b'-1':
        for _ in range(int(rest)):
            behind = end_of_reply(text, behind)
            if behind is None:
                return None
    return behind


def replies(text):
    """The whole replies that a text begins with."""
    found, at = [], 0
    while at < len(text):
        end = end_of_reply(text, at)
        if end is None:
            break
        found.append(text[at:end])
        at = end
    return found


class Wrong(Exception):
    pass


def expect(holds, *what):
    if not holds:
        raise Wrong(what)


def piped(program, commands, *words, **more):
    """The replies to these commands, of a store without a file or, with the words for that, of one."""
    run = subprocess.run([program, 'pipe', *words], input=b''.join(commands), stdout=subprocess.PIPE, stderr=subprocess.PIPE, check=False, **more)
    expect(run.returncode == 0, 'status', run.returncode, run.stderr[-300:])
    return replies(run.stdout)


def known(program, commands, reads, seats):
    """What the reads are answered behind the commands, where no seat is left."""
    cuts = [array('SK.AS', 0)] + [array('SK.CUT', seat) for seat in seats]
    return piped(program, [*commands, *cuts, *reads])[-len(reads):]


def opened(program, path, reads):
    """What the reads are answered by a store that is started on the file, twice. The second start changes no byte."""
    first = piped(program, reads, '--log', path)
    file = pathlib.Path(path).read_bytes()
    expect(piped(program, reads, '--log', path) == first, 'a second start answers otherwise')
    expect(pathlib.Path(path).read_bytes() == file, 'a second start changes the file')
    return first


def killed(program, path, commands, rng):
    """Starts a store on the file, kills it behind a random reply, and answers how many replies were read."""
    source = tempfile.TemporaryFile(dir=FOLDER)
    source.write(b''.join(commands))
    source.seek(0)
    taken, given = os.pipe()
    fcntl.fcntl(given, F_SETPIPE_SZ, 4096)          # (so that it isn't far ahead of who reads)
    store = subprocess.Popen([program, 'pipe', '--log', path], stdin=source, stdout=given, stderr=subprocess.DEVNULL)
    os.close(given)
    wanted, text, piece = rng.randrange(len(commands)), b'', True
    while piece and len(replies(text)) < wanted:
        piece = os.read(taken, 1 + rng.randrange(512))
        text += piece
    time.sleep(rng.random() * 0.003)
    store.send_signal(signal.SIGKILL)
    with open(taken, 'rb') as rest:
        text += rest.read()
    store.wait()
    return len(replies(text))


def kill(program, number):
    """One kill: what comes back is what the replies that were read tell, with the next command or without."""
    rng = random.Random(number)
    commands = Life(number % LIVES).lead(COMMANDS)
    with tempfile.TemporaryDirectory(dir=FOLDER) as room:
        path = os.path.join(room, 'jobs.log')
        read = killed(program, path, commands, rng)
        came = opened(program, path, READS)
        expect(came in (known(program, commands[:read + more], READS, range(1, SEATS)) for more in (0, 1)), 'behind', read, 'replies')
        return read


def kills(program):
    """Two hundred kills."""
    with concurrent.futures.ThreadPoolExecutor(4) as pool:
        read = list(pool.map(lambda number: kill(program, number), range(KILLS)))
    return '%d kills behind %d replies, none of them lost' % (KILLS, sum(read))


def killed_again_and_again(program):
    """A file that outlives ten kills: each start goes on where the one before was killed."""
    rng, commands, done = random.Random(1), Life(1).lead(COMMANDS), 0
    with tempfile.TemporaryDirectory(dir=FOLDER) as room:
        path, said = os.path.join(room, 'jobs.log'), []
        for _ in range(10):
            piece = [it for it in Life(rng.random()).lead(150) if b'SK.AS' not in it and b'SK.JOIN' not in it and b'LMOVE' not in it]
            read = killed(program, path, piece, rng)
            here = opened(program, path, READS)
            fits = [more for more in (0, 1) if known(program, said + piece[:read + more], READS, ()) == here]
            expect(fits, 'after', done, 'replies')
            said += piece[:read + fits[-1]]
            done += read
    return '10 kills of one file, %d replies' % done


def a_file_that_cant_grow(program):
    """Where the system lets the file grow no more, the program ends with status 10, and the reply to that command isn't written."""
    commands = Life(2).lead(COMMANDS)
    with tempfile.TemporaryDirectory() as room:
        path = os.path.join(room, 'jobs.log')

        def narrow():
            signal.signal(signal.SIGXFSZ, signal.SIG_IGN)
            resource.setrlimit(resource.RLIMIT_FSIZE, (20_000, 20_000))

        run = subprocess.run([program, 'pipe', '--log', path], input=b''.join(commands), capture_output=True, preexec_fn=narrow, check=False)
        read = len(replies(run.stdout))
        expect(run.returncode == 10 and 10 < read < COMMANDS, run.returncode, read, run.stderr)
        came = opened(program, path, READS)
        expect(came in (known(program, commands[:read + more], READS, range(1, SEATS)) for more in (0, 1)), 'behind', read, 'replies')
    return 'a file of 20,000 bytes at most, %d replies' % read


def two_at_one_file(program):
    """A second process at a file is refused with status 10, and changes nothing; when the first has ended the next is not."""
    with tempfile.TemporaryDirectory(dir=FOLDER) as room:
        path = os.path.join(room, 'jobs.log')
        first = subprocess.Popen([program, 'pipe', '--log', path], stdin=subprocess.PIPE, stdout=subprocess.PIPE, stderr=subprocess.DEVNULL)
        first.stdin.write(array('SET', 'k', 'v'))
        first.stdin.flush()
        expect(first.stdout.readline() == b'+OK\r\n')
        file = pathlib.Path(path).read_bytes()
        second = subprocess.run([program, 'pipe', '--log', path], input=array('SET', 'k', 'w'), capture_output=True, check=False)
        expect((second.returncode, second.stdout) == (10, b'') and pathlib.Path(path).read_bytes() == file, second)
        expect(b'another process has it open' in second.stderr or b'sidekiq' not in second.stderr, second.stderr)
        first.stdin.write(array('GET', 'k'))
        out, _ = first.communicate(timeout=60)
        expect((out, first.returncode) == (b'$1\r\nv\r\n', 0), out)
        expect(piped(program, [array('GET', 'k')], '--log', path) == [b'$1\r\nv\r\n'])
    return 'a second process is refused'


def replayed(program, commands, reads, seats):
    """What a store is asked when it was started again, it answers as one that did the same commands and never stopped."""
    with tempfile.TemporaryDirectory(dir=FOLDER) as room:
        path = os.path.join(room, 'jobs.log')
        subprocess.run([program, 'pipe', '--log', path], input=b''.join(commands), stdout=subprocess.DEVNULL, stderr=subprocess.DEVNULL, check=False)
        expect(opened(program, path, reads) == known(program, commands, reads, seats), b''.join(commands)[:2000])


def replays(program, folder):
    """Random commands, of the tests' own or of the generator in a folder."""
    inputs = [(Life(1000 + number).lead(EACH), READS, range(1, SEATS)) for number in range(REPLAYED // EACH)]
    if folder:
        inputs += [random_input(seed) for seed in range(REPLAYED // EACH)]
    with concurrent.futures.ThreadPoolExecutor(4) as pool:
        list(pool.map(lambda it: replayed(program, *it), inputs))
    return '%d random commands replayed%s' % (len(inputs) * EACH, '' if folder else ', without the other generator')


def random_input(seed):
    """An input of the other generator, and reads of the keys that it uses, at the last moment that it came to. What ends an input is left out."""
    import fuzz
    import oracle
    options = oracle.Options(stage=10, r15=True, r16=True, r18=True)
    maker = fuzz.Maker(random.Random(seed), options, [], True)
    commands = maker.make(EACH)
    if maker.ended:
        commands.pop()
    keys = [*fuzz.PLAIN, *(b'queue:' + it for it in fuzz.QUEUES), *(b'sq:' + it for it in fuzz.IDENTS), b'schedule', b'retry', b'dead']
    reads = [array('SK.NOW', max(0, maker.run.world.moment)), array('SMEMBERS', 'queues'), array('SMEMBERS', 'processes'), array('GET', 'stat:processed')]
    for key in keys:
        reads += [array('LRANGE', key, 0, -1), array('ZRANGE', key, 0, -1, 'WITHSCORES'), array('GET', key), array('HGETALL', key), array('SMEMBERS', key),
                  array('PTTL', key)]
    return commands, reads, sorted(set(fuzz.SEATS))


def main():
    program, folder = os.path.abspath(sys.argv[1]), (sys.argv[2:] or [None])[0]
    if folder:
        sys.path.insert(0, folder)
    tests = [two_at_one_file, a_file_that_cant_grow, killed_again_and_again, kills, lambda it: replays(it, folder)]
    wrong = 0
    for test in tests:
        try:
            print('crashes:', test(program), flush=True)
        except (Wrong, OSError, subprocess.SubprocessError) as fault:
            print('crashes: WRONG:', getattr(test, '__name__', 'replays'), fault, flush=True)
            wrong += 1
    return 1 if wrong else 0


if __name__ == '__main__':
    sys.exit(main())
