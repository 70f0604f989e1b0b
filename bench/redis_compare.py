"""Where `sidekiq pipe` answers otherwise than Redis 7.0, on keys that it doesn't manage.

How replies are compared:
- Members of sets and fields of hashes come in the order of their bytes, so that a reply is a function of the commands. Redis promises no
  order. SMEMBERS is compared as a set, HGETALL as pairs.
- A key is gone once the moment has reached its deadline, and the moment is what SK.NOW handed in; Redis reads a clock. So PTTL is compared
  as absent, without a deadline, or with one. Deadlines are far away, but for those of 20 milliseconds, which a pause of 40 always follows.
- An unknown command is `-ERR unknown command`, without the words that Redis quotes, since they may be long. A bad time to live is
  `-ERR invalid expire time`, without the name of the command. Both are compared as far as that.

Commands that both refuse, each with another text:
- SET reads its options from left to right and stops at the first fault: `SET k v EX x FOO` has a bad number. Redis looks for a syntax error
  in all options first.
- SET of more than six words has a wrong number of words, as PEXPIRE has of more than three, since no form has that many. In Redis it is a
  syntax error, or an option that isn't supported.

Commands that Redis does and ours refuses. They aren't tried, since the two stores would differ from there on:
- Commands and options that aren't in the table: SET with XX, GET, KEEPTTL, EXAT or PXAT; PEXPIRE with NX, XX, GT or LT; FLUSHALL with ASYNC
  or SYNC; QUIT with words behind it.
- An option twice (`SET k v NX NX`), which Redis lets pass: it is more likely a mistake.
- Deadlines behind the year 9999, which no date of four digits tells.
- SHUTDOWN: the reply is `+OK` before the end. Redis has no reply where it succeeds.

Sorted sets:
- A score is a number of millionths, exact; Redis keeps a double, so that 1.1 comes back as 1.1000000000000001. Only scores that a double
  holds exactly are tried.
- No score has an exponent or a plus, begins or ends with its point, or is infinite. Redis takes all of these.
- A bound is a score, `(` and a score, or `inf`, `+inf` or `-inf` in these letters. Redis takes more: `Infinity`, `(inf`, `(` alone, and a
  word of no bytes.
- ZRANGEBYSCORE reads its bounds before its options. Redis reads the options first: of a bad bound and a bad LIMIT it tells the LIMIT.
- ZADD, ZRANGE and ZRANGEBYSCORE have the options of the table, and no other. Where no form of ZRANGE and ZRANGEBYSCORE has so many words,
  the number is wrong; in Redis it is a syntax error. It isn't tried.

What one may think to be a difference and is none: LMOVE from an absent key answers null, whatever the destination holds. A list that is
turned within one key keeps its deadline. An integer has one spelling: INCRBY refuses ` 1`, `01`, `+1` and `-0`, as a word and as a value.
"""
import argparse
import io
import random
import shlex
import shutil
import socket
import subprocess
import sys
import time
from pathlib import Path

TOP = Path(__file__).resolve().parent.parent

# ---------------------------------------------------------------------------------------------
# The wire


def request(words):
    return b'*%d\r\n' % len(words) + b''.join(b'$%d\r\n%s\r\n' % (len(word), word) for word in words)


def read_reply(stream):
    """The next reply: its line, and what follows it, the bytes of a bulk string or the list of an array's elements."""
    line = stream.readline()
    if not line.endswith(b'\r\n'):
        raise EOFError
    line = line[:-2]
    if line[:1] == b'$' and line != b'$-1':
        return b'$', stream.read(int(line[1:]) + 2)[:-2]
    if line[:1] == b'*' and line != b'*-1':
        return b'*', [read_reply(stream) for _ in range(int(line[1:]))]
    return line, None


# ---------------------------------------------------------------------------------------------
# Random commands. Each is its words, with what is to be allowed in the comparison. A pause is a number of milliseconds.

OWN_KEYS = {
    'string': [b's1', b's2', b's3'],
    'list': [b'l1', b'l2', b'l3'],
    'set': [b't1', b't2'],
    'hash': [b'h1', b'h2'],
    'zset': [b'z1', b'z2'],
}
VALUES = [b'', b'a', b'b', b'c', b'0', b'1', b'-7', b'05', b'-0', b'+1', b' 1', b'1.5', b'9223372036854775807',
          b'-9223372036854775808', b'9223372036854775808', b'\xff\x00\r\n', b'long ' * 30]
WHOLE = [b'-9223372036854775808', b'-3', b'-2', b'-1', b'0', b'1', b'2', b'3', b'5', b'100', b'9223372036854775807']
NO_WHOLE = [b'', b'x', b'01', b'-0', b'+1', b' 1', b'1.5', b'1e3', b'9223372036854775808']
FAR = [b'100000', b'200000', b'3600000', b'86400000000']
BAD_LIVES = [b'0', b'-1', b'-9223372036854775808', b'9223372036854775807', b'9223372036854775000']
SCORES = [b'0', b'1', b'-1', b'2', b'2.5', b'-0.25', b'0.015625', b'1000000', b'007', b'3.50', b'-12.125']
NO_SCORES = [b'x', b'1,5', b'--1', b'1 ', b'1x']
BOUNDS = [b'-inf', b'+inf', b'inf', b'(1', b'(2.5', b'(-0.25'] + SCORES


class Commands:
    def __init__(self, seed):
        self.random = random.Random(seed)
        self.kinds = list(OWN_KEYS)
        self.keys = [key for kind in self.kinds for key in OWN_KEYS[kind]] + [b'', b'\xff \r\n']

    def some(self, items):
        return self.random.choice(items)

    def chance(self, percent):
        return self.random.randrange(100) < percent

    def key(self, kind=None):
        """Mostly one that a command for this kind has written."""
        return self.some(OWN_KEYS[kind]) if kind and self.chance(85) else self.some(self.keys)

    def value(self):
        return self.some(VALUES)

    def values(self, most=4):
        return [self.value() for _ in range(self.random.randint(1, most))]

    def whole(self):
        return self.some(NO_WHOLE if self.chance(6) else WHOLE)

    def side(self):
        return self.some([b'LEFT', b'RIGHT', b'left', b'Right'] * 6 + [b'UP'])

    def score(self):
        return self.some(NO_SCORES if self.chance(4) else SCORES)

    def bound(self):
        return self.some(NO_SCORES if self.chance(4) else BOUNDS)

    # SET, and deadlines

    def set_words(self):
        """SET, and the name of the difference that it may meet."""
        words = [b'SET', self.key('string'), self.value()]
        drawn = self.random.randrange(100)
        if drawn < 60:
            return words, None
        expire = [self.some([b'EX', b'PX', b'ex', b'pX']), self.some(FAR[:3])]
        if drawn < 70:
            return words + [b'NX'], None
        if drawn < 80:
            return words + expire, None
        if drawn < 84:
            return words + self.some([expire + [b'nx'], [b'NX'] + expire]), None
        if drawn < 89:
            return words + [self.some([b'EX', b'PX']), self.some(BAD_LIVES)], None
        if drawn < 92:
            return words + [b'EX', self.some(NO_WHOLE)], None
        if drawn < 94:
            return words + [b'PX', self.some(NO_WHOLE), b'FOO'], 'faults from left to right'
        if drawn < 96:
            other = b'EX' if expire[0].upper() == b'PX' else b'PX'
            return words + expire + self.some([[b'NX', b'FOO'], [other, b'100']]), 'too many words'
        return words + self.some([[b'EX'], [b'NX', b'PX'], [b'FOO'], [b'FOO', b'BAR'], [b'EX', b'100', b'PX'], [b'EX', b'NX']]), None

    def expire_words(self):
        drawn = self.random.randrange(100)
        if drawn < 70:
            return [b'PEXPIRE', self.key(), self.some(FAR)], None
        if drawn < 94:
            return [b'PEXPIRE', self.key(), self.some(BAD_LIVES + NO_WHOLE)], None
        return [b'PEXPIRE', self.key(), self.some(FAR), b'FOO'], 'too many words'

    # The other commands, by the kind of their key

    def plain_words(self):
        r = self
        return self.some([
            lambda: [b'PING'],
            lambda: [b'PING', r.value()],
            lambda: [b'ECHO', r.value()],
            lambda: [b'GET', r.key('string')],
            lambda: [b'GET', r.key('string')],
            lambda: [b'INCRBY', r.key('string'), r.whole()],
            lambda: [b'INCRBY', r.key('string'), r.whole()],
            lambda: [b'DEL', r.key()],
            lambda: [b'DEL', r.key(), r.key(), r.key()],
            lambda: [b'EXISTS', r.key()],
            lambda: [b'EXISTS', r.key(), r.key(), r.key(), r.key()],
            lambda: [b'TYPE', r.key()],
            lambda: [b'PTTL', r.key()],
            lambda: [b'PTTL', r.key()],
        ])()

    def list_words(self):
        r = self
        return self.some([
            lambda: [b'LPUSH', r.key('list')] + r.values(),
            lambda: [b'RPUSH', r.key('list')] + r.values(),
            lambda: [b'LRANGE', r.key('list'), r.whole(), r.whole()],
            lambda: [b'LRANGE', r.key('list'), b'0', b'-1'],
            lambda: [b'LLEN', r.key('list')],
            lambda: [b'LREM', r.key('list'), r.whole(), r.value()],
            lambda: [b'LMOVE', r.key('list'), r.key('list'), r.side(), r.side()],
            lambda: [b'LMOVE', r.key('list'), r.key('list'), r.side(), r.side()],
        ])()

    def member_words(self):
        r = self
        return self.some([
            lambda: [b'SADD', r.key('set')] + r.values(),
            lambda: [b'SREM', r.key('set')] + r.values(6),
            lambda: [b'SMEMBERS', r.key('set')],
            lambda: [b'SCARD', r.key('set')],
            lambda: [b'SISMEMBER', r.key('set'), r.value()],
        ])()

    def field_words(self):
        r = self
        return self.some([
            lambda: [b'HSET', r.key('hash')] + [word for _ in r.values() for word in (r.value(), r.value())],
            lambda: [b'HSET', r.key('hash'), r.value(), r.value(), r.value()],
            lambda: [b'HGET', r.key('hash'), r.value()],
            lambda: [b'HLEN', r.key('hash')],
            lambda: [b'HDEL', r.key('hash')] + r.values(6),
            lambda: [b'HGETALL', r.key('hash')],
        ])()

    def sorted_words(self):
        r = self
        bounds = [r.bound(), r.bound()]
        limit = self.some([[], [], [b'LIMIT', r.whole(), r.whole()]])
        scores = self.some([[], [b'WITHSCORES'], [b'withscores']])
        words = self.some([
            lambda: [b'ZADD', r.key('zset')] + [word for _ in r.values() for word in (r.score(), r.value())],
            lambda: [b'ZADD', r.key('zset')] + [word for _ in r.values() for word in (r.score(), r.value())],
            lambda: [b'ZADD', r.key('zset'), r.score(), r.value(), r.score()],
            lambda: [b'ZREM', r.key('zset')] + r.values(),
            lambda: [b'ZCARD', r.key('zset')],
            lambda: [b'ZSCORE', r.key('zset'), r.value()],
            lambda: [b'ZRANGE', r.key('zset'), r.whole(), r.whole()] + scores,
            lambda: [b'ZRANGE', r.key('zset'), b'0', b'-1', b'WITHSCORES'],
            lambda: [b'ZRANGEBYSCORE', r.key('zset')] + bounds + scores + limit,
            lambda: [b'ZREMRANGEBYRANK', r.key('zset'), r.whole(), r.whole()],
            lambda: [b'ZREMRANGEBYSCORE', r.key('zset')] + bounds,
        ])()
        two_faults = set(bounds) & set(NO_SCORES) and set(limit) & set(NO_WHOLE) and words[-3:] == limit
        return words, 'faults from left to right' if two_faults else None

    def odd_words(self):
        """An unknown command, or one with too few words, or with more than any form has in Redis too."""
        fixed = [b'ECHO', b'GET', b'TYPE', b'PTTL', b'LLEN', b'SMEMBERS', b'SCARD', b'HLEN', b'HGETALL', b'INCRBY', b'SISMEMBER', b'HGET',
                 b'LRANGE', b'LREM', b'LMOVE', b'PING']
        few = [b'SET', b'DEL', b'EXISTS', b'PEXPIRE', b'LPUSH', b'RPUSH', b'SADD', b'SREM', b'HSET', b'HDEL']
        return self.some([
            lambda: [self.some([b'FOO', b'', b'GETT', b'\xff\r\n', b'SET ', b'queue:a'])] + self.values()[1:],
            lambda: [self.some(fixed)] + [b'k'] * self.random.randint(5, 7),
            lambda: [self.some(fixed[:-1] + few)],
            lambda: [self.some([b'SET', b'PEXPIRE', b'LPUSH', b'RPUSH', b'SADD', b'SREM', b'HSET', b'HDEL']), b'k'],
        ])()

    def any(self):
        """The words of a command, and the name of the difference that it may meet."""
        drawn = self.random.randrange(100)
        if drawn < 14:
            return self.set_words()
        if drawn < 20:
            return self.expire_words()
        if drawn < 24:
            return self.odd_words(), None
        kind = self.some(self.kinds)
        if kind == 'zset':
            return self.sorted_words()
        words = {'string': self.plain_words, 'list': self.list_words, 'set': self.member_words, 'hash': self.field_words}[kind]()
        return words, None

    def scene(self):
        """Commands that seldom come in this order by chance. A short deadline stands right before a pause: no command sees it run."""
        key, value = self.key(), self.value()
        return self.some([
            [[b'PEXPIRE', key, b'20'], 40],
            [[b'SET', key, value, b'PX', b'20'], 40],
            [[b'DEL', key], [b'RPUSH', key, value], [b'PEXPIRE', key, b'100000'], [b'LMOVE', key, key, b'LEFT', b'RIGHT'], [b'PTTL', key]],
            [[b'SET', key, b'1', b'EX', b'100'], [b'INCRBY', key, b'1'], [b'PTTL', key], [b'SET', key, value], [b'PTTL', key]],
            [[b'SET', key, b'1', b'EX', b'100'], [b'SET', key, value, b'NX'], [b'PTTL', key], [b'DEL', key], [b'PTTL', key]],
            [[b'FLUSHALL'], [b'EXISTS', key]],
        ])

    def input(self, count):
        """Commands with pauses among them."""
        out = []
        while sum(not isinstance(command, int) for command in out) < count:
            words, difference = self.any()
            if self.chance(30):
                words[0] = words[0].lower()
            out.append((words, difference))
            if self.chance(1):
                out += [part if isinstance(part, int) else (part, None) for part in self.scene()]
        return out


# ---------------------------------------------------------------------------------------------
# The comparison

NOT_INT = (b'-ERR value is not an integer or out of range', None)
BAD_BOUND = (b'-ERR min or max is not a float', None)
SYNTAX = (b'-ERR syntax error', None)


def seen(words, reply):
    """The reply as it is compared."""
    line, rest = reply
    for text in (b'-ERR unknown command', b'-ERR invalid expire time'):
        if line.startswith(text):
            return text, None
    name = words[0].upper()
    if line == b'*' and name == b'SMEMBERS':
        return line, sorted(rest)
    if line == b'*' and name == b'HGETALL':
        return line, sorted(zip(rest[::2], rest[1::2]))
    if name == b'PTTL' and line[:1] == b':' and int(line[1:]) >= 0:
        return b'with a deadline', None
    return line, rest


def is_same(words, difference, ours, theirs):
    if difference == 'faults from left to right':
        return (ours, theirs) in ((NOT_INT, SYNTAX), (BAD_BOUND, NOT_INT))
    if difference == 'too many words':
        arity = b"-ERR wrong number of arguments for '%s' command" % words[0].lower()
        return ours == (arity, None) and (theirs == SYNTAX or theirs[0].startswith(b'-ERR Unsupported option'))
    return seen(words, ours) == seen(words, theirs)


def told(words):
    return ' '.join(repr(word)[1:] for word in words)


# ---------------------------------------------------------------------------------------------
# The two stores


class Redis:
    """A Redis of our own on a free port of this machine, which keeps nothing on disk."""

    def __init__(self, path):
        with socket.socket() as probe:
            probe.bind(('127.0.0.1', 0))
            port = probe.getsockname()[1]
        self.process = subprocess.Popen(
            [path, '--port', str(port), '--bind', '127.0.0.1', '--save', '', '--appendonly', 'no', '--daemonize', 'no'],
            stdout=subprocess.DEVNULL, stderr=subprocess.DEVNULL, cwd='/')
        self.socket = self.connect(port)
        self.stream = self.socket.makefile('rb')

    def connect(self, port):
        for _ in range(200):
            try:
                return socket.create_connection(('127.0.0.1', port))
            except OSError:
                if self.process.poll() is not None:
                    break
                time.sleep(0.05)
        self.process.kill()
        raise SystemExit('redis_compare: the Redis did not start')

    def answer(self, words):
        self.socket.sendall(request(words))
        return read_reply(self.stream)

    def stop(self):
        self.process.kill()
        self.process.wait()


def our_replies(program, commands):
    """The replies of the program to all commands in one input. A pause is a greater moment."""
    moment = 1_700_000_000_000
    text = [request([b'SK.NOW', b'%d' % moment])]
    for command in commands:
        if isinstance(command, int):
            moment += command
            text.append(request([b'SK.NOW', b'%d' % moment]))
        else:
            text.append(request(command[0]))
    run = subprocess.Popen(program, stdin=subprocess.PIPE, stdout=subprocess.PIPE)
    out, _ = run.communicate(b''.join(text))
    if run.returncode != 0:
        raise SystemExit('redis_compare: the program ended with status %d' % run.returncode)
    return out


def compare(program, redis, commands):
    """How many commands were compared, and the first difference, as lines of text."""
    replies = io.BytesIO(our_replies(program, commands))
    read_reply(replies)
    redis.answer([b'FLUSHALL'])
    count = 0
    for command in commands:
        if isinstance(command, int):
            read_reply(replies)
            time.sleep(command / 1000)
            continue
        words, difference = command
        count += 1
        try:
            ours, theirs = read_reply(replies), redis.answer(words)
        except EOFError:
            return count, ['command %d: %s' % (count, told(words)), 'there are no more replies']
        if not is_same(words, difference, ours, theirs):
            return count, ['command %d: %s' % (count, told(words)), 'ours:  %r' % (ours,), 'Redis: %r' % (theirs,)]
    if replies.read(1):
        return count, ['there are more replies than commands']
    return count, None


def main():
    parser = argparse.ArgumentParser(description='Random plain commands, done by sidekiq pipe and by a Redis, compared reply by reply.')
    parser.add_argument('--seed', type=int, default=1)
    parser.add_argument('--commands', type=int, default=400, help='of an input')
    parser.add_argument('--inputs', type=int, default=50)
    parser.add_argument('--program', default=None, help='the words of a command line, in place of bin/sidekiq pipe')
    parser.add_argument('--differences', action='store_true', help='print where our tables choose otherwise than Redis')
    given = parser.parse_args()
    if given.differences:
        print(__doc__.strip())
        return 0
    path = shutil.which('redis-server')
    if path is None:
        print('redis_compare: no redis-server is installed; nothing was compared')
        return 0
    program = shlex.split(given.program) if given.program else [str(TOP / 'bin' / 'sidekiq'), 'pipe']
    redis = Redis(path)
    total = 0
    try:
        for number in range(given.inputs):
            seed = given.seed * 1_000_003 + number
            count, difference = compare(program, redis, Commands(seed).input(given.commands))
            total += count
            if difference:
                print('input %d of --seed %d' % (number + 1, given.seed))
                print('\n'.join(difference))
                return 1
    finally:
        redis.stop()
    print('%d commands of %d inputs: the same replies as Redis, but for the differences that are listed' % (total, given.inputs))
    return 0


if __name__ == '__main__':
    sys.exit(main())
