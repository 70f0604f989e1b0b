"""Background jobs in Python over `sidekiq serve`: a client that pushes them, and a worker that runs them.

One file, for Python 3.9 and later, without any other package. Copy it beside your program.

    import sidekiq

    client = sidekiq.Client()                                   # 127.0.0.1:7419
    client.push('Mail', 'ada@example.org', 3)                   # its id
    client.push_in(60, 'Mail', 'bob@example.org', 4, queue='low', retry=5)
    client.push_unique(600, 'Report', 7)                        # nothing, where one is waiting already
    with client.batch(success=('Report', 8)) as batch:          # Report runs once both mails were sent
        batch.push('Mail', 'eve@example.org', 5)
        batch.push('Mail', 'joe@example.org', 6)

    worker = sidekiq.Worker(queues={'critical': 3, 'default': 1}, threads=8)

    @worker.job
    def Mail(to, number): ...

    worker.run()            # until TERM or INT; at TSTP it takes no further job

A job is a class's name and arguments that JSON can write, without fractions: the store knows whole numbers of 64 bits alone. It may run twice,
when a process dies in the middle, so write it so that the second run does no harm.

What keeps a job safe is not here but in the store: it refuses a worker's command that would lose one. docs/PROTOCOL.md has the rules for a worker in
any language; this file keeps them, and each is told where it is kept.
"""
import collections
import contextlib
import datetime
import json
import os
import random
import secrets
import signal
import socket
import sys
import threading
import time

HOST, PORT = '127.0.0.1', 7419
LONGEST_ID, LONGEST_NAME, LONGEST_CLASS, LONGEST_MESSAGE = 64, 255, 255, 1000
MOST_RETRIES = LONGEST_DELAY = MOST_SECONDS = 1_000_000_000
LAST_MOMENT = 253_370_764_799_999
SLICE = 1000


class Error(Exception):
    """What this file raises."""


class BadJob(Error, ValueError):
    """A job that the store would not know as one: its class, its queue, its arguments or an option is out of range."""


class Lost(Error, ConnectionError):
    """The connection is gone. A command that was sent may have been done, or not."""


class Refused(Error):
    """The server's error reply, as `SK full`. Nothing was done."""


class NoMemory(Refused):
    """The server had no memory for the command. Nothing was done, and it may be asked again."""


# ---------------------------------------------------------------------------------------------
# The wire


class Connection:
    """A connection, and so a seat of the store, by RESP2. One thread at a time. It is never opened again: what a seat holds is told over it alone."""

    def __init__(self, host=HOST, port=PORT, timeout=60):
        try:
            self._socket = socket.create_connection((host, port), timeout)
            self._socket.setsockopt(socket.IPPROTO_TCP, socket.TCP_NODELAY, 1)
        except (OSError, OverflowError, UnicodeError) as fault:      # (the last two: such a port, such a host there is none)
            raise Lost('no server at %s:%d: %s' % (host, port, fault)) from fault
        self._replies = self._socket.makefile('rb')

    def __call__(self, *words):
        """The reply to a command: bytes, a number, None, or a list of these. An error reply is raised."""
        return self.all([words])[0]

    def all(self, commands):
        """The replies to several commands, sent together. The first error reply is raised, once all have come."""
        try:
            self._socket.sendall(b''.join(map(request, commands)))
            replies = [self._reply() for _ in commands]
        except (OSError, EOFError, ValueError) as fault:
            self.close()
            raise Lost('the connection is lost: %s' % fault) from fault
        refused = next((it for it in replies if isinstance(it, Refused)), None)
        if refused is None:
            return replies
        try:
            raise refused
        finally:
            del refused, replies                    # else the error would keep itself, and this connection with it

    def _reply(self):
        line = self._replies.readline()
        kind, rest = line[:1], line[1:-2]
        if kind == b'+':
            return rest
        if kind == b':':
            return int(rest)
        if kind == b'-':
            text = rest.decode('utf-8', 'replace')
            return NoMemory(text) if text.startswith('OOM') else Refused(text)
        if kind == b'$':
            return None if rest == b'-1' else self._exactly(int(rest) + 2)[:-2]
        if kind == b'*':
            return None if rest == b'-1' else [self._reply() for _ in range(int(rest))]
        raise EOFError('the server has gone' if not line else 'no reply: %r' % line[:64])

    def _exactly(self, count):
        data = self._replies.read(count)
        if len(data) < count:
            raise EOFError('the server has gone')
        return data

    def close(self):
        with contextlib.suppress(OSError):
            self._socket.close()


def request(words):
    words = [it if isinstance(it, bytes) else str(it).encode() for it in words]
    return b'*%d\r\n' % len(words) + b''.join(b'$%d\r\n%s\r\n' % (len(it), it) for it in words)


# ---------------------------------------------------------------------------------------------
# Jobs


def millis():
    return time.time_ns() // 1_000_000


def score_of(when):
    """The score of a moment: seconds since 1970, or a datetime with its time zone."""
    seconds = when.timestamp() if isinstance(when, datetime.datetime) else when
    return '%.6f' % seconds


def check_name(what, name, most=LONGEST_NAME):
    if not isinstance(name, str) or not 0 < len(name.encode('utf-8', 'replace')) <= most or any(ord(it) < 32 or ord(it) == 127 for it in name):
        raise BadJob('%s must be 1 to %d bytes without control characters: %r' % (what, most, name))


def check_value(value):
    """Arguments are whole numbers of 64 bits, texts, true, false, null, and lists and objects of these."""
    if isinstance(value, dict):
        if not all(isinstance(it, str) for it in value):
            raise BadJob('the names of an object must be texts: %r' % value)
        value = value.values()
    elif isinstance(value, int):
        if not -2 ** 63 <= value < 2 ** 64:
            raise BadJob('%d is no number of 64 bits' % value)
        return
    elif value is None or isinstance(value, str):
        return
    elif not isinstance(value, (list, tuple)):
        raise BadJob('%r is no whole number, text, list or object' % (value,))
    for inner in value:
        check_value(inner)


def text_of(job):
    """The text of a job, as bytes."""
    try:
        return json.dumps(job, separators=(',', ':'), sort_keys=True, ensure_ascii=False).encode()
    except (UnicodeEncodeError, RecursionError) as fault:
        raise BadJob(str(fault)) from fault


def draft(name, args, queue='default', retry=True, **more):
    """A new job as a dict: its members are those of the table "A job's text" in docs/COMMANDS.md, and further ones are kept as they are."""
    check_name('the class', name)
    check_name('the queue', queue)
    if not (retry is None or isinstance(retry, bool) or isinstance(retry, int) and 0 <= retry <= MOST_RETRIES):
        raise BadJob('retry must be true, false or a count: %r' % (retry,))
    for option in ('retry_for', 'unique_for'):
        if option in more and not (type(more[option]) is int and 1 <= more[option] <= MOST_SECONDS):
            raise BadJob('%s must be 1 to %d seconds: %r' % (option, MOST_SECONDS, more[option]))
    job = {'args': list(args), 'class': name, 'created_at': millis(), 'jid': secrets.token_hex(12), 'queue': queue, 'retry': retry, **more}
    check_value(job)
    return job


def head(text):
    """The job that a text is, as a dict, or None where it is none."""
    def refuse(word):
        raise ValueError(word)
    try:
        job = json.loads(text, parse_float=refuse, parse_constant=refuse)
        check_value(job)
        for member, most in (('jid', LONGEST_ID), ('class', LONGEST_NAME), ('queue', LONGEST_NAME)):
            check_name(member, job[member], most)
        return job if isinstance(job['args'], list) else None
    except (ValueError, KeyError, TypeError, AttributeError, RecursionError):
        return None


Unique = collections.namedtuple('Unique', 'jid is_new')
Unique.__doc__ = "The id of the job that has the lock now, and whether it is the one that was just pushed."

BatchStatus = collections.namedtuple('BatchStatus', 'jobs pending unreported has_died pending_in_all')
BatchStatus.__doc__ = """A batch's numbers: its jobs; those that haven't returned; those that haven't even run; whether one of it, or of a batch within
it, was buried; and how many of all these haven't returned."""


class Client:
    """Pushes jobs. One thread at a time; it keeps one connection, and makes a new one at the next call when that was lost."""

    def __init__(self, host=HOST, port=PORT, timeout=10):
        self._address, self._connection = (host, port, timeout), None

    def __call__(self, *words):
        """Any command, as `client('LLEN', 'queue:default')`. It is sent once: where the connection is lost, it may have been done."""
        return self._once([words])[0]

    def _once(self, commands):
        try:
            self._connection = self._connection or Connection(*self._address)
            return self._connection.all(commands)
        except Lost:
            self._connection = None
            raise

    def close(self):
        if self._connection:
            self._connection.close()
            self._connection = None

    def __enter__(self):
        return self

    def __exit__(self, *fault):
        self.close()

    def push(self, name, *args, **options):
        """Pushes a job to the left of its queue, and returns its id. Options: `queue`, `retry`, `retry_for`, `dead`, and members of your own."""
        job = draft(name, args, **options)
        self('LPUSH', 'queue:' + job['queue'], text_of(job))
        return job['jid']

    def push_at(self, when, name, *args, **options):
        """The same at a moment: seconds since 1970, or a datetime with its time zone."""
        job = draft(name, args, **options)
        self('ZADD', 'schedule', score_of(when), text_of(job))
        return job['jid']

    def push_in(self, seconds, name, *args, **options):
        """The same so many seconds from now on."""
        return self.push_at(time.time() + seconds, name, *args, **options)

    def push_many(self, name, many_args, queue='default', **options):
        """Pushes a job for each list of arguments, a thousand to a command, and returns their ids. All are made before the first is sent."""
        jobs = [draft(name, args, queue=queue, **options) for args in many_args]
        for at in range(0, len(jobs), SLICE):
            self('LPUSH', 'queue:' + queue, *map(text_of, jobs[at:at + SLICE]))
        return [job['jid'] for job in jobs]

    def push_unique(self, seconds, name, *args, until='success', at=None, **options):
        """Pushes a job unless one of its class, queue and arguments has the lock; it has it for so many seconds, or until it has returned (`success`)
        or begins (`start`)."""
        job = draft(name, args, unique_for=seconds, unique_until=until, **options)
        holder = self('SK.UPUSH', text_of(job), *([] if at is None else [score_of(at)]))
        return Unique(job['jid'], True) if holder == b'OK' else Unique(holder.decode(), False)

    def batch(self, parent=None, complete=None, success=None, death=None):
        """A batch for a `with` block, at whose end it is sent, with all its jobs in one command. Each callback is a class and its arguments, as
        `('Report', 8)`, or a dict of `draft`: `complete` runs once each job has run, `success` once each has returned, `death` when the first is
        buried."""
        return Batch(self, parent, complete, success, death)

    def add_to_batch(self, bid, jobs):
        """Adds drafts to a batch that isn't settled, as a job of the batch may. Returns how many."""
        return self('SK.BADD', bid, *(text_of({**job, 'bid': bid}) for job in jobs))

    def batch_status(self, bid):
        jobs, pending, unreported, died, in_all = self('SK.BSTAT', bid)
        return BatchStatus(jobs, pending, unreported, died == 1, in_all)

    def status(self):
        """The page of numbers, as a dict: `processed`, `failed`, `busy`, `scheduled`, .. and each queue's length."""
        lines = self('SK.STATUS').decode().split('\n')      # (a queue's name may have what else ends a line in Unicode)
        return {name: int(count) for name, count in (line.rsplit(' ', 1) for line in lines if line)}


class Batch:
    """A batch that is being filled. `bid` is its id."""

    def __init__(self, client, parent, complete, success, death):
        self.bid, self._client, self._parent, self._jobs = secrets.token_hex(7), client, parent or '', []
        self._callbacks = [self._callback(it) for it in (complete, success, death)]

    def _callback(self, it):
        if it is None:
            return b''
        return text_of(it if isinstance(it, dict) else draft(it[0], it[1:]))

    def push(self, name, *args, **options):
        """Adds a job, and returns its id. Nothing is sent yet."""
        self._jobs.append(draft(name, args, bid=self.bid, **options))
        return self._jobs[-1]['jid']

    def __enter__(self):
        return self

    def __exit__(self, kind, fault, trace):
        if kind is None:
            self._client('SK.BPUSH', self.bid, self._parent, *self._callbacks, *map(text_of, self._jobs))


# ---------------------------------------------------------------------------------------------
# Retries


def plain_delay(count):
    """The seconds that a job waits that failed so often before: Sidekiq's rule, without its jitter."""
    return min(count ** 4 + 15, LONGEST_DELAY)


def generation(job):
    """How many runs of the job have failed."""
    count = job.get('retry_count')
    return 0 if count is None else count + 1


def failed(job, error_class, message, now):
    """The job after one more failed run. Only these members may change: else the store doesn't take it for the same job."""
    count = generation(job)
    return {**job, 'retry_count': count, 'retried_at' if count else 'failed_at': min(now, LAST_MOMENT),
            'error_class': error_class[:LONGEST_CLASS], 'error_message': message[:LONGEST_MESSAGE]}


def is_exhausted(job, now):
    count, retry = generation(job), job.get('retry')
    if job.get('retry_for') is not None:
        first = job.get('failed_at', job.get('created_at', 0) if count else now)
        return now - first > 1000 * job['retry_for']
    return count >= (25 if retry in (None, True) else retry)


def decide(job, now, jitter, delay=None):
    """What becomes of a job that has just failed: the score at which it runs again, in millionths of a second, or 'bury' or 'discard'."""
    if job.get('retry') is False:
        return 'discard'
    if is_exhausted(job, now):
        return 'discard' if job.get('dead') is False else 'bury'
    count = generation(job)
    wait = min(LONGEST_DELAY, (plain_delay(count) if delay is None else delay) + jitter * (count + 1))
    return 1000 * min(now, LAST_MOMENT) + 1_000_000 * wait


# ---------------------------------------------------------------------------------------------
# Periodic jobs

FIELDS = ((0, 59), (0, 23), (1, 31), (1, 12), (0, 7))
SLOT_LIFE, MINUTE = 600_000, 60_000


class Cron:
    """Five fields of crontab: minute, hour, day of the month, month and weekday (0 and 7 are Sunday), each a number, `a-b`, `*`, with `/step`, and
    lists of these."""

    def __init__(self, text):
        words = text.split(' ')
        parts = [it for it in words if it]
        if len(parts) != 5 or not words[0] or not words[-1]:
            raise BadJob('%r has not five fields' % text)
        self.text, self._numbers = text, [self._field(part, *bounds) for part, bounds in zip(parts, FIELDS)]
        self._restricted = parts[2] != '*', parts[4] != '*'

    def _field(self, text, low, high):
        return frozenset(number for part in text.split(',') for number in self._part(part, low, high))

    def _part(self, text, low, high):
        base, slash, step = text.partition('/')
        first, dash, last = base.partition('-')
        step = self._number(step, 1, high) if slash else 1
        if base == '*':
            return range(low, high + 1, step)
        first = self._number(first, low, high)
        if dash:
            return range(first, self._number(last, first, high) + 1, step)
        if slash:
            raise BadJob('a step stands behind a range or `*`: %r' % text)
        return [first]

    def _number(self, text, low, high):
        if not (text.isascii() and text.isdigit() and len(text) <= 2 and low <= int(text) <= high):
            raise BadJob('%r is no number from %d to %d' % (text, low, high))
        return int(text)

    def matches(self, moment, offset=0):
        """Whether a clock so many minutes ahead of UTC shows a minute that matches, at a moment in milliseconds since 1970."""
        shown = datetime.datetime(1970, 1, 1) + datetime.timedelta(milliseconds=moment, minutes=offset)
        minutes, hours, days, months, weekdays = self._numbers
        weekday = shown.isoweekday() % 7
        on_day, on_weekday = shown.day in days, weekday in weekdays or weekday == 0 and 7 in weekdays
        day = on_day or on_weekday if all(self._restricted) else on_day and on_weekday
        return shown.minute in minutes and shown.hour in hours and day and shown.month in months

    def last_slot(self, now, offset=0):
        """The start of the latest minute that matches, at most ten minutes ago; None where there is none."""
        for slot in range(now - now % MINUTE, max(now - SLOT_LIFE, 0) - 1, -MINUTE):
            if self.matches(slot, offset):
                return slot
        return None


# ---------------------------------------------------------------------------------------------
# The worker

_running = threading.local()


def current():
    """The job that this thread runs, as a dict: its `jid`, its `bid`, .. None outside of a job."""
    return getattr(_running, 'job', None)


class Hand:
    """One thread of a worker, with a connection of its own, and the jobs that it holds, the oldest first.

    `lock` is held around each exchange with the store, and not while a job runs: so what is left can be given back when the time for an end is
    over."""

    def __init__(self, worker, connection):
        self.worker, self.ask, self.held, self.lock, self.is_over = worker, connection, collections.deque(), threading.Lock(), False

    def asks(self, *words):
        """Asks, and again where there was no memory, since then nothing has changed."""
        while True:
            try:
                return self.ask(*words)
            except NoMemory:
                time.sleep(1)

    def fetch(self):
        """Takes jobs until it holds as many as it may, or no queue has one."""
        private = 'sq:' + self.worker.ident
        for queue in self.worker.order():
            while len(self.held) < self.worker.prefetch:
                text = self.asks('LMOVE', 'queue:' + queue, private, 'RIGHT', 'LEFT')
                if text is None:
                    break
                self.held.append(text)

    def turn(self):
        """Fetches, and does the oldest job in its hands. False where there was none, or where the worker is to take no further one."""
        with self.lock:
            if self.is_over:
                return False
            if not self.worker.is_quiet:
                self.fetch()
            if not self.held or self.worker.is_ending:
                return False
            text = self.held[0]
            job = self.begin(text)
        if job:
            error = self.run(job)
            with self.lock:
                if not self.is_over:
                    self.settle(text, job, error)
        return True

    def begin(self, text):
        """The job, about to run. A text that is none is buried, and released."""
        job = head(text)
        if job is None:
            self.asks('SK.BURY', text)
            self.release(text)
        else:
            self.asks('SK.START', text)
        return job

    def run(self, job):
        """The error of the job's run, or None."""
        _running.job = job
        try:
            self.worker.function_of(job)(*job['args'])
            return None
        except Exception as error:
            return error
        finally:
            _running.job = None

    def settle(self, text, job, error):
        """Tells what came of a run, in the job's bytes as they were fetched, and then releases it."""
        if error is None:
            self.asks('SK.OK', text)
        else:
            self.tell_failure(text, job, error)
        self.release(text)

    def tell_failure(self, text, job, error):
        now, name = millis(), job['class']
        after = failed(job, type(error).__name__, str(error).encode('utf-8', 'replace').decode(), now)
        fate = decide(job, now, random.randrange(10), self.worker.delay_of(name, generation(job)))
        self.worker.say('%s %s failed: %s: %s' % (name, job['jid'], type(error).__name__, error))
        self.asks('SK.FAIL', text)
        if fate == 'discard':
            self.asks('SK.DROP', text)
        elif fate == 'bury':
            self.asks('SK.BURY', text_of(after))
        else:
            self.asks('ZADD', 'retry', '%d.%06d' % divmod(fate, 1_000_000), text_of(after))

    def release(self, text):
        self.asks('LREM', 'sq:' + self.worker.ident, 1, text)
        self.held.remove(text)

    def give_back(self):
        """Gives back what it holds, the newest first, so that the oldest is fetched first again. One that runs in vain is given back, too."""
        with self.lock:
            self.is_over = True
            while self.held:
                self.asks('SK.BACK', self.held.pop())


class Worker:
    """A process of workers: threads that run jobs, and one that beats, promotes what is due and rescues what dead processes held.

    `queues` are names, asked in this order at each turn, or names with weights, asked in a random order in which the heavier come first more often.
    `threads` hands take jobs, each up to `prefetch` (1 to 16) at a time. `grace` is for how many seconds a running job is waited for at the end.
    """

    def __init__(self, host=HOST, port=PORT, queues=('default',), threads=4, prefetch=1, grace=25, poll=5, idle=1, log=sys.stderr):
        self._address, self._threads, self._grace, self._poll, self._idle, self._log = (host, port), threads, grace, poll, idle, log
        self._queues, self._jobs, self._delays, self._crons, self._fault = queues, {}, {}, [], None
        self._leading, self._end, self.is_quiet, self.is_ending, self.prefetch = False, threading.Event(), False, False, prefetch
        # A name that no process had before: under a name that beats again what a dead process held would wait for ever.
        self.ident = '%s:%d:%s' % (socket.gethostname()[:200], os.getpid(), secrets.token_hex(6))

    def job(self, function=None, *, name=None, delay=None):
        """Lets the function run the jobs of its name, or of `name`. `delay` answers the seconds until the next run of a job that failed so often."""
        def register(function):
            self._jobs[name or function.__name__], self._delays[name or function.__name__] = function, delay
            return function
        return register if function is None else register(function)

    def every(self, cron, name, *args, queue='default', offset=0):
        """Pushes the job at each minute that the five fields match, once for all processes that have it. `offset` is minutes ahead of UTC."""
        self._crons.append((Cron(cron), '%s %s %s' % (cron, name, queue), draft(name, args, queue=queue), offset))

    def function_of(self, job):
        if job['class'] not in self._jobs:
            raise LookupError('UnknownClass: nobody runs ' + job['class'])
        return self._jobs[job['class']]

    def delay_of(self, name, count):
        rule = self._delays.get(name)
        return None if rule is None else max(0, min(LONGEST_DELAY, int(rule(count))))

    def order(self):
        """The queues in the order of one turn."""
        if not isinstance(self._queues, dict):
            return self._queues
        return sorted(self._queues, key=lambda queue: random.random() ** (1 / self._queues[queue]), reverse=True)

    def say(self, text):
        print(time.strftime('%FT%TZ', time.gmtime()), self.ident, text, file=self._log, flush=True)

    # The thread that beats: at most every five seconds, since a heartbeat stands for a minute.

    def _poll_once(self, ask):
        ask('SK.BEAT', self.ident)
        if not self.is_ending:
            for name in ('schedule', 'retry'):
                self._send_due(ask, name)
            ask('SK.RESCUE')
            if self._crons and ask('SK.LEAD', self.ident) == 1:
                self._push_slots(ask)

    def _send_due(self, ask, name):
        """Sends what is due to its queues, a hundred jobs at a time, since the store does nothing else meanwhile; for five seconds at most."""
        ends = time.monotonic() + 5
        while sum(ask('SK.DUE', name, 100)[:2]) >= 100 and time.monotonic() < ends and not self.is_ending:
            pass

    def _push_slots(self, ask):
        for cron, loop, job, offset in self._crons:
            now = millis()
            slot = cron.last_slot(now, offset)
            if slot is not None:
                with contextlib.suppress(Refused):          # the slot was pushed already, by this process or another one
                    ask('SK.CRON', self.ident, loop, slot, text_of({**job, 'jid': secrets.token_hex(12), 'created_at': now}))

    def _beat(self, hand):
        while not self._end.wait(self._poll):
            with contextlib.suppress(NoMemory):
                self._poll_once(hand.ask)

    def _labour(self, hand):
        while not self.is_quiet:
            if not hand.turn() and not self.is_quiet:
                time.sleep(self._idle * random.uniform(0.5, 1))

    def _guard(self, work, hand):
        """A fault of one thread ends the process: its heartbeat would keep what that thread held from everybody."""
        try:
            work(hand)
        except BaseException as fault:
            self._fault = self._fault or fault
            self.is_quiet = True

    # From the begin to the end.

    def _start(self):
        boss, hands = Hand(self, Connection(*self._address)), [Hand(self, Connection(*self._address)) for _ in range(self._threads)]
        self._poll_once(boss.ask)                           # a process beats before its seats join
        for hand in hands:
            hand.ask('SK.JOIN', self.ident)
        threads = [threading.Thread(target=self._guard, args=(self._labour, hand), daemon=True) for hand in hands]
        beating = threading.Thread(target=self._guard, args=(self._beat, boss), daemon=True)
        self.say('works on %s with %d threads' % (', '.join(self._queues), self._threads))      # before what its jobs have to say
        for thread in (beating, *threads):
            thread.start()
        return hands, threads

    def _listen(self):
        def end(*_):
            self.is_quiet = self._is_told = True

        def quiet(*_):
            self.is_quiet = True
        if threading.current_thread() is threading.main_thread():
            signal.signal(signal.SIGTERM, end)
            signal.signal(signal.SIGINT, end)
            signal.signal(signal.SIGTSTP, quiet)

    def work(self):
        """Works until TERM or INT, gives back what is left, and returns. Raises the fault that ended it, if one did."""
        self._is_told = False
        self._listen()
        hands, threads = self._start()
        while not self._is_told and not self._fault:
            time.sleep(0.1)
        self.is_quiet, ends = True, time.monotonic() + self._grace
        while any(it.is_alive() for it in threads) and time.monotonic() < ends and not self._fault:
            time.sleep(0.05)
        self.is_ending = True
        for hand in hands:
            self._guard(Hand.give_back, hand)
        self._end.set()
        self.say('ends: %s' % (self._fault or 'well'))
        if self._fault:
            raise self._fault

    def stop(self):
        """Lets `work`, in another thread, come to its end as at TERM."""
        self.is_quiet = self._is_told = True

    def run(self):
        """The same, and ends the process: with status 0, or with 1 after a fault. Whoever watches it starts it again, under a new name."""
        try:
            self.work()
        except Error:
            os._exit(1)
        os._exit(0)                                         # a job that was given back may still run here, in vain


if __name__ == '__main__':
    print(__doc__)
