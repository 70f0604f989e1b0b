#!/usr/bin/env python3
"""Runs a command, and tells at its end how many processor minutes each crate took, as a table that docs/PROVED.md can have.

    minutes.py COMMAND [WORD ..]

The command keeps its input and output, and its status is ours, whatever goes wrong here. Every two seconds /proc tells which processes of it
there are. A process `rattle` counts for the crate that it names: as an edit where it stands in a folder of edits, else as a test, else as a
proof; each other process counts as `other`. What ended between two looks is only in the sum, which the system counts.
The last line tells the machine's load as well: how much of its processors' time went to what isn't of the command. Beside much else the same
proof takes more processor seconds, so a figure says little without it.
"""
import collections
import os
import re
import resource
import signal
import subprocess
import sys
import threading
import time

CEILING = 200                                   # processor minutes that the gate may take
QUIET = 5                                       # percent of the processors' time that others may take of a quiet machine
SECONDS = 2
TICKS = os.sysconf('SC_CLK_TCK')
COLUMNS = ('proof', 'tests', 'edits')


class Process:
    """A process of the command, with its processor seconds when it was last seen."""

    def __init__(self, pid, parent, name):
        self.parent, self.own, self.waited = parent, 0, 0
        self.crate, self.column = kind_of(pid)
        self.name = 'rattle' if self.crate else name


def kind_of(pid):
    """The crate that a process checks or builds, and the column that it counts in."""
    try:
        with open('/proc/%d/cmdline' % pid, errors='replace') as it:
            words = it.read().split('\0')
        if os.path.basename(words[0]) != 'rattle' or '--crate-name' not in words:
            return None, None
        is_edit = '/rt-edit-' in os.readlink('/proc/%d/cwd' % pid)
        return words[words.index('--crate-name') + 1], 'edits' if is_edit else 'tests' if '--test' in words else 'proof'
    except (OSError, IndexError):
        return None, None


def seen_now():
    """Each process of the machine: its number, parent, name, own seconds, those of its children that have ended, and when it began."""
    for name in os.listdir('/proc'):
        if name.isdigit():
            try:
                with open('/proc/%s/stat' % name, errors='replace') as it:
                    said = re.match(r'\d+ \((.*)\) \S (.*)', it.read(), re.S)
            except OSError:
                continue
            words = said[2].split()
            own, waited = (sum(map(int, words[at:at + 2])) / TICKS for at in (10, 12))
            yield int(name), int(words[0]), said[1], own, waited, words[18]


class Meter:
    """The processes of a command, by number and beginning, since a number is given again."""

    def __init__(self, root):
        self.root, self.found, self.spent = root, {}, collections.Counter()

    def look(self):
        now = {it[0]: it for it in seen_now()}
        alive = {}
        for pid in now:
            self.enter(pid, now, alive)
        for process in alive.values():
            if process.crate and not self.is_below_rattle(process):
                self.spent[process] = self.whole(process, alive.values())

    def enter(self, pid, now, alive):
        """The process of this number, if it is of the command; its parents are entered before it."""
        if pid not in now or pid in alive:
            return alive.get(pid)
        _, parent, name, own, waited, began = now[pid]
        above = self.enter(parent, now, alive) if pid != self.root else None
        key = pid, began
        if pid != self.root and not above and key not in self.found:
            return None
        process = self.found.get(key)
        if not process or (process.name != name and not process.crate):        # (it runs another program now)
            process = self.found[key] = Process(pid, above, name)
        process.own, process.waited = own, waited
        alive[pid] = process
        return process

    def is_below_rattle(self, process):
        return bool(process.parent) and (bool(process.parent.crate) or self.is_below_rattle(process.parent))

    def whole(self, process, alive):
        """The seconds of a process, of its children that have ended, and of those that live."""
        return process.own + process.waited + sum(self.whole(it, alive) for it in alive if it.parent is process)

    def others(self):
        """The seconds of each other program, and of those the ones that a crate's process has started."""
        names, within = collections.Counter(), collections.Counter()
        for process in self.found.values():
            if not process.crate:
                names[process.name] += process.own
                above = process.parent
                while above and above not in self.spent:
                    above = above.parent
                within[above] += process.own
        return names, within

    def by_crate(self):
        names, within = self.others()
        crates = collections.defaultdict(collections.Counter)
        for process, seconds in self.spent.items():
            crates[process.crate][process.column] += max(seconds - within[process], 0)
        return crates, names


def busy():
    """The seconds in which the machine's processors have done something, for us or, where the machine is a guest, for its host's others."""
    with open('/proc/stat') as it:
        words = [int(word) for word in it.readline().split()[1:9]]
    return (sum(words) - words[3] - words[4]) / TICKS        # (not idle, not waiting for a disk)


def load(others, wall, processors):
    """What the figures were measured under: how much of the processors' time went to what isn't of the command."""
    share = 100 * others / (wall * processors)
    how = 'a quiet machine' if share < QUIET else 'a busy machine, on which the same work takes more processor minutes'
    return 'What else ran took %.1f processor minutes, %.0f %% of the %d processors: %s.' % (others / 60, share, processors, how)


def row(*cells):
    return '| %s |' % ' | '.join(it if isinstance(it, str) else '%.1f' % (it / 60) if it >= 3 else '' for it in cells)


def table(crates, names, total):
    lines = [row('Crate', *(it.capitalize() for it in COLUMNS), 'All'), '|---' * (len(COLUMNS) + 2) + '|']
    for crate, spent in sorted(crates.items(), key=lambda it: -sum(it[1].values())):
        lines.append(row('`%s`' % crate, *(spent[it] for it in COLUMNS), sum(spent.values())))
    told = ', '.join('%s %.1f' % (name, seconds / 60) for name, seconds in names.most_common(4) if seconds >= 3)
    lines.append(row('other' + (': ' + told if told else ''), '', '', '', sum(names.values())))
    lines.append(row('not seen by process', '', '', '', total - seen(crates, names)))
    lines.append(row('all', *(sum(spent[it] for spent in crates.values()) for it in COLUMNS), total))
    return lines


def seen(crates, names):
    return sum(sum(it.values()) for it in crates.values()) + sum(names.values())


def report(meter, command, wall, of_all):
    """Prints the table and the sum. The system counts what was waited for, and so not what a command left when it was ended."""
    crates, names = meter.by_crate()
    used = resource.getrusage(resource.RUSAGE_CHILDREN)
    total = max(used.ru_utime + used.ru_stime, seen(crates, names))
    processors = len(os.sched_getaffinity(0))
    said = load(max(of_all - total, 0), wall, processors)
    lines = ['', 'Processor minutes of `%s`, by `.ci/minutes.py`:' % ' '.join(command), '', *table(crates, names, total), '']
    lines.append('%.1f processor minutes, in %.1f minutes on %d processors. %s' % (total / 60, wall / 60, processors, said))
    if total > CEILING * 60:
        lines.append('!!! %.0f PROCESSOR MINUTES: MORE THAN THE %d THAT THE GATE MAY TAKE !!!' % (total / 60, CEILING))
    print('\n'.join(lines), flush=True)


def watch(child, ended):
    """Looks until the child has ended, and calls what tells the rest."""
    meter, began, at_first = Meter(child.pid), time.monotonic(), busy()
    while not ended.wait(SECONDS):
        meter.look()
    return lambda command: report(meter, command, time.monotonic() - began, busy() - at_first)


def guarded(call, *given):
    """What the call gives; what goes wrong in it is told, and changes nothing else."""
    try:
        return call(*given)
    except Exception as error:
        try:
            print('minutes: %s: %s' % (type(error).__name__, error), file=sys.stderr)
        except OSError:
            pass
        return None


def main(command):
    if not command:
        print(__doc__.strip())
        return 2
    try:
        child = subprocess.Popen(command)
    except OSError as error:
        print('minutes: %s: %s' % (command[0], error.strerror), file=sys.stderr)
        return 127
    for it in (signal.SIGTERM, signal.SIGHUP):
        signal.signal(it, lambda number, _: child.send_signal(number))
    signal.signal(signal.SIGINT, lambda *_: None)            # (a terminal sends it to the child too)
    ended = threading.Event()
    threading.Thread(target=lambda: (child.wait(), ended.set()), daemon=True).start()
    tell = guarded(watch, child, ended)
    ended.wait()
    if tell:
        guarded(tell, command)
    return child.returncode if child.returncode >= 0 else 128 - child.returncode


if __name__ == '__main__':
    status = main(sys.argv[1:])
    guarded(sys.stdout.flush)
    os._exit(status)                                         # (where nobody reads what is printed, Python would end with a status of its own)
