#!/usr/bin/env python3
"""Runs each command of the documents' `console` blocks, and compares what it prints with what stands there, word for word.

    tour.py [--program PATH] [DOCUMENT ..]

PATH stands for `bin/sidekiq`. With no DOCUMENT: README.md and docs/TOUR.md. A line `$ ..` is a command, and the lines `> ..` behind it
belong to it; what follows is its output. A document's commands are done by one shell, in order, so that functions and variables stay.
Carriage returns aren't shown in a document, and aren't compared. Status 1 where an output differs, 2 where the shell fails.
"""
import argparse
import subprocess
import sys
from pathlib import Path

TOP = Path(__file__).resolve().parent.parent
SECONDS = 120


class Command:
    def __init__(self, number, text):
        self.number, self.text, self.wanted = number, text, []


def commands_of(text):
    """The commands of a document's `console` blocks, each with its line's number and the lines that it is to print."""
    found, within = [], False
    for number, line in enumerate(text.splitlines(), 1):
        if line.startswith('```'):
            within = line.strip() == '```console'
        elif within and line.startswith('$ '):
            found.append(Command(number, line[2:]))
        elif within and line.startswith('> ') and found and not found[-1].wanted:
            found[-1].text += '\n' + line[2:]
        elif within and found:
            found[-1].wanted.append(line)
    return found


def outputs(commands, program):
    """What each command prints, as lines."""
    mark = '\x00next\x00'
    script = ''.join("printf '\\0next\\0'\n%s\n" % it.text.replace('bin/sidekiq', program) for it in commands)
    ran = subprocess.run(['bash', '-c', script], cwd=TOP, stdin=subprocess.DEVNULL, stdout=subprocess.PIPE, timeout=SECONDS)
    said = ran.stdout.decode('utf-8', 'replace').replace('\r', '')
    return [it.splitlines() for it in said.split(mark)[1:]]


def main():
    parser = argparse.ArgumentParser(description='Compares what the commands of the documents print with what stands there.')
    parser.add_argument('--program', default='bin/sidekiq')
    parser.add_argument('documents', nargs='*', default=['README.md', 'docs/TOUR.md'])
    given = parser.parse_args()
    differ = 0
    for name in given.documents:
        commands = commands_of((TOP / name).read_text(encoding='utf-8'))
        printed = outputs(commands, given.program)
        if len(printed) != len(commands):
            print('tour: %s: the shell ended after %d of %d commands' % (name, len(printed), len(commands)))
            return 2
        for command, lines in zip(commands, printed):
            if lines != command.wanted:
                differ += 1
                print('tour: %s:%d: %s' % (name, command.number, command.text.splitlines()[0]))
                print('  shown:   %s\n  printed: %s' % ('\n           '.join(command.wanted), '\n           '.join(lines)))
        print('tour: %s: %d commands run' % (name, len(commands)))
    print('tour: %s' % ('FAILED: %d print something else' % differ if differ else 'ok: each prints what is shown'))
    return int(differ > 0)


if __name__ == '__main__':
    sys.exit(main())
