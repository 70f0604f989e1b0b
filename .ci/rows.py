#!/usr/bin/env python3
"""Runs the worked rows of the program's own input and output, and looks whether the rows have all that the store can be asked and can say.

    rows.py [PROGRAM]

A row of form `wire` is the program's input, its words and its status, and what it writes; the input comes whole, in reads of seven bytes and in
reads of one. One of form `repeats` has its files in the notation of repeats, and its input comes whole. Before a row's form may stand `unlike:`,
where something else must come. `sk_rows` runs the rows of all other forms: each must stand in what that program prints.

Every command of the table is answered in a row, by more than an error, and is refused there for a wrong number of words. Every fixed text
is said in a row. Every file of the rows' data belongs to a row. The names and the texts are those of the source.

Prints what is missing and which rows differ, with status 1. The program is the proved one of this checkout, where none is named.
"""
import concurrent.futures
import os
import pathlib
import re
import subprocess
import sys
import tempfile
import threading

HOME = pathlib.Path(__file__).resolve().parent.parent
DATA = HOME / 'crates/sk_rows/data'
SOURCE = HOME / 'crates/sk_resp/src'
PROGRAM = HOME / 'crates/sidekiq/out/sidekiq'
PRINTED = HOME / 'crates/sk_rows/stdout'

# The forms of rows that the program runs itself, with the sizes of the reads by which it gets its input; 0: as much as it asks for.
READS = {'wire': (0, 7, 1), 'repeats': (0,)}

# What only a run without memory says.
UNSEEN = {b'-OOM want of memory'}


def spellings():
    """The commands' names, in lower case."""
    text = (SOURCE / 'name.rt').read_text()
    return [name.encode() for name in re.findall(r'Name::\w+ => b"([^"]+)"', text)]


def fixed_texts():
    """The texts with which a reply can begin; one that quotes a byte or a name ends before it."""
    files = ('say.rt', 'refusal.rt', 'kind.rt')
    text = ''.join((SOURCE / file).read_text() for file in files if (SOURCE / file).exists())
    return {t.encode() for t in re.findall(r'b"([+-][^"]+)"', text)} - UNSEEN


def numbered(piece, count):
    return b''.join(piece.replace(b'#', b'%05d' % n) for n in range(1, count + 1))


def expanded(lines):
    """The bytes that lines `COUNT TEXT` of the notation of repeats stand for."""
    out = []
    for line in lines.splitlines():
        count, text = line.split(b' ', 1)
        piece = re.sub(rb'%([0-9a-fA-F]{2})', lambda m: bytes.fromhex(m.group(1).decode()), text)
        out.append(numbered(piece, int(count)) if b'#' in piece and len(piece) > 1 else piece * int(count))
    return b''.join(out)


def index():
    """The form, the status, the name and the words of each row."""
    for line in (DATA / 'rows.txt').read_text().splitlines():
        form, status, name, *words = line.split()
        yield form, int(status), name, words


def files(form, name):
    """The input and the output of a row."""
    both = [(DATA / f'{name}.{kind}').read_bytes() for kind in ('in', 'out')]
    return [expanded(file) for file in both] if form == 'repeats' else both


def rows(*forms):
    """The input and the output of each row of these forms."""
    for form, _, name, _ in index():
        if form in forms:
            yield files(form, name)


def fed(program, given, size):
    """What the program with its words comes to over an input, by reads of so many bytes: its status, and what it writes."""
    with tempfile.TemporaryFile() as whole:
        if not size:
            whole.write(given)
            whole.seek(0)
            run = subprocess.run(program, stdin=whole, stdout=subprocess.PIPE, stderr=subprocess.DEVNULL, check=False)
            return run.returncode, run.stdout
    # A pipe of packets: each read gets what one write gave.
    reads, writes = os.pipe2(os.O_DIRECT | os.O_CLOEXEC)

    def feed():
        try:
            for at in range(0, len(given), size):
                os.write(writes, given[at:at + size])
        except BrokenPipeError:
            pass
        os.close(writes)

    with subprocess.Popen(program, stdin=reads, stdout=subprocess.PIPE, stderr=subprocess.DEVNULL) as run:
        os.close(reads)
        feeder = threading.Thread(target=feed)
        feeder.start()
        written = run.stdout.read()
        feeder.join()
    return run.returncode, written


def wrong_with(program, row):
    """How often the program ran the row, and a line for each run that came to what it must not."""
    mark, status, name, words = row
    form = mark.removeprefix('unlike:')
    given, wanted = files(form, name)
    wrong = []
    for size in READS[form]:
        came = fed([str(program), *words], given, size)
        if (came == (status, wanted)) == mark.startswith('unlike:'):
            told = 'as it must not be' if mark.startswith('unlike:') else f'status {came[0]}, {came[1][:60]!r}'
            wrong.append(f'{name}, by reads of {size or "all"}: {told}'.encode())
    return len(READS[form]), wrong


def run_rows(program):
    """Runs the program's rows. Gives a line for each that differs, and for each row that neither it nor `sk_rows` runs."""
    own = [row for row in index() if row[0].removeprefix('unlike:') in READS]
    printed = set(PRINTED.read_text().splitlines())
    lines = [f'nothing runs {row[2]}'.encode() for row in index() if row not in own and f'ok {row[2]}' not in printed]
    with concurrent.futures.ThreadPoolExecutor() as pool:
        done = list(pool.map(lambda row: wrong_with(program, row), own))
    print(f'rows: {len(own)} rows of the program, {sum(runs for runs, _ in done)} runs')
    return [*lines, *(line for _, wrong in done for line in wrong)]


def line_at(data, at):
    """The line that begins there without its end, and where the next one begins."""
    end = data.find(b'\n', at)
    return (None, at) if end < 0 else (data[at:end].removesuffix(b'\r'), end + 1)


def array_at(data, at, count):
    """The words of an array whose first word begins there, or nothing where one isn't whole."""
    words = []
    for _ in range(count):
        line, at = line_at(data, at)
        if line is None or not re.fullmatch(rb'\$\d+', line):
            return None, at
        end = at + int(line[1:])
        if data[end:end + 2] != b'\r\n':
            return None, at
        words.append(data[at:end])
        at = end + 2
    return words, at


def commands(data):
    """The first words of the commands of an input, up to its first fault."""
    at = 0
    while True:
        line, at = line_at(data, at)
        if line is None:
            return
        words = line.split()
        if line.startswith(b'*'):
            if not re.fullmatch(rb'\*-?\d+', line):
                return
            words, at = array_at(data, at, int(line[1:]))
            if words is None:
                return
        if words:
            yield words[0].lower()


def skipped(data, at):
    """Where the reply that begins there ends."""
    line, at = line_at(data, at)
    kind, rest = line[:1], line[1:]
    if kind == b'$' and rest != b'-1':
        return at + int(rest) + 2
    if kind == b'*' and rest != b'-1':
        for _ in range(int(rest)):
            at = skipped(data, at)
    return at


def replies(data):
    at = 0
    while at < len(data):
        end = skipped(data, at)
        yield data[at:end].removesuffix(b'\r\n')
        at = end


def unlisted():
    """Files that belong to no row."""
    names = {name for _, _, name, _ in index()}
    for path in sorted(DATA.glob('*/*')):
        if str(path.relative_to(DATA).with_suffix('')) not in names:
            yield b'no row has ' + str(path.relative_to(DATA)).encode()


def is_error(answer):
    return answer.startswith(b'-')


def missing(names, texts):
    """A line for each thing that no row shows."""
    answered, said = set(), set()
    for given, wanted in rows('wire', 'repeats'):
        answers = list(replies(wanted))
        said.update(answers)
        pairs = zip(commands(given), answers)
        answered.update(name for name, answer in pairs if not is_error(answer))
    for _, wanted in rows('steps'):
        said.update(line.removesuffix(b'\r') for line in wanted.split(b'\n'))
    for name in names:
        if name not in answered:
            yield b'no answer to ' + name
        if b"-ERR wrong number of arguments for '%s' command" % name not in said:
            yield b'no wrong number of words of ' + name
    for text in sorted(texts):
        if not any(answer.startswith(text) for answer in said):
            yield b'nothing says ' + text


def main():
    names, texts = spellings(), fixed_texts()
    program = pathlib.Path(sys.argv[1]).resolve() if len(sys.argv) > 1 else PROGRAM
    lines = [*missing(names, texts), *unlisted(), *run_rows(program)]
    for line in lines:
        print(line.decode())
    return 1 if lines or not names or not texts else 0


if __name__ == '__main__':
    sys.exit(main())
