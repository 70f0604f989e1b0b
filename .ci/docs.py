#!/usr/bin/env python3
"""Checks what the documents say against the tree, and prints a line for each check. Status 1 where one fails.

    docs.py            check
    docs.py --write    first bring the counted blocks of docs/PROVED.md up to date
    docs.py --clauses  print the clauses that are too long

The checks, in order:
- map         docs/CODE.md names every file of each crate's src/ and specs/, and no other.
- volumes     What docs/PROVED.md says of how much there is to read, volume by volume and law by law, is what .ci/statement.py counts.
- reading     So is its list of what to read to know that no job is lost.
- edits       So are its lists of edits: those that the gate tries, and those of edits/.
- named       Each edit that .ci/named_edits.txt names stands in one of the two places, and the names are sorted.
- tried       Tells of each crate whose code has changed since its edits in edits/ were last tried. It never fails.
- libraries   crates.txt names the libraries that the crate's files name, and no others.
- contracts   Each row `definition` | `file` of a document's table names a file that has the word.
- links       Each relative link of a document leads somewhere.
- toolchain   docs/PROVED.md names the sum of the logic that `rt version` prints, where there is one: kits of other names share it.
- citations   No file of the repository cites a numbered paper.
- lines       No line of a document is longer than 150 characters.
- clauses     No crate has more clauses above 150 characters, each joined to one line, than its ceiling says. A ceiling only falls.
"""
import re
import subprocess
import sys
from pathlib import Path

sys.dont_write_bytecode = True
import statement                                # (beside this file)

TOP = Path(__file__).resolve().parent.parent
sys.path.insert(0, str(TOP / 'edits'))
import try_edits
CRATES = TOP / 'crates'
LONGEST = 150
DOCUMENTS = [TOP / 'README.md', *sorted((TOP / 'docs').glob('*.md'))]
PROVED, CODE = TOP / 'docs' / 'PROVED.md', TOP / 'docs' / 'CODE.md'

def text_of(path):
    return path.read_text(encoding='utf-8') if path.is_file() else ''


def short(path):
    return str(path.relative_to(TOP))


def crate_names():
    lines = (it.split(':')[0].split() for it in text_of(TOP / 'crates.txt').splitlines() if not it.startswith('#'))
    return [it[0] for it in lines if it]


def tracked():
    """The repository's files, or, where there is no git, all but what was built."""
    try:
        said = subprocess.run(['git', 'ls-files', '-co', '--exclude-standard'], cwd=TOP, capture_output=True, text=True, check=True).stdout
        found = [TOP / it for it in said.splitlines()]
    except (OSError, subprocess.CalledProcessError):
        found = [it for it in TOP.rglob('*') if '.git' not in it.parts and 'out' not in it.parts]
    return [it for it in found if it.is_file()]


# ---------------------------------------------------------------------------------------------
# The map

UNNAMED = {'src/lib.rt', 'src/tests.rt', 'specs/Lib.antt'}     # a crate's root, its tests, and the list of its specs


def sections(text):
    """The crates' sections of the map: name to text."""
    parts = re.split(r'(?m)^## (\w+)[^\n]*\n', text)
    return {name: body for name, body in zip(parts[1::2], parts[2::2]) if (CRATES / name).is_dir()}


def files_in(crate, *parts):
    found = (it for part in parts for it in (CRATES / crate / part).rglob('*') if it.suffix in ('.rt', '.antt'))
    return {str(it.relative_to(CRATES / crate)) for it in found}


def named_in(body, files):
    """Which of the files the backticked words name, and which words name none: a path, or the name alone of a file that is deeper in src/."""
    named, lost = set(), []
    for word in re.findall(r'`([\w/*]+\.(?:rt|antt))`', body):
        pattern = re.compile(re.escape(word).replace(r'\*', r'\w*') + '$')
        found = {it for it in files if pattern.match(it) or ('/' not in word and it.count('/') > 1 and pattern.match(it.split('/')[-1]))}
        named |= found
        lost += [word] * (not found)
    return named, lost


def check_map():
    wrong, bodies, count = [], sections(text_of(CODE)), 0
    for crate in crate_names():
        if crate not in bodies:
            wrong.append('docs/CODE.md has no section "## %s"' % crate)
            continue
        files = files_in(crate, 'src', 'specs')
        named, lost = named_in(bodies[crate], files | files_in(crate, 'proofs'))
        missing = {it for it in files - named if it not in UNNAMED and not it.endswith('/tests.rt')}
        count += len(files)
        wrong += ['docs/CODE.md, %s: %s is not named' % (crate, it) for it in sorted(missing)]
        wrong += ['docs/CODE.md, %s: there is no %s' % (crate, it) for it in lost]
    return wrong, '%d files of %d crates' % (count, len(crate_names()))


# ---------------------------------------------------------------------------------------------
# Blocks of docs/PROVED.md that are counted: between `<!-- counted: NAME -->` and `<!-- end -->`

BLOCK = r'(?s)(<!-- counted: %s -->\n)(.*?)(<!-- end -->)'


def number(lines):
    return format(lines, ',')


def counted_volumes():
    """The statement in volumes, and each law with its own number of lines."""
    volumes = statement.volumes()
    lines = [statement.lines_of(it) for _, it in volumes]
    rows = ['%d definitions with %s lines, some %d pages of 60 lines:'
            % (sum(len(it) for _, it in volumes), number(sum(lines)), -(-sum(lines) // 60)), '',
            '| Volume | What | Definitions | Lines |', '|---|---|---|---|']
    rows += ['| %s | %s | %d | %s |' % (numeral, title, len(found), number(count))
             for numeral, (title, found), count in zip(('I', 'II', 'III', 'IV'), volumes, lines)]
    laws = list(statement.laws())
    shared = set.intersection(*(found for _, _, found in laws))
    rows += ['', 'Of the first volume all laws need the world and its changes, %s lines; and each law its own:' % number(statement.lines_of(shared)), '',
             '| Law | Begins at | Lines of its own |', '|---|---|---|']
    rows += ['| `%s` | `%s` in `%s/specs/%s.antt` | %s |' % (law, word, crate, name, number(statement.lines_of(found - shared)))
             for law, (crate, name, word), found in laws]
    return '\n'.join([*rows, '']), '%s lines in volumes' % number(sum(lines))


# What a reader of the law of live jobs begins with, in this order; the rest is what these name.
FIRST = ['Laws', 'Life', 'Live', 'Event', 'Change', 'World']


def counted_reading():
    """What to read to know that no job is lost: the files that define what the law needs, with their definitions."""
    found = next(it for law, _, it in statement.laws() if law == 'live_jobs_stand')
    files = statement.by_file(found)
    order = sorted(files, key=lambda it: (FIRST.index(it[1]) if it[0] == 'sk_model' and it[1] in FIRST else len(FIRST), crate_names().index(it[0]), it[1]))
    rows = ['| File | Definitions | Lines |', '|---|---|---|']
    for crate, name in order:
        words = sorted(word for c, n, word in found if (c, n) == (crate, name))
        told = ', '.join('`%s`' % it for it in words[:4]) + (', ..' if len(words) > 4 else '')
        rows.append('| `%s/specs/%s.antt` | %s | %d |' % (crate, name, told, files[crate, name]))
    return '\n'.join([*rows, '']), '%s lines for the law of live jobs' % number(statement.lines_of(found))


def edit_folders(crate):
    return CRATES / crate / 'must-fail', TOP / 'edits' / crate


def in_lines(text):
    lines, line = [], ''
    for word in text.split(' '):
        if len(line) + len(word) >= LONGEST - 10:
            lines, line = [*lines, line], ''
        line = (line + ' ' + word).strip()
    return [*lines, line]


def counted_edits():
    lines, total = [], 0
    for place, what in enumerate(('The gate tries %d in %d crates: %s.', 'In `edits/` stand %d in %d crates: %s.')):
        counts = {it: len(list(edit_folders(it)[place].glob('*.edit'))) for it in crate_names()}
        counts = {it: count for it, count in counts.items() if count}
        told = ', '.join('`%s` %d' % it for it in counts.items())
        lines += ['', *in_lines(what % (sum(counts.values()), len(counts), told))]
        total += sum(counts.values())
    return '\n'.join([*lines[1:], '']), '%d edits' % total


def check_named():
    names = text_of(TOP / '.ci' / 'named_edits.txt').split()
    wrong = ['.ci/named_edits.txt: there is no edit %s' % it for it in names
             if not any((folder / (it.split('/')[1] + '.edit')).is_file() for folder in edit_folders(it.split('/')[0]))]
    wrong += ['.ci/named_edits.txt is not sorted, or names an edit twice'] * (names != sorted(set(names)))
    return wrong, '%d names' % len(names)


def check_tried():
    done = try_edits.tried()
    crates = [it for it in crate_names() if any(edit_folders(it)[1].glob('*.edit'))]
    late = [it for it in crates if it not in done or done[it][2] != try_edits.sum_of(it)]
    told = 'edits/try_edits.py has not tried these since they changed: ' + ', '.join(late) if late else '%d crates' % len(crates)
    return [], told


def check_dependencies():
    wrong, count = [], 0
    for line in text_of(TOP / 'crates.txt').splitlines():
        if line.startswith('#') or ':' not in line:
            continue
        crate, _, names = line.partition(':')
        texts = [text_of(CRATES / crate / it) for it in files_in(crate, 'src', 'specs', 'proofs')]
        code = re.sub(r'//[^\n]*', '', '\n'.join(texts))
        count += len(names.split())
        wrong += ['crates.txt: no file of %s names %s' % (crate, it) for it in names.split() if not re.search(r'\b%s\b' % it, code)]
    return wrong, '%d names' % count


COUNTED = {'volumes': counted_volumes, 'reading': counted_reading, 'edits': counted_edits}


def wrapped(text):
    """The same table with rows below the longest line, the files of a long row in two."""
    out = []
    for line in text.splitlines():
        cells = [it.strip() for it in line.strip('|').split('|')] if line.startswith('| `') else []
        while cells and len(line) > LONGEST:
            at = cells[1].rfind(', ', 0, LONGEST - 40)
            out.append('| %s | %s, | |' % (cells[0], cells[1][:at]))
            cells = ['', cells[1][at + 2:], cells[2]]
            line = '| %s | %s | %s |' % tuple(cells)
        out.append(line)
    return '\n'.join(out) + '\n'


def check_counted(name):
    made, summary = COUNTED[name]()
    found = re.search(BLOCK % name, text_of(PROVED))
    if not found:
        return ['docs/PROVED.md has no block "counted: %s"' % name], summary
    return ['docs/PROVED.md: what is counted of "%s" has changed: run .ci/docs.py --write' % name] * (found[2] != wrapped(made)), summary


def write():
    text = text_of(PROVED)
    for name, call in COUNTED.items():
        text = re.sub(BLOCK % name, lambda it: it[1] + wrapped(call()[0]) + it[3], text)
    PROVED.write_text(text, encoding='utf-8')


# ---------------------------------------------------------------------------------------------
# Rows that name a definition and its file, links, citations, lengths


def stands(word, text):
    """Whether a file has the word: of `Type::function` both, of a name the whole word, and anything else as it is written."""
    call = re.fullmatch(r'([A-Z]\w*)::([a-z]\w*)', word)
    if call:
        return call[1] in text and bool(re.search(r'\bfn %s\b' % call[2], text))
    return bool(re.search(r'\b%s\b' % word, text)) if re.fullmatch(r'\w+', word) else word in text


def check_contracts():
    """A table row whose last cell is files, and whose cell before it has words: each word stands in one of the files."""
    wrong, count = [], 0
    for document in DOCUMENTS:
        for line in text_of(document).splitlines():
            cells = [it.strip() for it in re.split(r'(?<!\\)\|', line)[1:-1]] if line.startswith('|') else []
            paths = re.findall(r'`(sk_\w+/[\w/]+\.(?:rt|antt))`', cells[-1]) if len(cells) > 1 else []
            if not paths:
                continue
            texts = [text_of(CRATES / it) for it in paths]
            wrong += ['%s: there is no crates/%s' % (short(document), it) for it, text in zip(paths, texts) if not text]
            for word in re.findall(r'`([^`]+)`', cells[-2]):
                count += 1
                if not any(stands(word, it) for it in texts):
                    wrong.append('%s: `%s` is not in %s' % (short(document), word, ', '.join(paths)))
    return wrong, '%d words' % count


def check_links():
    wrong, count = [], 0
    for document in DOCUMENTS:
        for link in re.findall(r'\]\(([^)#:]+)(?:#[^)]*)?\)', text_of(document)):
            count += 1
            if not (document.parent / link).exists():
                wrong.append('%s: the link %s leads nowhere' % (short(document), link))
    return wrong, '%d links' % count


def check_toolchain():
    try:
        version = subprocess.run(['rt', 'version'], capture_output=True, text=True, check=True).stdout.strip()
    except (OSError, subprocess.CalledProcessError):
        return [], 'no rt here'
    logic = re.search(r'\blogic \w+', version)
    if not logic:
        return ['rt version names no logic: %s' % version], version
    return ['docs/PROVED.md names another logic than that of %s' % version] * (logic[0] not in text_of(PROVED)), version


CITATION = re.compile(r'\b(?:D\d{1,2}|T\d\.\d|[RSW]\d{1,2})\b|\bdocument 0\d\b', re.ASCII)
NO_CITATION = re.compile(r'RFC \d+|RESP[23]|ISO 8601')


def check_citations():
    wrong, files = [], [it for it in tracked() if it != Path(__file__).resolve()]
    for path in files:
        try:
            text = text_of(path)
        except UnicodeDecodeError:
            continue
        for number, line in enumerate(text.splitlines(), 1):
            found = CITATION.search(NO_CITATION.sub('', line))
            if found:
                wrong.append('%s:%d cites %s' % (short(path), number, found[0]))
    return wrong, '%d files' % len(files)


def check_lines():
    wrong = ['%s:%d has %d characters' % (short(it), number, len(line)) for it in DOCUMENTS
             for number, line in enumerate(prose(text_of(it)), 1) if len(line) > LONGEST]
    return wrong, '%d documents' % len(DOCUMENTS)


def prose(text):
    """The lines of a document, those of its code blocks blank."""
    is_code = False
    for line in text.splitlines():
        is_code ^= line.startswith('```')
        yield '' if is_code else line


# How many clauses of each crate's src/ are longer than a line of a document. A number here only falls; a crate that isn't named has none.
CEILINGS = {
    'sk_base': 1, 'sk_resp': 12, 'sk_talk': 8, 'sk_zset': 1, 'sk_value': 1, 'sk_payload': 6, 'sk_places': 15, 'sk_batch': 12,
    'sk_leases': 1, 'sk_jobs': 1, 'sk_core': 1, 'sk_pipe': 3, 'sk_serve': 2, 'sk_policy': 2, 'sk_worker': 1, 'sk_middle': 1, 'sk_cron': 2,
    'sk_app': 5,
}
CLAUSE = re.compile(r'\s*(?:requires|ensures|invariant|decreases)\b')


def clauses_of(path):
    """The clauses of a file, each with the number of its first line, joined to one line: it ends where its braces balance."""
    clause, first = '', 0
    for number, line in enumerate(text_of(path).splitlines(), 1):
        if not clause and not CLAUSE.match(line):
            continue
        first = first if clause else number
        clause = (clause + ' ' + line.strip()).strip()
        if '{' in clause and clause.count('{') == clause.count('}'):
            yield first, clause
            clause = ''


def long_clauses(crate):
    return ['%s:%d has %d characters' % (short(it), number, len(clause)) for it in sorted((CRATES / crate / 'src').rglob('*.rt'))
            for number, clause in clauses_of(it) if len(clause) > LONGEST]


def check_clauses():
    counts = {it: len(long_clauses(it)) for it in crate_names()}
    wrong = ['%s has %d clauses above %d characters, and its ceiling is %d: name a fact of theirs (docs.py --clauses)'
             % (it, count, LONGEST, CEILINGS.get(it, 0)) for it, count in counts.items() if count > CEILINGS.get(it, 0)]
    low = [it for it, most in CEILINGS.items() if counts.get(it, 0) < most]
    told = '%d clauses are longer than %d characters' % (sum(counts.values()), LONGEST)
    return wrong, told + (', lower the ceilings of ' + ', '.join(low) if low else '')


CHECKS = {
    'map': check_map,
    'volumes': lambda: check_counted('volumes'),
    'reading': lambda: check_counted('reading'),
    'edits': lambda: check_counted('edits'),
    'named': check_named,
    'tried': check_tried,
    'libraries': check_dependencies,
    'contracts': check_contracts,
    'links': check_links,
    'toolchain': check_toolchain,
    'citations': check_citations,
    'lines': check_lines,
    'clauses': check_clauses,
}


def main(words):
    if words not in ([], ['--write'], ['--clauses']):
        print(__doc__.strip())
        return 2
    if words == ['--clauses']:
        print('\n'.join(line for crate in crate_names() for line in long_clauses(crate)))
        return 0
    if words == ['--write']:
        write()
    failed = False
    for name, check in CHECKS.items():
        wrong, summary = check()
        for it in wrong:
            print('docs: %s' % it)
        print('docs: %s: %s (%s)' % (name, 'FAILED, %d' % len(wrong) if wrong else 'ok', summary))
        failed = failed or bool(wrong)
    return int(failed)


if __name__ == '__main__':
    sys.exit(main(sys.argv[1:]))
