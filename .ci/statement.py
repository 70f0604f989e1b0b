"""What one reads to know what a contract means: the definitions of specs/ that it names, and those that these name, followed word by word.

    statement.py              print the volumes, the laws, and what to read to know that no job is lost
    statement.py CRATE MODULE NAME [CUT ..]
                              print the definitions that this one needs, by file; at the names CUT it stops

A definition's lines are its own, with the comment above it; imports, headings and blank lines count nowhere. Each definition counts once, in the
first volume that needs it.
"""
import re
import sys
from collections import Counter
from pathlib import Path

CRATES = Path(__file__).resolve().parent.parent / 'crates'

HEADLINE = ('sk_app', 'src/top.rt')                  # the top call
PIPE = ('sk_pipe', 'src/command_line.rt')            # what it does for `pipe`
RELIABLE = ('sk_model', 'Reliable', 'IsReliable')    # what holds of every run
STEP = ('sk_model', 'Step', 'MayComeTo')             # what each command comes to
CUT = ('sk_model', 'Step', 'cut')                    # what a cut comes to
WORDS = ('sk_cmd', 'Table', 'IsRead')                # which command words are

KIND = r'(?:abbrev|unfoldable|opaque|mutual|record|data|interface)'
HEAD = re.compile(r'^(?:(?:pub|%s)\s+)+([^\s:({]+)|^\s+(?:%s\s+)+(?:pub\s+)?([^\s:({]+)' % (KIND, KIND))     # (inside a module it is indented)
WORD = re.compile(r"[A-Za-z_][\w'₀-₉-]*")
USE = re.compile(r'(?m)^\s*(?:pub )?(?:ghost )?use (Rattle\.[\w.]+?)\.?(\{[^}]*\})?(?: as (\w+))?;?\s*$')


class Module:
    """A file of specs/: its definitions, each a list of lines; the fields of its records; what it imports."""

    def __init__(self, path):
        text = path.read_text(encoding='utf-8')
        self.path, self.imports = path, imports(text)
        self.definitions, self.fields = blocks(USE.sub('', text))


def imports(text):
    """Name to (path, word): what a use line brings. The word is None where the whole module comes."""
    found = {}
    for path, words, other in USE.findall(text):
        for it in words.strip('{}').split(',') if words else ():
            word = re.match(r'\s*(\S+?)(?: as (\S+))?\s*$', it)
            if word:
                found[word[2] or word[1]] = (path, word[1])
        if not words:
            found[other or path.split('.')[-1]] = (path, None)
    return found


def blocks(text):
    found, fields, above, name = {}, {}, [], None
    for line in text.splitlines():
        head = HEAD.match(line)
        if line.startswith('-- ##') or not line.strip():
            above = above if line.strip() == '' else []
        elif head:
            name = head[1] or head[2]
            found.setdefault(name, []).extend([*above, line])
            above = []
        elif line.lstrip().startswith('--') and not line.startswith(' '):
            above.append(line)
        elif name:
            found[name] += [*above, line]
            above = []
            field = re.match(r'\s+(?:pub\s+)?([A-Za-z_]\w*)\s*:', line)
            if field:
                fields.setdefault(field[1], name)
    return found, fields


MODULES = {}


def module(crate, name):
    if (crate, name) not in MODULES:
        path = CRATES / crate / 'specs' / (name + '.antt')
        MODULES[crate, name] = Module(path) if path.is_file() else None
    return MODULES[crate, name]


def places(crate, name, word):
    """Where a word of a module of specs/ is defined: (crate, module, definition), or none that is ours."""
    here = module(crate, name)
    if here is None:
        return None
    if word in here.definitions:
        return crate, name, word
    if word in here.imports:
        return follow(*here.imports[word])
    return (crate, name, here.fields[word]) if word in here.fields else None


def follow(path, word):
    parts = path.split('.')
    if len(parts) < 4 or parts[2] != 'specs' or parts[3] == 'declared':
        return None
    word = word or (parts[4] if len(parts) > 4 else None)
    return places(parts[1], parts[3], word) if word else None


def words(lines):
    code = ' '.join(re.sub(r'"[^"]*"', '', it) for it in lines if not it.lstrip().startswith('--'))
    return set(WORD.findall(code))


def needed(starts, stops=()):
    """The definitions that these need, themselves among them. At `stops` it goes no further, and leaves them out."""
    found, left = set(), [it for it in starts if it]
    while left:
        it = left.pop()
        if it in found or it in stops:
            continue
        found.add(it)
        crate, name, word = it
        left += filter(None, (places(crate, name, other) for other in words(module(crate, name).definitions[word])))
    return found


def lines_of(found):
    return sum(len(module(crate, name).definitions[word]) for crate, name, word in found)


def by_file(found):
    """(crate, module) to how many lines of it are needed."""
    count = Counter()
    for crate, name, word in found:
        count[crate, name] += len(module(crate, name).definitions[word])
    return count


def named_by(crate, file):
    """The definitions that the clauses of a file's functions name."""
    text = (CRATES / crate / file).read_text(encoding='utf-8')
    return [follow(*it) for it in imports(text).values()]


def volumes():
    """(title, definitions) of each volume."""
    runs = needed([RELIABLE], {STEP, CUT, WORDS})
    steps = needed([STEP, CUT], {WORDS}) - runs
    pipe = needed(named_by(*PIPE)) - runs - steps
    programs = needed(named_by(*HEADLINE)) - runs - steps - pipe
    return [('What holds of every run', runs), ('What each command comes to', steps), ('The wire, the words, and the pipe', pipe), ('The programs', programs)]


def laws():
    """(law, definitions) of each part of what is reliable."""
    _, fields = blocks('\n'.join(module(*RELIABLE[:2]).definitions[RELIABLE[2]]))
    shared = {STEP, CUT, WORDS}
    for line in module(*RELIABLE[:2]).definitions[RELIABLE[2]]:
        field = re.match(r'\s+pub (\w+) : (\w+)', line)
        if field:
            start = places(*RELIABLE[:2], field[2])
            yield field[1], start, needed([start], shared)


def main(given):
    if given:
        crate, name, word, *cuts = given
        found = needed([places(crate, name, word)], {it for it in needed([places(crate, name, word)]) if it[2] in cuts})
    else:
        for title, found in volumes():
            print('%s: %d definitions, %d lines' % (title, len(found), lines_of(found)))
        for law, start, found in laws():
            print('%s: %s, %d lines, %d files' % (law, '.'.join(start), lines_of(found), len(by_file(found))))
        found = next(found for law, _, found in laws() if law == 'live_jobs_stand')
    for (crate, name), count in sorted(by_file(found).items()):
        print('%5d  %s/specs/%s.antt: %s' % (count, crate, name, ', '.join(sorted(w for c, n, w in found if (c, n) == (crate, name)))))
    return 0


if __name__ == '__main__':
    sys.exit(main(sys.argv[1:]))
