#!/usr/bin/env python3
"""Tries bin/sidekiq over a tree of its own with a toolchain that only plays: when it builds, what it says, and what it hands back.

    launcher.py [NAME ..]

The tree has one crate and no file else, so each test takes a second or two. Status 1 where a test fails.
"""
import os
import pathlib
import shutil
import subprocess
import sys
import tempfile
import time

HOME = pathlib.Path(__file__).resolve().parent.parent
SECONDS = 60
# What `rt ci` does in the room that the launcher makes: it waits for the file `go`, proves the one crate as the file `verdict` says, builds a program
# that tells its words, and then has tests to run for a long time, of which the launcher wants none.
RT = '''#!/bin/sh
[ "$1" = ci ] || exit 1
echo began >>%(here)s/builds
until [ -e %(here)s/go ]; do sleep 0.05; done
mkdir -p crates/sidekiq/out
printf '#!/bin/sh\\necho "it got $*"\\nexit 7\\n' >crates/sidekiq/out/sidekiq
chmod +x crates/sidekiq/out/sidekiq
echo "rt: sidekiq $(cat %(here)s/verdict)"
exec sleep 60
'''


class Tree:
    """A checkout with the launcher and one crate, and a toolchain that plays."""

    def __init__(self, here):
        self.here, self.launcher = here, here / 'tree/bin/sidekiq'
        (here / 'tree/bin').mkdir(parents=True)
        (here / 'tree/crates/sidekiq/src').mkdir(parents=True)
        (here / 'play').mkdir()
        shutil.copy(HOME / 'bin/sidekiq', self.launcher)
        self.source = here / 'tree/crates/sidekiq/src/main.rt'
        for path, text in ((here / 'tree/crates.txt', 'sidekiq:\n'), (here / 'tree/HANDLES', ''), (self.source, ''), (here / 'verdict', 'proved'),
                           (here / 'go', ''), (here / 'play/rt', RT % {'here': here})):
            path.write_text(text)
        (here / 'play/rt').chmod(0o755)
        self.names = {**os.environ, 'PATH': '%s:%s' % (here / 'play', os.environ['PATH'])}

    def start(self, *words, **more):
        return subprocess.Popen([self.launcher, *words], stdin=subprocess.DEVNULL, stdout=subprocess.PIPE, stderr=subprocess.PIPE, text=True,
                                **{'env': self.names, **more})

    def run(self, *words, **more):
        """The status, the output, and what it said."""
        process = self.start(*words, **more)
        out, said = process.communicate(timeout=SECONDS)
        return process.returncode, out, said

    def builds(self):
        path = self.here / 'builds'
        return len(path.read_text().splitlines()) if path.exists() else 0


def built_once(tree):
    """The program is built where it is missing and where a source is newer, and else runs at once, with the words and the status its own."""
    status, out, said = tree.run('push', 'a b')
    assert (status, out, tree.builds()) == (7, 'it got push a b\n', 1), (status, out, said)
    assert 'proving and building the program' in said and 'sidekiq is proved, 1 of 1, after 0 min' in said and 'built in 0 min' in said, said
    status, out, said = tree.run('--', '--help')
    assert (status, out, tree.builds()) == (7, 'it got -- --help\n', 1) and 'proving' not in said, said
    later = time.time() + 5
    os.utime(tree.source, (later, later))
    assert tree.run()[0] == 7 and tree.builds() == 2


def two_at_once(tree):
    """Whoever comes while it is being built says that he waits, and builds nothing."""
    (tree.here / 'go').unlink()
    first = tree.start('first')
    end = time.time() + SECONDS
    while not tree.builds():
        assert time.time() < end, 'nothing is built'
        time.sleep(0.02)
    second = tree.start('second')
    assert second.stderr.readline() == 'bin/sidekiq: waits for the build that is going on in another process\n'
    (tree.here / 'go').write_text('')
    for process, name in ((first, 'first'), (second, 'second')):
        out, said = process.communicate(timeout=SECONDS)
        assert (process.returncode, out) == (7, 'it got %s\n' % name), (process.returncode, out, said)
    assert tree.builds() == 1


def not_proved(tree):
    """A crate that isn't proved is told of, and leaves no program, with status 70; nor is there one without the toolchain, with status 69."""
    (tree.here / 'verdict').write_text('NOT PROVED: 1 of 2 functions')
    status, out, said = tree.run('pipe')
    assert (status, out) == (70, '') and 'sidekiq is NOT proved' in said and 'did not build: see' in said and 'build.log' in said, (status, said)
    assert 'NOT PROVED' in (tree.here / 'tree/crates/sidekiq/out/build.log').read_text()
    without = tree.here / 'without'
    without.mkdir()
    for tool in ('sh', 'readlink', 'dirname', 'awk', 'sed', 'find', 'mkdir', 'flock', 'rm', 'date', 'cat'):
        (without / tool).symlink_to(shutil.which(tool))
    status, out, said = tree.run('pipe', env={'PATH': str(without)})
    assert (status, out) == (69, '') and 'the toolchain (rt) is not on the PATH' in said, (status, said)


TESTS = [built_once, two_at_once, not_proved]


def main():
    if not shutil.which('flock'):
        print('launcher: passed over, since there is no flock here')
        return 0
    failed, wanted = [], sys.argv[1:]
    for test in TESTS:
        if wanted and test.__name__ not in wanted:
            continue
        with tempfile.TemporaryDirectory() as here:
            try:
                test(Tree(pathlib.Path(here)))
            except (AssertionError, OSError, subprocess.SubprocessError) as fault:
                failed.append(test.__name__)
                print('launcher: %s: %s: %s' % (test.__name__, type(fault).__name__, fault))
    print('launcher: %s' % ('FAILED: ' + ', '.join(failed) if failed else '%d tests' % len(wanted or TESTS)))
    return int(bool(failed))


if __name__ == '__main__':
    sys.exit(main())
