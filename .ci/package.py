#!/usr/bin/env python3
"""Makes the Debian package into a folder of its own, unpacks it, and tries what is in it.

    package.py [--unproved]

Of the proved program, which must stand built; with `--unproved`, of the other one. Tried are its control file, its files with their modes, what the
program in it needs and answers, its documents' links, the man page, the units, the container file, and, where this user may, that dpkg installs and
removes it in a root of its own. What wants a tool that isn't here is passed over, and said. Status 1 where something is wrong.
"""
import os
import pathlib
import re
import shutil
import stat
import subprocess
import sys
import tempfile

HOME = pathlib.Path(__file__).resolve().parent.parent
UNPROVED = sys.argv[1:] == ['--unproved']
PROGRAM = HOME / ('out/unproved/sidekiq' if UNPROVED else 'crates/sidekiq/out/sidekiq')
SECONDS = 60
LIBC = '2.34'
PASSED_OVER = []

# Each path of the package with its mode, or where a link leads. Documents come beside.
FILES = {
    'usr/bin/sidekiq': 0o755, 'usr/bin/sidekiq-top': '../share/sidekiq/bin/top', 'usr/bin/sidekiq-metrics': '../share/sidekiq/bin/metrics',
    'usr/share/sidekiq/bin/top': 0o755, 'usr/share/sidekiq/bin/metrics': 0o755,
    'usr/share/sidekiq/clients/python/sidekiq.py': 0o644, 'usr/share/sidekiq/clients/ruby/sidekiq_jobs.rb': 0o644,
    'lib/systemd/system/sidekiq-serve.service': 0o644, 'lib/systemd/system/sidekiq-work.service': 0o644,
    'usr/share/man/man1/sidekiq.1.gz': 0o644, 'usr/share/man/man1/sidekiq-top.1.gz': 'sidekiq.1.gz',
    'usr/share/man/man1/sidekiq-metrics.1.gz': 'sidekiq.1.gz', 'usr/share/doc/sidekiq/README.md': 0o644, 'usr/share/doc/sidekiq/VERDICT': 0o644,
    **({'usr/lib/sidekiq/sidekiq': 0o755} if UNPROVED else {}),        # (before it, in usr/bin, stands a script that says what it is)
}


def run(*words, **more):
    return subprocess.run(list(map(str, words)), stdin=subprocess.DEVNULL, capture_output=True, text=True, timeout=SECONDS, **more)


def output(*words, **more):
    done = run(*words, **more)
    assert done.returncode == 0, (words, done.returncode, done.stdout, done.stderr)
    return done.stdout


def has(tool, what):
    """Whether a tool is here; else what it was wanted for is told of at the end."""
    if not shutil.which(tool):
        PASSED_OVER.append('%s, since there is no %s here' % (what, tool))
    return shutil.which(tool)


def control(deb, root):
    """The control file has the fields that dpkg wants, each sound."""
    fields = {name: output('dpkg-deb', '-f', deb, name).strip() for name in
              ('Package', 'Version', 'Architecture', 'Maintainer', 'Depends', 'Conflicts', 'Section', 'Priority', 'Installed-Size', 'Description')}
    assert fields['Package'] == ('sidekiq-unproved' if UNPROVED else 'sidekiq') and fields['Architecture'] == 'amd64', fields
    assert re.fullmatch(r'0\.1\.0\+\d{8}', fields['Version']) and re.fullmatch(r'.+ <\S+@\S+>', fields['Maintainer']), fields
    assert fields['Depends'] == 'libc6 (>= %s)' % LIBC and 'ruby-sidekiq' in fields['Conflicts'], fields
    size = sum(it.stat().st_size for it in root.rglob('*') if it.is_file() and not it.is_symlink()) / 1024
    assert 0.9 * size <= int(fields['Installed-Size']) <= 1.1 * size + 100, (size, fields)
    first, *rest = fields['Description'].split('\n')
    assert 0 < len(first) <= 80 and rest and all(it.startswith(' ') for it in rest), fields
    assert (UNPROVED == ('without the proofs' in first)) and (UNPROVED == ('Nothing of this build is proved' in fields['Description'])), fields


def files(deb, root):
    """Its files are these, with these modes, of root, and the folders are open to all."""
    documents = {'usr/share/doc/sidekiq/docs/' + it.name: 0o644 for it in (HOME / 'docs').glob('*.md')}
    documents['usr/share/doc/sidekiq/edits/README.md'] = 0o644
    found = {}
    for path in root.rglob('*'):
        name, mode = str(path.relative_to(root)), path.lstat().st_mode
        if stat.S_ISDIR(mode):
            assert mode & 0o7777 == 0o755, (name, oct(mode))
        else:
            found[name] = os.readlink(path) if stat.S_ISLNK(mode) else mode & 0o7777
            assert path.exists(), '%s leads nowhere' % name
    assert found == {**FILES, **documents}, sorted(set(found.items()) ^ set({**FILES, **documents}.items()))
    listed = output('dpkg-deb', '-c', deb).splitlines()
    assert all(it.split()[1] == 'root/root' for it in listed) and listed[0].startswith('drwxr-xr-x'), listed


def needs(deb, root):
    """The program needs libc alone, and none newer than the control file says."""
    program = root / ('usr/lib/sidekiq/sidekiq' if UNPROVED else 'usr/bin/sidekiq')
    sum_of = output('sha256sum', program).split()[0]
    verdict = (root / 'usr/share/doc/sidekiq/VERDICT').read_text()
    assert 'sha256 ' + sum_of in verdict and verdict.startswith('NOT PROVED') == UNPROVED, verdict
    assert program.read_bytes() == PROGRAM.read_bytes()
    if has('readelf', 'what the program needs'):
        needed = re.findall(r'\(NEEDED\).*\[(.*)\]', output('readelf', '-dW', program))
        assert set(needed) <= {'libc.so.6', 'libm.so.6', 'libpthread.so.0'}, needed
        versions = {tuple(map(int, it.split('.'))) for it in re.findall(r'GLIBC_(\d+(?:\.\d+)+)', output('readelf', '-VW', program))}
        assert max(versions, default=(0,)) <= tuple(map(int, LIBC.split('.'))), versions


def serving(root):
    """A server that is the unpacked program, or none, which is told of."""
    sys.argv[1:] = [str(root / 'usr/bin/sidekiq')]         # (.ci/server.py takes its program from here)
    sys.path[:0] = [str(HOME / '.ci')]
    from server import Server
    try:
        return Server(4)
    except OSError as fault:
        PASSED_OVER.append('a server, since there is no loopback here: %s' % fault)


def answers(deb, root):
    """/usr/bin/sidekiq answers help and its version with status 0 on standard output, hands on words, input and status, and serves."""
    command = root / 'usr/bin/sidekiq'
    note = 'sidekiq: NOT PROVED: built without the proofs, to look at\n' if UNPROVED else ''
    for words in (['--help'], ['-h'], ['help']):
        assert output(command, *words).startswith('usage: sidekiq pipe | serve | work '), words
    for words in (['work', '--help'], ['work', '-h'], ['help', 'work'], ['work', '--threads', '2', '--help']):
        done = run(command, *words)
        assert (done.returncode, done.stderr) == (0, note) and '\nUsage: sidekiq work ' in '\n' + done.stdout and '--queues' in done.stdout, done
    done = run(command, '--version')
    assert (done.returncode, done.stdout, done.stderr) == (0, 'sidekiq 0.1.0\n', note), done
    done = run(command, 'nothing')
    assert done.returncode == 2 and done.stdout == '' and 'sidekiq: bad command line: nothing' in done.stderr, done
    (root / 'else').symlink_to(command)
    for call in (command, root / 'else'):
        done = subprocess.run([call, 'pipe'], input=b'PING\r\n', capture_output=True, timeout=SECONDS)
        assert (done.returncode, done.stdout, done.stderr.decode()) == (0, b'+PONG\r\n', note), done
    (root / 'else').unlink()
    server = serving(root)
    if not server:
        return
    with server.client() as it:
        it.ask(b'+PONG\r\n', 'PING')
    for name, shown in (('top', 'processed 0'), ('metrics', 'sidekiq_up 1')):
        words = [root / 'usr/bin' / ('sidekiq-' + name), '--port', server.port, *(['--once'] if name == 'top' else [])]
        assert shown in output(sys.executable, *words), name
    assert server.end()[0] == 0


def documents(deb, root):
    """Each link of its documents leads somewhere, and each path of the package that a text names is there."""
    home = root / 'usr/share/doc/sidekiq'
    for document in [home / 'README.md', *(home / 'docs').glob('*.md')]:
        for link in re.findall(r'\]\(([^)#:]+)(?:#[^)]*)?\)', document.read_text()):
            assert (document.parent / link).exists(), (document.name, link)
    texts = [(HOME / 'packaging' / it).read_text() for it in ('sidekiq-serve.service', 'sidekiq-work.service', 'sidekiq.1', 'Containerfile')]
    for path in re.findall(r'(?<![\w/])/(?:usr|lib)/[\w./+-]*\w', '\n'.join([*texts, (HOME / 'README.md').read_text()])):
        assert (root / path[1:]).exists(), '%s is not in the package' % path


def man_page(deb, root):
    """The man page is rendered without a warning, has each command, and each of their options."""
    page = root / 'usr/share/man/man1/sidekiq.1.gz'
    if has('man', 'the man page'):
        done = run('man', '--warnings', '-E', 'UTF-8', '-l', '-Tutf8', '-Z', page, env={**os.environ, 'LC_ALL': 'C.UTF-8'})
        assert (done.returncode, done.stderr) == (0, ''), done
        text = output('man', '-l', page, env={**os.environ, 'LC_ALL': 'C.UTF-8', 'MANWIDTH': '200', 'MANPAGER': 'cat'})
        usage = output(root / 'usr/bin/sidekiq', '--help')
        commands = re.findall(r'(?m)^(\w+) +\w', usage.partition('\n\n')[2])
        assert len(commands) == 9, usage
        for name in commands:
            assert re.search(r'(?m)^ +sidekiq %s\b' % name, text), name
            for option in re.findall(r'--[a-z-]+', output(root / 'usr/bin/sidekiq', name, '--help').partition('Options:')[2]):
                assert option in text or option == '--help', (name, option)


def units(deb, root):
    """systemd takes the units. Their program is the unpacked one, since no other is installed here."""
    if not has('systemd-analyze', 'the units'):
        return
    with tempfile.TemporaryDirectory() as room:
        names = ['sidekiq-serve.service', 'sidekiq-work.service']
        for name in names:
            text = (root / 'lib/systemd/system' / name).read_text()
            assert 'ExecStart=/usr/bin/sidekiq ' in text, name
            (pathlib.Path(room) / name).write_text(text.replace('/usr/bin/sidekiq', str(root / 'usr/bin/sidekiq')))
        done = run('systemd-analyze', 'verify', '--man=no', *(pathlib.Path(room) / it for it in names))
        ours = [it for it in (done.stdout + done.stderr).splitlines() if 'sidekiq' in it]
        assert done.returncode == 0 and not ours, done


def a_stop(deb, root):
    """What the unit does to stop the server ends it with status 0 and its summary, and is over when that is written."""
    text = (HOME / 'packaging/sidekiq-serve.service').read_text()
    line = re.search(r"(?m)^ExecStop=/bin/bash -c '(.*)'$", text)[1]
    server = serving(root)
    if server and has('bash', 'the stop of a unit'):
        words = ['bash', '-c', line.replace('7419', str(server.port))]
        stop = subprocess.Popen(words, stdin=subprocess.DEVNULL, env={**os.environ, 'MAINPID': str(server.process.pid)})
        out, _ = server.process.communicate(timeout=SECONDS)
        assert stop.wait(SECONDS) == 0 and server.process.returncode == 0 and out.startswith(b'sessions 2 acknowledged 0'), out


def container(deb, root):
    """The container file copies the package alone, and starts the program in it with a command that it has."""
    text = (HOME / 'packaging/Containerfile').read_text()
    assert re.findall(r'(?m)^(?:COPY|ADD) (.*)$', text) == [deb.name + ' /tmp/' + deb.name], text
    entry = re.search(r'(?m)^ENTRYPOINT \["(.*?)"\]$', text)[1]
    assert (root / entry.lstrip('/')).exists() and re.search(r'(?m)^CMD \["serve"\]$', text), text
    for path in re.findall(r'(?<![\w/.-])(?:bin|packaging|out)/[\w./]+', text):
        assert (HOME / path).exists() or path == 'out/sidekiq.deb', path
    words = set(re.findall(r'(?m)^([A-Z]+) ', re.sub(r'(?m)^#.*\n', '', text)))
    assert words == {'FROM', 'COPY', 'RUN', 'USER', 'ENTRYPOINT', 'CMD'}, words


def installed(deb, root):
    """dpkg installs it in a root of its own beside a libc6, and removes it without a trace; not beside Debian's ruby-sidekiq."""
    if not has('dpkg', 'an installation'):
        return
    with tempfile.TemporaryDirectory() as room:
        other = pathlib.Path(room)
        for it in ('var/lib/dpkg/info', 'var/lib/dpkg/updates', 'var/lib/dpkg/triggers', 'var/log'):
            (other / it).mkdir(parents=True)
        stanza = 'Package: %s\nStatus: install ok installed\nMaintainer: x <x@x.example>\nArchitecture: %s\nVersion: %s\nDescription: x\n\n'
        status = other / 'var/lib/dpkg/status'
        dpkg = ['dpkg', '--root=' + room, '--force-not-root', '--log=/dev/null']
        path = {**os.environ, 'PATH': '/usr/sbin:/usr/bin:/sbin:/bin'}
        status.write_text(stanza % ('libc6', 'amd64', '2.36-9'))
        if os.geteuid():
            PASSED_OVER.append('an installation, which root alone may try')
            return
        output(*dpkg, '-i', deb, env=path)
        assert output(other / 'usr/bin/sidekiq', '--version') == 'sidekiq 0.1.0\n'
        name = output('dpkg-deb', '-f', deb, 'Package').strip()
        output(*dpkg, '-P', name, env=path)
        left = [it for it in other.rglob('*') if not it.is_dir() and 'var/lib/dpkg' not in str(it)]
        assert not left, left
        status.write_text(stanza % ('libc6', 'amd64', '2.31-1'))
        assert run(*dpkg, '-i', deb, env=path).returncode != 0, 'it is installed beside a libc6 that is too old'
        run(*dpkg, '-P', name, env=path)
        status.write_text(stanza % ('libc6', 'amd64', '2.36-9') + stanza % ('ruby-sidekiq', 'all', '6.4.1'))
        done = run(*dpkg, '-i', deb, env=path)
        assert done.returncode != 0 and 'ruby-sidekiq' in done.stderr, done


TESTS = [control, files, needs, answers, documents, man_page, units, a_stop, container, installed]


def main():
    for tool in ('dpkg-deb', 'gzip'):
        if not shutil.which(tool):
            return print('package: passed over, since there is no %s here' % tool) or 0
    if not PROGRAM.exists():
        return print('package: passed over, since there is no %s' % PROGRAM.relative_to(HOME)) or 0
    failed = []
    with tempfile.TemporaryDirectory() as room:
        room = pathlib.Path(room)
        line = [HOME / 'bin/package', *(['--unproved'] if UNPROVED else []), '--out', room / 'made']
        done = run(*line, preexec_fn=lambda: os.umask(0o077))
        deb, root = room / 'made/sidekiq.deb', room / 'root'
        if done.returncode or not deb.exists():
            print('package: %s' % done)
            return 1
        output('dpkg-deb', '-x', deb, root)
        for test in TESTS:
            try:
                test(deb, root)
            except (AssertionError, OSError, subprocess.SubprocessError, SystemExit) as fault:
                failed.append(test.__name__)
                print('package: %s: %s: %s' % (test.__name__, type(fault).__name__, fault))
    for it in PASSED_OVER:
        print('package: passed over: ' + it)
    print('package: %s' % ('FAILED: ' + ', '.join(failed) if failed else '%d tests, a package of %s' % (len(TESTS), done.stdout.split(', ')[-1].split('.')[0])))
    return int(bool(failed))


if __name__ == '__main__':
    sys.exit(main())
