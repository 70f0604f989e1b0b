#!/usr/bin/env bash
# 100,000 rounds of LPUSH, LMOVE and PING from a file: `sidekiq pipe` to the null device beside `redis-cli --pipe` into a Redis on the same
# machine, in one run. Once with 118 bytes that are no job, which the store keeps as bytes; once with a job of 118 bytes, whose head is read
# at its push, which Redis doesn't do.
set -eu
. "$(dirname "$0")/common.sh"
PYTHONPATH=$top/bench python3 - "$folder" <<'PY'
import sys
from client import command, job

for name, first in (('bytes', b'x'), ('jobs', b'{')):
    with open(sys.argv[1] + '/' + name, 'wb') as out:
        for n in range(100_000):
            out.write(command(b'LPUSH', b'queue:default', first + job(n)[1:]))
            out.write(command(b'LMOVE', b'queue:default', b'queue:low', b'RIGHT', b'LEFT'))
            out.write(command(b'PING'))
PY
"${SIDEKIQ:-$top/bin/sidekiq}" pipe <"$top/crates/sidekiq/stdin" >/dev/null      # builds it, where it is stale
start_redis
python3 - "$folder" "${SIDEKIQ:-$top/bin/sidekiq}" <<'PY'
import subprocess, sys, time

folder, program = sys.argv[1:]


def seconds(words, name):
    start = time.perf_counter()
    with open(f'{folder}/{name}', 'rb') as commands:
        subprocess.run(words, stdin=commands, stdout=subprocess.DEVNULL, check=True)
    return time.perf_counter() - start


missed = 0
for name in ('bytes', 'jobs'):
    ours, theirs = [], []
    for _ in range(15):         # in turn, so that what else the machine does falls on both
        ours.append(seconds([program, 'pipe'], name))
        theirs.append(seconds(['redis-cli', '-s', f'{folder}/redis', '--pipe'], name))
        subprocess.run(['redis-cli', '-s', f'{folder}/redis', 'flushall'], stdout=subprocess.DEVNULL, check=True)
    print(f'100,000 rounds of LPUSH, LMOVE, PING ({name}), the least of fifteen runs: sidekiq pipe {min(ours):.3f} s, '
          f'redis-cli --pipe {min(theirs):.3f} s, {min(theirs) / min(ours):.2f} of its rounds a second')
    missed += min(theirs) < 1.2 * min(ours)
print(f'{missed} of 2 bars missed: 1.2 of the rounds that Redis does')
sys.exit(missed > 0)
PY
