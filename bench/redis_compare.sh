#!/usr/bin/env bash
# 20,000 random plain commands, done by `sidekiq pipe` and by a Redis on the same machine, and compared reply by reply. Where no Redis is
# installed it says so, and passes. Our tables choose otherwise than Redis in some places; the list, with the reasons, is at the head of
# redis_compare.py, and `--differences` prints it. All else must be the same.
#
#   bench/redis_compare.sh [--seed N] [--commands N] [--inputs N] [--program "CMD pipe"]
#   bench/redis_compare.sh --differences
#
# Wanted: bash, python3 and redis-server (Debian's package redis-server). Status 1 at a difference, 2 where a switch is wrong or a Redis or the
# program doesn't run.
set -eu
top=$(cd "$(dirname "$0")/.." && pwd)
command -v python3 >/dev/null || { echo 'redis_compare: python3 is wanted' >&2; exit 2; }
exec python3 "$top/bench/redis_compare.py" "$@"
