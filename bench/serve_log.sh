#!/usr/bin/env bash
# `redis-benchmark` against `sidekiq serve --log FILE` with `--sync always` and `--sync 1000`, beside `sidekiq serve` and beside a Redis 7 whose
# append-only file is synced `always` and `everysec`, one after another on the same machine, in one run: commands a second of each, with 1, 16 and 64
# connections, and with 64 and 16 commands to a write. "LPUSH job" pushes jobs of 118 bytes with random ids; PING changes nothing, so its reply waits for
# no sync. The device decides most of it, so the files should lie where a log will.
# Wanted besides what common.sh wants: redis-benchmark. `SIDEKIQ` names another program than bin/sidekiq.
#
#     serve_log.sh [SECONDS [FOLDER]]    how long each takes (3), and where the files are made
set -eu
[ -z "${2-}" ] || export TMPDIR=$2
. "$(dirname "$0")/common.sh"
long=${1:-3}
program=${SIDEKIQ:-"$top/bin/sidekiq"}
"$program" pipe <"$top/crates/sidekiq/stdin" >/dev/null      # builds it, where it is stale
names=(serve log-always log-1000 always everysec)
ports=(7430 7431 7432 7433 7434)
servers=()
trap 'kill "${servers[@]}" 2>/dev/null; wait; rm -rf "$folder"' EXIT
"$program" serve --port 7430 >/dev/null 2>&1 & servers+=($!)
"$program" serve --port 7431 --log "$folder/jobs.log" >/dev/null 2>&1 & servers+=($!)
"$program" serve --port 7432 --log "$folder/late.log" --sync 1000 >/dev/null 2>&1 & servers+=($!)
for at in 3 4; do
    mkdir "$folder/${names[at]}"
    redis-server --port "${ports[at]}" --save '' --dir "$folder/${names[at]}" --appendonly yes --appendfsync "${names[at]}" >/dev/null 2>&1 & servers+=($!)
done
for port in "${ports[@]}"; do until redis-cli -p "$port" ping >/dev/null 2>&1; do sleep 0.05; done; done

# A port, a number of requests, and the words of redis-benchmark: whole commands a second.
rate() {
    redis-benchmark -p "$1" -n "$2" --csv "${@:3}" 2>/dev/null | each_second | cut -d. -f1
}

# The same of as many requests as take some seconds, behind a first run that tells how many these are.
steady() {
    first=$(rate "$1" 2000 "${@:2}")
    rate "$1" "$((first * long + 1))" "${@:2}"
    redis-cli -p "$1" DEL queue:default >/dev/null
}

# NAME, connections, commands to a write, the command's words: a line with the rates of all.
race() {
    line=$(printf '%-9s %2d connections, %2d to a write:' "$1" "$2" "$3")
    for at in 0 1 2 3 4; do
        line+=$(printf ' %s %7d' "${names[at]}" "$(steady "${ports[at]}" -c "$2" -P "$3" -r 2147483647 "${@:4}")")
    done
    echo "$line a second"
}

job='{"args":[1],"class":"Note","created_at":1700000000000,"jid":"__rand_int__abcdef012345","queue":"default","retry":true}'
for shape in '1 1' '16 1' '64 1' '64 16'; do
    set -- $shape
    race PING "$1" "$2" PING
    race 'LPUSH job' "$1" "$2" LPUSH queue:default "$job"
done
