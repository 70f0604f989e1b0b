#!/usr/bin/env bash
# `redis-benchmark` against `sidekiq serve --loops 64` and against a Redis 7, one after another on the same machine, in one run: commands a second
# of each and their ratio, with 1 and 50 connections, with and without 16 commands to a write; and in brackets how many microseconds of a processor
# each server took for a command, which other work on the machine changes less. "LPUSH job" pushes jobs with random ids, as Sidekiq's are.
# Wanted besides what common.sh wants: redis-benchmark.
#
#     serve.sh [REQUESTS]        how many requests of each kind (100000)
set -eu
. "$(dirname "$0")/common.sh"
requests=${1:-100000}
port=7420
${SIDEKIQ:-"$top/bin/sidekiq"} pipe <"$top/crates/sidekiq/stdin" >/dev/null      # builds it, where it is stale
${SIDEKIQ:-"$top/bin/sidekiq"} serve --port $port --loops 64 >"$folder/served" 2>/dev/null &
server=$!
redis-server --port 7421 --save '' --appendonly no --daemonize no >"$folder/redis.log" 2>&1 &
redis_pid=$!
trap 'kill "$redis_pid" "$server" 2>/dev/null; rm -rf "$folder"' EXIT
for at in $port 7421; do until redis-cli -p $at ping >/dev/null 2>&1; do sleep 0.05; done; done

# How many ticks a process had a processor, with all its threads.
ticks() {
    awk '{ sub(/.*\) /, ""); print $12 + $13 }' "/proc/$1/stat"
}

# A server's port and process, and the words of redis-benchmark: its commands a second, and the microseconds of a processor that each took.
rate() {
    at=$1 process=$2 before=$(ticks "$2")
    shift 2
    redis-benchmark -p "$at" -n "$requests" --csv "$@" 2>/dev/null | each_second
    echo "$(ticks "$process") $before $(getconf CLK_TCK) $requests" | awk '{ print ($1 - $2) / $3 * 1000000 / $4 }'
}

# NAME, connections, commands to a write, the command's words: a line with both rates and their ratio.
race() {
    name=$1 connections=$2 batch=$3
    shift 3
    { rate $port "$server" -c "$connections" -P "$batch" -r 100000 "$@"; rate 7421 "$redis_pid" -c "$connections" -P "$batch" -r 100000 "$@"; } |
        paste -sd' ' | awk -v name="$name" -v c="$connections" -v p="$batch" \
        '{ printf "%-12s %3d connections, %2d to a write: sidekiq %9.0f, Redis %9.0f a second, %.2f [%.1f us, %.1f us]\n", name, c, p, $1, $3, $1 / $3, $2, $4 }'
}

job='{"args":[1],"class":"Note","created_at":1700000000000,"jid":"__rand_int__abcdef012345","queue":"default","retry":true}'
for at in $port 7421; do for _ in $(seq 100); do printf 'RPUSH hundred x\r\n'; done | redis-cli -p $at --pipe >/dev/null; done
for shape in '1 1' '50 1' '1 16' '50 16'; do
    set -- $shape
    race PING "$1" "$2" PING
    race SET "$1" "$2" SET key:__rand_int__ xxx
    race GET "$1" "$2" GET key:__rand_int__
    race INCRBY "$1" "$2" INCRBY counter:__rand_int__ 1
    race LPUSH "$1" "$2" LPUSH list xxx
    race 'LPUSH job' "$1" "$2" -r 2147483647 LPUSH queue:default "$job"
    for at in $port 7421; do redis-cli -p $at DEL queue:default >/dev/null; done
    race LMOVE "$1" "$2" LMOVE list other RIGHT LEFT
    race LRANGE_100 "$1" "$2" LRANGE hundred 0 99
    race ZADD "$1" "$2" ZADD sorted __rand_int__ member:__rand_int__
    race HSET "$1" "$2" HSET hash field:__rand_int__ xxx
    race SADD "$1" "$2" SADD set member:__rand_int__
done
redis-cli -p $port shutdown >/dev/null 2>&1 || true
