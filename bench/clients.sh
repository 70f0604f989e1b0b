#!/usr/bin/env bash
# What the clients of others make of `sidekiq serve`: redis-cli (single commands, --pipe, --latency), redis-benchmark, redis-py, ruby-redis. Prints a
# line for each that is installed, and what it did. Debian's packages: redis-tools, python3-redis, ruby-redis.
#
#     clients.sh [--log FILE]    further words of `serve`, as a file for its store, which isn't there yet
set -u
top=$(cd "$(dirname "${BASH_SOURCE[0]}")/.." && pwd)
port=7424
${SIDEKIQ:-"$top/bin/sidekiq"} serve --port $port --loops 64 "$@" >/tmp/served.$$ 2>/dev/null &
trap 'kill %1 2>/dev/null; rm -f /tmp/served.$$' EXIT
until (exec 3<>/dev/tcp/127.0.0.1/$port) 2>/dev/null; do sleep 0.05; done

# NAME, the wanted output, the output.
told() {
    if [ "$2" = "$3" ]; then echo "works: $1"; else printf 'differs: %s\n  wanted %s\n  found  %s\n' "$1" "$2" "$3"; fi
}

if command -v redis-cli >/dev/null; then
    cli() { redis-cli -p $port "$@" 2>&1; }
    told 'redis-cli PING' PONG "$(cli PING)"
    told 'redis-cli SET, GET' 'OK value' "$(cli SET key value) $(cli GET key)"
    told 'redis-cli LPUSH, LRANGE' '2 two one' "$(cli LPUSH queue:q one two) $(cli LRANGE queue:q 0 -1 | paste -sd' ')"
    told 'redis-cli --pipe, 1,000 commands' 'errors: 0, replies: 1000' "$(for _ in $(seq 1000); do printf 'PING\r\n'; done | cli --pipe | tail -n 1)"
    told 'redis-cli --latency' 'numbers' "$(timeout 2 redis-cli -p $port --latency --raw 2>/dev/null | grep -qE '[0-9]' && echo numbers)"
    told 'redis-cli with an unknown command' "ERR unknown command" "$(cli NOSUCH | cut -c1-19)"
fi
if command -v redis-benchmark >/dev/null; then
    told 'redis-benchmark -t ping,set,get,lpush -c 50 -P 16' '4 of 4' \
        "$(redis-benchmark -p $port -t ping_mbulk,set,get,lpush -n 20000 -c 50 -P 16 --csv 2>/dev/null | grep -cE '^"(PING_MBULK|SET|GET|LPUSH)') of 4"
fi
for python in python3 /usr/bin/python3; do
    "$python" -c 'import redis' 2>/dev/null || continue
    told 'redis-py: set, get, a pipeline, a transaction refused' 'True b'"'"'1'"'"' [True, 2, 3] refused' "$("$python" - $port 2>&1 <<'PY'
import sys, redis
it = redis.Redis(port=int(sys.argv[1]))
said = [it.set('n', 1), it.get('n')]
pipe = it.pipeline(transaction=False)
pipe.set('m', 1); pipe.incr('m'); pipe.incr('m')
said.append(pipe.execute())
try:
    it.pipeline().set('x', 1).execute()
    said.append('taken')
except redis.ResponseError:
    said.append('refused')
print(*said)
PY
)"
    break
done
if command -v ruby >/dev/null && ruby -e 'require "redis"' 2>/dev/null; then
    told 'ruby-redis: set, get, lpush, lrange' 'OK 1 1 one' "$(ruby -e '
require "redis"
it = Redis.new(port: ARGV[0].to_i)
puts [it.set("r", 1), it.get("r"), it.lpush("queue:ruby", "one"), it.lrange("queue:ruby", 0, -1)[0]].join(" ")' $port 2>&1 | tail -n 1)"
fi
if command -v redis-cli >/dev/null; then
    redis-cli -p $port SHUTDOWN >/dev/null 2>&1
    wait %1
    told 'redis-cli SHUTDOWN ends the server with status 0' 0 $?
    head -n 1 /tmp/served.$$
fi
