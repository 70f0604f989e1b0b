# What the benchmarks share: a folder of their own, a Redis of their own, the time of a command, and what redis-benchmark says.
# Nothing is installed. Wanted: bash, python3, redis-server and redis-cli (Debian's packages redis-server and redis-tools).

top=$(cd "$(dirname "${BASH_SOURCE[0]}")/.." && pwd)
for tool in python3 redis-server redis-cli; do
    command -v "$tool" >/dev/null || { echo "bench: $tool is wanted" >&2; exit 1; }
done
folder=$(mktemp -d)
redis_pid=
trap '[ -z "$redis_pid" ] || kill "$redis_pid"; rm -rf "$folder"' EXIT

# A Redis that keeps nothing on disk, on a socket in the folder.
start_redis() {
    redis-server --port 0 --unixsocket "$folder/redis" --save '' --appendonly no --daemonize no >"$folder/redis.log" 2>&1 &
    redis_pid=$!
    until redis-cli -s "$folder/redis" ping >/dev/null 2>&1; do sleep 0.05; done
}

# The median of five runs of a shell line, in seconds.
seconds() {
    for _ in 1 2 3 4 5; do
        python3 - "$1" <<'PY'
import subprocess, sys, time
start = time.perf_counter()
subprocess.run(['bash', '-c', sys.argv[1]], check=True, stdout=subprocess.DEVNULL, stderr=subprocess.DEVNULL)
print('%.3f' % (time.perf_counter() - start))
PY
    done | sort -n | sed -n 3p
}

# What redis-benchmark says with --csv: its commands a second, which stand before six other numbers. (The command before them may have commas.)
each_second() {
    tail -n 1 | awk -F, '{ gsub(/"/, "", $(NF - 6)); print $(NF - 6) }'
}
