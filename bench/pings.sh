#!/usr/bin/env bash
# 300,000 PINGs from a file: `sidekiq pipe` to the null device beside `redis-cli --pipe` into a Redis on the same machine, in one run.
set -eu
. "$(dirname "$0")/common.sh"
python3 -c "
import sys
open(sys.argv[1], 'wb').write(b'*1\r\n\$4\r\nPING\r\n' * 300000)" "$folder/pings"
"$top/bin/sidekiq" pipe <"$top/crates/sidekiq/stdin" >/dev/null      # builds it, where it is stale
start_redis
echo "300,000 PINGs, the median of five runs, in seconds"
echo "sidekiq pipe      $(seconds "'$top/bin/sidekiq' pipe <'$folder/pings' >/dev/null")"
echo "redis-cli --pipe  $(seconds "redis-cli -s '$folder/redis' --pipe <'$folder/pings'")"
