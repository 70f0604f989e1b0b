#!/usr/bin/env bash
# The reader of requests alone: 100 MB of LPUSH commands, each with one job of 118 bytes, from a file, beside `redis-cli --pipe` of the
# same bytes into a Redis on the same machine. The program that feeds the reader is made and built in a folder of its own.
set -eu
. "$(dirname "$0")/common.sh"
job='{"args":[1],"class":"Note","created_at":1700000000000,"jid":"0123456789abcdef01234567","queue":"default","retry":true}'
python3 -c "
import sys
job = sys.argv[2].encode()
one = b'*3\r\n\$5\r\nLPUSH\r\n\$13\r\nqueue:default\r\n\$%d\r\n%s\r\n' % (len(job), job)
open(sys.argv[1], 'wb').write(one * (100_000_000 // len(one)))" "$folder/jobs" "$job"
mkdir -p "$folder/count/crates/count/src"
cp -r "$top/crates/sk_resp" "$folder/count/crates/"
printf 'sk_resp:\ncount: sk_resp\n' >"$folder/count/crates.txt"
cat >"$folder/count/crates/count/src/main.rt" <<'RT'
// Reads requests from standard input, and counts them.
#![tactic(auto)]

use sk_resp::Feeder;
use std::io::{self, Read};

fn main(rt: HostRuntime) -> io::Result<()> {
    let alloc = rt.alloc();
    let mut feeder = Feeder::new(alloc);
    let mut piece = vec![in alloc; 0u8; 65536]?;
    let mut input = rt.stdin();
    let mut count = 0usize;
    for _ in 0..1000000 {
        let n = input.read(&mut piece)?;
        if n == 0 {
            break;
        }
        let mut out = Vec::new(alloc);
        let fed = feeder.feed(&piece[..n], &mut out);
        count = count.wrapping_add(out.len());
        if fed.is_err() {
            break;
        }
    }
    println!(rt; "{count}")?;
    Ok(())
}
RT
(cd "$folder/count/crates/count" && rt run </dev/null >"$folder/build.log" 2>&1) || { cat "$folder/build.log" >&2; exit 1; }
count=$folder/count/crates/count/out/count
start_redis
size=$(stat -c %s "$folder/jobs")
echo "$("$count" <"$folder/jobs") commands, $size bytes, the median of five runs, in seconds"
ours=$(seconds "'$count' <'$folder/jobs'")
echo "the reader        $ours ($(python3 -c "print(round($size / $ours / 1e6))") MB/s)"
redis-cli -s "$folder/redis" config set maxmemory 0 >/dev/null
echo "redis-cli --pipe  $(seconds "redis-cli -s '$folder/redis' --pipe <'$folder/jobs'; redis-cli -s '$folder/redis' flushall")"
