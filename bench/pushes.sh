#!/bin/sh
# Pushes 100,000 jobs of 118 bytes in requests of 1,000 over a link in memory, by the client, and makes the same bytes by a Rust program, where
# rustc is at hand. Prints the seconds of five runs each. Nothing is installed.
#
#     bench/pushes.sh [JOBS]
set -e
cd "$(dirname "$0")/.."
jobs=${1:-100000}
(cd crates/sk_rows && rt run -- pushes 1 >/dev/null)
client=crates/sk_rows/out/sk_rows
folder=$(mktemp -d)
trap 'rm -rf "$folder"' EXIT
cat > "$folder/pushes.rs" <<'RUST'
use std::fmt::Write;
fn main() {
    let jobs: u64 = std::env::args().nth(1).unwrap().parse().unwrap();
    let texts: Vec<String> = (1..=jobs)
        .map(|n| format!("{{\"args\":[1],\"class\":\"Note\",\"created_at\":1700000000000,\"jid\":\"{n:024}\",\"queue\":\"default\",\"retry\":true}}"))
        .collect();
    let mut taken: Vec<u8> = Vec::new();
    for slice in texts.chunks(1_000) {
        let mut request = String::new();
        write!(request, "*{}\r\n$5\r\nLPUSH\r\n$13\r\nqueue:default\r\n", slice.len() + 2).unwrap();
        for text in slice {
            write!(request, "${}\r\n{text}\r\n", text.len()).unwrap();
        }
        taken.extend_from_slice(request.as_bytes());
    }
    println!("{} bytes", taken.len());
}
RUST
measure() {
    for _ in 1 2 3 4 5; do
        start=$(date +%s%N)
        "$@" >"$folder/out"
        end=$(date +%s%N)
        awk "BEGIN { printf \"%.3f \", ($end - $start) / 1e9 }"
    done
    tail -n 1 "$folder/out"
}
printf 'client, %s jobs: ' "$jobs"
measure "$client" pushes "$jobs"
if command -v rustc >/dev/null; then
    rustc -O -o "$folder/pushes" "$folder/pushes.rs"
    printf 'rust, %s jobs: ' "$jobs"
    measure "$folder/pushes" "$jobs"
fi
