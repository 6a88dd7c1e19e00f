#!/usr/bin/env bash
# Times entries of six words through the queues, beside the same loops over the kit's own queue of 512 entries, and prints nanoseconds an item and ratios:
# a put and a take by one thread, takes alone, one producer and one taker, four producers and one taker, puts that overwrite the oldest entries by one thread
# and by four, and by four while another seat looks the whole time. Two ratios are printed besides: that of a take by a sole consumer to one by RetryRail, and
# that of four overwriting producers beside a looker to those alone. The same steps in plain Rust, by bench/plain_queue.rs, are timed in turn with these where
# rustc is there. The number of blocks of 64 entries is the one argument, 8 if it is left out.
set -eu
top=$(cd "$(dirname "$0")/.." && pwd)
cd "$top/crates/queue_bench"
program=out/queue_bench
rt run >/dev/null # builds it, if need be
folder=$(mktemp -d)
trap 'rm -rf "$folder"' EXIT
trap 'exit 130' HUP INT TERM
plain=true
if command -v rustc >/dev/null; then
    plain=$folder/plain_queue
    rustc --edition 2021 -O -C target-cpu=x86-64-v2 -o "$plain" "$top/bench/plain_queue.rs"
fi
nproc | sed 's/^/processors: /'
for _ in 1 2 3; do
    sed 's/ .*//; s/^/load: /' /proc/loadavg
    "./$program" time "${1:-8}"
    "$plain" "${1:-8}"
done
