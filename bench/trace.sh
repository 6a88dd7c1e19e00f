#!/usr/bin/env bash
# Times a run that writes a trace of some 190,000 spans, the same run with --fold, writing such a trace by plain Rust where rustc is there, and reading it by
# bbq-trace, and by json.load of python3 and by jq where they are there: the least of five runs each in turn, and the peak memory of bbq-trace where GNU time is there.
set -eu
top=$(cd "$(dirname "$0")/.." && pwd)
folder=$(mktemp -d)
trap 'rm -rf "$folder"' EXIT
trap 'exit 130' HUP INT TERM
cd "$folder"
run=(--generate 10000000 --piece 256 --blocks 64 --size 4096 --workers 1)

"$top/bbq-profile" "${run[@]}" >counts
"$top/bbq-trace" trace.json >totals
bytes=$(wc -c <trace.json)
sed -n 's/^/trace: /; 1p' totals

profile() { "$top/crates/bbq_profile/out/bbq_profile" "$@"; }
by_bbq_trace() { "$top/crates/bbq_trace/out/bbq_trace" trace.json; }
by_python3() { python3 -c 'import json; json.load(open("trace.json"))'; }
by_jq() { jq . trace.json; }

# the least of five runs in milliseconds
least() {
    local best=
    for _ in 1 2 3 4 5; do
        local from to took
        from=$(date +%s%N)
        "$@" >/dev/null
        to=$(date +%s%N)
        took=$(((to - from) / 1000000))
        [ -n "$best" ] && [ "$best" -le "$took" ] || best=$took
    done
    echo $((best > 0 ? best : 1))
}

few=$(least profile --generate 10000000 --piece 16777216 --workers 1)
plain=$(least profile "${run[@]}")
folded=$(least profile "${run[@]}" --fold)
awk -v f="$few" -v p="$plain" -v o="$folded" 'BEGIN {
    printf "few pieces %d ms, many %d ms, many and --fold %d ms\n", f, p, o
    if (p > f) printf "folding to noting and writing the spans %.2f\n", (o - p) / (p - f) }'

if command -v rustc >/dev/null; then
    rustc --edition 2021 -O -o plain_trace "$top/bench/plain_trace.rs"
    pieces=$(grep -o '"cat":"piece"' trace.json | wc -l)
    by_plain_rust() { ./plain_trace "$pieces" >plain.json; }
    written=$(least by_plain_rust)
    awk -v f="$few" -v p="$plain" -v w="$written" -v n="$pieces" 'BEGIN {
        printf "a trace of %d pieces by plain Rust %d ms; noting and writing the spans to that %.1f\n", n, w, (p - f) / w }'
fi

ours=$(least by_bbq_trace)
for reader in bbq_trace python3 jq; do
    [ "$reader" = bbq_trace ] || command -v "$reader" >/dev/null || continue
    took=$(least "by_$reader")
    awk -v n="$reader" -v t="$took" -v o="$ours" -v b="$bytes" 'BEGIN {
        printf "reading by %s: %d ms, %.1f MB/s, to bbq-trace %.2f\n", n, t, b / t / 1000, t / o }'
done
if [ -x /usr/bin/time ]; then
    peak=$( { /usr/bin/time -f %M "$top/crates/bbq_trace/out/bbq_trace" trace.json >/dev/null; } 2>&1)
    awk -v p="$peak" -v b="$bytes" 'BEGIN { printf "peak memory of bbq-trace: %.1f times the text\n", p * 1024 / b }'
fi
