#!/usr/bin/env bash
# Makes the figures of docs/PERFORMANCE.md by proved programs, one script after the other, and says on which machine and under which load.
set -eu
top=$(cd "$(dirname "$0")/.." && pwd)
sed -n 's/^model name[^:]*: */processor: /p' /proc/cpuinfo | head -n 1
nproc | sed 's/^/processors: /'
"$top/prove"
for figures in queue count trace; do
    sed 's/ .*//; s/^/load: /' /proc/loadavg
    echo "bench/$figures.sh:"
    "$top/bench/$figures.sh"
done
"$top/bindings/build"
echo "bindings/bench:"
"$top/bindings/bench"
