#!/usr/bin/env bash
# Times the word count against wc -w, a pipeline of tr, sort and uniq and, where rustc is there, plain Rust with one thread and with four, on two texts; compares what they count, and prints the ratios of the
# least times: of three runs each, and of twenty of the program on the first text. What the spans cost is the ratio to a run over the same text in few pieces. Last it times the first text once more, read by one worker and made by --generate.
set -eu
top=$(cd "$(dirname "$0")/.." && pwd)
folder=$(mktemp -d)
trap 'rm -rf "$folder"' EXIT
trap 'exit 130' HUP INT TERM
cd "$folder"

# 48 MB with 159 different words, and 60 MB with about a million
awk 'BEGIN { for (i = 0; i < 10000000; i++) printf "w%d%s", (i % 1000) * (i % 1000) % 1000, i % 10 == 9 ? "\n" : " " }' >few.txt
awk 'BEGIN { srand(1); l = "abcdefghijklmnop"
    for (i = 0; i < 10000000; i++) { n = int(rand() * 1000000); w = ""
        for (j = 0; j < 5; j++) { w = w substr(l, n % 16 + 1, 1); n = int(n / 16) }
        printf "%s%s", w, i % 10 == 9 ? "\n" : " " } }' >many.txt

pipeline() { LC_ALL=C tr -s '[:space:]' '\n' <"$1" | LC_ALL=C sort | uniq -c; }

# whether a count of the program has the words and numbers of wc -w and of the pipeline
is_count() {
    [ "$(sed -n '1s/^words \([0-9]*\) distinct .*/\1/p' counts)" = "$(wc -w <"$1")" ] &&
        [ "$(sed -n '1s/^.* distinct //p' counts)" = "$(($(wc -l <counts) - 1))" ] &&
        pipeline "$1" | sed 's/^ *//' | cmp -s - <(tail -n +2 counts)
}

# the least of so many times, in milliseconds
least() {
    local best= runs=$1
    shift
    for _ in $(seq "$runs"); do
        local from to
        from=$(date +%s%N)
        "$@" >/dev/null
        to=$(date +%s%N)
        local took=$(((to - from) / 1000000))
        [ -n "$best" ] && [ "$best" -le "$took" ] || best=$took
    done
    echo $((best > 0 ? best : 1))
}

plain=
if command -v rustc >/dev/null; then
    rustc -C opt-level=3 -o plain_count "$top/bench/plain_count.rs"
    plain=./plain_count
fi

# plain Rust and the program with one thread and with four, in turn
beside_plain() {
    "$plain" 4 "$1" | cmp -s - counts || {
        echo "count.sh: plain Rust counts otherwise in $1" >&2
        exit 1
    }
    for threads in 1 4; do
        ours=$(least "$2" "$top/crates/bbq_profile/out/bbq_profile" --workers "$threads" "$1")
        rust=$(least "$2" "$plain" "$threads" "$1")
        awk -v t="$1" -v n="$threads" -v o="$ours" -v r="$rust" 'BEGIN {
            printf "%s: %d threads: bbq-profile %d ms, plain Rust %d ms; to plain Rust %.2f\n", t, n, o, r, o / r }'
    done
}

for text in few.txt many.txt; do
    for options in "" "--workers 1 --piece 16777216"; do
        # shellcheck disable=SC2086
        "$top/bbq-profile" $options "$text" >counts
        is_count "$text" || {
            echo "count.sh: other counts of $text $options" >&2
            exit 1
        }
    done
    runs=$([ "$text" = few.txt ] && echo 20 || echo 3)
    ours=$(least "$runs" "$top/crates/bbq_profile/out/bbq_profile" "$text")
    wc=$(least 3 wc -w "$text")
    pipe=$(least 3 pipeline "$text")
    few=$(least "$runs" "$top/crates/bbq_profile/out/bbq_profile" --workers 1 --piece 16777216 "$text")
    awk -v t="$text" -v o="$ours" -v w="$wc" -v p="$pipe" -v f="$few" 'BEGIN {
        printf "%s: bbq-profile %d ms, in few pieces %d ms, wc -w %d ms, pipeline %d ms; to few pieces %.3f, to wc -w %.2f, pipeline to bbq-profile %.1f\n", t, o, f, w, p, o / f, o / w, p / o }'
    [ -z "$plain" ] || beside_plain "$text" "$runs"
done

# the first text again, read and made
read=$(least 10 "$top/crates/bbq_profile/out/bbq_profile" --workers 1 few.txt)
made=$(least 10 "$top/crates/bbq_profile/out/bbq_profile" --workers 1 --generate 10000000)
awk -v r="$read" -v m="$made" 'BEGIN { printf "few.txt: read %d ms, made %d ms; made to read %.2f\n", r, m, m / r }'
