# What the scripts of this folder share. One that reads this has set 'top', runs in a folder of its own, and ends with 'summary'.
program=$top/crates/bbq_profile/out/bbq_profile
folder=$(mktemp -d) || exit 1
trap 'chmod -R u+rwx "$folder"; rm -rf "$folder"' EXIT
trap 'exit 130' HUP INT TERM
cd "$folder" || exit 1
passed=0 failed=0
older='an older trace'

# The program, as it is proved and built today.
"$top/bbq-profile" --generate 1 >counts 2>messages || { cat messages >&2; exit 1; }

# One more check: what it is of, and what is wrong, if anything.
judge() {
    if [ -z "$2" ]; then
        passed=$((passed + 1))
    else
        failed=$((failed + 1))
        echo "${0##*/}: $1: $2"
    fi
}

# The trace that stands: the older one, a whole one, one that is cut short, or something else.
trace_now() {
    case $(cat trace.json 2>/dev/null) in
    "$older") echo older ;;
    '{"displayTimeUnit":"ms",'*']}') echo whole ;;
    '' | '{'*) echo part ;;
    *) echo other ;;
    esac
}

# Begins a run with --fold: an older trace, and no folded times.
begin() {
    rm -f trace.json.folded
    printf '%s' "$older" >trace.json
}

# What such a run left, whose counts are those of 'whole'.
left_now() {
    local said folded=none
    case $(cat counts) in '') said=none ;; "$(cat whole)") said=whole ;; *) said=other ;; esac
    [ ! -e trace.json.folded ] || folded=begun
    echo "counts $said, trace $(trace_now), folded times $folded"
}

# What is wrong where a run without all memory ended with this status and left that.
wrong_with() {
    case "$1: $2" in
    '0: counts whole, trace whole, folded times begun') return ;;
    '3: counts none, trace older, folded times none' | '3: counts whole, trace older, folded times none') ;;
    '3: counts whole, trace part, folded times none' | '3: counts whole, trace whole, folded times none') ;;
    '3: counts whole, trace whole, folded times begun') ;;
    *)
        echo "status $1, $2"
        return
        ;;
    esac
    # The list of arguments may be what there is no memory for.
    [ "$(cat messages)" = 'bbq-profile: out of memory' ] || [ ! -s messages ] || echo "the message '$(cat messages)'"
}

# How often each of these came.
tally() {
    printf '%s\n' "$@" | sort | uniq -c
}

summary() {
    echo "${0##*/}: $passed passed, $failed failed"
    [ "$failed" -eq 0 ]
}
