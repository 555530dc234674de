#!/bin/bash
# Times a pair program, `cat` and the oracle's pair program on one file of about 100 MB of random pairs, in turn,
# three rounds, with the output thrown away. The best time of each and its peak memory are printed.
# usage: speed_pairs.sh [--pairs N] [PROGRAM [ARGUMENT]...]
#   --pairs N   pairs in the file (default 570000, about 100 MB)
#   PROGRAM     the pair program to time (default target/bin/pairs of the repository)
set -euo pipefail
export LC_ALL=C
pairs=570000
if [ "${1:-}" = --pairs ]; then
    pairs=${2:?expected a number after --pairs}
    shift 2
fi
program=$(realpath -m "${1:-$(dirname "$0")/../../target/bin/pairs}")
[ $# -eq 0 ] || shift
cd "$(dirname "$0")/.."
bin=target/timing
work=$(mktemp -d)
trap 'rm -r "$work"' EXIT

fail() { echo "speed_pairs: $1" >&2; exit 1; }

# Runs a command on the input and leaves its peak memory in KB: by GNU time, or else as /proc last said before the
# command ended.
run() {
    if [ -x /usr/bin/time ]; then
        /usr/bin/time --format %M --output "$work/peak" "$@" < "$work/input" > /dev/null
    else
        "$@" < "$work/input" > /dev/null &
        while grep VmHWM "/proc/$!/status" > "$work/now" 2> /dev/null; do
            awk '{ print $2 }' "$work/now" > "$work/peak"
        done
        wait $!
    fi
}

# Adds a line to the measurements: name, start, end, peak.
measure() {
    local name=$1 start end
    shift
    start=$EPOCHREALTIME
    run "$@" || fail "$name ended with status $?"
    end=$EPOCHREALTIME
    echo "$name $start $end $(cat "$work/peak")" >> "$work/measured"
}

merc/setup.sh > /dev/null
cargo build --profile timing --offline --quiet -p pairs
[ -x "$program" ] || fail "$program is not there: build it first, or give the path of another pair program"
"$bin/oracle-pairs-gen" 1 "$pairs" > "$work/input"
lines=$(wc -l < "$work/input")
bytes=$(wc -c < "$work/input")
echo "$bytes bytes, $lines lines"

for _ in 1 2 3; do
    measure cat cat
    measure oracle "$bin/oracle-pairs"
    measure program "$program" "$@"
done

awk -v lines="$lines" -v bytes="$bytes" '
    { seconds = $3 - $2 }
    !($1 in best) || seconds < best[$1] { best[$1] = seconds }
    $4 > peak[$1] { peak[$1] = $4 }
    END {
        printf "%-8s %9s %9s %12s %9s %14s\n", "", "s", "peak KB", "lines/s", "MB/s", "time / oracle"
        split("cat oracle program", names)
        for (n = 1; n <= 3; n++) {
            name = names[n]
            printf "%-8s %9.3f %9d %12.0f %9.1f %14.2f\n", name, best[name], peak[name], lines / best[name],
                bytes / best[name] / 1e6, best[name] / best["oracle"]
        }
    }' "$work/measured"
