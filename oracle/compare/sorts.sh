#!/bin/bash
# Compares the proved sorts layer with the excerpt of merc, in short: under a minute once the library is built.
# The library is proved and built first where it is not there or older than its crates (about 3 minutes).
# usage: compare.sh sorts [--seed N]
layer=sorts
crates=(sort_entries)
. "$(dirname "$0")/shared.sh"
known=(seed)

some() { "$bin/oracle-sorts-compare" --class "$1" --seed "$seed" --from "$2" --count "$3"; }

options "$@"
build

step "wrong ports are found"
cargo test --release --offline --quiet -p sorts --lib

step "the recorded sample, which the gate replays, is what the excerpt answers"
recorded oracle-sorts-sample ../crates/replay_sorts/stdin

step "comparison"
some pairs 850000 40000
some mixed 0 10000
some deep 0 1000
some far 0 500
some full-rows 0 50
some full-entries 0 5000
some damaged 0 20000
some words 0 20000
some clash 0 500
some again 0 300

echo "compare sorts: no difference"
