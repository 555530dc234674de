#!/bin/bash
# Compares both entries of the port's solver, over words and over overload records, with the excerpt of merc, both builds:
# the answer, the typing, the measure, the choices, the sorts that are kept, and all lent memory. Before that it shows
# that the comparison can fail: wrong stand-ins must be found. Libraries are proved and built first where they
# are not there or older than their crates.
# usage: compare.sh solve [--stand-in] [--questions N] [--seed N]
#   --stand-in     asks the stand-in of compare/solve/src/stand_in.rs in place of the port's library
#   --questions N  lists in all, each put to both entries (default 1000000)
#   --seed N       seed of the random numbers (default 7)
layer=solve counted=lists limit=--count whole=1000
crates=(solve_entries solve_records)
shares=(small 236 few 120 solve 120 join 90 choice 90 dropped 100 edge 80 short 40 damaged 70 words 34 full 3 large 2 deep 1 clash 10 again 4)
. "$(dirname "$0")/shared.sh"
known=(stand-in questions seed)
questions=1000000
compare=$bin/oracle-solve-compare

options "$@"
build

step "situations, the recorded sample, the second search"
cargo test --release --offline --quiet -p solve "${features[@]}" --lib -- --skip wrong_ports_are_found

step "wrong stand-ins are found"
"$bin/oracle-solve-faults" --seed "$seed" | tail -n 1

step "the recorded samples, one of which the gate replays, are what the excerpt answers"
recorded oracle-solve-sample lists/recorded.txt
recorded oracle-solve-words ../crates/replay_solve/stdin

ask_shares
echo "compare solve: $total lists, no difference"
