#!/bin/bash
# Compares the port's unify with the excerpt of merc and with a model of document 01: the answer, what every variable
# stands for, the exact bindings, and all lent memory. Before that it shows that the comparison can fail: wrong stand-ins
# must be found. The library is proved and built first where it is not there or older than its crates.
# usage: compare.sh unify [--stand-in] [--questions N] [--seed N]
#   --stand-in     asks the stand-in of compare/unify/src/stand_in.rs in place of the port's library
#   --questions N  questions in all (default 1000000)
#   --seed N       seed of the random numbers (default 7)
layer=unify counted=questions limit=--questions whole=100
crates=(unify_entries)
shares=(small 15 mixed 25 tangled 15 wide 10 chains 10 deep 8 many 2 full 1 damaged 9 words 5)
. "$(dirname "$0")/shared.sh"
known=(stand-in questions seed)
questions=1000000
compare=$bin/oracle-unify-compare

options "$@"
build

step "questions written by hand, and wrong stand-ins on these"
cargo test --release --offline --quiet -p unify "${features[@]}" --lib

step "wrong stand-ins are found by random lists"
"$bin/oracle-unify-faults" --seed "$seed"

step "the recorded sample, which the gate replays, is what the excerpt answers"
recorded oracle-unify-sample ../crates/replay_unify/stdin

ask_shares
echo "compare unify: $total questions, no difference"
