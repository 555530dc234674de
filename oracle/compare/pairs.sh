#!/bin/bash
# Compares a pair program with the oracle's own, byte for byte: pairs and whole inputs written by hand, small cases
# enumerated, random pairs, random whole inputs with odd ends. Before that it shows that the comparison can fail:
# wrong variants of the oracle's program must be found by 5,000 random pairs and 100 random whole inputs.
# usage: compare.sh pairs [--pairs N] [--program PATH]
#   --pairs N        random pairs (default 100000); one whole input for each 50 of them
#   --program PATH   the pair program to compare (default target/bin/pairs of the repository)
layer=pairs
crates=()
. "$(dirname "$0")/shared.sh"
known=(pairs program)
pairs=100000

options "$@"
build
compared_program pairs

step "what the gate runs is what was written by hand"
"$bin/oracle-pairs-hand" lines | cmp - ../crates/pairs/stdin
"$bin/oracle-pairs-hand" answers | cmp - ../crates/pairs/stdout

wrong_programs "$bin/oracle-pairs" "$bin/oracle-pairs-compare" --random 5000

step "comparison"
"$bin/oracle-pairs-compare" "$pairs" "$program" || fail "$program differs"
echo "compare pairs: no difference"
