#!/bin/bash
# Compares a list program with the oracle's own, byte for byte: recorded lists, bad lines, inputs at the edges of the
# format, random lists, damaged texts. Before that it shows that the comparison can fail: wrong variants of the oracle's
# program must be found by a few of these inputs.
# usage: compare.sh lists [--lists N] [--seed N] [--program PATH]
#   --lists N        random lists, and as many damaged texts (default 100000)
#   --seed N         their seed (default 7)
#   --program PATH   the list program to compare (default target/bin/solve_lists of the repository)
layer=list_program
crates=()
. "$(dirname "$0")/shared.sh"
known=(lists seed program)
lists=100000

options "$@"
build
compared_program solve_lists

wrong_programs "$bin/oracle-lists" "$bin/oracle-lists-compare" --few 3000 1

step "comparison"
"$bin/oracle-lists-compare" "$lists" "$seed" "$program" || fail "$program differs"
echo "compare lists: no difference"
