#!/bin/bash
# Times the proved libraries and the excerpt of merc on the same inputs and writes docs/BENCH.md and docs/bench.svg. Takes
# about a minute once the libraries and the program are built. On a machine that is busy it refuses, unless `--busy measure` is given.
# With --save only checks and interning by the number of sorts are timed, and kept in FILE. Such a file of other libraries is drawn as
# "before": that of --before, or bench/before-c14.tsv, which is of the libraries that had no index.
# usage: bench/run.sh [--seed N] [--lists N] [--repeats N] [--busy measure] [--before FILE | --save FILE]
crates=(sort_entries unify_entries solve_entries solve_records)
. "$(dirname "$0")/../oracle/compare/shared.sh"

for crate in "${crates[@]}"; do prove "$crate"; done
merc/setup.sh
cargo build --profile timing --offline --quiet -p bench
root=$(cd .. && pwd)
before=()
[ ! -f "$root/bench/before-c14.tsv" ] || before=(--before "$root/bench/before-c14.tsv")
cd "$from"
"$root/oracle/target/timing/bench" --out "$root/docs" "${before[@]}" "$@"
