#!/bin/bash
# Compares the definition of the search (crates/inference/specs) with the excerpt of merc: random lists and the excerpt's
# answers are written as antt modules, and each module is proved by computing the definition, in a copy of the crates.
# Before that, a wrong answer must be refused, and the sample that the gate computes must be what the excerpt answers.
# usage: computed.sh [--sample | --lists N | --seed N]...
#   --sample   only prints the sample, crates/inference/proofs/Compared.antt
#   --lists N  lists to a row of the table below (default 50: about 5 minutes)
#   --seed N   seed of the random numbers (default 7)
. "$(dirname "$0")/compare/shared.sh"
lists=50
sample=

while [ $# -gt 0 ]; do
    case $1 in
        --sample) sample=yes ;;
        --lists) lists=${2:?expected a number after --lists}; shift ;;
        --seed) seed=${2:?expected a number after --seed}; shift ;;
        *) fail "unknown option \`$1\`; usage: computed.sh [--sample | --lists N | --seed N]..." 2 ;;
    esac
    shift
done

# Class and size, how many lists to choose from for each that is wanted, and which.
table=(
    "solve 2 1"
    "solve 3 1"
    "join 3 1"
    "choice 3 1"
    "solve 3 40 --with 'node made'"
    "choice 3 40 --code 0 --with 'prefix dropped'"
    "entries 3 1"
    "entries 3 40 --code 15"
    "entries 3 200 --code 16"
    "damaged 2 3"
)

# The situations without a star and the readings that come to a search, but those of 1,024 sorts, of 2,047 nodes and one of 40
# nested nodes; then random lists: class, size, number.
sample_lists() {
    awk 'BEGIN { RS = ""; ORS = "\n\n" } !/list star|pad sorts|pad nodes|list shared parts/' lists/situations.txt lists/readings.txt
    while read -r class size number; do
        "$bin/oracle-gen" --class "$class" --seed 1 --size "$size" --from "$number" --count 1
    done <<'PICKED'
solve 2 3505
solve 2 8934
join 2 836
join 2 10868
choice 2 2767
entries 2 3872
PICKED
}
sample() { sample_lists | "$bin/oracle-computed" --code 0 --code 15 --code 16 --code 17 --code 18 2> /dev/null; }

cargo build --release --offline --quiet
if [ -n "$sample" ]; then
    sample
    exit
fi

step "the sample is what the excerpt answers"
sample | cmp - ../crates/inference/proofs/Compared.antt

step "a copy of the crates"
work=$(mktemp -d)
trap 'rm -r "$work"' EXIT
names=$(stands_on inference)
for name in $names; do
    mkdir -p "$work/crates/$name"
    cp -r "../crates/$name/"{src,specs,proofs} "$work/crates/$name"
done
grep -E "^(${names//$'\n'/|}):" ../crates.txt > "$work/crates.txt"
echo "batch: ${names//$'\n'/ }" >> "$work/crates.txt"
mkdir -p "$work/crates/batch/"{src,proofs}
printf '%s\n' "// Nothing but lists and answers." "#![tactic(auto)]" > "$work/crates/batch/src/lib.rt"
echo "pub mod Batch" > "$work/crates/batch/proofs/Lib.antt"
(cd "$work/crates/inference" && rt check > "$work/out") || { cat "$work/out"; fail "the definition"; }

# Proves the module on standard input.
proves() {
    cat > "$work/crates/batch/proofs/Batch.antt"
    (cd "$work/crates/batch" && rt check > "$work/out" 2>&1)
}

step "a wrong answer is refused"
sample | proves || { cat "$work/out"; fail "the sample"; }
if sample | sed '0,/outcome 0 (expr 3/s//outcome 0 (expr 2/' | proves; then fail "a wrong sort passed"; fi
if sample | sed '0,/(choice 0 1 \[\])/s//(choice 0 0 [])/' | proves; then fail "a wrong choice passed"; fi
if sample | sed '0,/(choice 0 1 (choice 2 0 /s//(choice 2 0 (choice 0 1 /' | proves; then fail "a wrong order passed"; fi

step "comparison"
total=0
for row in "${table[@]}"; do
    read -r class size of which <<< "$row"
    "$bin/oracle-gen" --class "$class" --seed "$seed" --size "$size" --count $((lists * of)) |
        eval "$bin/oracle-computed" --each 10 --most "$lists" "$which" > "$work/module" 2> "$work/counts"
    proves < "$work/module" || { cat "$work/out"; fail "$row: the definition and the excerpt differ"; }
    total=$((total + $(sed -n 's/ lists$//p' "$work/counts")))
    echo "$row: $(tr -d '\n' < "$work/counts")"
done
echo "computed: $total lists, no difference"
