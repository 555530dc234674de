#!/bin/bash
# Builds the oracle and tests it: the texts of merc and how they are cut, the situations of document 01,
# the generator, bad input. Where a docs/src folder is given, the texts of merc are compared with it.
# usage: test.sh [DOCS_SRC]
set -euo pipefail
docs_src=${1:+$(realpath "$1")}
cd "$(dirname "$0")"
bin=target/release
work=$(mktemp -d)
trap 'rm -r "$work"' EXIT

step() { echo "== $1"; }
fail() { echo "test: $1" >&2; exit 1; }

# Runs a command that must end with a status and say nothing on standard output; its message is kept.
must_fail() {
    local status=$1 found=0
    shift
    "$@" > "$work/out" 2> "$work/err" || found=$?
    [ "$found" = "$status" ] || fail "status $found, not $status: $*"
    [ ! -s "$work/out" ] || fail "printed an answer: $*"
    [ -s "$work/err" ] || fail "said nothing: $*"
}

step "texts of merc"
merc/verify.sh ${docs_src:+"$docs_src"}

step "build"
cargo build --release --offline --message-format=json > "$work/build.json"
cut_folder() {
    grep '"reason":"build-script-executed"' "$work/build.json" | grep "excerpt/$1" | sed 's/.*"out_dir":"\([^"]*\)".*/\1/'
}

step "the plain build only deletes lines, the counting build adds the listed ones"
for file in inference unification resolved_sort; do
    diff "merc/text/$file.rs" "$(cut_folder plain)/$file.rs" > "$work/diff" || true
    ! grep -q '^>' "$work/diff" || fail "the cut of $file.rs is not a deletion"
    diff "$(cut_folder plain)/$file.rs" "$(cut_folder counting)/$file.rs" > "$work/diff" || true
    ! grep -q '^<' "$work/diff" || fail "the counting build of $file.rs deletes a line"
    grep '^>' "$work/diff" | sed 's/^> *//; s, // counting$,,' >> "$work/inserted"
done
while read -r line; do
    grep -qF "\`$line\`" merc/README.md || fail "merc/README.md does not list the inserted line: $line"
done < "$work/inserted"
echo "$(wc -l < "$work/inserted") inserted lines, all listed"

step "situations"
for file in lists/situations.txt lists/readings.txt; do
    "$bin/oracle" --check < "$file" || fail "$file"
done

step "ceilings: exactly full is accepted, one more is refused"
rows() { seq 0 $(($1 - 1)) | sed "s/.*/$2/"; }
limit() { printf 'list %s rows of: %s\n%s\n? solve\n= %s\n' "$1" "$2" "$(rows "$1" "$2")" "$3"; }
padded() { printf 'list pad %s %s\npad %s %s\n? solve\n= %s\n' "$1" "$2" "$1" "$2" "$3"; }
{
    padded sorts 1018 0; padded sorts 1019 1
    padded nodes 2048 0; padded nodes 2049 1
    padded entries 4096 0; padded entries 4097 1
    padded node-entries 4096 0; padded node-entries 4097 1
    limit 512 'vars 1' 0; limit 513 'vars 1' 1
    limit 512 'expr e& Bool' 0; limit 513 'expr e& Bool' 1
    limit 256 'lit Nat natural' 0; limit 257 'lit Nat natural' 1
    limit 1024 'overload builtin Bool' 0; limit 1025 'overload builtin Bool' 1
    limit 256 'sources Nat' 0; limit 257 'sources Nat' 1
    printf 'list 256 components\njoin Nat\n%s\n? solve\n= 0\n' "$(rows 256 'sources Nat')"
    printf 'list 257 components\nlit Nat natural\njoin Nat\n%s\n? solve\n= 11\n' "$(rows 256 'sources Nat')"
    printf 'list 600 base names\nexpr e0 Bool\nexpr e1 Bool\n%s\n? solve\n= 10\n' "$(rows 600 'name e0 variable')"
} > "$work/limits.txt"
"$bin/oracle" --check < "$work/limits.txt" || fail "ceilings"

step "a wrong record is found"
sed 's/^= 0 sorts Pos Nat measure 1$/= 0 sorts Pos Nat measure 2/' lists/situations.txt > "$work/wrong.txt"
if "$bin/oracle" --check < "$work/wrong.txt" > "$work/out"; then fail "a wrong record passed"; fi
grep -q 'checked 22 answers, 1 differ' "$work/out" || fail "a wrong record was not counted"

step "generated lists: made twice alike, answered, recorded, checked"
for class in solve join choice room full entries unify lattice damaged small pairs; do
    count=100
    [ "$class" != pairs ] || count=1
    options=(--class "$class" --seed 7 --count "$count")
    "$bin/oracle-gen" "${options[@]}" > "$work/lists.txt"
    "$bin/oracle-gen" "${options[@]}" | cmp - "$work/lists.txt"
    "$bin/oracle" --record < "$work/lists.txt" > "$work/recorded.txt"
    echo "$class: $("$bin/oracle" --check < "$work/recorded.txt")"
done

step "short soak"
for class in solve join choice room full entries unify lattice damaged small; do
    "$bin/oracle-soak" --class "$class" --seed 11 --count 2000 > "$work/soak" || fail "soak of $class"
    sed -n 2p "$work/soak"
done

step "lists and answers as a module"
[ "$(./computed.sh --sample | cut -c1-13 | grep -c '      given ')" -ge 41 ] || fail "the sample of computed.sh"
"$bin/oracle-gen" --class entries --seed 7 --count 500 | "$bin/oracle-computed" --code 15 --most 5 > "$work/module" 2> "$work/counts"
grep -qx '  answers: 15: 5' "$work/counts" || fail "oracle-computed: $(cat "$work/counts")"

step "bad input"
grep -v '^#' lists/bad-lines.txt | while IFS= read -r line; do
    printf '%b\n' "${line% => *}" > "$work/bad.txt"
    for mode in "" --check --record; do
        "$bin/oracle" $mode < "$work/bad.txt" > /dev/null 2> "$work/err" && fail "accepted: ${line% => *}"
        grep -qxF "oracle: ${line##* => }" "$work/err" || fail "other message: $(cat "$work/err")"
    done
done
printf 'list long\n%0201d\n' 0 > "$work/bad.txt"
must_fail 2 "$bin/oracle" < "$work/bad.txt"
printf 'list bytes\nsub \303\244 Nat\n' > "$work/bad.txt"
must_fail 2 "$bin/oracle" < "$work/bad.txt"
must_fail 2 "$bin/oracle" --wrong < /dev/null
for options in "--class other" "--seed x" "--count" "--size 9" "--size 0" "--count -1" "wrong 1"; do
    must_fail 2 "$bin/oracle-gen" $options
    must_fail 2 "$bin/oracle-soak" $options
done
for options in "--each 0" "--most x" "--code" "--class solve"; do
    must_fail 2 "$bin/oracle-computed" $options < /dev/null
done
echo "$(grep -cv '^#' lists/bad-lines.txt) bad lines and the bad options were refused"

step "the pair program, its comparison with itself and with wrong ones"
cargo test --release --offline --quiet -p pairs > "$work/out" || { cat "$work/out"; fail "tests of pairs"; }
./compare.sh pairs --pairs 5000 --program "$bin/oracle-pairs" > "$work/out" || { cat "$work/out"; fail "compare.sh pairs"; }
tail -n 1 "$work/out"

step "the list program, its comparison with itself and with wrong ones"
cargo test --release --offline --quiet -p list_program > "$work/out" || { cat "$work/out"; fail "tests of list_program"; }
./compare.sh lists --lists 3000 --program "$bin/oracle-lists" > "$work/out" || { cat "$work/out"; fail "compare.sh lists"; }
tail -n 1 "$work/out"

step "unify: its judges, the stand-in and wrong ones"
./compare.sh unify --stand-in --questions 50000 > "$work/out" || { cat "$work/out"; fail "compare.sh unify"; }
tail -n 1 "$work/out"

step "solve: its judges, the stand-in and wrong ones"
./compare.sh solve --stand-in --questions 50000 > "$work/out" || { cat "$work/out"; fail "compare.sh solve"; }
tail -n 1 "$work/out"

echo "test: all passed"
