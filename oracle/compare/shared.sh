# What the scripts of the comparisons share, and in part bench/run.sh; they source it, and are in the folder oracle then.
# Theirs to say first, where they use it:
#   layer    the package, which names its programs too (program)
#   crates   the crates of the port whose libraries are asked
#   counted  what is counted, questions or lists, and the option that says how many: `limit`
#   shares   each class and its share, in parts of `whole`. What a class does not use up is the next one's
#   known    the options, each the name of a variable that has its default
set -euo pipefail
from=$PWD
cd "$(dirname "${BASH_SOURCE[0]}")/.."
bin=target/release
features=()
known=()
program=
seed=7

fail() { echo "${0##*/}: $1" >&2; exit "${2:-1}"; }
step() { echo "== $1"; }

# Reads options into the variables that they name. `--stand-in`, where it is known, has no value.
options() {
    local name
    while [ $# -gt 0 ]; do
        name=${1#--}
        [[ $1 == --* && " ${known[*]} " == *" $name "* ]] ||
            fail "unknown option \`$1\`; known are$(printf ' --%s' "${known[@]}")" 2
        if [ "$name" = stand-in ]; then
            features=(--features stand-in)
        else
            printf -v "$name" %s "${2:?expected a value after $1}"
            shift
        fi
        shift
    done
}

# The crates that a crate stands on, itself included.
stands_on() {
    local reached=" $1 " due=("$1") name
    while [ ${#due[@]} -gt 0 ]; do
        echo "${due[0]}"
        for name in $(sed -n "s/^${due[0]}: *//p" ../crates.txt); do
            [[ $reached == *" $name "* ]] || { reached+="$name "; due+=("$name"); }
        done
        due=("${due[@]:1}")
    done
}

# The library of a crate is proved and built where it is not there or older than a crate that it stands on.
prove() {
    local library=../target/staticlib/lib$1.a sources=("../crates/${1}_c/src") name part
    grep -q "^$1:" ../crates.txt || fail "crates.txt has no $1; --stand-in asks the stand-in"
    for name in $(stands_on "$1"); do
        for part in src specs proofs; do [ ! -d "../crates/$name/$part" ] || sources+=("../crates/$name/$part"); done
    done
    if [ ! -f "$library" ] || [ -n "$(find "${sources[@]}" -newer "$library" -print -quit)" ]; then
        step "the proved library $1"
        (cd .. && tools/build.sh "$1")
    fi
}

# Builds what is compared, with the proved libraries or the stand-in.
build() {
    [ ${#features[@]} -gt 0 ] || for crate in "${crates[@]}"; do prove "$crate"; done
    step "build"
    merc/setup.sh
    cargo build --release --offline --quiet -p "$layer" "${features[@]}"
}

# What a program prints under seed 1 is what a file records.
recorded() { "$bin/$1" --seed 1 | cmp - "$2"; }

# The program that is compared: the one given, or the port's of that name.
compared_program() {
    program=$(cd "$from" && realpath -m "${program:-$OLDPWD/../target/bin/$1}")
    [ -x "$program" ] || fail "$program is not there: build it first, or give the path of another one by --program"
}

# Each wrong variant of the oracle's own program is found by the comparison whose first arguments are given.
wrong_programs() {
    local own=$1 fault what status found
    shift
    step "wrong programs are found"
    while IFS=$'\t' read -r fault what; do
        status=0
        found=$("$@" "$own" --wrong "$fault" | tail -n 1) || status=$?
        [ "$status" = 1 ] || fail "not found: $what"
        echo "$what: $found"
    done < <("$own" --faults)
}

# One class: prints what is said of it, and puts the number of its questions into `asked`.
ask() {
    local printed
    printed=$("$compare" --class "$1" --seed "$seed" "$limit" "$2") || fail "class $1 ended with status $?"
    echo "$printed"
    asked=$(sed -n "1s/.* \([0-9]*\) $counted, .*/\1/p" <<< "$printed")
}

# Each class in turn; their questions are put into `total`.
ask_shares() {
    local due=0 index
    total=0
    step "comparison"
    for ((index = 0; index < ${#shares[@]}; index += 2)); do
        due=$((due + questions * shares[index + 1] / whole))
        ask "${shares[index]}" $((due > total ? due - total : 0))
        total=$((total + asked))
    done
}
