#!/usr/bin/env bash
# Looks up every name of docs/MERC.md: functions, types and constants here in crates/*/src, definitions in crates/*/specs. Each item of merc's
# three files (of inference.rs: the constraints, and all from Candidate on) has a row, each function of the layers Sorts, Unifier and Solver is
# named, and no cell is above 160 characters. Prints what is missing; the status is 0 where nothing is.
cd "$(dirname "$0")/.." || exit 2
doc=docs/MERC.md
merc=$(dirname "$(find oracle -name SHA256SUMS | head -1)")
for file in resolved_sort unification inference; do
    [ -f "$merc/$file.rs" ] || { echo "merc-names: no $file.rs of merc in oracle" >&2; exit 2; }
done
missing=0
miss() { echo "$1"; missing=1; }

# here: `crate::name`, or `crate::*` for all functions of a crate
names=$(grep -oE '`[a-z_]+::[A-Za-z_*]+' "$doc" | tr -d '`' | sort -u)
for name in $names; do
    crate=${name%%::*} item=${name##*::}
    if [ "$item" = '*' ]; then
        [ -d "crates/$crate/src" ] || miss "no crate $crate"
    else
        grep -qsE "^ *(pub )?(extern \"C\" )?(fn|struct|enum|const) $item\b" "crates/$crate"/src/*.rt || miss "not here: $name"
    fi
done

# definitions: crate/File: `a`, `b`
grep -E '^\| .* \| .* \| .* \| .*\|$' "$doc" | awk -F ' \\| ' '{ print $3 }' | tr ';' '\n' |
    sed -nE 's/^ *([a-z_]+)\/([A-Za-z]+): (.*)$/\1 \2 \3/p' | sort -u > "${TMPDIR:-/tmp}/merc-names.$$"
while read -r crate file rest; do
    path=$(find "crates/$crate/specs" -name "$file.antt" 2> /dev/null)
    [ -n "$path" ] || { miss "no file: $crate/$file"; continue; }
    for item in $(echo "$rest" | tr -d '`,'); do
        # shellcheck disable=SC2086 # the file may stand in specs and in specs/Inner
        grep -qE "(^| )$item .*:" $path || miss "not defined: $crate/$file: $item"
    done
done < "${TMPDIR:-/tmp}/merc-names.$$"
rm -f "${TMPDIR:-/tmp}/merc-names.$$"

# merc's items, each in backticks in a first cell
cells=$(awk -F ' \\| ' '/^\| / { print $1 }' "$doc")
items() { grep -vE '^ *//' | grep -oE '\b(fn|struct|enum|type|const) [A-Za-z_]+' | awk '{ print $2 }' | sort -u; }
{
    items < "$merc/resolved_sort.rs"
    items < "$merc/unification.rs"
    sed -n '/^enum LitKind/,/^enum GenFailure/p; /^struct Candidate/,$p' "$merc/inference.rs" | items | grep -vx GenFailure
} | sort -u | while read -r item; do
    echo "$cells" | grep -qE "[\`:]$item\`" || echo "no row: $item"
done | grep . && missing=1

# functions of the three layers, by name or by `crate::*`
awk '/^# Sorts \(/ || /^# Unifier/ || /^# Solver/ { on = 1; next } /^# / { on = 0 } on && /:/ { sub(/:.*/, ""); print }' crates.txt |
    while read -r crate; do
        echo "$names" | grep -qxF "$crate::*" && continue
        sed -nE 's/^(pub )?(extern "C" )?fn ([a-z_]+).*/\3/p' "crates/$crate"/src/*.rt | while read -r item; do
            echo "$names" | grep -qxF "$crate::$item" || echo "not named: $crate::$item"
        done
    done | grep . && missing=1

awk -F ' \\| ' '/^\| / { for (i = 1; i <= NF; i++) if (length($i) > 160) print "long cell, line " NR ": " $i }' "$doc" | grep . && missing=1
[ $missing = 0 ] && echo "merc-names: all names found"
exit $missing
