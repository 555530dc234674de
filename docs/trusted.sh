#!/bin/bash
# Counts the trusted text: lines of definitions in crates/*/specs/**/*.antt, without blank lines, comments and imports, by the headings of
# crates.txt; what stands in specs/Inner, which only inner contracts cite, apart. Prints a table.
# usage: docs/trusted.sh [--write]
#   --write   puts the table into README.md, between the marks `<!-- trusted -->` and `<!-- end -->`
set -euo pipefail
cd "$(dirname "$0")/.."

# Lines that are neither blank, comments nor imports, of the files on standard input.
lines() { xargs -r cat | sed '/^ *$/d; /^ *--/d; /^use /d; /^pub mod /d' | wc -l; }

row() { printf '| %s | %s | %s | %s |\n' "$@"; }

table() {
    local heading="" outer=0 inner=0 all=0 all_inner=0 crates=0 line
    row layer "crates with definitions" "lines to read" "lines in specs/Inner"
    row --- --- --- ---
    while read -r line; do
        case $line in
            "# NAME"* | "") ;;
            "#"*)
                [ "$crates" = 0 ] || row "$heading" "$crates" "$outer" "$inner"
                heading=${line#\# } outer=0 inner=0 crates=0
                ;;
            *)
                local specs=crates/${line%%:*}/specs here within
                [ -d "$specs" ] || continue
                here=$(find "$specs" -name '*.antt' -not -path '*/Inner/*' | lines)
                within=$(find "$specs" -name '*.antt' -path '*/Inner/*' | lines)
                crates=$((crates + 1)) outer=$((outer + here)) inner=$((inner + within))
                all=$((all + here)) all_inner=$((all_inner + within))
                ;;
        esac
    done < crates.txt
    [ "$crates" = 0 ] || row "$heading" "$crates" "$outer" "$inner"
    row "in all" "" "$all" "$all_inner"
}

if [ "${1:-}" = --write ]; then
    written=$(mktemp)
    trap 'rm "$written"' EXIT
    table > "$written"
    awk -v table="$written" '
        /^<!-- end -->/ { skip = 0 }
        !skip { print }
        /^<!-- trusted -->/ { skip = 1; while ((getline line < table) > 0) print line }
    ' README.md > "$written.readme"
    mv "$written.readme" README.md
else
    table
fi
