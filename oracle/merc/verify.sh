#!/bin/bash
# Compares the texts in merc/text with their recorded checksums and, where a docs/src folder is given, with
# the files there.
# usage: verify.sh [DOCS_SRC]
set -euo pipefail
docs_src=${1:+$(realpath "$1")}
cd "$(dirname "$0")/text"

sha256sum --check --strict --quiet SHA256SUMS
if [ -n "$docs_src" ]; then
    for file in inference.rs unification.rs resolved_sort.rs; do
        cmp "$file" "$docs_src/crates/language/typecheck/src/inference/$file"
    done
    cmp LICENSE.txt "$docs_src/LICENSE.txt"
    echo "verify: the texts are those of $docs_src"
fi
echo "verify: the texts are unchanged"
