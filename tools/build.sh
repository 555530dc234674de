#!/usr/bin/env bash
# Proves and builds: of a program NAME target/bin/NAME, of a crate with exports for C the archive target/staticlib/libNAME.a, whose exports
# stand in the crate NAME_c.
# usage: tools/build.sh NAME..
set -euo pipefail
cd "$(dirname "$0")/.."
[ $# -gt 0 ] || { echo "usage: tools/build.sh NAME.." >&2; exit 2; }
for name; do
    if [ -f "crates/$name/src/main.rt" ]; then
        # the program is built, and run once on an empty input
        (cd "crates/$name" && rt run < /dev/null > /dev/null)
        mkdir -p target/bin
        cp "crates/$name/out/$name" "target/bin/$name"
    elif [ -d "crates/${name}_c" ]; then
        (cd "crates/${name}_c" && rt lib)
        mkdir -p target/staticlib
        cp "crates/${name}_c/out/lib${name}_c.a" "target/staticlib/lib$name.a"
    else
        echo "build: $name is no program, and there is no crate ${name}_c" >&2
        exit 2
    fi
done
