#!/bin/bash
# Answers the questions of a file of lists; sets up and builds the oracle first, where that is not done yet.
# usage: run.sh FILE [--check | --record | --events]
set -euo pipefail
[ $# -ge 1 ] && [ -f "$1" ] || { echo "usage: run.sh FILE [--check | --record | --events]" >&2; exit 2; }
file=$(realpath "$1")
shift
cd "$(dirname "$0")"

merc/setup.sh >&2
cargo build --release --offline --quiet
exec target/release/oracle "$@" < "$file"
