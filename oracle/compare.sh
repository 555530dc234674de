#!/bin/bash
# Compares a part of the port with the excerpt of merc. Each comparison first shows that it can fail: wrong variants must
# be found. The proved libraries that it asks are built first where they are not there or older than their crates.
# usage: compare.sh PART [OPTION]...
#   sorts   the entries of the sorts layer, under a minute: [--seed N]
#   pairs   the pair program: [--pairs N] [--program PATH]
#   unify   the entry of the unifier: [--stand-in] [--questions N] [--seed N]
#   solve   both entries of the solver: [--stand-in] [--questions N] [--seed N]
#   lists   the list program: [--lists N] [--seed N] [--program PATH]
#   rust    the Rust crate over the solver: [--questions N] [--seed N]
set -euo pipefail
script=$(dirname "$0")/compare/${1:-}.sh
case ${1:-} in
    sorts | pairs | unify | solve | lists | rust) exec "$script" "${@:2}" ;;
    *) sed -n '/^# usage/,/^[^#]/s/^# //p' "$0" >&2; exit 2 ;;
esac
