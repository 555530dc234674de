#!/bin/bash
# Installs the two Rust crates that merc's text uses, as Debian packages, and checks that cargo finds
# them without a network. Where cargo looks for them is said in .cargo/config.toml.
set -euo pipefail
cd "$(dirname "$0")"

packages=(librust-ena-dev librust-log-dev)
registry=/usr/share/cargo/registry

fail() { echo "setup: $1" >&2; exit 1; }

command -v cargo > /dev/null || fail "cargo is not there: install Rust 1.85 or newer"
if ! dpkg --status "${packages[@]}" > /dev/null 2>&1; then
    as_root=()
    [ "$(id -u)" = 0 ] || as_root=(sudo)
    "${as_root[@]}" apt-get update
    "${as_root[@]}" apt-get install --yes --no-install-recommends "${packages[@]}"
fi
[ -d "$registry/ena-0.14.0" ] || fail "$registry has no ena 0.14.0, which merc uses"
cargo metadata --offline --format-version 1 > /dev/null || fail "cargo does not find the crates in $registry"
echo "setup: done"
