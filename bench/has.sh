#!/usr/bin/env bash
# Tries what README's table says of other maps, with the versions that Debian has: `has.sh`. Each program tells what is so, and fails where
# something isn't. What isn't installed is left out. It stands outside the gate.
set -eu
# shellcheck source=bench/peers.sh
. "$(dirname "$0")/peers.sh"
sources=/usr/share/cargo/registry

# Builds a program in C++, and runs it: `try NAME [LIBRARY]..`.
try() {
    echo "$1:"
    g++ -O1 -std=c++17 -Wall -Wextra -pthread -o "$out/has_$1" "$top/bench/has/$1.cpp" "${@:2}"
    "$out/has_$1"
}

try locked
if [ -e /usr/include/oneapi/tbb/concurrent_map.h ]; then try tbb -ltbb; else left_out "TBB, since Debian's libtbb-dev isn't installed"; fi
if printf '#include <urcu/rculfhash.h>\n' | gcc -E -xc - >/dev/null 2>&1; then
    try urcu -lurcu-memb -lurcu-cds -lurcu-common
else
    left_out "liburcu, since Debian's liburcu-dev isn't installed"
fi
if compgen -G "$sources/dashmap-5*" >/dev/null; then
    echo "dashmap:"
    (cd "$top/bench/has/dashmap" && cargo run --quiet --offline --target-dir "$out/has_dashmap" \
        --config 'source.crates-io.replace-with="debian"' --config "source.debian.directory=\"$sources\"")
else
    left_out "DashMap, which Debian's librust-dashmap-dev has"
fi
