#!/usr/bin/env bash
# Measures many gets at once beside gets one by one, at three sizes, and waits beside lanes: `many.sh [--runs N] [--archive FILE]`. It installs
# the proved library for itself, or takes the libcitrus_c.a that is named. The least of all runs goes to bench/results/many.csv. It stands
# outside the gate.
set -eu
# shellcheck source=bench/peers.sh
. "$(dirname "$0")/peers.sh"
# shellcheck source=bench/results.sh
. "$top/bench/results.sh"
runs=5 archive=()
while [ $# -gt 0 ]; do
    case $1 in
        --runs) runs=$2 ;;
        --archive) archive=("$2") ;;
        *) echo "usage: many.sh [--runs N] [--archive FILE]" >&2; exit 2 ;;
    esac
    shift 2
done

"$top/ffi/install.sh" "$out/installed" "${archive[@]}"
gcc -std=gnu11 -O2 -Wall -Wextra -pthread "-I$out/installed/include" -o "$out/many" "$top/bench/many.c" -L"$out/installed/lib" -lcitrus
measured_here "1,024 keys a call, the least of $runs runs" >"$out/many.csv"
echo "what,lanes,pairs,ns" >>"$out/many.csv"
for pairs in 20000 200000 2000000; do
    "$out/many" "$pairs" "$runs" >>"$out/many.csv"
    echo "$pairs pairs, after $SECONDS s" >&2
done
cp "$out/many.csv" "$results/many.csv"
cat "$results/many.csv"
