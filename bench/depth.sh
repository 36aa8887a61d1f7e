#!/usr/bin/env bash
# Tells how long ways become where keys come in some order, by the rule of the library's inserts and by four attempts a put: `depth.sh
# [KEYS..]`. It runs the model of depth.rs, and needs rustc alone. It goes to bench/results/depth.csv. It stands outside the gate.
set -eu
# shellcheck source=bench/results.sh
. "$(dirname "$0")/results.sh"
out=$top/bench/out
mkdir -p "$out"
[ $# != 0 ] || set -- 100000 200000 1000000

rustc -O --edition 2021 -o "$out/depth" "$top/bench/depth.rs"
{
    echo "# By the model of bench/depth.rs, which answers the same everywhere."
    echo order,keys,rule,slots,longest,turns,waits
    "$out/depth" "$@"
} >"$results/depth.csv"
