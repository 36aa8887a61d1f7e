#!/usr/bin/env bash
# Measures what a put takes where keys come in some order, and how long the ways down to the keys are then, by one thread and by four:
# `shapes.sh [KEYS [RUNS]]`, on trees with at most so many keys for each of four threads. Of so many runs the median by a put's time counts.
# It goes to bench/results/shapes.csv. It stands outside the gate.
set -eu
# shellcheck source=bench/peers.sh
. "$(dirname "$0")/peers.sh"
# shellcheck source=bench/results.sh
. "$top/bench/results.sh"
keys=${1:-250000}
runs=${2:-3}
has_ours || exit 1

measured_here "$runs runs on trees of up to $((4 * keys)) keys" >"$out/shapes.csv"
for _ in $(seq "$runs"); do "$ours" times shapes "$keys"; done >"$out/shapes_lines"
# A line is `ORDER, N keys, N threads: NS ns, ways over SLOTS slots, N at most, N updates`. Least first, by the time.
awk -F ': ' '{
    split($1, row, ", ")
    split($2, found, ", ")
    sub(/ways over /, "", found[2])
    if (!($1 in place)) place[$1] = ++count
    print place[$1] "," row[1] "," row[2] + 0 "," row[3] + 0 "," found[1] + 0 "," found[2] + 0 "," found[3] + 0
}' "$out/shapes_lines" | sort -t, -k 1,1n -k 5,5n | awk -F, -v runs="$runs" '
    BEGIN { print "order,keys,threads,ns_a_put,slots,times_log,longest" }
    $1 != row { row = $1; nth = 0 }
    { nth++ }
    nth == int((runs + 1) / 2) { printf "%s,%d,%d,%.0f,%.1f,%.2f,%d\n", $2, $3, $4, $5, $6, $6 * log(2) / log($3), $7 }' >>"$out/shapes.csv"
cp "$out/shapes.csv" "$results/shapes.csv"
