#!/usr/bin/env bash
# Measures a section and a wait that finds nobody, for each waiter at one, two and four threads, beside the same accesses in C++:
# `waits.sh [ROUNDS]`. The best of five runs of each program, which take turns, goes to bench/results/waits.csv. It stands outside the
# gate.
set -eu
# shellcheck source=bench/peers.sh
. "$(dirname "$0")/peers.sh"
# shellcheck source=bench/results.sh
. "$top/bench/results.sh"
rounds=${1:-100000}
build_cpp waits
has_ours || exit 1

measured_here "the best of 5 runs of $rounds rounds" >"$out/waits.csv"
for _ in 1 2 3 4 5; do
    "$ours" times waits "$rounds" | sed 's/^/proved: /'
    "$out/waits" "$rounds" | sed 's/^/C++: /'
done >"$out/waits_lines"
awk -F ': ' '
    BEGIN { print "waiter,what,threads,proved_ns,cpp_ns" }
    { cell = $1 ": " $2; ns = $3 + 0 }
    !(cell in best) || ns < best[cell] { best[cell] = ns }
    $1 == "proved" && !seen[$2]++ { order[++count] = $2 }
    END {
        for (i = 1; i <= count; i++) {
            split(order[i], words, ", ")
            sub(/ waiter/, "", words[1])
            printf "%s,%s,%d,%.1f,%.1f\n", words[1], words[2], words[3], best["proved: " order[i]], best["C++: " order[i]]
        }
    }' "$out/waits_lines" >>"$out/waits.csv"
cp "$out/waits.csv" "$results/waits.csv"
