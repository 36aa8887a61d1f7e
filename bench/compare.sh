#!/usr/bin/env bash
# Says of bench/results/tree.csv in which rows the proved tree takes more than 1.3 times the same steps in C++ (minima), where at four threads
# an ordered map under a lock is ahead of it (medians), and how many times as fast as the program of `--beside` it is there. Where no row
# has the proved tree it fails.
set -eu
# shellcheck source=bench/results.sh
. "$(dirname "$0")/results.sh"
with_best "$results/tree.csv" | awk -F, '
    BEGIN { split("90 50 load 98 100", mixes, " "); split("1 2 4", crews, " "); split("first second third", waiters, " ") }
    { least[$1, $2, $4] = $6; median[$1, $2, $4] = $7 }
    function row(waiter, mix, crew) { return waiter " waiter, " (mix == "load" ? mix : mix " of 100 gets") ", threads " crew }
    END {
        for (m = 1; m <= 5; m++) for (w = 1; w <= 3; w++) {
            mix = mixes[m]; waiter = waiters[w]
            for (c = 1; c <= 3; c++) {
                ours = least["proved " waiter, mix, crews[c]]; theirs = least["C++ " waiter, mix, crews[c]]
                if (!ours || !theirs) continue
                compared++
                if (ours > 1.3 * theirs) printf "more than 1.3 times C++: %s: %.2f\n", row(waiter, mix, crews[c]), ours / theirs
            }
            ours = median["proved " waiter, mix, 4]; best = median["best under a lock", mix, 4]; before = median["before " waiter, mix, 4]
            if (ours && best) beside++
            if (ours && best && best <= ours) printf "a map under a lock is ahead: %s: %.0f and %.0f ns\n", row(waiter, mix, 4), best, ours
            if (ours && before) printf "as fast as before: %s: %.2f times\n", row(waiter, mix, 4), before / ours
        }
        printf "%d rows beside C++, %d beside maps under a lock\n", compared, beside
        exit compared == 0
    }'
