#!/usr/bin/env bash
# Measures what a writer's calls take beside a reader that stays in its sections for long, for each waiter, without cookies and with them:
# `cookies.sh [SECTIONS]`, with so many sections a row. It goes to bench/results/cookies.csv. It stands outside the gate.
set -eu
# shellcheck source=bench/peers.sh
. "$(dirname "$0")/peers.sh"
# shellcheck source=bench/results.sh
. "$top/bench/results.sh"
sections=${1:-30}
has_ours || exit 1

measured_here "$sections sections a row" >"$out/cookies.csv"
"$ours" times cookies "$sections" >"$out/cookies_lines"
# Two lines of the program, without cookies and with them, make a row:
# `WAITER, sections of N ms, DELETES, REST, HOLDS: N calls, N us at most, N us in the mean, N of more than a tenth of a section, ..`.
awk -F ': ' '
    BEGIN { print "waiter,section,deletes,rest,most_ms,most_with_ms,mean_us,mean_with_us,long,calls,long_with,calls_with" }
    {
        split($1, words, ", ")
        split($2, found, ", ")
        for (i in found) found[i] += 0
    }
    NR % 2 == 1 { for (i in found) plain[i] = found[i]; next }
    {
        sub(/ waiter/, "", words[1])
        sub(/sections of /, "", words[2])
        sub(/no rest/, "none", words[4])
        sub(/rests of /, "", words[4])
        printf "%s,%s,%s,%s,", words[1], words[2], words[3], words[4]
        printf "%.2f,%.2f,%.1f,%.1f,", plain[2] / 1000, found[2] / 1000, plain[3], found[3]
        printf "%d,%d,%d,%d\n", plain[4], plain[1], found[4], found[1]
    }' "$out/cookies_lines" >>"$out/cookies.csv"
cp "$out/cookies.csv" "$results/cookies.csv"
