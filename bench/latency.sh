#!/usr/bin/env bash
# Measures how long single gets, inserts and removes take beside each other: of 1,000 of them 500, 990 and 999 take so long or less. Programs
# are the C library, plain CITRUS, std::map under std's locks and TBB's map, at four threads: `latency.sh [--threads N] [--runs N]
# [--operations N] [--wear N] [--row GETS/KEYS]... [--archive FILE]`. Each row is measured as the dictionary was filled, and after so many
# updates for each key as `--wear` says, unless that is 0. It installs the proved library for itself, or the libcitrus_c.a that is named. The
# median of the runs, with the least and the greatest, goes to bench/results/latency.csv. A run beside which the host gave more than 5 % to
# others is left out. It stands outside the gate.
set -eu
# shellcheck source=bench/peers.sh
. "$(dirname "$0")/peers.sh"
# shellcheck source=bench/results.sh
. "$top/bench/results.sh"
threads=4 runs=7 operations=1000000 wear=100 rows=() archive=()
while [ $# -gt 0 ]; do
    case $1 in
        --threads) threads=$2 ;;
        --runs) runs=$2 ;;
        --operations) operations=$2 ;;
        --wear) wear=$2 ;;
        --row) rows+=("$2") ;;
        --archive) archive=("$2") ;;
        *)
            echo 'usage: latency.sh [--threads N] [--runs N] [--operations N] [--wear N] [--row GETS/KEYS]... [--archive FILE]' >&2
            exit 2
            ;;
    esac
    shift 2
done
[ ${#rows[@]} != 0 ] || rows=(98/200000 90/20000 50/1000)
wears=(0)
[ "$wear" = 0 ] || wears+=("$wear")

build_library "${archive[@]}"
build_cpp citrus
build_cpp locked
programs=("$out/embed --only C_library_first_waiter" "$out/citrus" "$out/locked")
! build_with oneapi/tbb/concurrent_map.h libtbb-dev tbb tbb || programs+=("$out/tbb")

# The lines of a program, where the host gave the processors to it: `lines_of GETS KEYS WEAR PROGRAM [--only SERIES]`.
lines_of() {
    local only=() busy stolen busy_before stolen_before
    [ $# = 4 ] || only=(--only "${6//_/ }")
    read_ticks
    busy_before=$busy stolen_before=$stolen
    "$4" --mix "$1" --pairs "$2" --wear "$3" --threads "$threads" --operations "$operations" "${only[@]}" latency | awk -F, '$4 != "update"' >"$out/latency_now"
    read_ticks
    if [ $((100 * (stolen - stolen_before))) -lt $((5 * (busy - busy_before + 1))) ]; then cat "$out/latency_now"; else echo "left out: $4" >&2; fi
}

measured_here "$runs runs of $operations operations a thread" >"$out/latency.csv"
: >"$out/latency_lines"
for ((run = 1; run <= runs; run++)); do
    for row in "${rows[@]}"; do
        for before in "${wears[@]}"; do
            for program in "${programs[@]}"; do
                # shellcheck disable=SC2086
                lines_of "${row%/*}" "${row#*/}" "$before" $program >>"$out/latency_lines"
            done
        done
    done
    echo "run $run of $runs, after $SECONDS s" >&2
done
# Of each number the median of the runs, and the least and the greatest.
awk -F, -v OFS=, '
    BEGIN { print "series,row,threads,kind,p50,p50_least,p50_most,p99,p99_least,p99_most,p999,p999_least,p999_most,longest,runs" }
    {
        cell = $1 OFS $2 OFS $3 OFS $4
        if (!(cell in count)) order[++cells] = cell
        nth = ++count[cell]
        for (f = 6; f <= 8; f++) value[cell, f, nth] = $f
        if ($9 > longest[cell]) longest[cell] = $9
    }
    function spread(cell, f, i, j, kept, sorted) {
        for (i = 1; i <= count[cell]; i++) {
            kept = value[cell, f, i]
            for (j = i - 1; j >= 1 && sorted[j] + 0 > kept + 0; j--) sorted[j + 1] = sorted[j]
            sorted[j + 1] = kept
        }
        return sorted[int((count[cell] + 1) / 2)] OFS sorted[1] OFS sorted[count[cell]]
    }
    END {
        for (i = 1; i <= cells; i++) {
            line = order[i]
            for (f = 6; f <= 8; f++) line = line OFS spread(order[i], f)
            print line, longest[order[i]], count[order[i]]
        }
    }' "$out/latency_lines" >>"$out/latency.csv"
cp "$out/latency.csv" "$results/latency.csv"
"$top/bench/tables.sh" latency
