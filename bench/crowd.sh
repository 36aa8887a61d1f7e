#!/usr/bin/env bash
# Measures the C library with more threads than processors: 4, 16 and 64 threads, 90 of 100 gets on 20,000 keys and 50 of 100 on 1,000, with
# updates that go beside each other and with updates that take turns, beside a std::map and a BTreeMap under the locks of their languages, a
# BTreeMap under those of parking_lot, and TBB's concurrent map: `crowd.sh [--rounds N] [--operations N] [--seconds S] [--timed N]
# [--archive FILE]`. It installs the proved library for itself, or the libcitrus_c.a that `--archive` names. In each round every program runs
# once for the time of an operation, where a cell ends after so many seconds, which most do; and once for how long single updates take, of so
# many calls of each thread as `--timed` says. Minima and medians go to bench/results/crowded.csv, the medians of what half of the updates and
# 999 of 1,000 take, and the longest one, to bench/results/crowded_updates.csv; both are printed as tables. It stands outside the gate.
set -eu
# shellcheck source=bench/peers.sh
. "$(dirname "$0")/peers.sh"
# shellcheck source=bench/results.sh
. "$top/bench/results.sh"
rounds=5 operations=1000000 seconds=1 timed=100000 archive=()
while [ $# -gt 0 ]; do
    case $1 in
        --rounds) rounds=$2 ;;
        --operations) operations=$2 ;;
        --seconds) seconds=$2 ;;
        --timed) timed=$2 ;;
        --archive) archive=("$2") ;;
        *)
            echo 'usage: crowd.sh [--rounds N] [--operations N] [--seconds S] [--timed N] [--archive FILE]' >&2
            exit 2
            ;;
    esac
    shift 2
done

build_library "${archive[@]}"
build_cpp same
build_cpp locked
programs=("$out/embed" "$out/same" "$out/locked")
! build_with oneapi/tbb/concurrent_map.h libtbb-dev tbb tbb || programs+=("$out/tbb")
! build_btree || programs+=("$out/btree")

# What isn't measured of a program: other waiters.
series=('C library first waiter' 'C library first waiter in turn' 'C++ first waiter' 'TBB map' 'std::map under mutex' 'std::map under shared_mutex'
    'BTreeMap under Mutex' 'BTreeMap under RwLock' 'BTreeMap under parking_lot Mutex' 'BTreeMap under parking_lot RwLock')

# The program that has a series.
program_of() {
    case $1 in
        'C library'*) echo "$out/embed" ;;
        'C++'*) echo "$out/same" ;;
        TBB*) echo "$out/tbb" ;;
        std::map*) echo "$out/locked" ;;
        *) echo "$out/btree" ;;
    esac
}

# Whether it is built.
is_measured() {
    local program
    for program in "${programs[@]}"; do [ "$program" != "$(program_of "$1")" ] || return 0; done
    return 1
}

# What single updates of a series take, of each mix and number of threads.
time_updates() {
    local mix threads
    for mix in 50/1000 90/20000; do
        for threads in 4 16 64; do
            "$(program_of "$1")" --mix "${mix%/*}" --pairs "${mix#*/}" --threads $threads --operations "$timed" --only "$1" latency
        done
    done | awk -F, '$4 == "update"'
}

measured_here "$rounds rounds, cells of $seconds s" >"$out/crowded.csv"
measured_here "$rounds rounds of $timed calls a thread" >"$out/crowded_updates.csv"
: >"$out/crowded_cells"
: >"$out/crowded_lines"
for ((round = 1; round <= rounds; round++)); do
    for name in "${series[@]}"; do
        is_measured "$name" || continue
        "$(program_of "$name")" --operations "$operations" --seconds "$seconds" --only "$name" crowded | cells '' >>"$out/crowded_cells"
        time_updates "$name" >>"$out/crowded_lines"
    done
    echo "round $round of $rounds, after $SECONDS s" >&2
done
summary "$out/crowded_cells" >>"$out/crowded.csv"
# Of each number the median of the rounds, and the longest update of all.
awk -F, -v OFS=, '
    BEGIN { print "series,mix,keys,threads,p50,p999,longest,runs" }
    {
        sub(/ waiter/, "", $1)
        sub("/", OFS, $2)
        cell = $1 OFS $2 OFS $3
        if (!(cell in count)) order[++cells] = cell
        nth = ++count[cell]
        half[cell, nth] = $6
        nearly_all[cell, nth] = $8
        if ($9 > longest[cell] + 0) longest[cell] = $9
    }
    function median(values, cell, i, j, kept, sorted) {
        for (i = 1; i <= count[cell]; i++) {
            kept = values[cell, i]
            for (j = i - 1; j >= 1 && sorted[j] + 0 > kept + 0; j--) sorted[j + 1] = sorted[j]
            sorted[j + 1] = kept
        }
        return sorted[int((count[cell] + 1) / 2)]
    }
    END { for (i = 1; i <= cells; i++) print order[i], median(half, order[i]), median(nearly_all, order[i]), longest[order[i]], count[order[i]] }
    ' "$out/crowded_lines" >>"$out/crowded_updates.csv"
cp "$out/crowded.csv" "$out/crowded_updates.csv" "$results/"
"$top/bench/tables.sh" crowded crowded_updates
