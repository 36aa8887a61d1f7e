#!/usr/bin/env bash
# Measures lists of the C library at rest, and beside one and three writers that never rest: how many lists of 16, 256, 4,096 and 65,536
# pairs come in a second, and how long updates wait for them. It installs the proved library for itself, or the libcitrus_c.a that
# `--archive` names; one that `--before` names is measured beside it. A row says how many tries a list of its library makes before it keeps
# updates off: the constant TRIES of the crate tree_handles as it stands here, or what `--tries` and `--before-tries` say of an archive that
# has another. Medians of so many runs go to bench/results/writers.csv, and are printed as a table. It stands outside the gate.
set -eu
# shellcheck source=bench/results.sh
. "$(dirname "$0")/results.sh"
out=$top/bench/out
mkdir -p "$out"
seconds=2 runs=5 archive=() before=
declare -A tries
tries[now]=$(sed -n 's/^pub(crate) const TRIES: u32 = \([0-9]*\);$/\1/p' "$top/crates/tree_handles/src/caller.rt")
tries[before]=${tries[now]}
while [ $# -gt 0 ]; do
    case $1 in
        --seconds) seconds=$2 ;;
        --runs) runs=$2 ;;
        --archive) archive=("$2") ;;
        --tries) tries[now]=$2 ;;
        --before) before=$2 ;;
        --before-tries) tries[before]=$2 ;;
        *)
            echo 'usage: writers.sh [--seconds S] [--runs N] [--archive FILE] [--tries N] [--before FILE] [--before-tries N]' >&2
            exit 2
            ;;
    esac
    shift 2
done
[ -n "${tries[now]}" ] || { echo 'writers.sh: tree_handles has no constant TRIES: say --tries' >&2; exit 1; }

# Installs a library and links the program with it: `build NAME [ARCHIVE]`.
build() {
    "$top/ffi/install.sh" "$out/installed_$1" "${@:2}"
    gcc -std=gnu11 -O2 -Wall -Wextra -pthread "-I$out/installed_$1/include" -o "$out/writers_$1" "$top/bench/writers.c" \
        -L"$out/installed_$1/lib" -lcitrus
}

build now "${archive[@]}"
series=(now)
if [ -n "$before" ]; then
    build before "$before"
    series+=(before)
fi
measured_here "the median of $runs runs of $seconds s, an index of 131,072 pairs" >"$out/writers.csv"
: >"$out/writers_lines"
for ((run = 1; run <= runs; run++)); do
    for list in 0 16 256 4096 65536; do
        for writers in 0 1 3; do
            [ "$list$writers" != 00 ] || continue
            for name in "${series[@]}"; do
                line=$("$out/writers_$name" "$list" "$writers" "$seconds")
                printf '%s,%s,%s\n' "$name" "${tries[$name]}" "$line"
            done
        done
    done >>"$out/writers_lines"
    echo "run $run of $runs, after $SECONDS s" >&2
done
# The median of each column by itself.
awk -F, -v OFS=, '
    BEGIN { print "series,tries,list,writers,lists_a_second,failed,updates_a_second,p999_us,longest_us" }
    {
        cell = $1 OFS $2 OFS $3 OFS $4
        if (!(cell in count)) order[++cells] = cell
        nth = ++count[cell]
        for (f = 5; f <= 9; f++) value[cell, f, nth] = $f
    }
    function median(cell, f, i, j, kept, sorted) {
        for (i = 1; i <= count[cell]; i++) {
            kept = value[cell, f, i]
            for (j = i - 1; j >= 1 && sorted[j] + 0 > kept + 0; j--) sorted[j + 1] = sorted[j]
            sorted[j + 1] = kept
        }
        return sorted[int((count[cell] + 1) / 2)]
    }
    END {
        for (i = 1; i <= cells; i++) {
            line = order[i]
            for (f = 5; f <= 9; f++) line = line OFS median(order[i], f)
            print line
        }
    }' "$out/writers_lines" >>"$out/writers.csv"
cp "$out/writers.csv" "$results/writers.csv"
"$top/bench/tables.sh" writers
