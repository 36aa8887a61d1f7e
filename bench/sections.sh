#!/usr/bin/env bash
# Measures sections and waits of the C library at one, two and four threads, with as many places as threads (two at least) and with 64, beside
# the flavours memb and qsbr of liburcu and its hash table: `sections.sh [--pairs N] [--runs N] [--archive FILE]`. It installs the proved
# library for itself, or takes the libcitrus_c.a that is named. The least of all runs goes to bench/results/sections.csv, and is printed as a
# table. It stands outside the gate.
set -eu
# shellcheck source=bench/peers.sh
. "$(dirname "$0")/peers.sh"
# shellcheck source=bench/results.sh
. "$top/bench/results.sh"
pairs=100 runs=3 archive=()
while [ $# -gt 0 ]; do
    case $1 in
        --pairs) pairs=$2 ;;
        --runs) runs=$2 ;;
        --archive) archive=("$2") ;;
        *) echo "usage: sections.sh [--pairs N] [--runs N] [--archive FILE]" >&2; exit 2 ;;
    esac
    shift 2
done

"$top/ffi/install.sh" "$out/installed" "${archive[@]}"
# What is measured is how long calls take, whatever they answer.
strict=(-std=gnu11 -O2 -Wall -Wextra -Wno-unused-result -pthread)
gcc "${strict[@]}" "-I$out/installed/include" -o "$out/sections" "$top/bench/sections.c" -L"$out/installed/lib" -lcitrus

# A flavour of liburcu: `build_urcu NAME WORDS..`.
build_urcu() {
    gcc "${strict[@]}" "-DFLAVOUR=\"liburcu $1\"" "${@:2}" -o "$out/urcu_$1" "$top/bench/urcu.c" "-lurcu-$1" -lurcu-cds -lurcu-common
}

flavours=()
if printf '#include <urcu/rculfhash.h>\n' | gcc -E -xc - >/dev/null 2>&1; then
    build_urcu memb -DRCU_MEMBARRIER '-DURCU_HEADER=<urcu.h>'
    build_urcu qsbr -DQUIESCENT '-DURCU_HEADER=<urcu-qsbr.h>'
    flavours=(memb qsbr)
else
    left_out "liburcu, since Debian's liburcu-dev isn't installed"
fi

measured_here "$pairs pairs, the least of $runs runs" >"$out/sections.csv"
: >"$out/sections_lines"
for ((run = 1; run <= runs; run++)); do
    for threads in 1 2 4; do
        for places in $((threads > 2 ? threads : 2)) 64; do "$out/sections" "$threads" "$pairs" "$places"; done
        for flavour in "${flavours[@]}"; do "$out/urcu_$flavour" "$threads" "$pairs"; done
    done >>"$out/sections_lines"
    echo "run $run of $runs, after $SECONDS s" >&2
done
awk -F, '
    BEGIN { print "series,what,threads,ns" }
    { cell = $1 "," $2 "," $3 }
    !(cell in least) { order[++count] = cell }
    !(cell in least) || $4 < least[cell] { least[cell] = $4 }
    END { for (i = 1; i <= count; i++) printf "%s,%.1f\n", order[i], least[order[i]] }' "$out/sections_lines" >>"$out/sections.csv"
cp "$out/sections.csv" "$results/sections.csv"
"$top/bench/tables.sh" sections
