#!/usr/bin/env bash
# Simulates the tree at 4 to 96 processors: `processors.sh [--seeds N] [--at_once N]`. The trees of bench/cpp run on a simulated machine
# (bench/processors), which needs a C++ compiler alone, with the ways of waiting for the front and the free count of the programs below. Each
# cell is simulated with so many seeds, so many cells at once. Medians go to bench/results/processors.csv, and those of waits for readers to
# bench/results/processors_waits.csv. It answers the same everywhere, in some ten minutes on four
# processors. It stands outside the gate.
set -eu
# shellcheck source=bench/results.sh
. "$(dirname "$0")/results.sh"
# shellcheck source=bench/peers.sh
. "$top/bench/peers.sh"
seeds=3 at_once=$(nproc)
while [ $# -gt 0 ]; do
    case $1 in
        --seeds) seeds=${2:?} ;;
        --at_once) at_once=${2:?} ;;
        *) echo "usage: processors.sh [--seeds N] [--at_once N]" >&2; exit 2 ;;
    esac
    shift 2
done
if ! is_newest "$out/processors" "$top/bench/processors" || ! is_newest "$out/processors" "$top/bench/cpp"; then
    "$(compiler_of same)" -O2 -std=c++17 -DSIMULATED -o "$out/processors" "$top"/bench/processors/*.cpp
fi

# How many milliseconds are simulated behind half as many that aren't measured: `time_of PROCESSORS THREADS`. A thread keeps its processor
# for one where there are more of them.
time_of() {
    if [ "$1" != "$2" ]; then echo 6; return; fi
    case $1 in
        4) echo 20 ;;
        16) echo 8 ;;
        *) echo 3 ;;
    esac
}

# The cells of a table, a line for each seed: `cell GETS KEYS PROCESSORS THREADS PROGRAM WAITER LOOKS SPIN`.
cell() {
    local seed
    for ((seed = 0; seed < seeds; seed++)); do
        printf '%s,%s,%s,%s,%s,%s,%s,%s,%s,%s\0' "$@" "$(time_of "$3" "$4")" "$seed"
    done
}

mixes=('98 200000' '90 200000' '90 20000' '50 100000')
programs=(before pairs 'pairs and kept' queue 'queue and kept' plain)

program_cells() {
    local mix program crew
    for crew in '96 96' '48 48' '16 16' '4 4' '96 192' '16 32'; do
        for mix in "${mixes[@]}"; do
            # shellcheck disable=SC2086
            for program in "${programs[@]}"; do cell $mix $crew "$program" first 1 56; done
        done
    done
    # Where a pause instruction is short.
    for mix in "${mixes[@]}"; do
        # shellcheck disable=SC2086
        for program in before 'pairs and kept' 'queue and kept'; do cell $mix 96 96 "$program" first 1 5; done
    done
}

wait_cells() {
    local mix
    for mix in '98 200000' '90 200000'; do
        # shellcheck disable=SC2086
        {
            for waiter in first second third; do cell $mix 96 96 'queue and kept' $waiter 1 56; done
            cell $mix 96 96 'queue and kept' first 8 56
        }
    done
}

# Simulates the cell of a line, and writes the line with what the program told.
simulate_line() {
    local gets keys processors threads program waiter looks spin milliseconds seed
    IFS=, read -r gets keys processors threads program waiter looks spin milliseconds seed <<<"$1"
    echo "$1,$("$out/processors" --gets "$gets" --keys "$keys" --processors "$processors" --threads "$threads" --program "$program" \
        --waiter "$waiter" --looks "$looks" --spin "$spin" --milliseconds "$milliseconds" --seed "$seed")"
}
export -f simulate_line
export out

# The medians of all cells that standard input names.
medians() {
    local seen="medians of $seeds seeds"
    [ "$seeds" != 1 ] || seen="one seed"
    echo "# By the simulated machine of bench/processors, which answers the same everywhere; $seen."
    echo gets,keys,processors,threads,program,waiter,looks,spin_ns,milliseconds,million_a_second,least,greatest,lines_an_update,wait_ns
    # shellcheck disable=SC2016
    xargs -0 -P "$at_once" -I '{}' bash -c 'simulate_line "$1"' simulate '{}' >"$out/processors_lines"
    LC_ALL=C sort -t, -k 1,1nr -k 2,2nr -k 3,3n -k 4,4n -k 8,8nr -k 5,7 -k 11,11n "$out/processors_lines" | awk -F, -v OFS=, '
        function middle(of) { return of[int((count + 1) / 2)] }
        function flush() { if (count) print cell, middle(rate), rate[1], rate[count], middle(lines), middle(wait) }
        {
            now = $1 OFS $2 OFS $3 OFS $4 OFS $5 OFS $6 OFS $7 OFS $8 OFS $9
            if (now != cell) { flush(); cell = now; count = 0 }
            rate[++count] = $11; lines[count] = $12; wait[count] = $13
        }
        END { flush() }'
}

program_cells | medians >"$out/processors.csv"
wait_cells | medians >"$out/processors_waits.csv"
cp "$out/processors.csv" "$out/processors_waits.csv" "$results/"
