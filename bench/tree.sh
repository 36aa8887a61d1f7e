#!/usr/bin/env bash
# Measures an operation on the search tree, for each waiter and mix at one, two and four threads, beside the same steps in C++ and other
# dictionaries: `tree.sh [--rounds N] [--operations N] [--seconds S] [--beside PROGRAM]`. In each round every program runs once; a thread
# makes so many operations, and a cell of the peers ends after so many seconds. `--beside` is a tree_benches of another commit. A run beside
# which the host gave more than 5 % to others is left out. Minima and medians go to bench/results/tree.csv. Where tree_benches isn't built,
# the peers run alone. bench/ratios.sh measures by shorter turns. It stands outside the gate.
set -eu
# shellcheck source=bench/peers.sh
. "$(dirname "$0")/peers.sh"
# shellcheck source=bench/results.sh
. "$top/bench/results.sh"
rounds=7 operations=400000 seconds=2 beside=
while [ $# -gt 0 ]; do
    case $1 in
        --rounds) rounds=$2 ;;
        --operations) operations=$2 ;;
        --seconds) seconds=$2 ;;
        --beside) beside=$2 ;;
        *) echo "usage: tree.sh [--rounds N] [--operations N] [--seconds S] [--beside PROGRAM]" >&2; exit 2 ;;
    esac
    shift 2
done

# The lines of a proved program. It has no limit for a cell, so all of its cells together have one.
proved_lines() {
    local most
    most=$(awk -v seconds="$seconds" 'BEGIN { print 60 * seconds + 30 }')
    timeout "$most" "$1" times calls "$operations" || echo "$1 wasn't done in $most s" >&2
}

build_peers
with_ours=yes
has_ours || with_ours=
measured_here "$rounds rounds of $operations operations a thread" >"$out/tree.csv"
: >"$out/tree_cells"
for ((round = 1; round <= rounds; round++)); do
    [ -z "$with_ours" ] || add_cells "$out/tree_cells" 'proved ' proved_lines "$ours"
    [ -z "$beside" ] || add_cells "$out/tree_cells" 'before ' proved_lines "$beside"
    for peer in "${peers[@]}"; do
        # shellcheck disable=SC2086
        add_cells "$out/tree_cells" '' $peer --operations "$operations" --seconds "$seconds" calls
    done
    echo "round $round of $rounds, after $SECONDS s" >&2
done
summary "$out/tree_cells" >>"$out/tree.csv"
cp "$out/tree.csv" "$results/tree.csv"
same_answers "$out/tree_cells"
