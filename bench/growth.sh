#!/usr/bin/env bash
# Measures how an operation's time grows: with 1,000 to 1,000,000 keys, at one and at four threads; and with 1 to 64 places of the table, of
# which four have a thread. `growth.sh [--rounds N] [--operations N] [--seconds S]`, as tree.sh has them. The tree is that of the same steps
# in C++. Minima and medians go to bench/results/{keys,places}.csv. It stands outside the gate.
set -eu
# shellcheck source=bench/peers.sh
. "$(dirname "$0")/peers.sh"
# shellcheck source=bench/results.sh
. "$top/bench/results.sh"
rounds=2 operations=50000 seconds=1
while [ $# -gt 0 ]; do
    case $1 in
        --rounds) rounds=$2 ;;
        --operations) operations=$2 ;;
        --seconds) seconds=$2 ;;
        *) echo "usage: growth.sh [--rounds N] [--operations N] [--seconds S]" >&2; exit 2 ;;
    esac
    shift 2
done

# Measures one subject by these programs: `measure SUBJECT OPERATIONS PROGRAM..`.
measure() {
    local subject=$1 operations=$2 round peer
    shift 2
    measured_here "$rounds rounds of $operations operations a thread" >"$out/$subject.csv"
    : >"$out/${subject}_cells"
    for ((round = 1; round <= rounds; round++)); do
        for peer in "$@"; do
            "$peer" --operations "$operations" --seconds "$seconds" "$subject" | cells '' >>"$out/${subject}_cells"
        done
    done
    summary "$out/${subject}_cells" >>"$out/$subject.csv"
    cp "$out/$subject.csv" "$results/$subject.csv"
    same_answers "$out/${subject}_cells"
    echo "$subject, after $SECONDS s" >&2
}

build_peers
others=()
for peer in "${peers[@]}"; do
    case $peer in *packed | */same) ;; *) others+=("$peer") ;; esac
done
measure keys "$operations" "$out/same" "${others[@]}"
measure places "$operations" "$out/same"
