#!/usr/bin/env bash
# Measures an operation of the crate citrus_map, for each waiter and mix at one, two and four threads, beside BTreeMap under std's locks and
# DashMap, where Debian's librust-dashmap-dev is there: `rust_map.sh [--rounds N] [--operations N] [--seconds S]`. In each round every
# program runs once; a thread makes so many operations, and a cell ends after so many seconds. Minima and medians go to
# bench/results/rust_map.csv. DashMap is a hash map and answers no ranges. Debian 12 has no crossbeam-skiplist. It stands outside the gate.
set -eu
# shellcheck source=bench/library.sh
. "$(dirname "$0")/library.sh"
# shellcheck source=bench/results.sh
. "$top/bench/results.sh"
rounds=7 operations=400000 seconds=1
while [ $# -gt 0 ]; do
    case $1 in
        --rounds) rounds=$2 ;;
        --operations) operations=$2 ;;
        --seconds) seconds=$2 ;;
        *) echo "usage: rust_map.sh [--rounds N] [--operations N] [--seconds S]" >&2; exit 2 ;;
    esac
    shift 2
done

sources=/usr/share/cargo/registry
programs=()
! has_library || { build_rust bench/rust_map rust_map && programs+=(rust_map); }
[ ${#programs[@]} != 0 ] || exit 1
rustc -O --edition 2021 -o "$out/btree" "$top/bench/btree/src/main.rs"
programs+=(btree)
if compgen -G "$sources/dashmap-5*" >/dev/null; then
    build_rust bench/dashmap dashmap_bench --config 'source.crates-io.replace-with="debian"' --config "source.debian.directory=\"$sources\""
    programs+=(dashmap_bench)
else
    left_out "DashMap, which Debian's librust-dashmap-dev has"
fi

measured_here "$rounds rounds of $operations operations a thread" >"$out/rust_map.csv"
: >"$out/rust_map_cells"
for ((round = 1; round <= rounds; round++)); do
    for program in "${programs[@]}"; do
        add_cells "$out/rust_map_cells" '' "$out/$program" --operations "$operations" --seconds "$seconds" calls
    done
    echo "round $round of $rounds, after $SECONDS s" >&2
done
summary "$out/rust_map_cells" >>"$out/rust_map.csv"
cp "$out/rust_map.csv" "$results/rust_map.csv"
same_answers "$out/rust_map_cells"
