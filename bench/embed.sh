#!/usr/bin/env bash
# Measures the C library in a C++ program, the archive and the shared one, for each waiter and mix at one, two and four threads, beside std::map
# under a lock and TBB's concurrent map, and beside the tree's own calls in tree_benches, which draws the same: `embed.sh [--rounds N]
# [--operations N] [--seconds S] [--archive FILE]`. It installs the proved library for itself, or the libcitrus_c.a that `--archive` names.
# Minima and medians go to bench/results/embed.csv. At the end it tells by how many nanoseconds a call through the library takes longer (minima,
# one thread). It stands outside the gate.
set -eu
# shellcheck source=bench/peers.sh
. "$(dirname "$0")/peers.sh"
# shellcheck source=bench/results.sh
. "$top/bench/results.sh"
rounds=7 operations=400000 seconds=1 archive=()
while [ $# -gt 0 ]; do
    case $1 in
        --rounds) rounds=$2 ;;
        --operations) operations=$2 ;;
        --seconds) seconds=$2 ;;
        --archive) archive=("$2") ;;
        *) echo "usage: embed.sh [--rounds N] [--operations N] [--seconds S] [--archive FILE]" >&2; exit 2 ;;
    esac
    shift 2
done

build_library "${archive[@]}"
# The same over the shared library.
g++ -O2 -std=c++17 -pthread "-I$out/installed/include" "$top/bench/cpp/embed.cpp" "-L$out/installed/lib" '-DLIBRARY="shared C library"' \
    -l:libcitrus.so.0 "-Wl,-rpath,$out/installed/lib" -o "$out/embed_shared"
build_cpp locked
peers=("$out/embed" "$out/embed_shared" "$out/locked")
! build_with oneapi/tbb/concurrent_map.h libtbb-dev tbb tbb || peers+=("$out/tbb")
with_ours=yes
has_ours || with_ours=

measured_here "$rounds rounds of $operations operations a thread" >"$out/embed.csv"
: >"$out/embed_cells"
for ((round = 1; round <= rounds; round++)); do
    [ -z "$with_ours" ] || add_cells "$out/embed_cells" 'proved ' timeout 300 "$ours" times calls "$operations"
    for peer in "${peers[@]}"; do
        add_cells "$out/embed_cells" '' "$peer" --operations "$operations" --seconds "$seconds" calls
    done
    echo "round $round of $rounds, after $SECONDS s" >&2
done
summary "$out/embed_cells" | grep -v '^proved BTreeMap' >>"$out/embed.csv"
cp "$out/embed.csv" "$results/embed.csv"
awk -F, '
    { least[$1, $2, $4] = $6 }
    END {
        split("90 50 load 98 100", mixes, " "); split("first second third", waiters, " ")
        for (m = 1; m <= 5; m++) for (w = 1; w <= 3; w++) {
            ours = least["proved " waiters[w], mixes[m], 1]; library = least["C library " waiters[w], mixes[m], 1]
            shared = least["shared C library " waiters[w], mixes[m], 1]
            if (ours && library) printf "%s waiter, %s: %.1f ns through the library, %.1f by the tree: %+.1f; the shared one %+.1f\n", waiters[w],
                mixes[m] == "load" ? "load" : mixes[m] " of 100 gets", library, ours, library - ours, shared - library
        }
    }' "$out/embed.csv"
same_answers "$out/embed_cells"
