#!/usr/bin/env bash
# Draws the pictures of README.md, docs/BENCHMARKS.md and bench/TABLES.md from the summaries in bench/results, by gnuplot (Debian's gnuplot-nox), into docs/pictures:
# those whose summaries are there.
set -eu
# shellcheck source=bench/results.sh
. "$(dirname "$0")/results.sh"
pictures=$top/docs/pictures
drawn=$top/bench/out/drawn
mkdir -p "$drawn"

# Draws a picture: `draw NAME -e SETTINGS`.
draw() {
    local name=$1
    shift
    gnuplot -e "folder='$top/bench/plots'; picture='$pictures/bench_$name.svg'" "$@" "$top/bench/plots/$name.gp"
    echo "$pictures/bench_$name.svg"
}

# The proved tree's minima by those of C++: `NUMBER,first,second,third`.
ratios() {
    awk -F, '
        BEGIN { split("90 50 load 98 100", mixes, " "); split("1 2 4", threads, " "); split("first second third", waiters, " ") }
        { least[$1, $2, $4] = $6 }
        END {
            for (i = 1; i <= 15; i++) {
                mix = mixes[int((i - 1) / 3) + 1]; crew = threads[(i - 1) % 3 + 1]
                row = i
                for (w = 1; w <= 3; w++) {
                    ours = least["proved " waiters[w], mix, crew]; theirs = least["C++ " waiters[w], mix, crew]
                    row = row "," (ours && theirs ? ours / theirs : "")
                }
                print row
            }
        }' "$1"
}

# Medians at four threads: `MIX,packed,apart,before,proved,locked,TBB`.
layouts() {
    awk -F, '
        BEGIN {
            split("90 50 load 98 100", mixes, " ")
            split("C++ first packed|C++ first|before first|proved first|best under a lock|TBB map", series, "|")
        }
        $4 == 4 { median[$1, $2] = $7 }
        END {
            for (i = 1; i <= 5; i++) {
                row = mixes[i]
                for (j = 1; j <= 6; j++) row = row "," median[series[j], mixes[i]]
                print row
            }
        }' "$1"
}

# Of the maps under a lock in a summary the one that had the least median in each cell, under a name: `best_of NAME FILE`.
best_of() { with_best "$2" | sed -n "s/^best under a lock,/$1,/p"; }

if [ -e "$results/tree.csv" ]; then
    with_best "$results/tree.csv" >"$drawn/tree.csv"
    ratios "$drawn/tree.csv" >"$drawn/ratio.csv"
    layouts "$drawn/tree.csv" >"$drawn/layout.csv"
    draw threads -e "data='$drawn/tree.csv'"
    before=0
    ! grep -q '^before first' "$drawn/tree.csv" || before=1
    draw layout -e "data='$drawn/layout.csv'; before=$before"
    ! grep -q '^proved first' "$drawn/tree.csv" || draw ratio -e "data='$drawn/ratio.csv'"
fi
if [ -e "$results/keys.csv" ]; then
    with_best "$results/keys.csv" >"$drawn/keys.csv"
    draw keys -e "data='$drawn/keys.csv'"
fi
if [ -e "$results/places.csv" ]; then
    cp "$results/places.csv" "$drawn/places.csv"
    draw places -e "data='$drawn/places.csv'"
fi
if [ -e "$results/crowded.csv" ]; then
    with_best "$results/crowded.csv" >"$drawn/crowded.csv"
    draw crowd -e "data='$drawn/crowded.csv'"
fi
if [ -e "$results/processors.csv" ]; then
    # Rows with a thread for each processor, and the longer of both pause instructions: `PROGRAM,GETS,KEYS,PROCESSORS,MILLIONS`.
    awk -F, -v OFS=, '/^[0-9]/ && $3 == $4 && $8 == 56 { print $5, $1, $2, $3, $10 }' "$results/processors.csv" >"$drawn/processors.csv"
    draw processors -e "data='$drawn/processors.csv'"
fi
if [ -e "$results/embed.csv" ] && [ -e "$results/rust_map.csv" ]; then
    {
        grep -E '^(C library first|TBB map),' "$results/embed.csv"
        grep -E '^(citrus_map first|DashMap),' "$results/rust_map.csv"
        best_of 'std::map best' "$results/embed.csv"
        best_of 'BTreeMap best' "$results/rust_map.csv"
    } >"$drawn/maps.csv"
    draw maps -e "data='$drawn/maps.csv'"
fi
