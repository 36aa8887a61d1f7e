# For the other scripts here to read in: times whole commands. The plain program in C++ and the makers of texts are built.
# shellcheck shell=bash
# shellcheck source=bench/built.sh
. "$(dirname "${BASH_SOURCE[0]}")/built.sh"
# shellcheck source=bench/results.sh
. "$top/bench/results.sh"
for name in made_text plain; do
    g++ -O2 -std=c++17 -o "$out/$name" "$top/bench/$name.cpp"
done
cc -O2 -o "$out/measure" "$top/bench/measure.c"

# The best of three by the seconds that passed: seconds that passed, processor seconds, mebibytes at the peak, with commas between.
# `measure INPUT OUTPUT PROGRAM WORDS..`.
measure() {
    local input=$1 output=$2
    shift 2
    for _ in 1 2 3; do
        "$out/measure" "$@" <"$input" 2>&1 >"$output" | tail -1
    done | sort -n -k 3 | head -1 | awk '{ printf "%.3f,%.3f,%.1f\n", $3, $1, $2 / 1024 }'
}

# Joins scripts and an account, and has it judged: `judged SCRIPTS ACCOUNT`.
judged() {
    { cat "$1"; echo account; cat "$2"; } >"$out/claim"
    [ "$("$citrus" check <"$out/claim")" = yes ] || { echo "not an account of its scripts; both stand in $out/claim" >&2; exit 1; }
}
