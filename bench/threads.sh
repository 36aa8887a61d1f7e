#!/usr/bin/env bash
# Measures `run` with each waiter and `hash`, which run scripts in threads, beside the plain program in C++, which runs the same texts one
# script after another on a std::map; then `load`, and two kinds of text for which a command is slow. The best of three goes to
# bench/results/threads.csv. It stands outside the gate.
set -eu
# shellcheck source=bench/commands.sh
. "$(dirname "$0")/commands.sh"
ops=${OPS:-1000000}

# One row: `row TEXT OPERATIONS SCRIPTS WHAT PROGRAM WORDS..`. The text stands in a file.
row() {
    local name=$1 ops=$2 scripts=$3 what=$4
    shift 4
    echo "$what,$name,$ops,$scripts,$(measure "$out/text" "$out/ours" "$@")"
}

rows() {
    local scripts waiter count
    echo 'what,text,operations,scripts,seconds,processor_seconds,mib'
    for scripts in 1 2 4; do
        "$out/made_text" "$ops" "$scripts" 10000 >"$out/text"
        for waiter in eer d deer; do
            row '90 of 100 gets on 10000 keys' "$ops" "$scripts" "run --waiter $waiter" "$citrus" run --waiter "$waiter"
            judged "$out/text" "$out/ours"
        done
        row '90 of 100 gets on 10000 keys' "$ops" "$scripts" hash "$citrus" hash
        judged "$out/text" "$out/ours"
        row '90 of 100 gets on 10000 keys' "$ops" "$scripts" C++ "$out/plain" run
    done
    for scripts in 1 4; do
        "$out/made_text" $((ops * 9 / 10)) "$scripts" 200000 98 >"$out/text"
        row '98 of 100 gets on 200000 keys' $((ops * 9 / 10)) "$scripts" run "$citrus" run
        row '98 of 100 gets on 200000 keys' $((ops * 9 / 10)) "$scripts" hash "$citrus" hash
    done
    for count in 8000 16000 32000; do
        { echo script; seq -f 'put %.0f 1' "$count"; } >"$out/text"
        row 'ascending puts' "$count" 1 run "$citrus" run
    done
    : >"$out/text"
    for scripts in 1 8 64; do
        for waiter in eer d deer; do
            row load "$ops" "$scripts" "load --waiter $waiter" "$citrus" load 1 "$scripts" $((ops / scripts)) --waiter "$waiter"
        done
        row load "$ops" "$scripts" C++ "$out/plain" load 1 "$scripts" $((ops / scripts))
    done
}

measured_here "the best of 3 runs" >"$out/threads.csv"
rows >>"$out/threads.csv"
cp "$out/threads.csv" "$results/threads.csv"
rm -f "$out/claim" "$out/text" "$out/ours"
