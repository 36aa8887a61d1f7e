#!/usr/bin/env bash
# Measures on a quiet machine, draws the pictures, and writes the tables of docs/BENCHMARKS.md:
# `all.sh [--rounds N] [--operations N] [--seconds S] [--beside PROGRAM] [--commands] [--cookies] [--shapes] [--embed] [--size]`. The first four are
# words of tree.sh. It takes some ten minutes. `--commands` measures whole commands too, by threads.sh and text.sh, some five minutes more,
# `--cookies` by cookies.sh a writer beside a reader that stays for long, a minute and a half, `--shapes` by shapes.sh trees whose keys come
# in some order, `--embed` by embed.sh, ratios.sh, strings.sh, latency.sh, sections.sh, writers.sh, crowd.sh, handles.sh, rust_map.sh and
# server.sh the C library, the Rust crate and the index server, and `--size` by size.sh indexes of many pairs, some minutes more. It stands
# outside the gate.
set -eu
here=$(dirname "$0")
words=() more=()
while [ $# -gt 0 ]; do
    case $1 in
        --commands) more+=(threads.sh text.sh); shift ;;
        --cookies) more+=(cookies.sh); shift ;;
        --shapes) more+=(shapes.sh); shift ;;
        --embed) more+=(embed.sh ratios.sh strings.sh latency.sh sections.sh writers.sh crowd.sh handles.sh rust_map.sh server.sh); shift ;;
        --size) more+=(size.sh); shift ;;
        --rounds | --operations | --seconds | --beside) words+=("$1" "${2:?}"); shift 2 ;;
        *)
            echo "usage: all.sh [--rounds N] [--operations N] [--seconds S] [--beside PROGRAM] [--commands] [--cookies] [--shapes] [--embed] [--size]" >&2
            exit 2
            ;;
    esac
done
# A subject that can't be measured here keeps the numbers that it had.
failed=()
measure() { "$here/$1" "${@:2}" || failed+=("$1"); echo "$1 is done, after $SECONDS s" >&2; }
measure tree.sh "${words[@]}"
for script in growth.sh waits.sh "${more[@]}"; do measure "$script"; done
measure plots.sh >/dev/null
measure tables.sh
"$here/compare.sh" || true
[ ${#failed[@]} = 0 ] || { echo "not measured, or not as it should be: ${failed[*]}" >&2; exit 1; }
