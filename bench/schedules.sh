#!/usr/bin/env bash
# Runs the scripts of a text by many schedules, one after another, and lists the different accounts that came, the most frequent first:
# how often each came, and the first number that gave it. `schedules.sh [TEXT [WORD..]]`: TEXT is a file, `examples/race.txt` where none
# is given, and the words are passed on to `run`, as `--slots 1`. SCHEDULES says how many schedules, FIRST the first number. Who wants to
# see a schedule again runs `./citrus run --schedule N`. It stands outside the gate.
set -eu
# shellcheck source=bench/built.sh
. "$(dirname "$0")/built.sh"
text=${1:-$top/examples/race.txt}
[ $# = 0 ] || shift
schedules=${SCHEDULES:-1000}
first=${FIRST:-0}

declare -A times firsts
for ((number = first; number < first + schedules; number++)); do
    account=$("$citrus" run --schedule "$number" "$@" <"$text") || {
        echo "schedules.sh: run --schedule $number $*: status $?" >&2
        exit 1
    }
    times[$account]=$((${times[$account]:-0} + 1))
    : "${firsts[$account]:=$number}"
done

echo "$schedules schedules, ${#times[@]} accounts"
for account in "${!times[@]}"; do
    printf '%d %d\n' "${times[$account]}" "${firsts[$account]}"
done | sort -k 1,1nr -k 2,2n | while read -r often number; do
    echo
    echo "$often times, first at --schedule $number:"
    "$citrus" run --schedule "$number" "$@" <"$text"
done
