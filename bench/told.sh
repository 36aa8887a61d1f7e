#!/usr/bin/env bash
# Runs few scripts many times, and fails where a get is told anything but what the updates beside it can explain: `told.sh`. TIMES says how
# often each waiter runs them in threads. It stands outside the gate.
set -eu
# shellcheck source=bench/built.sh
. "$(dirname "$0")/built.sh"
times=${TIMES:-200}

# The line of the one get of the scripts that stand in `scripts`: `line WORDS..`.
line() {
    # shellcheck disable=SC2154
    printf '%s\n' "${scripts[@]}" | "$citrus" run "$@" | grep '^get'
}

# Whether the line is one of these: `one_of WORDS LINE LINES..`.
one_of() {
    local words=$1 line=$2 may
    shift 2
    for may in "$@"; do
        [ "$line" != "$may" ] || return 0
    done
    echo "told.sh: run $words: $line" >&2
    exit 1
}

scripts=(script 'put 1 1' script 'set 1 2' script 'get 1')
for ((number = 0; number < 100; number++)); do
    one_of "--schedule $number" "$(line --schedule "$number")" 'get 1 none 0'
done
for waiter in eer d deer; do
    for ((time = 0; time < times; time++)); do
        one_of "--waiter $waiter" "$(line --waiter "$waiter")" 'get 1 none 0' 'get 1 val 1 1' 'get 1 val 2 2'
    done
done
scripts=(script 'put 1 1' script 'get 1')
for ((number = 0; number < 100; number++)); do
    one_of "--schedule $number" "$(line --schedule "$number")" 'get 1 none 0'
done
one_of '--schedule 552' "$(line --schedule 552)" 'get 1 val 1 1'
for waiter in eer d deer; do
    for ((time = 0; time < times; time++)); do
        one_of "--waiter $waiter" "$(line --waiter "$waiter")" 'get 1 none 0' 'get 1 val 1 1'
    done
done
echo "each get was told what it may be"
