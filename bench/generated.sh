#!/usr/bin/env bash
# Runs drawn script texts, and has each account checked: `generated.sh [COMMAND [WORD..]]`. Without words the commands are `run` with each
# waiter, with cookies and without, in half of the texts with few slots, `run` by a schedule, and `hash`; else it is the one that the words
# are, as `run --slots 3`. A text has 2 to 64 scripts on few keys, so that threads meet.
# TEXTS says how many texts there are, TIMES how often each is run. The script fails unless `check` says `yes` each time.
# It stands outside the gate.
set -eu
# shellcheck source=bench/built.sh
. "$(dirname "$0")/built.sh"
texts=${TEXTS:-300}
times=${TIMES:-5}
g++ -O2 -std=c++17 -o "$out/drawn_text" "$top/bench/drawn_text.cpp"

# Runs the text of this number by these words, and checks the account.
checked() {
    local number=$1 i j check=(check)
    shift
    # Only `--slots` is a word of `check` too.
    for ((i = 1; i <= $#; i++)); do
        case ${!i} in
            --slots) j=$((i + 1)) && check+=(--slots "${!j}") ;;
            --slots=*) check+=("${!i}") ;;
        esac
    done
    "$citrus" "$@" <"$out/drawn" >"$out/account" || { echo "generated.sh: text $number, $*: status $?" >&2; exit 1; }
    { cat "$out/drawn"; echo account; cat "$out/account"; } >"$out/claim"
    if [ "$("$citrus" "${check[@]}" <"$out/claim")" != yes ]; then
        echo "generated.sh: text $number, $*: the account isn't one; it stands in $out/claim" >&2
        exit 1
    fi
}

for ((number = 1; number <= texts; number++)); do
    "$out/drawn_text" "$number" >"$out/drawn"
    for ((time = 1; time <= times; time++)); do
        if [ $# -gt 0 ]; then
            checked "$number" "$@"
        else
            few=()
            [ $((number % 2)) = 0 ] || few=("--slots=$((number % 7 + 1))")
            for waiter in eer d deer; do
                checked "$number" run "--waiter=$waiter" "${few[@]}"
                checked "$number" run --cookies "--waiter=$waiter" "${few[@]}"
            done
            checked "$number" run "--schedule=$((1000 * number + time))" "${few[@]}"
            checked "$number" hash
        fi
    done
done
echo "$texts texts, each run $times times: each account was one"
rm -f "$out/drawn" "$out/account" "$out/claim"
