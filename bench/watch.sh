#!/usr/bin/env bash
# Watches drawn script texts of 2 to 8 scripts, with each waiter in turn, and has each list judged by a replay of the account's history
# (watched.cpp), and the account by `check`. TEXTS says how many texts there are. The script fails at the first text that isn't right, and where
# no list of all of them stands between nothing and the whole history. It stands outside the gate.
set -eu
# shellcheck source=bench/built.sh
. "$(dirname "$0")/built.sh"
texts=${TEXTS:-200}
g++ -O2 -std=c++17 -o "$out/drawn_text" "$top/bench/drawn_text.cpp"
g++ -O2 -std=c++17 -o "$out/watched" "$top/bench/watched.cpp"
waiters=(eer d deer)
between=0
done=0
for ((number = 1; done < texts; number++)); do
    "$out/drawn_text" "$number" >"$out/drawn"
    # A drawn text has up to 64 scripts: the first few are taken.
    awk -v most=$((2 + number % 7)) '$0 == "script" { count++ } count <= most' "$out/drawn" >"$out/few"
    low=$((number % 3)) high=$((low + 100 * (number % 2) + 3))
    fail() { echo "watch.sh: text $number, watch $low $high: $1" >&2; exit 1; }
    "$citrus" watch "$low" "$high" --waiter "${waiters[number % 3]}" <"$out/few" >"$out/watched_text" || fail "status $?"
    between=$((between + $("$out/watched" "$low" "$high" <"$out/watched_text"))) || fail "a list isn't right"
    { cat "$out/few"; echo account; sed '/^end$/q' "$out/watched_text"; } >"$out/claim"
    [ "$("$citrus" check <"$out/claim")" = yes ] || fail "the account isn't one; it stands in $out/claim"
    done=$((done + 1))
done
[ "$between" -gt 0 ] || { echo "watch.sh: no list of all $texts texts stood between nothing and the whole history" >&2; exit 1; }
echo "$texts texts, each with four lists that are right; $between of the lists stood between nothing and the whole history"
