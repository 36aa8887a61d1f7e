#!/usr/bin/env bash
# Runs the tests without proofs, for those who change the code: `tests.sh [WORD]`, or those alone whose names have the word in them. The tests
# of base_tests, of tree_tests and of tool_tests and the rows of tool_rows are built side by side by `rt try`, which watches for what a proof
# excludes, and then run on all processors. A test fails too where it takes longer than a third of the time that the toolchain gives it. Its
# last line is `N passed, M failed`, and its status 1 where something failed.
#
# The gate proves these tests, and runs them as they are proved.
set -u
top=$(cd "$(dirname "$0")/.." && pwd)
# shellcheck source=build/unproved.sh
. "$top/build/unproved.sh"
limit=60
processors=$(nproc)
if [ $# -gt 1 ] || [[ ${1:-} == -* ]]; then
    echo 'usage: tests.sh [WORD]' >&2
    exit 2
fi
hash rt 2>/dev/null || { echo "tests.sh: the Rattle toolchain's command rt is not on the path" >&2; exit 2; }
word=${1:-}
room=$(mktemp -d)
trap 'rm -rf "$room"' EXIT
SECONDS=0

build() {
    mkdir "$room/$1"
    build_without_proofs "$room/$1" "$top/crates/$1" "${@:2}" || { cat "$room/$1/told" >&2; echo "tests.sh: $1 could not be built" >&2; return 1; }
}

# Runs one test of a crate: whether it passed, and how long it took. Beside other work that is its time on processors, if it is shorter.
run_test() {
    local times whole user system took status=0 program=$room/$2/program TIMEFORMAT='%3R %3U %3S'
    local told=$room/$1.told
    mkdir -p "$room/$1"
    times=$({ time timeout "$limit" env -C "$room/$1" -i "$watched" "$program" "$1" >"$told" 2>&1; } 2>&1) || status=$?
    read -r whole user system <<<"${times//./}"
    took=$((10#$user + 10#$system < 10#$whole ? 10#$user + 10#$system : 10#$whole))
    if [ "$status" != 0 ] || ! tail -n 1 "$told" | grep -qx 'test result: ok'; then
        tail -n 20 "$told"
        echo "FAILED: $1, with status $status, after $((10#$whole)) ms"
    elif [ $((3 * took)) -gt $((1000 * limit)) ]; then
        echo "FAILED: $1 took $took ms, more than a third of $limit s"
    else
        echo "ok: $1 ($took ms)"
    fi
}

# The rows of tool_rows, and what has to be written of each, from its line behind a `>` on. Four that make tables for two million pairs, or
# 800,000 operations, take minutes without proofs, so they are left to the gate.
takes_minutes='--slots=2095892|load .*100000'
rows_to_run() { grep -vE -e "$takes_minutes" "$top/crates/tool_rows/stdin"; }
wanted_of_rows() { awk -v out="$takes_minutes" '/^> / { is_out = $0 ~ out } !is_out' "$top/crates/tool_rows/stdout"; }

run_rows() {
    local count
    count=$(rows_to_run | wc -l)
    if rows_to_run | env -i "$watched" timeout "$limit" "$room/tool_rows/program" 2>&1 | diff - <(wanted_of_rows) >"$room/differs"; then
        echo "ok: $count rows of tool_rows"
    else
        head -n 20 "$room/differs"
        echo 'FAILED: the rows of tool_rows'
    fi
}

# The tests of a crate whose names have the word in them, each with the crate behind it. One that reads 16 MiB byte by byte takes more than
# a third of its time without proofs, so it is left to the gate too.
too_long=an_input_as_long_as_the_limit_is_read
tests_of() {
    "$room/$1/program" --list | sed -n 's/: test$//p' | { grep -vF -e "$too_long" || true; } | { grep -F -e "$word" || true; } |
        sed "s/$/ $1/"
}

build tool_rows </dev/null &
rows=$!
build tool_tests --test </dev/null &
tool=$!
build base_tests --test </dev/null &
base=$!
build tree_tests --test </dev/null && wait "$tool" && wait "$base" || { kill "$rows" "$tool" "$base" 2>/dev/null; exit 1; }
echo "built after $SECONDS s" >&2
# It stops at what a proof excludes by an abort.
watched=ASAN_OPTIONS=abort_on_error=1:allocator_may_return_null=1:detect_leaks=0
export room limit watched
export -f run_test
{ tests_of tool_tests && tests_of tree_tests && tests_of base_tests; } >"$room/names"
xargs -a "$room/names" -r -P "$processors" -L 1 bash -c 'run_test "$@"' _ | tee "$room/lines"
if [ -z "$word" ]; then
    wait "$rows" && run_rows | tee -a "$room/lines"
    [ -e "$room/tool_rows/program" ] || echo 'FAILED: tool_rows is built' | tee -a "$room/lines"
else
    kill "$rows" 2>/dev/null
fi
failed=$(grep -c '^FAILED: ' "$room/lines")
echo "after $SECONDS s" >&2
echo "$(grep -c '^ok: ' "$room/lines") passed, $failed failed"
[ "$failed" = 0 ]
