#!/usr/bin/env bash
# Measures what open handles that do nothing cost the one that calls, by the C library with each waiter and 1, 64 and 1,024 handles: memory,
# open, share, reopen, insert, remove, and waits for a key and for all keys: `handles.sh [--archive FILE]`. It installs the proved library for
# itself, or the libcitrus_c.a that `--archive` names. Lines go to bench/results/handles.csv, and are printed as a table. It takes some seconds,
# and stands outside the gate.
set -eu
# shellcheck source=bench/results.sh
. "$(dirname "$0")/results.sh"
out=$top/bench/out
mkdir -p "$out"
archive=()
case $#:${1:-} in
    0:) ;;
    2:--archive) archive=("$2") ;;
    *) echo "usage: handles.sh [--archive FILE]" >&2; exit 2 ;;
esac
"$top/ffi/install.sh" "$out/installed" "${archive[@]}"
gcc -std=gnu11 -O2 -Wall -Wextra "-I$out/installed/include" -o "$out/handles" "$top/bench/handles.c" -L"$out/installed/lib" -lcitrus
measured_here "one run of each" >"$out/handles.csv"
echo 'waiter,handles,mb,open_us,share_ns,reopen_ns,insert_ns,remove_ns,wait_ns,wait_all_ns' >>"$out/handles.csv"
for waiter in 0 1 2; do
    for count in 1 64 1024; do "$out/handles" "$count" "$waiter" >>"$out/handles.csv" 2>"$out/handles_told"; done
done
cp "$out/handles.csv" "$results/handles.csv"
"$top/bench/tables.sh" handles
