#!/usr/bin/env bash
# Refuses in turn each allocation, each read and each write of the built program at each command, and tells
# how it ended. Anything but the right status and the right bytes is an error. It stands outside the gate; what it printed
# stands in docs/PROOFS.md.
set -eu
# shellcheck source=bench/built.sh
. "$(dirname "$0")/built.sh"
cc -O2 -shared -fPIC -o "$out/faults.so" "$top/bench/faults.c"
errors=0
threads=

# Runs the command with these settings of the library: `run_with SETTINGS..`. Input and words stand in `input` and `words`.
run_with() {
    status=0
    # shellcheck disable=SC2086
    env LD_PRELOAD="$out/faults.so" COUNTS="$out/counts" "$@" "$citrus" $words \
        <"$input" >"$out/written" 2>"$out/told" || status=$?
    read -r allocations reads writes <"$out/counts"
}

error() {
    errors=$((errors + 1))
    echo "error: $words at $*: status $status, $(stat -c %s "$out/written") bytes written, $(cat "$out/told")"
}

# Whether the run ended with this status, this line on standard error, and the first bytes of the right text.
is_cut() {
    local wanted=$1 line=$2
    [ "$status" = "$wanted" ] && [ "$(cat "$out/told")" = "$line" ] &&
        cmp -s -n "$(stat -c %s "$out/written")" "$out/written" "$out/wanted"
}

is_as_always() { [ "$status" = "$always" ] && cmp -s "$out/written" "$out/wanted"; }

# Refuses each of so many in turn, and two past the last one, where nothing is refused. One allocation is asked for ahead,
# and again when it is needed: where only the first is refused, the run is as always with one allocation more. Where `threads` isn't
# empty scripts run beside each other. Then some allocations are room for a thread: where one is refused the script runs in the program's
# own, and the run is as always; and their number differs by one or two from run to run.
# What was written before it is as many bytes for each that wasn't refused: `refuse SETTING COUNT STATUS LINE BYTES OTHER..`
refuse() {
    local setting=$1 count=$2 wanted=$3 line=$4 before=$5 refused=0 again='' n
    shift 5
    for n in $(seq 1 $((count + 2))); do
        run_with "$@" "$setting=$n"
        if [ "$n" -gt "$count" ]; then
            is_as_always || { [ -n "$threads" ] && is_cut "$wanted" "$line"; } || error "${*:+$* }$setting=$n"
        elif is_cut "$wanted" "$line" && [ "$(stat -c %s "$out/written")" = $((before * (n - 1))) ]; then
            refused=$((refused + 1))
        elif [ "$setting" = FAIL_ALLOC ] && is_as_always && { [ -n "$threads" ] || [ "$allocations" = $((count + 1)) ]; }; then
            again="$again, number $n was done without"
        else
            error "${*:+$* }$setting=$n"
        fi
    done
    echo "$words:${*:+ $*} $setting from 1 to $count: $refused ended with status $wanted$again; then as always"
}

# One command. Its input stands in `input`, its words in `words`, its status without a fault in `always`.
try() {
    local all piece
    status=0
    # shellcheck disable=SC2086
    "$citrus" $words <"$input" >"$out/wanted" 2>/dev/null || status=$?
    [ "$status" = "$always" ] || { error 'no fault'; return; }
    run_with
    is_as_always || error 'no fault'
    all=$allocations
    refuse FAIL_ALLOC "$all" 6 'out of memory' 0
    refuse FAIL_ALLOC_FROM "$all" 6 'out of memory' 0
    for piece in 7 1000000; do
        run_with "PIECE=$piece"
        is_as_always || error "PIECE=$piece"
        all=$writes
        refuse FAIL_READ "$reads" 4 'cannot read the input' 0 "PIECE=$piece"
        refuse FAIL_WRITE "$all" 5 'cannot write the output' "$piece" "PIECE=$piece"
    done
}

printf '%s\n' script 'put 5 50' 'put 2 20' 'put 8 80' 'put 6 60' 'put 9 90' 'del 5' >"$out/scripts"
"$citrus" run <"$out/scripts" >"$out/account"
{ cat "$out/scripts"; echo account; cat "$out/account"; } >"$out/claim"
{ cat "$out/scripts"; echo frob; } >"$out/bad"

for waiter in eer d deer; do
    words="run --waiter $waiter" input=$out/scripts always=0 && try
    words="run --cookies --waiter $waiter" input=$out/scripts always=0 && try
    words="load 1 2 100 --waiter=$waiter" input=/dev/null always=0 threads=yes && try
    threads=
done
words='run --schedule 3' input=$out/scripts always=0 && try
words='check' input=$out/claim always=0 && try
words='check' input=$out/scripts always=1 && try
words='run' input=$out/bad always=3 && try
words='hash' input=$out/scripts always=0 && try
echo "$errors errors"
[ "$errors" = 0 ]
