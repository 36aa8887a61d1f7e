#!/usr/bin/env bash
# Runs the tests of ffi/tests under tools that look for bad memory and for races: `sanitize.sh [ARCHIVE]`. It installs the proved library for
# itself, or takes the libcitrus_c.a that is named. It stands outside the gate.
#
# What they see. valgrind's memcheck follows each load and store of the library too: memory outside blocks, freed or never written, and leaks.
# What they can't see. The library is compiled without a sanitizer's marks, so ThreadSanitizer and AddressSanitizer watch the C side alone:
# what the tests do with handles and with what they are told. helgrind takes each access of the library for a plain one unless the machine's
# instruction has a lock prefix, so it can't tell an atomic load or store from a plain one; and valgrind runs one thread at a time. That the
# library's words are never raced for is proved, and isn't shown here. What orders the reads of an object and its free ThreadSanitizer knows of
# citrus_tsan.h alone.
set -u
top=$(cd "$(dirname "$0")/.." && pwd)
out=$top/bench/out
prefix=$out/sanitized
mkdir -p "$out"
"$top/ffi/install.sh" "$prefix" "$@" || exit
failed=0

# Compiles a test with these words: `build NAME PROGRAM WORDS..`.
build() {
    local name=$1
    shift
    "$@" -g -O1 -pthread "-I$prefix/include" "$top/ffi/tests/$name.c" "-L$prefix/lib" -lcitrus -o "$out/$name"
}

# Runs words, and tells whether they ended well and no case failed: `try WHAT WORDS..`.
try() {
    local what=$1
    shift
    if timeout 900 "$@" >"$out/sanitized.log" 2>&1; then
        echo "clean: $what"
    else
        failed=$((failed + 1))
        grep -v '^ok: ' "$out/sanitized.log" | head -40
        echo "NOT CLEAN: $what"
    fi
}

if hash valgrind 2>/dev/null; then
    for name in answers misuse own_keys moments holds objects; do build "$name" gcc; done
    try 'misuse under memcheck' valgrind -q --leak-check=full --error-exitcode=9 "$out/misuse"
    try 'answers under memcheck' valgrind -q --leak-check=full --error-exitcode=9 "$out/answers"
    try 'holds under memcheck' valgrind -q --leak-check=full --error-exitcode=9 --fair-sched=yes "$out/holds"
    try 'objects under memcheck' valgrind -q --leak-check=full --error-exitcode=9 --fair-sched=yes "$out/objects" 300
    try 'own_keys under memcheck' valgrind -q --leak-check=full --error-exitcode=9 --fair-sched=yes "$out/own_keys" 300
    try 'own_keys under helgrind' valgrind -q --tool=helgrind --error-exitcode=9 --fair-sched=yes "$out/own_keys" 300
else
    echo "left out: valgrind isn't installed"
fi
if hash clang 2>/dev/null; then
    for kind in address,undefined thread; do
        names=(answers misuse own_keys moments always many_handles counters holds begun keeps objects prcu)
        [ "$kind" != thread ] || names+=(published)
        for name in "${names[@]}"; do
            if build "$name" clang "-fsanitize=$kind"; then try "$name under -fsanitize=$kind" "$out/$name"; else failed=$((failed + 1)); fi
        done
    done
else
    echo "left out: clang isn't installed"
fi
[ "$failed" = 0 ]
