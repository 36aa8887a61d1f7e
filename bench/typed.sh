#!/usr/bin/env bash
# Tells whether gets by typed keys cost nothing in C++: whether `citrus::index<int64_t>` and its handle compile to the machine code that the index
# by words has, with the flip of a key's upper bit in the call. For each compiler that is there it says so, or how the codes differ. It needs
# the headers alone, and stands outside the gate.
set -eu
top=$(cd "$(dirname "$0")/.." && pwd)
out=$top/bench/out
mkdir -p "$out"

# The machine code of the calls: `code_of COMPILER [WORD..]`.
code_of() {
    "$1" -O2 -std=c++17 "${@:2}" "-I$top/ffi/include" -c "$top/bench/cpp/typed.cpp" -o "$out/typed.o"
    objdump --disassemble --reloc --no-show-raw-insn --no-addresses "$out/typed.o"
}

status=0
for compiler in g++ clang++; do
    hash "$compiler" 2>/dev/null || { echo "left out: $compiler isn't there" >&2; continue; }
    code_of "$compiler" >"$out/by_words.txt"
    code_of "$compiler" -DTYPED >"$out/typed.txt"
    grep -q citrus_get "$out/typed.txt"
    if diff "$out/by_words.txt" "$out/typed.txt"; then
        echo "$compiler: gets by typed keys are the machine code of those by words"
    else
        echo "$compiler: gets by typed keys aren't the machine code of those by words"
        status=1
    fi
done
exit "$status"
