#!/usr/bin/env bash
# Tests the two answers to which no run of the library comes: CITRUS_LOST, which takes 2^64 - 1 rounds of waiting, and CITRUS_MOVED of an
# upsert, for which others have to come between its two calls 1,000 times in a row. It copies tree_handles and citrus_c to a folder of its own,
# lowers these numbers in the copy to 7 and to 1, builds the library of it by install.sh, and runs tests/rare.c: `rare.sh [TIMES]`. Its last
# line is `N passed, M failed`, and its status 1 where something failed.
# The copy is proved as the library is, in some three minutes of a processor, over the crates below as they stand in the repository. So it
# stands outside of the gate.
set -u
here=$(cd "$(dirname "$0")" && pwd)
top=$(dirname "$here")
say() { printf 'rare.sh: %s\n' "$*" >&2; }
times=${1:-1}
if [ $# -gt 1 ] || ! [[ $times =~ ^[1-9][0-9]*$ ]]; then
    say "usage: rare.sh [TIMES]"
    exit 2
fi
room=$(mktemp -d)
trap 'rm -rf "$room"' EXIT
copy=$room/copy
passed=0 failed=0

# A repository in which these two alone are copies. The crates below are links, so what isn't proved of them yet is proved where it is kept.
copy_library() {
    mkdir -p "$copy/crates" "$copy/ffi" && ln -s "$top"/crates/* "$copy/crates" && rm "$copy"/crates/{tree_handles,citrus_c} &&
        mkdir "$copy"/crates/{tree_handles,citrus_c} && cp -R "$top"/crates/tree_handles/{src,specs,proofs} "$copy/crates/tree_handles" &&
        cp -R "$top"/crates/citrus_c/{src,specs} "$copy/crates/citrus_c" &&
        cp -R "$top/crates.txt" "$top/build" "$copy" && cp -R "$here"/{install.sh,include,package,VERSION} "$copy/ffi"
}

# Changes the one place where these words stand in a file of tree_handles: `lower FILE WORDS OTHER_WORDS`.
lower() {
    local file=$copy/crates/tree_handles/$1 text
    if [ "$(grep -oF -e "$2" "$file" | wc -l)" != 1 ]; then
        say "crates/tree_handles/$1 hasn't just one '$2'"
        return 1
    fi
    text=$(cat "$file") && printf '%s\n' "${text/"$2"/"$3"}" >"$file"
}

# A wait ends with the seventh pause, which is as long as one gets, and at a word that all callers exchange with the fourth or sooner. The loops
# of the crates below keep their bound. With a patience whose pauses give up a call is proved to make one step at least.
lower_rounds_of_waiting() {
    # shellcheck disable=SC2016
    lower src/spinning.rt '        self.spin_once(pauses);' '        if self.spin_once(pauses) { return Err(GaveUp); }' &&
        lower specs/Calls.antt 'patient_steps = 18446744073709551615' 'patient_steps = 1'
}

# The code, the clause, and the proof, since both speak of the number.
lower_rounds_of_upserts() {
    lower src/updates.rt 'const ROUNDS: u32 = 1_000;' 'const ROUNDS: u32 = 1;' &&
        lower specs/Calls.antt 'rounds < 1000' 'rounds < 1' &&
        lower specs/Calls.antt 'rounds ≡ 1000' 'rounds ≡ 1' &&
        lower proofs/any_caller/AnyCaller/upsert/Invariants.antt 'l.round ≤ 1000' 'l.round ≤ 1'
}

build() {
    gcc -std=gnu11 -O2 -Wall -Wextra -Werror "-I$room/lowered/include" -pthread "$here/tests/rare.c" "-L$room/lowered/lib" -lcitrus \
        -o "$room/rare"
}

# Cases that the program tells itself, by lines `ok: ..` and `FAILED: ..`. One that ends otherwise than it tells, or never, has failed.
run() {
    local status=0 lost
    timeout 150 "$room/rare" >"$room/told" 2>&1 || status=$?
    cat "$room/told"
    lost=$(grep -c '^FAILED: ' "$room/told")
    passed=$((passed + $(grep -c '^ok: ' "$room/told")))
    failed=$((failed + lost))
    if [ "$status" != 0 ] && { [ "$status" != 1 ] || [ "$lost" = 0 ]; }; then
        failed=$((failed + 1))
        echo "FAILED: rare ended with status $status"
    fi
}

if copy_library && lower_rounds_of_waiting && lower_rounds_of_upserts && "$copy/ffi/install.sh" "$room/lowered" && build; then
    for ((time = 0; time < times; time++)); do run; done
else
    failed=1
    echo "FAILED: the library with lowered numbers is built"
fi
echo "$passed passed, $failed failed"
[ "$failed" = 0 ]
