#!/usr/bin/env bash
# Measures the built program on made texts and workloads, beside a plain program in C++ that writes the same bytes, and on inputs at the
# limits. The best of three goes to bench/results/text.csv and limits.csv. It stands outside the gate.
set -eu
# shellcheck source=bench/commands.sh
. "$(dirname "$0")/commands.sh"

# One command on one input, by both programs, which write the same, but where scripts are run in threads: then `check` judges the account.
# `both OPS SCRIPTS INPUT WORDS..`.
both() {
    local ops=$1 scripts=$2 input=$3 ours plain
    shift 3
    ours=$(measure "$input" "$out/ours" "$citrus" "$@")
    plain=$(measure "$input" "$out/theirs" "$out/plain" "$@")
    if [ "$1 $scripts" = 'run 8' ]; then judged "$input" "$out/ours"; else cmp "$out/ours" "$out/theirs"; fi
    echo "$1,$ops,$scripts,$ours,$plain"
}

# One input at a limit, by the program alone: `limit WHAT INPUT WORDS..`.
limit() {
    local what=$1 input=$2 found
    shift 2
    found=$(measure "$input" "$out/ours" "$citrus" "$@")
    echo "$what,$1,$(stat -Lc %s "$input"),$(stat -c %s "$out/ours"),$found"
}

text_rows() {
    local ops scripts
    echo 'what,operations,scripts,seconds,processor_seconds,mib,cpp_seconds,cpp_processor_seconds,cpp_mib'
    for ops in 10000 100000 1000000; do
        for scripts in 1 8; do
            "$out/made_text" "$ops" "$scripts" >"$out/text"
            both "$ops" "$scripts" "$out/text" run
            { cat "$out/text"; echo account; cat "$out/ours"; } >"$out/whole"
            both "$ops" "$scripts" "$out/whole" check
            both "$ops" "$scripts" /dev/null load 1 "$scripts" $((ops / scripts))
        done
    done
}

# 1,048,576 operations of this form in so many scripts, and a comment up to 16,777,216 bytes:
#   new      each puts a key of its own
#   one      all put and remove one key
#   largest  a quarter put keys of twenty digits, the others get a value of twenty digits: the account is about as long as any
full_text() {
    awk -v form="$1" -v scripts="$2" 'BEGIN {
        ops = 1048576
        for (i = 0; i < ops; i++) {
            if (i % (ops / scripts) == 0) print "script"
            # Keys that come in no order, each once: the tree has no long path.
            if (form == "new") print "put " (i * 648055) % 1048576 " " i % 1000
            else if (form == "one") print (i % 2 ? "del 7" : "put 7 7")
            else if (i == 0) print "put 7 18446744073709551615"
            else if (i <= 262100) printf "put 18446744073708%06d 18446744073709551615\n", (i * 162013) % 262144
            else print "get 7"
        }
    }' >"$out/full"
    local left=$((16777216 - $(stat -c %s "$out/full") - 1))
    [ "$left" -ge 0 ] || { echo "text.sh: the text of $1 $2 is too long" >&2; exit 1; }
    { head -c "$left" /dev/zero | tr '\0' '#'; echo; } >>"$out/full"
}

limit_rows() {
    local text
    echo 'what,command,bytes_read,bytes_written,seconds,processor_seconds,mib'
    for text in 'new 1' 'new 64' 'one 1' 'one 64' 'largest 1'; do
        # shellcheck disable=SC2086
        full_text $text
        limit "operations $text" "$out/full" run
        judged "$out/full" "$out/ours"
        limit "operations $text" "$out/claim" check
    done
    head -c 16777216 /dev/zero | tr '\0' '#' >"$out/full"
    limit 'one comment' "$out/full" run
    limit 'a workload 64' /dev/null load 1 64 16384
}

measured_here "the best of 3 runs" | tee "$out/text.csv" >"$out/limits.csv"
text_rows >>"$out/text.csv"
limit_rows >>"$out/limits.csv"
cp "$out/text.csv" "$out/limits.csv" "$results"
rm -f "$out/full" "$out/claim" "$out/whole" "$out/text" "$out/ours" "$out/theirs"
