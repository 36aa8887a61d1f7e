#!/usr/bin/env bash
# Runs the rows of crates/tool_rows with a lift behind each put that adds a pair below another, in a copy of the crates in which no way may
# be longer than 0. A lift changes no answer, so each row has to be answered as it stands there. This shows answers of the tool with lifts in
# between, and proves nothing: the copy is compiled without proofs and run by `rt try`, on its interpreter and as it was compiled.
# So many rows go into one run as ROWS says (12); where such a run isn't as it has to be, each of its rows is run alone. A row that alone
# passes the limits of `rt try`, STEPS of the interpreter (20,000,000) or SECONDS_A_RUN (60), is listed as not run. It stands outside the gate,
# takes some minutes, and leaves nothing here.
set -eu
top=$(cd "$(dirname "$0")/.." && pwd)
rows=$top/crates/tool_rows
room=$(mktemp -d)
trap 'rm -rf "$room"' EXIT

fail() { echo "forced_lifts.sh: $1" >&2; exit 1; }

# The copy, and in it the bound on a way's length.
mkdir "$room/crates"
cp "$top/crates.txt" "$top/HANDLES" "$room/"
(cd "$top/crates" && tar --exclude='./*/out' --exclude='./*/must-fail' -cf - .) | tar -C "$room/crates" -xf -
rule=$room/crates/tree_lift/src/rule.rt
bound='    2 * u64::from(digits) + 2'
[ "$(grep -cxF "$bound" "$rule")" = 1 ] || fail "the last line of most_depth in crates/tree_lift/src/rule.rt is another"
sed -i "s/^$bound\$/    0 * u64::from(digits)/" "$rule"

# A file for so many rows of stdin, by its first row's number, and beside it what stands in stdout: `lay FOLDER SIZE [NUMBERS..]`. With
# numbers these rows alone. A row's text in stdout begins with its line, after `>`.
lay() {
    mkdir "$1"
    awk -v to="$1" -v size="$2" -v wanted="${*:3}" '
        function put(row, ending) {
            if (some && !(row in take)) return
            file = sprintf("%s/%04d%s", to, row - (row - 1) % size, ending)
            if (file != last) { if (last) close(last); last = file }
            print >>file
        }
        BEGIN { some = split(wanted, list, " "); for (i in list) take[list[i] + 0] }
        FNR == NR { split($0, part, "|"); head[FNR] = "> " part[1]; rows = FNR; put(FNR, ""); next }
        row < rows && $0 == head[row + 1] { row++ }
        { put(row, ".stdout") }
        END { exit row != rows }
    ' "$rows/stdin" "$rows/stdout" || fail "the rows of crates/tool_rows/stdin are not those of stdout"
}

# Runs the files of a folder, and writes the numbers of those that are not as they have to be: `run FOLDER`.
run() {
    (cd "$room/crates/tool_rows" && rt try --steps "${STEPS:-20000000}" --seconds "${SECONDS_A_RUN:-60}" --cases "$1") >"$1.told" 2>&1 || true
    [ "$(grep -c '^case=' "$1.told")" = "$(find "$1" -type f ! -name '*.stdout' | wc -l)" ] || { tail -n 20 "$1.told" >&2; fail "the copy didn't run"; }
    sed -n '/ output=expected /!s/^case=0*\([0-9]*\) .*/\1/p' "$1.told"
}

size=${ROWS:-12}
count=$(wc -l <"$rows/stdin")
lay "$room/together" "$size"
alone=()
for first in $(run "$room/together"); do
    for ((row = first; row < first + size && row <= count; row++)); do alone+=("$row"); done
done
other=0 unrun=0
if [ ${#alone[@]} -gt 0 ]; then
    lay "$room/alone" 1 "${alone[@]}"
    for row in $(run "$room/alone"); do
        line=$(grep "^case=$(printf %04d "$row") " "$room/alone.told")
        case $line in
            *' run=ended '*) other=$((other + 1)); what='answered otherwise' ;;
            *) unrun=$((unrun + 1)); what='not run' ;;
        esac
        echo "row $row, $what: $(sed -n "${row}p" "$rows/stdin" | cut -c 1-80) (${line#* })"
    done
fi
echo "$count rows, with a lift behind each put: $((count - other - unrun)) answered as they stand, $other otherwise, $unrun not run"
[ "$other" = 0 ]
