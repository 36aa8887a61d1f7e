#!/usr/bin/env bash
# Runs the commands of README.md, docs/TOOL.md and docs/FORMATS.md, and fails where one fails, waits for more input than it names, or takes longer than
# it should. The answer without proofs and the gate come first, as on a fresh clone, and the others in their order. Only with the word `gate`
# it runs the gate, and holds the tool's next command to the program that the gate left; else the program is built before. What stands
# below ~/ in a command is put into bench/out. It stands outside the gate.
set -eu
if [ "${1:-}" = gate ]; then
    top=$(cd "$(dirname "$0")/.." && pwd)
    out=$top/bench/out
    mkdir -p "$out"
else
    # shellcheck source=bench/built.sh
    . "$(dirname "$0")/built.sh"
fi
cd "$top"

# The lines between ```sh and ```, without the comments behind them, and what stands as `./citrus ..` in a line or over two.
commands() {
    awk '/^```sh$/ { inside = 1; next } /^```$/ { inside = 0 } inside { sub(/ +#.*/, ""); print }' "$1"
    # shellcheck disable=SC2016
    awk '/^```/ { inside = !inside; next } !inside { printf "%s ", $0 }' "$1" | grep -o '`\./citrus [^`]*`' | tr -d '`' || true
}

# As someone runs them who begins with a fresh clone.
in_order() {
    { commands README.md && commands docs/TOOL.md && commands docs/FORMATS.md; } >"$out/commands"
    grep -e '--unproved' -e '^\.ci/run$' "$out/commands"
    grep -v -e '--unproved' -e '^\.ci/run$' "$out/commands"
}

# How long a command may take: the gate three hours, a build without proofs a minute and as long as its program may run, the library what
# its proofs take where the gate didn't run, and the tool's first command after the gate some seconds, which are too few to build anything.
seconds_for() {
    case $1 in
        .ci/run) echo 10800 ;;
        *--unproved*) echo 120 ;;
        ffi/package.sh*) echo 3600 ;;
        ./citrus*) [ -n "$left_by_gate" ] && echo 5 || echo 60 ;;
        *) echo 60 ;;
    esac
}

# An input that gives nothing and doesn't end, as a terminal.
rm -f "$out/terminal"
mkfifo "$out/terminal"
exec 8<>"$out/terminal"
done=0
left_by_gate=
while IFS= read -r command; do
    case $command in
        .ci/run) [ "${1:-}" = gate ] || continue ;;
        # A pattern of words, and no command.
        ./citrus*N* | *'[') continue ;;
    esac
    status=0
    began=$(date +%s%N)
    timeout "$(seconds_for "$command")" bash -c "set -o pipefail; ${command//\~\//$out/}" <&8 >"$out/told" 2>&1 || status=$?
    took=$((($(date +%s%N) - began) / 1000000))
    if [ "$status" != 0 ]; then
        cat "$out/told" >&2
        echo "readme.sh: '$command' ended with $status after $took ms" >&2
        exit 1
    fi
    echo "$command: $(head -1 "$out/told") ($took ms)"
    done=$((done + 1))
    case $command in
        .ci/run) left_by_gate=yes ;;
        ./citrus*) left_by_gate= ;;
    esac
done < <(in_order)
rm -f "$out/terminal" "$out/told" "$out/commands"
[ "$done" -ge 6 ] || { echo "readme.sh: only $done commands were found" >&2; exit 1; }
echo "$done commands ran"
