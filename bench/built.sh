# For the other scripts here to read in: where things stand, and the program, built.
# shellcheck shell=bash disable=SC2034
set -eu
top=$(cd "$(dirname "${BASH_SOURCE[0]}")/.." && pwd)
citrus=$top/crates/citrus_cli/out/citrus_cli
out=$top/bench/out
mkdir -p "$out"
# Words that are no command: the program is built, and does nothing.
"$top/citrus" 2>"$out/told" || [ $? = 2 ]
