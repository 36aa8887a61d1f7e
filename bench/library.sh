# For the other scripts here to read in: where the C library stands, for programs in Rust over the crate citrus_map. That is in the folder
# that CITRUS_LIB_DIR names, or where pkg-config finds it; else it is installed below bench/out.
# shellcheck shell=bash
set -eu
top=$(cd "$(dirname "${BASH_SOURCE[0]}")/.." && pwd)
out=$top/bench/out
mkdir -p "$out"

left_out() { echo "left out: $*" >&2; }

has_library() {
    hash cargo 2>/dev/null || { left_out "citrus_map, since there is no cargo"; return 1; }
    [ -z "${CITRUS_LIB_DIR:-}" ] && ! pkg-config --exists citrus 2>/dev/null || return 0
    "$top/ffi/install.sh" "$out/installed" >&2 || { left_out "citrus_map, since the C library can't be installed"; return 1; }
    export CITRUS_LIB_DIR=$out/installed/lib
}

# Builds a package and puts its program into bench/out: `build_rust FOLDER PROGRAM [WORD..]`, with more words for cargo.
build_rust() {
    local folder=$1 program=$2
    shift 2
    (cd "$top/$folder" && cargo build --quiet --release --offline --target-dir "$out/${program}_build" "$@") &&
        cp "$out/${program}_build/release/$program" "$out/$program"
}
