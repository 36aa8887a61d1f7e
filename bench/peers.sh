# For the other scripts here to read in: builds the programs that the tree is measured beside, where a source is newer, and says which
# are left out. The first word of each in `peers` is a program, the others are words for it. TREE_BENCHES may name another proved program.
# shellcheck shell=bash disable=SC2034
set -eu
top=$(cd "$(dirname "${BASH_SOURCE[0]}")/.." && pwd)
out=$top/bench/out
ours=${TREE_BENCHES:-$top/crates/tree_benches/out/tree_benches}
# A large row of words gets a mapping of its own, whatever was freed before it: then its lines begin where the layout has them
# (core_state/src/layout.rt). Else the C library would take the rows of a program's later tables from its heap.
export MALLOC_MMAP_THRESHOLD_=131072
mkdir -p "$out"

left_out() { echo "left out: $*" >&2; }

# Whether the program is there, and newer than all in a folder.
is_newest() { [ -x "$1" ] && [ -z "$(find "$2" -type f ! -name Cargo.lock -newer "$1" -print -quit)" ]; }

# Compiles bench/cpp/NAME.cpp: `compile COMPILER NAME PROGRAM [LIBRARY]`.
compile() {
    is_newest "$out/$3" "$top/bench/cpp" || "$1" -O2 -std=c++17 -pthread -o "$out/$3" "$top/bench/cpp/$2.cpp" ${4:+"-l$4"}
}

# The same steps are built by clang where it is there, since LLVM compiles the proved code too: gcc 12 makes a jump of a search's choice
# between two links, which is guessed wrong half of the time. All others are built by gcc.
compiler_of() {
    case $1 in same*) hash clang++ 2>/dev/null && echo clang++ && return ;; esac
    echo g++
}

# Builds bench/cpp/NAME.cpp: `build_cpp NAME [LIBRARY]`.
build_cpp() { compile "$(compiler_of "$1")" "$1" "$@"; }

# The same where the header is there: `build_with HEADER PACKAGE NAME LIBRARY`.
build_with() {
    [ -e "/usr/include/$1" ] || { left_out "$3, since Debian's $2 isn't installed"; return 1; }
    build_cpp "$3" "$4"
}

# Installs the C library, the proved one or that of an archive, unless that stands there: `install_library PREFIX [ARCHIVE]`. What stands
# there is told by a sum of the archive and of what was made of it.
install_library() {
    local sum
    sum=$(cat "${@:2}" "$1/lib/libcitrus.a" 2>/dev/null | cksum)
    if [ $# = 1 ] || [ "$sum" != "$(cat "$1.of" 2>/dev/null)" ] || [ -n "$(find "$top/ffi" -type f -newer "$1.of" -print -quit)" ]; then
        "$top/ffi/install.sh" "$@" || return
        cat "${@:2}" "$1/lib/libcitrus.a" | cksum >"$1.of"
    fi
}

# Builds bench/cpp/NAME.cpp over a library that was installed: `build_over PREFIX NAME PROGRAM`.
build_over() {
    { is_newest "$out/$3" "$top/bench/cpp" && [ "$out/$3" -nt "$1.of" ]; } ||
        g++ -O2 -std=c++17 -pthread "-I$1/include" "$top/bench/cpp/$2.cpp" "-L$1/lib" '-DLIBRARY="C library"' -lcitrus -o "$out/$3"
}

# Installs the C library and builds the program over it: `build_library [ARCHIVE]`.
build_library() {
    install_library "$out/installed" "$@" &&
        build_over "$out/installed" embed embed
}

# Builds the program on BTreeMap, with the locks of parking_lot where Debian's sources of it are there.
build_btree() {
    local sources=/usr/share/cargo/registry folder=$top/bench/btree
    hash rustc 2>/dev/null || { left_out "BTreeMap, since there is no rustc"; return 1; }
    ! is_newest "$out/btree" "$folder" || return 0
    if hash cargo 2>/dev/null && compgen -G "$sources/parking_lot-0.12*" >/dev/null &&
        (cd "$folder" && cargo build --quiet --release --offline --features parking_lot --target-dir "$out/btree_build" \
            --config 'source.crates-io.replace-with="debian"' --config "source.debian.directory=\"$sources\"") &&
        cp "$out/btree_build/release/btree" "$out/btree"; then
        return
    fi
    left_out "the locks of parking_lot, which Debian's librust-parking-lot-dev has"
    rustc -O --edition 2021 -o "$out/btree" "$folder/src/main.rs"
}

build_peers() {
    build_cpp same
    build_cpp citrus
    build_cpp locked
    peers=("$out/same" "$out/same --packed" "$out/citrus" "$out/locked")
    ! build_btree || peers+=("$out/btree")
    ! build_with oneapi/tbb/concurrent_map.h libtbb-dev tbb tbb || peers+=("$out/tbb")
    ! build_with cds/init.h libcds-dev cds cds || peers+=("$out/cds")
}

# Whether the proved program stands. It is measured as it is.
has_ours() {
    [ -x "$ours" ] || { left_out "the proved tree, since $ours isn't built: rt run in crates/tree_benches builds it"; return 1; }
    [ -z "$(find "$top/crates" -name '*.rt' -newer "$ours" -print -quit)" ] || echo "tree_benches is older than some source" >&2
}
