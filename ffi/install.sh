#!/usr/bin/env bash
# Installs the C library, or takes it away again: `install.sh --help` says more. The archive is whole: the proved library, with the toolchain's
# heap functions, which call malloc, realloc and free, and citrus_version, in one object that shows the functions of citrus.h alone. It asks
# for nothing but the C library, so who links it needs no toolchain.
set -eu
here=$(cd "$(dirname "$0")" && pwd)
say() { printf 'install.sh: %s\n' "$*" >&2; }

help() {
    cat <<'END'
usage: install.sh PREFIX [ARCHIVE]
       install.sh --uninstall PREFIX

Installs the C library below the folder PREFIX, which is made where it isn't there:
  include/                  citrus.h, citrus.hpp, citrus_index.hpp, citrus_map.hpp, citrus_string_map.hpp, prcu.h, and what they include
  lib/libcitrus.a           the archive, with all that it needs beside the C library
  lib/libcitrus.so.*        the same as a shared library
  lib/pkgconfig/            citrus.pc, and citrus-shared.pc for the shared library
  lib/cmake/Citrus/         for CMake's find_package(Citrus)
  share/citrus/installed    what was installed, for --uninstall

It is built of the crate citrus_c over the libraries that .ci/run proved. What isn't proved yet is proved first, which takes long on a fresh
clone. With ARCHIVE a libcitrus_c.a that stands elsewhere is taken. It needs the toolchain's command rt, python3, ar, ld, objcopy, objdump and a
C compiler (cc, or what CC names).

--uninstall removes what was installed there, and the folders that were made for it where nothing else is in them.

Statuses: 0 done; 1 not done, as it says; 2 these words are wrong.
END
}

usage() {
    help | head -n 2 >&2
    exit 2
}

# What was installed below the prefix stands there, a path a line; the folders that were made for it end with a stroke.
listed=share/citrus/installed

# Removes files, and with the word `folders` what was made for them.
remove() {
    local line
    [ -f "$prefix/$listed" ] || return 0
    while read -r line; do
        case $line in
            /* | *..*) ;;
            */) [ "${1:-}" != folders ] || rmdir "$prefix/${line#./}" 2>/dev/null || true ;;
            *) rm -f "$prefix/$line" ;;
        esac
    done < <(tac "$prefix/$listed")
}

# Copies what is laid out in a folder below the prefix, and lists it.
copy() {
    local line before
    before=$(cat "$prefix/$listed" 2>/dev/null || true)
    remove
    {
        (cd "$1" && find . -type d | sort) | while read -r line; do
            line=$line/
            if [ ! -d "$prefix/$line" ]; then mkdir -p "$prefix/$line" && printf '%s\n' "$line"; else grep -Fx "$line" <<<"$before" || true; fi
        done
        (cd "$1" && find . ! -type d | sort)
    } >"$room/listed"
    (cd "$1" && find . ! -type d) | while read -r line; do cp -df "$1/$line" "$prefix/$line"; done
    install -m 644 "$room/listed" "$prefix/$listed"
}

# What comes next, in words that a shell takes as they stand.
tell_next() {
    local quoted ours words="\$(pkg-config --cflags --libs citrus)"
    quoted=$(printf '%q' "$prefix") ours=$(printf '%q' "$here")
    say "Citrus $version is installed in $prefix. Next, a program over it:"
    if [ "$quoted" = "$prefix" ]; then words="cc $ours/c/first.c $words -o first"; else words="eval \"cc $ours/c/first.c $words -o first\""; fi
    printf '    export PKG_CONFIG_PATH=%s\n    %s && ./first\n' "$quoted/lib/pkgconfig" "$words" >&2
    say "docs/EMBEDDING.md has the calls; $ours/install.sh --uninstall $quoted removes it"
}

case ${1:-} in
    --help | -h) help && exit ;;
    --uninstall)
        if [ $# != 2 ] || [ -z "$2" ]; then usage; fi
        prefix=$(readlink -m "$2")
        [ -f "$prefix/$listed" ] || { say "nothing was installed in $2: there is no $listed"; exit 1; }
        remove folders
        exit
        ;;
    '' | -*) usage ;;
esac
[ $# -le 2 ] || usage
# shellcheck source=ffi/package/parts.sh
. "$here/package/parts.sh"
find_toolchain || exit 1
if [ $# = 2 ]; then archive=$2; else build_archive || exit 1; fi
[ -f "$archive" ] || { say "there is no archive $archive"; exit 1; }
archive=$(readlink -f "$archive")
room=$(mktemp -d)
trap 'rm -rf "$room"' EXIT
make_libraries "$archive" || { say "the libraries could not be made of $archive"; exit 1; }
prefix=$(readlink -m "$1")
lay_out "$room/laid" lib "$(escaped "$prefix")" "\${libdir}"
mkdir -p "$room/laid/share/citrus" && : >"$room/laid/$listed"
copy "$room/laid"
tell_next
