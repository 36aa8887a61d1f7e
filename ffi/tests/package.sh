#!/usr/bin/env bash
# Tests the packages of package.sh as those meet them who have no toolchain: `package.sh FOLDER`, where the folder has both. Each is installed,
# the programs of README.md are built over it by pkg-config and by CMake, with the archive and with the shared library, and it is taken
# away again without a trace. So is what install.sh installs, where the variable ARCHIVE names a libcitrus_c.a. Its last line is `N passed, M
# failed`.
#
# The Debian package goes into an empty root of its own by dpkg, and where an overlay of this machine can be mounted, into that too, with the
# toolchain hidden: there all that Debian does at an install is done.
# Functions are called by name as words of others, which shellcheck can't see.
# shellcheck disable=SC2317
set -u
here=$(cd "$(dirname "$0")/.." && pwd)
top=$(dirname "$here")
if [ $# != 1 ] || [ ! -d "$1" ]; then
    echo 'usage: package.sh FOLDER' >&2
    exit 2
fi
packages=$(cd "$1" && pwd)
version=$(cat "$here/VERSION")
tarball=$packages/citrus-$version-x86_64-linux.tar.gz
package=$packages/libcitrus-dev_$version-1_amd64.deb
room=$(mktemp -d)
trap 'rm -rf "$room"' EXIT
# No toolchain of ours stands there.
path=/usr/bin:/bin:/usr/sbin:/sbin
passed=0 failed=0

case_is() {
    local name=$1
    shift
    if "$@" >"$room/told" 2>&1; then
        passed=$((passed + 1))
        echo "ok: $name"
    else
        failed=$((failed + 1))
        tail -n 40 "$room/told"
        echo "FAILED: $name"
    fi
}

# Words without this shell's variables, and without the toolchain.
bare() { env -i PATH="$path" HOME="$room" PKG_CONFIG_LIBDIR="$pkg_config_folder" ${sysroot:+PKG_CONFIG_SYSROOT_DIR="$sysroot"} "$@"; }

no_toolchain() { ! bare bash -c 'command -v rt'; }

# A program by pkg-config, which quotes what a shell would take apart: `by_pkg_config PACKAGE TEXT WORDS..`.
by_pkg_config() {
    local words
    words=$(bare pkg-config --cflags --libs "$1") || return
    # shellcheck disable=SC2016
    bare bash -c 'eval "\"\${@:2}\" $1"' _ "$words -o $room/program" "${@:3}" &&
        [ "$(bare env LD_LIBRARY_PATH="${run_path:-}" "$room/program")" = "$2" ]
}

# The archive says its own version.
tells_version() {
    cat >"$room/version.c" <<'END'
#include <citrus.h>
#include <string.h>
int main(void) { return strcmp(citrus_version(), CITRUS_VERSION); }
END
    by_pkg_config "$1" '' cc "$room/version.c" && [ "$(bare pkg-config --modversion "$1")" = "$version" ]
}

# A C and a C++ program by CMake, with the archive and with the shared library.
by_cmake() {
    local source=$room/by_cmake one
    mkdir -p "$source"
    cp "$here/c/first.c" "$here/cpp/first.cpp" "$source/"
    cat >"$source/CMakeLists.txt" <<END
cmake_minimum_required(VERSION 3.13)
project(first C CXX)
set(CMAKE_CXX_STANDARD 17)
find_package(Citrus ${version%.*} REQUIRED)
find_package(Threads REQUIRED)
add_executable(first_c first.c)
target_link_libraries(first_c Citrus::citrus)
add_executable(first_shared first.c)
target_link_libraries(first_shared Citrus::shared)
add_executable(first_cpp first.cpp)
target_link_libraries(first_cpp Citrus::citrus Threads::Threads)
END
    rm -rf "$source/built"
    bare cmake -S "$source" -B "$source/built" -DCMAKE_PREFIX_PATH="$1" && bare cmake --build "$source/built" || return
    for one in c shared cpp; do [ "$(bare "$source/built/first_$one")" = '5 has 50' ] || return; done
}

# Another series is refused.
cmake_refuses() {
    local source=$room/refused
    mkdir -p "$source"
    printf 'cmake_minimum_required(VERSION 3.13)\nproject(refused C)\nfind_package(Citrus %s REQUIRED)\n' "$2" >"$source/CMakeLists.txt"
    rm -rf "$source/built"
    ! bare cmake -S "$source" -B "$source/built" -DCMAKE_PREFIX_PATH="$1" >"$room/refusal" 2>&1 && grep -q 'requested version' "$room/refusal"
}

# The page's program in Rust over the package's crate: `in_rust CRATE`.
in_rust() {
    local cargo
    cargo=$(command -v cargo)
    mkdir -p "$room/page/src"
    awk '/^```/ { is_rust = $0 ~ /rust$/; next } is_rust' "$top/README.md" >"$room/page/src/main.rs"
    printf '[package]\nname = "page"\nedition = "2021"\n[dependencies]\ncitrus_map = { path = "%s" }\n[workspace]\n' "$1" >"$room/page/Cargo.toml"
    [ "$(cd "$room/page" && bare env HOME="$HOME" PATH="$(dirname "$cargo"):$path" CARGO_TARGET_DIR="$room/rust" cargo run --offline --quiet)" = '5 has Some(50)' ]
}

# The library shows what citrus.h declares, and citrus_open, which is inline there, for programs that were compiled before it was; and no more,
# in the archive and in the shared library.
shows_the_calls_alone() {
    local declared
    declared=$({ grep -v '^ \*' "$2" | grep -o '^[A-Za-z_0-9 *]*\bcitrus_[a-z_]*(' | grep -v 'static' && echo 'citrus_open('; } | grep -o 'citrus_[a-z_]*(' |
        tr -d '(' | sort -u)
    [ "$(nm -D --defined-only "$1/libcitrus.so.${version%%.*}" | awk '$2 == "T" { sub(/@.*/, "", $3); print $3 }' | sort)" = "$declared" ] &&
        [ "$(nm --defined-only --extern-only "$1/libcitrus.a" | awk 'NF == 3 { print $3 }' | sort)" = "$declared" ] &&
        readelf -d "$1/libcitrus.so.${version%%.*}" | grep -q "SONAME.*libcitrus.so.${version%%.*}\]" &&
        [ "$(readelf -d "$1/libcitrus.so.${version%%.*}" | grep -c NEEDED)" = 1 ]
}

# All that is to be built over what is installed: `programs WHERE PREFIX LIBRARIES CRATE`.
programs() {
    case_is "$1: no toolchain is on the path" no_toolchain
    case_is "$1: the libraries show the calls of citrus.h alone" shows_the_calls_alone "$3" "$2/include/citrus.h"
    case_is "$1: the archive tells its version" tells_version citrus
    case_is "$1: the page's program in C" by_pkg_config citrus '5 has 50' cc "$here/c/first.c"
    case_is "$1: the same with the shared library" by_pkg_config citrus-shared '5 has 50' cc "$here/c/first.c"
    case_is "$1: the page's program in C++" by_pkg_config citrus '5 has 50' c++ -std=c++17 -pthread "$here/cpp/first.cpp"
    case_is "$1: the cache in C" by_pkg_config citrus '5: five' cc "$here/c/cache.c"
    case_is "$1: the cache in C++, with the shared library" by_pkg_config citrus-shared '5: five' c++ -std=c++17 -pthread "$here/cpp/cache.cpp"
    if hash cmake 2>/dev/null; then
        case_is "$1: programs by CMake" by_cmake "$2"
        case_is "$1: CMake refuses another series" cmake_refuses "$2" "$((${version%%.*} + 1)).0"
    else
        echo 'left out: CMake'
    fi
    if [ -n "$4" ] && hash cargo 2>/dev/null; then case_is "$1: the page's program in Rust" in_rust "$4"; fi
}

# --- a folder that may stand anywhere

# What INSTALL.md says first, as it stands there, in a shell that is in the folder. Its program is as it was told.
as_the_page_says() {
    local words
    words=$(awk '/^```/ { is_shell = $0 ~ /sh$/; next } is_shell' "$1/INSTALL.md")
    [ "$(cd "$1" && bare env -u PKG_CONFIG_LIBDIR sh -ec "$words")" = '5 has 50' ] && rm "$1/first"
}

unpack() { mkdir -p "$room/a folder" && tar -xzf "$tarball" -C "$room/a folder"; }

tarball_anywhere() {
    local root="$room/a folder/citrus-$version-x86_64-linux"
    pkg_config_folder=$root/lib/pkgconfig sysroot='' run_path=''
    case_is 'the folder is unpacked, in one with a space' unpack
    case_is 'folder: the program of INSTALL.md, as it is written there' as_the_page_says "$root"
    programs folder "$root" "$root/lib" "$root/ffi/citrus_map"
}

# --- install.sh

installed=$room/another\ folder/citrus

install_there() { "$here/install.sh" "$installed" "$ARCHIVE"; }
leaves_nothing() { "$here/install.sh" --uninstall "$installed" && [ ! -e "$installed" ]; }

# What others have put there stays.
leaves_what_is_others() {
    mkdir -p "$installed/lib" && : >"$installed/lib/others" && install_there && install_there && "$here/install.sh" --uninstall "$installed" &&
        [ "$(cd "$installed" && find . ! -type d)" = ./lib/others ] && [ "$(find "$installed" -type d | wc -l)" = 2 ]
}

wrong_words() { [ "$("$here/install.sh" "$@" >/dev/null 2>&1 || echo $?)" = 2 ]; }
words_are_answered() { "$here/install.sh" --help | grep -q '^usage: install.sh PREFIX' && wrong_words && wrong_words --what && wrong_words a b c; }

by_install_sh() {
    pkg_config_folder=$installed/lib/pkgconfig sysroot='' run_path=''
    case_is 'install.sh: help, and words that are wrong' words_are_answered
    case_is 'install.sh: into a folder with a space' install_there
    programs 'install.sh' "$installed" "$installed/lib" ''
    case_is 'install.sh: taken away without a trace' leaves_nothing
    case_is 'install.sh: what others put there stays' leaves_what_is_others
}

# --- the Debian package

in_root() { fakeroot dpkg --root="$root" --force-depends --force-not-root --log=/dev/null "$@"; }

# A root with nothing in it but what dpkg itself keeps.
empty_root() {
    mkdir -p "$root"/var/lib/dpkg/{info,updates,triggers} && : >"$root/var/lib/dpkg/status" && : >"$root/var/lib/dpkg/available"
}

files_in_root() { (cd "$root" && find . -path ./var/lib/dpkg -prune -o -print | sort) && ls "$root/var/lib/dpkg/info"; }

install_in_root() { empty_root && files_in_root >"$room/before" && in_root -i "$package" && ! files_in_root | cmp -s - "$room/before"; }
purge_from_root() { in_root -P libcitrus-dev && files_in_root | grep -vx format | diff - "$room/before"; }

in_an_empty_root() {
    root=$room/root
    local libraries=$root/usr/lib/x86_64-linux-gnu
    pkg_config_folder=$libraries/pkgconfig sysroot=$root run_path=$libraries
    case_is 'package: dpkg installs it in an empty root' install_in_root
    programs package "$root/usr" "$libraries" "$root/usr/share/citrus/citrus_map"
    case_is 'package: dpkg takes it away without a trace' purge_from_root
}

# A machine like this one, with the toolchain and the repository hidden, of which nothing stays.
on_a_machine() {
    local name
    mkdir -p "$room/machine" "$room/changes"
    mount -t tmpfs none "$room/changes" && mkdir "$room/changes"/{upper,work} &&
        mount -t overlay overlay -o "lowerdir=/,upperdir=$room/changes/upper,workdir=$room/changes/work" "$room/machine" || return
    for name in opt work root usr/local; do [ ! -d "$room/machine/$name" ] || mount -t tmpfs none "$room/machine/$name" || return; done
    mount -t proc none "$room/machine/proc" && mount --bind /dev "$room/machine/dev" && mkdir "$room/machine/root/programs" &&
        cp "$package" "$here/c/first.c" "$here/cpp/first.cpp" "$room/machine/root/programs/" || return
    cat >"$room/machine/root/programs/all" <<'END'
set -eux
cd /root/programs
! command -v rt
kept() { find /etc /usr /var/lib/dpkg/info ! -path '/etc/ld.so.cache' -print | sort; }
kept >before
dpkg -i ./*.deb
cc first.c -lcitrus -o first && [ "$(./first)" = '5 has 50' ]
cc first.c $(pkg-config --cflags --libs citrus-shared) -o first && [ "$(./first)" = '5 has 50' ]
ldd first | grep -q libcitrus.so.0
c++ -std=c++17 -pthread first.cpp $(pkg-config --cflags --libs citrus) -o first && [ "$(./first)" = '5 has 50' ]
ldconfig -p | grep -q libcitrus.so.0
dpkg -P libcitrus-dev
! ldconfig -p | grep libcitrus
kept | diff before -
END
    chroot "$room/machine" env -i PATH="$path" HOME=/root sh /root/programs/all
}

# In namespaces of its own, so that no mount is left.
has_overlay() {
    unshare --mount bash -c "mkdir -p '$room/tried' && mount -t tmpfs none '$room/tried' && mkdir '$room/tried'/{upper,work,all} &&
        mount -t overlay overlay -o 'lowerdir=/,upperdir=$room/tried/upper,workdir=$room/tried/work' '$room/tried/all'" >/dev/null 2>&1
}

in_namespaces() {
    export -f on_a_machine
    export room package here path
    unshare --mount --pid --fork bash -c on_a_machine
}

# Without a licence and a mail address of Debian's there are warnings; errors there are none.
by_lintian() { lintian --fail-on error --suppress-tags bad-distribution-in-changes-file "$package"; }

by_debian() {
    if ! hash dpkg fakeroot 2>/dev/null || [ ! -f "$package" ]; then
        echo "left out: the Debian package, since dpkg or fakeroot isn't here"
        return
    fi
    in_an_empty_root
    if has_overlay; then case_is 'package: installed, used and taken away on a machine without the toolchain' in_namespaces; else echo 'left out: an overlay of this machine'; fi
    if hash lintian 2>/dev/null; then case_is 'package: lintian has no error' by_lintian; else echo 'left out: lintian'; fi
}

tarball_anywhere
if [ -n "${ARCHIVE:-}" ]; then by_install_sh; else echo 'left out: install.sh, since ARCHIVE names no libcitrus_c.a'; fi
by_debian
echo "$passed passed, $failed failed"
[ "$failed" = 0 ]
