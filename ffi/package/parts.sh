# What install.sh and package.sh share: they read it in. `here` is the folder ffi, `say` tells a line, and `room` is a folder that goes.
# shellcheck shell=bash disable=SC2154
version=$(cat "$here/VERSION")
soname=libcitrus.so.${version%%.*}

# The toolchain's command, and the archive of its heap functions.
find_toolchain() {
    rt=$(command -v rt) || { say "the Rattle toolchain's command rt is not on the path"; return 1; }
    heap=$(dirname "$(dirname "$(readlink -f "$rt")")")/c/liblibc_c.a
}

# The proved library. Where the toolchain refuses to build it over what the gate left, its own command proves all below it anew.
build_archive() {
    local status=0 top
    top=$(dirname "$here")
    python3 "$top/build/side_by_side.py" library "$top" "$rt" >&2 || status=$?
    [ "$status" != 3 ] || { status=0 && (cd "$top/crates/citrus_c" && "$rt" lib) >&2 || status=$?; }
    [ "$status" = 0 ] || say "the library could not be built"
    archive=$top/crates/citrus_c/out/libcitrus_c.a
    return "$status"
}

# Gives an object of proved code, which comes without, unwind tables, and leaves its code as it is. Where a function can't be followed, that is
# told, and it has none.
add_unwind_tables() {
    local tables=$room/unwind
    python3 "$here/package/unwind_tables.py" "$1" "$tables.s" "$tables.options" || say 'backtraces from these functions end there'
    "${CC:-cc}" -c "$tables.s" -o "$tables.o" && objcopy "@$tables.options" "$1" && ld -r -o "$tables.joined" "$1" "$tables.o" &&
        objcopy --rename-section unwind_tables=.eh_frame "$tables.joined" "$1"
}

# Of a libcitrus_c.a one whole archive, and a shared library, in the room: one object of all that is in it and in the toolchain's heap, and of
# citrus_version. Only the functions of citrus.h can be seen from outside.
make_libraries() {
    local one number=0
    for one in "$1" "$heap"; do
        number=$((number + 1))
        mkdir "$room/$number" || return
        (cd "$room/$number" && ar x "$one") || return
    done
    for one in "$room"/1/*.o; do add_unwind_tables "$one" || return; done
    "${CC:-cc}" -std=c99 -O2 -fPIC -c "$here/package/version.c" -o "$room/version.o" && ld -r -o "$room/citrus.o" "$room"/[12]/*.o "$room/version.o" &&
        objcopy --wildcard --keep-global-symbol='citrus_*' --keep-global-symbol='!*::*' --strip-debug "$room/citrus.o" && rm -f "$room/libcitrus.a" &&
        ar rcsD "$room/libcitrus.a" "$room/citrus.o" || return
    printf 'CITRUS_%s { global: citrus_*; local: *; };\n' "${version%%.*}" >"$room/symbols"
    "${CC:-cc}" -shared -Wl,-soname,"$soname" -Wl,--version-script,"$room/symbols" -Wl,-z,defs,-z,relro,-z,now,-z,noexecstack -s \
        -o "$room/libcitrus.so.$version" "$room/citrus.o"
}

# What a shell, pkg-config or CMake would take a path apart at.
escaped() { printf '%s' "$1" | sed 's/[][ "#$&'"'"'()*;<>?\\`{|}~]/\\&/g'; }

# `write_pc FILE PREFIX LIBDIR WHAT LIBS`. The prefix is written as it is.
write_pc() {
    cat >"$1" <<END
prefix=$2
libdir=\${prefix}/$3
includedir=\${prefix}/include

Name: citrus
Description: An ordered index from 64-bit keys to 64-bit values that threads share, $4
Version: $version
Cflags: -I\${includedir}
Libs: $5
END
}

write_cmake() {
    local up
    up=$(printf '%s/cmake/Citrus' "$2" | sed 's,[^/]*,..,g')
    sed "s,@UP@,$up,; s,@SONAME@,$soname," "$here/package/CitrusConfig.cmake" >"$1/CitrusConfig.cmake"
    sed "s,@VERSION@,$version," "$here/package/CitrusConfigVersion.cmake" >"$1/CitrusConfigVersion.cmake"
}

# Lays headers and libraries out below a folder: `lay_out FOLDER LIBDIR PREFIX [RUN_PATH]`. The prefix is what the files for pkg-config say, in
# their form. A program finds the shared library at run time by the run path, where the system doesn't know its folder. There is no
# libcitrus.so, so -lcitrus is the archive in whatever folder it stands, and the shared library is asked for by its name.
lay_out() {
    local lib=$1/$2
    mkdir -p "$lib/pkgconfig" "$lib/cmake/Citrus" "$1/include" && install -m 644 "$here"/include/* "$1/include/" &&
        install -m 644 "$room/libcitrus.a" "$room/libcitrus.so.$version" "$lib/" && ln -sf "libcitrus.so.$version" "$lib/$soname" &&
        write_pc "$lib/pkgconfig/citrus.pc" "$3" "$2" 'as one archive' "-L\${libdir} -lcitrus" &&
        write_pc "$lib/pkgconfig/citrus-shared.pc" "$3" "$2" 'as a shared library' "-L\${libdir}${4:+ -Wl,-rpath,$4} -l:$soname" &&
        write_cmake "$lib/cmake/Citrus" "$2"
}
