#!/usr/bin/env bash
# Packs a release: `package.sh --help` says more. Both packages are the same bytes for the same archive and commit.
set -eu
here=$(cd "$(dirname "$0")" && pwd)
top=$(dirname "$here")
say() { printf 'package.sh: %s\n' "$*" >&2; }

help() {
    cat <<'END'
usage: package.sh [--into FOLDER] [ARCHIVE]

Makes of the proved library, into ffi/out where no folder is named:
  citrus-VERSION-x86_64-linux.tar.gz    headers, archive, shared library, files for pkg-config and CMake, the Rust crate, the pages
  libcitrus-dev_VERSION-1_amd64.deb     the same as a Debian package, where dpkg-deb is here

The library is that of crates/citrus_c, which is proved first where the gate hasn't; with ARCHIVE it is a libcitrus_c.a that stands elsewhere.
ffi/VERSION names the version. ffi/tests/package.sh tests both packages.

Statuses: 0 done; 1 not done, as it says; 2 these words are wrong.
END
}

usage() {
    help | head -n 1 >&2
    exit 2
}

into=$here/out
case ${1:-} in
    --help | -h) help && exit ;;
    --into)
        if [ $# -lt 2 ] || [ -z "$2" ]; then usage; fi
        into=$2
        shift 2
        ;;
esac
case $#:${1:-} in 0: | 1:[!-]*) ;; *) usage ;; esac
# shellcheck source=ffi/package/parts.sh
. "$here/package/parts.sh"
python3 "$top/build/version.py" --check || exit 1
find_toolchain || exit 1
if [ $# = 1 ]; then archive=$1; else build_archive || exit 1; fi
[ -f "$archive" ] || { say "there is no archive $archive"; exit 1; }
archive=$(readlink -f "$archive")
mkdir -p "$into"
into=$(cd "$into" && pwd)
room=$(mktemp -d)
trap 'rm -rf "$room"' EXIT
make_libraries "$archive" || { say "the libraries could not be made of $archive"; exit 1; }

# All files are as old as the commit.
SOURCE_DATE_EPOCH=${SOURCE_DATE_EPOCH:-$(git -C "$top" log -1 --format=%ct 2>/dev/null || date +%s)}
export SOURCE_DATE_EPOCH
commit=$(git -C "$top" rev-parse --short=12 HEAD 2>/dev/null) || commit='no commit'
[ -z "$(git -C "$top" status --porcelain --untracked-files=no 2>/dev/null)" ] || commit="$commit, and changes"
# The latest glibc of which the shared library asks for a symbol.
glibc=$(objdump -T "$room/libcitrus.so.$version" | grep -o 'GLIBC_[0-9.]*' | sort -uV | tail -n 1)
glibc=${glibc#GLIBC_}

fill() {
    sed "s|@VERSION@|$version|g; s|@MAJOR@|${version%%.*}|g; s|@SERIES@|${version%.*}|g; s|@GLIBC@|$glibc|g; s|@COMMIT@|$commit|g; s|@TOOLCHAIN@|$("$rt" version)|g;
        s|@DATE@|$(date -u -R -d "@$SOURCE_DATE_EPOCH")|g; s|@MAINTAINER@|$maintainer|g" "$1"
}

# Who answers for the package: what Debian's tools ask, or who made the commit.
maintainer="${DEBFULLNAME:-$(git -C "$top" log -1 --format=%an 2>/dev/null || id -un)} <${DEBEMAIL:-$(git -C "$top" log -1 --format=%ae 2>/dev/null)}>"

# The sources that a user may want: `sources FOLDER`.
sources() {
    mkdir -p "$1"
    (cd "$here" && tar -c --exclude=target --exclude=Cargo.lock c cpp citrus_map server VERSION) | tar -x -C "$1"
}

pages() {
    mkdir -p "$1/docs"
    install -m 644 "$top/README.md" "$top/CHANGES.md" "$1/"
    (cd "$top/docs" && tar -c -- *.md pictures) | tar -x -C "$1/docs"
}

# All that may be written is written by its owner alone.
settle() {
    chmod -R u=rwX,go=rX "$1"
    find "$1" -exec touch -h -d "@$SOURCE_DATE_EPOCH" {} +
}

pack_tar() {
    local name=citrus-$version-x86_64-linux
    local root=$room/$name
    # shellcheck disable=SC2016
    lay_out "$root" lib '${pcfiledir}/../..' "\${libdir}"
    sources "$root/ffi"
    ln -s ../include "$root/ffi/include"
    pages "$root"
    fill "$here/package/INSTALL.md" >"$root/INSTALL.md"
    settle "$root"
    tar -C "$room" --sort=name --owner=0 --group=0 --numeric-owner -c "$name" | gzip -9n >"$into/$name.tar.gz"
    say "$into/$name.tar.gz"
}

pack_deb() {
    local root=$room/deb doc=usr/share/doc/libcitrus-dev file
    lay_out "$root/usr" lib/x86_64-linux-gnu /usr
    sources "$room/sources"
    mkdir -p "$root/$doc/examples" "$root/usr/share/citrus" "$root/DEBIAN"
    mv "$room/sources"/{c,cpp} "$root/$doc/examples/"
    mv "$room/sources"/{citrus_map,server} "$root/usr/share/citrus/"
    pages "$root/$doc"
    fill "$here/package/debian/copyright" >"$root/$doc/copyright"
    fill "$here/package/debian/changelog" | gzip -9n >"$root/$doc/changelog.Debian.gz"
    gzip -9n <"$root/$doc/CHANGES.md" >"$root/$doc/changelog.gz" && rm "$root/$doc/CHANGES.md"
    settle "$root"
    fill "$here/package/debian/control" | sed "s|@SIZE@|$(du -sk --apparent-size "$root/usr" | cut -f1)|" >"$root/DEBIAN/control"
    echo "libcitrus ${version%%.*} libcitrus-dev (>= $version)" >"$root/DEBIAN/shlibs"
    echo 'activate-noawait ldconfig' >"$root/DEBIAN/triggers"
    (cd "$root" && find usr -type f -print0 | sort -z | xargs -0 md5sum) >"$root/DEBIAN/md5sums"
    settle "$root/DEBIAN"
    file=$into/libcitrus-dev_$version-1_amd64.deb
    dpkg-deb --root-owner-group -Zxz --build "$root" "$file" >/dev/null
    say "$file"
}

pack_tar
if hash dpkg-deb 2>/dev/null; then pack_deb; else say "left out: the Debian package, since dpkg-deb isn't here"; fi
